"""Sends numbered frames of ten links on two interfaces, with faults at times that are told; prints what it did of each link.

    live_sender.py A B SECONDS [RATE]
    live_sender.py A B probe        a frame on each that isn't IP

With a RATE it sends pairs of copies without faults, so many frames a second on both together.
"""
import heapq
import json
import random
import socket
import struct
import sys
import time

MS = 1_000_000
# Link, BAG in milliseconds, UDP port, octets, and whether the port samples.
LINKS = [(101, 8, 5101, 64, True), (102, 8, 5102, 64, True), (110, 4, 5110, 96, True), (111, 32, 5111, 128, True),
         (130, 16, 6130, 48, False), (140, 16, 5140, 80, True), (141, 16, 5141, 80, True), (150, 32, 5150, 40, True),
         (160, 2, 6160, 300, False), (170, 128, 5170, 30, True)]
COUNTED = ("sent_a", "sent_b", "lost_a", "both", "late", "bad", "babble", "reset")
CUT, LOST, LATE, RESET, BABBLE, BAD, STOP = (5, 8), (16, 16.1), (10, 11), 12, (13, 14), (15, 15.5), 18  # seconds


def config():
    """The configuration of the links."""
    text = ""
    for vl, bag, port, _, samples in LINKS:
        kind = f'kind = "sampling"\nrefresh_us = {3000 * bag}' if samples else 'kind = "queuing"\ndepth = 16'
        text += (f"[[link]]\nvl = {vl}\nskew_max_us = 2000\nreassembly_us = 50000\nbag_us = {1000 * bag}\n[[link.port]]\n"
                 f'name = "p{vl}"\naddress = "224.224.0.{vl}"\nudp = {port}\n{kind}\n\n')
    return text


def frame(vl, net, number, port, size, count, is_bad=False):
    body = struct.pack("!4H", port, port, 8 + size, 0) + struct.pack("!IQ", count, 0).ljust(size, b"\0")[:size]
    words = [0x4500, 20 + len(body), count & 0xFFFF, 0, 0x0111, 0, 0x0A01, vl, 0xE0E0, vl]
    total = sum(words)
    words[5] = 0xFFFF ^ (total & 0xFFFF) + (total >> 16) ^ (0x5A5A if is_bad else 0)
    source = bytes((2, 0, 0, 0, vl & 255, 0x20 << net))
    octets = b"\x03\0\0\0" + struct.pack("!H", vl) + source + b"\x08\0" + struct.pack("!10H", *words) + body
    return octets.ljust(59, b"\0") + bytes([number])


def sockets(names):
    found = []
    for name in names:
        found.append(socket.socket(socket.AF_PACKET, socket.SOCK_RAW))
        found[-1].bind((name, 0))
    return found


class Sender:
    """The links with their faults. `told` counts what was done, by link."""

    def __init__(self, outs, seconds):
        self.outs, self.end, self.random = outs, seconds * 1000 * MS, random.Random(5)
        self.told = {vl: dict.fromkeys(COUNTED, 0) for vl, *_ in LINKS}
        self.numbers, self.counts = dict.fromkeys(self.told, 0), dict.fromkeys(self.told, 0)
        self.events, self.order, self.worst = [], 0, 0
        for link in LINKS:
            self.add(self.random.randrange(link[1] * MS), self.slot, link)

    def add(self, time, call, *given):
        self.order += 1
        heapq.heappush(self.events, (time, self.order, call, given))

    def run(self):
        begin = time.monotonic_ns() + 200 * MS
        while self.events and self.events[0][0] <= self.end:
            moment, _, call, given = heapq.heappop(self.events)
            while (rest := begin + moment - time.monotonic_ns()) > 0:
                time.sleep(rest / 1e9)
            self.worst = max(self.worst, -rest)
            call(moment, *given)

    def send(self, _, net, vl, octets, what):
        self.outs[net].send(octets)
        self.told[vl][what] += 1

    def slot(self, moment, link):
        """A frame of a link, with what is done to it."""
        vl, bag, port, size, _ = link
        told, seconds = self.told[vl], moment / 1e9
        if vl == 140 and RESET <= seconds < RESET + bag / 1000:
            self.numbers[vl] = 0
            told["reset"] += 1
        number, count = self.numbers[vl], self.counts[vl]
        is_lost = vl == 101 and LOST[0] <= seconds < LOST[1]
        told["both"] += is_lost
        for net in (0, 1) if not is_lost else ():
            if net == 0 and CUT[0] <= seconds < CUT[1]:
                told["lost_a"] += 1
                continue
            self.copy(moment, net, link, number, count)
        self.numbers[vl], self.counts[vl] = number % 255 + 1, count + 1
        if vl != 170 or seconds < STOP:
            self.add(moment + bag * MS, self.slot, link)

    def copy(self, moment, net, link, number, count):
        vl, _, port, size, _ = link
        told, seconds = self.told[vl], moment / 1e9
        is_bad = vl == 141 and net == 0 and BAD[0] <= seconds < BAD[1]
        told["bad"] += is_bad
        at = moment + (net and self.random.randrange(100_000, 400_000))
        if vl == 110 and net == 1 and LATE[0] <= seconds < LATE[1]:
            at, told["late"] = at + 3 * MS, told["late"] + 1
        self.add(at, self.send, net, vl, frame(vl, net, number, port, size, count, is_bad), "sent_a" if net == 0 else "sent_b")
        for more in range(1, 10) if vl == 160 and net == 0 and BABBLE[0] <= seconds < BABBLE[1] else ():
            again = frame(vl, 0, (number + more - 1) % 255 + 1, port, size, count)
            self.add(at + more * 180_000, self.send, 0, vl, again, "babble")


def blast(outs, seconds, rate):
    """Pairs of copies at a rate, as evenly as this process can. Returns how many frames were sent."""
    made = {(vl, net, number): frame(vl, net, number, port, size, 0) for vl, _, port, size, _ in LINKS for net in (0, 1)
            for number in range(256)}
    numbers, begin, pairs = dict.fromkeys((vl for vl, *_ in LINKS), 0), time.monotonic(), 0
    while (now := time.monotonic() - begin) < seconds:
        while pairs < now * rate / 2:
            vl = LINKS[pairs % len(LINKS)][0]
            number = numbers[vl]
            for net in (0, 1):
                outs[net].send(made[vl, net, number])
            numbers[vl], pairs = number % 255 + 1, pairs + 1
        time.sleep(0.0005)
    return 2 * pairs


def main(a, b, seconds, rate=None):
    outs = sockets((a, b))
    if seconds == "probe":
        for out in outs:
            out.send(bytes(12) + b"\x88\xb5" + bytes(46))
        return
    if rate:
        print(json.dumps({"sent": blast(outs, float(seconds), float(rate))}))
        return
    sender = Sender(outs, float(seconds))
    sender.run()
    print(json.dumps({"links": sender.told, "worst_us": sender.worst // 1000}))


if __name__ == "__main__":
    main(*sys.argv[1:])
