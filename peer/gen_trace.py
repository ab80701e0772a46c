#!/usr/bin/env python3
"""Makes large traces without a fault, for players that are timed beside one another.

    gen_trace.py --frames N --profile PROFILE --out-dir FOLDER [--links L] [--ports P] [--seed S] [--octets OCTETS]

writes FOLDER/config.toml, FOLDER/a.trace and FOLDER/b.trace (docs/FORMATS.md). N is the number of frames in both traces
together: N/2 are sent, each on A and, a little later, on B. There are L links (1 to 64, default 16) with P ports each
(4 to 32, default 8), the first half of them sampling ports. The messages of whole datagrams have 17 to 1,471 octets, most
of them few, or all of them OCTETS. The same words always give the same bytes.

Profiles: `sampling` sends whole datagrams to sampling ports; `queuing` whole datagrams to queuing ports (which fill up,
as the player never takes); `fragments` datagrams of 1,500 to 8,192 octets in pieces, some in another order; `mixed` all
of these and a small share of each kind of refusal: lost frames, frames out of sequence, resets, bad headers, bad
fragments, bad UDP, no port, too long, joined samples, and filtered frames.
"""
import argparse
import os
import random
import struct

PROFILES = ["sampling", "queuing", "fragments", "mixed"]
FIRST_VL = 100
SAMPLING_UDP = 5000
QUEUING_UDP = 6000
NO_UDP = 7000
CHUNK = 1472  # octets of a fragment, a multiple of 8
IPV4 = b"\x08\x00"
CONSTANT = b"\x03\0\0\0"


def port_text(link, place, kind, udp, limit, last):
    """A port of a link. The last one of its kind takes shorter messages."""
    most = f"max = {limit}\n" if last else ""
    span = "refresh_us = 100000\n" if kind == "sampling" else "depth = 64\n"
    return (f'[[link.port]]\nname = "{kind[0]}{link}-{place}"\nkind = "{kind}"\n'
            f'address = "224.224.{link}.1"\nudp = {udp + place}\n{most}{span}')


def config_text(links, sampling, queuing):
    texts = []
    for link in range(links):
        texts.append(f"[[link]]\nvl = {FIRST_VL + link}\nskew_max_us = 5000\nreassembly_us = 200000\n")
        texts += [port_text(link, at, "sampling", SAMPLING_UDP, 400, at == sampling - 1) for at in range(sampling)]
        texts += [port_text(link, at, "queuing", QUEUING_UDP, 4000, at == queuing - 1) for at in range(queuing)]
    return "\n".join(texts)


def checksum(head):
    total = sum(struct.unpack(">10H", head))
    while total >> 16:
        total = (total & 0xFFFF) + (total >> 16)
    return 0xFFFF - total


def packet(link, ident, word, octets, length=None, protocol=17, version=0x45):
    """An IPv4 packet to the address of a link's ports. It may say that it carries another number of octets."""
    said = 20 + (len(octets) if length is None else length)
    head = struct.pack(">BBHHHBBH4s4s", version, 0, said, ident, word, 1, protocol, 0, b"\x0a\x01\x01\x01",
                       bytes([224, 224, link, 1]))
    return head[:10] + struct.pack(">H", checksum(head)) + head[12:] + octets


def datagram(port, payload, length=None):
    return struct.pack(">HHHH", 5001, port, 8 + len(payload) if length is None else length, 0) + payload


def frame(link, octets, ethertype=IPV4, constant=CONSTANT, vl=None):
    """All of a frame but its sequence number; short ones are padded to 60 octets."""
    body = constant + struct.pack(">H", FIRST_VL + link if vl is None else vl)
    body += b"\x02\x00\x00\x00\x01\x20" + ethertype + octets
    return body + bytes(max(0, 59 - len(body)))


class Sender:
    """What the senders of all links send. Each profile is a method, which gives a link and a frame."""

    def __init__(self, seed, links, sampling_ports, queuing_ports, octets=None):
        self.random = random.Random(seed)
        self.octets = octets  # of each message, if all have as many
        self.links, self.sampling_ports, self.queuing_ports = links, sampling_ports, queuing_ports
        self.numbers = [0] * links
        self.idents = [0] * links
        self.waiting = []  # frames of fragmented datagrams that wait for their turn

    def next_link(self):
        return self.random.randrange(self.links)

    def next_number(self, link):
        number = self.numbers[link]
        self.numbers[link] = 1 if number == 255 else number + 1
        return number

    def next_ident(self, link):
        self.idents[link] = (self.idents[link] + 1) & 0xFFFF
        return self.idents[link]

    def payload(self):
        if self.octets is not None:
            return self.random.randbytes(self.octets)
        draw = self.random.random()
        if draw < 0.7:
            return self.random.randbytes(self.random.randint(17, 64))
        if draw < 0.95:
            return self.random.randbytes(self.random.randint(65, 400))
        return self.random.randbytes(self.random.randint(401, 1471))

    def sampling_udp(self):
        return SAMPLING_UDP + self.random.randrange(self.sampling_ports - 1)

    def queuing_udp(self):
        return QUEUING_UDP + self.random.randrange(self.queuing_ports - 1)

    def whole(self, link, port, payload):
        return frame(link, packet(link, self.next_ident(link), 0, datagram(port, payload)))

    def pieces(self, link, port, size):
        octets = datagram(port, self.random.randbytes(size))
        ident = self.next_ident(link)
        found = []
        for begin in range(0, len(octets), CHUNK):
            part = octets[begin:begin + CHUNK]
            more = 0x2000 if begin + CHUNK < len(octets) else 0
            found.append(frame(link, packet(link, ident, more | begin // 8, part)))
        if self.random.random() < 0.2:
            self.random.shuffle(found)
        return found

    def sampling(self):
        link = self.next_link()
        return link, self.whole(link, self.sampling_udp(), self.payload())

    def queuing(self):
        link = self.next_link()
        return link, self.whole(link, self.queuing_udp(), self.payload())

    def fragments(self):
        # Two datagrams stand at a time, so that those of several links overlap.
        while len(self.waiting) < 2:
            link = self.next_link()
            size = self.random.randint(1500, 8192)
            self.waiting.append((link, self.pieces(link, self.queuing_udp(), size)))
        at = self.random.randrange(len(self.waiting))
        link, left = self.waiting[at]
        first = left.pop(0)
        if not left:
            del self.waiting[at]
        return link, first

    def bad_datagram(self, link, kind, payload):
        """A datagram for no port, one with a wrong length, or one that is too long for its port."""
        if kind == 0:
            return self.whole(link, NO_UDP, payload)
        if kind == 1:
            octets = datagram(SAMPLING_UDP, payload, self.random.choice([0, 7, len(payload) + 9]))
            return frame(link, packet(link, self.next_ident(link), 0, octets))
        return self.whole(link, SAMPLING_UDP + self.sampling_ports - 1, self.random.randbytes(500))

    def bad_packet(self, link, kind, payload):
        """A packet with a wrong checksum, protocol, version, header length or total length, or a bad fragment."""
        octets = datagram(SAMPLING_UDP, payload)
        if kind == 3:
            body = bytearray(self.whole(link, SAMPLING_UDP, payload))
            body[24] ^= 0x55
            return bytes(body)
        if kind == 4:
            return frame(link, packet(link, 1, 0, octets, protocol=6))
        if kind == 5:
            return frame(link, packet(link, 1, 0, octets, version=self.random.choice([0x55, 0x46])))
        if kind == 6:
            return frame(link, packet(link, 1, 0, octets, len(octets) + 100))
        return frame(link, packet(link, 2, 0x2000, payload[:13]))

    def filtered(self, link, kind):
        """A frame that isn't IPv4, has a foreign constant field, is of no link, or is too short."""
        octets = packet(link, 3, 0, bytes(30))
        if kind == 8:
            return frame(link, octets, ethertype=b"\x08\x06")
        if kind == 9:
            return frame(link, octets, constant=b"\x03\0\0\1")
        if kind == 10:
            return frame(link, octets, vl=9999)
        return frame(link, octets)[:40]

    def refused(self):
        link = self.next_link()
        payload = self.random.randbytes(self.random.randint(17, 200))
        kind = self.random.randrange(12)
        if kind < 3:
            return link, self.bad_datagram(link, kind, payload)
        if kind < 8:
            return link, self.bad_packet(link, kind, payload)
        return link, self.filtered(link, kind)

    def mixed(self):
        draw = self.random.random()
        if draw < 0.45:
            return self.sampling()
        if draw < 0.75:
            return self.queuing()
        if draw < 0.76:
            link = self.next_link()
            if len(self.waiting) < 4:
                # A joined sample, or a message that is too long for its port.
                port = self.random.choice([SAMPLING_UDP, QUEUING_UDP + self.queuing_ports - 1])
                self.waiting.append((link, self.pieces(link, port, self.random.randint(4100, 6000))))
        return self.fragments() if draw < 0.97 else self.refused()

    def odd_number(self, link, number, draw):
        """The sequence number in place of this one, now and then: a reset follows, one is left out, or it jumps."""
        if draw < 0.002:
            self.numbers[link] = 0
        elif draw < 0.004:
            return self.next_number(link)
        elif draw < 0.006:
            return (number + 100) & 255
        return number


def write_traces(sender, profile, frames, seed, a, b):
    """Sends until both traces have their frames. In the profile `mixed` some are lost on a network."""
    is_mixed = profile == "mixed"
    chance = random.Random(f"skew {seed}")
    time_a, time_b = 1000, 0
    left_a, left_b = (frames + 1) // 2, frames // 2
    while left_a or left_b:
        link, body = getattr(sender, profile)()
        number = sender.next_number(link)
        if is_mixed:
            number = sender.odd_number(link, number, chance.random())
        line = body.hex() + f"{number:02x}\n"
        time_a += chance.randint(5, 95)
        lost = is_mixed and chance.random()
        if left_a and not (lost and lost < 0.005):
            a.write(f"{time_a} {line}")
            left_a -= 1
        if left_b and not (lost and lost > 0.995):
            time_b = max(time_b, time_a + chance.randint(0, 300))
            b.write(f"{time_b} {line}")
            left_b -= 1


def within(least, most):
    """A word that is a number in this range."""
    def number(word):
        if not least <= int(word) <= most:
            raise ValueError
        return int(word)
    number.__name__ = f"number from {least} to {most}"
    return number


def main():
    words = argparse.ArgumentParser(description=__doc__, formatter_class=argparse.RawDescriptionHelpFormatter)
    words.add_argument("--frames", type=int, required=True)
    words.add_argument("--profile", choices=PROFILES, required=True)
    words.add_argument("--out-dir", required=True)
    words.add_argument("--links", type=within(1, 64), default=16)
    words.add_argument("--ports", type=within(4, 32), default=8)
    words.add_argument("--seed", type=int, default=1)
    words.add_argument("--octets", type=within(17, 1471))
    given = words.parse_args()
    ports = given.ports // 2, given.ports - given.ports // 2
    os.makedirs(given.out_dir, exist_ok=True)
    with open(os.path.join(given.out_dir, "config.toml"), "w") as file:
        file.write(config_text(given.links, *ports))
    sender = Sender(f"{given.profile} {given.seed}", given.links, *ports, given.octets)
    with open(os.path.join(given.out_dir, "a.trace"), "w") as a, open(os.path.join(given.out_dir, "b.trace"), "w") as b:
        write_traces(sender, given.profile, given.frames, given.seed, a, b)


if __name__ == "__main__":
    main()
