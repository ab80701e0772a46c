"""Random senders and networks: the frames of a link, the copies that two networks bring, and the messages that its
ports are to get.

Where all conditions of docs/DELIVERY.md hold the networks are of a class of `HOLDING`; each of `DROPPED` drops one, and
holds the others. A bound is often drawn as the last number that is allowed. The time that a frame waits for its link isn't here, since the program
takes frames in the order of their times. Times are in microseconds, and a frame's index counts from 0.
"""
import collections
import itertools
import struct
from typing import NamedTuple

from parts.worked import with_sum

VL, PORTS, FIRST_UDP, DEEPEST = 17, 32, 5000, 64
LONGEST_SKEW, LONGEST_LIMIT = 1_000_000, 10_000_000
NETS, SOURCE = "AB", (10, 1, 1, 1)


class Frame(NamedTuple):
    """A frame as its sender sends it: a datagram, or a fragment of one."""
    message: int
    ident: int
    offset: int
    more: bool
    octets: bytes


class Copy(NamedTuple):
    time: int
    net: str
    index: int


class Networks:
    """all conditions hold"""
    # How many frames are sent, and how many datagrams are in parts at a time; None is drawn.
    count, streams = None, None
    # Whether some frames are lost on both networks, and by how much the identification of a datagram is greater than
    # that of the one before.
    lost_on_both, ident_step = None, 1
    # How many messages a queue holds. Nobody takes one; so many are never full.
    depth = DEEPEST
    # The share of frames before which the sender restarts, the least window, and the network that brings all copies as
    # late as it may, if there is one.
    restart, least_window, slower = 0.01, 1, None

    def __init__(self, r):
        self.r, self.messages = r, []
        self.draw_sender()
        self.gap, self.least = r.choice([500, 1000, 2000, 4000]), r.randrange(3000)
        self.window = r.randint(self.least_window, 4)
        self.spread = self.drawn_spread()
        self.skew = self.drawn_skew()
        self.pause = self.skew + self.spread + 1
        self.frames = list(itertools.islice(self.in_turn(), self.count))
        self.send()
        self.copies = sorted(self.brought(self.came()), key=lambda copy: (copy.time, copy.net))
        self.firsts = {copy.index: copy.time for copy in reversed(self.copies)}
        self.limit = self.drawn_limit()

    # ---- the numbers of the link

    def draw_sender(self):
        """If a frame may be lost on both networks, datagrams come one after another, each with another identification."""
        self.count = self.count or self.r.choice([40, 300, 700])
        if self.streams is None:
            self.lost_on_both = self.r.random() < 0.5
            self.streams = 1 if self.lost_on_both else self.r.randint(1, 4)
            self.ident_step = self.r.choice([0, 1]) if self.streams == 1 and not self.lost_on_both else 1

    def drawn_spread(self):
        """D: what the latencies differ by."""
        return self.r.choice([0, self.gap - 1, self.r.randrange(self.gap)])

    def drawn_skew(self):
        most = self.longest_skew()
        return self.r.choice([self.spread, most, self.r.randint(self.spread, most)])

    def longest_skew(self):
        return min(LONGEST_SKEW, 128 * self.gap - self.spread - 1)

    def drawn_limit(self):
        return self.r.choice([self.longest_datagram(), LONGEST_LIMIT])

    def longest_datagram(self):
        """From a datagram's first fragment to its last, of all that came."""
        return max((self.firsts[parts[-1]] - self.firsts[parts[0]] for parts in self.whole().values()), default=0)

    # ---- what is sent

    def in_turn(self):
        """Frames without end: of each stream one datagram after another, and of the streams one in turn or any."""
        streams, is_in_turn = [self.stream() for _ in range(self.streams)], self.r.random() < 0.5
        while True:
            for place in range(self.streams):
                yield next(streams[place if is_in_turn else self.r.randrange(self.streams)])

    def stream(self):
        while True:
            message, ident = len(self.messages), self.ident(len(self.messages))
            body = struct.pack(">H", message) + self.r.randbytes(self.size())
            self.messages.append(body)
            datagram = struct.pack(">HHHH", 5001, self.udp(message), 8 + len(body), 0) + body
            step = self.step(len(datagram))
            for offset in range(0, len(datagram), step):
                yield Frame(message, ident, offset, offset + step < len(datagram), datagram[offset:offset + step])

    def ident(self, message):
        return message * self.ident_step & 0xFFFF

    def udp(self, message):
        return FIRST_UDP + message % PORTS

    def size(self):
        """Octets of a message past its first two."""
        return self.r.choice([0, 4, 20, 60, 200, 1000])

    def step(self, length):
        """Octets of a fragment: a multiple of 8, or all."""
        return self.r.choice([1480, 1480, 512, 64, 16 if length < 300 else 128])

    def send(self):
        """The time and the sequence number of each frame, and the frames that are the first after a restart."""
        time, number = self.r.randrange(10_000), self.r.choice([0, 255, self.r.randrange(256)])
        self.sent, self.numbers, self.restarts = [time], [number], set()
        for index in range(1, self.count):
            if self.restarts_at(index):
                self.restarts.add(index)
                time, number = time + max(self.gap, self.pause), 0
            else:
                time, number = time + self.gap, number % 255 + 1
            time += self.later()
            self.sent.append(time)
            self.numbers.append(number)

    def restarts_at(self, index):
        return self.r.random() < self.restart

    def later(self):
        """How much later than it may a frame is sent."""
        return self.r.choice([0, 0, 0, self.r.randrange(3 * self.gap)])

    # ---- what comes

    def came(self):
        """The indices that come, by network: fewer than the window are lost in a row, and no first after a restart."""
        came = {net: self.kept_by(self.r.choice([0, 0.05, 0.35])) for net in NETS}
        if self.lost_on_both and self.r.random() < 0.2:
            end, begin = self.r.randrange(self.count), self.r.randrange(self.count)
            came = {"A": {index for index in came["A"] if index <= end},
                    "B": {index for index in came["B"] if index >= begin}}
        if not self.lost_on_both:
            for index in sorted(set(range(self.count)) - came["A"] - came["B"]):
                came[self.r.choice(NETS)].add(index)
        return came

    def kept_by(self, share):
        kept, lost = set(), 0
        for index in range(self.count):
            may_be_lost = lost < self.window - 1 and index not in self.restarts
            if may_be_lost and self.r.random() < share:
                lost += 1
            else:
                kept.add(index)
                lost = 0
        return kept

    def brought(self, came):
        for net in NETS:
            steady = self.r.choice([None, 0, self.spread])
            if self.slower:
                steady = self.spread if net == self.slower else 0
            for index in sorted(came[net]):
                for _ in range(2 if self.r.random() < 0.03 else 1):
                    delay = self.r.randint(0, self.spread) if steady is None else steady
                    yield Copy(self.sent[index] + self.least + delay, net, index)

    def on(self, net):
        """The indices of the frames of which a copy came on a network."""
        return {copy.index for copy in self.copies if copy.net == net}

    # ---- what the ports are to get

    def whole(self):
        """The frames of each message that was sent to its end and of each frame of which a copy came."""
        parts = collections.defaultdict(list)
        for index, frame in enumerate(self.frames):
            parts[frame.message].append(index)
        return {message: indices for message, indices in parts.items()
                if not self.frames[indices[-1]].more and all(index in self.firsts for index in indices)}

    def due(self):
        """The messages that each port is to get, as times and octets, in order."""
        due = collections.defaultdict(list)
        for message, indices in sorted(self.whole().items(), key=lambda item: item[1][-1]):
            due[self.udp(message)].append((self.firsts[indices[-1]], self.messages[message]))
        return due

    # ---- the files

    def config(self):
        lines = ["[[link]]", f"vl = {VL}", f"skew_max_us = {self.skew}", f"reassembly_us = {self.limit}",
                 f"window = {self.window}"]
        for udp in range(FIRST_UDP, FIRST_UDP + PORTS):
            lines += ["[[link.port]]", f'name = "{udp}"', 'kind = "queuing"', 'address = "224.224.0.17"', f"udp = {udp}",
                      f"depth = {self.depth}"]
        return "\n".join(lines) + "\n"

    def trace(self, net):
        return "".join(f"{copy.time} {self.octets(copy).hex()}\n" for copy in self.copies if copy.net == net)

    def source(self, index):
        """The source address of a frame's packet."""
        return SOURCE

    def octets(self, copy):
        frame = self.frames[copy.index]
        word = (0x2000 if frame.more else 0) | frame.offset // 8
        head = struct.pack(">BBHHHBBH4s4s", 0x45, 0, 20 + len(frame.octets), frame.ident, word, 1, 17, 0,
                           bytes(self.source(copy.index)), bytes([224, 224, 0, 17]))
        interface = 0x20 if copy.net == "A" else 0x40
        body = struct.pack(">IH", 0x03000000, VL) + bytes([2, 0, 0, 0, 1, interface, 8, 0]) + with_sum(head) + frame.octets
        return body + bytes(max(0, 59 - len(body))) + bytes([self.numbers[copy.index]])


class CutOff(Networks):
    """all hold: B begins 127 frames after A ends"""
    count, streams, restart, frames_later = 300, 1, 0, 127

    def drawn_spread(self):
        return self.r.randrange(self.gap // 2)

    def drawn_skew(self):
        return self.longest_skew()

    def later(self):
        return 0

    def came(self):
        """A is cut off, and B begins so many frames later."""
        end = self.r.choice([0, self.r.randrange(100)])
        return {"A": set(range(end + 1)), "B": set(range(end + self.frames_later, self.count))}


class KeepingOrder(Networks):
    """all hold: each network keeps the order, D is a gap or more"""

    def drawn_spread(self):
        return self.r.randint(self.gap, 2 * self.gap - 2)

    def brought(self, came):
        """A frame waits on one network for those before it; the other's greatest latency is less than a gap above the least
        of that one, and its least less than a gap below the greatest."""
        uneven = self.r.choice(NETS)
        for net in NETS:
            least, greatest = (0, self.spread) if net == uneven else (self.spread - self.gap + 1, self.gap - 1)
            latest = 0
            for index in sorted(came[net]):
                latest = max(latest, self.sent[index] + self.least + self.r.randint(least, greatest))
                yield Copy(latest, net, index)


HOLDING = [Networks, KeepingOrder, Networks, CutOff]


# ---- one condition dropped


class Overtaking(Networks):
    """latencies differ by a gap or more"""
    least_window, slower = 2, "A"

    def drawn_spread(self):
        return self.r.randint(self.gap, 4 * self.gap)


class ShortSkew(Networks):
    """SkewMax is below D"""
    slower = "A"

    def drawn_spread(self):
        return self.r.randrange(1, self.gap)

    def drawn_skew(self):
        return self.r.choice([self.spread - 1, self.r.randrange(self.spread)])


class LongSkew(CutOff):
    """128 gaps within SkewMax"""
    frames_later = 128

    def drawn_skew(self):
        return self.r.randint(128 * self.gap + self.spread, min(LONGEST_SKEW, 250 * self.gap))


class SoonRestarting(Networks):
    """a restart within SkewMax"""
    restart = 0.02

    def drawn_skew(self):
        return self.r.randint(self.spread + 4 * self.gap, self.longest_skew())

    def send(self):
        self.pause = self.gap
        super().send()


class LostRestart(Networks):
    """a restart's first frame lost on one network"""
    least_window, restart = 2, 0.02

    def came(self):
        """A loses the first frame after a restart, and B the second."""
        came = super().came()
        for index in sorted(self.restarts):
            came["A"] = came["A"] - {index} | {index - 1, index + 1}
            came["B"] = came["B"] - {index + 1} | {index, index + 2}
        return {net: came[net] & set(range(self.count)) for net in NETS}


class LostInARow(Networks):
    """the window or more lost in a row"""

    def came(self):
        came, index = super().came(), 5
        while index < self.count:
            lost = set(range(index, index + self.r.randint(self.window, self.window + 2)))
            if not lost & self.restarts:
                came = {net: came[net] - lost for net in NETS}
            index += self.r.randint(20, 100)
        return came


class OneIdentification(Networks):
    """one identification for all, and losses"""
    streams, lost_on_both, ident_step, least_window = 1, True, 0, 2

    def size(self):
        return 14

    def step(self, length):
        return 8

    def drawn_limit(self):
        return LONGEST_LIMIT


class InParts(Networks):
    """Datagrams of two to eight fragments, of which each stream sends one in its turn; some frames are lost on both
    networks, none next to another."""
    count, restart, loss = 700, 0.002, 0

    def in_turn(self):
        streams = [self.stream() for _ in range(self.streams)]
        for turn in itertools.count():
            yield next(streams[turn % self.streams])

    def size(self):
        return self.r.randint(10, 500)

    def step(self, length):
        return -(-length // (8 * self.r.randint(2, 8))) * 8

    def drawn_limit(self):
        return LONGEST_LIMIT

    def came(self):
        lost = set()
        for index in range(1, self.count):
            if index - 1 not in lost and index not in self.restarts and self.r.random() < self.loss:
                lost.add(index)
        return {net: set(range(self.count)) - lost for net in NETS}


class FiveInParts(InParts):
    """five datagrams in parts at a time"""
    streams = 5


class FourInPartsWithLosses(InParts):
    """four in parts at a time, and losses on both"""
    streams, least_window, loss = 4, 2, 0.02


class LateFragments(Networks):
    """fragments after the reassembly limit"""
    streams, lost_on_both = 2, False

    def size(self):
        return self.r.choice([20, 60, 200])

    def step(self, length):
        return 16

    def drawn_limit(self):
        """Too short for the slowest datagram."""
        return self.longest_datagram() - 1


DROPPED = [Overtaking, ShortSkew, LongSkew, SoonRestarting, LostRestart, LostInARow, OneIdentification, FiveInParts,
           FourInPartsWithLosses, LateFragments]


# ---- for the numbers of docs/DELIVERY.md


class FarApart(Overtaking):
    """D of 1 to 4 gaps, 5% lost on each network"""
    count, streams, lost_on_both, restart, least_window = 700, 1, False, 0, 4

    def kept_by(self, share):
        return super().kept_by(0.05)


class CloseTogether(FarApart):
    """D of a gap less 1, 5% lost on each network"""

    def drawn_spread(self):
        return self.gap - 1


def in_parts(streams, loss):
    """Networks on which so many datagrams are in parts at a time, and this share of the frames is lost on both."""
    name = f"{streams} in parts at a time, {loss:.0%} lost on both"
    return type("InParts", (InParts,), {"__doc__": name, "streams": streams, "loss": loss, "least_window": 2})


QUOTED = [CloseTogether, FarApart, *(in_parts(streams, loss) for loss in (0, 0.02) for streams in range(1, 6))]
