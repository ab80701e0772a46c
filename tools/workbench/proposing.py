"""A configuration by what captures show: its links and ports, and each value with what was seen of it as a comment.

What doesn't show is a guess, and says so: a person completes it. What is kept grows with links, ports and the frames of a
second, and not with the capture.
"""
import argparse
import collections
import contextlib
import io
import ipaddress
import struct
import tempfile

from verdict_words import NETWORKS
from workbench import files, settings, showing, stream
from workbench.delays import Delays
from workbench.faults import plain
from workbench.health import JITTER
from workbench.settings import AHEAD

HEADERS = struct.Struct("!12xHBxHHHxB2x4s4sxxHH")  # of a frame, up to the UDP header's length
IPV4, VERSION_AND_LENGTH, UDP, MORE, OFFSET = 0x0800, 0x45, 17, 0x2000, 0x1FFF
KEPT = 1024  # frames whose copies are waited for, and datagrams in fragments, of a link
LONGEST_SAMPLE, MOST_DEPTH, MOST_WINDOW, MOST_SKEW_MAX, MOST_LIMIT = 1471, 64, 4, 1_000_000, 10_000_000
TAKEN = 100_000  # microseconds in which the messages of a queue are counted
FEW, EVEN = 0.05, 2  # a share of gaps; a sampling port's gaps by its usual one, but for few
BAGS = [1000 << power for power in range(8)]
GUESSED = {"skew_max_us": 1000, "reassembly_us": 50_000, "depth": 4, "refresh_us": 100_000}


def propose(given):
    with stream.opened(given) as packets:
        seen = Seen()
        for one in packets:
            if not one.left_out:
                seen.see(one)
    if seen.links and "-" not in given.files:
        seen.strange = strange_links(given, seen.lines())
    with files.writing(given.to) as out:
        out.writelines(f"{line}\n".encode() for line in seen.lines())
    return packets.status


def strange_links(given, lines):
    """The links whose frames aren't one sender's, by their numbers, with why: the captures are played with a proposal. What
    was told of them before isn't told again."""
    with tempfile.NamedTemporaryFile(suffix=".toml") as file, contextlib.redirect_stderr(io.StringIO()):
        file.writelines(f"{line}\n".encode() for line in lines)
        file.flush()
        links = showing.Shown(argparse.Namespace(**{**vars(given), "config": file.name})).health.links
    return {vl: plain(why)[:settings.LONGEST_TEXT] for vl, link in links.items() if (why := link.why_not_one_sender())}


class Recent(collections.OrderedDict):
    """What was seen last, by its key."""

    def put(self, key, value):
        self[key] = value
        if len(self) > KEPT:
            self.popitem(last=False)


class Port:
    """The messages to an address and UDP port, each once. Times are in microseconds."""

    def __init__(self):
        self.messages = self.longest = self.split = self.most = 0
        self.gaps, self.latest = Delays(), collections.deque()

    def see(self, time, length, is_split):
        if self.latest:
            self.gaps.add(max(0, time - self.latest[-1]))
        self.messages, self.longest, self.split = self.messages + 1, max(length, self.longest), self.split + is_split
        self.latest.append(time)
        while self.latest[0] < time - TAKEN:
            self.latest.popleft()
        self.most = max(self.most, len(self.latest))

    def keys(self):
        """Each key of its kind, its value, and the evidence."""
        gaps = self.gaps.look()
        is_long, usual, longest = self.longest > LONGEST_SAMPLE, gaps.median(), gaps.below(1 - FEW)
        is_even = self.messages > 2 and longest <= EVEN * usual
        told = f"most within {longest} us, usually {usual}" if self.messages > 1 else "one message"
        if self.split or is_long or not is_even:
            why = f"{self.split} in fragments" if self.split else "longer than a sample" if is_long else f"unevenly, {told}"
            yield "kind", '"queuing"', why
            depth = min(self.most, MOST_DEPTH)
            yield "depth", depth, f"at most {self.most} came within {TAKEN} us: see how often it is taken"
        else:
            yield "kind", '"sampling"', f"evenly, {told}; a queue would look the same"
            yield "refresh_us", rounded(2 * longest, 10**9), "twice that"
        yield "max", self.longest, f"the longest of {self.messages}"


class Link:
    """A link's frames on both networks."""

    def __init__(self):
        self.frames, self.ports, self.gaps = [0, 0], {}, Delays()
        self.latest, self.lost, self.out = [None, None], 0, 0
        self.copies, self.delays = Recent(), Delays()
        self.parts, self.longest, self.joined = Recent(), 0, 0

    def see(self, one, found):
        net, time, octets = one.net, one.time // 1000, one.octets
        self.frames[net] += 1
        if self.latest[net]:
            self.see_next(*self.latest[net], time, octets[-1])
        self.latest[net] = time, octets[-1]
        key = hash(octets[12:])
        other = self.copies.get(key)
        if other and other[0] != net:
            self.delays.add(abs(time - other[1]))
            del self.copies[key]
        else:
            self.copies.put(key, (net, time))
            self.see_first(time, *found)

    def see_next(self, since, before, time, number):
        """The next frame of a network."""
        self.gaps.add(max(0, time - since))
        lost = (number - before) % 255 - 1 if number else 0
        if lost < MOST_WINDOW:
            self.lost = max(self.lost, lost)
        elif lost < AHEAD:
            self.out += 1

    def see_first(self, time, length, identification, place, source, address, udp, octets):
        """The first copy of a frame, which has these parts of its headers."""
        if not place & (MORE | OFFSET):
            self.port(address, udp).see(time, octets - 8, False)
            return
        key, offset = (source, address, identification), 8 * (place & OFFSET)
        if not offset:
            self.parts.put(key, (time, udp))
        elif not place & MORE and key in self.parts:
            began, udp = self.parts.pop(key)
            self.longest, self.joined = max(self.longest, time - began), self.joined + 1
            self.port(address, udp).see(time, offset + length - 28, True)

    def port(self, address, udp):
        return self.ports.setdefault((address, udp), Port())

    def keys(self):
        """Each key, its value, and the evidence."""
        delays, gap = self.delays.look(), self.gaps.look().below(FEW)
        greatest, number = delays.greatest, delays.number
        if bag := max((bag for bag in BAGS if gap and bag - JITTER <= gap), default=None):
            yield "bag_us", bag, f"but for few, no frame came less than {gap} us after another of its network"
            if bag - self.gaps.least > JITTER:
                yield "jitter_us", bag - self.gaps.least, f"the least was {self.gaps.least} us: see why"
        if number:
            skew_max = rounded(2 * greatest, MOST_SKEW_MAX)
            if gap and skew_max + greatest >= AHEAD * gap > 2 * greatest:
                skew_max = AHEAD * gap - greatest - 1
            yield "skew_max_us", skew_max, f"{number} pairs of copies came up to {greatest} us apart"
        else:
            yield "skew_max_us", GUESSED["skew_max_us"], "a guess: no pair of copies came"
        if not number and all(self.frames):
            yield "redundancy", "false", "both networks brought frames, and no pair of copies"
        if self.joined:
            yield "reassembly_us", rounded(2 * self.longest, MOST_LIMIT), (
                f"{self.joined} datagrams came in fragments, each within {self.longest} us")
        else:
            yield "reassembly_us", GUESSED["reassembly_us"], "a guess: no datagram came in fragments"
        if self.lost > 1:
            yield "window", self.lost + 1, f"a network lost {self.lost} in a row"


class Seen:
    """What was seen of all links. A frame that isn't one of the networks is counted by why."""

    def __init__(self):
        self.links, self.constants, self.others, self.strange = {}, collections.Counter(), collections.Counter(), {}

    def see(self, one):
        octets = one.octets
        if not (found := parts_of(octets)):
            self.others["no IPv4 packet of UDP with a good header"] += 1
            return
        self.constants[octets[:4]] += 1
        self.links.setdefault((octets[:4], int.from_bytes(octets[4:6], "big")), Link()).see(one, found)

    def lines(self):
        constant = max(self.constants, key=self.constants.get, default=b"\x03\0\0\0")
        yield "# By what captures show. A comment says what a value stands on; what is a guess, and each name, wants a person."
        yield from (f"# left out: {count} frames, {why}" for why, count in self.others.items())
        for other, count in self.constants.items():
            if other != constant:
                yield f"# left out: {count} frames with the constant field {other.hex()}"
        yield line("constant", f'"{constant.hex()}"', f"{self.constants[constant]} frames")
        links = sorted((vl, link) for (of, vl), link in self.links.items() if of == constant)
        for vl, link in links[:settings.MOST_LINKS]:
            yield from of_link(vl, link, self.strange.get(vl))
        yield from (f"\n# left out: link {vl}, as there may be {settings.MOST_LINKS}" for vl, _ in links[settings.MOST_LINKS:])


def of_link(vl, link, strange):
    yield "\n[[link]]"
    yield line("vl", vl, ", ".join(f"{count} frames of {letter}" for letter, count in zip(NETWORKS, link.frames)))
    if strange:
        yield line("not_one_sender", f'"{strange}"', "see why: the receiver drops of it what doesn't follow; check tells this no more")
    yield from (line(*found) for found in link.keys())
    if link.out:
        yield f"# {link.out} times a network lost {MOST_WINDOW} or more in a row"
    ports = sorted(link.ports.items())
    for place, ((address, udp), port) in enumerate(ports[:settings.MOST_PORTS]):
        yield "\n[[link.port]]"
        yield f'name = "vl{vl}-{place + 1}"'
        yield f'address = "{ipaddress.IPv4Address(address)}"\nudp = {udp}'
        yield from (line(*found) for found in port.keys())
    if len(ports) > settings.MOST_PORTS:
        yield f"# left out: {len(ports) - settings.MOST_PORTS} ports more, as there may be {settings.MOST_PORTS}"


def line(key, value, evidence):
    return f"{key} = {value}  # {evidence}"


def parts_of(octets):
    """Total length, identification, fragment's place, addresses and, of a first fragment, port and length of the UDP
    datagram; None if the frame has none that a receiver would take."""
    if len(octets) < 60:
        return None
    kind, version, length, identification, place, protocol, source, address, udp, size = HEADERS.unpack_from(octets)
    is_right = (kind == IPV4 and version == VERSION_AND_LENGTH and protocol == UDP and 28 <= length <= len(octets) - 15
                and sum(struct.unpack_from("!10H", octets, 14)) % 0xFFFF == 0)
    return (length, identification, place, source, address, udp, size) if is_right else None


def rounded(value, most):
    """The next of 1, 2, 5, 10, 20 and so on."""
    step = 1
    while True:
        for factor in (1, 2, 5):
            if factor * step >= value or factor * step >= most:
                return min(factor * step, most)
        step *= 10
