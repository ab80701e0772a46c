"""Captures of links with one fault each, and what health has to say of each: its words with their counts, and no other.

A link's frames are a list of copies, which changes make faulty; then they become octets. Times are in microseconds.
"""
import gzip
import random
import struct
import zlib
from typing import NamedTuple

from parts.worked import with_sum
from workbench import captures

A, B, BOTH = (0,), (1,), (0, 1)
GAP, SKEW, COUNT, DELAY, PART, PARTS = 4000, 3000, 600, 300, 480, 3
FIRST_VL, BEGIN, END = 300, 1_750_000_000_000_000, 4_000_000  # microseconds of 1970, and since then


class Copy(NamedTuple):
    """A frame that comes on a network: the index and the number of the sender's frame, and its fragment of a datagram."""
    time: int
    net: int
    index: int
    number: int
    ident: int
    offset: int = 0
    more: bool = False
    parts: int = 1
    size: int = 28  # octets of the datagram, or of the fragment
    seed: int = 0  # of the payload, if it isn't that of the identification
    sender: int = 1
    udp: int = 5000
    bad: int = 0  # by what the header's checksum is off
    summed: int = 0  # the UDP checksum is 0 (none), right (1), or off by what is above 1
    cut: int = 0  # octets that are missing at the end


def copies(count=COUNT, gap=GAP, delay=DELAY, parts=1, first=3, ident=7, **more):
    fragment = {"parts": parts, "size": PART} if parts > 1 else {}
    return [Copy(index * gap + delay * net, net, index, (index + first - 1) % 255 + 1, ident + index // parts,
                 PART * (index % parts), index % parts < parts - 1, **fragment, **more) for index in range(count) for net in BOTH]


def datagram_of(vl, copy):
    """The datagram of which a frame has a part: its octets are those of its identification, or of its seed."""
    size = PART * copy.parts if copy.parts > 1 else copy.size
    payload = random.Random(f"{copy.seed or copy.ident} {copy.sender}").randbytes(size - 8)
    head = struct.pack(">HHH", 9, copy.udp, size)
    words = addresses(vl, copy) + struct.pack(">HH", 17, size) + head + payload
    total = sum(struct.unpack(f">{len(words) // 2}H", words))
    while total >> 16:
        total = (total & 0xFFFF) + (total >> 16)
    return head + struct.pack(">H", (0xFFFF - total + copy.summed - 1) % 0x10000 if copy.summed else 0) + payload


def addresses(vl, copy):
    return bytes((10, 0, copy.sender, 1, 224, 224, vl >> 8, vl & 255))


def octets_of(vl, copy):
    part = datagram_of(vl, copy)[copy.offset:copy.offset + copy.size]
    head = struct.pack(">BBHHHBBH", 0x45, 0, 20 + len(part), copy.ident & 0xFFFF, copy.offset // 8 | copy.more << 13, 1, 17, 0)
    body = struct.pack(">IH", 0x03000000, vl) + bytes((2, 0, 0, 0, copy.sender, 0x20 << copy.net, 8, 0))
    whole = body + with_sum(head + addresses(vl, copy), copy.bad) + part
    return (whole.ljust(59, b"\0") + bytes([copy.number]))[:-copy.cut or None]


# ---- changes


def of(nets, first, last, change):
    """Frames of some indices on some networks are what a change makes of each: copies, or none."""
    def changed(found):
        for one in found:
            if one.net in nets and first <= one.index <= (first if last is None else last):
                yield from change(one)
            else:
                yield one
    return lambda found: list(changed(found))


def lose(nets, first, last=None):
    return of(nets, first, last, lambda one: [])


def alter(nets, first, last=None, later=0, ahead=0, **fields):
    """Its number is so many ahead, or another one."""
    return of(nets, first, last, lambda one: [one._replace(
        **{"time": one.time + later, "number": (one.number + ahead - 1) % 255 + 1 if ahead else one.number, **fields})])


def again(nets, first, last=None, later=100, **fields):
    return of(nets, first, last, lambda one: [one, one._replace(time=one.time + later, **fields)])


def restart(first, pause, number=0):
    """The sender begins anew with this number, so long after its frame before."""
    return of(BOTH, first, COUNT, lambda one: [one._replace(
        time=one.time + pause - GAP, number=number + one.index - first if one.index - first + number <= 255 else
        (number + one.index - first - 1) % 255 + 1)])


def also(**more):
    """Another series of frames, half a gap later."""
    return lambda found: found + [one._replace(time=one.time + GAP // 2) for one in copies(**more)]


def swap(nets, first):
    """A frame and the next one come in the other order."""
    return lambda found: alter(nets, first, later=GAP)(alter(nets, first + 1, later=-GAP)(found))


def reverse(first):
    """The fragments of the datagram of a frame come the last one first, and so do all after it."""
    return of(BOTH, first, COUNT, lambda one: [one._replace(
        offset=PART * (PARTS - 1) - one.offset, more=one.offset > 0)])


# ---- the table: name, the frames, the changes, the words, the law, and lines of the configuration of link and port

ROWS = [
    ("nothing", {}, [], {}, "all"),
    ("nothing, in fragments", {"parts": PARTS}, [], {}, "all"),
    ("one lost on A", {}, [lose(A, 100)], {"lost-a": 1}, "all"),
    ("the window lost on B", {}, [lose(B, 200, 201)], {"lost-b": 2, "out-of-sequence": 1}, "no loss"),
    ("A out, and back", {}, [lose(A, 150, 449)], {"lost-a": 300, "out-of-sequence": 1}, "no loss"),
    ("A out twice", {}, [lose(A, 50, 99), lose(A, 300, 309)], {"lost-a": 60, "out-of-sequence": 2}, "no loss"),
    ("B dies", {}, [lose(B, 250, COUNT)], {"lost-b": 349, "silent": 1}, "no loss"),
    ("B never came", {}, [lose(B, 0, COUNT)], {"silent": 1}, "no loss"),
    ("none came", {}, [lose(BOTH, 0, COUNT)], {"silent": 2}, "-"),
    ("one lost on both", {}, [lose(BOTH, 120)], {"lost-both": 1}, "lost"),
    ("the window lost on both", {}, [lose(BOTH, 120, 121)], {"lost-both": 2, "dropped": 1, "out-of-sequence": 2}, "lost"),
    ("both out", {}, [lose(BOTH, 120, 419)], {"lost-both": 300, "dropped": 1, "out-of-sequence": 2}, "lost"),
    ("both out, and gaps that are longer than a copy is waited for", {"gap": 128_000, "count": 100}, [lose(BOTH, 30, 49)],
     {"lost-both": 20, "dropped": 1, "out-of-sequence": 2}, "lost", "bag_us = 128000"),
    ("the first after an outage lost on the other", {}, [lose(A, 150, 249), lose(B, 250)],
     {"lost-a": 100, "lost-b": 1, "dropped": 1, "out-of-sequence": 1}, "lost"),
    ("B late beyond SkewMax", {}, [alter(B, 300, 304, later=3200)], {"delay": 5, "twice": 5}, "twice"),
    ("B slower by two gaps, within SkewMax", {"delay": 9000}, [], {}, "all", "skew_max_us = 20000"),
    ("a first copy overtaken", {}, [lose(A, 200), alter(B, 200, later=5000)],
     {"lost-a": 1, "dropped": 1, "overtaken": 1, "out-of-sequence": 1}, "lost", "skew_max_us = 20000"),
    ("two swapped on B", {}, [swap(B, 200)], {"overtaken": 1, "out-of-sequence": 1}, "all", "skew_max_us = 20000"),
    ("one repeated on A", {}, [again(A, 77)], {"repeated": 1, "out-of-sequence": 1}, "all"),
    ("the BAG broken by 38 %", {"gap": 2480}, [], {"early": 599}, "all"),
    ("within a jitter of its own", {"gap": 2480}, [], {}, "all", "jitter_us = 1600"),
    ("a restart after a pause", {}, [restart(340, 90_000)], {"reset": 1}, "all"),
    ("a restart within SkewMax", {"first": 1}, [restart(48, 9000)], {"reset": 1, "dropped": 3}, "lost", "skew_max_us = 20000"),
    ("a restart without 0", {}, [restart(330, 700_000, 20)], {"reset": 1, "dropped": 1, "out-of-sequence": 2}, "lost"),
    ("a restart without 0, further ahead than time allows", {"gap": 128_000, "count": 100}, [restart(40, 900_000, 100)],
     {"numbers": 1, "out-of-sequence": 2}, "not known", "bag_us = 128000"),
    ("two senders by their addresses", {}, [also(sender=9, first=90, ident=20_000)],
     {"senders": 2, "out-of-sequence": 2398, "dropped": 1199}, "lost"),
    ("two series of numbers of one address", {}, [also(first=90, ident=20_000)],
     {"senders": 2, "numbers": 1, "out-of-sequence": 2398}, "not known"),
    ("two series of one address, of which one is slower", {}, [also(first=90, ident=20_000, gap=7 * GAP, count=80)],
     {"senders": 2, "numbers": 1, "out-of-sequence": 318}, "not known"),
    ("another sender goes on", {}, [restart(310, 90_000), alter(BOTH, 310, COUNT, sender=9)], {"senders": 2}, "no loss"),
    ("numbers that don't count", {}, [alter(BOTH, 0, COUNT, number=7)], {"numbers": 1, "out-of-sequence": 1198}, "not known"),
    ("a number damaged on A", {}, [alter(A, 210, ahead=90)], {"lost-a": 1, "astray": 1, "out-of-sequence": 2}, "all"),
    ("a checksum damaged on A", {}, [alter(A, 400, 402, bad=1)], {"bad": 3}, "lost"),
    ("a checksum damaged on B", {}, [alter(B, 400, 402, bad=1)], {"hidden": 3}, "all"),
    ("a sender's own bad checksum", {}, [alter(BOTH, 400, 402, bad=1)], {"bad": 3}, "lost"),
    ("cut on the wire of B", {}, [alter(B, 222, 224, cut=9, size=200)], {"bad": 3, "lost-b": 3, "out-of-sequence": 4}, "no loss"),
    ("for no port", {}, [alter(BOTH, 10, 19, udp=5999)], {"bad": 10}, "lost"),
    ("too long for its port", {}, [alter(BOTH, 10, 19, size=108)], {"bad": 10}, "lost"),
    ("a wrong UDP checksum", {"summed": 1}, [alter(A, 100, summed=9)], {"hidden": 1}, "all"),
    ("a fragment lost on both", {"parts": PARTS}, [lose(BOTH, 301)], {"lost-both": 1, "unfinished": 1}, "lost"),
    ("fragments that come reversed", {"parts": PARTS}, [reverse(300)], {"fragments": 100}, "no loss"),
    ("a fragment that overlaps with other octets", {"parts": PARTS}, [alter(BOTH, 301, offset=PART - 80, seed=5, size=PART + 80)],
     {"fragments": 1}, "no loss"),
    ("an identification that comes again, mixed", {"parts": PARTS, "summed": 1},
     [alter(BOTH, 303, 305, ident=7 + 100, seed=5), lose(BOTH, 302), lose(BOTH, 304)],
     {"lost-both": 2, "identification": 1, "fragments": 2}, "lost"),
    ("an identification that comes again before the last fragment", {"parts": PARTS, "summed": 1},
     [alter(BOTH, 303, 305, ident=7 + 100, seed=5), lose(BOTH, 302)],
     {"lost-both": 1, "identification": 1, "fragments": 1}, "lost"),
    ("fragments that are too slow", {"parts": PARTS, "gap": 20_000, "count": 30}, [], {"unfinished": 10}, "lost",
     "reassembly_us = 30000"),
    ("a queue that is full", {}, [], {"overflow": 568}, "lost", "", "take_us = 1000000000"),
    ("near: B begins far ahead while SkewMax runs", {}, [lose(A, 101, COUNT), lose(B, 0, 299)],
     {"lost-a": 172, "lost-both": 199, "dropped": 50, "silent": 1}, "lost", "skew_max_us = 1000000"),
]


def config(rows):
    """A link for each row, at its place in the table."""
    for place, (_, made, _, _, _, *more) in rows:
        link, port = [*more, "", ""][:2]
        vl = FIRST_VL + place
        settings = {"skew_max_us": SKEW, "reassembly_us": 40_000, "bag_us": GAP}
        settings |= dict(line.split(" = ") for line in filter(None, [link]))
        lines = [f"{key} = {value}" for key, value in settings.items()]
        yield "\n".join(["[[link]]", f"vl = {vl}", *lines, "[[link.port]]", f'name = "q{vl}"', 'kind = "queuing"',
                         f'address = "224.224.{vl >> 8}.{vl & 255}"', "udp = 5000", "depth = 32",
                         f"max = {1440 if 'parts' in made else 60}", port, ""])


def frames_of(place, row):
    """Times in microseconds, networks and octets. All rows end at about one time."""
    _, made, changes, *_ = row
    found = copies(**made)
    for change in changes:
        found = change(found)
    shift = END - max((one.time for one in found), default=0) - 17 * place
    return [(one.time + shift, one.net, octets_of(FIRST_VL + place, one)) for one in found]


def capture(frames, lost=0):
    """A pcapng of the interfaces A and B, of which B lost so many packets."""
    return b"".join([captures.written_section("checks"), *(captures.written_interface(net, net) for net in "AB"), *(
        captures.written_packet(net, 1000 * (BEGIN + time), octets, None, "") for time, net, octets in frames),
        captures.written_block(captures.STATISTICS, struct.pack("<III", 1, 0, 0), (captures.LOST[0], struct.pack("<Q", lost)))])


# ---- files: name, what becomes of the frames of a link without a fault, the options, the words of the link and of all, the
# status, and what the standard error says

def whole(change=lambda frames: frames, **more):
    return lambda frames: [capture(change(frames), **more)]


def clock(shift=0, rate=0):
    """That of B is so many microseconds ahead, and so many parts per million faster."""
    return whole(lambda frames: sorted((time + (shift + rate * (time - frames[0][0]) // 10**6) * net, net, octets)
                                       for time, net, octets in frames))


def one(place, change):
    return whole(lambda frames: [change(each) if number == place else each for number, each in enumerate(frames)])


def of_net(net):
    return lambda frames: [each for each in frames if each[1] == net]


def exchanged(frames):
    return [(time, 1 - net, octets) for time, net, octets in frames]


def joined(frames):
    return [(time, 0, octets) for time, _, octets in frames]


def with_sums(frames):
    return [(time, net, octets + zlib.crc32(octets).to_bytes(4, "little")) for time, net, octets in frames]


def torn(frames):
    return [capture(frames)[:-60]]


SLOW = {"gap": 100_000}
FILES = [
    ("two files", {}, lambda frames: [capture(of_net(net)(frames)) for net in BOTH], [], {}, {}, 0, ""),
    ("B appended to A", {}, whole(lambda frames: of_net(0)(frames) + of_net(1)(frames)), ["--reorder", "100"], {},
     {"left-out": 499}, 1, "far behind the other network: packet 601"),
    ("the second half first", {}, whole(lambda frames: frames[600:] + frames[:600]), ["--reorder", "100"], {},
     {"left-out": 600}, 1, "too late for its place: packet 601"),
    ("cut within a packet", {}, torn, [], {}, {"left-out": 1}, 5, "cut by the end of the capture: packet 1200"),
    ("cut, and compressed", {}, lambda frames: [gzip.compress(capture(frames))[:-2000]], [], {}, {"left-out": 1}, 5,
     "the compressed file is cut or damaged"),
    ("damaged in a block's length", {}, lambda frames: [capture(frames)[:-60] + b"\xff" * 60], [], {}, {"left-out": 1}, 5,
     "a block that doesn't end with its length; 1199 packets before were played"),
    ("no octet", {}, lambda frames: [b""], [], {"silent": 2}, {}, 1, "it has no packet"),
    ("an empty file of B", {}, lambda frames: [capture(of_net(0)(frames)), b""], [], {"silent": 1}, {}, 1, "it has no packet"),
    ("B's clock ahead", SLOW, clock(shift=2000), [], {}, {}, 0, "--shift-b -2300"),
    ("B's clock an hour ahead", SLOW, clock(shift=3_600_000_000), [], {"numbers": 1, "silent": 1}, {}, 1,
     "--shift-b -3600000300"),
    ("B's clock ahead and faster, and set right", SLOW, clock(shift=50_000, rate=40), ["--shift-b", "-50000,-40"], {}, {}, 0, ""),
    ("B's clock faster", SLOW, clock(rate=40), [], {}, {"drift": 1}, 1, "by 40.0 parts per million: --shift-b 0,-40.0"),
    ("B's clock faster, beyond SkewMax", SLOW, clock(rate=100), [], {}, {"drift": 1}, 1, "by 99.99 parts per million"),
    ("B's clock faster, and set right", SLOW, clock(rate=40), ["--shift-b", "0,-40"], {}, {}, 0, ""),
    ("check sequences that are taken for frames", {}, whole(with_sums), [], {"numbers": 1, "out-of-sequence": 1186},
     {}, 1, ""),
    ("check sequences", {}, whole(with_sums), ["--fcs", "yes"], {}, {}, 0, "check sequences cut off"),
    ("networks that are exchanged", {}, whole(exchanged), [], {}, {}, 0, "interface 1; --networks source follows them"),
    ("exchanged, and told by their addresses", {}, whole(exchanged), ["--networks", "source"], {}, {}, 0, ""),
    ("both networks on one interface", {}, whole(joined), [], {"repeated": 600, "out-of-sequence": 600, "silent": 1}, {}, 1,
     "600 say A and 600 say B; --networks source tells them apart"),
    ("on one interface, and told by their addresses", {}, whole(joined), ["--networks", "source"], {}, {}, 0, ""),
    ("packets that the tap lost", {}, whole(lost=3), [], {}, {"tap": 3}, 1, "3 packets were lost while it was captured, on interface 1"),
    ("a tag", {}, one(70, lambda each: (*each[:2], each[2][:12] + b"\x81\0\0\5" + each[2][12:])), [], {"lost-a": 1},
     {"left-out": 1}, 1, "VLAN tag: packet 71"),
    ("a strange link", {}, one(70, lambda each: (*each[:2], each[2][:5] + b"\x99" + each[2][6:])), [], {"lost-a": 1}, {"filtered": 1}, 1, ""),
]
