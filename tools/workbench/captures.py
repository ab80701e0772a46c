"""Captures, packet by packet: pcap and pcapng are read, pcapng is written, with a comment beside each packet.

Why no library: scapy 2.5 and dpkt 1.9 lose the interface of a pcapng packet or its original length, and take the end of
a torn file, or a block of an absurd length, for the end of the capture. What is needed here is small and fixed
(draft-ietf-opsawg-pcap and -pcapng), and the tests compare it with tshark, packet by packet.
"""
import struct
from collections import Counter, namedtuple

from workbench.faults import Broken

ETHERNET = 1
MOST_OCTETS, MOST_BLOCK = 262_144, 1 << 24  # of a packet and of a block, as Wireshark takes them
LEAST_BLOCK, LEAST_SECTION, USUAL_HEAD, USUAL_BLOCK, MOST_INTERFACES = 12, 28, 28, 32, 1 << 16
SECOND = 10**9

# Each magic number of pcap: its byte order, and the nanoseconds of the smaller part of its times.
PCAP = {b"\xd4\xc3\xb2\xa1": ("<", 1000), b"\xa1\xb2\xc3\xd4": (">", 1000),
        b"\x4d\x3c\xb2\xa1": ("<", 1), b"\xa1\xb2\x3c\x4d": (">", 1)}
SECTION, INTERFACE, OBSOLETE_PACKET, SIMPLE_PACKET, STATISTICS, PACKET = 0x0A0D0D0A, 1, 2, 3, 5, 6
SECTION_MAGIC = b"\x0a\x0d\x0d\x0a"
MAGICS = {SECTION_MAGIC, *PCAP}
ORDERS = {b"\x4d\x3c\x2b\x1a": "<", b"\x1a\x2b\x3c\x4d": ">"}
HEADS = {PACKET: "5I", OBSOLETE_PACKET: "HxxIIII", SIMPLE_PACKET: "I"}  # of a block with a packet, up to its octets
END, COMMENT, NAME, DESCRIPTION, RESOLUTION, FCS_LENGTH, OFFSET = 0, 1, 2, 3, 9, 13, 14
# Of an interface's statistics: how many packets were lost there, and in the system above it.
LOST = (5, 7)
# Where packets came from: whether they end with a frame check sequence, None if that isn't said; and of times in
# pcapng how many units a second has, an offset in nanoseconds, and a unit in them, 0 if it is no whole number of them.
Interface = namedtuple("Interface", "link_type fcs snapshot units offset unit", defaults=(0, SECOND, 0, 0))
# A packet: its number counts from 1, as Wireshark's does; its time is in nanoseconds of 1970, None if there is none;
# its length is what it had before the snapshot length cut it; and it is about an Interface.
Packet = namedtuple("Packet", "number interface time octets length about")


def packets(file, magic, lost=None):
    """The packets of a capture whose first four octets were read, each a tuple of the fields of Packet, since names
    take time. Ends with `EOFError` where the file is cut short, and with `Broken` where it isn't of its form. A block
    without a packet gives None. In `lost` packets are counted, by interface, that the capture says were lost."""
    return pcap(file, *PCAP[magic]) if magic in PCAP else pcapng(file, magic, Counter() if lost is None else lost)


def exactly(file, count):
    octets = file.read(count)
    if len(octets) < count:
        raise EOFError
    return octets


def pcap(file, order, unit):
    snapshot, network = struct.unpack(order + "12xII", exactly(file, 20))
    about = Interface(network & 0xFFFF, network >> 28 == 2 if network & 1 << 26 else None, snapshot)
    head, number = struct.Struct(order + "4I"), 0
    while first := file.read(16):
        number += 1
        if len(first) < 16:
            raise EOFError
        seconds, part, kept, length = head.unpack(first)
        if kept > MOST_OCTETS:
            raise Broken(f"packet {number} has an absurd length, {kept} octets")
        yield number, 0, seconds * SECOND + part * unit, exactly(file, kept), length, about


def pcapng(file, magic, lost):
    """Each section of a file numbers its interfaces anew, and packets are numbered on, as tshark does."""
    interfaces, number, lost_before = [], 0, lost.copy()
    for order, kind, body in blocks(file, magic):
        if kind in HEADS:
            number += 1
            yield (one := packet(order, kind, body, number, interfaces))
            if kind == PACKET and one[-1].unit:  # to look ahead copies all that follows
                found, octets = usual_packets(file.peek(), order, number, interfaces)
                yield from found[:-1]
                file.read(octets)  # before the last one, after which nothing may come for a while
                yield from found[-1:]
                number += len(found)
            continue
        if kind == SECTION:
            interfaces, lost_before = [], lost.copy()
        elif kind == INTERFACE:
            interfaces.append(interface(order, body, len(interfaces)))
        elif kind == STATISTICS:
            own, count = statistics(order, body)
            if own < len(interfaces):
                lost[own] = lost_before[own] + count
        yield None


def blocks(file, magic):
    """Byte order, kind and body of each block. The header of a section says the byte order of its blocks."""
    order, head = "<", magic + file.read(4)
    while len(head) == 8:
        least, rest = LEAST_BLOCK, 12
        if head.startswith(SECTION_MAGIC):
            order, least, rest = ORDERS.get(exactly(file, 4)), LEAST_SECTION, 16
            if not order:
                raise Broken("a section without its byte-order magic")
        kind, size = struct.unpack(order + "II", head)
        if size < least or size % 4 or size > MOST_BLOCK:
            raise Broken(f"a block of an absurd length, {size} octets")
        body = file.read(size - rest)
        if exactly(file, 4) != head[4:]:
            raise Broken("a block that doesn't end with its length")
        yield order, kind, body
        head = file.read(8)
    if head:
        raise EOFError


def usual_packets(octets, order, number, interfaces):
    """The packets that stand whole and without a fault at the beginning of these octets, and where they end."""
    found, begin, room, count = [], 0, len(octets), len(interfaces)
    head, end = (struct.Struct(order + fields).unpack_from for fields in ("7I", "I"))
    while begin + USUAL_BLOCK <= room:
        kind, size, own, high, low, kept, length = head(octets, begin)
        after = begin + size
        if (kind != PACKET or own >= count or not USUAL_BLOCK + kept <= size <= MOST_OCTETS or size & 3 or after > room
                or end(octets, after - 4)[0] != size or not (about := interfaces[own]).unit):
            break
        number += 1
        begin += USUAL_HEAD
        time = (high << 32 | low) * about.unit + about.offset
        found.append((number, own, time, octets[begin:begin + kept], length, about))
        begin = after
    return found, begin


def options(order, octets):
    """Code and value of each option."""
    head, place = struct.Struct(order + "HH"), 0
    while place + 4 <= len(octets):
        code, length = head.unpack_from(octets, place)
        if code == END:
            return
        if place + 4 + length > len(octets):
            raise Broken("an option that is longer than its block")
        yield code, octets[place + 4:place + 4 + length]
        place += 4 + length + -length % 4


def interface(order, body, before):
    if before == MOST_INTERFACES:
        raise Broken(f"more than {MOST_INTERFACES} interfaces")
    if len(body) < 8:
        raise Broken("an interface without its link type")
    link_type, snapshot = struct.unpack(order + "HxxI", body[:8])
    units, offset, fcs = 10**6, 0, None
    for code, value in options(order, body[8:]):
        if code == RESOLUTION and len(value) == 1:
            units = (2 if value[0] & 0x80 else 10) ** (value[0] & 0x7F)
        elif code == OFFSET and len(value) == 8:
            offset = struct.unpack(order + "q", value)[0] * SECOND
        elif code == FCS_LENGTH and len(value) == 1:
            fcs = value[0] in (4, 32)  # octets, or bits: both are written
    return Interface(link_type, fcs, snapshot, units, offset, 0 if SECOND % units else SECOND // units)


def statistics(order, body):
    """An interface, and how many packets were lost there up to here."""
    if len(body) < 12:
        raise Broken("statistics without their interface")
    counts = (struct.unpack(order + "Q", value)[0] for code, value in options(order, body[12:])
              if code in LOST and len(value) == 8)
    return struct.unpack_from(order + "I", body)[0], sum(counts)


def packet(order, kind, body, number, interfaces):
    size = struct.calcsize(order + HEADS[kind])
    if len(body) < size:
        raise Broken(f"packet {number} has no room for its lengths")
    *found, length = struct.unpack_from(order + HEADS[kind], body)
    own, high, low, kept = found or (0, 0, 0, length)
    if own >= len(interfaces):
        raise Broken(f"packet {number} is of interface {own}, which the capture hasn't")
    about = interfaces[own]
    time = (high << 32 | low) * SECOND // about.units + about.offset if found else None
    if not found:
        kept = min(length, about.snapshot or length)
    octets = body[size:size + kept]
    if kept > MOST_OCTETS or len(octets) < kept:
        raise Broken(f"packet {number} has an absurd length, {kept} octets")
    return number, own, time, octets, length, about


# ---- writing

def written_block(kind, body, *chosen):
    """A block with options: pairs of code and octets."""
    for code, value in (*chosen, (END, b"")) if chosen else ():
        body += struct.pack(f"<HH{len(value)}s{-len(value) % 4}x", code, len(value), value)
    size = struct.pack("<I", 12 + len(body))
    return struct.pack("<I", kind) + size + body + size


def written_section(program):
    return written_block(SECTION, struct.pack("<IHHq", 0x1A2B3C4D, 1, 0, -1), (4, program.encode()))


def written_interface(name, description):
    """An interface of Ethernet without frame check sequences, whose times are in nanoseconds."""
    return written_block(INTERFACE, struct.pack("<HxxI", ETHERNET, MOST_OCTETS), (NAME, name.encode()),
                         (DESCRIPTION, description.encode()), (RESOLUTION, b"\x09"), (FCS_LENGTH, b"\x00"))


def written_packet(interface, time, octets, length, comment):
    """`length` is that before the snapshot length cut it, None if nothing did."""
    kept, low = len(octets), time & 0xFFFFFFFF
    body = struct.pack(f"<5I{kept}s{-kept % 4}x", interface, time >> 32, low, kept, length or kept, octets)
    return written_block(PACKET, body, (COMMENT, comment.encode()))
