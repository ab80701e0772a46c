#!/usr/bin/python3
"""Makes the captures with faults of this folder: two links of a made-up sender, and what two networks did to their frames.

    examples/captures/make_faults.py FOLDER

  - faults.pcapng: both networks by one tap, whose interfaces are A and B. What is done to which frame stands in FAULTS.
  - ahead_a.pcap, ahead_b.pcap: the first frames, without a fault, by two taps; B's clock is 3 milliseconds ahead.

They are played with examples/two_links.toml. The times are made up, too, so the files are the same each time.
"""
import struct
import sys
from pathlib import Path

sys.dont_write_bytecode = True
sys.path.insert(0, str(Path(__file__).resolve().parents[2] / "tools"))

from workbench import captures  # noqa: E402

BEGIN, GAP, MICROSECOND = 1_700_000_000_000_000_000, 4000, 1000
DELAYS = {"A": 100, "B": 300}  # in microseconds
AHEAD = 3000
# By the frame's place, from 0: on which networks it is lost, and what else is done to it.
FAULTS = {
    5: ("B", "a copy is lost"),
    8: ("", "B's copy comes 1.5 milliseconds later than SkewMax allows"),
    **{place: ("A", "network A is out") for place in range(12, 18)},
    22: ("AB", "the second fragment of a message is lost on both networks"),
    25: ("", "A's frame is damaged: its header checksum is wrong"),
}
LATE, DAMAGED = (8, "B", 1500), (25, "A")
RESET, PAUSE, FRAGMENTS, FRAMES = 19, 40_000, (21, 22), 28


def checksum(header):
    total = sum(struct.unpack("!10H", header))
    total = (total & 0xFFFF) + (total >> 16)
    return 0xFFFF ^ (total & 0xFFFF) + (total >> 16)


def packet(link, identification, body, flags=0):
    """An IPv4 packet to a link's address, without options."""
    head = [0x4500, 20 + len(body), identification, flags, 0x0111, 0, 0x0A01, 0x0101, 0xE0E0, link]
    head[5] = checksum(struct.pack("!10H", *head))
    return struct.pack("!10H", *head) + body


def datagram(port, payload):
    return struct.pack("!4H", 5001, port, 8 + len(payload), 0) + payload


def framed(link, net, inner, number):
    """A frame of a network, of at least 60 octets; the last one is its sequence number."""
    source = bytes.fromhex("0200000001") + bytes([1 + "AB".index(net) << 5])
    frame = b"\x03\0\0\0" + struct.pack("!H", link) + source + b"\x08\0" + inner
    return frame + bytes(max(0, 59 - len(frame))) + bytes([number])


def packets():
    """Link, packet and sequence number of each frame of the sender, and when it sent it, in microseconds."""
    time, number, split = 0, 0, datagram(5002, bytes(range(100)))
    for place in range(FRAMES):
        if place == RESET:
            time, number = time + PAUSE, 0
        if place == FRAGMENTS[0]:
            inner = packet(17, place, split[:64], 0x2000)
        elif place == FRAGMENTS[1]:
            inner = packet(17, FRAGMENTS[0], split[64:], 8)
        else:
            inner = packet(17, place, datagram(5000, bytes([place]) * 17))
        yield place, 17, inner, number, time
        yield place, 18, packet(18, place, datagram(5000, bytes([place]) * 5)), place, time + GAP // 2
        time, number = time + GAP, 1 if number == 255 else number + 1


def arrivals(faults):
    """Time in nanoseconds of 1970, network and octets of each frame that comes, in the order of the times."""
    found = []
    for place, link, inner, number, sent in packets():
        for net, delay in DELAYS.items():
            is_17 = faults and link == 17
            if is_17 and net in FAULTS.get(place, ("",))[0] or faults and link == 18 and net == "A" and 12 <= place < 18:
                continue
            if is_17 and (place, net) == LATE[:2]:
                delay += LATE[2]
            frame = bytearray(framed(link, net, inner, number))
            if is_17 and (place, net) == DAMAGED:
                frame[24] ^= 0xFF
            found.append((BEGIN + (sent + delay) * MICROSECOND, net, bytes(frame)))
    return sorted(found)


def pcapng(frames):
    written = [captures.written_section("make_faults.py"), *(captures.written_interface(name, name) for name in DELAYS)]
    for time, net, octets in frames:
        head = struct.pack("<5I", "AB".index(net), time >> 32, time & 0xFFFFFFFF, len(octets), len(octets))
        written.append(captures.written_block(captures.PACKET, head + octets + bytes(-len(octets) % 4)))
    return b"".join(written)


def pcap(frames):
    written = [struct.pack("<IHHiIII", 0xA1B23C4D, 2, 4, 0, 0, captures.MOST_OCTETS, captures.ETHERNET)]
    for time, _, octets in frames:
        written.append(struct.pack("<4I", *divmod(time, captures.SECOND), len(octets), len(octets)) + octets)
    return b"".join(written)


def main():
    folder = Path(sys.argv[1])
    (folder / "faults.pcapng").write_bytes(pcapng(arrivals(True)))
    good = arrivals(False)[:40]
    (folder / "ahead_a.pcap").write_bytes(pcap([one for one in good if one[1] == "A"]))
    ahead = [(time + AHEAD * MICROSECOND, net, octets) for time, net, octets in good if net == "B"]
    (folder / "ahead_b.pcap").write_bytes(pcap(ahead))


if __name__ == "__main__":
    main()
