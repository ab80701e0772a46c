"""A sender on two interfaces, for examples/c/live.c: frames of one virtual link, of which each network loses, delays and repeats
some. No frame is lost on both, and none of two in a row on one: so each message is to be delivered once, and what became of
each frame follows.

    send_live.py INTERFACE_A INTERFACE_B     sends them all
"""
import socket
import struct
import sys
import time
from pathlib import Path

if __name__ == "__main__":
    sys.path.insert(0, str(Path(__file__).resolve().parents[1]))

from parts.worked import with_sum

MESSAGES = 500
GAP, DELAY = 0.004, 0.001  # seconds between two frames, and between the copies of one
CONFIG = """[[link]]
vl = 17
skew_max_us = 400000
reassembly_us = 1000000

[[link.port]]
name = "pos"
kind = "sampling"
address = "224.224.0.17"
udp = 5000
refresh_us = 1000000

[[link.port]]
name = "nav"
kind = "queuing"
address = "224.224.0.17"
udp = 5002
depth = 64
"""
HEAD = bytes.fromhex("030000000011" "020000000120" "0800")


def is_sample(message):
    return message % 3 == 0


def is_lost(net, frame):
    """A loses every seventh frame, and B every eleventh, but for those that A lost."""
    on_a = frame % 7 == 3
    return on_a if net == 0 else frame % 11 == 5 and not on_a


def is_repeated(net, frame):
    return net == 0 and frame % 13 == 6 and not is_lost(net, frame)


def datagram(message):
    if is_sample(message):
        octets, port = message.to_bytes(4, "big") + bytes(13), 5000
    else:
        octets, port = message.to_bytes(4, "big") + bytes(3000 if message % 30 == 1 else 60), 5002
    return struct.pack(">HHHH", 5001, port, 8 + len(octets), 0) + octets


def packets(message):
    """A message's datagram, in fragments if it is longer than a frame."""
    whole = datagram(message)
    for start in range(0, len(whole), 1400):
        part = whole[start:start + 1400]
        word = start // 8 | (0x2000 if start + 1400 < len(whole) else 0)
        head = struct.pack(">BBHHHBBH4s4s", 0x45, 0, 20 + len(part), message, word, 1, 17, 0, bytes([10, 1, 1, 1]),
                           bytes([224, 224, 0, 17]))
        yield with_sum(head) + part


def frames():
    """All frames, without their losses, with their sequence numbers: 0 at first, and then 1 to 255."""
    number = 0
    for message in range(MESSAGES):
        for packet in packets(message):
            body = HEAD + packet
            yield body + bytes(max(0, 59 - len(body))) + bytes([number])
            number = number % 255 + 1


def expected():
    """How many frames of each network have each verdict, where the networks don't matter of both, by the rules."""
    count = sum(1 for _ in frames())
    lost = [sum(is_lost(net, frame) for frame in range(count)) for net in (0, 1)]
    messages = sum(not is_sample(message) for message in range(MESSAGES))
    return {
        "sampled": MESSAGES - messages, "queued": messages, "fragment-held": count - MESSAGES,
        "redundant": count - sum(lost), "out-of-sequence": sum(is_repeated(0, frame) for frame in range(count)),
    }


def main():
    sockets = []
    for interface in sys.argv[1:3]:
        sockets.append(socket.socket(socket.AF_PACKET, socket.SOCK_RAW))
        sockets[-1].bind((interface, 0))
    for place, frame in enumerate(frames()):
        order = (1, 0) if place % 5 == 0 else (0, 1)
        for net in order:
            for _ in range((not is_lost(net, place)) + is_repeated(net, place)):
                sockets[net].send(frame)
            time.sleep(DELAY)
        time.sleep(GAP - 2 * DELAY)


if __name__ == "__main__":
    main()
