"""Frames that cases by chance hardly ever have, as a script with what the model answers."""
import random

from parts.driven import ENOUGH, Script, hexed
from parts.fuzz_cases import datagram, frame_of
from parts.random_traces import Link, Port, config_text

LINK, ADDRESS, OTHER_ADDRESS = {"vl": 100}, "224.224.0.1", "224.224.0.2"
MORE = 0x2000


def packets(r):
    """The link, the address, the ident, the word of flags and offset, and the octets of each."""
    # A number whose upper octet no link has, and whose lower octet is the upper one of a link.
    yield {"vl": 0x0100}, ADDRESS, 1, 0, datagram(r, {"udp": 5000}, 17)
    # Pieces of one sender with one ident, for two addresses.
    for address, offset in (ADDRESS, 0), (OTHER_ADDRESS, 0), (OTHER_ADDRESS, 1):
        yield LINK, address, 2, MORE | offset, bytes(8)
    # A piece of one octet, given up for a whole datagram; and another datagram, which gets its buffer.
    yield LINK, ADDRESS, 3, 1, bytes(1)
    yield LINK, ADDRESS, 3, 0, datagram(r, {"udp": 5000}, 17)
    yield LINK, ADDRESS, 4, MORE, bytes(8)
    # Pieces of 128 octets, the first half at the end: the other half came from both its ends, and is 64 octets long.
    whole = b"\x13\x89\x13\x88\0\x80\0\0" + r.randbytes(120)
    for first, end in (15, 16), (8, 9), (9, 15), (0, 8):
        yield LINK, ADDRESS, 5, (MORE if end < 16 else 0) | first, whole[8 * first:8 * end]


def rare_script():
    """These frames to a link with a queue, one after another, and what is taken then."""
    r = random.Random("rare frames")
    script, link, port = Script(r, 0), Link(r, 0), Port(r, 0, 0)
    port.kind, port.max, port.depth = "queuing", None, 64
    link.redundancy, link.window, link.limit, link.ports = True, None, 10**6, [port]
    script.links = [link]
    script.call(script.receiver.open([link], 1), "open", 1, hexed(config_text(r, [link], False)))
    name = port.name.encode()
    script.call(script.receiver.hand(script.queues[0], name, False), "hand_queue", 0, hexed(name))
    for number, packet in enumerate(packets(r), 1):
        frame = frame_of(*packet) + bytes([number])
        script.call(script.receiver.receive(0, 10 * number, frame), "receive", 0, 10 * number, hexed(frame))
    for _ in range(3):
        script.call(script.queues[0].take(ENOUGH), "take", 0, ENOUGH)
    return script
