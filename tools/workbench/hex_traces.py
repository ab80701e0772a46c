"""The lines of hex traces, the player's input, and their faults (docs/FORMATS.md)."""
import re

from verdict_words import NETWORKS
from workbench.faults import Broken

LONGEST, MOST_TIME = 8192, 2**64  # bytes of a line; microseconds
LINE = re.compile(rb"(0|[1-9][0-9]*)?( )?((?:[0-9A-Fa-f]{2})*)(.*)", re.DOTALL)


def lines(file, first, net, latest=0):
    """Line number, time in microseconds and octets of each frame of a trace whose first bytes were read. A fault is
    told in the player's words."""
    for number, line in enumerate(lines_from(file, first), 1):
        text = line.removesuffix(b"\n")
        if len(text) > LONGEST or text and not text.startswith(b"#"):
            time, space, octets, rest = LINE.fullmatch(text).groups()
            fault = ("long line" if len(text) > LONGEST else
                     "time" if not time or len(time) > 20 or int(time) >= MOST_TIME else
                     "space" if not space else
                     r"hex (the line ends of Windows: sed 's/\r$//')" if rest == b"\r" else
                     "hex" if rest else
                     "time falls" if int(time) < latest else None)
            if fault:
                raise Broken(f"trace {NETWORKS[net]} line {number}: {fault}")
            latest = int(time)
            yield number, latest, bytes.fromhex(octets.decode())


def lines_from(file, first):
    """All lines, each up to where it is too long. Of the first bytes the last line may go on in the file."""
    *short, last = first.split(b"\n")
    yield from (*short, last + file.readline(LONGEST + 2 - len(last)))
    yield from iter(lambda: file.readline(LONGEST + 2), b"")
