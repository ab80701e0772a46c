"""Calls that look ports up: with names of each length, those of ports, and others that differ at each place."""
from parts.driven import hexed

NAMES = ["abcdefghijklmnop"[:length] for length in range(1, 17)]
TWINS = ["abcdefghijklmnop", "abcdefghijklmnoq", "zbcdefghijklmnop", "a-c_efgh", "a-c_efgi", "zbcdefgh", "_ab", "zab", "_", "-", "a1", "b1"]
PORT = '[[link.port]]\nname = "{}"\naddress = "224.224.{}.1"\nudp = {}\n'
SAMPLING, QUEUING = 'kind = "sampling"\nrefresh_us = 1\n', 'kind = "queuing"\ndepth = 1\n'


def text_of_links(names):
    """Two links, of which each has a port of these names, with the number of the link at their end."""
    for link in range(2):
        yield f"[[link]]\nvl = {link}\nskew_max_us = 0\nreassembly_us = 0\n"
        for place, name in enumerate(names):
            yield PORT.format(name[:-1] + str(link), link, place) + (QUEUING if place % 2 else SAMPLING)


def names_near(name):
    yield from (name, name + "-", "-" + name, name[:-1], name[1:])
    yield from (name[:place] + other + name[place + 1:] for place in range(len(name)) for other in "-z\u00e9")


def table():
    """A table of a link with ports of both kinds, whose names differ in their first octets or in their last ones."""
    rows = [f"{1 + place % 2} {place} 5000 0 1 {hexed(name.encode())} {place % 3}" for place, name in enumerate(TWINS)]
    return f"open_table 1 1 1 1 0 0 1 {len(TWINS)} {len(TWINS)} {' '.join(rows)}"


def lookups():
    """Calls in the words of drive.c: first of a receiver that isn't open."""
    yield from ("links", "link 0", "port 0 0", "place 61", "count 0 0 1", "filtered 0 1", "fill 0 0", "port_counts 0 0")
    yield f"open 1 {hexed(''.join(text_of_links(NAMES)).encode())}"
    yield from ("links", "link 0", "link 2")
    yield from (f"port {link} {place}" for link in range(3) for place in (*range(len(NAMES)), 99))
    for name in (it[:-1] + str(link) for it in NAMES for link in range(2)):
        for near in names_near(name):
            octets = hexed(near.encode())
            yield from (f"place {octets}", f"hand_reader 0 {octets}", f"hand_queue 0 {octets}", "close_reader 0", "close_queue 0")
    yield from (f"place {hexed(octets)}" for octets in (b"", b"\xff", b"a" * 17, b"a" * 500, b"\xc3", b"\xf0\x9f\x98\x80"))
    yield from ("close", table(), "close")
