"""Openings of a few links and ports in each way: none, one kind alone, both, and more than a list has room for at first. Each
is opened as a text and as a table, with each request for memory refused; and so are tables with each fault."""
from parts.driven import hexed

# Links, and of each its sampling ports, its queues and the readers.
SHAPES = [(1, 0, 0, 1), (1, 1, 0, 1), (1, 0, 1, 1), (2, 5, 0, 1), (2, 0, 5, 1), (2, 1, 1, 8), (5, 0, 0, 1), (5, 1, 1, 2), (9, 0, 1, 1)]
LINK = "[[link]]\nvl = {}\nskew_max_us = 0\nreassembly_us = 0\n"
PORT = '[[link.port]]\nname = "{}"\nkind = "{}"\naddress = "224.224.0.1"\nudp = {}\nmax = {}\n{} = 1\n'
KINDS = ("sampling", "queuing")
# For each field of a row values that are no good, or are those of another row.
FAULTS_OF_LINKS = [(65536, 0), (2,), (1000001,), (10000001,), (0, 5), (0, 3, 5, 33)]
FAULTS_OF_PORTS = [(0, 3), (), (65536, 0, 1), (1472, 8193), (0, 65, 1000000001), (hexed(b""), hexed(b"A"), hexed(b"!"), hexed(b"\xff"), hexed(b"p0-0")), (9,)]


def ports_of(link, sampling, queuing):
    """The name of each port of a link, its kind, its UDP port and the octets of its longest message."""
    for place in range(sampling + queuing):
        yield f"p{link}-{place}", KINDS[place >= sampling], place, 64 * (place % 2)


def text_of(links, *ports):
    for link in range(links):
        yield LINK.format(link)
        for name, kind, udp, longest in ports_of(link, *ports):
            yield PORT.format(name, kind, udp, longest, "refresh_us" if kind == "sampling" else "depth")


def rows_of(links, sampling, queuing):
    """The rows of a table: of its links, and of its ports."""
    rows = [[link, 1, 0, 0, 2, sampling + queuing] for link in range(links)]
    ports = [[1 + KINDS.index(kind), 0xe0e00001, udp, longest, 1, hexed(name.encode()), 0]
             for link in range(links) for name, kind, udp, longest in ports_of(link, sampling, queuing)]
    return rows, ports


def words_of(links, ports):
    """A table in the form of drive.c."""
    for rows in (links, ports):
        yield from (len(rows), *(" ".join(map(str, row)) for row in rows))


def with_value(rows, place, field, value):
    """These rows with another value in one of them."""
    return [[value if (at, number) == (place, field) else old for number, old in enumerate(row)] for at, row in enumerate(rows)]


def faulty_tables():
    """Tables of two links, each with a fault: a row less or more, and a value that is out of range or was given before."""
    links, ports = rows_of(2, 2, 2)
    yield from ((links, ports[:-1]), (links, ports + ports[:1]), ([], []), rows_of(65, 0, 0), rows_of(1, 33, 0), (links[:1], ports))
    many, names = rows_of(5, 32, 0)
    yield from ((many, with_value(rows, 159, 4, 1000000001)) for rows in (names, names[::-1]))
    for place in (0, 1):
        yield from ((with_value(links, place, field, value), ports) for field, values in enumerate(FAULTS_OF_LINKS) for value in values)
    for place in (0, 2, 5):
        yield from ((links, with_value(ports, place, field, value)) for field, values in enumerate(FAULTS_OF_PORTS) for value in values)


def openings():
    """Calls in the words of drive.c."""
    for links, sampling, queuing, readers in SHAPES:
        yield f"open_each {readers} {hexed(''.join(text_of(links, sampling, queuing)).encode())}"
        yield "close"
        yield f"open_table_each {readers} {' '.join(map(str, words_of(*rows_of(links, sampling, queuing))))}"
        yield "close"
    for table in faulty_tables():
        yield from (f"open_table_each {readers} {' '.join(map(str, words_of(*table)))}" for readers in (1, 9))
        yield "close"
