"""Where a link, a port or a key stands in a configuration: its line, and what people call it."""
import functools
import operator
import re

try:
    import tomllib
except ImportError:  # PyPy, which is behind: Debian's python3-tomli is the same
    import tomli as tomllib

from workbench.faults import Fault

HEADER = re.compile(r'\s*\[\[?\s*"?([\w-]+)"?(\s*\.\s*"?port"?)?\s*[\].]')
KEY = re.compile(r'\s*"?([\w-]+)"?\s*[=.]')
# The key that people call a link or a port by, and the kind of its value.
CALLED = {"link": ("vl", int), "port": ("name", str)}


class Document:
    """A configuration's tables, and the line of each table and key by its path, as ("link", 0, "port", 1, "udp"), if
    each has a line of its own. What stands inside of a value isn't taken apart: what is around it has the line."""

    def __init__(self, name, octets, fault=None):
        """The receiver may have told a fault of it; what Python doesn't read is refused."""
        try:
            self.name, text = name, octets.decode("utf-8-sig")
            self.tables = tomllib.loads(text)
        except (ValueError, RecursionError) as error:
            told = f"refused: {fault}" if fault else "the receiver takes it, but this Python reads no TOML 1.1"
            line = re.search(r"at line (\d+)", str(error))
            line = line[1] if line else octets.count(b"\n", 0, getattr(error, "start", 0)) + 1
            raise Fault(f"{name}:{line}: {told}: {error}") from None
        self.lines = lines_of(text, self.tables)

    def line_of(self, path):
        while path not in self.lines:
            path = path[:-1]
        return self.lines[path]

    def slip(self, path, told):
        """A line for people, FILE:LINE: TEXT, with the link and the port of a path as they call them."""
        words, table = [], self.tables
        for what, place in zip(path[::2], path[1::2]):
            table = table[what][place]
            key, kind = CALLED[what]
            name = table.get(key) if isinstance(table, dict) else None
            words.append(f"{what} {name}" if type(name) is kind and name != "" else f"{what} at place {place + 1}")
        return ": ".join([f"{self.name}:{self.line_of(path)}", *([" ".join(words)] if words else []), told])


def lines_of(text, config):
    lines, path, links, ports = {(): 1}, (), 0, 0
    for number, line in enumerate(text.split("\n"), 1):
        header, key = HEADER.match(line), KEY.match(line)
        if header and header[1] == "link" and header[2]:
            path, ports = ("link", links - 1, "port", ports), ports + 1
        elif header and header[1] == "link":
            path, links, ports = ("link", links), links + 1, 0
        elif header:
            path = (header[1],)
        if header or key:
            lines.setdefault(path if header else (*path, key[1]), number)
        try:
            functools.reduce(operator.getitem, path, config)
        except (LookupError, TypeError):
            return {(): 1}  # a text looks like a header
    return lines


def members(table, around=(), what="link"):
    """The path of each link and of each of its ports, its table, and what it is."""
    found = table.get(what)
    for place, one in enumerate(found if isinstance(found, list) else []):
        if isinstance(one, dict):
            path = (*around, what, place)
            yield path, one, f"a {what}"
            yield from members(one, path, "port") if what == "link" else ()
