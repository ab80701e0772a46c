"""Texts to be checked for keys that aren't their tables' own: each such key and others near to it, at the top, at a link and at a
port."""

KEYS = ["constant", "link", "vl", "skew_max_us", "redundancy", "reassembly_us", "window", "port", "name", "kind", "address", "udp", "max",
        "refresh_us", "depth", "not_one_sender", "bag_us", "jitter_us", "read_us", "take_us", "readers"]
LINK = "[[link]]\nvl = 1\nskew_max_us = 0\nreassembly_us = 0\n"
PORT = '[[link.port]]\nname = "a"\nkind = "sampling"\naddress = "1.2.3.4"\nudp = 1\nrefresh_us = 1\n'
OTHERS = ["", "zz = 1", "link = []", "link = [1]", "link = [{vl = 1, zz = 1}]", "link = [{port = 1}]", "link = [{port = [1]}]",
          "link = [{port = [{}, {zz = 1}]}]", f"link = [{65 * '{}, '}]", f"link = [{{port = [{33 * '{}, '}]}}]", "[link]\nzz = 1\n",
          "[[link]]\n[link.port]\nzz = 1\n", LINK + PORT + LINK + PORT.replace('"a"', '"b"') + "  zz = 1"]
SPACES, ODD = ("", " \t ", "\r\n"), ("zz", '"zz"', "zz.a", "Z-_9")
VALUES = ("1", "'''\n[[link]]\n'''", '"""\n\n"""')


def near(key):
    """A key, and others: with one octet changed at its begin, in the middle or at its end, shorter, longer, and with other octets
    after the fourth."""
    half = len(key) // 2
    yield from (key, f"{key[:-1]}~", f"~{key[1:]}", f"{key}x", key[:-1], f"{key[:4]}{'x' * (len(key) - 4)}", f"{key[:half]}X{key[half + 1:]}")


def texts():
    for key in dict.fromkeys(other.replace("~", "x") for key in KEYS for other in near(key)):
        yield from (f"{key} = 1\n{LINK}{PORT}", f"{LINK}{key} = 1\n{PORT}", f"{LINK}{PORT}{key} = 1\n")
    for line in (f"{space}{key} = {value}\n" for space in SPACES for key in ODD for value in VALUES):
        yield from (line + LINK + PORT, LINK + line + PORT, LINK + PORT + line.rstrip("\n"))
    yield from OTHERS
    yield from (start + "".join(f"z{number} = 1\n" for number in range(many)) for start in (LINK, LINK + PORT) for many in (2, 17, 40, 300))
