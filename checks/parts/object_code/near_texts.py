"""Texts near to a few good ones, which have each form of TOML and of a configuration: each of these cut at each place,
and with each octet changed into others; a configuration with each fault of a line; all texts of a few lines that name the
same tables; and some that are long, deep or wide."""
from itertools import product

LINK = """\
[[link]]
vl = 17
redundancy = true
skew_max_us = 1000
reassembly_us = 50000
window = 3
[[link.port]]
name = "p-_0"
kind = "sampling"
address = "224.24.0.17"
udp = 5000
refresh_us = 20000
[[link.port]]
name = "nav"
kind = "queuing"
address = "224.24.0.17"
udp = 5002
max = 64
depth = 2
"""
PORT = '[[link.port]]\nname = "p{0}{1}"\nkind = "{1}"\naddress = "224.24.1.{0}"\nudp = {2}\nmax = {0}\n{3} = 1\n'
SHORT = LINK + "".join(PORT.format(most, kind, udp, limit) for most in (0, 1, 2)
                       for kind, udp, limit in (("sampling", 1, "refresh_us"), ("queuing", 2, "depth")))
TEXTS = [
    r'a = "\x41\u00e9\U0001F600\b\t\n\f\r\e\"\\ "',
    'a = """\r\nb "" c\\  \r\n d\\\n e\\u0041\r\n""""" # f\r\ng = \'\'\'\nh\'\'\'\n',
    "a = [ 'b' , \"c\", # d\n[ ],\n]\n'e f' = { g = 1, \"h\".i = {}, }\n",
    "a = [0xdead_BEEF, 0o755, 0b1101, +1_0, -0, 9223372036854775807]",
    "a = [-1.5e+3, 60E-7, 0.25, inf, -inf, +nan, true, false]",
    "a = 1979-05-27T07:32:00.25-07:00",
    "a = 1979-12-31 07:32:00Z",
    "a = 1979-12-31t07:32:00+07:00",
    "a = [2024-02-29, 07:32, 23:59:59.999999999]",
    '[a.b . "c"]\nd.e = 1\nd.f = 2\n[[a.g]]\nh = 1\n[[a.g.i]]\n[a.g.i.j]\n[[a.g]]\n',
    "\ufeff# é\u20ac\U0001F600\na = 'é\u20ac\U0001F600'\n",
    'constant = "03ABcdef"\n[[link]]\nvl = 1\nskew_max_us = 0\nreassembly_us = 0\n',
    LINK,
]
LINES = ["a = 1", "a = [1]", "a = {}", "a = {b = 1}", "b = 1", "b.c = 1", "a.b = 1", "a.b.c = 1", "[a]", "[b]", "[a.b]", "[a.b.c]", "[[a]]",
         "[[a.b]]"]
LONG = [
    'a = "\\U00000041\\U0000e041"', 'a = "\\U0000d800"', 'a = "\\ud800"', "a = ]", "a = ^", "a = _",
    f'a = "{2000 * "x"}"', f'a = "{100 * (chr(92) + "n")}\u00e9"', f"a = [{100 * '1,'}]",
    f"a = {90 * '['}", f"a = {90 * '{a='}", f"{90 * 'a.'}a = 1", f"[{90 * 'a.'}a]", 90 * '"".',
    "".join(f"{'x' * (number % 40)}{number} = 1\n" for number in range(150)),
]
WIDE = ["".join(f"k{number} = {number}\n" for number in range(300)), "".join(f"k{number}.a = 1\n" for number in range(300, 0, -1)),
        "".join(f"[[a]]\nk{number * 7 % 40}.b = 1\n" for number in range(40))]
# Faults that are found late: of the second link, of its last port, and of a port after more than a list has room for at first.
LATE = [LINK.replace("depth = 2", "depth = 65"), LINK + LINK, LINK + LINK.replace("17\nre", "18\nre"), LINK + LINK.replace("vl = 17", "vl = 65536"),
        LINK + "[[link]]\nvl = 1\nskew_max_us = 0\nreassembly_us = 0\nport = [1]\n", SHORT + PORT.format(9, "sampling", 9, "depth"),
        SHORT + "[[link]]\nvl = 18\nskew_max_us = 0\nreassembly_us = 0\n" + 6 * PORT.format(5, "queuing", 7, "depth")]
FAULTS = {"address": ("", "1", "1.", "1.2", "1.2.", "1.2.3", "1.2.3.", "1.2.3.4.", "1.2.3.4x", "256.1.1.1", "1.256.1.1", "1.1.256.1", "1.1.1.256",
                      "01.1.1.1", "1.01.1.1", "1.1.01.1", "1.1.1.01", "1.x", "1.2.x", "1.2.3.x"),
          "name": ("", "aaaaaaaaaaaaaaaaa", "!", "A", "~", "a!"), "kind": ("queuinx", "samplinx", "samplings")}
OTHERS = b"\0\t\n\r \"#',-./0159:=@AGZ[\\_agz{~\x7f\x80\xc3\xe0\xed\xf4\xff"


def texts_of_lines(many):
    """All that have so many of these lines."""
    yield from ("\n".join(lines).encode() for lines in product(LINES, repeat=many))


def faulty_links():
    """The configuration without each of its lines, and with other values there."""
    lines = LINK.splitlines()
    for place, line in enumerate(lines):
        key = line.split(" = ")[0]
        others = [f"{key} = {value}" for value in ("[]", '"x"', "-1", "0", "4611686018427387904")] if " = " in line else []
        others += [f'{key}\t=  "{value}"' for value in FAULTS.get(key, ())]
        yield from ("\n".join([*lines[:place], *other, *lines[place + 1:]]).encode() for other in [[], *([it] for it in others)])


def near_texts():
    for text in map(str.encode, TEXTS):
        for place in range(len(text)):
            yield text[:place]
            yield from (text[:place] + bytes([other]) + text[place + 1:] for other in OTHERS)
