"""The cases of checks/fuzz: mutants of the worked frames, traces and configurations, and the words of a command line."""
import json
import os
import re
import shlex
import struct

from parts.options import EXAMPLES
from parts.worked import header_sum, with_sum

LAST_TIME = 2**64 - 1
PAYLOAD = bytes(range(1, 18))
KEYS = {"constant": None, "link": None, "vl": 65535, "skew_max_us": 1000000, "redundancy": None, "reassembly_us": 10000000,
        "window": 4, "port": None, "name": None, "kind": None, "address": None, "udp": 65535, "max": 1471,
        "refresh_us": 1000000000, "depth": 64}


# ---- links and ports, as tables of a configuration

def worked_links():
    """The links of the examples; the first one is that of the configuration that is built in."""
    times = {"skew_max_us": 1000, "reassembly_us": 50000}
    sampling, address = {"kind": "sampling", "udp": 5000, "refresh_us": 20000}, "224.224.0.17"
    nav = {"name": "nav", "kind": "queuing", "address": address, "udp": 5002, "depth": 4}
    return [{"vl": 17, **times, "port": [{"name": "pos", "address": address, **sampling}, nav]},
            {"vl": 18, **times, "port": [{"name": "alt", "address": "224.224.0.18", **sampling}]}]


def random_port(r, link, place):
    port = {"name": f"p{link}-{place}", "address": f"224.224.{link}.{r.choice([1, 1, 255])}", "udp": r.choice([5000, 65000]) + place}
    if r.random() < 0.4:
        port["max"] = r.choice([0, 17, 100, 1471])
    if r.random() < 0.33:
        return {**port, "kind": "sampling", "refresh_us": r.choice([0, 1, 1000, 20000, 10**9])}
    return {**port, "kind": "queuing", "depth": r.choice([1, 2, 4, 64])}


def random_links(r):
    links, has_windows = [], r.random() < 0.2
    for place, number in enumerate(r.sample([0, 1, 17, 18, 255, 256, 32768, 65535], r.choice([1, 1, 2, 2, 3, 6]))):
        link = {"vl": number, "skew_max_us": r.choice([0, 1, 100, 1000, 10**6]), "reassembly_us": r.choice([0, 500, 50000, 50000, 10**7])}
        if r.random() < 0.4:
            link["redundancy"] = r.random() < 0.5
        if has_windows and r.random() < 0.8:
            link["window"] = r.randint(1, 4)
        links.append({**link, "port": [random_port(r, place, i) for i in range(r.choice([0, 1, 2, 2, 3, 5]))]})
    return links


# ---- frames

def mended(frame):
    """The frame with a right header checksum, if it has a whole header."""
    if len(frame) < 34:
        return frame
    return frame[:14] + with_sum(frame[14:34]) + frame[34:]


def frame_of(link, address, ident, word, octets, source=1):
    """A frame without its sequence number. `word` has the flags and the offset of a fragment."""
    addresses = bytes([10, 1, 1, source]) + bytes(map(int, address.split(".")))
    packet = struct.pack(">BBHHHBBH", 0x45, 0, 20 + len(octets), ident, word, 1, 17, 0) + addresses + octets
    frame = bytes([3, 0, 0, 0]) + struct.pack(">H", link["vl"]) + bytes([2, 0, 0, 0, 1, 0x20, 8, 0]) + packet
    return mended(frame + bytes(max(0, 59 - len(frame))))


def random_octets(r, count):
    return bytes(r.getrandbits(8) for _ in range(count))


def payload_size(r, port):
    most = port.get("max", 1471)
    return max(0, min(1471, r.choice([0, 1, 16, 17, 17, 17, most - 1, most, most + 1, r.randint(0, 200)])))


def datagram(r, port, size):
    length = 8 + size if r.random() > 0.03 else r.choice([0, 7, 8, 9, 7 + size, 9 + size, 65535])
    payload = PAYLOAD if size == 17 else random_octets(r, size)
    return struct.pack(">HHHH", 5001, port["udp"], length, r.choice([0, 0, r.randrange(65536)])) + payload


def stray_piece(r, whole, cuts):
    """A piece that lies on the others in some way: over a head, a tail or all, inside, next to them, past the end."""
    ends = [0] + cuts + [len(whole)]
    near = [8 * max(0, place // 8 + step) for place in ends for step in (-1, 0, 1)]
    start = r.choice(near * 3 + [8184, 8192, 8200, 32768, 65528])
    length = r.choice([end - start for end in near if end >= start] + [8, 16, 24, 1472, 0, 7, 8200 - start, 8201 - start])
    length = length if 0 <= length <= 1472 else 8
    known = (whole + bytes(8)) * (1 + (start + length) // len(whole)) if r.random() < 0.7 else random_octets(r, start + length)
    octets = bytearray(known[start:start + length])
    if octets and r.random() < 0.5:
        octets[-1] ^= 0xFF
    return r.choice([0x2000, 0x2000, 0]) | start // 8, bytes(octets)


def pieces_of(r, whole):
    """A datagram in fragments, in some order, perhaps with stray ones, one twice or one left out: words and octets."""
    most = r.choice([8, 16, 64, 1472]) if len(whole) < 400 else 1472
    cuts = [0]
    while cuts[-1] + most < len(whole) or (len(cuts) == 1 and len(whole) > 8):
        cuts.append(min(cuts[-1] + 8 * r.randint(max(1, most // 16), max(1, most // 8)), 8 * ((len(whole) - 1) // 8)))
    ends = cuts[1:] + [len(whole)]
    pieces = [((0x2000 if end < len(whole) else 0) | start // 8, whole[start:end]) for start, end in zip(cuts, ends) if start < end]
    order = r.random()
    if order < 0.2:
        r.shuffle(pieces)
    elif order < 0.3:
        pieces.reverse()
    if r.random() < 0.15:
        pieces.insert(r.randrange(len(pieces) + 1), r.choice(pieces))
    if r.random() < 0.1:
        pieces.pop(r.randrange(len(pieces)))
    for _ in range(r.choice([0, 0, 0, 1, 1, 3])):
        pieces.insert(r.randrange(len(pieces) + 1), stray_piece(r, whole, cuts[1:]))
    return pieces


def fragments_of(r, link):
    """The fragments of one datagram or of many at once."""
    waiting, in_turn = [], r.random() < 0.6
    for _ in range(r.choice([1, 1, 1, 1, 2, 3, 6])):
        port = r.choice([port for port in link["port"] for _ in range(4 if port["kind"] == "queuing" else 1)])
        size = r.choice([1, 8, 24, r.randint(0, 200), r.randint(0, 3000)]) if r.random() > 0.05 else r.choice([8184, 8191, 8192, 8193])
        waiting.append((port["address"], r.randrange(50), pieces_of(r, datagram(r, port, size))))
    while waiting:
        chosen = waiting[0] if in_turn else r.choice(waiting)
        address, ident, pieces = chosen
        if pieces:
            yield frame_of(link, address, ident, *pieces.pop(0), 1 if r.random() > 0.01 else 2)
        else:
            waiting.remove(chosen)


def frames_for(r, link):
    """Frames that a sender gives to the networks, without sequence numbers: a whole datagram, or fragments."""
    if link["port"] and r.random() < 0.2:
        return fragments_of(r, link)
    port = r.choice(link["port"] or worked_links()[0]["port"])
    return [frame_of(link, port["address"], r.randrange(50), r.choice([0, 0, 0x4000, 0x8000]), datagram(r, port, payload_size(r, port)))]


# Offset and octets of a field, and values at its ends.
FIELDS = [
    (0, 4, [0x03000000, 0x03000001, 0x02000000, 0]), (4, 2, [0, 1, 17, 18, 65535]), (6, 2, [0, 65535]),
    (12, 2, [0x0800, 0x0801, 0x0008, 0x0806, 0x8100, 0x86DD, 0]), (14, 1, [0x45, 0x44, 0x46, 0x4F, 0x40, 0x55, 0x65, 0x35, 0]),
    (15, 1, [0, 255]), (16, 2, [0, 19, 20, 21, 27, 28, 29, 45, 46, 1499, 1500, 65535]), (18, 2, [0, 1, 65535]),
    (20, 2, [0, 0x2000, 0x4000, 0x8000, 0xE000, 1, 0x2001, 0x0400, 0x0401, 0x1FFF, 0x3FFF]), (22, 1, [0, 1, 255]),
    (23, 1, [17, 0, 1, 6, 16, 18, 255]), (24, 2, [0, 0xFFFF]), (26, 4, [0, 0x0A010102, 2**32 - 1]),
    (30, 4, [0, 0xE0E00011, 0xE0E00012, 2**32 - 1]), (34, 2, [0, 65535]), (36, 2, [0, 4999, 5000, 5001, 5002, 65535]),
    (38, 2, [0, 7, 8, 9, 24, 25, 26, 1479, 1480, 8200, 65535]), (40, 2, [0, 65535]), (-1, 1, [0, 1, 2, 127, 128, 254, 255]),
]


def with_field(r, frame):
    """A field at one of its ends, or one more or less, or anything. Lengths are often right at the frame's end."""
    offset, octets, values = r.choice(FIELDS)
    place = offset % max(1, len(frame)) if offset < 0 else offset
    old = int.from_bytes(frame[place:place + octets], "big")
    exact = [len(frame) - 16, len(frame) - 15, len(frame) - 14] if offset == 16 else []
    value = r.choice(values + exact * 3 + [old + 1, old - 1, r.getrandbits(8 * octets)]) % 256**octets
    return frame[:place] + value.to_bytes(octets, "big") + frame[place + octets:]


def mutant(r, frame):
    """A frame that is cut, doubled, longer or changed. Its header checksum is often made right again."""
    if len(frame) >= 60 and r.random() < 0.05:
        # An identification with which the checksum is right both as 0 and as 0xffff.
        ident = struct.pack(">H", header_sum(frame[14:18] + b"\0\0" + frame[20:34]))
        return frame[:18] + ident + frame[20:24] + r.choice([b"\0\0", b"\xff\xff"]) + frame[26:]
    place, bit = r.randrange(len(frame) + 1), r.randrange(8 * min(len(frame), 60))
    flipped = frame[:bit // 8] + bytes([frame[bit // 8] ^ 1 << bit % 8]) + frame[bit // 8 + 1:]
    inserted = frame[:place] + random_octets(r, r.choice([1, 1, 2, 8, 100])) + frame[place:]
    left_out = frame[:place] + frame[place + r.choice([1, 1, 2, 8]):]
    cut = frame[:r.choice([0, 1, 14, 33, 34, 59, 60, 61, len(frame) - 1, place])]
    longer = frame + bytes(max(0, r.choice([1513, 1514, 1514, 1515, 4093]) - len(frame)))
    frame = r.choice([with_field(r, frame)] * 6 + [flipped, inserted, left_out, cut, longer, frame + frame])
    return mended(frame) if r.random() < 0.8 else frame


def sent(r, links, count, split):
    """Traces A and B, as lists of times and frames. With `split` a link's frames come on one network alone."""
    now, traces = r.choice([0, 1000, 1000, 2**63 - 50000, LAST_TIME - 10**7]), ([], [])
    delay, mutants, lost = r.choice([0, 5, 200, 999, 1000, 1001, 50000]), r.choice([0, 0.05, 0.2, 0.4]), r.choice([0, 0.02, 0.1])
    numbers = [r.choice([0, 1, 120, 250]) for _ in links]
    while len(traces[0]) + len(traces[1]) < count:
        place = r.randrange(len(links))
        for body in frames_for(r, links[place]):
            now += r.choice([0, 1, 10, 100, 100, 500, 1000, 1001, 5000, 50001])
            numbers[place] = numbers[place] % 255 + 1 if r.random() > 0.01 else r.choice([0, 0, 1, 128, 255])
            for net in ([place % 2] if split else [0, 1]):
                if r.random() < lost:
                    continue
                frame = body + bytes([numbers[place]])
                if r.random() < mutants:
                    frame = mutant(r, frame)
                late = r.choice([1, 900, 1500]) if r.random() < 0.05 else 0
                traces[net].append((min(LAST_TIME, now + net * delay + late), frame))
                if r.random() < 0.02:
                    traces[net].append(traces[net][-1])
    for trace in traces:
        trace.sort(key=lambda each: each[0])
    return traces


# ---- traces

def bad_line(r, line):
    """A line that is some fault, or perhaps none."""
    place, moment, digits = r.randrange(len(line) + 1), line.split(b" ")[0], line[line.find(b" ") + 1:]
    return r.choice([
        line[:place] + bytes([r.randrange(256)]) + line[place:],
        line[:place] + r.choice([b" ", b"\t", b"\r", b"\0", b"\xff", b"\xc3\xa9", b"/", b":", b"@", b"G", b"`", b"g"]) + line[place:],
        line[:place] + line[place + 1:], line[:place], line + b"\r", line + b" ", line + b"0", b" " + line, b"+" + line, b"-" + line,
        b"0" + line, moment + b"  " + digits, moment + b"\t" + digits, moment, moment + b" ", digits, line + line,
        b"0 " + digits, b"%d " % 2**63 + digits, b"%d " % LAST_TIME + digits, b"%d " % 2**64 + digits, b"9" * 25 + b" " + digits,
        b"%d " % (int(moment) // 2 if re.fullmatch(rb"[0-9]{1,20}", moment) else 0) + digits, b"", b"#", b"#\xff\0", b"\r", b" #",
        b"#" * r.randint(8190, 8194), b" " * r.randint(8190, 8194), b"0" * r.randint(8190, 8194), moment + b" " * r.randint(8180, 8194),
        (moment + b" " + b"00" * 4100)[:r.randint(8188, 8194)], (b"x" + line * 99)[:r.randint(8190, 8194)],
    ])


def trace_text(r, trace, mutants):
    lines = [f"{moment} {frame.hex() if r.random() > 0.1 else frame.hex().upper()}".encode() for moment, frame in trace]
    for _ in range(r.choice([0, 0, 1, 3])):
        lines.insert(r.randrange(len(lines) + 1), r.choice([b"", b"#", b"# a line that is skipped", b"#" * 8192, b"#\0\xff\r"]))
    for _ in range(mutants):
        place = r.randrange(len(lines) + 1)
        lines[place:place + 1] = [bad_line(r, lines[place] if place < len(lines) else b"1 00")]
    text = b"\n".join(lines) + (b"\n" if r.random() < 0.8 else b"")
    if mutants and r.random() < 0.15:
        place = r.randrange(len(text) + 1)
        text = r.choice([b"", b"\n", text[:place], text.replace(b"\n", b"\r\n"), text + b"\n\n", text + text, text[place:],
                         text[:place] + random_octets(r, 3) + text[place:], b"\xef\xbb\xbf" + text])
    return text


def fault_and_frames(text):
    """What the text of a trace comes to: its first faulty line and the cause, or its times and frames."""
    frames, before = [], 0
    lines = text.split(b"\n")
    for number, line in enumerate(lines[:-1] if lines[-1] == b"" else lines, 1):
        if len(line) > 8192:
            return (number, "long line"), []
        if line == b"" or line[:1] == b"#":
            continue
        digits = re.match(rb"0|[1-9][0-9]*", line)
        if not digits or len(digits[0]) > 20 or int(digits[0]) > LAST_TIME:
            return (number, "time"), []
        rest = line[digits.end():]
        if rest[:1] != b" ":
            return (number, "space"), []
        if not re.fullmatch(rb"([0-9a-fA-F]{2})*", rest[1:]):
            return (number, "hex"), []
        if int(digits[0]) < before:
            return (number, "time falls"), []
        before = int(digits[0])
        frames.append((before, bytes.fromhex(rest[1:].decode())))
    return None, frames


# ---- configurations

def tables_of(links):
    """Each table's header and its rows, which are keys and values. JSON writes these values as TOML does."""
    for link in links:
        for header, table in [("[[link]]", link)] + [("[[link.port]]", port) for port in link["port"]]:
            yield [header, [[key, json.dumps(value)] for key, value in table.items() if key != "port"]]


def text_of(tables):
    return "\n".join("\n".join([header] + [f"{key} = {value}" for key, value in rows]) for header, rows in tables) + "\n"


def inline_text(tables):
    """The same with inline tables in place of headers: each link ends with its ports."""
    text = ""
    for header, rows in tables:
        pairs = ", ".join(f"{key} = {value}" for key, value in rows)
        if header == "[[link.port]]":
            text += "{" + pairs + "},"
        elif header == "[[link]]":
            text += ("]},\n" if "port" in text else "link = [") + "{" + pairs + ", port = ["
        else:
            text += pairs + "\n"
    return text + "]}]\n"


def other_spelling(r, value):
    """The same value, written in another way."""
    if value.isdigit():
        number = int(value)
        return r.choice([hex(number), oct(number), bin(number), "+" + value, f"0x{number:09X}", "_".join(value)])
    if not value.startswith('"'):
        return value
    text = value[1:-1]
    escapes = "".join(f"\\u{ord(each):04x}" for each in text)
    return r.choice([f"'{text}'", f'"""{text}"""', f"'''\n{text}'''", f'"""{text[:1]}\\\n   {text[1:]}"""', f'"{escapes}"',
                     '"' + escapes[:6].replace("u", "U0000") + text[1:] + '"'])


VALUES = [
    "-1", "-0", "+0", "0", "1", "007", "1_000", "_1", "1_", "1__0", "0x1F", "0X1f", "0xg", "0o17", "0b11", "0b2", "-0x1", "", "nothing",
    "4294967296", "9223372036854775807", "9223372036854775808", "-9223372036854775808", "-9223372036854775809", "18446744073709551616",
    "9" * 400, "1.0", "1e2", "1.", ".5", "6.02e23", "inf", "-nan", "true", "false", "True", "17 18", "17 # comment", "\t17\t", "17\r",
    "1979-05-27", "1979-02-30", "07:32:00", "1979-05-27T07:32:00Z", "1979-05-27 07:32:00.5-07:00",
    "[]", "[1]", "[1, 'a',]", "[,]", "{}", "{a = 1}", "{vl = 17}", "{a = 1,}", "[{}]", "[{}, 1]",
    '"a', "'a", '"""a', '"a\nb"', '"""a\nb"""', "'''a'''", '"\\x41"', '"\\uD800"', '"\\q"', '"\\u00e9"',
] + [json.dumps(text) for text in [
    "", "a", "A", "a b", "abcdefghijklmnop", "abcdefghijklmnopq", "a" * 5000, "pos", "nav", "sampling", "queuing", "Sampling", "0300000",
    "0300000g", "ABCDEFab", "224.224.0.17", "224.224.0", "224.224.0.256", "224.224.0.017", "0.0.0.0", "255.255.255.255", "1.2.3.4.5",
    " 1.2.3.4"]]


def deep(r):
    depth, closed = r.choice([5, 40, 79, 80, 81, 127, 128, 129, 300, 1000, 5000]), r.random() < 0.7
    return r.choice(["deep = " + "[" * depth + "]" * (depth * closed), "deep = " + "{a = " * depth + "1" + "}" * (depth * closed),
                     "deep = " + "[{a = " * depth + "1" + "}]" * (depth * closed), "a." * depth + "a = 1",
                     "[" + "a." * depth + "a]", "[[" + "a." * depth + "a" + "]]" * closed])


def change_key(r, tables):
    """A key left out, given twice, misspelt or new, or with another value."""
    _, rows = r.choice([table for table in tables if table[1]])
    place = r.randrange(len(rows))
    key, value = rows[place]
    names = [key.upper(), key + "s", key[:-1] or "x", key + " ", f'"{key}"', f"'{key}'", "é", "", "a.b", key + ".b", '"\\u0061"']
    ends = [str(KEYS[key]), str(KEYS[key] + 1), "8192", "8193"] if KEYS.get(key) else VALUES
    others = [each[1] for _, others in tables for each in others if each[0] == key]
    values = [other_spelling(r, value), r.choice(ends), r.choice(ends), r.choice(VALUES), r.choice(others), r.choice(others)]
    rows[place:place + 1] = r.choice([
        [], [[key, value], [key, value]], [[r.choice(names), value]], [[r.choice([*KEYS, "other"]), r.choice(VALUES)], [key, value]],
        *[[[key, each]] for each in values],
    ])


def change_tables(r, tables):
    """Tables left out, given again, in another order, with other headers, or too many of them."""
    place, link = r.randrange(len(tables)), worked_links()[0]
    header, rows = tables[place]
    headers = ["[link]", "[[links]]", "[link.port]", "[[link.port]", "[[link.port.a]]", "[[ link ]]", "[port]", "[]", "[[", "[a.b]", ""]
    top = [r.choice(["link", "constant", "port"]), r.choice(VALUES)]
    links = [{**link, "vl": i, "port": []} for i in range(r.choice([0, 1, 63, 64, 65, 200]))]
    ports = [{**link["port"][1], "name": f"n{i}", "udp": i} for i in range(r.choice([31, 32, 33]))]
    tables[:] = r.choice([
        tables[:place] + tables[place + 1:], tables + [[header, [list(row) for row in rows]]], r.sample(tables, len(tables)),
        tables[:place] + [[r.choice(headers), rows]] + tables[place + 1:], list(tables_of(links)),
        tables + list(tables_of([{**link, "vl": 7, "port": ports}])), [["", [top]]] + tables,
    ])


def config_text(r, links, mutants):
    tables = [["", [["constant", '"03000000"']]]] * (r.random() < 0.3) + list(tables_of(links))
    for _ in range(mutants):
        if tables and any(rows for _, rows in tables):
            (change_key if r.random() < 0.75 else change_tables)(r, tables)
    text = text_of(tables) if r.random() < 0.85 else inline_text(tables)
    if mutants and r.random() < 0.12:
        text = r.choice([deep(r) + "\n" + text, text + deep(r) + "\n"])
    text = text.encode()
    if mutants and r.random() < 0.2:
        place = r.randrange(len(text) + 1)
        byte = r.choice([b"\0", b"\r", b"\xff", b"\xc3\xa9", b"\t", b"\n", b"#", b'"', b"[", b"=", b"\x7f", bytes([r.randrange(256)])])
        text = r.choice([text[:place] + byte + text[place:], text[:place] + text[place + 1:], text[:place], text[:-1], b"",
                         text.replace(b"\n", b"\r\n"), b"\xef\xbb\xbf" + text, b"# \xc3\n" + text])
    return text


# What players may read differently: keys of more than 80 parts, which this player refuses; what came with TOML 1.1, which
# it takes (\x and \e, inline tables over several lines or with a last comma, times without seconds); great exponents.
RARE_TOML = re.compile(rb"([\w\"'-]+\s*\.\s*){80}|\\[xe]|\{[^}]*[\n#]|[,\n][ \t]*\}|(?<!:)\d\d:\d\d(?!:)|[eE][+-]?\d{3}")


# ---- command lines

FILES = [[b"--config", b"config.toml"], [b"--a", b"a.trace"], [b"--b", b"b.trace"]]
REFUSED = [[b"--nothing"], [b"more"], [b"--at", b"-1"], [b"--at=-1"], [b"--at", b"x"], [b"--at", b""], [b"--at", b"9223372036854775808"],
           [b"--at", b"18446744073709551616"], [b"--at"], [b"--a", b"a.trace"], [b"--threads=1"], [b"--at", b"1", b"--at", b"1"], [b"-a"],
           [b""], [b"\xff"], [b"--at", b"\xff"], [b"--", b"more"], [b"--con", b"config.toml"]]


class Case:
    """A run: the files, the words, and what is known of how it has to end."""

    def __init__(self, r):
        self.words, self.kept, self.memory, self.output = [], {b"--config": "", b"--a": "", b"--b": ""}, None, None
        self.asks_for_help = self.is_refused = self.has_threads = False
        kind = r.random()
        self.is_built_in, self.has_good_config = kind < 0.04, kind < 0.65
        self.make_files(r, 0 if 0.04 <= kind < 0.42 else r.choice([0, 1, 1, 2]))
        if not self.is_built_in:
            self.make_words(r)

    def make_files(self, r, mutants):
        links = worked_links() if self.is_built_in or r.random() < 0.4 else random_links(r)
        links = links[:1] if self.is_built_in else links
        self.config = config_text(r, links, 0 if self.has_good_config else mutants)
        traces = sent(r, links, r.choice([0, 1, 5, 20, 60]), r.random() < 0.15)
        texts = [trace_text(r, trace, mutants if self.has_good_config and r.random() < 0.6 else 0) for trace in traces]
        if r.random() < 0.03:
            name = r.choice(["network", "fragments"])
            texts = [(EXAMPLES / f"{name}_{net}.trace").read_bytes() for net in "ab"]
        self.a, self.b = texts[0], b"" if self.is_built_in else texts[1]

    def make_words(self, r):
        parts = [list(each) for each in FILES]
        r.shuffle(parts)
        self.has_threads = r.random() < 0.15
        if self.has_threads:
            parts.insert(r.randrange(len(parts) + 1), [b"--threads"])
        if r.random() < 0.3:
            moment = r.choice([b"0", b"1000", b"+20000", b"0000021000", b"9223372036854775807", b"%d" % r.getrandbits(62)])
            parts.insert(r.randrange(len(parts) + 1), [b"--at", moment])
        self.spoil(r, parts)
        parts = [[b"=".join(part)] if len(part) == 2 and r.random() < 0.1 else part for part in parts]
        self.words = [word for part in parts for word in part]

    def spoil(self, r, parts):
        """Now and then: words that are refused, the help, files that can't be read, a full output, little memory."""
        chance = r.random()
        if chance < 0.02:
            parts.append(r.choice(REFUSED))
            self.is_refused = True
        elif chance < 0.025:
            parts.remove(next(part for part in parts if part[0] in self.kept))
            self.is_refused = True
        elif chance < 0.03:
            parts.append([r.choice([b"--help", b"-h"])])
            self.asks_for_help = True
        elif chance < 0.05:
            part = r.choice([part for part in parts if part[0] in self.kept])
            part[1], self.kept[part[0]] = r.choice([(b"missing", "missing"), (b"config.toml/a", "missing"), (b"folder", "folder")])
        elif chance < 0.055 and os.path.exists("/dev/full"):
            self.output = "/dev/full"
        elif chance < 0.075:
            self.memory = r.choice([2**16, 2**18, 2**20, 2**22])

    def write(self, folder):
        for name, octets in (("config.toml", self.config), ("a.trace", self.a), ("b.trace", self.b)):
            (folder / name).write_bytes(octets)
        (folder / "folder").mkdir(exist_ok=True)

    def expected_fault(self):
        """The line of the first fault that isn't the configuration's, after the program's name; None if there is none."""
        if self.kept[b"--config"]:
            return "config not read"
        for net, option in (("A", b"--a"), ("B", b"--b")):
            if self.kept[option] == "missing":
                return f"trace {net} not read"
        for net, option, text in (("A", b"--a", self.a), ("B", b"--b", self.b)):
            fault, _ = fault_and_frames(text)
            if self.kept[option]:
                return f"trace {net} not read"
            if fault:
                return f"trace {net} line {fault[0]}: {fault[1]}"
        return "output not written" if self.output else None

    def frames(self):
        """Time, network and octets of each frame, in merged order."""
        both = [(moment, net, octets) for net, text in (("A", self.a), ("B", self.b)) for moment, octets in fault_and_frames(text)[1]]
        return sorted(both, key=lambda frame: frame[:2])

    def is_for_peer(self):
        """Whether another player has to do the same. It may not know `--threads` or `window`, and its memory is its own."""
        return not (self.has_threads or self.memory or b"window" in self.config or RARE_TOML.search(self.config))

    def command(self, program, folder, least):
        """A line for a shell."""
        quoted = [shlex.quote(program)] + [shlex.quote(word.decode()) if word.isascii() else "$'\\xff'" for word in self.words]
        limit = f"ulimit -v {(least + self.memory) // 1024} && " if least and self.memory else ""
        streams = f"< {'a.trace' if self.is_built_in else '/dev/null'} > {self.output or '/dev/stdout'}"
        return f"(cd {folder} && {limit}{' '.join(quoted)} {streams})"
