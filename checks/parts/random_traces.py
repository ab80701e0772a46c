"""Random cases of whole runs: a configuration, two traces and the words of a command line.

Most have frames of one sender on both networks: whole datagrams and fragments (shuffled, doubled, overlapping), lost
and late frames, sequence numbers out of turn, bad headers, foreign frames. Some have a fault in a trace or in the
configuration.
"""
import os
import struct

from parts.worked import with_sum

WORDS = ["--config", "config.toml", "--a", "a.trace", "--b", "b.trace"]


class Port:
    def __init__(self, r, link, place):
        self.name = f"p{link}-{place}"
        self.kind = r.choice(["sampling", "queuing"])
        self.udp = 5000 + place
        self.max = r.choice([None, None, 20, 100, 0])
        self.refresh = r.choice([0, 1000, 20000, 1000000000])
        self.depth = r.choice([1, 2, 4, 64])

    def text(self, link):
        lines = ["[[link.port]]", f'name = "{self.name}"', f'kind = "{self.kind}"',
                 f'address = "224.224.{link}.1"', f"udp = {self.udp}"]
        if self.max is not None:
            lines.append(f"max = {self.max}")
        lines.append(f"refresh_us = {self.refresh}" if self.kind == "sampling" else f"depth = {self.depth}")
        return lines


class Link:
    def __init__(self, r, place):
        self.place, self.number = place, 100 + place
        self.skew = r.choice([0, 100, 1000, 1000000])
        self.redundancy = r.random() < 0.85
        self.window = r.choice([None, None, 1, 2, 3, 4])
        self.limit = r.choice([0, 500, 5000, 10000000])
        self.ports = [Port(r, place, i) for i in range(r.randint(0, 5))]
        self.sequence, self.ident = r.choice([0, 1, 250]), r.randrange(65536)

    def text(self):
        lines = ["[[link]]", f"vl = {self.number}", f"skew_max_us = {self.skew}", f"reassembly_us = {self.limit}"]
        if not self.redundancy:
            lines.append("redundancy = false")
        if self.window is not None:
            lines.append(f"window = {self.window}")
        for port in self.ports:
            lines += port.text(self.place)
        return lines


def packet(r, link, ident, word, octets):
    version = 0x45 if r.random() > 0.01 else r.choice([0x44, 0x46, 0x65])
    protocol = 17 if r.random() > 0.01 else 6
    length = 20 + len(octets) + (0 if r.random() > 0.01 else r.choice([-30, 5, 2000, -len(octets) - 1]))
    head = struct.pack(">BBHHHBBH4s4s", version, r.randrange(256), length % 65536, ident, word, 1, protocol, 0,
                       bytes([10, 1, 1, r.choice([1, 1, 1, 2])]), bytes([224, 224, link.place, 1]))
    return with_sum(head, 0 if r.random() > 0.01 else 1) + octets


def datagram(r, link, size):
    port = r.choice(link.ports).udp if link.ports and r.random() > 0.03 else 7000
    length = 8 + size if r.random() > 0.02 else r.choice([0, 7, 8, 8 + size + 1, max(8, size // 2)])
    return struct.pack(">HHHH", 5001, port, length, r.randrange(65536)) + r.randbytes(size)


def pieces_of(r, whole):
    """A datagram in fragments: their words of flags and offset, and their octets."""
    pieces, start = [], 0
    while start < len(whole):
        end = min(len(whole), start + 8 * r.randint(1, 180))
        back = min(start, 8 * r.choice([0, 0, 0, 1, 2]))
        more = 0x2000 if end < len(whole) else 0
        pieces.append((more | (start - back) // 8, whole[start - back:end]))
        start = end
    if r.random() < 0.3:
        r.shuffle(pieces)
    if r.random() < 0.2:
        pieces.insert(r.randrange(len(pieces) + 1), r.choice(pieces))
    if r.random() < 0.1:
        pieces.pop(r.randrange(len(pieces)))
    if r.random() < 0.1:
        pieces.append((r.choice([0x2000, 0x0001, 0x1FFF, 0x3FFF, 0x2400]), r.randbytes(r.choice([0, 7, 8, 16, 800]))))
    return pieces


def frames_of(r, link):
    """The frames that a sender gives to both networks, without their sequence number."""
    size = r.choice([0, 1, 17, r.randint(0, 120), r.randint(0, 1464)])
    if r.random() < 0.15:
        size = r.choice([r.randint(100, 2000), 8184, 8185, 8192, 8193])
    whole = datagram(r, link, size)
    link.ident = (link.ident + r.choice([0, 1, 1, 1])) & 0xFFFF
    if size <= 1464 and r.random() < 0.9:
        parts = [(0, whole)]
    else:
        parts = pieces_of(r, whole)
    for word, octets in parts:
        constant = b"\x03\0\0\0" if r.random() > 0.01 else b"\x03\0\0\1"
        kind = b"\x08\0" if r.random() > 0.01 else b"\x08\6"
        number = link.number if r.random() > 0.01 else r.choice([1, 65535])
        body = constant + struct.pack(">H", number) + b"\2\0\0\0\1\x20" + kind + packet(r, link, link.ident, word, octets)
        yield body + bytes(max(0, 59 - len(body)))


def sent(r, links, count):
    """Traces A and B, as lists of times and frames."""
    time, traces = r.choice([0, 1000, 2**63 - 10**7, 2**64 - 1 - 10**9]), ([], [])
    delays = [0, r.choice([0, 5, 50, 900, 1200])]
    while len(traces[0]) + len(traces[1]) < count:
        link = r.choice(links)
        for body in frames_of(r, link):
            time += r.choice([0, 1, 10, 100, 500, 1000, 5000, 50000])
            link.sequence = link.sequence % 255 + 1
            if r.random() < 0.005:
                link.sequence = r.choice([0, 1, 255, r.randrange(256)])
            for trace, delay in zip(traces, delays):
                if r.random() < 0.04:
                    continue
                frame = body + bytes([link.sequence])
                if r.random() < 0.01:
                    frame = frame[:r.choice([0, 59, 60, 61, len(frame) - 1])]
                if r.random() < 0.005:
                    frame = frame + bytes(1515 - len(frame)) if len(frame) < 1515 else frame
                trace.append((time + delay + (r.choice([5, 50, 1500]) if r.random() < 0.03 else 0), frame))
    for trace in traces:
        trace.sort(key=lambda each: each[0])
    return traces


def line(r, time, frame):
    digits = frame.hex()
    case = r.random()
    if case < 0.1:
        digits = digits.upper()
    elif case < 0.15:
        digits = "".join(r.choice([each, each.upper()]) for each in digits)
    return f"{time} {digits}"


def bad(r, text):
    """A line that is some fault, or perhaps none."""
    place = r.randrange(len(text) + 1)
    return r.choice([
        text[:place] + r.choice(["g", " ", "\r", "\t", "é", "G", "/", ":", "@", "`"]) + text[place:],
        text[:place] + text[place + 1:],
        text[:place] + r.choice("gxz -") + text[place + 1:],
        "x", " ", "0", "0 ", "1", "00 00", "5  00", "-1 00", "18446744073709551616 00", "18446744073709551615 00",
        "1 0", "0 0g", "# " + "x" * 8191, "# " + "x" * 8190, "1 " + "0" * 8190, "1 " + "0" * 8191, "",
    ])


def trace_text(r, trace, is_bad):
    lines = []
    for time, frame in trace:
        if r.random() < 0.02:
            lines.append(r.choice(["", "#", "# a line that is skipped"]))
        lines.append(line(r, time, frame))
    if is_bad and lines:
        for _ in range(r.choice([1, 1, 2])):
            place = r.randrange(len(lines))
            lines[place] = bad(r, lines[place])
    text = "\n".join(lines) + ("\n" if r.random() < 0.9 else "")
    return text.encode("utf-8", "surrogateescape")


def config_text(r, links, is_bad):
    lines = ['constant = "03000000"'] if r.random() < 0.3 else []
    for link in links:
        lines += link.text()
    if is_bad:
        place = r.randrange(len(lines))
        key = lines[place].split(" = ")[0]
        lines[place] = r.choice(["", f"{key} = -1", f"{key} = true", f'{key} = ""', f"{key} = 99999999999", f"{key} = [1]", "[["])
    return ("\n".join(lines) + "\n").encode()


def write_case(r, folder, frames):
    links = [Link(r, place) for place in range(r.choice([1, 1, 2, 3]))]
    traces = sent(r, links, r.randint(1, frames))
    is_bad = r.random()
    texts = {"config.toml": config_text(r, links, is_bad < 0.1)}
    texts["a.trace"] = trace_text(r, traces[0], 0.1 <= is_bad < 0.3)
    texts["b.trace"] = trace_text(r, traces[1], 0.2 <= is_bad < 0.4)
    for name, text in texts.items():
        with open(os.path.join(folder, name), "wb") as file:
            file.write(text)
    words = list(WORDS)
    if r.random() < 0.4:
        last = max([time for trace in traces for time, _ in trace], default=0)
        words += ["--at", str(min(2**63 - 1, r.choice([0, last, last + 1000, 10**12, r.randrange(last + 1)])))]
    return words
