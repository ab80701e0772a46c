"""draw: the page has the report's counts and those of the lines, leads to packets, and knows pairs and gaps."""
import os
import random
import re
import struct
import subprocess
from html.parser import HTMLParser

import pytest
from conftest import CAPTURES, CONFIG, ROOT, TOOL, done, fault, tshark
from parts.worked import with_sum
from verdict_words import KINDS, NETWORKS

EXAMPLES = ROOT / "examples"
PAIRS = [(EXAMPLES / f"{name}_a.trace", EXAMPLES / f"{name}_b.trace") for name in ("network", "fragments", "turning")]
VOID = {"meta", "wbr", "br"}
BESIDES = ("lost", "delivered twice", "restart", "datagram given up")
LARGEST_PAGE, MOST_MEMORY = 5_000_000, 150_000_000


class Page(HTMLParser):
    """What a page has: tables, the counters, the links, figures, the numbers over the bins; and what it mustn't have."""

    def __init__(self, text):
        super().__init__()
        self.open, self.rows, self.links, self.figures, self.bins = [], [], {}, [], {}
        self.title = self.link = None
        self.feed(text)
        self.close()
        assert self.open == []
        assert not re.search(r"http|src=|@import|url\((?!#)", text)

    def handle_starttag(self, tag, attributes):
        found = dict(attributes)
        assert found.get("href", "#").startswith("#")
        assert tag != "svg" or "role" not in found or found["aria-label"]
        if tag == "tr":
            self.rows.append([])
        elif tag in ("td", "th"):
            self.rows[-1].append("")
        if tag == "details" and "data-link" in found:
            self.link = found["data-link"]
            self.links[self.link] = [[int(n) for n in found[f"data-{name}"].split()] for name in "ab"]
        if tag == "figure":
            self.figures.append(found)
        self.title = "" if tag == "title" else None
        if tag not in VOID:
            self.open.append(tag)

    def handle_startendtag(self, tag, attributes):
        self.handle_starttag(tag, attributes)
        if tag not in VOID:
            self.open.pop()

    def handle_data(self, data):
        if self.title is not None:
            self.title += data
        elif "td" in self.open or "th" in self.open:
            self.rows[-1][-1] += data

    def handle_endtag(self, tag):
        assert self.open.pop() == tag
        if tag == "title" and "rect" in self.open:
            self.bin(self.title)
        self.title = None
        if tag == "details":
            self.link = None

    def bin(self, title):
        """The times of a bin, and its numbers by network: `A: 3 sampled (line 7 and on), 1 redundant (line 9)`."""
        times, *lines = title.splitlines()
        begin, end = map(int, re.match(r"(\d+) to (\d+) ", times).groups())
        for line in lines:
            for number, name, packet in re.findall(r"(\d+) ([^,()]+) \(\w+ (\d+)(?: and on)?\)", line[3:]):
                if name not in BESIDES:
                    self.bins.setdefault((self.link, line[0], name), []).append((begin, end, int(number), int(packet)))

    def figure(self, name, value):
        return next(found for found in self.figures if found.get(name) == value)


def page(*names, config=CONFIG):
    return Page(done("draw", "--config", config, *names).decode())


def frames_of(lines):
    """Time and number of the frames by link, network and kind with its cause, from `play --packets`."""
    found = {}
    for number, *words in map(str.split, lines):
        if words[1] in NETWORKS and number != "-":
            at = (None, words[1], words[3]) if words[2] == "filtered" else (words[3], words[1], words[5])
            if words[-2] == "bad-header":
                at = (*at[:2], " ".join(words[5:]))
            found.setdefault(at, []).append((int(words[0]), int(number)))
    return found


def compare(*names, config=CONFIG):
    """A page with the output that `play` writes of the same frames."""
    found = page(*names, config=config)
    lines = done("play", "--config", config, "--packets", *names).decode().splitlines()
    report = [line.split()[1:] for line in lines if line.startswith("- ")]
    counts = {" ".join(words[1:3]): list(map(int, words[3:])) for words in report if words[0] == "count"}
    assert {f"{link} {net}": both[place] for link, both in found.links.items() for place, net in enumerate(NETWORKS)} == counts
    filtered = [words[2:] for words in report if words[0] == "filtered"]
    drawn = [one for one in found.figures if "data-filtered-a" in one]
    assert [[one[f"data-filtered-{net}"].split() for net in "ab"] for one in drawn] == \
        ([filtered] if set(sum(filtered, [])) != {"0"} else [])
    compare_bins(found.bins, frames_of(lines))
    compare_ports(found.figures, lines)
    return found


def compare_bins(bins, expected):
    """Each frame is in one bin, at its time, and the first one's number is said."""
    assert bins.keys() == expected.keys()
    for at, found in bins.items():
        for begin, end, number, packet in found:
            inside = [(time, each) for time, each in expected[at] if begin <= time <= end]
            assert (number, packet) == (len(inside), inside[0][1])
        assert sum(number for _, _, number, _ in found) == len(expected[at])


def compare_ports(figures, lines):
    frames = [words for line in lines if line[0].isdigit() and (words := line.split()[1:])[1] in NETWORKS]
    times, queues = {}, {}
    for words in frames:
        if words[-2] in ("queued", "overflow"):
            queues.setdefault(words[-1], [0, 0])[words[-2] == "overflow"] += 1
        elif "sampled" in words:
            times.setdefault(words[-2], []).append(int(words[0]))
    assert {one["data-sampling"]: int(one["data-oldest"]) for one in figures if "data-sampling" in one} == \
        {port: max(b - a for a, b in zip(at, [*at[1:], int(frames[-1][0])])) for port, at in times.items()}
    assert {one["data-queuing"]: [int(one["data-queued"]), int(one["data-overflow"])] for one in figures
            if "data-queuing" in one} == queues


@pytest.mark.parametrize("names", [*PAIRS[:2], (CAPTURES / "both.pcapng",), (CAPTURES / "a.pcap", CAPTURES / "b.pcap"),
                                   (CAPTURES / "a_tagged.pcap",), (CAPTURES / "empty.pcap",)])
def test_the_counts_are_those_of_the_output(names):
    compare(*names)


def test_turning_traces():
    """Copies come on A first, 20 to 140 microseconds before, and later on B first, 10 to 70; B loses frames for a
    while."""
    found = compare(*PAIRS[2], config=EXAMPLES / "turning.toml")
    delays = found.figure("data-delays", "7")
    on_a, on_b = (list(map(int, delays[f"data-first-{name}"].split())) for name in "ab")
    assert 20 <= on_a[1] and on_a[3] <= 140 and 10 <= on_b[1] and on_b[3] <= 70
    assert found.figure("data-verdicts", "7")["data-lost-b"] == "39 26 0 0 0"


def test_faults_lead_to_their_packets():
    rows = page(CAPTURES / "both.pcapng").rows
    late, = [row for row in rows if row[0] == "out-of-sequence" and len(row) == 3]
    shown = {number: name for number, name in tshark(CAPTURES / "both.pcapng", "-e", "frame.number", "-e", "frame.interface_id")}
    packets = re.findall(r"(\d+) of ([AB]) \(link 17\)", late[2])
    assert len(packets) == int(late[1]) and all(shown[number] == str("AB".index(net)) for number, net in packets)


def test_losses_are_those_that_were_made():
    """Number 4 is lost on A; 8, 9 and 10 on B, where 13 comes late."""
    found = page(CAPTURES / "a.pcap", CAPTURES / "b.pcap")
    rows = [row for row in found.rows if row[:1] == ["17"] and len(row) == 8]
    assert rows == [["17", "A", "1", "0", "1", "0", "0", "0"], ["17", "B", "3", "0", "3", "1", "0", "0"]]


def test_what_the_sender_and_the_networks_did_is_named():
    """A copy that made a second message, a restart, and which condition of the laws was broken first by what."""
    rows = page(CAPTURES / "faults.pcapng").rows
    twice, restart = (f"{packet} at 2023-11-14T22:13:20." for packet in ("33 of B", "64 of A"))
    assert ["17", "delivered twice", "1", f"{twice}033800"] in rows
    assert ["17", "restart", "1", f"{restart}116100 after 44000 us"] in rows
    assert ["skew-max", "1", f"{twice}033800: 1700 us after its first copy"] in [[row[0], *row[2:]] for row in rows if len(row) == 4]


def test_crossed_networks_are_told():
    said = [b"crossed networks" in done("draw", "--config", CONFIG, *(CAPTURES / f"{net}.pcap" for net in nets))
            for nets in ("ab", "ba")]
    assert said == [False, True]


def test_packets_that_were_left_out_are_named():
    assert any(row[0] == "left out: VLAN tag" and row[2].startswith("4 of A, ") for row in
               page(CAPTURES / "a_tagged.pcap").rows if len(row) == 3)


def test_a_configuration_that_the_program_refuses(written):
    assert "refused: not TOML" in fault(1, "draw", "--config", CAPTURES / "a.pcap", CAPTURES / "a.pcap")


# ---- small traces whose delays and gaps are known

TWO = """[[link]]
vl = 7
skew_max_us = 2000
reassembly_us = 50000
port = [{ name = "s", kind = "sampling", address = "224.0.0.7", udp = 1, refresh_us = 900, max = 40 },
        { name = "q", kind = "queuing", address = "224.0.0.7", udp = 2, depth = 3 }]

[[link]]
vl = 8
skew_max_us = 2000
redundancy = false
reassembly_us = 50000
port = [{ name = "only-8", kind = "sampling", address = "224.0.0.8", udp = 1, refresh_us = 300 }]
"""


def frame(link, sequence_number, kind, udp, size):
    """A frame, whole or with a mistake: `more` makes a fragment of it."""
    datagram = struct.pack(">HHHH", 9, udp, 8 + size + (9 if kind == "udp" else 0), 0) + bytes(size)
    more, protocol = 0x2000 if kind == "more" else 0, 6 if kind == "protocol" else 17
    head = struct.pack(">BBHHHBBH4s4s", 0x45, 0, 20 + len(datagram), sequence_number, more, 9, protocol, 0,
                       bytes([10, 0, 0, 1]), bytes([224, 0, 0, link]))
    octets = bytes([3, 0, 0, kind == "foreign", 0, link, 2, 0, 0, 0, 1, 0x20, 8, 0]) + with_sum(head, kind == "checksum")
    return ((octets + datagram).ljust(59, b"\0") + bytes([sequence_number])).hex()


def small_traces(seed, is_lossy):
    """Two traces, and the delays of the second copies of link 7, which come on A first."""
    source, time, late, delays = random.Random(seed), 500, 0, []
    lines, numbers = ([], []), {7: 0, 8: 0}
    for _ in range(source.randint(1, 90)):
        time += source.choice([1, 40, 300, 2500])
        link = source.choice([7, 7, 8, 9] if is_lossy else [7, 7, 8])
        kind = source.choice(["", "", "", "", "udp", "more", "protocol", "checksum", "foreign"] if is_lossy else [""])
        number = numbers.get(link, 0)
        numbers[link] = number % 255 + 1
        octets = frame(link, number, kind, source.choice([1, 1, 2, 3]), source.choice([8, 32, 80]))
        octets = octets[:100] if is_lossy and source.random() < 0.1 else octets
        second = max(time + source.randint(1, 250), late)
        if not is_lossy or source.random() < 0.9:
            lines[0].append(f"{time} {octets}\n")
        if not is_lossy or source.random() < 0.9:
            lines[1].append(f"{second} {octets}\n")
            late = second
        if link == 7:
            delays.append(second - time)
    return *map("".join, lines), sorted(delays)


@pytest.mark.parametrize("seed", range(12))
def test_small_traces(seed, written):
    is_lossy = seed % 2 == 1
    a, b, delays = small_traces(seed, is_lossy)
    found = compare(written("a.trace", a), written("b.trace", b), config=written("two.toml", TWO))
    if not is_lossy and delays:
        middle = delays[(len(delays) - 1) // 2]
        assert found.figure("data-delays", "7")["data-first-a"] == f"{len(delays)} {delays[0]} {middle} {delays[-1]}"
        assert found.figure("data-verdicts", "7")["data-lost-a"] == "0 0 0 0 0"


def test_copies_are_paired_by_their_numbers(written):
    """The copy of number 2 is lost, and that of 3 comes after number 4: an order alone would pair them wrong."""
    a = [(0, 1), (1000, 2), (2000, 3), (2040, 4)]
    b = [(100, 1), (2100, 3), (2150, 4)]
    names = [written(net, "".join(f"{time} {frame(7, number, '', 1, 8)}\n" for time, number in frames))
             for net, frames in (("a", a), ("b", b))]
    found = compare(*names, config=written("two.toml", TWO))
    delays, verdicts = found.figure("data-delays", "7"), found.figure("data-verdicts", "7")
    assert delays["data-first-a"] == "3 100 100 110" and verdicts["data-lost-b"] == "1 1 0 0 0"


def test_a_delay_beyond_skew_max_has_another_colour(written):
    names = [written(net, "".join(f"{time} {frame(7, number, '', 1, 8)}\n" for time, number in frames))
             for net, frames in (("a", [(0, 1), (5000, 2)]), ("b", [(100, 1), (7500, 2)]))]
    found = compare(*names, config=written("two.toml", TWO))
    delays = found.figure("data-delays", "7")
    assert delays["data-beyond"] == "1" and delays["data-first-a"] == "2 100 100 2500"
    assert "first-a beyond" in done("draw", "--config", written("two.toml", TWO), *names).decode()


def test_the_strip_of_a_network_that_died(written):
    """Its frames end where it did; the copies that it lost since are none."""
    names = [written(net, "".join(f"{1000 * place} {frame(7, place % 255 + 1, '', 1, 8)}\n" for place in range(count)))
             for net, count in (("a", 400), ("b", 100))]
    text = done("draw", "--config", written("two.toml", TWO), *names).decode()
    strip = re.search(r'<svg class="strip".*?</svg>', text, re.DOTALL)[0]
    ends = [max(float(x) for x in re.findall(r"H([0-9.]+)", drawn)) for drawn in re.findall(r'class="frames" d="([^"]+)"', strip)]
    assert ends[0] > 315 and 75 < ends[1] < 85


def test_a_queue_that_is_emptied_by_a_period(written):
    """Three messages fit; taken each 10 milliseconds two of five are lost."""
    trace = written("a", "".join(f"{1000 * place} {frame(7, place, '', 2, 8)}\n" for place in range(1, 6)))
    found = page(trace, config=written("c", TWO.replace("depth = 3", "depth = 3, take_us = 10000")))
    queue = found.figure("data-queuing", "q")
    assert (queue["data-queued"], queue["data-overflow"], queue["data-most"]) == ("3", "2", "3")
    queue = page(trace, config=written("c", TWO)).figure("data-queuing", "q")
    assert (queue["data-queued"], queue["data-overflow"], queue["data-most"]) == ("5", "0", "1")


def test_many_frames_make_a_bounded_page(written):
    """Some 120,000 frames of 16 links: the page and the memory stay small."""
    config = "".join(f'[[link]]\nvl = {vl}\nskew_max_us = 2000\nreassembly_us = 50000\nport = [{{name = "p{vl}", kind = '
                     f'"sampling", address = "224.0.0.{vl}", udp = 1, refresh_us = 900}}]\n' for vl in range(16))
    bodies = [frame(vl, 0, "", 1, 8)[:-2] for vl in range(16)]
    texts = ["".join(f"{60 * place + 20 * net} {bodies[place % 16]}{place // 16 % 255 + 1:02x}\n" for place in range(60_000))
             for net in range(2)]
    words = [TOOL, "draw", "--config", written("c", config), written("a", texts[0]), written("b", texts[1])]
    process = subprocess.Popen(words, stdout=subprocess.PIPE)
    text = process.stdout.read().decode()
    _, status, taken = os.wait4(process.pid, 0)
    assert status == 0 and taken.ru_maxrss * 1024 < MOST_MEMORY
    assert len(text) < LARGEST_PAGE and Page(text).links["3"][0][KINDS.index("sampled")] == 3750


def test_the_axis_has_the_time_of_day():
    """Of a capture's frames beside the time since the first; a trace's have none."""
    def axis(*names):
        text = done("draw", "--config", CONFIG, *names).decode()
        return re.findall(r">([^<>]+)</text>", text.partition('<g id="times"')[2].partition("</g>")[0])
    assert axis(CAPTURES / "faults.pcapng") == [
        *map(str, range(0, 160, 20)), *(f"22:13:20.{value:03}" for value in range(0, 160, 20)),
        "ms after the first frame, which came at 0 µs, 2023-11-14 22:13:20 UTC"]
    assert not [one for one in axis(*PAIRS[0]) if ":" in one]
