"""check: nothing where nothing is wrong, each slip with its place, and the program's own refusal."""
import os
import random
import re
import subprocess
import tempfile

import pytest
from conftest import CAPTURES, CONFIG, PROGRAM, ROOT, fault, run
from workbench import places

GOOD = CONFIG.read_text()
A, B = CAPTURES / "a.pcap", CAPTURES / "b.pcap"
ONE = GOOD.split("[[link]]\nvl = 18")[0]
# What those captures don't refute: a copy on B comes 33 milliseconds late, and messages some 60 apart.
FITS = ONE.replace("skew_max_us = 1000", "skew_max_us = 40000").replace("refresh_us = 20000", "refresh_us = 100000")


def slips(*words):
    """The lines of check, without the file's name where it is the configuration."""
    found = run("check", *words)
    assert found.returncode == (1 if found.stdout else 0) and b"Traceback" not in found.stderr, found.stderr
    return [line.removeprefix(f"{words[0]}:") for line in found.stdout.decode().splitlines()]


def slips_of(written, text, *captures):
    return slips(written("c.toml", text), *captures)


def test_nothing_is_found_where_nothing_is_wrong(written, tmp_path):
    assert slips(CONFIG) == slips(ROOT / "examples" / "turning.toml") == []
    assert slips_of(written, GOOD.replace("udp = 5000", "udp = 5000\nreaders = 8")) == []
    assert slips_of(written, FITS, A, B) == slips_of(written, FITS, CAPTURES / "both.pcapng") == []
    for profile in ("sampling", "queuing", "fragments", "mixed"):
        words = [ROOT / "peer" / "gen_trace.py", "--frames", "200", "--profile", profile, "--out-dir", tmp_path]
        subprocess.run(words, check=True, capture_output=True)
        assert slips(tmp_path / "config.toml") == []


@pytest.mark.parametrize("old, new, told", [
    ("vl = 17", "vl = 70000", "4: link 70000: refused: vl out of range (allowed: an integer from 0 to 65535)"),
    ("vl = 17", "vl = true", "4: link at place 1: refused: wrong kind of vl (allowed: an integer from 0 to 65535)"),
    ("vl = 18", "vl = 17", "23: link 17: refused: link given twice (allowed: a number that no other link has)"),
    ('kind = "queuing"', 'kind = "queueing"', "17: link 17 port nav: refused: kind out of range (allowed: \"sampling\" or \"queuing\")"),
    ('name = "nav"', 'name = "pos"',
     "16: link 17 port pos: refused: name given twice (allowed: a name that no other port has)"),
    ('name = "alt"', 'name = "pos"',
     "28: link 18 port pos: refused: name given twice (allowed: a name that no other port has)"),
    ("udp = 5002", "udp = 5000", "19: link 17 port nav: refused: port given twice (allowed: an address and UDP port that "
     "no other port of the link has)"),
    ("depth = 4", "depth = 4.0", "20: link 17 port nav: refused: wrong kind of depth (allowed: an integer from 1 to 64)"),
    ("depth = 4\n", "", "15: link 17 port nav: refused: missing depth (allowed: an integer from 1 to 64)"),
    ("skew_max_us = 1000\n", "", "3: link 17: refused: missing skew_max_us (allowed: an integer from 0 to 1000000)"),
    ("224.224.0.18", "224.224.0.018", "30: link 18 port alt: refused: address out of range (allowed: a string of four numbers from 0 to 255 with dots between them)"),
    ("[[link]]\nvl = 17", "constant = 3\n[[link]]\nvl = 17", "3: refused: wrong kind of constant (allowed: a string of 8 hexadecimal digits)"),
    ("vl = 18\nskew_max_us = 1000", "vl = 18\nport = 1\nskew_max_us = true", "25: link 18: refused: wrong kind of skew_max_us (allowed: an integer from 0 to 1000000)"),
    ("depth = 4", "dept = 4\ndepth = 4", "20: link 17 port nav: unknown key dept is ignored (depth of a port?)"),
    ("vl = 17", "vl = 17\nredundncy = false", "5: link 17: unknown key redundncy is ignored (redundancy of a link?)"),
    ("vl = 17", "vl = 17\nudp = 1", "5: link 17: unknown key udp is ignored (udp of a port?)"),
    ("depth = 4", "depth = 4\nrefresh_us = 1", "21: link 17 port nav: refresh_us is ignored at a queuing port"),
    ("depth = 4", "depth = 4\nreaders = 2", "21: link 17 port nav: readers is ignored at a queuing port"),
    ("udp = 5000", "udp = 5000\nreaders = 9", "13: link 17 port pos: readers isn't a whole number, 1 to 8"),
    ("224.224.0.18", "224.224.0.17", "27: link 18 port alt: 224.224.0.17 UDP 5000 is also a port of link 17"),
    ("224.224.0.18", "224.224.1.18",
     "30: link 18 port alt: the address ends in 274, where most end in their link's number (18)"),
    ("vl = 17", "vl =", "4: refused: not TOML: Invalid value (at line 4, column 5)"),
    ("vl = 17", "vl = 99999999999999999999", "1: refused: not TOML"),
])
def test_each_slip_with_its_place(old, new, told, written):
    if "port = 1" in new:
        text = GOOD.split("[[link.port]]\nname = \"alt\"")[0].replace(old, new, 1)
    else:
        text = GOOD.replace(old, new, 1)
    assert told in slips_of(written, text)


def test_all_faults_in_one_run(written):
    """Each with its place, and no other: those of one port, and those after it."""
    text = GOOD.replace("vl = 17", "vl = -1").replace('kind = "queuing"', 'kind = "queueing"').replace("depth = 4", "depth = 65")
    found = slips_of(written, text.replace('name = "alt"', 'name = "pos"'))
    assert [line.split("refused: ")[1].partition(" (")[0] for line in found] == \
        ["vl out of range", "kind out of range", "depth out of range", "name given twice"]
    assert [line.partition(":")[0] for line in found] == ["4", "17", "20", "28"]


def test_many_links_and_ports(written):
    """The first link or port that is too many, and a slip of the last one."""
    link = "[[link]]\nvl = {}\nskew_max_us = 1\nreassembly_us = 1\n"
    port = '[[link.port]]\nname = "p{}"\nkind = "queuing"\naddress = "1.2.3.4"\nudp = {}\ndepth = 1\n'
    links = "".join(link.format(number) for number in range(70))
    allowed = "(allowed: 64 links, 32 ports of a link)"
    assert slips_of(written, links) == [f"257: link 64: refused: too many links or ports {allowed}"]
    ports = "".join(port.format(number, number) for number in range(40))
    assert slips_of(written, link.format(5) + ports) == [f"197: link 5 port p32: refused: too many links or ports {allowed}"]
    assert slips_of(written, link.format(5) + ports.replace("udp = 31", "udp = 70000").split("[[link.port]]\nname = \"p32")[0]) \
        == ["195: link 5 port p31: refused: udp out of range (allowed: an integer from 0 to 65535)"]


def test_mended_addresses_are_no_fault(written):
    """Two wrong addresses of one link with one UDP port: each is told, and no third fault."""
    text = GOOD.replace("224.224.0.17", "224.224.0.017").replace("udp = 5002", "udp = 5000")
    assert [line.split(" (")[0] for line in slips_of(written, text) if "refused" in line] == [
        "11: link 17 port pos: refused: address out of range", "18: link 17 port nav: refused: address out of range"]


def test_what_captures_show(written):
    assert slips_of(written, GOOD.replace(ONE, FITS), A, B) == ["22: link 18: no frame of it in the captures"]
    assert slips_of(written, FITS, B, A) == \
        ["b.pcap: crossed networks: most source addresses of A say interface 2, and most of B interface 1; "
         "--networks source follows them"]
    assert slips_of(written, FITS.replace("17", "16").replace("0.17", "0.16"), A, B) == [
        "a.pcap: packet 1: link 17 isn't in the configuration; frames: 17 of A and 15 of B",
        "3: link 16: no frame of it in the captures"]


def changed(old, new):
    return FITS.replace(old, new)


@pytest.mark.parametrize("old, new, told", [
    ("udp = 5002", "udp = 5003", [
        "3: link 17: no port for 224.224.0.17 UDP 5002: 3 frames, the first packet 2 of A",
        "3: link 17: no port for 224.224.0.17 of a datagram in fragments: 3 frames, the first packet 5 of A",
        "15: link 17 port nav: no message came to it"]),
    ("depth = 4", "depth = 4\nmax = 1500", [
        "15: link 17 port nav: 2 of its 6 messages were longer than max 1500, the first packet 5 of A"]),
    ("udp = 5000", "udp = 5000\nmax = 0", [
        "8: link 17 port pos: 7 of its 8 messages were longer than max 0, the first packet 1 of A",
        "8: link 17 port pos: refresh_us 100000: its newest message was stale at the end, 281451 us old"]),
    ("skew_max_us = 40000", "skew_max_us = 1000", [
        "3: link 17: skew_max_us 1000 is below the delays of 1 of 14 second copies, up to 32595 us"]),
    ("refresh_us = 100000", "refresh_us = 20000", [
        "8: link 17 port pos: refresh_us 20000: the message was stale 7 times, before most of 8 messages; it was 63564 us "
        "old at most"]),
    ("reassembly_us = 50000", "reassembly_us = 0", [
        "3: link 17: reassembly_us 0: no datagram in parts was joined; 3 times one was given up"]),
])
def test_what_a_capture_refutes(old, new, told, written):
    assert slips_of(written, changed(old, new), A, B) == told


def test_networks_that_are_absent_or_joined(written, tmp_path):
    assert slips_of(written, FITS, A) == [
        "a.pcap: no frame of any link on B"]
    joined = tmp_path / "joined.pcap"
    subprocess.run(["mergecap", "-F", "pcap", "-w", joined, A, B], check=True)
    assert "joined.pcap: frames of both networks on A, by their source addresses: 17 say A and 15 say B; --networks source " \
        "tells them apart" in slips_of(written, FITS, joined)
    assert slips(written("c.toml", FITS), joined, "--networks", "source") == []


def test_two_captures_of_one_network(written):
    assert slips_of(written, FITS, A, A) == ["a.pcap: most source addresses of B say interface 1, which is A"]
    assert slips_of(written, FITS, B, B)[0] == "b.pcap: most source addresses of A say interface 2, which is B"


def test_a_file_that_breaks_off_is_told_by_the_status(written):
    """Whether there is a slip or none; and as health does."""
    broken = written("zeros.pcapng", (CAPTURES / "both.pcapng").read_bytes() + bytes(4096))
    for text in (FITS, changed("depth = 4", "depth = 4\nmax = 1500")):
        config = written("c.toml", text)
        found = run("check", config, broken)
        assert found.returncode == run("health", "--config", config, broken).returncode == 5
        assert bool(found.stdout) == (text != FITS) and b"32 packets before were played" in found.stderr


def test_a_clock_that_is_ahead_is_a_slip(written):
    found = slips_of(written, GOOD, CAPTURES / "ahead_a.pcap", CAPTURES / "ahead_b.pcap")
    assert "ahead_b.pcap: B's clock seems 3200 us ahead of the other's, if it isn't its frames' delay: --shift-b -3200" in found
    assert not [line for line in found if "skew_max_us" in line or "refresh_us" in line]


def test_frames_that_come_too_often_for_the_bag(written):
    found = slips_of(written, changed("vl = 17", "vl = 17\nname = \"ADC 1\"\nbag_us = 10000"), A, B)
    assert found[0].startswith("3: link 17: bag_us 10000: ") and "frames came before it was over, less 500 of jitter" in found[0]
    assert slips_of(written, changed("vl = 17", "vl = 17\nbag_us = 0")) == [
        "5: link 17: bag_us isn't a whole number of microseconds, 1 to 1000000000"]


def steady(count, gap, since=0):
    """A trace of link 17 with a frame each `gap` microseconds."""
    frame = next(line.split()[1] for line in (ROOT / "examples" / "network_a.trace").read_text().splitlines() if line[0] == "1")
    return "".join(f"{since + place * gap} {frame[:-2]}{place % 255 + 1:02x}\n" for place in range(count))


def skews(written, skew, *traces, more=""):
    """The slips of SkewMax: traces of networks that bring the same show no other."""
    text = ONE.replace("skew_max_us = 1000", f"skew_max_us = {skew}{more}").replace("refresh_us = 20000", "refresh_us = 1000000")
    return [line for line in slips_of(written, text, *traces) if "skew_max_us" in line]


def test_a_skew_of_128_gaps(written):
    trace = written("t", steady(200, 10))
    for skew in (1280, 1281, 2551):
        assert skews(written, skew, trace, trace) == [
            f"3: link 17: skew_max_us {skew} and the 0 us that delays differ by aren't below the 1280 us in which 128 more "
            "of its frames came (docs/DELIVERY.md)"]
    assert skews(written, 1279, trace, trace) == skews(written, 1000000, trace, trace, more="\nredundancy = false") == []


def test_the_gaps_are_those_of_128_frames_at_their_closest(written):
    """128 frames and a gap of 127 show nothing; of both networks the one counts whose frames are closest."""
    few, many, closer = (written(name, steady(*given)) for name, given in
                         [("few", (128, 10)), ("many", (129, 10)), ("closer", (129, 9))])
    assert skews(written, 1280, few, few) == skews(written, 1023, many, closer) == []
    assert "the 1280 us in which" in skews(written, 1280, many, many)[0]
    assert "the 1152 us in which" in skews(written, 1152, many, closer)[0]


def test_what_delays_differ_by_counts_beside_skew_max(written):
    """Below 128 gaps alone it isn't enough."""
    a, b = written("a", steady(200, 10)), written("b", steady(200, 10, since=9))
    assert skews(written, 1270, a, b) == []
    assert "skew_max_us 1271 and the 9 us that delays differ by aren't below the 1280 us" in skews(written, 1271, a, b)[0]


def test_a_restart_within_skew_max(written):
    """A sender that begins anew with 0, 1,000 us after its last frame: SkewMax and the delays have to be below that."""
    frame = steady(1, 8000).split()[1]
    again = "".join(f"{{}} {frame[:-2]}{number:02x}\n" for number in range(3))
    a, b = (written(net, steady(3, 8000, since) + again.format(*(17_000 + since + 8000 * n for n in range(3))))
            for net, since in (("a", 0), ("b", 100)))
    assert skews(written, 899, a, b) == []
    assert skews(written, 900, a, b) == [
        "3: link 17: skew_max_us 900 and the 100 us that delays differ by aren't below the 1000 us after which its sender "
        "restarted (docs/DELIVERY.md)"]


@pytest.mark.parametrize("read_us", ["", "\nread_us = 1000", "\nread_us = 100000"])
def test_staleness_is_counted_by_messages_whoever_reads(read_us, written):
    """A refresh below the usual gap is a slip; an outage of a link that is fine is none, however often a reader found it."""
    trace = written("t", steady(200, 8000))
    outage = written("o", steady(100, 8000) + steady(200, 8000, 3_000_000).split("\n", 100)[100])
    for refresh, came, told in ((2400, trace, ["the message was stale 199 times, before most of 200 messages"]),
                                (20_000, outage, [])):
        text = ONE.replace("refresh_us = 20000", f"refresh_us = {refresh}{read_us}")
        found = [line for line in slips_of(written, text, came, came) if "refresh_us" in line]
        assert [line.partition(f"refresh_us {refresh}: ")[2].partition(";")[0] for line in found] == told


def test_a_foreign_constant_that_most_frames_have(written):
    found = slips_of(written, 'constant = "03000001"\n' + ONE, A, B)
    assert found[:2] == [
        f"{net}: {count} of {count} frames have the constant field 03000000, and the configuration 03000001"
        for net, count in (("a.pcap", 17), ("b.pcap", 15))] and "link 17: no frame of it" in found[2]


def test_traces_that_are_none(written):
    for text, told in [("1 0g\n", "trace A line 1: hex"), ("1 00\n" + "0" * 10_000, "trace A line 2: long line")]:
        found = run("check", CONFIG, written("t", text))
        assert (found.returncode, found.stderr.decode()) == (5, f"yelunnavi: {told}\n") and found.stdout


def test_files_that_are_no_configuration(written, tmp_path):
    assert slips_of(written, b"a = 1\nb = '\xff'\n")[0].startswith("2: refused: not TOML: 'utf-8' codec")
    assert slips_of(written, "a = " + "[" * 5000)[0].startswith("1: refused: not TOML: ")
    assert slips_of(written, "") == ["1: refused: missing link (allowed: 1 to 64 tables)"]
    assert run("check", tmp_path).returncode == run("check", "/nowhere").returncode == 3
    assert "/proc/self/mem: not read: " in fault(3, "check", "/proc/self/mem")
    assert "control?character" in slips_of(written, GOOD + '"control\\u001bcharacter" = 1\n')[0]


def test_names_of_any_letters(written):
    text = GOOD.replace("depth = 4", "depth = 400\n\"\\U0001F600 \\u007f\" = '\\u1F600'")
    assert slips_of(written, text)[0] == "20: link 17 port nav: refused: depth out of range (allowed: an integer from 1 to 64)"


def test_places_of_odd_forms():
    """What isn't taken apart falls back on what it stands in; and on line 1 where a text looks like a header."""
    text = 'x = 1\nlink = [{vl = 1, port = [\n {name = "a"},\n {name = "b"}]}]\n[other]\nvl = 3\n'
    found = places.Document("c.toml", text.encode())
    assert [found.line_of(path) for path in [("x",), ("link", 0, "port", 1, "name"), ("other", "vl"), ("y",)]] == [1, 2, 6, 1]
    text = '[[link]]\nvl = 1\ny = """\n[[link]]\n"""\n'
    assert places.Document("c.toml", text.encode()).lines == {(): 1}


VALUES = ["1", "-1", "0", "5000", "1.5", "true", '""', '"sampling"', '"queuing"', '"224.224.0.17"', '"x"', "[]", "[1]", "{}",
          "70000", "10000001", "[{}]", "65", '"1.2.3"', '"01.2.3.4"', "9223372036854775808", "1979-05-27", '"\\u007f\\n"',
          "inf", "07:32:00", '[{a = "b", c = [1.5e3]}]']


def mutated(rng):
    lines = GOOD.splitlines()
    for _ in range(rng.choice([1, 1, 2, 3])):
        place = rng.randrange(len(lines))
        key, equals, _ = lines[place].partition(" = ")
        kind = rng.random()
        if equals and kind < 0.6:
            lines[place] = f"{key} = {rng.choice(VALUES)}"
        elif kind < 0.8:
            del lines[place]
        else:
            lines.insert(place, rng.choice(lines))
    return "\n".join(lines)


def refusal_of(text):
    """What the program says of a configuration."""
    with tempfile.NamedTemporaryFile() as file:
        file.write(text.encode())
        file.flush()
        words = [PROGRAM, "--config", file.name, "--a", os.devnull, "--b", os.devnull]
        done = subprocess.run(words, capture_output=True, text=True)
    return done.stderr.strip().removeprefix("afdx_play: config: ")


def test_the_first_refusal_is_the_programs(written):
    """Random configurations: the first fault is said in the program's words, and once all are mended none is left."""
    rng, faulty = random.Random(5), 0
    for _ in range(150):
        text = mutated(rng)
        refusal = refusal_of(text)
        found = [line for line in slips_of(written, text) if "refused: " in line]
        words = [re.split(r" \(allowed|:", line.partition("refused: ")[2])[0] for line in found]
        assert words[:1] == ([refusal] if refusal else []), text
        faulty += len(words) > 1
    assert faulty > 10
