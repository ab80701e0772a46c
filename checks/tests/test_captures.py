"""Captures of the kernel's own stack, read as tshark reads them, and captures that are torn or forged."""
import argparse
import io
import os
import random
import struct
import subprocess

import pytest
from conftest import CAPTURES, CONFIG, PROGRAM, ROOT, TOOL, done, fault, run, tshark, verdicts
from workbench import captures, exporting, stream
from workbench.faults import Fault

KERNELS = sorted(path.name for path in CAPTURES.iterdir() if "pcap" in path.suffix)
BOTH = CAPTURES / "both.pcapng"


def read(path):
    with open(path, "rb") as file:
        return [captures.Packet(*one) for one in captures.packets(file, file.read(4)) if one]


def play(*names):
    return done("play", "--config", CONFIG, *names)


@pytest.mark.parametrize("name", KERNELS)
def test_packets_are_those_of_tshark(name):
    path = CAPTURES / name
    shown = tshark(path, *(word for field in ("frame.number", "frame.interface_id", "frame.time_epoch", "frame.len",
                                              "frame.cap_len") for word in ("-e", field)))
    found = [[str(packet.number), str(packet.interface), f"{packet.time // 10**9}.{packet.time % 10**9:09d}",
              str(packet.length), str(len(packet.octets))] for packet in read(path)]
    assert found == [[number, interface or "0", *rest] for number, interface, *rest in shown]


@pytest.mark.parametrize("name", ["a.pcap", "a_nano.pcap", "both.pcapng"])
def test_octets_are_those_of_scapy(name):
    utils = pytest.importorskip("scapy.utils")
    assert [packet.octets for packet in read(CAPTURES / name)] == \
        [octets for octets, _ in utils.RawPcapReader(str(CAPTURES / name))]


@pytest.mark.parametrize("form", ["pcap", "nsecpcap", "pcapng"])
def test_every_form_gives_the_same_verdicts(form, tmp_path):
    made = []
    for net in "ab":
        subprocess.run(["editcap", "-F", form, CAPTURES / f"{net}_nano.pcap", tmp_path / net], check=True)
        made.append(tmp_path / net)
    assert verdicts(play(*made)) == verdicts(play(CAPTURES / "a.pcap", CAPTURES / "b.pcap"))


def test_both_byte_orders(written):
    """The other byte order of what the kernel's tcpdump wrote."""
    whole, changed = (CAPTURES / "a.pcap").read_bytes(), b""
    changed += struct.pack(">IHHiIII", *struct.unpack("<IHHiIII", whole[:24]))
    place = 24
    while place < len(whole):
        head = struct.unpack("<4I", whole[place:place + 16])
        changed += struct.pack(">4I", *head) + whole[place + 16:place + 16 + head[2]]
        place += 16 + head[2]
    assert play(written("big.pcap", changed), CAPTURES / "b.pcap") == play(CAPTURES / "a.pcap", CAPTURES / "b.pcap")


def test_two_files_two_interfaces_and_a_pipe_agree(tmp_path):
    merged = tmp_path / "merged.pcapng"
    subprocess.run(["mergecap", "-I", "none", "-w", merged, CAPTURES / "a_nano.pcap", CAPTURES / "b_nano.pcap"], check=True)
    expected = play(CAPTURES / "a_nano.pcap", CAPTURES / "b_nano.pcap")
    assert play(merged) == expected
    assert done("play", "--config", CONFIG, "-", data=merged.read_bytes()) == expected
    swapped = done("play", "--config", CONFIG, "--interfaces", "1,0", merged)
    assert sum(words.startswith(b"A") for words in verdicts(swapped)) == 15


def test_packets_that_dumpcap_wrote_out_of_order_are_put_in_order():
    found = run("play", "--config", CONFIG, BOTH)
    assert b"put in order" in found.stderr and b"left out" not in found.stderr
    assert sorted(verdicts(found.stdout)) == sorted(verdicts(play(CAPTURES / "a.pcap", CAPTURES / "b.pcap")))


def test_the_window_of_order(written):
    """The third packet stands after the eighth."""
    whole = (CAPTURES / "a.pcap").read_bytes()
    head, records = whole[:24], [whole[16 + place:16 + place + size + 16] for place, size in places(whole)]
    path = written("late.pcap", head + b"".join(records[:2] + records[3:8] + [records[2]] + records[8:]))
    assert play("--reorder", "5", path) == play(CAPTURES / "a.pcap")
    late = run("play", "--config", CONFIG, "--reorder", "4", path)
    assert late.returncode == 0 and b"left out, too late for its place: packet 8" in late.stderr


def places(pcap):
    """Sixteen octets before each record of a pcap, and how many octets its packet has."""
    place = 24
    while place < len(pcap):
        size = struct.unpack("<I", pcap[place + 8:place + 12])[0]
        yield place - 16, size
        place += 16 + size


def test_times_are_microseconds_since_the_first_packet():
    found = run("play", "--config", CONFIG, CAPTURES / "a_nano.pcap", CAPTURES / "b_nano.pcap")
    times = sorted(packet.time for net in "ab" for packet in read(CAPTURES / f"{net}_nano.pcap"))
    base = times[0]
    assert [int(line.split()[0]) for line in found.stdout.splitlines() if b" vl " in line] == \
        [(time - base) // 1000 for time in times]
    assert f"time 0 is {base // 10**9}.{base % 10**9:09d} seconds of 1970".encode() in found.stderr


def of_nanoseconds(*packets):
    """A pcapng of two interfaces with a frame and its copies: for each its interface and its nanoseconds."""
    octets = read(CAPTURES / "a.pcap")[0].octets
    head = [captures.written_section("test"), *(captures.written_interface(name, name) for name in "ab")]
    return b"".join(head + [captures.written_packet(net, time, octets, None, "") for net, time in packets])


def test_frames_within_one_microsecond_keep_their_order(written):
    """B's copy comes 400 ns before A's, and another pair as far apart the other way round."""
    path = written("nano.pcapng", of_nanoseconds((1, 5_000_300), (0, 5_000_700), (0, 9_000_100), (1, 9_000_900)))
    lines = [line.split()[:2] for line in play(path).splitlines() if line[:1].isdigit()]
    assert lines == [[b"0", b"B"], [b"1", b"A"], [b"3999", b"A"], [b"4000", b"B"]]


def test_frames_of_the_same_nanosecond_are_played_a_first(written):
    path = written("nano.pcapng", of_nanoseconds((1, 5_000_300), (0, 5_000_300)))
    assert [line.split()[:2] for line in play(path).splitlines() if line[:1].isdigit()] == [[b"0", b"A"], [b"0", b"B"]]


def test_packets_that_were_lost_while_capturing_are_told(written):
    lost = captures.written_block(captures.STATISTICS, struct.pack("<III", 1, 0, 0), (5, struct.pack("<Q", 7)))
    found = run("play", "--config", CONFIG, written("lost.pcapng", of_nanoseconds((0, 5_000_000)) + lost))
    assert found.returncode == 0
    assert b"7 packets were lost while it was captured, on interface 1" in found.stderr


def test_losses_are_counted_by_the_interfaces_that_there_are(written):
    """The latest count of a section's interface stands, those of sections are added, and no other interface has any."""
    def lost(interface, count):
        head = struct.pack("<III", interface, 0, 0)
        return captures.written_block(captures.STATISTICS, head, (5, struct.pack("<Q", count)))
    one, others = of_nanoseconds((0, 5_000_000)), b"".join(lost(interface, 1) for interface in range(2, 2000))
    path = written("lost.pcapng", one + lost(1, 3) + lost(1, 7) + one + lost(1, 4) + others)
    told = run("play", "--config", CONFIG, path).stderr
    assert told.count(b"lost while it was captured") == 1
    assert b"11 packets were lost while it was captured, on interface 1" in told


def test_the_captures_with_faults_are_what_their_script_makes(tmp_path):
    subprocess.run([CAPTURES / "make_faults.py", tmp_path], check=True)
    made = sorted(path.name for path in tmp_path.iterdir())
    assert made == ["ahead_a.pcap", "ahead_b.pcap", "faults.pcapng"]
    assert all((tmp_path / name).read_bytes() == (CAPTURES / name).read_bytes() for name in made)


def test_each_fault_shows(tmp_path):
    """By the rules: the copy that is too late, A after its outage, the lost fragment, the damaged frame; and no other."""
    lines = [line.split() for line in play(CAPTURES / "faults.pcapng").splitlines() if line[:1].isdigit()]
    odd = [(int(line[0]), line[1], line[3], line[5]) for line in lines if line[5] not in (b"sampled", b"redundant")]
    assert odd == [(72_000, b"A", b"17", b"out-of-sequence"), (74_000, b"A", b"18", b"out-of-sequence"),
                   (124_000, b"A", b"17", b"fragment-held"), (140_000, b"A", b"17", b"bad-header")]
    assert [line[1] for line in lines if line[:1] == [b"33700"]] == [b"B"]
    sampled = [line for line in lines if line[3] == b"17" and line[5] == b"sampled"]
    assert len(sampled) == 26 and sampled[9][:2] == [b"33700", b"B"]


def test_a_clock_that_is_ahead_makes_two_messages_of_each_frame():
    found = verdicts(play(CAPTURES / "ahead_a.pcap", CAPTURES / "ahead_b.pcap"))
    assert len(found) == 40 and not any(b"redundant" in words for words in found)


def test_check_sequences_are_cut_off():
    found = run("play", "--config", CONFIG, CAPTURES / "a_fcs.pcap", CAPTURES / "b_fcs.pcap")
    assert b"17 check sequences cut off" in found.stderr
    assert verdicts(found.stdout) == verdicts(play(CAPTURES / "a.pcap", CAPTURES / "b.pcap"))
    kept = done("play", "--config", CONFIG, "--fcs", "no", CAPTURES / "a_fcs.pcap")
    assert verdicts(kept) != verdicts(play(CAPTURES / "a_fcs.pcap"))


@pytest.mark.parametrize("link_type", [1, 1 | 1 << 26 | 2 << 28])
def test_a_wrong_check_sequence_is_left_out_where_the_capture_has_them(link_type, written):
    """By pcap's own bits for the length of the check sequence, or since all packets before had one."""
    data = bytearray((CAPTURES / "a_fcs.pcap").read_bytes())
    data[20:24] = struct.pack("<I", link_type)
    data[-1] ^= 1
    found = run("play", "--config", CONFIG, written("a.pcap", data))
    assert b"left out, wrong frame check sequence: packet 17" in found.stderr


@pytest.mark.parametrize("name, reason", [("a_snapshot.pcap", b"cut by the snapshot length: packet 2, "),
                                          ("a_tagged.pcap", b"VLAN tag: packet 4")])
def test_packets_that_no_trace_can_have_are_told_and_left_out(name, reason):
    found = run("play", "--config", CONFIG, CAPTURES / name)
    assert found.returncode == 0 and b"left out, " + reason in found.stderr
    assert 0 < len(verdicts(found.stdout)) < 17


def test_an_empty_capture_and_an_empty_file(written):
    for name in (CAPTURES / "empty.pcap", written("nothing", b"")):
        assert verdicts(play(name)) == []
    assert verdicts(play(CAPTURES / "empty.pcap", CAPTURES / "b.pcap"))


def test_another_link_type_is_refused():
    assert fault(1, "play", "--config", CONFIG, CAPTURES / "cooked.pcap") == \
        "yelunnavi: cooked.pcap: packet 1 isn't Ethernet, but of link type 276"


@pytest.mark.parametrize("name", ["a.pcap", "both.pcapng"])
def test_a_capture_cut_anywhere(name, written):
    """Whole packets are played, and the torn one is told; no other place makes more than a line."""
    whole = (CAPTURES / name).read_bytes()
    rng = random.Random(1)
    for size in [0, 1, 3, 4, 23, 24, 25, *sorted(rng.sample(range(len(whole)), 40))]:
        found = run("play", "--config", CONFIG, written("cut", whole[:size]))
        assert found.returncode in (0, 1, 5) and b"Traceback" not in found.stderr, (size, found.stderr)
        assert found.returncode in (0, 5) or found.stderr.count(b"\n") == 1
    assert b"cut by the end of the capture: packet 17" in \
        run("play", "--config", CONFIG, written("cut", (CAPTURES / "a.pcap").read_bytes()[:-1])).stderr


def broken(*words):
    """The line that says where a file is broken, of a run that played what came before."""
    found = run("play", "--config", CONFIG, *words)
    assert found.returncode == 5 and b"\ncount 17 A" in found.stdout and b"Traceback" not in found.stderr
    return next(line for line in found.stderr.decode().splitlines() if "packets before were played" in line)


def test_forged_pcap(written):
    data = bytearray((CAPTURES / "a.pcap").read_bytes())
    data[32:36] = b"\xff\xff\xff\x7f"
    assert broken(written("x.pcap", data)) == \
        "yelunnavi: x.pcap: packet 1 has an absurd length, 2147483647 octets; 0 packets before were played"
    data = bytearray((CAPTURES / "a.pcap").read_bytes())
    data[20] = 113
    assert fault(1, "play", "--config", CONFIG, written("x.pcap", data)) == \
        "yelunnavi: x.pcap: packet 1 isn't Ethernet, but of link type 113"


def test_a_broken_file_has_its_status_wherever_it_is_told():
    with pytest.raises(Fault) as told:
        list(captures.packets(io.BufferedReader(io.BytesIO(section()[8:] + bytes(20))), section()[:4]))
    assert told.value.status == 5


def test_what_came_before_a_bad_block_is_played(written):
    """Zeros at the end of a whole capture, as a recorder leaves them that lost its power."""
    whole = (CAPTURES / "faults.pcapng").read_bytes()
    found = run("play", "--config", CONFIG, written("x.pcapng", whole + bytes(4096)))
    assert found.returncode == 5 and found.stdout == done("play", "--config", CONFIG, CAPTURES / "faults.pcapng")
    assert b"x.pcapng: a block of an absurd length, 0 octets; 97 packets before were played\n" in found.stderr
    for words in (["annotate", "--to"], ["draw", "--to"], ["export", "--csv", "--to"]):
        out = written("out", "")
        assert run(*words, out, "--config", CONFIG, written("x.pcapng", whole + bytes(4096))).returncode == 5
        assert os.path.getsize(out) > 1000


def section(order="<"):
    return struct.pack(order + "IIIHHqI", 0x0A0D0D0A, 28, 0x1A2B3C4D, 1, 0, -1, 28)


def block(kind, body, order="<"):
    return struct.pack(order + "II", kind, 12 + len(body)) + body + struct.pack(order + "I", 12 + len(body))


def an_interface(options=b"", link_type=1, snapshot=0, order="<"):
    return block(1, struct.pack(order + "HxxI", link_type, snapshot) + options, order)


def a_packet(interface=0, time=0, octets=bytes(60), kept=None, order="<"):
    kept = len(octets) if kept is None else kept
    return block(6, struct.pack(order + "5I", interface, time >> 32, time & 0xFFFFFFFF, kept, kept) + octets, order)


@pytest.mark.parametrize("data, told", [
    (section() + struct.pack("<II", 6, 0xFFFFFFFC), "a block of an absurd length, 4294967292 octets"),
    (section() + struct.pack("<II", 6, 8), "a block of an absurd length, 8 octets"),
    (section() + struct.pack("<II", 6, 33) + bytes(40), "a block of an absurd length, 33 octets"),
    (section()[:8] + bytes(20), "a section without its byte-order magic"),
    (section() + an_interface()[:-1] + b"\x01", "a block that doesn't end with its length"),
    (section() + a_packet(), "packet 1 is of interface 0, which the capture hasn't"),
    (section() + an_interface() + a_packet(kept=10_000), "packet 1 has an absurd length, 10000 octets"),
    (section() + an_interface() + block(6, bytes(8)), "packet 1 has no room for its lengths"),
    (section() + an_interface(b"\x09\0\xff\xff\x09\0\0\0"), "an option that is longer than its block"),
    (section() + block(1, bytes(4)), "an interface without its link type"),
])
def test_forged_pcapng(data, told, written):
    assert broken(written("x.pcapng", data)) == f"yelunnavi: x.pcapng: {told}; 0 packets before were played"


@pytest.mark.parametrize("options, ticks, expected", [
    (b"", 1_500_000, 1_500_000_000), (b"\x09\0\x01\0\x09\0\0\0", 1_500_000_001, 1_500_000_001),
    (b"\x09\0\x01\0\x8a\0\0\0", 1536, 1_500_000_000), (b"\x09\0\x01\0\x00\0\0\0", 2, 2_000_000_000),
    (b"\x0e\0\x08\0" + (7).to_bytes(8, "little"), 1, 7_000_001_000),
])
def test_resolutions_and_offsets_of_time(options, ticks, expected, written):
    path = written("x.pcapng", section() + an_interface(options) + a_packet(time=ticks))
    assert [packet.time for packet in read(path)] == [expected]
    assert tshark(path, "-e", "frame.time_epoch")[0][0].replace(".", "").lstrip("0") == str(expected)


def test_sections_number_their_interfaces_anew(written):
    one = section() + an_interface() + a_packet(time=5) + section(">") + an_interface(order=">") + a_packet(time=9, order=">")
    path = written("x.pcapng", one)
    assert [(packet.number, packet.interface, packet.time) for packet in read(path)] == [(1, 0, 5000), (2, 0, 9000)]
    assert tshark(path, "-e", "frame.number", "-e", "frame.interface_id") == [["1", "0"], ["2", "0"]]


def test_a_packet_without_a_time_is_left_out(written):
    path = written("x.pcapng", section() + an_interface(snapshot=60) + a_packet() + block(3, struct.pack("<I", 60) + bytes(60)))
    assert b"left out, no time that a trace can have: packet 2" in run("play", "--config", CONFIG, path).stderr


def test_a_block_of_many_options_takes_no_time(written):
    """A million empty comments of an interface."""
    path = written("x.pcapng", section() + an_interface(b"\x01\0\0\0" * 1_000_000) + a_packet())
    assert len(read(path)) == 1


def test_too_many_interfaces(written):
    told = "more than 65536 interfaces"
    assert broken(written("x", section() + an_interface() * 65_537)) == f"yelunnavi: x: {told}; 0 packets before were played"


def test_a_file_that_grows(tmp_path):
    """Whole packets up to some moment are played; the last may be torn."""
    whole, path = (CAPTURES / "a.pcap").read_bytes(), tmp_path / "grows.pcap"
    path.write_bytes(whole)
    process = subprocess.Popen([TOOL, "play", "--config", CONFIG, "--packets", path], stdout=subprocess.PIPE,
                               stderr=subprocess.PIPE)
    with open(path, "ab", buffering=0) as file:
        while process.poll() is None and file.tell() < 20_000_000:
            file.write(whole[24:1000])
            file.write(whole[1000:])
    out, told = process.communicate(timeout=60)
    assert process.returncode in (0, 5) and b"Traceback" not in told
    numbers = [line.split()[0] for line in out.splitlines() if line[:1].isdigit()]
    assert len(numbers) == len(set(numbers)) >= 17


def test_a_standard_input_that_does_not_wait():
    read_end, write_end = os.pipe()
    os.set_blocking(read_end, False)
    found = subprocess.run([TOOL, "play", "--config", CONFIG, "-"], stdin=read_end, capture_output=True)
    os.close(read_end)
    os.close(write_end)
    assert (found.returncode, found.stdout) == (3, b"") and b"gives nothing without a wait" in found.stderr


def mutated(rng, seeds):
    data = bytearray(rng.choice(seeds))
    for _ in range(rng.choice([1, 1, 2, 8])):
        place = rng.randrange(len(data)) if rng.random() < 0.5 else rng.randrange(min(len(data), 400))
        data[place] = rng.choice([0, 1, 0x7F, 0x80, 0xFF, rng.randrange(256)])
    return data[:rng.randrange(len(data))] if rng.random() < 0.3 else data


def test_mutated_captures_are_played_or_make_one_fault(written, tmp_path, capsys):
    """A bounded fuzz: there is no other exception; the times of a network never fall; and the program takes the traces."""
    rng, made = random.Random(7), 0
    seeds = [(CAPTURES / name).read_bytes() for name in ("a.pcap", "both.pcapng", "a_nano.pcap", "a_fcs.pcap")]
    for case in range(600):
        path = written("mutated", mutated(rng, seeds))
        given = argparse.Namespace(files=[path], interfaces=(0, 1), fcs=rng.choice([None, True]), reorder=5,
                                   networks=rng.choice(["interface", "source"]), shift_b=(rng.choice([0, -7]), 0),
                                   to=tmp_path / "made", untag=False, in_a_row=False, since=None, until=None, network=None)
        latest = [0, 0]
        try:
            with stream.opened(given) as found:
                for one in found:
                    assert one.left_out or one.time >= latest[one.net]
                    latest[one.net] = max(latest[one.net], 0 if one.left_out else one.time)
            made += found.is_of_captures
            if case % 10 == 0:
                exporting.traces(given)
                words = [PROGRAM, "--config", CONFIG, "--a", given.to / "a.trace", "--b", given.to / "b.trace"]
                played = subprocess.run(words, capture_output=True)
                assert played.returncode == 0, played.stderr
        except Fault as refused:
            assert "\n" not in str(refused)
    assert made > 100 and "Traceback" not in capsys.readouterr().err


def test_a_shift_moves_one_network_and_is_found():
    words = ["play", "--config", CONFIG, CAPTURES / "ahead_a.pcap", CAPTURES / "ahead_b.pcap"]
    assert b"B's clock seems 3200 us ahead of the other's, if it isn't its frames' delay: --shift-b -3200" in run(*words).stderr
    found = run(*words, "--shift-b", "-3000")
    assert b"ahead of the other's" not in found.stderr and sum(b" redundant" in line for line in found.stdout.splitlines()) == 20
    assert b"ahead of the other's" not in run("play", "--config", CONFIG, CAPTURES / "faults.pcapng").stderr


def test_networks_of_one_tap_are_told_apart_by_the_source_address(tmp_path):
    joined = tmp_path / "joined.pcap"
    subprocess.run(["mergecap", "-F", "nsecpcap", "-w", joined, CAPTURES / "a_nano.pcap", CAPTURES / "b_nano.pcap"], check=True)
    assert done("play", "--config", CONFIG, "--networks", "source", joined) == \
        play(CAPTURES / "a_nano.pcap", CAPTURES / "b_nano.pcap")


def test_what_is_neither_is_refused_with_a_hint(written):
    for data, hint in [(b"\xef\xbb\xbf1000 00", "a byte order mark"),
                       (b"snoop\0\0\0", "`editcap -F pcapng FILE -`"), (b"\xff\xfe1\0", "UTF-16")]:
        assert hint in fault(1, "play", "--config", CONFIG, written("x", data))


def test_one_capture_and_one_trace_are_refused(written):
    assert "times have nothing in common" in fault(1, "play", "--config", CONFIG, CAPTURES / "a.pcap", written("t", "1 00\n"))


def test_examples_are_small():
    assert sum(path.stat().st_size for path in CAPTURES.iterdir()) < 200_000
    assert os.path.exists(ROOT / "checks" / "tests" / "make_captures.py")
