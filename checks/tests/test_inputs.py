"""What of captures is played: those in a row, from one moment to another, compressed, and without VLAN tags."""
import json
import re
import shutil
import subprocess

import pytest
from conftest import CAPTURES, CONFIG, done, fault, run, verdicts
from workbench import moments

FAULTS, BOTH = CAPTURES / "faults.pcapng", CAPTURES / "both.pcapng"


def play(*words):
    return done("play", "--config", CONFIG, *words)


def test_captures_in_a_row_are_one(tmp_path):
    """dumpcap's rings: the same lines, and packets that are numbered on."""
    subprocess.run(["editcap", "-c", "20", FAULTS, tmp_path / "ring.pcapng"], check=True)
    row = sorted(tmp_path.iterdir())
    assert len(row) == 5
    assert play("--packets", "--in-a-row", *row) == play("--packets", FAULTS)
    assert b"one capture or trace, or two" in run("play", "--config", CONFIG, *row).stderr


def test_a_capture_of_a_row_that_is_cut_is_told_by_its_place(tmp_path):
    subprocess.run(["editcap", "-c", "60", FAULTS, tmp_path / "ring.pcapng"], check=True)
    first, second = sorted(tmp_path.iterdir())
    first.write_bytes(first.read_bytes()[:-10])
    found = run("play", "--config", CONFIG, "--in-a-row", first, second)
    assert b"cut by the end of the capture: packet 60" in found.stderr
    told = json.loads(run("health", "--json", "--config", CONFIG, "--in-a-row", first, second).stdout)
    assert told["first_packets"]["neither"] == {"cut by the end of the capture": "60"}
    assert len(verdicts(found.stdout)) == len(verdicts(play(FAULTS))) - 1


@pytest.mark.parametrize("program", ["gzip", "zstd"])
def test_compressed_captures(tmp_path, program):
    if not shutil.which(program):
        pytest.skip(f"no {program}")
    packed = tmp_path / "packed"
    packed.write_bytes(subprocess.run([program, "-c", FAULTS], capture_output=True, check=True).stdout)
    assert play(packed) == play(FAULTS)
    packed.write_bytes(packed.read_bytes()[:-20])
    found = run("play", "--config", CONFIG, packed)
    assert found.returncode == 5 and b"the compressed file is cut or damaged" in found.stderr


@pytest.mark.parametrize("program", ["gzip", "zstd"])
def test_a_compressed_pipe(program):
    if not shutil.which(program):
        pytest.skip(f"no {program}")
    packed = subprocess.run([program, "-c", FAULTS], capture_output=True, check=True).stdout
    assert done("play", "--config", CONFIG, "-", data=packed) == play(FAULTS)
    found = run("play", "--config", CONFIG, "-", data=packed[:-20])
    assert found.returncode == 5 and b"the compressed file is cut or damaged" in found.stderr


def times(output):
    return [int(line.split()[0]) for line in output.splitlines() if re.match(rb"\d+ [AB] ", line)]


@pytest.mark.parametrize("since, until", [("0.02", "0.06"), ("22:13:20.0201", "22:13:20.0601"),
                                          ("2023-11-14T22:13:20.0201", "2023-11-14 23:13:20.0601+01:00")])
def test_from_one_moment_to_another(since, until):
    """The first packet came at 22:13:20.000100."""
    whole = [time for time in times(play(FAULTS)) if 20_000 <= time <= 60_000]
    assert times(play(FAULTS, "--from", since, "--until", until)) == [time - whole[0] for time in whole]


def test_where_no_packet_is_of_that_time_the_first_is_told():
    for words in (["--from", "23:00"], ["--until", "2023-11-14T22:13:20"], ["--from", "2", "--until", "1"]):
        found = run("play", "--config", CONFIG, FAULTS, *words)
        assert b"no packet of that time; the first came at 2023-11-14T22:13:20.000100" in found.stderr and not times(found.stdout)


def test_what_is_no_moment_is_refused():
    found = run("play", "--config", CONFIG, FAULTS, "--from", "noon")
    assert found.returncode == 2 and b"'noon' is no moment" in found.stderr


def test_moments():
    assert moments.in_capture(moments.moment("1.5"), 7) == 1_500_000_007
    assert moments.in_capture(moments.moment("00:00:01"), 3 * moments.DAY + 5) == 3 * moments.DAY + moments.SECOND
    assert moments.in_capture(moments.moment("1970-01-02T00:00:00+01:00"), 5) == 23 * 3600 * moments.SECOND


def test_vlan_tags_are_taken_off_on_request():
    found = run("play", "--config", CONFIG, CAPTURES / "a_tagged.pcap", "--untag")
    assert verdicts(found.stdout) and b"VLAN tags taken off" in found.stderr and b"left out" not in found.stderr


def test_one_link():
    """Its frames and what stands of it in the report, with the numbers that they have among all."""
    whole = play(FAULTS).splitlines()
    own = [line for line in whole if re.search(rb" vl 17 | pos | nav |^count 17 ", line + b" ")]
    assert play(FAULTS, "--link", "17").splitlines() == own
    assert fault(2, "play", "--config", CONFIG, FAULTS, "--link", "19").endswith("has no link 19")


def test_a_reader_that_has_enough_ends_the_run_quietly(tmp_path):
    """More is written than a pipe holds."""
    row = [FAULTS] * 60
    words = " ".join(map(str, ["tools/yelunnavi", "play", "--in-a-row", "--config", CONFIG, *row]))
    found = subprocess.run(["bash", "-c", f"{words} | head -1; echo ${{PIPESTATUS[0]}}"], capture_output=True, cwd=CAPTURES.parents[1])
    assert found.stdout.splitlines()[-1] == b"141" and b"not written" not in found.stderr, found


def test_the_trace_of_one_network_on_the_standard_output(tmp_path):
    done("traces", FAULTS, "--to", tmp_path)
    assert done("traces", FAULTS, "--to", "-", "--network", "B") == (tmp_path / "b.trace").read_bytes()
    assert [run("traces", FAULTS, "--to", "-", *words).returncode for words in ([], ["--network", "AB"])] == [2, 2]


def test_times_of_traces_are_those_of_play_where_the_first_packet_is_left_out(tmp_path):
    path = tmp_path / "from_a_tag_on.pcap"
    subprocess.run(["editcap", "-r", CAPTURES / "a_tagged.pcap", path, "4-10"], check=True)
    played = [line.split()[0] for line in play(path).splitlines() if line[:1].isdigit() and line.split()[1] == b"A"]
    traced = [line.split()[0] for line in done("traces", path, "--to", "-", "--network", "A").splitlines()]
    assert traced == played and played[0] == b"1407"
