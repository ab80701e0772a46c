"""play and export: what they write beside the program, and their faults."""
import csv
import io
import json
import os
import select
import subprocess
import sys
import time

import pytest
from conftest import CAPTURES, CONFIG, PROGRAM, ROOT, TOOL, done, fault, run, tshark

A, B, BOTH = CAPTURES / "a_nano.pcap", CAPTURES / "b_nano.pcap", CAPTURES / "both.pcapng"
TRACES = [ROOT / "examples" / f"network_{net}.trace" for net in "ab"]
SENT = [line.split() for line in (CAPTURES / "sent.txt").read_text().splitlines()]


def program(*words):
    return subprocess.run([PROGRAM, *words], capture_output=True)


def test_traces_are_played_as_the_program_does():
    alone = program("--config", CONFIG, "--a", TRACES[0], "--b", TRACES[1], "--at", "9999")
    assert done("play", "--never-taken", "--config", CONFIG, *TRACES, "--at", "9999") == alone.stdout
    assert done("play", "--never-taken", "--config", CONFIG, TRACES[0]) == \
        done("play", "--never-taken", "--config", CONFIG, "-", data=TRACES[0].read_bytes()) == \
        program("--config", CONFIG, "--a", TRACES[0], "--b", os.devnull).stdout


@pytest.mark.parametrize("names", [("a.pcap", "b.pcap"), ("a_nano.pcap", "b_nano.pcap"), ("a_fcs.pcap", "b_fcs.pcap"),
                                   ("both.pcapng",), ("faults.pcapng",), ("ahead_a.pcap", "ahead_b.pcap"), ("a_tagged.pcap",),
                                   ("a_snapshot.pcap", "b.pcap"), ("empty.pcap",)])
def test_captures_are_played_as_the_program_plays_their_traces(names, tmp_path):
    """What nobody takes, in this process, is byte for byte what the program writes of the hex traces."""
    paths = [CAPTURES / name for name in names]
    done("traces", *paths, "--to", tmp_path / "made")
    made = [tmp_path / "made" / f"{net}.trace" for net in "ab"]
    assert done("play", "--never-taken", "--config", CONFIG, *paths) == \
        program("--config", CONFIG, "--a", made[0], "--b", made[1]).stdout


def test_queues_are_emptied_at_once_or_by_a_period(written):
    """Each message is taken when it came, or at the next multiple of the period; none is lost where it isn't full."""
    lines = done("play", "--config", CONFIG, A, B).decode().splitlines()
    queued = [line.split()[0] for line in lines if " queued nav" in line]
    taken = [line.split() for line in lines if " taken nav " in line]
    assert [words[0] for words in taken] == [words[3] for words in taken] == queued and len(queued) == 6
    assert [words[5] if len(words) > 5 else "" for words in taken] == \
        [payload[0] if payload else "" for port, *payload in SENT if port == "5002"]
    config = written("c.toml", CONFIG.read_text().replace("depth = 4", "depth = 4\ntake_us = 100000"))
    lines = done("play", "--config", config, A, B).decode().splitlines()
    taken = [line.split() for line in lines if " taken nav " in line]
    waiting = len([line for line in lines if line.startswith("message nav ")])
    assert len(taken) + waiting == 6 and all(int(words[0]) % 100_000 == 0 < int(words[0]) - int(words[3]) for words in taken)


def test_ages_at_reading(written):
    """A reader by its period finds the newest message, and how old it is."""
    config = written("c.toml", CONFIG.read_text().replace("udp = 5000\n", "udp = 5000\nread_us = 50000\n", 1))
    lines = [line.split() for line in done("play", "--config", config, A, B).decode().splitlines()]
    came = [(int(words[0]), int(words[-1])) for words in lines if words[4:5] == [b"pos"] or "sampled" in words]
    reads = [words for words in lines if words[1:3] == ["read", "pos"]]
    assert reads and all(int(words[0]) % 50_000 == 0 for words in reads)
    for moment, _, _, number, age, state in reads:
        at, newest = max(one for one in came if one[0] <= int(moment))
        assert (int(number), int(age)) == (newest, int(moment) - at) and (state == "fresh") == (int(age) <= 20_000)


def test_a_long_silence_takes_no_time(written):
    """A frame, and the next one after 31,000 years: reads are counted, and not made one by one."""
    frame = TRACES[0].read_text().splitlines()[1].split()[1]
    config = written("c.toml", CONFIG.read_text().replace("udp = 5000\n", "udp = 5000\nread_us = 3\n", 1)
                     .replace("depth = 4", "depth = 4\ntake_us = 1"))
    lines = done("play", "--config", config, written("t", f"1 {frame}\n{10**18} {frame}\n")).decode().splitlines()
    assert f"read pos oldest {10**18 - 2} stale {(10**18 - 1) // 3 - 6667} reads {(10**18 - 1) // 3} missed 0" in lines


@pytest.mark.parametrize("key, told", [
    ("take_us = 0", "take_us isn't a whole number of microseconds, 1 to 1000000000"),
    ("take_us = 1.5", "take_us isn't a whole number"), ("take_us = true", "take_us isn't a whole number")])
def test_own_keys_that_can_not_be(key, told, written):
    config = written("c.toml", CONFIG.read_text().replace("depth = 4", f"depth = 4\n{key}"))
    assert f"{config}:21: link 17 port nav: {told}" in fault(1, "play", "--config", config, A)
    assert run("play", "--never-taken", "--config", config, A).returncode == 0


@pytest.mark.parametrize("capture, words, count", [(A, (), 17), (BOTH, (), 32), (BOTH, ("--interfaces", "0,2"), 17),
                                                   (BOTH, ("--interfaces", "2,1"), 15)],
                         ids=["pcap", "statistics", "another-interface", "the-other"])
def test_lines_come_as_packets_come(capture, words, count):
    """All that came by a pipe is played once nothing comes, though it doesn't end, no later packet tells the time, and what
    came last is no packet, or one of another interface."""
    wanted = done("play", "--config", CONFIG, *words, capture)
    with subprocess.Popen([TOOL, "play", "--config", CONFIG, *words, "-"], stdin=subprocess.PIPE, stdout=subprocess.PIPE,
                          stderr=subprocess.DEVNULL) as process:
        process.stdin.write(capture.read_bytes())
        process.stdin.flush()
        early = b""
        while early.count(b" vl ") < wanted.count(b" vl ") and select.select([process.stdout], [], [], 30)[0]:
            early += os.read(process.stdout.fileno(), 1 << 16)
        assert early.count(b" vl ") == wanted.count(b" vl ") == count
        process.stdin.close()
        rest = process.stdout.read()
    assert early + rest == wanted


def test_each_line_leads_back_to_its_packet():
    """The packet's number in tshark has the time of the line."""
    times = {net: {int(number): seconds for number, seconds in tshark(path, "-e", "frame.number", "-e", "frame.time_epoch")}
             for net, path in [("A", A), ("B", B)]}
    base = min(time for one in times.values() for time in one.values())
    nanoseconds = {net: {number: int(time.replace(".", "")) - int(base.replace(".", "")) for number, time in one.items()}
                   for net, one in times.items()}
    plain, found = done("play", "--config", CONFIG, A, B), done("play", "--config", CONFIG, "--packets", A, B)
    assert [line.split(b" ", 1)[1] for line in found.splitlines()] == plain.splitlines()
    for line in found.decode().splitlines():
        number, moment, net, *_ = line.split()
        if number != "-":
            assert nanoseconds[net][int(number)] // 1000 == int(moment)


def test_numbers_of_packets_count_those_that_were_left_out():
    found = done("play", "--config", CONFIG, "--packets", CAPTURES / "a_tagged.pcap")
    tagged = {int(number) for number, kind in tshark(CAPTURES / "a_tagged.pcap", "-e", "frame.number", "-e", "eth.type")
              if kind == "0x8100"}
    numbers = [int(line.split()[0]) for line in found.splitlines() if line[:1].isdigit()]
    assert tagged and sorted({*numbers} | tagged) == list(range(1, 18)) and not tagged & {*numbers}


def test_messages_are_those_that_were_sent():
    """The kernel fragmented them. Where nobody takes the queue holds its first four; the sampling port has its last."""
    report = done("play", "--never-taken", "--config", CONFIG, A, B).decode().splitlines()
    queued = [line.split()[4] for line in report if line.startswith("message nav ")]
    assert queued == [payload[0] for port, *payload in SENT if port == "5002" and payload][:4]
    last = next(line for line in report if line.startswith("port pos")).split()
    assert last[-1] == [payload[0] for port, *payload in SENT if port == "5000" and payload][-1]


def test_tshark_joins_and_reads_the_same_messages(tmp_path):
    """tshark's own IP reassembly of the frames that were forwarded, against what was sent."""
    seen = tmp_path / "seen.pcapng"
    done("annotate", "--config", CONFIG, A, B, "--to", seen)
    forwarded = tmp_path / "forwarded.pcapng"
    subprocess.run(["tshark", "-n", "-r", seen, "-Y", 'not frame.comment contains "redundant" and not frame.comment contains '
                    '"out-of-sequence"', "-w", forwarded], check=True, capture_output=True)
    found = [[port, payload] for port, payload in tshark(forwarded, "-Y", "udp", "-e", "udp.dstport", "-e", "udp.payload")]
    assert found == [[port, payload[0] if payload else ""] for port, *payload in SENT]


def records(*words):
    table = list(csv.DictReader(io.StringIO(done("export", "--csv", *words).decode())))
    array = json.loads(done("export", "--json", *words))
    assert [[str(value) if value is not None else "" for value in record.values()] for record in array] == \
        [list(row.values()) for row in table]
    return array


def test_a_record_a_frame():
    found = records("--config", CONFIG, A, B)
    shown = {(net, int(number)): row for net, path in [("A", A), ("B", B)] for number, *row in
             tshark(path, "-e", "frame.number", "-e", "afdx.vl", "-e", "afdx.sequence", "-e", "eth.src", "-e",
                    "afdx.interface")}
    assert len(found) == len(shown) == 32
    for record in found:
        vl, sequence, source, interface = shown[record["network"], record["packet"]]
        assert [record["link"], record["sequence"], record["source"], record["interface"]] == \
            [int(vl), int(sequence), source, int(interface)]
    plain = [line for line in done("play", "--config", CONFIG, A, B).decode().splitlines() if " vl " in line]
    for record, line in zip(found, plain):
        told = [record[name] for name in ("verdict", "cause", "port", "message") if record[name] is not None]
        assert line == f"{record['time_us']} {record['network']} vl 17 {record['place']} {' '.join(map(str, told))}"


def test_records_of_filtered_frames_name_their_link():
    found = records("--config", CONFIG, *TRACES)
    filtered = [record for record in found if record["verdict"] == "filtered"]
    assert [(record["cause"], record["link"], record["place"]) for record in filtered] == [("unknown-link", 19, None)]


def test_a_configuration_as_a_table_in_c(written, tmp_path):
    """What tools/c_table.py writes, once the receiver takes the configuration; and nothing of a capture."""
    table = done("export", "--c-table", "--config", CONFIG)
    assert table == subprocess.run([ROOT / "tools" / "c_table.py", CONFIG], check=True, capture_output=True).stdout
    assert b"{17, 1, 1000, 50000, 2, 2}" in table and b"YELUNNAVI_SERVICE_QUEUING" in table
    wrong = written("c.toml", CONFIG.read_text().replace("depth = 4", "depth = 65"))
    assert "depth out of range" in fault(1, "export", "--c-table", "--config", wrong, "--to", tmp_path / "out")
    assert not (tmp_path / "out").exists()
    for words in (["--c-table", A], ["--c-table", "--csv"], ["--csv"], [A]):
        assert run("export", "--config", CONFIG, *words).returncode == 2


def test_records_have_links_whatever_the_constant_field_is(written):
    config = written("c.toml", 'constant = "0a0b0c0d"\n' + CONFIG.read_text())
    names = [written(path.name, path.read_text().replace(" 03000000", " 0a0b0c0d")) for path in TRACES]
    found, usual = records("--config", config, *names), records("--config", CONFIG, *TRACES)
    assert found == usual and {record["link"] for record in found} == {17, 18, 19}


def test_records_of_packets_that_were_left_out():
    found = records("--config", CONFIG, CAPTURES / "a_tagged.pcap")
    assert [record["packet"] for record in found] == list(range(1, 18))
    assert {(record["verdict"], record["cause"]) for record in found if record["octets"] and record["time_us"] is None} == \
        {("left-out", "VLAN tag")}
    assert json.loads(done("export", "--json", "--config", CONFIG, CAPTURES / "empty.pcap")) == []


def test_pandas_reads_it():
    pandas = pytest.importorskip("pandas")
    text = io.BytesIO(done("export", "--json", "--config", CONFIG, A, B))
    assert list(pandas.read_json(text)["packet"])[:2] == [1, 1]


def test_faults_of_a_configuration_have_their_place(written):
    bad = written("bad.toml", CONFIG.read_text().replace("vl = 17", "vl = 70000"))
    for words in (["play"], ["health"], ["export", "--csv"], ["draw"], ["annotate", "--to", "/nowhere/x"]):
        assert fault(1, *words, "--config", bad, "/nowhere") == \
            f"yelunnavi: {bad}:4: link 70000: refused: vl out of range (allowed: an integer from 0 to 65535)"
    assert fault(3, "play", "--config", "/nowhere", A) == "yelunnavi: /nowhere: not read: No such file or directory"


@pytest.mark.parametrize("text, told, count", [
    ("1 00\n0 00\n", "trace A line 2: time falls", 1), ("1 00\n2 0\n", "trace A line 2: hex", 1), ("x", "", None),
    ("1 00\n2\n", "trace A line 2: space", 1), ("1 00\n#\n18446744073709551616 00\n", "trace A line 3: time", 1),
    ("1 00\n01 00\n", "trace A line 2: space", 1), ("1 00\n" + "0" * 9000, "trace A line 2: long line", 1),
    ("1 00\n2 0 0\n", "trace A line 2: hex", 1), ("#\n1 00\n2 00\n0 00\n", "trace A line 4: time falls", 2),
    ("\n\n\n\n\n1 0\n", "trace A line 6: hex", 0)])
def test_a_faulty_trace_is_played_up_to_its_fault(text, told, count, written):
    """The fault is the program's, which plays none of it."""
    trace = written("t", text)
    found = run("play", "--never-taken", "--config", CONFIG, trace)
    if count is None:
        assert found.returncode == 1 and b"neither a capture" in found.stderr
        return
    assert (found.returncode, found.stderr.decode()) == (5, f"yelunnavi: {told}\n")
    assert len([line for line in found.stdout.splitlines() if b"filtered" in line and line[:1].isdigit()]) == count
    assert program("--config", CONFIG, "--a", trace, "--b", os.devnull).stderr.decode() == f"afdx_play: {told}\n"


def test_windows_line_ends_are_named(written):
    windows = written("w", TRACES[0].read_bytes().replace(b"\n", b"\r\n"))
    assert b"line ends of Windows: sed" in run("play", "--config", CONFIG, windows).stderr


def test_own_faults(written, tmp_path):
    assert "nowhere: not read: No such file" in fault(3, "play", "--config", CONFIG, "nowhere")
    assert "not read: Is a directory" in fault(3, "play", "--config", CONFIG, tmp_path)


def test_a_library_that_is_not_there_or_of_another_interface(tmp_path):
    source = "#include <stdint.h>\nuint32_t yelunnavi_abi(void) { return 77; }\n"
    (tmp_path / "other.c").write_text(source)
    subprocess.run(["cc", "-shared", "-o", tmp_path / "other.so", tmp_path / "other.c"], check=True)
    for path, told in [("/nowhere", "no library /nowhere: ./build library"), (CONFIG, "not loaded: "),
                       (tmp_path / "other.so", "its interface has the number 77, and yelunnavi.h has ")]:
        found = fault(3, "play", "--config", CONFIG, A, env={**os.environ, "YELUNNAVI_LIBRARY": str(path)})
        assert told in found


def test_words_that_are_refused():
    for words in ([], ["play"], ["play", "--config", "c"], ["play", "--config", "c", "1", "2", "3"], ["export", "x"],
                  ["play", "--config", "c", "-", "-"], ["play", "--config", "c", "x", "--interfaces", "1"],
                  ["play", "--config", "c", "x", "--interfaces", "1,1"],
                  ["health", "--config", "c", "x", "--workers", "0"], ["nothing"], ["play", "--config", "c", "x", "--at", "-1"],
                  ["watch", "--config", "c", "eth1"], ["traces", "x"]):
        found = run(*words)
        assert found.returncode == 2 and found.stderr.startswith(b"usage: yelunnavi") and not found.stdout


def test_help_takes_no_version():
    """The version is looked up where it is asked for: where there is none the help is."""
    without = "import sys; sys.path.insert(0, sys.argv.pop(1)); from workbench import command; command.version = None; " \
        "sys.exit(command.main(sys.argv[1:]))"
    found = subprocess.run([sys.executable, "-c", without, ROOT / "tools", "--help"], capture_output=True)
    assert (found.returncode, found.stderr) == (0, b"") and b"usage: " in found.stdout


@pytest.mark.parametrize("words", [[], ["play"], ["annotate"], ["check"], ["export"], ["draw"], ["health"], ["watch"],
                                   ["traces"]])
def test_help_imports_nothing_heavy(words):
    text = subprocess.run([sys.executable, "-X", "importtime", TOOL, *words, "--help"], capture_output=True)
    assert text.returncode == 0 and text.stdout.startswith(b"usage: yelunnavi")
    for name in (b"distributed", b"scapy", b"numpy", b"dask", b"cffi", b"rich"):
        assert name not in text.stderr


def test_an_output_that_nobody_takes():
    for words in (["play"], ["play", "--packets"], ["export", "--csv"], ["health"], ["draw"]):
        with open("/dev/full", "wb") as full:
            found = subprocess.run([TOOL, *words, "--config", CONFIG, A, B], stdout=full, stderr=subprocess.PIPE)
        assert found.returncode == 3 and b"output not written" in found.stderr.splitlines()[-1]


def test_outputs_are_whole_or_not_there(tmp_path, written):
    bad = written("bad.toml", "x")
    for words in (["annotate"], ["export", "--csv"]):
        out = tmp_path / "out" / words[0]
        out.parent.mkdir(exist_ok=True)
        fault(1, *words, "--config", bad, A, B, "--to", out)
        assert list(out.parent.iterdir()) == []
        out.write_bytes(b"before")
        fault(1, *words, "--config", bad, A, B, "--to", out)
        assert out.read_bytes() == b"before"
        done(*words, "--config", CONFIG, A, B, "--to", out)
        assert out.stat().st_size > 1000 and len(list(out.parent.iterdir())) == 1
        out.unlink()
    assert "not written" in fault(3, "export", "--csv", "--config", CONFIG, A, "--to", "/nowhere/x")


def test_a_signal_leaves_nothing(tmp_path):
    """A pipe that brings nothing keeps it waiting."""
    read_end, write_end = os.pipe()
    process = subprocess.Popen([TOOL, "export", "--csv", "--config", CONFIG, "-", "--to", tmp_path / "out"], stdin=read_end,
                               stdout=subprocess.DEVNULL, stderr=subprocess.PIPE)
    for _ in range(200):
        time.sleep(0.05)
        if any(path.name.startswith(".yelunnavi-") for path in tmp_path.iterdir()):
            break
    process.terminate()
    assert process.wait(10) == 143 and list(tmp_path.iterdir()) == []
    os.close(read_end)
    os.close(write_end)
