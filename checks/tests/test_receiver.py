"""The Python package over the library, beside the program: the same verdicts and the same report if nobody takes."""
import heapq
import os
import random
import subprocess

import pytest
import test_captures
from conftest import CAPTURES, CONFIG, PROGRAM
from parts.random_traces import write_case
from receiver import A, B, ConfigFault, Receiver, Refused, System
from workbench import hex_traces, playing
from workbench.faults import Fault

GOOD = CONFIG.read_text()
FRAMES = [packet.octets for packet in test_captures.read(CAPTURES / "a.pcap")]


class Played:
    """A receiver whose ports nobody has."""
    partition = None

    def __init__(self, text):
        self.receiver = Receiver(text)


def ours(folder, at):
    """The lines of a case, or why there are none."""
    try:
        played = Played((folder / "config.toml").read_bytes())
        feeds = []
        for net in (A, B):
            with open(folder / f"{'ab'[net]}.trace", "rb") as file:
                feeds.append([(time, net, octets) for _, time, octets in hex_traces.lines(file, b"", net)])
    except (ConfigFault, Fault) as fault:
        return [str(fault)]
    lines, latest = [], 0
    for time, net, octets in heapq.merge(*feeds, key=lambda one: one[:2]):
        lines.append(f"{time} {'AB'[net]} {played.receiver.receive(net, time, octets).words}")
        latest = max(latest, time)
    return lines + list(playing.report(played, latest if at is None else at))


def test_random_cases(tmp_path):
    """The cases of checks/random_cases: each line that the program writes, and its faults in its words."""
    statuses = set()
    for case in range(int(os.environ.get("CASES", "200"))):
        words = write_case(random.Random(f"1 {case}"), tmp_path, 200)
        at = int(words[words.index("--at") + 1]) if "--at" in words else None
        found = subprocess.run([PROGRAM, *words], cwd=tmp_path, capture_output=True, text=True)
        theirs = found.stdout.splitlines() or [found.stderr.strip().removeprefix("afdx_play: ").removeprefix("config: ")]
        assert ours(tmp_path, at) == theirs, case
        statuses.add(found.returncode)
    assert statuses == {0, 1}


def test_ports_and_links_are_those_of_the_configuration():
    with Receiver(CONFIG.read_bytes()) as receiver:
        assert [link.vl for link in receiver.links] == [17, 18] and receiver.links[0].skew_max == 1000
        assert [(port.name, port.is_sampling, port.limit) for port in receiver.ports] == \
            [("pos", True, 20000), ("nav", False, 4), ("alt", True, 20000)]


def test_a_reader_and_a_taker():
    with Receiver(CONFIG.read_text()) as receiver:
        reader, taker = receiver.reader("pos"), receiver.taker("nav")
        assert reader.read(0) is None and taker.take() is None
        replies = [receiver.receive(A, 1000 * place, octets) for place, octets in enumerate(FRAMES)]
        first = next(reply for reply in replies if reply.kind == "sampled")
        assert (first.words, first.vl, first.port, first.number) == ("vl 17 0 sampled pos 1", 17, "pos", 1)
        found = reader.read(10**9)
        assert found.number == max(reply.number for reply in replies if reply.port == "pos") and not found.valid
        queued = sum(reply.kind == "queued" for reply in replies)
        assert len(list(iter(taker.take, None))) == queued > 0
        assert sum(sum(counts.values()) for counts in receiver.counts().values()) == len(FRAMES)


def test_passes_of_a_system_reply_as_a_receiver_does():
    with Receiver(CONFIG.read_text()) as receiver, System(CONFIG.read_text()) as system:
        reader, passes = system.reader("pos"), [system.hand_pass(net) for net in (A, B)]
        with pytest.raises(Refused, match="B: none-left"):
            system.hand_pass(B)
        for place, octets in enumerate(FRAMES):
            for net in (A, B):
                assert passes[net].receive(1000 * place + net, octets) == receiver.receive(net, 1000 * place + net, octets)
        assert passes[A].counts() | passes[B].counts() == receiver.counts()
        system.close()
        assert passes[A].receive(0, FRAMES[0]).vl == 17 and reader.read(0).number
        for end in (*passes, reader):
            end.close()


def test_what_is_refused():
    with Receiver(CONFIG.read_bytes(), readers=2) as receiver:
        ends = [receiver.reader("pos"), receiver.reader("pos"), receiver.taker("nav")]
        for call, told in [(lambda: receiver.reader("pos"), "pos: none-left"), (lambda: receiver.taker("nope"), "nope: no-name"),
                           (lambda: receiver.receive(2, 0, b""), "no-network")]:
            with pytest.raises(Refused, match=told):
                call()
        assert len(ends) == 3
    with pytest.raises(Refused, match="not-open"):
        receiver.receive(A, 0, b"")


@pytest.mark.parametrize("old, new, told", [
    ("vl = 18", "vl = 17", ("link given twice", None, 1, None, 23)),
    ("depth = 4", "depth = 65", ("depth out of range", "depth", 0, 1, 20)),
    ("[[link]]\nvl = 17", "constant = 3\n[[link]]\nvl = 17", ("wrong kind of constant", "constant", None, None, 3)),
    ("vl = 17", "vl =", ("not TOML", None, None, None, 4)),
    (GOOD, "link = [{vl = 65536}]", ("vl out of range", "vl", 0, None, None))])
def test_faults_have_their_place(old, new, told):
    with pytest.raises(ConfigFault) as found:
        Receiver(GOOD.replace(old, new, 1))
    fault = found.value
    assert (str(fault), fault.key, fault.link, fault.port, fault.line) == told
