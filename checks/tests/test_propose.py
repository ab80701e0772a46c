"""A configuration by what captures show: `check` takes it, and each value has what was seen."""
import tomllib

import pytest
from conftest import CAPTURES, done, run
from parts.told_faults import END, FIRST_VL, ROWS, capture, frames_of
from workbench import proposing


@pytest.mark.parametrize("names", [["faults.pcapng"], ["both.pcapng"], ["a.pcap", "b.pcap"], ["ahead_a.pcap", "ahead_b.pcap"]])
def test_check_takes_it_without_a_slip(tmp_path, names):
    files, made = [CAPTURES / name for name in names], tmp_path / "made.toml"
    done("propose", *files, "--to", made)
    found = run("check", made, *files)
    slips = [line for line in found.stdout.decode().splitlines() if "clock seems" not in line]
    assert not slips


def test_what_a_sender_sent_is_seen():
    """The kernel's messages: to two UDP ports, of which one has messages of up to 3,000 octets."""
    text = done("propose", CAPTURES / "both.pcapng").decode()
    link, = tomllib.loads(text)["link"]
    assert link["vl"] == 17 and link["reassembly_us"] == 5000
    assert [(port["udp"], port["kind"], port["max"]) for port in link["port"]] == [
        (5000, "sampling", 100), (5002, "queuing", 3000)]
    assert all("#" in line for line in text.splitlines() if line.startswith(("kind", "max", "skew_max_us", "reassembly_us")))


def test_a_link_that_ended_before_the_capture_has_no_slip(written):
    frames = frames_of(0, ROWS[0]) + [one for one in frames_of(1, ROWS[0]) if one[0] < END // 2]
    names = [written("x.pcapng", capture(sorted(frames)))]
    text = done("propose", *names).decode()
    assert text.count('"sampling"') == 2 and not done("check", written("made.toml", text), *names)


def test_next_of_1_2_5():
    assert [proposing.rounded(value, 10**6) for value in (0, 1, 3, 11, 49_000, 700_001)] == [1, 1, 5, 20, 50_000, 10**6]


def test_a_guess_says_so(written):
    text = done("propose", written("empty.trace", "")).decode()
    assert "link" not in tomllib.loads(text)
    text = done("propose", CAPTURES / "a.pcap").decode()
    assert "a guess: no pair of copies came" in text


# Rows of the table of faults whose frames aren't one sender's, with a word of the reason.
NOT_ONE = {"two senders by their addresses": "2 senders", "two series of numbers of one address": "2 senders",
           "another sender goes on": "2 senders", "numbers that don't count": "don't go on",
           "a restart without 0, further ahead than time allows": "numbers are missing", "nothing": None}


@pytest.mark.parametrize("name, reason", NOT_ONE.items())
def test_a_link_that_isnt_one_senders_is_named(name, reason, written):
    """Beside a link without a fault. `check` tells none of both then, and what is named again once the name is taken away."""
    place, row = next((place, row) for place, row in enumerate(ROWS) if row[0] == name)
    names = [written("x.pcapng", capture(sorted(frames_of(place, row) + frames_of(len(ROWS), ROWS[0]))))]
    text = done("propose", *names).decode()
    links = {link["vl"]: link.get("not_one_sender", "") for link in tomllib.loads(text)["link"]}
    assert reason in links[FIRST_VL + place] if reason else not any(links.values())
    assert not links[FIRST_VL + len(ROWS)]
    assert not done("check", written("made.toml", text), *names)
    lines = "\n".join(line for line in text.splitlines() if not line.startswith("not_one_sender"))
    found = run("check", written("plain.toml", lines), *names)
    assert found.returncode == bool(reason) and (not reason or reason in found.stdout.decode())
