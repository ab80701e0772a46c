"""The health of links: frames that are made up here, and captures in which this and that goes wrong."""
import csv
import io
import json
import subprocess
import sys

import pytest
from conftest import CAPTURES, CONFIG, ROOT, done, fault, run
from test_draw import TWO, frame
from workbench import captures, copies
from workbench.copies import Copies
from workbench.shifts import Shift
from workbench.stream import Arrival

A, B, MS = 0, 1, 1_000_000
FAULTS, SECOND = CAPTURES / "faults.pcapng", "2023-11-14T22:13:20"


class Ended(copies.Listener):
    """The numbers of the places that a network lost, with the networks; and the runs that ended."""

    def __init__(self):
        self.places, self.runs, self.many = [], [], 0

    def settled(self, place, lost):
        self.places.append((place.number, tuple(lost)))

    def run_ended(self, net, run, copy, cost):
        self.runs.append((net, run, copy and copy[copies.PACKET]))

    def lost_many(self, count, net, packet):
        self.many += count


def link(frames, skew_max=2000):
    """A link after frames: milliseconds, network and number, and `refused` if integrity checking refused it."""
    made = Copies(skew_max, Ended())
    made.notes = [copies.Note(*made.see(net, int(time * MS), number, packet, True, refused == [True]))
                  for packet, (time, net, number, *refused) in enumerate(frames, 1)]
    made.finish(int((frames[-1][0] + 1000) * MS), skew_max)
    return made


def pairs(numbers, gap=8, delay=0.5):
    return [(place * gap + delay * net, net, number) for place, number in enumerate(numbers) for net in (A, B)]


def lost(made):
    return made.sides[A].lost, made.sides[B].lost, made.lost_both


def turning(count):
    return [number % 255 + 1 for number in range(count)]


def test_where_nothing_is_lost_all_have_their_copy():
    made = link(pairs([0, *turning(600)]))
    assert lost(made) == (0, 0, 0) and made.resets == 0
    assert [note.what for note in made.notes] == [copies.FIRST, copies.COPY] * 601


@pytest.mark.parametrize("count", [1, 100, 127, 128, 200, 254, 255, 256, 500, 700])
def test_an_outage_of_a_network_is_counted_past_turns(count):
    frames = [one for one in pairs(turning(1000)) if one[1] == B or not 800 <= one[0] < 800 + 8 * count]
    made = link(frames)
    assert lost(made) == (count, 0, 0) and made.sides[A].longest == count
    assert made.listener.runs == [(A, count, frames.index((800 + 8 * count, A, (100 + count) % 255 + 1)) + 1)]


@pytest.mark.parametrize("count", [1, 3, 100, 127, 128, 200, 254, 256, 500, 700])
def test_an_outage_of_both_networks_is_counted_by_the_time(count):
    made = link([one for one in pairs(turning(1000)) if not 800 <= one[0] < 800 + 8 * count])
    assert lost(made) == (0, 0, count) and [side.longest for side in made.sides] == [count, count]
    assert made.listener.many == max(0, count - 127)


def test_a_sender_that_pauses_lost_nothing():
    """One that sends now and then: no silence is longer than one before."""
    times = [0, 9000, 9001, 9002, 18000, 18001, 27000, 27001, 27002, 27003, 27004, 27005, 36000]
    made = link([(time, net, place + 1) for place, time in enumerate(times) for net in (A, B)])
    assert lost(made) == (0, 0, 0)


def test_a_steady_sender_that_pauses_lost_nothing():
    """The next number follows after two seconds. 255 lost frames would look the same."""
    made = link([(time + (2000 if place >= 500 else 0), net, number) for place, (time, net, number) in
                 enumerate(pairs(turning(500)))])
    assert lost(made) == (0, 0, 0)


def test_a_link_of_bursts():
    """Three frames each 64 milliseconds; B is out for 2 seconds, and then both for as long."""
    frames = [(64 * place + 0.15 * step + 0.05 * net, net, (3 * place + step) % 255 + 1)
              for place in range(300) for step in range(3) for net in (A, B)]
    one = link([one for one in frames if one[1] == A or not 4000 <= one[0] < 6000])
    both = link([one for one in frames if not 4000 <= one[0] < 6000])
    assert lost(one) == (0, 93, 0) and lost(both) == (0, 0, 93)


def test_numbers_that_came_nowhere_are_lost_on_both():
    made = link(pairs([1, 2, 3, 7, 8]))
    assert lost(made) == (0, 0, 3) and made.listener.places == [(4, (A, B)), (5, (A, B)), (6, (A, B))]


def test_a_restart_loses_nothing():
    made = link(pairs([40, 41, 42, 0, 1, 2]))
    assert lost(made) == (0, 0, 0) and made.resets == 1
    made = link([*pairs([200, 201, 0, 1])[:5], (17, B, 0), (18, B, 201), (24, A, 1), (24.5, B, 1)][:5])
    assert made.resets == 1


def test_a_restart_without_a_zero():
    made = link([one for one in pairs([*range(40, 100), *range(1, 30)], gap=50)])
    assert made.resets == 1 and made.lost_both == 0


@pytest.mark.parametrize("numbers, found", [
    ([1, 2, 90, 3, 4, 5], (0, 1)), ([1, 2, 90, 4, 5], (1, 1)), ([1, 2, 7, 8], (4, 0)), ([1, 2, 7, 12, 17, 18], (12, 0)),
    ([1, 2, 4, 3, 5], (0, 0)), ([1, 2, 2, 3], (0, 0)), ([1, 2, 90], (0, 1)),  # the end leaves it open, but for the time
])
def test_a_number_that_was_refused_counts_if_the_next_goes_on_from_it(numbers, found):
    frames, before = [], None
    for place, number in enumerate(numbers):
        frames.append((place, A, number, before is not None and not 1 <= (number - before) % 255 <= 2))
        before = number
    made = link(frames)
    assert (made.lost_both, made.sides[A].astray) == found


def test_copies_that_were_refused_on_both_are_a_pair():
    """Both networks lose the same frames, so that the first after them is refused on both."""
    frames = [(time, net, number, number == 20) for time, net, number in pairs([1, 2, 20, 21, 22])]
    made = link(frames)
    assert lost(made) == (0, 0, 17) and made.sides[A].astray == made.sides[B].astray == 0


def test_frames_that_come_late_or_again():
    made = link([(0, A, 1), (1, A, 3), (2, A, 2), (3, A, 2), (4, A, 4)])
    assert (made.sides[A].overtaken, made.sides[A].repeated, made.lost_both) == (1, 1, 0)
    assert made.notes[2].is_overtaken and made.notes[3].what == copies.REPEATED


def test_what_came_before_a_networks_first_frame_isnt_lost():
    made = link([*pairs(range(1, 6))[1:], (48, A, 7)])
    assert lost(made) == (0, 1, 1)
    assert lost(link([(0, B, 1), (8, B, 2), *[(8 * place + net, net, place + 1) for place in (2, 3, 4) for net in (A, B)]])) == \
        (0, 0, 0)


def test_places_are_bounded():
    made = Copies(1_000_000, Ended())
    for place in range(20_000):
        made.see(A, place, place % 255 + 1, place, True, False)
        assert len(made.places) <= 128 and len(made.by_number) <= 128


def test_a_shift_is_seen_beyond_the_spread():
    def found(delays):
        shift = Shift()
        for place, delay in enumerate(delays):
            for net, time in ((A, 8 * MS * place), (B, 8 * MS * place + int(delay * MS))):
                shift.see(Arrival(time, net, place, bytes(20) + bytes([place]), None, 21))
        return shift.found()
    assert found([5, 5.1, 5.2, 4.9] * 10) in range(5 * MS, 5_150_000) and found([-2000.1, -2000] * 20) < -2_000_000_000
    assert found([0.1, 0.2, 0.3] * 10) == found([1, 5, 9, 2] * 10) == found([5] * 5) == 0


def test_a_shift_of_frames_whose_octets_come_again():
    """1,000 frames of one payload, whose numbers alone differ: B's come 5 ms later, or begin half a turn later or more."""
    def found(delay, missing):
        shift = Shift()
        for place in range(1000):
            for net, time in ((A, 8 * MS * place), (B, 8 * MS * place + delay)):
                if net == A or place >= missing:
                    shift.see(Arrival(time, net, place, bytes(20) + bytes([place % 255 + 1]), None, 21))
        return shift.found()
    assert found(5 * MS, 0) == found(5 * MS, 100) == 5 * MS
    assert found(0, 0) == found(0, 128) == found(0, 255) == found(0, 300) == 0


# ---- captures


def health(*words, config=CONFIG, status=1):
    found = run("health", "--json", "--config", config, *words)
    assert found.returncode == status, found.stderr
    told = json.loads(found.stdout)
    return told, {link["vl"]: link for link in told["links"]}


def test_the_faults_of_the_example():
    told, links = health(FAULTS)
    one, two = links[17], links[18]
    assert [one["networks"][net]["lost"] for net in "AB"] == [6, 1] and one["lost_both"] == 1
    assert one["twice"] == {"count": 1, "first": [f"33 of B at {SECOND}.033800"]} and one["delays_us"]["beyond"] == 1
    assert one["resets"]["first"] == [f"64 of A at {SECOND}.116100 after 44000 us"] and one["least_pause_us"] == 44000
    assert one["delays_us"] == {"pairs": 20, "least": 200, "median": 200, "most_of_99": 1700, "greatest": 1700, "beyond": 1}
    first = {"first": f"60 of A at {SECOND}.072100", "how": "the first after 6 were lost"}
    assert one["broken"]["losses"] == {"count": 1, **first, "causes": [first]}
    assert list(one["broken"]) == ["skew-max", "losses", "packets", "copies"] and one["law"] == "lost"
    assert list(two["broken"]) == ["losses"] and [two["networks"][net]["lost"] for net in "AB"] == [6, 0]
    assert [(span["from_us"], span["to_us"], span["ended_by"], span["packet"]) for span in one["spans"]] == \
        [(0, 32_000, "skew-max", f"33 of B at {SECOND}.033800"), (33_700, 148_200, None, None)] and one["healed_us"] == 33_700
    assert [(link["arrived"], link["delivered"]) for link in (one, two)] == [(26, 26), (28, 28)]
    assert {word: count for word, count in one["costs"].items() if count} == {"lost-both": 1, "bad": 1, "twice": 1}
    assert two["law"] == "no loss" and two["outages"] == {
        "count": 1, "first": [f"6 before 62 of A at {SECOND}.074100, no frame lost"]}
    assert told["frames"] == 97


def test_a_capture_without_a_fault_keeps_each_condition(written):
    config = written("c.toml", CONFIG.read_text().replace("skew_max_us = 1000", "skew_max_us = 5000"))
    _, links = health(CAPTURES / "ahead_a.pcap", CAPTURES / "ahead_b.pcap", config=config, status=0)
    assert all(link["law"] == "all" and not link["broken"] for link in links.values())
    assert run("health", "--config", config, CAPTURES / "ahead_a.pcap", CAPTURES / "ahead_b.pcap").returncode == 0


def of_frames(written, frames, sender="00"):
    """Traces of both networks, B's 100 us later: microseconds, number, and the sender's last octet if it is another."""
    return [written(f"{net}.trace", "".join(
        f"{time + 100 * net} {octets[:20] + (of or [sender])[0] + octets[22:]}\n"
        for time, number, *of in frames for octets in [frame(7, number, "", 1, 8)])) for net in (A, B)]


def test_a_law_that_is_broken_fails_by_itself(written):
    """A restart within SkewMax, whose frame 0 is redundant on both networks, and so is never delivered."""
    config = written("two.toml", TWO.replace("refresh_us = 900", "refresh_us = 9000"))
    restart = of_frames(written, [(8000, 1), (16_000, 2), (16_400, 0), (24_400, 1), (32_400, 2)])
    _, links = health(*restart, config=config)
    assert list(links[7]["broken"]) == ["skew-max"] and links[7]["networks"]["A"]["verdicts"]["redundant"] == 1
    assert run("health", "--config", config, *restart, "--fail-on", "lost-a,lost-b,twice").returncode == 0
    assert b"link 7: law 1" in run("health", "--config", config, *restart, "--fail-on", "law").stderr


def test_another_sender_breaks_a_law(written):
    config = written("two.toml", TWO.replace("refresh_us = 900", "refresh_us = 9000"))
    fine, other = [(8000 * n, n) for n in range(1, 6)], [(8000 * n, n, "05") for n in range(6, 11)]
    assert health(*of_frames(written, fine), config=config)[1][7]["law"] == "all"
    _, links = health(*of_frames(written, fine + other), config=config)
    assert list(links[7]["broken"]) == ["sender"] and not links[7]["networks"]["A"]["lost"]


def test_the_least_time_of_128_gaps(written):
    found = made(written, [(1000 * place, A, frame(7, place % 255 + 1, "", 1, 8)) for place in range(128)])
    assert found["networks"]["A"]["least_128_gaps_us"] is None
    found = made(written, [(1000 * place, A, frame(7, place % 255 + 1, "", 1, 8)) for place in range(140)])
    assert found["networks"]["A"]["least_128_gaps_us"] == 128_000


def test_sums_of_udp_at_which_no_receiver_looks(written):
    """A sum of 0 says none; the right one is taken, and a wrong one is told of each copy, with --each."""
    plain = bytes.fromhex(frame(7, 1, "", 1, 8))
    summed = plain[26:34] + bytes((0, 17)) + plain[38:40] + plain[34:50]
    total = sum(int.from_bytes(summed[at:at + 2], "big") for at in range(0, len(summed), 2))
    right = 0xFFFF ^ ((total & 0xFFFF) + (total >> 16))
    frames = [plain[:40] + value.to_bytes(2, "big") + plain[42:59] + bytes([number]) for number, value in
              enumerate((0, right, right ^ 1), 1)]
    names = [written(net, "".join(f"{8000 * place + delay} {octets.hex()}\n" for place, octets in enumerate(frames)))
             for net, delay in (("a", 0), ("b", 100))]
    config = written("two.toml", TWO.replace("refresh_us = 900", "refresh_us = 9000"))
    _, links = health(*names, "--each", config=config)
    assert [links[7]["networks"][net]["hidden"] for net in "AB"] == [{"wrong-udp-checksum": 1}] * 2
    assert not health(*names, config=config)[1][7]["networks"]["A"]["hidden"]


@pytest.mark.parametrize("words, status", [("lost-a=6,lost-b=1", 0), ("lost-a=5", 1), ("lost-both", 1), ("overflow", 0), ("", 0),
                                           ("reset=1", 0), ("reset", 1), ("twice=1", 0)])
def test_what_fails_can_be_chosen(words, status):
    found = run("health", "--config", CONFIG, FAULTS, "--fail-on", words)
    assert found.returncode == status and (b"yelunnavi: link 17: " in found.stderr) == (status == 1)


def test_words_of_fail_on_that_are_none():
    for words in ("x", "lost-a=x", "lost-a=-1", "lost-a=²", "lost-a=" + "9" * 5000):
        assert "--fail-on takes lost-a lost-b" in fault(2, "health", "--config", CONFIG, FAULTS, "--fail-on", words)


def test_the_screens():
    lines = done("health", "--config", CONFIG, FAULTS, "--fail-on", "").decode().splitlines()
    assert lines[0].split()[:4] == ["link", "A/s", "B/s", "lost"] and lines[1].split()[:2] == ["17", "135"]
    assert "lost not skew-max,losses,packets,copies" in lines[1] and "delay 1, reset 1, bad 1" in lines[1]
    assert "no loss not losses" in lines[2]
    lines = done("health", "--config", CONFIG, FAULTS, "--fail-on", "", "--link", "17").decode().splitlines()
    assert "  losses: few are lost: fewer in a row than the window, and never the first after a restart: 1 times, first by " \
        f"60 of A at {SECOND}.072100: the first after 6 were lost" in lines
    assert "has no link 99" in fault(2, "health", "--config", CONFIG, FAULTS, "--link", "99")


def made(written, frames, config=TWO):
    """The health of link 7 of frames of one network: microseconds, number, identification, flags and octets of a datagram."""
    names = []
    for net in (A, B):
        names.append(written(f"{net}.trace", "".join(f"{time} {octets}\n" for time, of, octets in sorted(frames) if of == net)))
    return health(*names, config=written("two.toml", config), status=1)[1][7]


def piece(number, identification, offset, more):
    """A frame with a fragment of 8 octets."""
    from parts.worked import with_sum
    head = bytes([0x45, 0, 0, 28]) + identification.to_bytes(2, "big") + ((0x2000 if more else 0) | offset).to_bytes(2, "big") + \
        bytes([9, 17, 0, 0, 10, 0, 0, 1, 224, 0, 0, 7])
    octets = bytes([3, 0, 0, 0, 0, 7, 2, 0, 0, 0, 1, 0x20, 8, 0]) + with_sum(head, 0) + (bytes([0, 9, 0, 2, 0, 16, 0, 0])
                                                                                     if offset == 0 else bytes(8))
    return (octets.ljust(59, b"\0") + bytes([number])).hex()


def test_datagrams_that_never_end(written):
    """One whose second fragment is lost, past the limit; and one that four others push out."""
    found = made(written, [(1000, A, piece(1, 1, 0, True)), (2000, A, piece(2, 2, 0, True)), (3000, A, piece(3, 2, 1, False)),
                           (90_000, A, frame(7, 4, "", 1, 8))])
    assert found["unfinished"] == {"count": 1, "first": ["1 of A at 0.001000 s (limit)"]} and "whole" in found["broken"]
    found = made(written, [(1000 * place, A, piece(place, place, 0, True)) for place in range(1, 6)])
    assert found["unfinished"]["first"] == ["1 of A at 0.001000 s (four others)"] and found["broken"]["parts"]["first"] == "5 of A at 0.005000 s"


def test_an_identification_that_comes_again(written):
    found = made(written, [(1000, A, piece(1, 1, 0, True)), (2000, A, piece(2, 1, 1, False)), (9000, A, piece(3, 1, 0, True)),
                           (9500, A, piece(4, 1, 1, False))])
    assert found["identification_again"] == {"count": 1, "first": ["3 of A at 0.009000 s"]}
    found = made(written, [(1000, A, piece(1, 1, 0, True)), (2000, A, piece(2, 1, 1, False)), (99_000, A, piece(3, 1, 0, True)),
                           (99_500, A, piece(4, 1, 1, False))])
    assert found["identification_again"]["count"] == 0


def test_the_bag_and_the_name_of_a_link(written):
    config = TWO.replace("vl = 7", 'vl = 7\nname = "ADC 1"\nbag_us = 4000')
    found = made(written, [(time, A, frame(7, number, "", 1, 8)) for number, time in enumerate([0, 4000, 7500, 9000, 16000], 1)],
                 config)
    assert (found["name"], found["bag_us"], found["networks"]["A"]["early"]) == ("ADC 1", 4000, 1)
    config = config.replace("bag_us = 4000", "bag_us = 4000\njitter_us = 499")
    assert made(written, [(time, A, frame(7, number, "", 1, 8)) for number, time in enumerate([0, 4000, 7500, 9000, 16000], 1)],
                config)["networks"]["A"]["early"] == 2
    assert found["networks"]["A"]["jitter_us"] == 2500 and found["networks"]["A"]["least_gap_us"] == 1500


def test_a_copy_that_overtakes_and_a_silent_network(written):
    """Only first copies have to be in order: B's number 1 comes after A's 2, and costs nothing. Its 3 never came on A."""
    frames = [(1000, A, 1), (2000, A, 2), (2500, B, 1), (3000, B, 2), (3500, A, 4), (3600, B, 3), (90_000, A, 5)]
    found = made(written, [(time, net, frame(7, number, "", 1, 8)) for time, net, number in frames])
    assert found["broken"]["overtaking"]["count"] == 1 and found["broken"]["overtaking"]["first"] == "3 of B at 0.003600 s"
    assert found["costs"]["dropped"] == 1 and found["law"] == "lost" and found["networks"]["B"]["overtaken"] == 0
    assert [(span["from_us"], span["ended_by"]) for span in found["spans"]] == [(1000, None)]
    assert (found["arrived"], found["delivered"]) == (4, 4) and found["networks"]["B"]["silent_us"] == 86_400


@pytest.mark.parametrize("late, ends", [(2000, []), (2001, ["skew-max"])])
def test_an_overtaken_frame_costs_its_message_and_ends_a_span_only_beyond_skew_max(written, late, ends):
    """Number 2 comes on B alone, after A's 3; those after it arrive."""
    frames = [(1000, A, 1), (1100, B, 1), (3000, A, 3), (3000 + late, B, 2), (8500, A, 4), (8600, B, 4), (10_000, A, 5)]
    found = made(written, [(time, net, frame(7, number, "", 1, 8)) for time, net, number in frames])
    assert [span["ended_by"] for span in found["spans"] if span["ended_by"]] == ends
    assert found["broken"]["overtaking"]["count"] == 1 and set(found["broken"]) == {"overtaking", *ends}
    assert found["arrived"] == found["delivered"]
    if not ends:
        assert (found["arrived"], found["costs"]["dropped"], found["law"]) == (4, 1, "lost")


def test_packets_of_other_interfaces_are_left_out_of_both_networks(written):
    """Of four interfaces, two of which are A's and B's: by their interface, with the first; and by the source address, too."""
    found = [(net, time, frame(7, number, "", 1, 8)) for number, (net, time) in enumerate(
        [(0, 10), (2, 20), (1, 30), (3, 40), (2, 50), (0, 60)], 1)]
    head = [captures.written_section("test"), *(captures.written_interface(name, name) for name in "abcd")]
    capture = written("x.pcapng", b"".join(head + [
        captures.written_packet(net, 1000 * time, bytes.fromhex(octets), None, "") for net, time, octets in found]))
    words = ["--config", written("c", TWO), capture]
    told = json.loads(run("health", "--json", *words).stdout)
    assert told["left_out"]["neither"] == {"of interface 2": 2, "of interface 3": 1} and told["frames"] == 3
    assert told["first_packets"]["neither"] == {"of interface 2": "2 at 0.000020 s", "of interface 3": "4 at 0.000040 s"}
    shown = run("health", *words).stdout.decode()
    assert "left out on neither: of interface 2 2, first 2 at 0.000020 s; of interface 3 1, first 4 at 0.000040 s" in shown
    allowed = run("health", *words, "--fail-on", "left-out=3"), run("health", *words, "--fail-on", "left-out=2")
    assert [one.returncode for one in allowed] == [0, 1]
    by_source = json.loads(run("health", "--json", "--networks", "source", *words).stdout)
    assert "neither" not in by_source["left_out"] and by_source["frames"] == 6


# ---- many captures


def test_many_captures_are_a_table(tmp_path):
    pair = f"{CAPTURES / 'a.pcap'},{CAPTURES / 'b.pcap'}"
    found = run("health", "--config", CONFIG, "--workers", "2", FAULTS, pair, FAULTS, "--to", tmp_path / "t.csv")
    assert found.returncode == 1
    rows = list(csv.DictReader(io.StringIO((tmp_path / "t.csv").read_text())))
    assert [row["vl"] for row in rows] == ["17", "18"] * 3 and rows[0] == rows[4] | {"capture": rows[0]["capture"]}
    _, links = health(FAULTS)
    assert rows[0]["lost_a"] == str(links[17]["networks"]["A"]["lost"]) and rows[0]["broken"] == " ".join(links[17]["broken"])


def test_a_capture_that_is_none_is_told_and_the_others_are_there():
    found = run("health", "--config", CONFIG, "--workers", "1", "/nowhere", FAULTS)
    assert found.returncode == 3 and b"/nowhere: not read" in found.stderr and found.stdout.count(b"faults.pcapng") == 2


def test_a_configuration_that_is_refused_is_told_once(written):
    bad = written("bad.toml", CONFIG.read_text().replace("vl = 17", "vl = 70000"))
    found = run("health", "--config", bad, "--workers", "1", FAULTS, FAULTS)
    assert (found.returncode, found.stdout) == (1, b"") and found.stderr.count(b"\n") == 1


@pytest.mark.parametrize("words", [["--workers", "1", "--json"], ["--workers", "1", "--link", "17"], ["--to", "t.csv"],
                                   ["--json", "--csv"], ["--link", "17", "--json"], ["--link", "17", "--csv"]])
def test_words_that_do_not_go_together(words):
    found = run("health", "--config", CONFIG, FAULTS, *words)
    assert found.returncode == 2 and b"yelunnavi: error: " in found.stderr and not found.stdout


def test_a_table_as_parquet(tmp_path):
    """What it has is what the table with commas has."""
    pandas = pytest.importorskip("pandas")
    pytest.importorskip("pyarrow")
    words = ["health", "--config", CONFIG, "--workers", "1", FAULTS, FAULTS, "--fail-on", "", "--to"]
    for name in ("t.csv", "t.parquet"):
        done(*words, tmp_path / name)
    made, wanted = pandas.read_parquet(tmp_path / "t.parquet"), pandas.read_csv(tmp_path / "t.csv")
    pandas.testing.assert_frame_equal(made, wanted, check_dtype=False)


def test_a_table_as_parquet_without_its_libraries(tmp_path):
    with_none = "import sys; sys.modules['pandas'] = None; sys.path.insert(0, sys.argv[1]); " \
        "from workbench import sharing; sharing.write(sys.argv[2], [])"
    found = subprocess.run([sys.executable, "-c", with_none, ROOT / "tools", tmp_path / "t.parquet"], capture_output=True)
    assert b"no pandas with pyarrow" in found.stderr and not list(tmp_path.iterdir())
    assert b"by pandas with pyarrow" in run("health", "--help").stdout


def test_a_scheduler_of_dask(tmp_path):
    distributed = pytest.importorskip("distributed")
    with distributed.LocalCluster(n_workers=1, threads_per_worker=1, processes=True, dashboard_address=None) as cluster:
        words = ["health", "--config", CONFIG, FAULTS, FAULTS, "--fail-on", ""]
        assert done(*words, "--scheduler", cluster.scheduler_address) == done(*words, "--workers", "1")
    assert "no scheduler at" in fault(3, "health", "--config", CONFIG, FAULTS, "--scheduler", "tcp://127.0.0.1:1")
