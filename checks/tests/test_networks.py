"""checks/networks: which messages arrive by their law, in examples worked out by hand; and that it finds a program whose
link has another setting, and an output that was changed."""
import collections
import random
import types

import pytest
from conftest import PROGRAM
from parts.arrivals import Arrivals, Offers, judged
from parts.faulty_networks import FAULTY, LONGEST_TURN, BothOut, Losing, OneOut, RestartingInParts, Strange
from parts.network_player import played
from parts.random_networks import DROPPED, HOLDING, Copy, Frame, Overtaking
from receiver import Receiver
from verdict_words import NOT_FORWARDED
from workbench import health, stream

# ---- copies that count

# A frame each 1,000 us, each a message; those of another sender have a star. Latencies differ by four fifths of SkewMax.
AFTER_STRANGE = "A 200* 50, B 50* 60, A 10 100, B 10 900, A 11 1100, B 11 1900, A 12 2100, B 99* 2500, B 12 2900"
WHILE_ONE_PASSES = "A 10 100, B 50* 200, A 11 1100"
OVERTAKEN = "A 10 100, B 10 900, A 12 2100, B 11 2200, A 13 3100, B 12 3200"
ONE_OUT = "A 10 100, B 10 900, A 11 1100, A 12 2100, A 13 3100, B 13 3900, A 14 4100, B 14 4900"


def by_hand(text, skew):
    """A link with a window of 2, whose sender's first number is 10. Each frame of another sender stands after his."""
    copies, numbers = [], list(range(10, 20))
    for net, number, time in (each.split() for each in text.split(", ")):
        index = int(number) - 10 if number.isdigit() else len(numbers)
        numbers += [] if number.isdigit() else [int(number[:-1])]
        copies.append(Copy(int(time), net, index))
    frames = [Frame(index, index, 0, False, b"") for index in range(len(numbers))]
    return types.SimpleNamespace(
        copies=copies, numbers=numbers, frames=frames, count=10, window=2, skew=skew, limit=50_000, spread=4 * skew // 5, pause=3000,
        gap=1000, least=100, sent=[1000 * index for index in range(10)], source=lambda index: index >= 10)


# The places of the copies that were forwarded, of those with which a message arrives, and the faults of the first.
EXAMPLES = [
    (AFTER_STRANGE, 1500, {0, 1, 5, 6}, {5, 6}, {}),
    (AFTER_STRANGE, 1500, {0, 1, 6}, {5, 6}, {"lost": 1}),
    (AFTER_STRANGE, 1500, {0, 1, 4, 6}, {4, 6}, {}),
    (WHILE_ONE_PASSES, 1000, {0, 1}, {0}, {}),
    (OVERTAKEN, 1500, {0, 2, 4}, {0, 2, 4}, {}),
    (OVERTAKEN, 1500, {0, 2, 3}, {0, 2, 4}, {"lost": 1, "twice": 1}),
    (ONE_OUT, 1000, {0, 2, 3, 4, 6}, {0, 2, 3, 4, 6}, {}),
    (ONE_OUT, 1000, {0, 2, 4, 6, 7}, {0, 2, 3, 4, 6}, {"lost": 1, "twice": 1}),
]


@pytest.mark.parametrize("text, skew, forwarded, arrive, faults", EXAMPLES)
def test_what_arrives_is_worked_out(text, skew, forwarded, arrive, faults):
    networks = by_hand(text, skew)
    law = Arrivals(networks, [place in forwarded for place in range(len(networks.copies))])
    assert law.places == arrive and +law.faults == faults


# ---- datagrams in fragments

# Identification, place of the first octet, a plus if more follow, and the time; each has 8 octets, and the limit is 100.
FRAGMENTS = [
    ("1 0+ 0, 1 8+ 50, 1 16 100", True),
    ("1 0+ 0, 1 8+ 50, 1 16 101", False),
    ("1 0+ 0, 1 16 50", False),
    ("1 8+ 0, 1 0+ 10, 1 16 50", False),
    ("1 0+ 0, 1 0+ 100, 1 8 110", False),
    ("1 0+ 0, 1 0+ 101, 1 8 110", True),
    ("1 0+ 0, 1 8 10, 1 0+ 20, 1 8 30", True),
    ("1 0 0, 1 0+ 10, 1 8 20", True),
    ("1 0+ 0, 1 8 10, 1 8+ 15, 1 0+ 20, 1 16 30", False),
    ("1 0+ 0, 1 16 10, 1 0+ 20, 1 8 30", False),
    ("1 0+ 0, 2 0+ 1, 3 0+ 2, 4 0+ 3, 1 8 4", True),
    ("1 0+ 0, 2 0+ 1, 3 0+ 2, 4 0+ 3, 5 0+ 4, 1 8 5", False),
    ("1 0+ 0, 2 0+ 1, 3 0+ 2, 4 0+ 3, 2 8 4, 5 0+ 4, 1 8 5", True),
    ("7 0+ 0, 8 0+ 0, 9 0+ 0, 1 0+ 0, 2 0+ 1, 3 0+ 2, 4 0+ 3, 1 8 4", True),
]


@pytest.mark.parametrize("text, arrives", FRAGMENTS)
def test_a_split_message_is_whole(text, arrives):
    offers = Offers(100)
    for ident, place, time in (each.split() for each in text.split(", ")):
        frame = Frame(int(ident), int(ident), int(place.rstrip("+")), place.endswith("+"), bytes(8))
        is_whole = offers.take(ident, frame, int(time))
    assert is_whole == arrives


# ---- what is found


class Mixing(RestartingInParts):
    """Identifications begin anew at each restart, and the limit is too short for that to matter."""
    lost = 0.1

    def draw_sender(self):
        super().draw_sender()
        self.recounts, self.turn = True, LONGEST_TURN

    def drawn_limit(self):
        return self.longest_datagram()


def with_value(text, key, value):
    return "\n".join(f"{key} = {value}" if line.startswith(f"{key} =") else line for line in text.split("\n"))


def found(kind, folder, count, key="", value=0):
    """The faults of some networks, where a setting of the program's link has another value."""
    faults = collections.Counter()
    for place in range(count):
        networks = kind(random.Random(f"test {place}"))
        text = with_value(networks.config(), key, value)
        networks.config = lambda text=text: text
        faults += judged(networks, *played(PROGRAM, networks, folder))
    return {name for name in ("lost", "twice", "missing", "foreign") if faults[name]}


@pytest.mark.parametrize("kind", [*FAULTY, Mixing], ids=lambda kind: kind.__name__)
def test_nothing_is_found_where_all_is_right(kind, tmp_path):
    assert not found(kind, tmp_path, 3)


WRONG = [(Losing, "window", 1, "missing"), (BothOut, "skew_max_us", 0, "twice"),
         (Strange, "skew_max_us", 1_000_000, "lost"), (Losing, "reassembly_us", 0, "missing"),
         (Mixing, "reassembly_us", 10_000_000, "foreign"), (OneOut, "depth", 1, "missing")]


@pytest.mark.parametrize("kind, key, value, fault", WRONG)
def test_a_wrong_setting_is_found(kind, key, value, fault, tmp_path):
    assert fault in found(kind, tmp_path, 12, key, value)


@pytest.mark.parametrize("kind", [*HOLDING, *DROPPED, *FAULTY], ids=lambda kind: kind.__name__)
def test_what_health_says_arrived_was_delivered(kind):
    """It knows the copies alone. Where they tell the sender's frames, it finds what the law finds."""
    for place in range(4):
        networks, forwarded = kind(random.Random(f"test {place}")), []
        with Receiver(networks.config()) as receiver:
            spans = seen(networks, receiver, forwarded).spans
        assert spans.arrived == spans.delivered
        if kind in (*HOLDING, Overtaking, OneOut, BothOut, Losing):
            assert spans.delivered + spans.full == len(Arrivals(networks, forwarded).places)


def seen(networks, receiver, forwarded):
    found = health.Health(types.SimpleNamespace(receiver=receiver, own={}))
    for number, copy in enumerate(networks.copies, 1):
        one = stream.Arrival(1000 * copy.time, "AB".index(copy.net), number, networks.octets(copy), None, 0)
        reply = receiver.receive(one.net, copy.time, one.octets)
        forwarded.append(reply.kind not in NOT_FORWARDED)
        found.see(one, copy.time, reply)
    found.finish(copy.time)
    return found.links[17]


def without(messages):
    return messages[:1] + messages[2:]


def again(messages):
    return messages[:1] + messages


def swapped(messages):
    return [messages[1], messages[0], *messages[2:]]


def later(messages):
    return [(time + 1, octets) for time, octets in messages]


@pytest.mark.parametrize("change", [without, again, swapped, later])
def test_a_changed_output_is_found(change, tmp_path):
    networks = OneOut(random.Random("test"))
    verdicts, messages = played(PROGRAM, networks, tmp_path)
    assert not +collections.Counter({name: judged(networks, verdicts, messages)[name] for name in ("missing", "foreign")})
    messages[5000] = change(messages[5000])
    counts = judged(networks, verdicts, messages)
    assert counts["missing"] or counts["foreign"]
