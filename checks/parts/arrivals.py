"""The law of a single message, worked out for random networks: which messages arrive, and what is wrong with what a
program made of them.

The law itself is that of the tools, tools/workbench/law.py. Copies *count* that pass integrity checking (docs/RECEIVER.md),
from the first on that is forwarded, or that comes when SkewMax is over since all that was forwarded. They are a stretch as
long as each is a copy of the sender's frames, at a time that fits, on networks that begin near each other. All before a
stretch is its past, where anything may have come.

- A copy that counts is forwarded if it is of a later frame than all before it that count, and no other is. So a frame
  whose copies all come after one of a later frame is lost, and no frame after it for that.
- A message arrives with such a copy, if its frame has the datagram whole or its last fragment. Of a datagram in
  fragments all others were offered before, in order and within the reassembly limit; none with its addresses and
  identification was in parts as the first came (those before it came whole, or none came within the limit); and another
  began a group only while fewer than three stood that began after it.
- A message that arrives, and whose queue isn't full, is put at the end of its port's messages, with the time of this copy.

What a program forwarded is looked at in the past of a stretch, and where one begins; there the law speaks of it, too.
"""
import collections

from parts.options import TOOLS  # noqa: F401  its folder is among those that are looked in
from verdict_words import NOT_FORWARDED
from workbench import law

MOST_GROUPS = 4


# ---- copies that count


def follows(number, before, window):
    """Whether a sequence number may come after another one on its network."""
    numbers = [0]
    for _ in range(window):
        before = before % 255 + 1
        numbers.append(before)
    return number in numbers


def keeps_times(networks):
    """Whether the times of sender and networks fit SkewMax, and no copy comes too late."""
    fits = networks.spread <= networks.skew and networks.spread + networks.skew < networks.pause
    return fits and networks.spread < 128 * networks.gap


# ---- packets that are offered


class Groups:
    """The groups of pieces that stand at the link, in the order in which they began."""

    def __init__(self, limit):
        self.limit, self.began, self.pieces, self.ends = limit, {}, {}, {}

    def drop(self, key):
        for each in (self.began, self.pieces, self.ends):
            each.pop(key, None)

    def take(self, key, frame, now):
        """The key of the group that a fifth gave up, if one did."""
        if frame.offset == 0 and not frame.more:
            self.drop(key)
            return None
        if key in self.began and now - self.began[key] > self.limit:
            self.drop(key)
        lost = next(iter(self.began)) if key not in self.began and len(self.began) == MOST_GROUPS else None
        self.drop(lost)
        self.began.setdefault(key, now)
        self.pieces.setdefault(key, []).append((frame.offset, frame.offset + len(frame.octets)))
        if not frame.more:
            self.ends[key] = frame.offset + len(frame.octets)
        if self.is_complete(key):
            self.drop(key)
        return lost

    def is_complete(self, key):
        reached, end = 0, self.ends.get(key)
        for begin, after in sorted(self.pieces[key]):
            if end is not None and begin <= reached < end:
                reached = max(reached, after)
        return end is not None and reached >= end


class Offers(law.Offers):
    """All packets that were offered, in order, and the groups that stand."""

    def __init__(self, limit):
        super().__init__(limit)
        self.groups = Groups(limit)

    def take(self, key, frame, time):
        """Whether a message is whole with this packet, by the law."""
        if lost := self.groups.take(key, frame, time):
            self.lose_place(lost)
        return self.add(key, frame.offset, len(frame.octets), frame.more, time, frame.message)


# ---- what arrives


class Arrivals:
    """What the law says of each copy, given whether a program forwarded it."""

    def __init__(self, networks, forwarded):
        self.networks, self.keeps_times = networks, keeps_times(networks)
        self.numbers, self.stretch, self.number, self.offers = {}, law.Stretch(networks.skew), 0, Offers(networks.limit)
        # The places of the copies with which a message arrives, the stretch of each copy that counts, and wrong verdicts.
        self.places, self.stretches, self.faults = set(), {}, collections.Counter()
        for place, (copy, was_forwarded) in enumerate(zip(networks.copies, forwarded, strict=True)):
            self.take(place, copy, was_forwarded)

    def take(self, place, copy, was_forwarded):
        passes, stretch, is_new = self.passes(copy), self.stretch, False
        if passes:
            was_on = stretch.is_on
            is_new = stretch.see(copy.index if self.is_in_time(copy) else None, copy.time, was_forwarded)
            self.number += was_on and not stretch.is_on
            if stretch.is_on:
                self.stretches[place] = self.number
        if stretch.is_on:
            self.faults["lost"] += is_new and not was_forwarded
            self.faults["twice"] += was_forwarded and not is_new
        if is_new or (was_forwarded and not stretch.is_on):
            frame = self.networks.frames[copy.index]
            is_whole = self.offers.take((self.networks.source(copy.index), frame.ident), frame, copy.time)
            if is_new and is_whole:
                self.places.add(place)

    def passes(self, copy):
        """Whether it passes integrity checking; it counts as the latest of its network in any case."""
        number, before = self.networks.numbers[copy.index], self.numbers.get(copy.net)
        self.numbers[copy.net] = number
        return before is None or follows(number, before, self.networks.window)

    def is_in_time(self, copy):
        """Whether it is of a frame of the sender's, and came no later than its networks bring one."""
        sender = self.networks
        if not self.keeps_times or copy.index >= sender.count:
            return False
        return 0 <= copy.time - sender.sent[copy.index] - sender.least <= sender.spread


# ---- what ports got


def mixable(networks):
    """The places of the copies before which, within the limit, a part of another datagram came with their addresses and
    identification."""
    found, came = set(), collections.defaultdict(dict)
    for place, copy in enumerate(networks.copies):
        frame = networks.frames[copy.index]
        times = came[networks.source(copy.index), frame.ident]
        if any(message != frame.message and copy.time <= time + networks.limit for message, time in times.items()):
            found.add(place)
        times[frame.message] = copy.time
    return found


def got_at(networks, verdicts, messages):
    """The message that was put at a port with each copy that put one, and how many messages were put with none."""
    left, got = {port: collections.deque(each) for port, each in messages.items()}, {}
    for place, (kind, *port) in enumerate(verdicts):
        if kind == "queued" and left.get(int(port[0])):
            got[place] = (int(port[0]), *left[int(port[0])].popleft())
    return got, sum(map(len, left.values()))


def places_with_room(networks, places, got):
    """Those of some places at which the queue of the frame's message wasn't full."""
    found, waiting = set(), collections.Counter()
    for place, copy in enumerate(networks.copies):
        if place in places and waiting[networks.udp(networks.frames[copy.index].message)] < networks.depth:
            found.add(place)
        if place in got:
            waiting[got[place][0]] += 1
    return found


def judged(networks, verdicts, messages):
    """What arrived, and what is wrong with what the ports got."""
    law = Arrivals(networks, [words[0] not in NOT_FORWARDED for words in verdicts])
    got, foreign = got_at(networks, verdicts, messages)
    counts, once, mixes, right = law.faults + collections.Counter(foreign=foreign), set(), mixable(networks), set()
    for place, message in got.items():
        copy = networks.copies[place]
        number = networks.frames[copy.index].message
        if message != (networks.udp(number), copy.time, networks.messages[number]):
            counts["mixed" if place in mixes else "foreign"] += 1
            continue
        right.add(place)
        counts["strange" if copy.index >= networks.count else "beside"] += place not in law.places
        counts["twice"] += place in law.stretches and (law.stretches[place], number) in once
        once.add((law.stretches.get(place), number))
    arrive = places_with_room(networks, law.places, got)
    counts["missing"] = len(arrive - right)
    ended = {frame.message for frame in networks.frames[:networks.count] if not frame.more}
    return counts + collections.Counter(sent=len(ended), arrive=len(arrive))
