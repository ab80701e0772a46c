"""The copies of a link's frames: which came on which network, which were lost, and when.

Sequence numbers turn at 255, so that an outage of 500 frames looks like one of 245. Therefore each frame of the sender has a
place in a row that goes on. Of the places that a number may mean it is the one nearest to the newest place of which a
copy came on either network; and where both were silent for longer than ever before without a loss, nearest to where the
sender would stand by now at its usual rate. If the next number follows, the sender paused: 255 lost frames look the same.

A frame that integrity checking refuses counts if it goes on from the last one of its network that did, or once the next one
goes on from it rather than from that; else it was astray.
"""
import collections
from typing import NamedTuple, Optional

HALF_TURN, TURN = 127, 255
MOST_TIME = 2**64
LEAST_WAIT = 100_000_000  # nanoseconds that a copy is waited for, or ten times SkewMax
RATE_OF, STEADY = 64, 8  # places by which the usual rate is known; how many it takes at least
RENEWED = 3  # frames in turn that go on from a number which was behind: the sender has begun anew
MOST_WINDOW, APART = 4, 16  # numbers by which a frame goes on from another; by which two series are apart at least

# What a frame is: the first copy of its place, or the second; again on the same network; of a place that was given up; the
# first one after a restart, with the number 0 or without; refused, and what it is will be seen; or cut, without a number.
FIRST, COPY, REPEATED, LATE, RESET, ANEW, HELD, CUT = "first", "copy", "repeated", "late", "reset", "anew", "held", "cut"
BEHIND = LATE, ANEW  # numbers that don't go on


# A copy is a tuple, since names take time: when a frame came, in nanoseconds, its packet, whether redundancy management
# forwarded it, and whether it was refused then.
TIME, PACKET, IS_FORWARDED, IS_BAD = range(4)


class Place:
    """A frame of the sender: its place, its number, since when and by which packet of which network it is known of, and its
    copies on both networks."""
    __slots__ = ("index", "number", "since", "by", "copies")


class Note(NamedTuple):
    """What a frame is beside the others: how many numbers before it came on neither network, whether it came after a later
    one, its other copy, and its place, if it has one. `Copies` gives its fields as a tuple."""
    what: str
    missing: int = 0
    is_overtaken: bool = False
    other: Optional[tuple] = None
    index: Optional[int] = None


OTHER = Note._fields.index("other")
COUNTED = ("lost", "longest", "overtaken", "repeated", "late", "astray")


class Side:
    """What a link lost on a network, or had more than once."""

    def __init__(self):
        self.began, self.newest, self.number, self.held = None, -1, None, None
        self.last = self.left = self.behind = None
        self.run = self.follow = self.cost = self.mixed = 0
        self.lost = self.longest = self.overtaken = self.repeated = self.late = self.astray = 0

    def go_on(self, index, number):
        """A copy of this place came."""
        if self.began is None or index < self.began:
            self.began = index
        if index > self.newest:
            self.newest = index
        self.number, self.behind, self.follow = number, None, 0

    def look_at_series(self, number):
        """A refused frame: whether two series of numbers have alternated for some time."""
        if goes_on(number, self.left) and APART < (number - self.last) % TURN < TURN - APART:
            self.mixed += 1
        else:
            self.mixed = 0
        self.left = self.last
        return self.mixed == RENEWED


def goes_on(number, before):
    return before is not None and 1 <= (number - before) % TURN <= MOST_WINDOW


class Listener:
    """Who is told what became of a link's places."""

    def settled(self, place, lost):
        """No more copies of it are waited for, and not both came: on these networks it was lost."""

    def lost_many(self, count, net, copy):
        """So many places before this one came on neither network."""

    def mixed(self, net, copy):
        """Two series of numbers alternate on a network."""

    def run_ended(self, net, run, copy, cost):
        """The first copy of a network after it lost so many frames in a row, or none; so many of all up to it weren't
        forwarded."""


class Copies:
    """The places of a link's frames that are waited for, with what both networks brought of them, in bounded memory."""

    def __init__(self, skew_max, listener, bag=None):
        self.wait, self.skew, self.listener, self.bag = max(LEAST_WAIT, 10_000 * skew_max), 1000 * skew_max, listener, bag
        self.sides, self.began = (Side(), Side()), 0  # the place with which the sender began anew
        self.places, self.by_number = collections.deque(), {}
        self.newest, self.number, self.next, self.latest = -1, None, None, None  # place, number and the next one, time
        self.rate, self.quiet = collections.deque(maxlen=RATE_OF), 0
        self.lost_both = self.dropped = self.resets = 0
        self.strays = []  # the latest that were behind, with their networks and numbers
        self.seen, self.first, self.least, self.closest = 0, None, None, None  # new frames, and their times
        self.skipped = None  # the first that skipped more numbers than there was time for, how many, and for how many

    # ---- a frame

    def see(self, net, time, number, packet, is_forwarded, is_refused, is_bad=False):
        side, other, copy = self.sides[net], self.sides[1 - net], (time, packet, is_forwarded, is_bad)
        if is_refused or side.held or other.held:
            self.look_at_held(net, number, copy, is_refused)
        side.last = number
        if self.places and self.places[0].since < time - self.wait:
            self.settle(time - self.wait)
        place = self.by_number.get(number)
        if place and self.awaits(place, net, time):
            return self.come(net, place, copy, self.newest)
        if number == self.next and not is_refused:
            return self.advance(net, number, copy, 1)
        ahead = self.ahead(number, time)
        if is_refused and ahead > 0 and not goes_on(number, side.number):
            side.held = number, copy, self.newest
            return HELD, ahead - 1, False, None, None
        return self.take(net, number, copy, ahead, self.newest)

    def look_at_held(self, net, number, copy, is_refused):
        """Judges the refused frames before, if there are any, and looks for a second series of numbers."""
        side, other = self.sides[net], self.sides[1 - net]
        if side.held:
            self.judge(net, side, number)
        if is_refused and side.look_at_series(number):
            self.listener.mixed(net, copy)
        if other.held and other.held[0] == number and not is_refused:
            self.judge(1 - net, other, number)

    def awaits(self, place, net, time):
        """Whether the other network brought its copy, and this one may be the second."""
        copies = place.copies
        return copies[1 - net] and not copies[net] and self.is_of(place, time)

    def is_of(self, place, time):
        """Whether a frame with its number may be its copy. A number from before a restart is that of a new frame after SkewMax,
        or if it goes on from the newest; and so is, after SkewMax, one from which the sender has gone on for a turn in
        silence."""
        is_soon = time - place.since <= self.skew
        if place.index < self.began:
            return is_soon and not goes_on(place.number, self.number)
        return is_soon or self.newest + self.expected(time) - place.index <= HALF_TURN + 1

    def judge(self, net, side, number):
        """Whether the refused frame before counts, by the number that comes next."""
        (held, copy, newest), side.held = side.held, None
        steps = (number - held) % TURN
        is_nearer = side.number is not None and (number - side.number - 1) % TURN + 1 < steps
        if number and held and (steps > HALF_TURN or is_nearer):
            side.astray += 1
            return
        if (place := self.by_number.get(held)) and self.awaits(place, net, copy[TIME]):
            self.come(net, place, copy, newest)
        else:
            self.take(net, held, copy, self.ahead(held, copy[TIME]), newest)
        other = self.sides[1 - net]
        if other.held and other.held[0] == held:
            self.judge(1 - net, other, held)

    def take(self, net, number, copy, ahead, newest):
        """A frame that isn't a second copy: of a new place, or of one of which none came, or again."""
        if ahead > 0:
            return self.advance(net, number, copy, ahead)
        index = self.newest + ahead
        if not self.places or index < self.places[0].index:
            return self.fall_behind(net, number, copy)
        place = self.places[index - self.places[0].index]
        if place.copies[net]:
            self.sides[net].repeated += 1
            return REPEATED, 0, index < newest, place.copies[net], index
        return self.come(net, place, copy, newest)

    def come(self, net, place, copy, newest):
        """A copy of a place that is known of. `newest` is the newest place when it came."""
        side, other, index = self.sides[net], place.copies[1 - net], place.index
        place.copies[net] = copy
        if index < side.newest:
            side.overtaken += 1
        side.go_on(index, place.number)
        return COPY if other else FIRST, 0, index < newest, other, index

    def fall_behind(self, net, number, copy):
        """It is of no place that is waited for. If others go on from it, the sender has begun anew with it, without a 0."""
        side = self.sides[net]
        if side.behind is None or (number - side.behind) % TURN != 1:
            side.follow, self.strays = 0, [one for one in self.strays if one[0] != net]
        side.behind, side.follow = number, side.follow + 1
        if side.follow < RENEWED:
            self.strays.append((net, number, copy))
            side.late += 1
            return LATE, 0, False, None, None
        (first, *others), self.strays = [*self.strays, (net, number, copy)], []
        note = self.advance(*first, 1, is_reset=True)
        for each, its_number, its_copy in others:
            if (place := self.by_number.get(its_number)) and self.awaits(place, each, its_copy[TIME]):
                note = self.come(each, place, its_copy, self.newest)
            else:
                note = self.take(each, its_number, its_copy, self.ahead(its_number, its_copy[TIME]), self.newest)
        for each, *_ in (first, *others[:-1]):
            self.sides[each].late -= 1
        return ANEW, *note[1:]

    def ahead(self, number, time):
        """How many places a frame of this number is ahead of the newest one; 0 or less if it isn't."""
        before = self.number
        if before is None or number == 0:
            return 0 if before == 0 == number and time - self.latest < self.wait else 1
        steps = number if before == 0 else (number - before) % TURN
        if steps == 1:
            return 1
        steps += TURN * max(-1, (self.expected(time) - steps + HALF_TURN) // TURN)
        return steps - TURN if steps > HALF_TURN and steps > self.most_since(time) else steps

    def expected(self, time):
        """How many frames the sender would have sent by now, where both networks are silent for longer than usual."""
        steps = len(self.rate) - 1
        if time - self.latest <= 2 * self.quiet or steps < STEADY:
            return 0
        return (time - self.latest) * steps // max(1, self.latest - self.rate[0])

    def most_since(self, time):
        """How many frames the sender can have sent since the newest: by the BAG, or by its greatest rate."""
        if self.bag:
            return (time - self.latest) // (1000 * self.bag) + 2
        return (time - self.latest) // max(1, self.gap()) + 2

    def most_skipped(self, time):
        """For how many frames there was time beside those that came, since the first by which the rate is known."""
        gap = 1000 * self.bag if self.bag else max(1, self.gap())
        return max(0, (time - self.rate[0]) // gap - len(self.rate) + 1)

    def gap(self):
        return self.closest // RATE_OF if self.closest else self.least or MOST_TIME

    def advance(self, net, number, copy, ahead, is_reset=False):
        """A place that is newer than all."""
        time, missing = copy[TIME], ahead - 1
        is_reset = self.number is not None and (is_reset or number == 0)
        if is_reset:
            self.rate.clear()
            self.resets += 1
        elif self.latest is not None and not missing and time - self.latest > self.quiet:
            self.quiet = time - self.latest
        elif missing > APART and not self.skipped and missing > (most := self.most_skipped(time)) + APART:
            self.skipped = net, copy, missing, most
        if missing > HALF_TURN:
            self.settle(float("inf"))
            self.lose(missing - HALF_TURN)
            self.listener.lost_many(missing - HALF_TURN, net, copy)
        by = net, copy[PACKET]
        if missing:
            for back in range(min(missing, HALF_TURN), 0, -1):
                self.add((number - back - 1) % TURN + 1, time, by)
        self.add(number, time, by).copies[net] = copy
        self.count_new(time)
        self.number, self.next, self.latest, index = number, number % TURN + 1, time, self.newest
        if is_reset:
            self.began = index
        self.sides[net].go_on(index, number)
        while len(self.places) > HALF_TURN + 1:
            self.end(self.places.popleft())
        return (RESET if number == 0 else ANEW) if is_reset else FIRST, missing, False, None, index

    def count_new(self, time):
        """By how many new frames came, how close two came, and so many in a row."""
        self.seen += 1
        rate = self.rate
        if self.latest is None:
            self.first = time
        elif len(rate) == RATE_OF:
            span = time - rate[0]
            if self.closest is None or span < self.closest:
                self.closest = span
        else:
            self.least = min(time - self.latest, self.least or MOST_TIME)
        rate.append(time)

    def odd(self):
        """How many frames came again, late or astray."""
        return sum(side.repeated + side.late + side.astray for side in self.sides)

    def room(self):
        """For how many frames there was time beside those that came; a sender that breaks its BAG has the other bound."""
        if self.seen < 2:
            return 0
        elapsed = self.latest - self.first
        by_bag = elapsed // (1000 * self.bag) + 2 - self.seen if self.bag else -1
        return by_bag if by_bag >= 0 else 2 * elapsed // max(1, self.gap()) + 2 - self.seen

    def add(self, number, time, by):
        self.newest += 1
        self.by_number[number] = place = Place()
        place.index, place.number, place.since, place.by, place.copies = self.newest, number, time, by, [None, None]
        self.places.append(place)
        return place

    # ---- what isn't waited for any more

    def settle(self, before):
        """Settles the places that are known of since before this time."""
        while self.places and self.places[0].since < before:
            self.end(self.places.popleft())

    @property
    def cost(self):
        """The frames that weren't forwarded: lost on both, or dropped by the receiver."""
        return self.lost_both + self.dropped

    def end(self, place):
        if self.by_number.get(place.number) is place:
            del self.by_number[place.number]
        (a, b), (one, other) = place.copies, self.sides
        if a and b and not one.run and not other.run and (a[IS_FORWARDED] or b[IS_FORWARDED]):
            return
        lost, before = [], self.lost_both + self.dropped
        if not a and not b:
            self.lost_both += 1
        elif not (a and a[IS_FORWARDED] or b and b[IS_FORWARDED]):
            self.dropped += 1
        for net, side in enumerate(self.sides):
            if place.copies[net]:
                if side.run:
                    self.listener.run_ended(net, side.run, place.copies[net], self.cost - side.cost)
                side.run = 0
            elif side.began is not None and side.began < place.index:
                side.cost = side.cost if side.run else before
                side.run += 1
                side.longest = max(side.longest, side.run)
                lost.append(net)
        if lost and (a or b):
            self.sides[lost[0]].lost += 1
        if lost or not a or not b:
            self.listener.settled(place, lost)

    def lose(self, count):
        """So many places of which no copy came."""
        for side in self.sides:
            side.cost = side.cost if side.run else self.cost
            side.run += count
            side.longest = max(side.longest, side.run)
        self.lost_both += count
        self.newest += count

    def finish(self, time, skew_max):
        """At the end a copy is lost if its network brought a later one, or SkewMax is over; and a refused frame counts if there
        was time for those before it."""
        for net, side in enumerate(self.sides):
            if side.held and self.ahead(side.held[0], side.held[1][TIME]) > self.most_since(side.held[1][TIME]):
                side.held, side.astray = None, side.astray + 1
            elif side.held:
                self.judge(net, side, side.held[0])
        while self.places:
            place = self.places.popleft()
            for net, side in enumerate(self.sides):
                if not place.copies[net] and side.newest < place.index and time - place.since <= 1000 * skew_max:
                    side.began = None
            self.end(place)
        for net, side in enumerate(self.sides):
            if side.run:
                self.listener.run_ended(net, side.run, None, self.cost - side.cost)
