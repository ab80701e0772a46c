"""Random senders and networks with faults: outages, restarts in the midst of datagrams, frames of another sender, losses
on both networks, an opening in the midst of datagrams.

Sender and networks keep their times, and the sender its numbers: so what comes besides a fault is as the law of a single
message asks (checks/parts/arrivals.py). Each class of `FAULTY` has one fault, and the last has all.
"""
import itertools

from parts.random_networks import DEEPEST, LONGEST_SKEW, NETS, SOURCE, Copy, Networks

STRANGE_SOURCE = (10, 1, 1, 2)
LONGEST_OUTAGE, LONGEST_TURN = 300, 0x10000


class Faulty(Networks):
    """The base of all: it has no fault."""
    count, restart = 700, 0
    # The networks that are out, each for how many times; and whether one brings all, so that each message has to arrive.
    outages, all_arrive = {}, False
    # The share of frames that both networks lose, and the one that each loses of its own.
    lost, lost_alone = 0, 0
    # The most datagrams of another sender and frames that come once more, and whether the receiver is opened later.
    strangers, is_opened_later = 0, False

    def draw_sender(self):
        self.streams, self.recounts = self.r.randint(1, 4), self.r.random() < 0.5
        self.turn = self.r.choice([LONGEST_TURN, LONGEST_TURN, LONGEST_TURN, self.r.randint(5, 40)])
        self.depth = self.r.choice([DEEPEST, DEEPEST, self.r.randint(5, 15)])
        self.starts, self.counted_from, self.disguised = set(), 0, set()

    def drawn_skew(self):
        """Now and then SkewMax runs for more than 128 gaps."""
        return self.r.choice([super().drawn_skew(), self.r.randint(self.spread, min(LONGEST_SKEW, 250 * self.gap))])

    def drawn_limit(self):
        """Now and then too short for some datagrams."""
        return self.r.choice([super().drawn_limit(), self.r.randrange(40 * self.gap)])

    # ---- what is sent

    def in_turn(self):
        """At a restart the datagrams in parts are left as they are, and others begin."""
        frames = super().in_turn()
        for index in itertools.count():
            if index and self.r.random() < self.restart:
                self.starts.add(index)
                self.counted_from = len(self.messages) if self.recounts else 0
                frames = super().in_turn()
            yield next(frames)

    def ident(self, message):
        """A count that turns over, and begins anew at a restart or survives it."""
        return (message - self.counted_from) % self.turn

    def restarts_at(self, index):
        return index in self.starts

    # ---- what comes

    def came(self):
        came = {net: {index for index in range(self.count) if self.r.random() >= self.lost_alone} for net in NETS}
        both = {index for index in range(self.count) if self.r.random() < self.lost}
        return {net: came[net] - both - self.out(net) for net in NETS}

    def out(self, net):
        """The indices of the frames that are sent while a network is out."""
        begins = [self.r.randrange(self.count) for _ in range(self.outages.get(net, 0))]
        return {index for begin in begins for index in range(begin, begin + self.r.randint(1, LONGEST_OUTAGE))}

    def brought(self, came):
        opening = self.sent[self.r.randrange(self.count // 2)] if self.is_opened_later else 0
        own = sorted(copy for copy in super().brought(came) if copy.time >= opening)
        return [*own, *self.again(own), *self.strange(own)]

    def again(self, own):
        """Copies that come once more, at any time after they came."""
        for _ in range(self.r.randint(0, self.strangers)):
            at = self.r.randrange(len(own))
            yield Copy(own[at].time, self.r.choice(NETS), own[self.r.randint(max(0, at - 200), at)].index)

    # ---- another sender

    def strange(self, own):
        """Copies of another sender's frames, which stand after the sender's in the lists of frames and numbers. They have
        the identification of one of the sender's datagrams, and now and then its addresses too."""
        for _ in range(self.r.randint(0, self.strangers)):
            at, nets = self.r.randrange(len(own)), self.r.choice(["A", "B", "AB"])
            time, number = own[at].time, self.strange_number(own[:at], nets[0])
            ident, is_disguised = self.frames[own[at].index].ident, self.r.random() < 0.3
            for frame in self.strange_datagram():
                index = len(self.frames)
                self.frames.append(frame._replace(ident=ident))
                self.numbers.append(number)
                if is_disguised:
                    self.disguised.add(index)
                yield from (Copy(time, net, index) for net in nets)
                time, number = time + self.r.randrange(self.gap), number % 255 + 1

    def strange_number(self, before, net):
        """0, or a sequence number that follows the latest of the network, or any."""
        latest = next((self.numbers[copy.index] for copy in reversed(before) if copy.net == net), 0)
        return self.r.choice([0, latest % 255 + 1, (latest + self.window - 1) % 255 + 1, self.r.randrange(256)])

    def strange_datagram(self):
        """A datagram or its first fragments."""
        frames = []
        for frame in self.stream():
            frames.append(frame)
            if not frame.more:
                return frames[:self.r.randint(1, len(frames))]

    def source(self, index):
        return STRANGE_SOURCE if index >= self.count and index not in self.disguised else SOURCE


# ---- one fault


class OneOut(Faulty):
    """one network out for up to 300 frames"""
    all_arrive = True

    def draw_sender(self):
        super().draw_sender()
        self.outages = {self.r.choice(NETS): self.r.randint(1, 3)}
        self.turn, self.depth = LONGEST_TURN, DEEPEST

    drawn_limit = Networks.drawn_limit


class BothOut(Faulty):
    """both networks out, each for up to 300 frames"""

    def draw_sender(self):
        super().draw_sender()
        self.begins = [self.r.randrange(self.count) for _ in range(2)]

    def out(self, net):
        """One is out soon after the other, and returns at any time."""
        spans = [(begin + self.r.randint(0, 20), begin + self.r.randint(20, LONGEST_OUTAGE)) for begin in self.begins]
        return {index for span in spans for index in range(*span)}


class Losing(Faulty):
    """frames lost on both networks"""
    lost, lost_alone = 0.02, 0.05


class RestartingInParts(Faulty):
    """restarts in the midst of datagrams, and losses"""
    restart, lost, lost_alone = 0.05, 0.06, 0.02
    drawn_limit = Networks.drawn_limit

    def step(self, length):
        """Datagrams of two to eight fragments, or of one."""
        return -(-length // (8 * self.r.randint(1, 8))) * 8


class Strange(Faulty):
    """frames of another sender, and old ones once more"""
    strangers = 20


class OpenedInParts(Faulty):
    """an opening in the midst of datagrams"""
    is_opened_later, lost_alone = True, 0.02


class AllFaults(Faulty):
    """all of these faults"""
    outages, strangers, is_opened_later = {"A": 1, "B": 1}, 6, True
    restart, lost, lost_alone = 0.01, 0.01, 0.02


FAULTY = [OneOut, BothOut, Losing, RestartingInParts, Strange, OpenedInParts, AllFaults]
