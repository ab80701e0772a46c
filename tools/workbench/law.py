"""The law of a message that arrives (docs/DELIVERY.md), copy by copy, in bounded memory: which copies count, and which
datagrams in fragments are whole.

A copy counts that passes integrity checking, from the first on that is forwarded, or that comes when SkewMax is over since
all that was. It is new if it is of a later frame than all before it that count. A copy that breaks a condition ends the
stretch of those that count; another one begins in the same way.
"""
import collections

FAR = 127  # frames by which a copy may be ahead while SkewMax runs


class Stretch:
    """The copies that count since one began. Frames have an index; times are in the unit of `skew`."""

    def __init__(self, skew):
        self.skew, self.is_on, self.forwarded = skew, False, None
        self.began = self.latest = self.greatest = self.newest = 0

    def begin(self, index, time):
        self.is_on, self.began, self.greatest = True, time, index - 1

    def end(self, fault):
        self.is_on = False

    def see(self, index, time, was_forwarded, fault=None):
        """Of a copy that passes: whether it counts and is new. The index is None if it is of no frame of the sender's; `fault` is
        what else it breaks beside those that count."""
        if self.is_on and not fault and index is not None and self.greatest < index <= self.greatest + FAR:
            self.forwarded = time if was_forwarded else self.forwarded
            self.latest, self.greatest, self.newest = time, index, time
            return True
        if self.is_on and index is not None and index > self.greatest + FAR and time <= self.newest + self.skew:
            fault = fault or "near"
        if self.is_on and (fault or index is None):
            self.end(fault or "sender")
        if not self.is_on and index is not None and (was_forwarded or self.is_over(time)):
            self.begin(index, time)
        if was_forwarded:
            self.forwarded = time
        if not self.is_on:
            return False
        self.latest = time
        if index <= self.greatest:
            return False
        self.greatest, self.newest = index, time
        return True

    def is_over(self, time):
        """Whether SkewMax is over since all that was forwarded."""
        return self.forwarded is None or time > self.forwarded + self.skew


class Chain:
    """The fragments of a datagram that came in order. `expects` is the next offset, None if it can't go on; `is_closed` says
    that it came whole, so that none with its key is in parts; `is_joined` that the receiver joined them."""
    __slots__ = ("message", "begin", "latest", "expects", "is_sound", "is_closed", "is_joined")

    def __init__(self, message, time, expects, is_sound):
        self.message, self.begin, self.latest, self.expects, self.is_sound = message, time, time, expects, is_sound
        self.is_closed = self.is_joined = False


class Offers:
    """The packets that reassembly is offered, by the key of their datagram; none is kept for longer than the limit."""

    def __init__(self, limit):
        self.limit, self.chains = limit, collections.OrderedDict()

    def add(self, key, offset, length, more, time, message=None):
        """Whether a message is whole with this packet: it has the datagram, or its last fragment, and the others came before,
        in order, within the limit, none with their key was in parts as the first came, and the datagram kept its place. The
        offset is None if the packet is refused."""
        while self.chains and next(iter(self.chains.values())).latest + self.limit < time:
            self.chains.popitem(last=False)
        chain = self.chains.get(key)
        if offset == 0:
            self.chains[key] = Chain(message, time, length if more else None, chain is None or chain.is_closed)
        elif offset and chain and chain.expects == offset and chain.message == message:
            chain.expects += length
        else:
            self.chains[key] = Chain(message, time, None, False)
        if chain:
            self.chains.move_to_end(key)
        found = self.chains[key]
        found.latest = time
        if more or offset is None:
            return False
        is_whole = offset == 0 or found.expects is not None and found.is_sound and time <= found.begin + self.limit
        found.expects, found.is_closed = None, is_whole
        return is_whole

    def lose_place(self, key):
        """The datagram's group was given up for a fifth."""
        if key in self.chains:
            self.chains[key].is_sound = False
