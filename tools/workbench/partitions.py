"""A partition beside the receiver: it takes from queuing ports and reads sampling ports, by the configuration's keys.

A queue without a period is emptied at once. Of a sampling port without one the age of its newest message is known at
any moment, without a read.
"""
import heapq

from verdict_words import DELIVERED, FULL

FEW = 1000  # reads of a stretch in which nothing comes that are told one by one


class SamplingEnd:
    """A sampling port: the ages of its newest message at reads and at any moment; what was stale, what nobody read."""

    def __init__(self, receiver, port, period):
        self.port, self.period, self.reader = port, period, receiver.reader(port.name)
        self.messages = self.reads = self.stale = self.missed = self.newest = self.oldest = 0
        self.latest, self.worst_before = None, (0, 0)

    def came(self, now):
        """A message was delivered."""
        self.worst_before = self.worst(now)
        self.messages, self.latest = self.messages + 1, now

    def worst(self, now):
        """The oldest that a message was at any moment up to now, and how many were stale."""
        oldest, stale = self.worst_before
        age = 0 if self.latest is None else max(0, now - self.latest)
        return max(oldest, age), stale + (age > self.port.limit)

    def serve(self, first, count):
        """So many reads, from the first on, while nothing comes. Returns what a single one found."""
        last = first + (count - 1) * self.period
        found = self.reader.read(last)
        self.reads += count
        if found:
            self.missed += max(0, found.number - self.newest - 1)
            self.newest = found.number
            self.oldest = max(self.oldest, last - found.time)
            self.stale += not found.valid
            if count > 1:
                fresh = (found.time + self.port.limit - first) // self.period + 1
                self.stale += count - 1 - max(0, min(count - 1, fresh))  # of the reads before the last
        return found if count == 1 else None


class QueueEnd:
    """A queuing port: how many messages were taken, how many waited at most, how long, and how many were lost."""

    def __init__(self, receiver, port, period):
        self.port, self.period, self.taker = port, period, receiver.taker(port.name)
        self.taken = self.waiting = self.most = self.oldest = self.overflows = 0

    def came(self, now):
        self.waiting += 1
        self.most = max(self.most, self.waiting)

    def serve(self, now, _):
        """Takes all that waits; after the first of many takings nothing does."""
        found = [self.taker.take() for _ in range(self.waiting)]
        self.taken, self.waiting = self.taken + self.waiting, 0
        if found:
            self.oldest = max(self.oldest, now - found[0].time)
        return found


class Partition:
    """The ends of all ports. `tell` is called at each read and each taking: the moment, the end and what it found."""

    def __init__(self, receiver, periods, tell=None):
        self.tell = tell
        self.ends = {port.name: (SamplingEnd if port.is_sampling else QueueEnd)(receiver, port, periods.get(port.name))
                     for port in receiver.ports}
        due = sorted((end.period, place, end) for place, end in enumerate(self.ends.values()) if end.period)
        self.due = [*due, (float("inf"), len(self.ends), None)]  # a heap

    def wake(self, now):
        """Serves what was due up to now, each at its time."""
        while self.due[0][0] <= now:
            moment, place, end = self.due[0]
            count = (now - moment) // end.period + 1
            count = count if count > FEW else 1
            self.serve(moment, end, count)
            heapq.heapreplace(self.due, (moment + count * end.period, place, end))

    def serve(self, moment, end, count=1):
        if (found := end.serve(moment, count)) and self.tell:
            self.tell(moment, end, found)

    def came(self, now, reply):
        """What a frame delivered, or lost."""
        end = self.ends[reply.port]
        if reply.kind == FULL:
            end.overflows += 1
        elif reply.kind in DELIVERED:
            end.came(now)
            if not end.port.is_sampling and end.period is None:
                self.serve(now, end)
