"""How often each delay was seen, in bounded memory."""
from collections import Counter

# How many different delays are kept at most, and how many are noted before they are counted.
MOST_DELAYS, MOST_NOTED = 2048, 256


class Delays:
    """Delays in microseconds, of either sign. If there are too many different ones they are kept in steps of 2, 4, 8 and so
    on microseconds. What was added is known after a look."""

    def __init__(self, counts=(), step=1):
        self.counts, self.step, self.noted = Counter(counts), step, []
        self.number = sum(self.counts.values())
        self.least, self.greatest = min(self.counts, default=None), max(self.counts, default=None)

    def add(self, delay):
        self.noted.append(delay)
        if len(self.noted) == MOST_NOTED:
            self.look()

    def look(self):
        """Counts what was noted since it was called before."""
        noted, step = self.noted, self.step
        if noted:
            self.number += len(noted)
            known = () if self.least is None else (self.least, self.greatest)
            self.least, self.greatest = min(*known, *noted[:1], min(noted)), max(*known, *noted[:1], max(noted))
            self.counts.update(noted if step == 1 else [delay // step * step for delay in noted])
            noted.clear()
        while len(self.counts) > MOST_DELAYS:
            self.step *= 2
            counts, self.counts = self.counts, Counter()
            for delay, number in counts.items():
                self.counts[delay // self.step * self.step] += number
        return self

    def median(self):
        return self.below(0.5)

    def below(self, share):
        """The least delay, of those that were kept, at or below which there is this share of all."""
        left = share * self.number
        for delay in sorted(self.counts):
            left -= self.counts[delay]
            if left <= 0:
                return delay
        return self.greatest
