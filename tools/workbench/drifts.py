"""Whether one tap's clock is faster than the other's: the delays of second copies, from the first to the last."""
import statistics

MOST_SAMPLES, FEWEST_SAMPLES, LEAST_DRIFT = 768, 48, 200  # pairs, pairs, and microseconds


class Drift:
    """By how much later B's copies came, in microseconds, of pairs that are about as far from each other."""

    def __init__(self):
        self.samples, self.step, self.due, self.found = [], 0, 0, None

    def add(self, time, delay):
        self.found = None
        self.samples.append((time, delay))
        if len(self.samples) == MOST_SAMPLES:
            self.samples = self.samples[::2]
            self.step = 2 * (time - self.samples[0][0]) // MOST_SAMPLES
        self.due = time + self.step

    def rate(self):
        """How much faster B's clock seems, in parts per million; 0 if delays alone explain what was seen."""
        if self.found is None:
            self.found = self.look()
        return self.found

    def look(self):
        third = len(self.samples) // 3
        if 3 * third < FEWEST_SAMPLES:
            return 0
        parts = (self.samples[begin:begin + third] for begin in (0, third, len(self.samples) - third))
        (begin, first), (middle, half), (end, last) = ([statistics.median(each) for each in zip(*part)] for part in parts)
        rate = (last - first) / max(1, end - begin)
        rest = statistics.quantiles((delay - rate * (time - begin) for time, delay in self.samples), n=10)
        bound = max(LEAST_DRIFT, 3 * (rest[-1] - rest[0]), 4 * abs(first + rate * (middle - begin) - half))
        return round(1e9 * rate, 2) if abs(last - first) > bound else 0

    def hint(self):
        rate = self.rate()
        return rate and (f"{'B' if rate > 0 else 'A'}'s clock seems faster than the other's, by {abs(rate)} parts per "
                         f"million: --shift-b 0,{-rate}")
