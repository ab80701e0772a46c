"""Whether one tap's clock is ahead of the other's: the delays of the first frames, which are found by their octets."""
import statistics

BEHIND = "far behind the other network"  # a packet that is left out for its time, which a clock may have wrong
LOOKED_AT = 20_000  # frames of each network
FEWEST, LEAST = 8, 1_000_000  # pairs; nanoseconds


class Shift:
    """The times of the first frames of each network, by what both copies share: all but the source address."""

    def __init__(self):
        self.times, self.again = ({}, {}), {}
        self.seen, self.looks = [0, 0], True

    def see(self, arrival):
        net, octets = arrival.net, arrival.octets
        if self.seen[net] < LOOKED_AT and arrival.left_out in (None, BEHIND):
            self.seen[net] += 1
            key = hash(octets[:6] + octets[12:])
            first = self.times[net].setdefault(key, arrival.time)
            if first != arrival.time:
                self.again.setdefault(key, abs(arrival.time - first))
        self.looks = min(self.seen) < LOOKED_AT

    def found(self):
        """By how many nanoseconds B's clock seems ahead, 0 if delays alone explain what was seen."""
        a, b = self.times
        # Octets that come again after less than twice their delay may be those of another frame.
        delays = [b[key] - time for key, time in a.items()
                  if key in b and 2 * abs(b[key] - time) < self.again.get(key, float("inf"))]
        if len(delays) < FEWEST:
            return 0
        tenths = statistics.quantiles(delays, n=10)
        middle, spread = statistics.median(delays), tenths[-1] - tenths[0]
        return round(middle) if abs(middle) > max(LEAST, 4 * spread) else 0

    def hint(self):
        ahead = self.found() // 1000
        return ahead and (f"{'B' if ahead > 0 else 'A'}'s clock seems {abs(ahead)} us ahead of the other's, if it "
                          f"isn't its frames' delay: --shift-b {-ahead}")
