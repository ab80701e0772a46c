"""What the law of a message that arrives (docs/DELIVERY.md) says of a link: the spans of time in which its conditions held,
and what arrived in them. The receiver has healed where a span begins."""
from verdict_words import DELIVERED, FULL, HELD
from workbench.law import Stretch

SHOWN = 5  # spans: the first ones and the latest


class Spans(Stretch):
    """Times are in microseconds."""

    def __init__(self, skew_max):
        super().__init__(skew_max)
        self.shown, self.count, self.held, self.fault, self.latest_ended = [], 0, 0, None, None
        self.arrived = self.delivered = self.full = 0

    def begin(self, index, time):
        super().begin(index, time)
        self.count += 1
        if len(self.shown) == SHOWN:
            self.shown.pop()
        self.shown.append({"from_us": time, "to_us": time, "ended_by": None, "packet": None})

    def end(self, fault):
        super().end(fault)
        self.latest_ended, self.fault = self.shown[-1], fault
        self.latest_ended["to_us"] = self.latest
        self.held += self.latest - self.began

    def ended(self, where):
        """At which packet."""
        self.latest_ended.update(ended_by=self.fault, packet=str(where))
        self.fault = None

    def take(self, kind, was_forwarded, is_whole):
        """A new copy that counts, with which a message is whole or not: it has to be delivered, unless its queue is full.
        Refused packets bring none."""
        if not was_forwarded or is_whole and kind == HELD:
            self.arrived += 1
        elif is_whole and kind in DELIVERED:
            self.arrived += 1
            self.delivered += 1
        elif is_whole and kind == FULL:
            self.full += 1

    def told(self, limit):
        """As plain data. Within the limit after it has healed a fragment may find those of a datagram before."""
        if self.is_on:
            self.shown[-1]["to_us"] = self.latest
        has_healed = self.is_on and self.count > 1
        return {"spans": [dict(one) for one in self.shown], "span_count": self.count,
                "held_us": self.held + (self.latest - self.began if self.is_on else 0),
                "healed_us": self.began if has_healed else None,
                "fragments_healed_us": self.began + limit if has_healed else None,
                "arrived": self.arrived, "delivered": self.delivered, "full": self.full}
