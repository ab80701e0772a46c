"""The conditions of docs/DELIVERY.md that a capture can refute: under all of them each message comes once and whole."""
from verdict_words import FULL, REFUSED
from workbench import copies

# Each condition by the word of the report, as the page says it.
CONDITIONS = {
    "redundancy": "redundancy management is on",
    "sender": "all frames are one sender's, with numbers that follow",
    "skew-max": "times fit SkewMax: delays differ by no more, and a sender's pause is longer than both",
    "near": "networks begin near each other",
    "overtaking": "first copies come in order",
    "losses": "few are lost: fewer in a row than the window, and never the first after a restart",
    "packets": "each frame has a datagram, whole or in fragments, for a port that admits it",
    "whole": "of each datagram in parts all fragments come, within the limit",
    "order": "the fragments of a datagram come in order",
    "parts": "at most four datagrams are in parts at a time",
    "identification": "no identification of fragments is used for two datagrams within the reassembly limit",
    "queues": "no queue is full",
    "copies": "a copy of each frame comes",
}
# The condition that a frame of each kind breaks. No frame is to blame for want of memory.
BROKEN_BY = {**{kind: "packets" for kind in REFUSED if kind != "exhausted"}, FULL: "queues"}


# What is known by sequence numbers alone, and of these what is by two clocks.
BY_NUMBERS = ("skew-max", "near", "overtaking", "losses", "copies")
BY_CLOCKS = ("skew-max", "near")
MOST_CAUSES = 5


class Broken:
    """How often a condition was broken, and each cause with the packet that broke it so first, the first of all first."""

    def __init__(self):
        self.count, self.causes = 0, {}

    def add(self, where, how):
        self.count += 1
        if how in self.causes or len(self.causes) < MOST_CAUSES:
            self.causes.setdefault(how, where)


class Conditions:
    """Of a link: those that were broken, by their words."""

    def __init__(self, link):
        self.link, self.found = link, {}
        if not link.redundancy:
            self.broken("redundancy", "the configuration", "it is off")

    def broken(self, word, where, how):
        """Returns the word."""
        self.found.setdefault(word, Broken()).add(where, how)
        return word

    def look_at(self, note, reply, one, steps, before):
        """What a frame breaks. Its place is so many steps ahead of the newest before, which came at `before`."""
        if reply.kind in BROKEN_BY:
            self.broken(BROKEN_BY[reply.kind], one.where, f"{reply.kind} {reply.cause}".rstrip())
        what, _, is_overtaken, _, _ = note
        if is_overtaken and what == copies.FIRST:
            self.broken("overtaking", one.where, "its first copy came after one of a later frame")
        if what == copies.LATE:
            self.broken("sender", one.where, "a number that isn't waited for any more")
        elif what == copies.ANEW:
            self.broken("sender", one.where, "numbers that began anew without a 0")
        if steps > copies.HALF_TURN and one.time - before <= 1000 * self.link.skew_max:
            self.broken("near", one.where, f"{steps} frames after the newest while SkewMax runs")
