"""Draws what became of the frames of two networks as one page for a browser."""
from drawing.gather import Gathered
from drawing.page import page
from verdict_words import kinds_of
from workbench import files, station, stream
from workbench.health import Alone

NO_FAULTS = kinds_of("delivered", "redundant", "held")


def draw(given):
    played = station.Station(given.config, tell=lambda *found: gathered.served(*found))
    gathered, faults = Gathered(played), Faults()
    alone = Alone(played.octets) if given.each else None
    with stream.opened(given) as packets:
        for one, now, reply in played.seen(packets):
            note = gathered.see(one, now, reply)
            faults.see(one, reply, alone and reply and alone.fault(one, now, reply, note))
    gathered.end(played.latest, packets)
    faults.hints = [*filter(None, [packets.shift.hint()]), *gathered.hints()]
    text = page(gathered, " and ".join(dict.fromkeys(packets.source(net) for net in (0, 1))), faults)
    with files.writing(given.to) as out:
        out.write(text.encode(errors="replace"))
    return packets.status


class Faults:
    """The first frames of each kind of fault, and what is wrong with a network as a whole."""
    SHOWN, hints = 10, ()

    def __init__(self):
        self.counts, self.first = {}, {}

    def see(self, one, reply, alone):
        self.count(one, reply, f"{reply.kind} {reply.cause}".rstrip() if reply else f"left out: {one.left_out}")
        if alone:
            self.count(one, alone, f"{alone.kind} {alone.cause}".rstrip() + ", hidden by the other network’s copy")

    def count(self, one, reply, kind):
        if kind in NO_FAULTS:
            return
        self.counts[kind] = self.counts.get(kind, 0) + 1
        if self.counts[kind] <= self.SHOWN:
            link = f" (link {reply.vl})" if reply and reply.vl is not None else ""
            self.first.setdefault(kind, []).append(f"{one.where.packet}{link}")
