"""Slips that captures show in a configuration: it is played, and compared with what came."""
import ipaddress

from verdict_words import NETWORKS
from workbench import station, stream, told
from workbench.health import JITTER, Health
from workbench.places import members
from workbench.settings import AHEAD

MOST_KEPT, SHORTEST = 1000, 60  # constants, strange links and destinations that are counted; octets of a frame


class Shown:
    """What captures show: the health of the links, and what no link and no port takes."""

    def __init__(self, given):
        played = station.Station(given.config)
        self.health, self.ends = Health(played), played.partition.ends
        self.constants, self.strangers = ({}, {}), ({}, {})  # by network
        self.strays, self.too_long = {}, {}
        with stream.opened(given) as packets:
            for one, now, reply in played.seen(packets):
                self.health.see(one, now, reply)
                if reply:
                    self.see(one, reply)
        self.packets = packets
        self.hint = packets.shift.hint() or self.health.drift.hint()
        self.behind = sum(counts[stream.BEHIND] for counts in self.health.left_out)
        self.health.finish(played.latest, packets.shift.found())
        self.frames = [sum(link.nets[net].frames for link in self.health.links.values()) for net in (0, 1)]

    def see(self, one, reply):
        octets = one.octets
        if len(octets) >= SHORTEST:
            count(self.constants[one.net], octets[:4], one)
        if reply.cause == "unknown-link":
            count(self.strangers[one.net], int.from_bytes(octets[4:6], "big"), one)
        elif reply.kind == "no-port":
            is_in_parts = int.from_bytes(octets[20:22], "big") & 0x1FFF
            what = "of a datagram in fragments" if is_in_parts else f"UDP {int.from_bytes(octets[36:38], 'big')}"
            count(self.strays, (reply.vl, f"{ipaddress.IPv4Address(octets[30:34])} {what}"), one)
        elif reply.kind == "too-long":
            count(self.too_long, reply.port, one)

    def slips(self, document):
        """What rests on times isn't told where they are wrong, nor what rests on numbers of a link that isn't one
        sender's by the configuration."""
        yield from self.of_files(bytes.fromhex(document.tables.get("constant", "03000000")))
        yield from self.of_strangers()
        is_timed = not self.hint and not self.behind
        for path, table, level in members(document.tables):
            is_known = "not_one_sender" in document.tables["link"][path[1]]
            if level == "a link":
                found = self.of_link(table["vl"], is_timed, is_known)
            else:
                found = self.of_port(table) if is_timed and not is_known else ()
            yield from (document.slip(path, slip) for slip in found)

    def of_files(self, constant):
        """What is wrong with a network as a whole."""
        sources = [self.packets.source(net) for net in (0, 1)]
        for source, constants in zip(sources, self.constants):
            total = sum(number for _, number in constants.values())
            for found, (_, number) in constants.items():
                if found != constant and 2 * number > total:
                    yield (f"{source}: {number} of {total} frames have the constant field {found.hex()}, and the "
                           f"configuration {constant.hex()}")
        for net, letter in enumerate(NETWORKS):
            if self.frames[1 - net] and not self.frames[net]:
                yield f"{sources[net]}: no frame of any link on {letter}"
        crossings, swapped = dict(self.health.crossings()), self.health.swapped()
        yield from (f"{sources[net]}: {crossing}" for net, crossing in crossings.items())
        if len(swapped) == 1 and not crossings:
            net, = swapped
            yield (f"{sources[net]}: most source addresses of {NETWORKS[net]} say interface {2 - net}, which is "
                   f"{NETWORKS[1 - net]}")
        if self.hint:
            yield f"{sources[1]}: {self.hint}"
        if self.behind:
            yield f"{sources[0]}: {self.behind} packets are {stream.BEHIND}{stream.HELP[stream.BEHIND]}"

    def of_strangers(self):
        """Links that the configuration hasn't."""
        for vl in sorted(set().union(*self.strangers)):
            (of_a, a), (of_b, b) = (found.get(vl, (None, 0)) for found in self.strangers)
            first = of_a or of_b
            yield (f"{self.packets.source(first.net)}: {self.packets.unit} {first.number}: link {vl} isn't in the "
                   f"configuration; frames: {a} of A and {b} of B")

    def of_link(self, vl, is_timed, is_known):
        link = self.health.links[vl]
        counts = [net.frames for net in link.nets]
        if not any(counts):
            yield "no frame of it in the captures"
            return
        for letter, number, of_all in zip(NETWORKS, counts, self.frames):
            if of_all and not number:
                yield f"no frame of it on {letter}"
        if not is_known:
            yield from filter(None, [link.why_not_one_sender()])
            yield from of_times(link) if is_timed and not link.nonsense() else ()
        for (of, pair), (first, number) in self.strays.items():
            if of == vl:
                yield f"no port for {pair}: {number} frames, the first {self.packets.unit} {first.where.packet}"

    def of_port(self, port):
        end = self.ends[port["name"]]
        nets = self.health.links[end.port.vl].nets
        latest = self.packets.clock.since(max(net.last or 0 for net in nets))  # a link that ended is no slip
        found = told.of_port(end, latest)
        came = found["messages"] if end.port.is_sampling else found["taken"] + found["waiting"] + found["overflows"]
        if port["name"] in self.too_long:
            first, number = self.too_long[port["name"]]
            which = f"{number} of its {came + number} messages were" if came else f"each of its {number} messages was"
            yield (f"{which} longer than max {port.get('max', 'of its kind')}, the first {self.packets.unit} "
                   f"{first.where.packet}")
        elif not came and any(net.frames for net in nets):
            yield "no message came to it"
        if found.get("overflows"):
            yield f"depth {port['depth']}: {found['overflows']} messages were lost, since it was full"
        # Also where a partition reads: its reads aren't messages.
        oldest, stale = end.worst(latest) if end.port.is_sampling else (0, 0)
        if came > 2 and 2 * stale > came:
            yield (f"refresh_us {port['refresh_us']}: the message was stale {stale} times, before most of {came} "
                   f"messages; it was {oldest} us old at most")
        elif found["state"] == "stale":
            yield f"refresh_us {port['refresh_us']}: its newest message was stale at the end, {found['age_us']} us old"


def count(found, thing, one):
    """Counts a thing, beside the arrival that showed it first."""
    if thing in found or len(found) < MOST_KEPT:
        found.setdefault(thing, [one, 0])[1] += 1


def of_times(link):
    """Slips of a link that its times show."""
    skew_max, greatest = link.link.skew_max, link.greatest_delay
    if link.link.redundancy and link.beyond:
        twice = f"; {link.twice.count} messages came twice" if link.twice.count else ""
        yield (f"skew_max_us {skew_max} is below the delays of {link.beyond} of {link.delays.number} second copies, up "
               f"to {greatest} us{twice}")
    closest = min((net.closest // 1000 for net in link.nets if net.closest is not None), default=None)
    for time, what in ((closest, f"in which {AHEAD} more of its frames came"),
                       (link.least_pause, "after which its sender restarted")):
        if link.link.redundancy and time is not None and time <= skew_max + greatest:
            yield (f"skew_max_us {skew_max} and the {greatest} us that delays differ by aren't below the {time} us "
                   f"{what} (docs/DELIVERY.md)")
    if link.unfinished.count and not link.pieces.joined:
        yield (f"reassembly_us {link.link.reassembly}: no datagram in parts was joined; {link.unfinished.count} times "
               "one was given up")
    if early := sum(net.early for net in link.nets):
        jitter = link.own.get("jitter_us", JITTER)
        yield f"bag_us {link.own['bag_us']}: {early} frames came before it was over, less {jitter} of jitter"
