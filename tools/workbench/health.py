"""The health of links: what the receiver's replies, the numbers and the times of their frames say of both networks.

What is kept grows with the links and the ports, not with the frames.
"""
import operator
from collections import Counter

from receiver import Receiver
from verdict_words import KINDS, NETWORKS, NOT_FORWARDED, OUT_OF_SEQUENCE, REFUSED
from workbench import copies
from workbench.conditions import BROKEN_BY, BY_CLOCKS, BY_NUMBERS, CONDITIONS, Conditions
from workbench.copies import ANEW, COPY, FIRST, HALF_TURN, RESET, Copies
from workbench.delays import Delays
from workbench.drifts import Drift
from workbench.pieces import GIVEN_UP, ORDER, Pieces, has_wrong_sum
from workbench.settings import AHEAD
from workbench.spans import Spans
from workbench.stream import INTERFACE, Where

SHOWN, MOST_NOTED = 5, 512  # places of each kind; frames of a network between two looks at them
OUT, BAD_HEADER = KINDS[OUT_OF_SEQUENCE], "bad-header"
SENDER = slice(6, 11)  # octets of a source address that both networks share
MOST_SENDERS = 8  # addresses of a link whose frames are told apart
JITTER = 500  # microseconds that a frame may come before its BAG is over, if `jitter_us` isn't there
LEAST_ODD = 16  # frames whose numbers don't go on; more than the others make no sense
MIXED = 5  # at least one of so many frames of a network says the other one
# The verdicts that say that a frame itself is at fault; and one that no receiver gives.
FAULTS = frozenset(REFUSED)
# Of each kind: whether it is forwarded, refused by integrity checking, at fault itself, and breaks a condition.
FATES_OF = {kind: (kind not in NOT_FORWARDED, kind == OUT, kind in FAULTS, kind in BROKEN_BY) for kind in KINDS}
WRONG_SUM = "wrong-udp-checksum"


class Network:
    """When frames of a link came on a network, and their verdicts: noted at once, and known after a look. `closest` is the
    least time in which 128 more came."""

    def __init__(self, bag, jitter):
        self.bag, self.least_wanted = bag, 1000 * max(0, (bag or 0) - jitter)
        self.frames, self.early, self.kinds, self.bags = 0, 0, Counter(), Counter()
        self.first = self.last = self.least = self.most = self.closest = None
        self.times, self.noted = [], []  # the latest times; and the verdicts of those that weren't looked at

    def is_early(self):
        """Whether the BAG wasn't over as the latest frame came, but for the jitter."""
        return len(self.times) > 1 and self.times[-1] - self.times[-2] < self.least_wanted

    def look(self):
        """Takes in what was noted since it was called before."""
        times, new = self.times, len(self.times) - len(self.noted)
        if not self.noted:
            return
        if self.first is None:
            self.first, new = times[0], 1
        gaps = list(map(operator.sub, times[new:], times[new - 1:]))
        spans = list(map(operator.sub, times[max(new, AHEAD):], times[max(new - AHEAD, 0):]))
        if gaps:
            self.least, self.most = least_of(self.least, gaps), max(self.most or 0, max(gaps))
        if spans:
            self.closest = least_of(self.closest, spans)
        # The nearest of 2^n milliseconds, by ratio.
        self.bags.update(map(int.bit_length, [gap * 181 // 128_000_000 for gap in gaps]))
        self.kinds.update(self.noted)
        self.frames, self.last = self.frames + len(self.noted), times[-1]
        self.noted.clear()
        del times[:-AHEAD]

    @property
    def rate(self):
        """Frames a second."""
        return (self.frames - 1) * 1e9 / (self.last - self.first) if self.frames > 1 and self.last > self.first else 0.0

    @property
    def usual(self):
        """The commonest gap, as a power of 2 of milliseconds; 0 if it is less than one."""
        return (1 << self.bags.most_common(1)[0][0]) // 2 if self.bags else None


def least_of(known, found):
    return min(found) if known is None else min(known, min(found))


def where_of(copy, net):
    return Where(copy[copies.PACKET], net, copy[copies.TIME])


class Events:
    """How often something was seen, and where at first."""

    def __init__(self):
        self.count, self.first = 0, []

    def add(self, text):
        self.count += 1
        if len(self.first) < SHOWN:
            self.first.append(str(text))


class Link(copies.Listener):
    """What is known of a link."""

    def __init__(self, link, own):
        self.link, self.own = link, own
        bag, jitter = own.get("bag_us"), own.get("jitter_us", JITTER)
        self.nets, self.drift = tuple(Network(bag, jitter) for _ in NETWORKS), None
        # Each sender's address with its copies; that of the latest frame, and of the latest that passed.
        self.senders, self.sender, self.passed, self.copies = {}, None, None, Copies(link.skew_max, self, bag)
        self.pieces, self.mixed_at = Pieces(link.reassembly, self.given_up), None
        self.conditions, self.delays, self.beyond = Conditions(link), Delays(), 0
        self.spans, self.outages, self.free_outages = Spans(link.skew_max), Events(), 0
        self.hidden, self.refused = tuple(Counter() for _ in NETWORKS), tuple({} for _ in NETWORKS)
        self.twice, self.resets, self.unfinished, self.again, self.fragments = (Events() for _ in range(5))
        self.least_pause, self.ahead = None, 0  # nanoseconds by which B's clock seems ahead, at the end

    def see(self, now, one, reply):
        """Returns what the frame is beside the others."""
        time, net, packet, octets, _, _ = one
        kind, its = reply.kind, self.nets[net]
        is_forwarded, is_refused, is_bad, is_odd = FATES_OF[kind]
        its.times.append(time)
        its.noted.append(kind)
        if len(its.noted) == MOST_NOTED:
            its.look()
        if is_bad or is_refused and is_cut(octets):
            self.refuse(net, reply, octets, one.where)
            if is_cut(octets):
                return self.see_cut(now, one, is_refused, is_forwarded)
        if octets[SENDER] != self.sender:
            self.turn_to(octets[SENDER], one.where)
        places = self.copies
        before, newest = places.latest, places.newest
        note = places.see(net, time, octets[-1], packet, is_forwarded, is_refused, is_bad)
        what, _, is_overtaken, other, index = note
        steps, fault = places.newest - newest, None
        if steps and index == places.newest and newest >= 0 and time - before < its.least_wanted:
            its.early += its.is_early()  # after the one before of its network, and after the newest frame
        if what == COPY:
            fault = self.pair(one, is_forwarded, other)
        elif what != FIRST:
            is_odd, fault = True, self.restart(what, time - before, one.where) if what in (RESET, ANEW) else None
        if is_overtaken or is_odd or steps > HALF_TURN:
            self.conditions.look_at(note, reply, one, steps, before)
        if not is_refused:
            if self.sender != self.passed:
                fault, self.passed = self.passed and "sender", self.sender
            if is_overtaken and what == FIRST:
                fault = self.overtake(one, index) or fault
            spans = self.spans
            if is_forwarded or fault or not spans.is_on or index is None or index > spans.greatest:
                self.follow_law(now, one, kind, note, is_forwarded, fault)
            else:
                spans.latest = now  # a second copy, as most are
        return note

    def turn_to(self, sender, where):
        """The frame has another source address than the one before."""
        if self.sender is not None:
            self.conditions.broken("sender", where, f"another source address, {sender.hex(':')}")
        if not self.senders:
            self.senders[sender] = self.copies
        elif sender not in self.senders and len(self.senders) < MOST_SENDERS:
            self.senders[sender] = Copies(self.link.skew_max, self, self.own.get("bag_us"))
        self.sender, self.copies = sender, self.senders.get(sender, self.copies)

    def refuse(self, net, reply, octets, where):
        """A frame that is at fault itself: its cause, how often, and where at first."""
        cause = "cut on the wire" if is_cut(octets) else f"{reply.kind} {reply.cause}".rstrip()
        count, first = self.refused[net].get(cause, (0, where))
        self.refused[net][cause] = count + 1, first

    def see_cut(self, now, one, is_refused, is_forwarded):
        """A frame that was cut on the wire, whose last octet is no sequence number."""
        self.conditions.broken("packets", one.where, "cut on the wire")
        note = copies.CUT, 0, False, None, None
        if not is_refused:
            self.follow_law(now, one, "bad-header", note, is_forwarded, "packets")
        return note

    def follow_law(self, now, one, kind, note, is_forwarded, fault):
        """Of a copy that passes integrity checking."""
        spans, is_whole = self.spans, False
        what, _, _, other, index = note
        if is_forwarded and kind != BAD_HEADER:
            is_whole = self.pieces.see(now, one, kind, what == COPY and other[copies.IS_FORWARDED])
        if self.link.redundancy:
            is_new = spans.see(index, now, is_forwarded, fault)
            if spans.fault:
                spans.ended(one.where)
            if is_new:
                spans.take(kind, is_forwarded, is_whole)

    def pair(self, one, is_forwarded, other):
        """The condition that a second copy breaks, if it does."""
        time, first = one.time, other[copies.TIME]
        delay = (time - first if one.net else first - time) // 1000
        self.delays.add(delay)
        if self.drift and time >= self.drift.due:
            self.drift.add(time, delay)
        if is_forwarded and other[copies.IS_FORWARDED] and self.link.redundancy:
            self.twice.add(one.where)
        if abs(delay) <= self.link.skew_max:
            return None
        self.beyond += 1
        return self.conditions.broken("skew-max", one.where, f"{abs(delay)} us after its first copy")

    def overtake(self, one, index):
        """The condition that a frame breaks whose first copy came after one of a later frame, if its delay shows one. By itself it
        costs its message, and none after it."""
        places = self.copies.places
        late = (one.time - places[index - places[0].index].since) // 1000
        if late > self.link.skew_max:
            return self.conditions.broken("skew-max", one.where, f"{late} us after a later frame")
        return None

    def restart(self, what, pause, where):
        """The condition that a restart breaks, if it does."""
        pause //= 1000
        self.resets.add(f"{where} after {pause} us")
        self.least_pause = pause if self.least_pause is None else min(pause, self.least_pause)
        if pause <= self.link.skew_max + self.greatest_delay:
            return self.conditions.broken("skew-max", where, f"restarted after {pause} us")
        return "sender" if what == ANEW else None

    @property
    def greatest_delay(self):
        """The greatest of either sign: D is at least this."""
        found = self.delays.look()
        return max(abs(found.least), abs(found.greatest)) if found.number else 0

    def run_ended(self, net, run, copy, cost):
        """A network that loses the window's number of frames or more is out: the next one is dropped on it."""
        if run < self.link.window:
            return
        where = where_of(copy, net) if copy else f"the end of {NETWORKS[net]}"
        how = f"the first after {run} were lost" if copy else f"{run} were lost, and no more came"
        self.conditions.broken("losses", where, how)
        self.outages.add(f"{run} before {where}, " + (f"{cost} frames not forwarded" if cost else "no frame lost"))
        self.free_outages += not cost

    def settled(self, place, lost):
        where = Where(place.by[1], place.by[0], place.since)
        if lost and place.number == 0:
            self.conditions.broken("losses", where, f"{NETWORKS[lost[0]]} lost its copy, the first after a restart")
        if not any(place.copies):
            self.conditions.broken("copies", where, f"number {place.number} before it came on neither network")

    def lost_many(self, count, net, copy):
        where = where_of(copy, net)
        self.conditions.broken("copies", where, f"{count} frames before it came on neither network")

    def given_up(self, why, first, where):
        """What is wrong with a datagram in parts."""
        if why == "identification":
            self.again.add(where)
            self.conditions.broken("identification", where, "the same identification within the limit")
        elif why not in GIVEN_UP:
            self.fragments.add(f"{where} ({why})")
            self.conditions.broken("order" if why == ORDER else "identification", where, why)
        else:
            self.unfinished.add(f"{first} ({why})")
            if why == "four others":
                self.conditions.broken("parts", where, "a fifth datagram in parts")
            else:
                self.conditions.broken("whole", first, f"its datagram never ended ({why})")

    def mixed(self, net, copy):
        self.mixed_at = self.mixed_at or where_of(copy, net)
        self.conditions.broken("sender", self.mixed_at, "two series of numbers")

    def pass_time(self, time):
        for each in self.senders.values():
            each.settle(time - each.wait)

    def finish(self, time, now):
        for each in self.senders.values():
            each.finish(time, self.link.skew_max)
        self.pieces.finish(now)
        self.look()

    def look(self):
        """Takes in what was noted."""
        for each in (*self.nets, self.delays):
            each.look()

    def of_kinds(self, *names):
        """How many frames have these verdicts."""
        return sum(net.kinds[name] for net in self.nets for name in names)

    def nonsense(self):
        """Why the numbers of its frames make no sense, if they make none: then nothing is counted by them."""
        if self.mixed_at:
            return f"two series of numbers alternate, from {self.mixed_at} on"
        if self.is_apart():
            return "a clock is so far ahead of the other that copies don't find each other"
        for one in self.senders.values():
            if one.lost_both > one.room():
                return f"{one.lost_both} numbers are missing, where there was time for {max(0, one.room())} frames more"
            if one.skipped:
                net, copy, missing, most = one.skipped
                return f"{missing} are skipped by {where_of(copy, net)}, where there was time for {most} frames"
            if (odd := one.odd()) > max(LEAST_ODD, one.seen):
                return f"the numbers of {odd} frames don't go on from those before"
        return None

    def is_apart(self):
        """Whether a clock is ahead by more than a copy is waited for, or than numbers can tell."""
        return abs(self.ahead) > min(self.copies.wait, HALF_TURN * self.copies.gap())

    def untimed(self):
        """Why its delays, and what rests on them, aren't known, if they aren't."""
        return self.nonsense() or (self.beyond and self.drift.rate() and "a clock is faster than the other") or None

    def sender_count(self):
        """How many addresses it has, or series of numbers."""
        return max(len(self.senders), 2 if self.mixed_at else 0)

    def why_not_one_sender(self):
        """Why its frames aren't one sender's, numbered in turn, if they aren't."""
        if self.sender_count() > 1:
            return f"{self.sender_count()} senders, by their source addresses or their numbers"
        reason = not self.is_apart() and self.nonsense() or None
        return reason and f"its numbers make no sense: {reason}"

    def summed(self, name):
        """A count of all senders' copies, None if it is not known."""
        return None if self.nonsense() else sum(getattr(one, name) for one in self.senders.values())

    def lost_on(self, net):
        """What a network lost or had more than once, by the names of `copies.COUNTED`; None is not known."""
        sides = [one.sides[net] for one in self.senders.values()]
        is_known = not self.nonsense()
        return {name: (max if name == "longest" else sum)([0, *(getattr(one, name) for one in sides)]) if is_known else None
                for name in copies.COUNTED}

    def broken(self):
        """The conditions that were broken, in the page's order, but for those by numbers or clocks that make no sense."""
        hidden = BY_NUMBERS if self.nonsense() else BY_CLOCKS if self.untimed() else ()
        hidden += ("sender",) if self.is_apart() else ()
        found = self.conditions.found
        return {word: found[word] for word in CONDITIONS if word in found and word not in hidden}

    def costs(self):
        """By what messages were lost: frames that came on neither network, or that the receiver dropped, refused or had no
        room for, and datagrams that were given up; and how many came twice."""
        return {"lost-both": self.summed("lost_both"), "dropped": self.summed("dropped"), "bad": self.of_kinds(*FAULTS),
                "overflow": self.of_kinds("overflow"), "unfinished": self.unfinished.count,
                "twice": None if self.untimed() else self.twice.count}

    def law(self):
        """What came of the law (docs/FORMATS.md): `all` where its conditions held from the first frame to the last, and
        nothing was lost."""
        if not any(net.frames for net in self.nets):
            return "-"
        if not self.link.redundancy:
            return "off"
        if self.nonsense():
            return "not known"
        costs = self.costs()
        if any(count for word, count in costs.items() if word != "twice"):
            return "lost"
        if self.untimed():
            return "not known"
        if self.spans.arrived > self.spans.delivered:
            return "lost"
        is_out = not all(net.frames for net in self.nets) or any(
            side.run >= self.link.window for one in self.senders.values() for side in one.sides)
        return "twice" if costs["twice"] else "no loss" if self.conditions.found or self.spans.count != 1 or is_out else "all"


class Health:
    """Of all links, by their numbers; and what was filtered, by network and cause. `made` makes what is known of a link, of
    its settings and its own keys."""

    def __init__(self, played, made=Link):
        self.links = {link.vl: made(link, played.own.get(link.vl, {})) for link in played.receiver.links}
        self.filtered, self.left_out = (tuple(Counter() for _ in NETWORKS) for _ in range(2))
        self.firsts = {}  # the first packet of each of these causes, by network
        self.interfaces, self.drift = tuple([0] * 8 for _ in NETWORKS), Drift()
        for link in self.links.values():
            link.drift = self.drift
        self.frames, self.first, self.latest = 0, None, 0

    def see(self, one, now, reply):
        """Returns what the frame is beside the others of its link, if it is of one."""
        time, net, _, octets, left_out, _ = one
        if self.first is None:
            self.first = time
        if left_out:
            self.left_out[net][left_out] += 1
            self.firsts.setdefault((net, left_out), first_of(one))
            return None
        self.latest = time
        self.frames += 1
        if (vl := reply.vl) is None:
            self.filtered[net][reply.cause] += 1
            self.firsts.setdefault((net, reply.cause), first_of(one))
            return None
        self.interfaces[net][octets[INTERFACE] >> 5] += 1
        return self.links[vl].see(now, one, reply)

    def pass_time(self, time):
        """Lets it be so late, though nothing came."""
        self.latest = max(time, self.latest)
        for link in self.links.values():
            link.pass_time(time)

    def finish(self, now, ahead=0):
        """B's clock seems so many nanoseconds ahead."""
        for link in self.links.values():
            link.ahead = ahead
            link.finish(self.latest, now)

    def swapped(self):
        """The networks most of whose frames say the other's interface."""
        return [net for net, found in enumerate(self.interfaces) if 2 * found[2 - net] > sum(found)]

    def crossings(self):
        """Each network whose frames are told apart by their source addresses alone, and in which words."""
        if len(self.swapped()) == len(NETWORKS):
            yield 0, ("crossed networks: most source addresses of A say interface 2, and most of B interface 1; "
                      "--networks source follows them")
        for net, (letter, found) in enumerate(zip(NETWORKS, self.interfaces)):
            if MIXED * min(found[1], found[2]) > sum(found):
                yield net, (f"frames of both networks on {letter}, by their source addresses: {found[1]} say A and "
                            f"{found[2]} say B; --networks source tells them apart")

    def hints(self):
        """What is wrong with a network as a whole, or a clock, and what mends it."""
        return [*(told for _, told in self.crossings()), *filter(None, [self.drift.hint()])]


def first_of(one):
    """A packet, and in brackets its link, which a frame may have that is none of the networks'."""
    octets = one.octets
    return str(one.where) + (f" (link {int.from_bytes(octets[4:6], 'big')})" if octets[:1] == b"\x03" and len(octets) > 5 else "")


def is_cut(octets):
    """Whether the packet's length is more than came: the frame was cut on the wire, and its last octet is no number."""
    return int.from_bytes(octets[16:18], "big") > len(octets) - 15 and octets[14:15] == b"E"


# ---- each network alone

class Alone:
    """A receiver of its own for each network: what of a network's frames the other one's copies hide. And the checksums of
    UDP, at which no receiver looks."""

    def __init__(self, octets):
        self.receivers = [Receiver(octets) for _ in NETWORKS]

    def fault(self, one, now, reply, note):
        """The verdict of a frame on its network alone, if it is a fault that the other network's good copy hides."""
        found = self.receivers[one.net].receive(one.net, now, one.octets)
        if found.kind in FAULTS:
            other = note and note[copies.OTHER]
            is_hidden = other and other[copies.IS_FORWARDED] and not other[copies.IS_BAD]
            return found if found.kind != reply.kind and is_hidden else None
        if found.port and has_wrong_udp_sum(one.octets):
            return found._replace(kind=WRONG_SUM, port="", number=0)
        return None


def has_wrong_udp_sum(octets):
    """Whether the checksum of a whole UDP datagram is another than the one that it says."""
    length = int.from_bytes(octets[38:40], "big")
    is_whole = not int.from_bytes(octets[20:22], "big") & 0x3FFF and len(octets) > 34 + length
    return is_whole and has_wrong_sum(octets[26:34], octets[34:34 + length])
