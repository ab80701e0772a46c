"""The datagrams of a link that wait for the rest of their fragments, by the receiver's rules: no verdict tells which of them
were given up, came out of order, or were joined of two."""
import collections

from workbench.law import Offers

MOST_GROUPS, MOST_KEPT = 4, 64  # groups; datagrams of one kind that are remembered
IDENTIFICATION, FRAGMENT = slice(18, 20), slice(20, 22)  # octets of a frame
ADDRESSES = slice(26, 34)
NO_FRAGMENT = frozenset(bytes([flags, 0]) for flags in (0x00, 0x40, 0x80, 0xC0))
MOST_OCTETS, HELD = 8200, "fragment-held"
GIVEN_UP = ("limit", "a whole datagram", "four others")
ORDER, OVERLAP, MIXED = "out of order", "overlaps with other octets", "joined of two, by its UDP checksum"


def key_of(octets):
    return octets[ADDRESSES] + octets[IDENTIFICATION]


class Group:
    """A datagram in parts: when it began, in microseconds, its first packet, the places that came, its octets and its end."""

    def __init__(self, now, packet):
        self.begin, self.packet, self.places, self.octets = now, packet, {}, bytearray(MOST_OCTETS)
        self.reach, self.end, self.wrong = 0, None, []

    def add(self, offset, octets, more):
        """What is wrong with a fragment beside those before."""
        after, wrong = offset + len(octets), None
        if offset < self.reach:
            wrong = ORDER
            for begin, end in self.places.items():
                begin, end = max(begin, offset), min(end, after)
                if begin < end:
                    is_other = self.octets[begin:end] != octets[begin - offset:end - offset]
                    wrong = OVERLAP if is_other or wrong == OVERLAP else None
        self.octets[offset:after] = octets
        self.places[offset], self.reach = after, max(after, self.reach)
        self.end = self.end if more else after
        return wrong

    def is_mixed(self, addresses):
        """Whether the UDP checksum of the joined datagram is wrong; of copies that were forwarded again it has none."""
        reached = 0
        for begin, after in sorted(self.places.items()):
            reached = max(reached, after) if begin <= reached else -MOST_OCTETS
        length = int.from_bytes(self.octets[4:6], "big")
        return self.end is not None and reached >= self.end and has_wrong_sum(addresses, self.octets[:min(self.end, length)])


def has_wrong_sum(addresses, datagram):
    """Whether a UDP datagram has another checksum than the one that it says; 0 says none (RFC 768)."""
    text = addresses + b"\0\x11" + datagram[4:6] + datagram + bytes(len(datagram) % 2)
    return any(datagram[6:8]) and int.from_bytes(text, "big") % 0xFFFF != 0


class Pieces:
    """`tell` is called with what is wrong with a datagram, its first packet, and the packet at which."""

    def __init__(self, limit, tell):
        self.limit, self.tell = limit, tell
        self.groups, self.offers, self.told = collections.OrderedDict(), Offers(limit), collections.OrderedDict()
        self.has_fragments, self.joined = False, 0

    def see(self, now, one, kind, is_again):
        """A frame that was forwarded, and whose header is good; perhaps again. Returns whether a message is whole with it, by
        the law."""
        octets = one.octets
        if octets[FRAGMENT] in NO_FRAGMENT:
            if self.groups or self.offers.chains:
                self.see_whole(key_of(octets), one.where)
            return True
        word = int.from_bytes(octets[FRAGMENT], "big")
        key, offset, more = key_of(octets), 8 * (word & 0x1FFF), word >> 13 & 1
        is_bad, chain = kind == "bad-fragment", self.offers.chains.get(key)
        is_used = chain and chain.is_joined and now - chain.latest <= self.limit
        end = int.from_bytes(octets[16:18], "big") + 14
        is_whole = self.offers.add(key, None if is_bad else offset, end - 34, more, now)
        self.has_fragments = True
        if not is_bad and not is_again:
            return self.add(key, now, offset, octets[34:end], more, kind, one.where, is_used) and is_whole
        return is_whole

    def see_whole(self, key, where):
        """A whole datagram gives those in parts with its key up; after it one is begun as if none had come."""
        self.offers.chains.pop(key, None)
        if key in self.groups:
            self.give_up(key, "a whole datagram", where)

    def add(self, key, now, offset, octets, more, kind, packet, is_used):
        """A fragment. Its key may be that of a datagram that was joined within the limit. Returns whether it isn't mixed."""
        group = self.groups.get(key)
        if group and now - group.begin > self.limit:
            self.give_up(key, "limit", packet)
            group = None
        if not group:
            if is_used:
                self.tell("identification", packet, packet)
            group = self.begin(key, now, offset, packet)
        again = "identification" if offset in group.places else None
        for wrong in filter(None, (again, group.add(offset, octets, more))):
            if wrong not in group.wrong:
                group.wrong.append(wrong)
                self.tell(wrong, group.packet, packet)
        if kind == HELD:
            return True
        self.joined += 1
        self.offers.chains[key].is_joined = True
        is_mixed = self.groups.pop(key).is_mixed(key[:8])
        if is_mixed:
            self.tell(MIXED, group.packet, packet)
        return not is_mixed

    def begin(self, key, now, offset, packet):
        """A new group. What follows of a datagram that was given up isn't one more."""
        if offset == 0:
            self.told.pop(key, None)
        if len(self.groups) == MOST_GROUPS:
            lost = next(iter(self.groups))
            self.offers.lose_place(lost)
            self.give_up(lost, "four others", packet)
        group = self.groups[key] = Group(now, packet)
        return group

    def give_up(self, key, why, packet):
        group = self.groups.pop(key)
        if key not in self.told:
            self.tell(why, group.packet, packet)
        self.told[key] = True
        if len(self.told) > MOST_KEPT:
            self.told.popitem(last=False)

    def finish(self, now):
        """What waits for longer than the limit never ends."""
        for key, group in list(self.groups.items()):
            if now - group.begin > self.limit:
                self.give_up(key, "limit", group.packet)
