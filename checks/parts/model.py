"""The receiver for one task as a model: its rules (docs/RECEIVER.md) and the calls of the library for C, in plain Python.

It keeps lists where the library has buffers and marks, and shares no code with it or with the player.
"""
from typing import NamedTuple

DONE, NOT_OPEN, ALREADY_OPEN, NO_NETWORK, NO_KIND, NO_PLACE, NO_NAME, NONE_LEFT = 0, 1, 2, 5, 6, 7, 8, 9
HOLDS_ONE, HOLDS_NONE, OUT_OF_RANGE, TOO_SHORT, FAULTY = 10, 11, 12, 13, 3
(FILTERED, OUT_OF_SEQUENCE, REDUNDANT, BAD_HEADER, BAD_FRAGMENT, FRAGMENT_HELD, BAD_UDP, NO_PORT, TOO_LONG, FRAGMENTED_SAMPLE,
 SAMPLED, QUEUED, OVERFLOW, EXHAUSTED) = range(14)
CAUSES, READERS = 5, 8
MOST_GROUPS, LAST_OCTET = 4, 8200
FILL = 0xA5  # what a buffer has where nothing was written


class Message(NamedTuple):
    number: int
    time: int
    octets: bytes


class Group:
    """The pieces of a datagram that wait."""

    def __init__(self, key, began):
        self.key, self.began, self.octets, self.end = key, began, {}, None

    def add(self, offset, octets, is_last):
        self.octets.update(enumerate(octets, offset))
        if is_last:
            self.end = offset + len(octets)

    def datagram(self):
        if self.end is None or any(place not in self.octets for place in range(self.end)):
            return None
        return bytes(self.octets[place] for place in range(self.end))


class Port:
    """A port of a link: its settings, and the messages that came."""

    def __init__(self, settings, link):
        self.name, self.samples = settings.name.encode(), settings.kind == "sampling"
        self.address, self.udp = bytes([224, 224, link, 1]), settings.udp
        self.max = (1471 if self.samples else 8192) if settings.max is None else settings.max
        self.refresh, self.depth = settings.refresh, settings.depth
        self.newest, self.waiting, self.greatest, self.count, self.left = None, [], 0, 0, 0
        self.lost = 0  # since a message was put
        self.became, self.brought = dict.fromkeys((SAMPLED, QUEUED, OVERFLOW, TOO_LONG, FRAGMENTED_SAMPLE), 0), None

    def deliver(self, time, octets):
        """The kind of the verdict, and the message's number."""
        if self.samples:
            self.count += 1
            self.newest = Message(self.count, time, octets)
            return SAMPLED, self.count
        if len(self.waiting) == self.depth:
            self.lost += 1
            return OVERFLOW, 0
        self.waiting.append((Message(0, time, octets), self.lost))
        self.lost = 0
        self.greatest = max(self.greatest, len(self.waiting))
        return QUEUED, 0


def passed(now, before):
    return max(0, now - before)


def is_ahead(number, before):
    if before == 0:
        return 1 <= number <= 127
    if number == 0:
        return before >= 128
    return 1 <= (number - before) % 255 <= 127


def follows(number, before, window):
    """Whether a sequence number is among the first that follow another one: 1 follows 0, and 1 follows 255."""
    for _ in range(window):
        before = before % 255 + 1
        if number == before:
            return True
    return number == 0


def header_fault(head, room):
    """The number of the first fault of an IPv4 header, 0 if it has none."""
    total = sum(int.from_bytes(head[place:place + 2], "big") for place in range(0, 20, 2))
    while total > 0xFFFF:
        total = (total & 0xFFFF) + (total >> 16)
    faults = head[0] >> 4 != 4, head[0] & 15 != 5, not 20 <= int.from_bytes(head[2:4], "big") <= room, total != 0xFFFF, head[9] != 17
    return next((number for number, is_so in enumerate(faults, 1) if is_so), 0)


class Link:
    """A link: what its rules look back to."""

    def __init__(self, settings):
        self.number, self.skew, self.limit = settings.number, settings.skew, settings.limit
        self.redundancy, self.window = settings.redundancy, settings.window or 2
        self.ports = [Port(port, settings.place) for port in settings.ports]
        self.came, self.latest, self.forwarded, self.groups, self.frames = [None, None], None, None, [], 0
        self.heard, self.given_up, self.net = [None, None], 0, None

    def receive(self, net, now, frame):
        """Kind, cause, place of the port and number of the message."""
        self.net, number, before, self.came[net] = net, frame[-1], self.came[net], frame[-1]
        self.heard[net] = now
        if before is not None and not follows(number, before, self.window):
            return OUT_OF_SEQUENCE, 0, 0, 0
        if self.redundancy and not self.forwards(number, now):
            return REDUNDANT, 0, 0, 0
        self.forwarded, self.latest = number, now if self.latest is None else max(now, self.latest)
        fault = header_fault(frame[14:34], len(frame) - 15)
        if fault:
            return BAD_HEADER, fault, 0, 0
        return self.packet(now, frame[14:14 + int.from_bytes(frame[16:18], "big")])

    def forwards(self, number, now):
        return self.forwarded is None or passed(now, self.latest) > self.skew or is_ahead(number, self.forwarded)

    def packet(self, now, packet):
        word, octets, key = int.from_bytes(packet[6:8], "big"), packet[20:], (packet[12:20], packet[4:6])
        more, offset = bool(word & 0x2000), 8 * (word & 0x1FFF)
        if not more and offset == 0:
            self.give_up([group for group in self.groups if group.key == key])
            return self.datagram(now, packet[16:20], octets, False)
        if more and (not octets or len(octets) % 8) or offset + len(octets) > LAST_OCTET:
            return BAD_FRAGMENT, 0, 0, 0
        group = self.group(key, now)
        group.add(offset, octets, not more)
        whole = group.datagram()
        if whole is None:
            return FRAGMENT_HELD, 0, 0, 0
        self.groups.remove(group)
        return self.datagram(now, packet[16:20], whole, True)

    def give_up(self, groups):
        self.given_up += len(groups)
        self.groups = [group for group in self.groups if group not in groups]

    def group(self, key, now):
        self.give_up([group for group in self.groups if group.key == key and passed(now, group.began) > self.limit])
        found = [group for group in self.groups if group.key == key]
        if not found:
            found = [Group(key, now)]
            self.give_up(self.groups[:1] if len(self.groups) == MOST_GROUPS else [])
            self.groups.append(found[0])
        return found[0]

    def datagram(self, now, address, octets, is_joined):
        length = int.from_bytes(octets[4:6], "big") if len(octets) >= 8 else 0
        if not 8 <= length <= len(octets):
            return BAD_UDP, 0, 0, 0
        to = address, int.from_bytes(octets[2:4], "big")
        place = next((place for place, port in enumerate(self.ports) if (port.address, port.udp) == to), None)
        if place is None:
            return NO_PORT, 0, 0, 0
        port = self.ports[place]
        kind, number = self.at_port(port, now, octets[8:length], is_joined)
        port.became[kind] += 1
        if kind in (SAMPLED, QUEUED):
            port.brought = self.net, now
        return kind, 0, place, number

    @staticmethod
    def at_port(port, now, octets, is_joined):
        if port.samples and is_joined:
            return FRAGMENTED_SAMPLE, 0
        return (TOO_LONG, 0) if len(octets) > port.max else port.deliver(now, octets)


def filter_cause(frame, numbers):
    faults = (len(frame) < 60, len(frame) > 1514, frame[12:14] != b"\x08\0", frame[:4] != b"\x03\0\0\0",
              int.from_bytes(frame[4:6], "big") not in numbers)
    return next((cause for cause, is_so in enumerate(faults, 1) if is_so), 0)


def filled(octets, length):
    """A buffer of this length after octets were written to its beginning."""
    return octets[:length] + bytes([FILL]) * (length - len(octets))


class Reader:
    def __init__(self):
        self.port, self.held = None, None

    def told(self, now):
        message = self.port.newest
        if message is None:
            return [0] * 5
        return [1, int(passed(now, message.time) <= self.port.refresh), message.number, message.time, len(message.octets)]

    def read(self, now, length):
        if self.port is None or self.held:
            return NOT_OPEN if self.port is None else HOLDS_ONE, filled(b"", length)
        octets = self.port.newest.octets if self.port.newest else b""
        return DONE, *self.told(now), filled(octets, length)

    def hold(self, now):
        if self.port is None or self.held:
            return (NOT_OPEN if self.port is None else HOLDS_ONE,)
        self.held = self.port.newest
        return DONE, *self.told(now)

    def copy(self, first, length):
        if not self.held:
            return HOLDS_NONE, filled(b"", length)
        if first + length > len(self.held.octets):
            return OUT_OF_RANGE, filled(b"", length)
        return DONE, self.held.octets[first:first + length]

    def octets(self):
        return (DONE, self.held.octets) if self.held else (HOLDS_NONE,)

    def release(self):
        code, self.held = DONE if self.held else HOLDS_NONE, None
        return (code,)

    def limits(self):
        if self.port is None or self.held:
            return (NOT_OPEN if self.port is None else HOLDS_ONE,)
        return DONE, self.port.max, self.port.refresh


class Queue:
    def __init__(self):
        self.port = None

    def take(self, length):
        if self.port is None or length < self.port.max:
            return NOT_OPEN if self.port is None else TOO_SHORT, filled(b"", length)
        if not self.port.waiting:
            return DONE, 0, 0, 0, 0, filled(b"", length)
        message, lost = self.port.waiting.pop(0)
        return DONE, 1, message.time, len(message.octets), lost, filled(message.octets, length)

    def count_waiting(self):
        return (NOT_OPEN,) if self.port is None else (DONE, len(self.port.waiting))

    def longest(self):
        return (NOT_OPEN,) if self.port is None else (DONE, self.port.max)


class Receiver:
    """The receiver's slot; `links` is None as long as nothing is open there."""

    def __init__(self):
        self.links = None

    def open(self, settings, readers, each=()):
        """`each` has the readers of ports by their names, where a table says them."""
        if self.links is not None:
            return (ALREADY_OPEN,)
        if not 1 <= readers <= READERS:
            return (OUT_OF_RANGE,)
        links = [Link(link) for link in settings]
        if any(port.samples and dict(each).get(port.name, 0) > READERS for link in links for port in link.ports):
            return (FAULTY,)
        self.links = links
        self.counts, self.filtered_counts = {}, {}
        for port in self.ports():
            port.left = (dict(each).get(port.name) or readers) if port.samples else 1
        return (DONE,)

    def ports(self):
        return [port for link in self.links for port in link.ports]

    def close(self):
        self.links = None

    def receive(self, net, now, frame):
        if self.links is None or net > 1:
            return (NOT_OPEN if self.links is None else NO_NETWORK,)
        cause = filter_cause(frame, [link.number for link in self.links])
        if cause:
            self.filtered_counts[net, cause] = self.filtered_counts.get((net, cause), 0) + 1
            return DONE, FILTERED, cause, 0, 0, 0, 0, 0
        number = int.from_bytes(frame[4:6], "big")
        at, link = next((at, link) for at, link in enumerate(self.links) if link.number == number)
        kind, cause, port, message = link.receive(net, now, frame)
        self.counts[at, net, kind] = self.counts.get((at, net, kind), 0) + 1
        link.frames += 1
        return DONE, kind, cause, at, number, port, link.frames - 1, message

    def hand(self, end, name, samples):
        if self.links is None or end.port is not None:
            return (NOT_OPEN if self.links is None else ALREADY_OPEN,)
        port = next((port for port in self.ports() if port.name == name), None)
        if port is None or port.samples != samples or not port.left:
            return (NO_NAME if port is None else NONE_LEFT,)
        port.left, end.port = port.left - 1, port
        return (DONE,)

    def count(self, link, net, kind):
        if self.links is None or net > 1:
            return (NOT_OPEN if self.links is None else NO_NETWORK,)
        if not OUT_OF_SEQUENCE <= kind <= EXHAUSTED:
            return (NO_KIND,)
        return (DONE, self.counts.get((link, net, kind), 0)) if link < len(self.links) else (NO_PLACE,)

    def filtered(self, net, cause):
        if self.links is None or net > 1:
            return (NOT_OPEN if self.links is None else NO_NETWORK,)
        return (DONE, self.filtered_counts.get((net, cause), 0)) if 1 <= cause <= CAUSES else (NO_KIND,)

    def health(self, link):
        if self.links is None or link >= len(self.links):
            return (NOT_OPEN if self.links is None else NO_PLACE,)
        found = self.links[link]
        return DONE, *(int(time is not None) for time in found.heard), *(time or 0 for time in found.heard), found.given_up

    def fill(self, link, place):
        if self.links is None or link >= len(self.links) or place >= len(self.links[link].ports):
            return (NOT_OPEN if self.links is None else NO_PLACE,)
        port = self.links[link].ports[place]
        return (NONE_LEFT,) if port.samples else (DONE, len(port.waiting), port.greatest)

    def port_counts(self, link, place):
        if self.links is None or link >= len(self.links) or place >= len(self.links[link].ports):
            return (NOT_OPEN if self.links is None else NO_PLACE,)
        port = self.links[link].ports[place]
        told = port.became[SAMPLED] + port.became[QUEUED], port.became[OVERFLOW], port.became[TOO_LONG], port.became[FRAGMENTED_SAMPLE]
        return DONE, *told, *((0, 0, 0) if port.brought is None else (1, *port.brought))

    def place(self, name):
        if self.links is None:
            return (NOT_OPEN,)
        found = [(at, place) for at, link in enumerate(self.links) for place, port in enumerate(link.ports) if port.name == name]
        return (DONE, *found[0]) if found else (NO_NAME,)
