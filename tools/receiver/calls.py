"""The handles of the library: a receiver; a system and the passes of its networks; readers of sampling ports, queues of queuing ports."""
import struct
import time
from typing import NamedTuple, Optional

from receiver.library import load, words
from verdict_words import PORT_KINDS

A, B = range(2)
NETWORKS = "AB"
made = tuple.__new__  # a named tuple by one call
# The fields of struct yelunnavi_verdict, yelunnavi_taken and yelunnavi_read, which are read at each call, laid as in C: I is a
# uint32_t, Q a uint64_t, N a size_t. checks/interface compares them.
VERDICT, TAKEN, READ = (struct.Struct(fields).unpack_from for fields in ("IINIIQQ", "IQNQ", "IIQQN"))
ABOUT = struct.calcsize("IINII")  # octets of a verdict, up to its place


class Refused(Exception):
    """A call that was answered with a code that isn't `done`: its word, and what the call was about."""

    def __init__(self, code, about=""):
        self.code = words("code_word").get(code, "?")
        super().__init__(f"{about}: {self.code}" if about else self.code)


class ConfigFault(Exception):
    """The first fault of a configuration: the player's words for it, its key and, in brackets, what that may have, the places of
    its link and port, and the line of the text, from 1: None if the library finds none."""

    def __init__(self, found):
        self.key = words("key_word")[found.key] or None
        self.link = found.link if found.level > 0 else None
        self.port = found.port if found.level > 1 else None
        self.line = found.line or None
        before, after = (words(f"fault_{part}").get(found.fault, "") for part in ("before", "after"))
        self.allowed = f" (allowed: {words('key_allowed')[found.key]})" if self.key else ""
        super().__init__(f"{before}{self.key or ''}{after}")


class Reply(NamedTuple):
    """What became of a frame. A filtered frame has no `vl` and no `place`."""
    kind: str
    cause: str = ""
    vl: Optional[int] = None
    place: Optional[int] = None
    port: str = ""
    number: int = 0

    @property
    def words(self):
        """As the player's lines have them."""
        if self.vl is None:
            return f"filtered {self.cause}"
        rest = f" {self.cause or self.port}" if self.cause or self.port else ""
        return f"vl {self.vl} {self.place} {self.kind}{rest}" + (f" {self.number}" if self.number else "")


class Link(NamedTuple):
    """A link's settings; times are in microseconds."""
    vl: int
    redundancy: bool
    skew_max: int
    reassembly: int
    window: int


class Health(NamedTuple):
    """When the latest frame of a link came on each network, in microseconds, by the network: none if none came. And how many
    datagrams of which fragments came were given up."""
    latest: dict
    given_up: int


class PortCounts(NamedTuple):
    """What became of the messages for a port: how many were delivered, overflowed, were too long, or were joined of fragments where
    it samples; which network brought the newest, and when, in microseconds: None if there is none."""
    delivered: int
    overflowed: int
    too_long: int
    fragmented: int
    net: str | None
    latest: int | None


class Fill(NamedTuple):
    """How many messages wait in a queue, and the greatest number that waited, counted after each message that was delivered."""
    waiting: int
    greatest: int


class Port(NamedTuple):
    """A port's settings. `limit` is the refresh period in microseconds, or the depth of the queue."""
    name: str
    link: int
    vl: int
    is_sampling: bool
    address: int
    udp: int
    max: int
    limit: int


class Read(NamedTuple):
    """A message that was read."""
    number: int
    time: int
    valid: bool
    octets: bytes


class Taken(NamedTuple):
    """A message that was taken, and how many overflowed right before it."""
    time: int
    octets: bytes
    lost: int = 0


class Slot:
    """The room of a handle of a kind, `receiver`, `system`, `pass`, `reader` or `queue`, and its calls by their names in the header."""

    def __init__(self, kind):
        self.ffi, self.library = load()
        self.prefix = f"yelunnavi_{kind}_"
        room = self.ffi.new("uint64_t[]", self.found("room")() // 8 + 1)
        self.handle = self.ffi.new(f"struct yelunnavi_{kind} *", {"room": room})
        self.kept = room  # the handle alone doesn't keep it
        self.found("make")(room)

    def found(self, name):
        return getattr(self.library, self.prefix + name)

    def call(self, name, *given, about=""):
        if code := self.found(name)(self.handle, *given):
            raise Refused(code, about)

    def answer(self, kind, name, *given):
        """What a call writes at its last pointer."""
        found = self.ffi.new(f"{kind} *")
        self.call(name, *given, found)
        return found

    def close(self):
        self.found("close")(self.handle)

    def __enter__(self):
        return self

    def __exit__(self, *_):
        self.close()


class Links(Slot):
    """The links of a configuration, a TOML text, and their ports. Each sampling port gets so many readers, 1 to 8."""

    def __init__(self, kind, text, readers):
        super().__init__(kind)
        octets, fault = text.encode() if isinstance(text, str) else text, self.ffi.new("struct yelunnavi_fault *")
        if code := self.found("open")(self.handle, octets, len(octets), readers, fault):
            raise ConfigFault(fault) if code == self.library.YELUNNAVI_FAULTY else Refused(code)
        self.links = [self.link(place) for place in range(self.answer("size_t", "links")[0])]
        self.ports_of = [self.ports_at(place) for place in range(len(self.links))]
        self.ports = [port for ports in self.ports_of for port in ports]

    def link(self, place):
        found = self.answer("struct yelunnavi_link", "link", place)
        return Link(found.vl, bool(found.redundancy), found.skew_max, found.reassembly, found.window)

    def ports_at(self, place):
        """The ports of the link at a place."""
        return [self.port(place, port) for port in range(self.answer("struct yelunnavi_link", "link", place).ports)]

    def port(self, link, place):
        found, name = self.ffi.new("struct yelunnavi_port *"), self.ffi.new("uint8_t[16]")
        self.call("port", link, place, found, self.ffi.addressof(name))
        return Port(bytes(name)[:found.name_len].decode(), link, self.links[link].vl,
                    found.service == self.library.YELUNNAVI_SERVICE_SAMPLING, found.address, found.udp, found.max, found.limit)

    def reader(self, name):
        """A reader of the sampling port of this name."""
        return Reader(self, name)

    def taker(self, name):
        """The one end of the queue of this name."""
        return Taker(self, name)


class Frames(Slot):
    """A slot that takes frames for some links: what became of each, and what was counted."""

    def take_for(self, links):
        self.of, self.verdict = links, self.ffi.new("struct yelunnavi_verdict *")
        self.verdict_octets, self.receive_call = self.ffi.buffer(self.verdict), self.found("receive")
        self.verdicts, self.filters, self.faults = (words(f"{name}_word") for name in ("verdict", "filter", "header"))
        self.named = {number for number, word in self.verdicts.items() if word in PORT_KINDS}
        self.names = [[port.name for port in ports] for ports in links.ports_of]
        self.replies = {}  # by the octets of a verdict up to its place

    def reply(self):
        """What became of the latest frame."""
        kind, cause, link, vl, port, place, number = VERDICT(self.verdict_octets)
        if not kind:
            return Reply("filtered", self.filters[cause])
        return made(Reply, (self.verdicts[kind], self.faults[cause] if cause else "", vl, place,
                            self.names[link][port] if kind in self.named else "", number))

    def counted(self, by_number, name, *given):
        """The counts of a call by the words of the numbers that it is asked for last."""
        return {word: self.answer("uint64_t", name, *given, number)[0] for number, word in by_number.items() if word != "filtered"}


class Receiver(Links, Frames):
    """The receiver of a configuration, for one task."""

    def __init__(self, text, readers=1):
        super().__init__("receiver", text, readers)
        self.take_for(self)

    def receive(self, net, now, octets):
        """Takes a frame without its check sequence that came on a network, A or B, at `now` in microseconds."""
        if code := self.receive_call(self.handle, net, now, octets, len(octets), self.verdict):
            raise Refused(code)
        return self.reply()

    def receive_briefly(self, net, now, octets):
        """As `receive`, but the reply stands for all frames of which the same has become: its place and its number are those of the
        first one."""
        if code := self.receive_call(self.handle, net, now, octets, len(octets), self.verdict):
            raise Refused(code)
        key = self.verdict_octets[:ABOUT]
        return self.replies.get(key) or self.replies.setdefault(key, self.reply())

    def counts(self):
        """The frames of each link and network by their kinds; those that were filtered by their causes, of link None."""
        return {(link.vl, net): self.counted(self.verdicts, "count", place, number) for place, link in enumerate(self.links)
                for number, net in enumerate(NETWORKS)} | {
                    (None, net): self.counted(self.filters, "filtered", number) for number, net in enumerate(NETWORKS)}

    def health(self, link):
        """How the link at a place of the configuration is."""
        found = self.answer("struct yelunnavi_health", "health", link)
        came, latest = (found.came_a, found.came_b), (found.latest_a, found.latest_b)
        return Health({net: latest[number] if came[number] else None for number, net in enumerate(NETWORKS)}, found.given_up)

    def port_counts(self, link, place):
        """What became of the messages for the port at a place of a link."""
        found = self.answer("struct yelunnavi_port_counts", "port_counts", link, place)
        newest = (NETWORKS[found.net], found.latest) if found.came else (None, None)
        return PortCounts(found.delivered, found.overflowed, found.too_long, found.fragmented, *newest)

    def fill(self, link, place):
        """How full the queue of the port at a place of a link is."""
        found = self.answer("struct yelunnavi_fill", "fill", link, place)
        return Fill(found.waiting, found.greatest)


class System(Links):
    """The receiver of a configuration for two threads, one a network, each with the pass of its own."""

    def __init__(self, text, readers=1):
        super().__init__("system", text, readers)

    def hand_pass(self, net):
        """The pass of a network, A or B, once: for one thread."""
        return Pass(self, net)


class Pass(Frames):
    """A network's pass of a system."""

    def __init__(self, system, net):
        super().__init__("pass")
        system.call("hand_pass", net, self.handle, about=NETWORKS[net])
        self.net, self.busy = NETWORKS[net], self.library.YELUNNAVI_BUSY
        self.take_for(system)

    def receive(self, now, octets):
        """Takes a frame that came on the pass's network. While the other thread has its link it is given again, after a yield."""
        while code := self.receive_call(self.handle, now, octets, len(octets), self.verdict):
            if code != self.busy:
                raise Refused(code)
            time.sleep(0)
        return self.reply()

    def counts(self):
        """The frames of each link by their kinds; those that were filtered by their causes, of link None."""
        return {(link.vl, self.net): self.counted(self.verdicts, "count", place) for place, link in enumerate(self.of.links)} | {
            (None, self.net): self.counted(self.filters, "filtered")}


class End(Slot):
    """An end of a port that a receiver hands out, with room for a message and for what a call answers."""
    kind = ""

    def __init__(self, receiver, name, answer):
        super().__init__(self.kind)
        receiver.call(f"hand_{self.kind}", self.handle, name.encode(), len(name), about=name)
        self.size = self.library.YELUNNAVI_LONGEST_QUEUED
        self.out, self.told = self.ffi.new("uint8_t[]", self.size), self.ffi.new(f"struct yelunnavi_{answer} *")
        self.octets, self.told_octets = self.ffi.buffer(self.out), self.ffi.buffer(self.told)


class Reader(End):
    kind = "reader"

    def __init__(self, receiver, name):
        super().__init__(receiver, name, "read")
        self.read_call = self.found("read")

    def read(self, now):
        """The newest message, with whether it is valid at `now`; None if there is none."""
        if code := self.read_call(self.handle, now, self.out, self.size, self.told):
            raise Refused(code)
        found, valid, number, time, length = READ(self.told_octets)
        return Read(number, time, bool(valid), self.octets[:length]) if found else None


class Taker(End):
    kind = "queue"

    def __init__(self, receiver, name):
        super().__init__(receiver, name, "taken")
        self.take_call = self.found("take")

    @property
    def waiting(self):
        """How many messages wait."""
        return self.answer("size_t", "waiting")[0]

    def take(self):
        """The oldest message that waits; None if there is none."""
        if code := self.take_call(self.handle, self.out, self.size, self.told):
            raise Refused(code)
        found, time, length, lost = TAKEN(self.told_octets)
        return Taken(time, self.octets[:length], lost) if found else None
