"""The packets of both networks in the order of their times, out of captures, a pipe or traces, in bounded memory."""
import collections
import contextlib
import gc
import heapq
import os
import sys
from typing import NamedTuple
from zlib import crc32

from verdict_words import NETWORKS
from workbench import captures, files, hex_traces, moments, unpacking
from workbench.faults import BROKEN, Broken, Fault, plain
from workbench.shifts import BEHIND, Shift

# Of a frame: the places of its type and of its interface's number; the CRC-32 of each that is followed by its own check
# sequence; its greatest length in a line of a trace, which has at most 8192 bytes, a time and its space 21.
TYPE, INTERFACE, IPV4, TAGS = slice(12, 14), 11, b"\x08\x00", (b"\x81\x00", b"\x88\xa8", b"\x91\x00")
WHOLE_WITH_FCS, MOST_OCTETS = 0x2144DF1C, (8192 - 21) // 2
MOST_TIME = 2**64  # nanoseconds
SNAPSHOT, BAD_FCS = "cut by the snapshot length", "wrong frame check sequence"
TAGGED, TOO_LONG = "VLAN tag", "longer than a line of a trace"
LATE, NO_TIME = "too late for its place", "no time that a trace can have"
OTHER, TORN = "of another interface", "cut by the end of the capture"
HELP = {reason: ": --reorder takes more packets, or a file of each network" for reason in (LATE, BEHIND)}
SHOWN = 8
made = tuple.__new__  # a named tuple by one call
# Nanoseconds that a packet of a pipe waits for earlier ones, and by which one may be behind the other network: dumpcap
# reads each quarter of a second.
HOLD_OF_A_PIPE = 300_000_000
HINTS = {b"\xfd7zX": "compressed: unxz it", b"\x28\xb5\x2f\xfd": "compressed: install zstd, or unzstd it",
         b"\xef\xbb\xbf": "a byte order mark: sed '1s/^\\xef\\xbb\\xbf//'",
         b"\xff\xfe": "UTF-16: iconv -f UTF-16 -t ASCII"}


class Where(NamedTuple):
    """A packet, for people: its number, its network and its time in nanoseconds."""
    number: int
    net: int
    time: int

    packet = property(lambda self: f"{self.number} of {NETWORKS[self.net]}")

    def __str__(self):
        return f"{self.packet} at {moments.told(self.time)}"


class Arrival(collections.namedtuple("Arrival", "time net number octets left_out length")):
    """A packet of a network, 0 for A: its time in nanoseconds of 1970, its number in the capture, its octets without
    check sequence, why it was left out, and its length before the snapshot length cut it."""
    __slots__ = ()
    where = property(lambda self: Where(self.number, self.net, self.time))


class Account:
    """What was met in a capture, for people."""

    def __init__(self, name, count=1):
        """Of a file, or of so many in a row."""
        self.name = "standard input" if name == "-" else plain(os.path.basename(name))
        self.name += f" and {count - 1} more" if count > 1 else ""
        self.broken, self.lost, self.first = "", collections.Counter(), None
        self.packets = self.whole = self.checked = self.moved = self.newest = self.untagged = 0
        self.left_out, self.counts = collections.defaultdict(list), collections.Counter()
        self.others = {}  # by an interface that is of neither network: how many packets, and the first

    def leave_out(self, number, reason):
        self.counts[reason] += 1
        if self.counts[reason] <= SHOWN:
            self.left_out[reason].append(number)

    def frame_of(self, octets, fcs, given):
        """The frame of a whole packet without its check sequence, and why it can't be taken. If nobody says whether
        there is one that is seen: where each packet before had one, a packet with a wrong one was damaged."""
        has, reason = fcs if given.fcs is None else given.fcs, None
        if has is not False and crc32(octets) == WHOLE_WITH_FCS:
            self.checked += 1
            octets = octets[:-4]
        elif has or has is None and self.checked == self.whole >= SHOWN:
            reason, self.whole = BAD_FCS, self.whole - 1
        self.whole += 1
        if octets[TYPE] != IPV4 or len(octets) > MOST_OCTETS:
            while given.untag and octets[TYPE] in TAGS:
                octets = octets[:12] + octets[16:]
                self.untagged += 1
            reason = reason or (TAGGED if octets[TYPE] in TAGS else TOO_LONG if len(octets) > MOST_OCTETS else None)
        return octets, reason

    def lines(self):
        met = ((self.checked, "check sequences cut off"), (self.untagged, "VLAN tags taken off"),
               (self.moved, "put in order"))
        if more := "".join(f", {count} {what}" for count, what in met if count):
            yield f"{self.name}: {self.packets} packets{more}"
        for interface, count in (+self.lost).items():
            yield (f"{self.name}: {count} packets were lost while it was captured, on interface {interface}: what "
                   "they were is unknown, and looks like a fault of the network")
        if not self.packets and not self.broken and not self.counts:
            yield f"{self.name}: it has no packet"
        for reason, numbers in self.left_out.items():
            rest = f" and {self.counts[reason] - SHOWN} more" if self.counts[reason] > SHOWN else ""
            yield f"{self.name}: left out, {reason}: packet {', '.join(map(str, numbers))}{rest}{HELP.get(reason, '')}"
        if self.broken:
            yield self.broken


class Clock:
    """The times that the receiver is given, in microseconds since the first packet. The player takes A's frame first if
    both networks have one at a time: so a frame of A that comes after one of B in a microsecond gets the next one."""

    def __init__(self, from_first=True):
        self.base, self.newest = (None if from_first else 0), -1
        self.times, self.found = [-1, -1], [-1, -1]  # of the latest of each network

    def since(self, time):
        if self.base is None:
            self.base = time
        return max(0, time - self.base) // 1000

    def of(self, net, time):
        """Of a frame that is handed in."""
        found = self.since(time)
        if found <= self.newest:
            other = self.times[1 - net]
            is_after = time > other or time == other and net
            found = max(found, self.found[net], self.found[1 - net] + (net == 0) if is_after else 0)
        self.newest = max(self.newest, found)
        self.times[net], self.found[net] = time, found
        return found


def interface_of(octets):
    """What the source address says of its network: 1 for A, 2 for B."""
    return octets[INTERFACE] >> 5 if len(octets) > INTERFACE else None


def arrivals(packets, nets, given, account):
    """What comes of a capture's packets, None if it is none of a network. `nets` has the networks of interfaces."""
    latest, (shift, rate), before, is_moved = 0, given.shift_b, account.packets, any(given.shift_b)
    is_by_source = given.networks == "source"
    try:
        for packet in packets:
            if packet is None:
                yield None
                continue
            number, interface, time, octets, length, about = packet
            account.packets = number = before + number
            if is_by_source:
                interface = interface_of(octets)
            net = nets[interface]
            if net is None:
                account.leave_out(number, OTHER)
                account.others.setdefault(interface, [0, f"{number} at {moments.told(time or 0)}"])[0] += 1
                yield None
                continue
            if about.link_type != captures.ETHERNET:
                raise Fault(f"packet {number} isn't Ethernet, but of link type {about.link_type}")
            reason = SNAPSHOT
            if len(octets) >= length:
                octets, reason = account.frame_of(octets, about.fcs, given)
                length = len(octets)
            if net and is_moved and time is not None:
                account.first = time if account.first is None else account.first
                time += 1000 * shift + round((time - account.first) * rate / 1e6)
            if time is None or not 0 <= time < MOST_TIME:
                time, reason = latest, reason or NO_TIME
            yield made(Arrival, (time, net, number, octets, reason, length))
            latest = time
    except EOFError:
        account.leave_out(account.packets + 1, TORN)
    except Broken as broken:
        account.broken = f"{account.name}: {broken}; {account.packets} packets before were played"
    except Fault as fault:
        raise Fault(f"{account.name}: {fault}", fault.status) from None


def of_row(names, first, nets, given, account):
    """What comes of captures one after the other, whose packets are numbered on. The first one is open."""
    yield from arrivals(captures.packets(*first, account.lost), nets, given, account)
    for name in names[1:]:
        with contextlib.ExitStack() as stack:
            file, magic = opened_file(name, stack)
            if magic and magic not in captures.MAGICS:
                raise Fault(f"{name}: no capture, as those before it")
            yield from arrivals(captures.packets(file, magic, account.lost), nets, given, account)


def of_trace(found, net, account):
    """The lines of a trace."""
    try:
        for number, time, octets in found:
            account.packets += 1
            yield Arrival(1000 * time, net, number, octets, None, len(octets))
    except Broken as broken:
        account.broken = str(broken)


class Order:
    """Puts arrivals in order of time. Most come in order and wait in a row; those that don't, in a heap beside it."""

    def __init__(self, account):
        self.row, self.heap, self.account = collections.deque(), [], account
        self.latest, self.newest = [0, 0], 0  # times of each network, and of both
        self.patience = [HOLD_OF_A_PIPE, HOLD_OF_A_PIPE]  # by how much each may be behind the other: none once it was

    def add(self, one):
        if not self.row or self.row[-1] <= one:
            self.row.append(one)
        else:
            heapq.heappush(self.heap, one)

    def next(self):
        """The earliest; it is left out if it comes too late for its network."""
        row, heap, account = self.row, self.heap, self.account
        one = heapq.heappop(heap) if heap and (not row or heap[0] < row[0]) else row.popleft()
        time, net, number, _, left_out, _ = one
        if time >= self.newest and not left_out:
            self.newest, self.patience[net] = time, HOLD_OF_A_PIPE
        elif left_out := left_out or self.lateness(time, net):
            account.leave_out(number, left_out)
            return one._replace(left_out=left_out)
        self.latest[net] = time
        account.moved += number < account.newest
        account.newest = max(account.newest, number)
        return one

    def lateness(self, time, net):
        """Why a packet comes too late, if it does."""
        is_behind = time < self.latest[1 - net] - self.patience[net]
        self.patience[net] = 0 if is_behind else HOLD_OF_A_PIPE
        return LATE if time < self.latest[net] else BEHIND if is_behind else None

    def until(self, time):
        """All up to this time."""
        while self.heap and self.heap[0].time <= time or self.row and self.row[0].time <= time:
            yield self.next()


def in_order(found, window, pipe, account):
    """Each waits for so many packets or, of a pipe, for a time by the packets' clock, and for none once it is quiet."""
    order = Order(account)
    for one in found:
        if one:
            order.add(one)
        if len(order.row) + len(order.heap) > window:
            yield order.next()
        if pipe:
            is_quiet = files.is_quiet(pipe, HOLD_OF_A_PIPE / captures.SECOND)
            yield from order.until(float("inf") if is_quiet else one.time - HOLD_OF_A_PIPE if one else 0)
    yield from order.until(float("inf"))


def opened_file(name, stack):
    """A file, and its first four octets: of a capture or of a trace. It may be compressed."""
    file = unpacking.unpacked(name, stack.enter_context(files.reading(name)), stack)
    try:
        magic = file.read(4)
    except Broken as broken:
        raise Fault(f"{name}: {broken}", BROKEN) from None
    if magic not in captures.MAGICS and magic and magic[0] not in b"0123456789#\n":
        hint = next((hint for start, hint in HINTS.items() if magic.startswith(start)),
                    "`editcap -F pcapng FILE -` makes one of what Wireshark reads")
        raise Fault(f"{name}: neither a capture (pcap, pcapng) nor a trace; {hint}")
    return file, magic


class Stream:
    """The arrivals of one capture with both networks, or of two; or of one or two traces. Its end has the status."""

    def __init__(self, given, stack):
        self.given, rows = given, [given.files] if given.in_a_row else [[name] for name in given.files]
        inputs = [opened_file(row[0], stack) for row in rows]
        kinds = {magic in captures.MAGICS for _, magic in inputs if magic}
        if len(kinds) > 1:
            raise Fault("one capture and one trace: their times have nothing in common")
        self.is_of_captures = True in kinds
        self.unit = "packet" if self.is_of_captures else "line"
        self.clock, self.status, self.shift = Clock(self.is_of_captures), 0, Shift()
        self.interfaces = given.interfaces if given.networks == "interface" else ()
        self.accounts = [Account(row[0], len(row)) for row in rows]
        self.feeds = [self.feed(place, row, *one) for place, (row, one) in enumerate(zip(rows, inputs))]

    def feed(self, place, row, file, magic):
        account, given = self.accounts[place], self.given
        if not self.is_of_captures:
            return of_trace(hex_traces.lines(file, magic, place), place, account)
        nets = collections.defaultdict(lambda: place)  # of interfaces: one of two captures has one network
        if len(self.accounts) == 1 or not self.interfaces:
            nets = collections.defaultdict(lambda: None, zip(self.interfaces or (1, 2), (0, 1)))
        is_pipe = row[0] == "-" and isinstance(file.raw, files.Watched)
        found = of_row(row, (file, magic), nets, given, account)
        return in_order(found, given.reorder, file if is_pipe else None, account)

    def source(self, net):
        """The name of the file that a network's packets are of."""
        return self.accounts[net % len(self.accounts)].name

    def __iter__(self):
        merged = self.feeds[0] if len(self.feeds) == 1 else heapq.merge(*self.feeds, key=lambda one: one[:2])
        since, until = self.given.since, self.given.until
        found = iter(moments.between(merged, since, until) if since or until else merged)
        for one in found if self.is_of_captures else ():
            self.shift.see(one)
            yield one
            if not self.shift.looks:
                break
        yield from found

    def tell_beginning(self):
        base = self.clock.base
        if self.is_of_captures and base is not None:
            seconds, rest = divmod(base, captures.SECOND)
            print(f"yelunnavi: time 0 is {seconds}.{rest:09d} seconds of 1970 ({moments.date(base)})", file=sys.stderr)


@contextlib.contextmanager
def opened(given):
    """The stream of the files that a command line names; at its end what was met is told, and its status is known."""
    with contextlib.ExitStack() as stack:
        if sys.implementation.name == "cpython":  # no packet leaves a cycle; to look for them takes a tenth of the time
            gc.disable()
            stack.callback(gc.enable)
        found = Stream(given, stack)
        yield found
    found.status = BROKEN if any(account.broken or TORN in account.counts for account in found.accounts) else 0
    met = [line for account in found.accounts for line in account.lines()]
    for line in filter(None, [*met, found.shift.hint()]):
        print(f"yelunnavi: {line}", file=sys.stderr)
