"""Calls of the library for C at random moments, and what the model answers to each."""
import collections
import copy

from parts import model
from parts.random_traces import Link, config_text, sent

SLOTS = 64
ENOUGH, WRONG = 8192, 2**64 - 1


def hexed(octets):
    return octets.hex() or "-"


def line_of(answer):
    """A line of checks/parts/drive.c."""
    return " ".join(hexed(part) if isinstance(part, bytes) else str(part) for part in answer)


def rows_of(links, each):
    """The words of a table."""
    yield len(links)
    for link in links:
        yield from (link.number, int(link.redundancy), link.skew, link.limit, link.window or 2, len(link.ports))
    yield sum(len(link.ports) for link in links)
    for link in links:
        for port in link.ports:
            samples = port.kind == "sampling"
            longest = (1471 if samples else 8192) if port.max is None else port.max
            limit = port.refresh if samples else port.depth
            address = int.from_bytes(bytes([224, 224, link.place, 1]), "big")
            yield from (1 if samples else 2, address, port.udp, longest, limit, hexed(port.name.encode()),
                        each[port.name.encode()])


class Script:
    """The calls of a case and their answers, one after another; what is open lives in the model."""

    def __init__(self, r, frames):
        self.r, self.links = r, [Link(r, place) for place in range(r.choice([1, 1, 2, 3]))]
        self.receiver = model.Receiver()
        self.readers = [model.Reader() for _ in range(SLOTS)]
        self.queues = [model.Queue() for _ in range(SLOTS)]
        self.calls, self.answers, self.now, self.kinds = [], [], 0, collections.Counter()
        a, b = sent(r, self.links, frames)
        self.frames = sorted([(time, 0, frame) for time, frame in a] + [(time, 1, frame) for time, frame in b],
                             key=lambda one: one[0])

    def call(self, answer, name, *words):
        self.calls.append(" ".join([name, *map(str, words)]))
        self.answers.append(line_of(answer) if answer else "")

    def without(self, *names):
        """The same case without the calls of these names, which change nothing."""
        pairs = [pair for pair in zip(self.calls, self.answers) if pair[0].split()[0] not in names]
        script = copy.copy(self)
        script.calls, script.answers = ([*part] for part in zip(*pairs))
        return script

    def make(self):
        """The whole case: openings, closings and calls between the frames, some of which come out of their order."""
        r = self.r
        self.chosen(self.open)
        while self.frames:
            at = min(r.choice([0] * 12 + [1, 2, 5]), len(self.frames) - 1)
            self.receive(*self.frames.pop(at))
            for _ in range(r.choice([0, 0, 1, 2, 4])):
                self.chosen(*self.between())
            if r.random() < 0.004:
                self.chosen(self.close, self.close, self.open)
            if self.receiver.links is None and r.random() < 0.3:
                self.open()
        return self

    def chosen(self, *calls):
        self.r.choice(calls)()

    def between(self):
        ends = [self.read] * 4 + [self.hold, self.hold, self.copy, self.octets, self.release, self.take, self.take, self.take]
        return [*ends, self.hand_reader, self.hand_queue, self.count, self.filtered, self.health, self.fill, self.port_counts, self.limits,
                self.longest, self.waiting, self.place, self.chance_of_closing]

    # ---- the receiver

    def open(self):
        readers = self.r.choice([1, 1, 2, 4, 8, 8, 0, 9])
        text = config_text(self.r, self.links, False)
        if self.r.random() < 0.5:
            answer = self.receiver.open(self.links, readers)
            self.call(answer, "open", readers, hexed(text))
        else:
            odd = 9 if self.r.random() < 0.05 else 0
            each = {port.name.encode(): self.r.choice([0, 0, 1, 3, 8, odd]) for link in self.links for port in link.ports}
            answer = self.receiver.open(self.links, readers, each)
            self.call(answer, "open_table", readers, *rows_of(self.links, each))
        for _ in range(self.r.choice([0, 2, 6, 10]) if answer == (model.DONE,) else 0):
            self.chosen(self.hand_reader, self.hand_queue)

    def close(self):
        self.receiver.close()
        self.call((), "close")

    def receive(self, time, net, frame):
        net = net if self.r.random() > 0.01 else self.r.choice([2, 7, 2**32 - 1])
        if self.r.random() < 0.02 and frame:
            place = self.r.randrange(len(frame))
            frame = frame[:place] + bytes([frame[place] ^ 1 << self.r.randrange(8)]) + frame[place + 1:]
        self.now = time
        answer = self.receiver.receive(net, time, frame)
        self.kinds[answer[1] if answer[0] == model.DONE else "refused"] += 1
        self.call(answer, "receive", net, time, hexed(frame))

    def name(self, samples):
        """Mostly that of a port of the right kind."""
        ports = [port for link in self.links for port in link.ports]
        right = [port for port in ports if (port.kind == "sampling") == samples]
        named = [port.name.encode() for port in (right if right and self.r.random() < 0.9 else ports)]
        return self.r.choice([*named, b"", b"\xff"] if self.r.random() < 0.1 or not named else named)

    def hand_reader(self):
        slot, name = self.slot(), self.name(True)
        self.call(self.receiver.hand(self.readers[slot], name, True), "hand_reader", slot, hexed(name))

    def hand_queue(self):
        slot, name = self.slot(), self.name(False)
        self.call(self.receiver.hand(self.queues[slot], name, False), "hand_queue", slot, hexed(name))

    def count(self):
        r = self.r
        words = r.choice([0, 0, 1, 3, WRONG]), r.choice([0, 0, 0, 1, 1, 2]), r.randrange(15)
        self.call(self.receiver.count(*words), "count", *words)

    def filtered(self):
        words = self.r.choice([0, 0, 1, 1, 2]), self.r.randrange(7)
        self.call(self.receiver.filtered(*words), "filtered", *words)

    def health(self):
        link = self.r.choice([0, 0, 0, 1, 2, 3, WRONG])
        self.call(self.receiver.health(link), "health", link)

    def fill(self):
        words = self.r.choice([0, 0, 0, 1, 2, 3, WRONG]), self.r.choice([0, 0, 1, 1, 2, 3, 32, 256, WRONG])
        self.call(self.receiver.fill(*words), "fill", *words)

    def port_counts(self):
        words = self.r.choice([0, 0, 0, 1, 2, 3, WRONG]), self.r.choice([0, 0, 1, 1, 2, 3, 32, 256, WRONG])
        self.call(self.receiver.port_counts(*words), "port_counts", *words)

    def place(self):
        name = self.name(self.r.random() < 0.5)
        self.call(self.receiver.place(name), "place", hexed(name))

    # ---- the ends

    def slot(self):
        return self.r.randrange(SLOTS) if self.r.random() < 0.05 else self.r.randrange(12)

    def open_slot(self, ends):
        """Mostly a slot in which there is an end."""
        taken = [slot for slot, end in enumerate(ends) if end.port is not None]
        return self.r.choice(taken) if taken and self.r.random() < 0.9 else self.slot()

    def clock(self):
        return max(0, min(2**64 - 1, self.now + self.r.choice([0, 0, 1, 1000, 20000, 20001, 10**10, -5])))

    def length(self):
        return self.r.choice([ENOUGH, 1471, 100, 20, 0, self.r.randrange(300)])

    def read(self):
        slot, now, length = self.open_slot(self.readers), self.clock(), self.length()
        self.call(self.readers[slot].read(now, length), "read", slot, now, length)

    def hold(self):
        slot, now = self.open_slot(self.readers), self.clock()
        self.call(self.readers[slot].hold(now), "hold", slot, now)

    def copy(self):
        slot = self.open_slot(self.readers)
        held = self.readers[slot].held
        size = len(held.octets) if held else 20
        first = self.r.choice([0, 0, self.r.randrange(size + 2), WRONG])
        length = self.r.choice([0, 1, max(0, size - first), self.r.randrange(size + 2)])
        self.call(self.readers[slot].copy(first, length), "copy", slot, first, length)

    def octets(self):
        slot = self.open_slot(self.readers)
        self.call(self.readers[slot].octets(), "octets", slot)

    def release(self):
        slot = self.open_slot(self.readers)
        self.call(self.readers[slot].release(), "release", slot)

    def limits(self):
        slot = self.open_slot(self.readers)
        self.call(self.readers[slot].limits(), "limits", slot)

    def take(self):
        slot = self.open_slot(self.queues)
        port = self.queues[slot].port
        length = self.r.choice([ENOUGH, port.max if port else 0, self.length()])
        self.call(self.queues[slot].take(length), "take", slot, length)

    def waiting(self):
        slot = self.open_slot(self.queues)
        self.call(self.queues[slot].count_waiting(), "waiting", slot)

    def longest(self):
        slot = self.open_slot(self.queues)
        self.call(self.queues[slot].longest(), "longest", slot)

    def chance_of_closing(self):
        if self.r.random() < 0.1:
            self.chosen(self.close_reader, self.close_queue)

    def close_reader(self):
        slot = self.open_slot(self.readers)
        self.readers[slot] = model.Reader()
        self.call((), "close_reader", slot)

    def close_queue(self):
        slot = self.open_slot(self.queues)
        self.queues[slot] = model.Queue()
        self.call((), "close_queue", slot)


def differences(script, output):
    """The first call that answers otherwise than the model, if one does."""
    lines = output.splitlines()
    wanted = [*script.answers, "0 blocks kept"]
    for place, want in enumerate(wanted):
        found = lines[place] if place < len(lines) else "nothing"
        if found != want:
            call = script.calls[place] if place < len(script.calls) else "the end"
            yield f"call {place}, {call[:200]}: {found[:200]!r}, and by the model {want[:200]!r}"
            return
