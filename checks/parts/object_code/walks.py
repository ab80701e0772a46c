"""Calls in the words of checks/parts/drive.c that a search for long ones begins with and changes: frames, states and
calls by chance."""
from parts import fuzz_cases
from parts.driven import ENOUGH, WRONG, hexed
from parts.fuzz_cases import fragments_of, frame_of, frames_for, mutant, tables_of, text_of

# The ends that drive.c has room for, and the calls of a walk.
SLOTS, CALLS = 64, 160
CLOSED = ["close", *(f"close_{end} {slot}" for slot in range(SLOTS) for end in ("reader", "queue"))]


def port_of(r, link, place, kind):
    port = {"name": f"p{link}-{place}", "address": f"224.224.{link}.1", "udp": 5000 + place, "kind": kind}
    limits = {"refresh_us": 1000} if kind == "sampling" else {"depth": r.choice([1, 4, 64])}
    return {**port, "max": 1471 if kind == "sampling" else 8192, **limits}


def links_of(r):
    """A few links, or as many as may be, of one port or of as many as may be."""
    links, ports = r.choice([(1, 32), (1, 32), (1, 2), (3, 5), (2, 32), (64, 1)]) if r.random() < 0.97 else (64, 32)
    kinds = r.choice([["sampling"], ["queuing"], ["sampling", "queuing"]])
    return [{"vl": number, "skew_max_us": 10**6, "reassembly_us": 10**7, "redundancy": r.random() < 0.5,
             "port": [port_of(r, number, place, kinds[(place + 1) % len(kinds)]) for place in range(ports)]}
            for number in range(links)]


def largest_of(r, link):
    """A datagram of the most octets for a port at the end, in pieces of all sizes, perhaps with gaps and in no
    order."""
    port = r.choice([link["port"][-1], r.choice(link["port"])])
    size = r.choice([8192, 8192, 8184, 8193, 4000, 1471])
    whole = fuzz_cases.datagram(r, port, size)
    most = r.choice([8, 64, 736, 1472, 1472, 1472])
    pieces = [(start // 8 | (0x2000 if start + most < len(whole) else 0), whole[start:start + most])
              for start in range(0, len(whole), most)]
    order = r.choice(["in order", "first at the end", "from the end", "every other", "any"])
    if order == "first at the end":
        pieces.append(pieces.pop(0))
    elif order == "from the end":
        pieces.reverse()
    elif order == "every other":
        pieces = pieces[1::2] + pieces[::2]
    elif order == "any":
        r.shuffle(pieces)
    ident = r.randrange(6)
    for word, octets in pieces[:CALLS] if len(pieces) < CALLS else [*pieces[:CALLS // 2], *pieces[-CALLS // 2:]]:
        yield frame_of(link, port["address"], ident, word, octets)


class Walk:
    """Calls one after another, from an opening on."""

    def __init__(self, calls):
        self.calls = calls

    def changed(self, r, others):
        """Another walk, by a change or a few: calls left out, repeated, exchanged or taken from another, and frames
        changed."""
        calls = list(self.calls)
        for _ in range(r.choice([1, 1, 2, 4])):
            at = r.randrange(1, len(calls)) if len(calls) > 1 else 0
            to = min(len(calls), at + r.choice([1, 1, 1, 5, 20]))
            kind = r.randrange(6)
            if kind == 0 and len(calls) > 2:
                del calls[at:to]
            elif kind == 1:
                calls[at:at] = calls[at:to]
            elif kind == 2:
                piece = calls[at:to]
                r.shuffle(piece)
                calls[at:to] = piece
            elif kind == 3:
                other = r.choice(others).calls[1:]
                start = r.randrange(len(other) or 1)
                calls[at + 1:at + 1] = other[start:start + r.choice([1, 3, 10])]
            else:
                calls[at] = changed_call(r, calls[at])
        return Walk(calls[:4 * CALLS])


def changed_call(r, call):
    """A frame that is changed, or another moment or length."""
    words = call.split()
    if words[0] == "receive" and words[3] != "-" and r.random() < 0.7:
        words[3] = hexed(mutant(r, bytes.fromhex(words[3]))[:1600])
    elif words[0] == "receive":
        later = r.choice([-1000, -1, 1, 1000, 10**6, 10**7])
        words[1], words[2] = str(r.choice([0, 1])), str(max(0, int(words[2]) + later))
    elif words[0] in ("read", "take", "copy"):
        words[-1] = str(r.choice([0, 1, 100, 1471, ENOUGH]))
    return " ".join(words)


def walk_of(r):
    """A walk by chance: the links, the ends of their ports, and frames with calls between them."""
    links, net = links_of(r), 0
    calls = [f"open {r.choice([1, 8, 8])} {hexed(text_of(list(tables_of(links))).encode())}"]
    ports = [port for link in links for port in link["port"]]
    chosen = [*ports[-8:], *r.sample(ports, min(len(ports), 24))]
    for slot, port in enumerate(chosen[:SLOTS]):
        end = "reader" if port["kind"] == "sampling" else "queue"
        calls.append(f"hand_{end} {slot} {hexed(port['name'].encode())}")
    now, number = 0, 0
    while len(calls) < CALLS + len(chosen):
        link = r.choice([links[-1], links[-1], r.choice(links)])
        bodies = r.choice([largest_of, largest_of, fragments_of, frames_for])(r, link)
        for body in bodies:
            now, number = now + r.choice([0, 1, 10, 500]), number % 255 + 1
            for net in r.choice([(0,), (0,), (0, 1)]):
                calls.append(f"receive {net} {now} {hexed(body + bytes([number]))}")
            if r.random() < 0.3:
                calls.append(between(r, links, chosen, now))
    return Walk(calls)


def between(r, links, chosen, now):
    """A call that isn't a frame's."""
    slot, length, link = r.randrange(len(chosen)), r.choice([ENOUGH, 1471, 100]), r.choice([0, len(links) - 1, WRONG])
    port = len(links[0]["port"]) - 1
    name = hexed(r.choice(chosen)["name"].encode())
    net, kind = r.choice([0, 1, 2]), r.randrange(1, 14)
    of_ends = [f"read {slot} {now} {length}", f"hold {slot} {now}", f"copy {slot} 0 {length}", f"octets {slot}",
               f"release {slot}", f"take {slot} {ENOUGH}", f"take {slot} {length}", f"limits {slot}", f"longest {slot}"]
    told = [f"count {link} {net} {kind}", f"filtered {net} {kind}", f"place {name}", "links", f"link {link}",
            f"port {link} {port}", f"port_counts {link} {port}", f"fill {link} {port}", f"health {link}"]
    handed = [f"hand_{end} {SLOTS - 1} {name}" for end in ("reader", "queue")]
    return r.choice([*of_ends, *told, *handed, f"close_reader {slot}", f"close_queue {slot}"])
