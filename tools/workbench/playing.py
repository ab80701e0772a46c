"""Plays captures of any length, also from a pipe: a line for each frame as it comes, and the report at the end."""
from verdict_words import NETWORKS
from workbench import files, station, stream, told

STATES = "stale", "fresh"


def play(given):
    is_live = "-" in given.files
    played = station.Station(given.config, not given.never_taken,
                            lambda now, end, found: [add(line) for line in lines_of_end(now, end, found)
                                                     if given.link in (None, end.port.vl)], is_brief=False)
    with files.output() as out:
        def add(line, number="-"):
            out.write(f"{number} {line}\n".encode() if given.packets else f"{line}\n".encode())
            if is_live:
                out.flush()

        with stream.opened(given) as found:
            for one, now, reply in station.of_link(given, played, found):
                if reply:
                    add(f"{now} {NETWORKS[one.net]} {reply.words}", one.number)
        found.tell_beginning()
        for line in report(played, played.latest if given.at is None else given.at, given.link):
            add(line)
    return found.status


def lines_of_end(moment, end, found):
    """What an end of a port found at a moment."""
    name = end.port.name
    if end.port.is_sampling:
        return [f"{moment} read {name} {found.number} {max(0, moment - found.time)} {STATES[found.valid]}"]
    return [f"{moment} taken {name} {one.time} {len(one.octets)}{hexed(one)}" for one in found]


def report(played, at, link=None):
    """The player's report, of all or of one link; and after the line of each port what its partition found."""
    for port in played.receiver.ports:
        if link in (None, port.vl):
            end = played.partition and played.partition.ends[port.name]
            yield from (of_sampling if port.is_sampling else of_queuing)(played.receiver, port, end, at)
    for (vl, net), counts in played.receiver.counts().items():
        if link in (None, vl):
            yield " ".join(map(str, ("filtered" if vl is None else f"count {vl}", net, *counts.values())))


def of_sampling(receiver, port, end, at):
    found = (end.reader if end else receiver.reader(port.name)).read(at)
    yield f"port {port.name} sampling " + (
        f"{found.number} {found.time} {len(found.octets)} {STATES[found.valid]}{hexed(found)}" if found else "empty")
    if end:
        about = told.of_port(end, at)
        reads = f" reads {end.reads} missed {end.missed}" if end.period else ""
        yield f"read {port.name} oldest {about['oldest_us']} stale {about['stale']}{reads}"


def of_queuing(receiver, port, end, at):
    found = list(iter((end.taker if end else receiver.taker(port.name)).take, None))
    yield f"port {port.name} queuing {len(found)}"
    for one in found:
        yield f"message {port.name} {one.time} {len(one.octets)}{hexed(one)}"
    if end:
        yield f"took {port.name} {end.taken} most {end.most} oldest {end.oldest} overflow {end.overflows}"


def hexed(message):
    return f" {message.octets.hex()}" if message.octets else ""
