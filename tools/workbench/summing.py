"""The health of captures: a line a link, one link, or all of it for programs; and the exit status."""
import json
import os
import sys

from workbench import files, screen_text, station, stream, told
from workbench.faults import REFUSED, WRONG_WORDS, Fault
from workbench.health import Alone, Health

BROKEN_OFF = "not of its form from some place on"


def health(given):
    most = told.wanted(given.fail_on)
    if given.workers or given.scheduler:
        from workbench import sharing
        return sharing.health(given, most)
    found, status = summed(given)
    if given.csv:
        from workbench import sharing
        sharing.write("-", list(sharing.records(given.files, found)))
    with files.output() as out:
        out.writelines(f"{line}\n".encode() for line in shown(found, given))
    failed = list(told.failures(found, most))
    for line in failed if given.fail_on is not None else ():
        print(f"yelunnavi: {line}", file=sys.stderr)
    return status or (REFUSED if failed else 0)


def summed(given):
    """The health of a capture or a pair of them, as plain data, and the status of their files."""
    played = station.Station(given.config)
    found, alone = Health(played), Alone(played.octets) if given.each else None
    with stream.opened(given) as packets:
        for one, now, reply in played.seen(packets):
            note = found.see(one, now, reply)
            if alone and reply and reply.vl is not None and (fault := alone.fault(one, now, reply, note)):
                found.links[reply.vl].hidden[one.net][f"{fault.kind} {fault.cause}".rstrip()] += 1
    found.finish(played.latest, packets.shift.found())
    for hint in found.hints():
        print(f"yelunnavi: {hint}", file=sys.stderr)
    lost, others = lost_by_tap(packets), beside(packets.accounts)
    return told.of_all(found, played.partition, played.latest, lost, others), packets.status


def lost_by_tap(packets):
    """The packets that the tap lost: of each network, or of both where the source address tells them; or none."""
    found = [sum(account.lost.values()) for account in packets.accounts]
    if len(found) == 1 and packets.interfaces:
        found = [packets.accounts[0].lost[one] for one in packets.interfaces]
    return found if any(found) else None


def beside(accounts):
    """What of the files is of neither network, with its first packet: packets of other interfaces, those that an end
    cuts, and files that aren't of their form up to it."""
    for account in accounts:
        yield from ((f"of interface {interface}", *other) for interface, other in account.others.items())
        torn = account.left_out.get(stream.TORN)
        yield stream.TORN, account.counts[stream.TORN], torn and str(torn[0])
        yield BROKEN_OFF, int(bool(account.broken)), None


def shown(found, given):
    if given.csv:
        return []
    if given.json:
        return [json.dumps(found)]
    if given.link is None:
        return screen_text.lines(found, os.get_terminal_size(1).columns if os.isatty(1) else None)
    for link in found["links"]:
        if link["vl"] == given.link:
            return [*screen_text.lines_of_link(link), *screen_text.lines_beside(found)]
    raise Fault(f"{given.config} has no link {given.link}", WRONG_WORDS)
