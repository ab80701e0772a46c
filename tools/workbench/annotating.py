"""One capture of both networks in which each packet has its verdict as a comment, and why."""
from verdict_words import NETWORKS, NOT_FORWARDED
from workbench import captures, copies, files, station, stream
from workbench.faults import Fault
from workbench.health import Alone, Health

SAID = {copies.RESET: "the sender began anew", copies.ANEW: "the sender began anew without a 0",
        copies.LATE: "far behind the newest", copies.CUT: "cut on the wire"}


def annotate(given):
    played = station.Station(given.config, is_brief=False)
    found, alone = Health(played), Alone(played.octets) if given.each else None
    with files.writing(given.to) as out, stream.opened(given) as packets:
        out.writelines(blocks(station.of_link(given, played, packets), packets, found, alone))
    return packets.status


def blocks(seen, packets, found, alone):
    yield captures.written_section("yelunnavi")
    for number, net in enumerate(NETWORKS):
        yield captures.written_interface(net, packets.source(number))
    for one, now, reply in seen:
        source = packets.source(one.net)
        if one.time >= stream.MOST_TIME:
            raise Fault(f"{source}: {packets.unit} {one.number}: its time is past what a capture can have")
        told = f"left out: {one.left_out}"
        if reply:
            note = found.see(one, now, reply)
            why = reason(one, note, found.links.get(reply.vl), reply)
            fault = alone and alone.fault(one, now, reply, note)
            told = reply.words + "".join(f", {part}" for part in why) + (f", alone {fault.words}" if fault else "")
        yield captures.written_packet(one.net, one.time, one.octets, one.length,
                                      f"{told} ({packets.unit} {one.number} of {source})")


def reason(one, note, link, reply):
    """Why a frame has its verdict, beside which packets."""
    if not note:
        return
    what, missing, is_overtaken, other, _ = note
    time, packet, was_forwarded, _ = other or (0, 0, False, False)
    delay = (one.time - time) // 1000
    if what == copies.COPY:
        yield f"{delay} us after packet {packet} on {NETWORKS[1 - one.net]}"
        if delay > link.link.skew_max:
            yield "beyond SkewMax"
        if was_forwarded and reply.kind not in NOT_FORWARDED and link.link.redundancy:
            yield "delivered twice"
    elif what == copies.REPEATED:
        yield f"again, {delay} us after packet {packet}"
    if missing:
        yield f"{missing} before it missing"
    if is_overtaken:
        yield "after a later frame"
    if what in SAID:
        yield SAID[what]
