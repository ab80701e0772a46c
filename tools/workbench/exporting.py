"""One record a frame, for spreadsheets and pandas; a configuration as a table in C; captures as the player's traces."""
import csv
import io
import itertools
import json
import os

import c_table
from receiver import Reply
from verdict_words import NETWORKS
from workbench import files, station, stream

COLUMNS = ("packet", "time_us", "epoch_ns", "network", "link", "source", "interface", "sequence", "octets", "place",
           "verdict", "cause", "port", "message")


def export(given):
    played = station.Station(given.config, is_brief=False)
    with files.writing(given.to) as out, stream.opened(given) as packets:
        if given.c_table:
            out.write(c_table.text_of(played.octets).encode())
        else:
            (write_csv if given.csv else write_json)(out, records(station.of_link(given, played, packets)))
    return packets.status


def records(seen):
    """A packet that was left out has the verdict `left-out`, and no time of the receiver's. What isn't a frame of the
    networks has no link and no sequence number; a frame of an unknown link has the networks' constant field."""
    for one, now, reply in seen:
        octets, become = one.octets, reply or Reply("left-out", one.left_out)
        is_frame = become.vl is not None or become.cause == "unknown-link"
        link, sequence = (int.from_bytes(octets[4:6], "big"), octets[-1]) if is_frame else (None, None)
        yield (one.number, now if reply else None, one.time, NETWORKS[one.net], link, octets[6:12].hex(":"),
               stream.interface_of(octets), sequence, len(octets), become.place, become.kind,
               *(word or None for word in (become.cause, become.port, become.number)))


def write_csv(out, found):
    text = io.TextIOWrapper(out, "utf-8", newline="")
    csv.writer(text, lineterminator="\n").writerows(itertools.chain([COLUMNS], found))
    text.detach()


def write_json(out, found):
    """An array, with a line for each record."""
    mark = b"[\n"
    for record in found:
        out.write(mark + json.dumps(dict(zip(COLUMNS, record))).encode())
        mark = b",\n"
    out.write(b"\n]\n" if mark == b",\n" else b"[]\n")


def traces(given):
    """Writes the hex traces that the player takes: FOLDER/a.trace and FOLDER/b.trace."""
    if given.to != "-":
        with files.telling(given.to, "written"):
            os.makedirs(given.to, exist_ok=True)
    a, b = (files.writing(os.devnull if given.network not in (None, net) else "-" if given.to == "-" else
                          os.path.join(given.to, f"{net.lower()}.trace")) for net in NETWORKS)
    with a as of_a, b as of_b, stream.opened(given) as found:
        for one in found:
            if one.left_out:
                found.clock.since(one.time)  # it may be the first
            else:
                (of_a, of_b)[one.net].write(b"%d %s\n" % (found.clock.of(one.net, one.time), one.octets.hex().encode()))
    found.tell_beginning()
    return found.status
