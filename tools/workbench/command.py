"""The command line of `yelunnavi`."""
import argparse
import contextlib
import os
import pkgutil
import re
import signal
import sys

from verdict_words import NETWORKS
from version import version
from workbench import moments
from workbench.faults import NO_MEMORY, NOT_READ, Fault, plain

INPUTS = """\
FILE is a capture (pcap or pcapng) of network A, and a second one of network B;
or one capture with two interfaces, A and B; or one or two hex traces. `-` is the
standard input, and lines come as packets come:
  dumpcap -q -B 64 -N 1000000 -C 268435456 -i eth1 -i eth2 -w - \\
      | yelunnavi play --config C.toml -
With dumpcap's own sizes of its queues packets are lost from some thousands a
second on. Times are in microseconds since the first packet. What isn't played,
and what the capture says was lost, is told on the standard error. Where a file
isn't of its form what came before is played, and the status is 5."""
PARTITIONS = """
By default each queue is emptied at once. take_us at a queuing port and read_us at
a sampling port of the configuration are the periods of a partition that takes and
reads; the receiver passes them over."""
FILTERS = """
Wireshark then shows each verdict beside its packet, and finds it. Two settings
keep it from taking sequence number 0 for padding, and a dissector shows links,
interfaces and sequence numbers:
  wireshark -o eth.padding:Never -o eth.fcs:Never \\
      -X lua_script:tools/wireshark/afdx.lua OUT.pcapng
  tshark .. -r OUT.pcapng \\
      -Y 'afdx.vl == 17 && frame.comment contains "redundant"'"""
AMISS = """
WORDS are words of the report with commas between, each perhaps with the most that
is taken: lost-a=5,twice. The status is 1 if one of them has more; by default any
fault that the screen marks counts."""
MANY = """
With --workers or --scheduler each FILE is a capture of both networks, and
A.pcap,B.pcap one of each; a line is written for each capture and link."""


def number_from(least, most):
    def number(word):
        if not least <= (value := int(word)) <= most:
            raise argparse.ArgumentTypeError(f"{value} isn't {least} to {most}")
        return value
    return number


def two_interfaces(word):
    a, _, b = word.partition(",")
    if not (a.isdecimal() and b.isdecimal() and int(a) != int(b)):
        raise argparse.ArgumentTypeError("not two numbers with a comma between them")
    return int(a), int(b)


def moved(word):
    """Microseconds, and parts per million if they stand after a comma."""
    shift, _, rate = word.partition(",")
    return int(shift), float(rate or 0)


def flag(text):
    return {"action": "store_true", "help": text}


# The words that several commands take, with what argparse is told of each.
CONFIG = {"--config": {"required": True, "metavar": "C.toml", "help": "the receiver's configuration"}}
CAPTURES = {
    "files": {"nargs": "+", "metavar": "FILE", "help": "captures, or traces"},
    "--interfaces": {"type": two_interfaces, "default": (0, 1), "metavar": "A,B",
                     "help": "which interfaces of one capture are A and B (default 0,1)"},
    "--networks": {"choices": ("interface", "source"), "default": "interface",
                   "help": "what tells A from B: the interface, or the source address, for a tap that joins both"},
    "--fcs": {"choices": ("auto", "yes", "no"), "default": "auto",
              "help": "whether frames end with their check sequence (default: as the capture says, or as it is seen)"},
    "--in-a-row": flag("all FILEs are one capture of both networks, one after the other, as dumpcap's rings are"),
    "--from": {"type": moments.moment, "metavar": "WHEN", "dest": "since", "help": "what came before isn't played: "
               "seconds since the first packet (12.5), a time (13:05:00) or a date with a time (2026-11-29T13:05:00), "
               "in UTC"},
    "--until": {"type": moments.moment, "metavar": "WHEN", "help": "nor what came after"},
    "--untag": flag("takes VLAN tags off"),
    "--reorder": {"type": number_from(1, 1_000_000), "default": 1000, "metavar": "PACKETS",
                  "help": "how many later packets may stand before one (default 1000)"},
}
SHIFT = {"--shift-b": {"type": moved, "default": (0, 0), "metavar": "MICROSECONDS[,PPM]", "help": "moves the clock of "
                       "B's packets, and lets it go faster by so many parts per million"}}
PLAYED = {**CONFIG, **CAPTURES, **SHIFT}
LINK = {"--link": {"type": number_from(0, 65535), "metavar": "VL", "help": "one link alone"}}
EACH = {"--each": flag("besides, the faults of each network's own frames, which the other network's copies hide")}
FAILING = {"--fail-on": {"metavar": "WORDS", "help": "what makes the status 1 (default: any fault)"}}


def to(metavar, **more):
    return {"--to": {"metavar": metavar, "help": "what is written; of a file - is the standard output", **more}}


# Each command: the function that does it, what it does, its words, and what its help says besides.
COMMANDS = {
    "play": ("workbench.playing:play", "plays captures: a line a frame, and a report", {
        **PLAYED, **LINK, "--packets": flag("the number of its packet in front of each line, or -"),
        "--at": {"type": number_from(0, 2**63 - 1), "metavar": "MICROSECONDS",
                 "help": "time of the report (default: the latest packet's)"},
        "--never-taken": flag("nobody takes or reads: what the proved player writes"),
    }, (INPUTS, PARTITIONS)),
    "health": ("workbench.summing:health", "says of each link whether its networks are healthy: losses, delays, ages, "
               "and which conditions of docs/DELIVERY.md were kept", {
        **PLAYED, **LINK, "--json": flag("all of it, for programs"), "--csv": flag("a line a link, for spreadsheets"),
        **EACH, **FAILING,
        "--workers": {"type": number_from(1, 1024), "metavar": "N", "help": "many captures, by so many processes"},
        "--scheduler": {"metavar": "ADDRESS", "help": "or by the workers of a scheduler of dask.distributed, which see "
                        "the captures, and these tools, under the same names"},
        **to("OUT", help="the table of many captures (default: -): OUT.csv, or OUT.parquet (by pandas with pyarrow)"),
    }, (INPUTS, PARTITIONS, AMISS, MANY)),
    "watch": ("workbench.watching:watch", "shows the health of two networks live", {
        **CONFIG, "interfaces": {"nargs": 2, "metavar": "INTERFACE", "help": "those of A and B"},
        "--by": {"choices": ("dumpcap", "socket"), "default": "dumpcap", "help": "how packets come: by dumpcap with "
                 "its own rights, or by sockets of this process, which tell each second what the kernel lost"},
        "--seconds": {"type": float, "metavar": "N", "help": "how long (default: until it is ended)"},
        "--json": flag("a line each second in place of the screen"),
        "--prometheus": {"type": number_from(1, 65535), "metavar": "PORT", "help": "counts at this port of 127.0.0.1"},
        **SHIFT, **FAILING,
    }, ("Keys: s sorts, a link's number and Enter shows it, Escape all, q ends.\n", PARTITIONS, AMISS)),
    "annotate": ("workbench.annotating:annotate", "writes one capture of both networks, each packet with its verdict "
                 "as a comment, and why", {
        **PLAYED, **LINK, **to("OUT.pcapng", required=True), **EACH}, (INPUTS, FILTERS)),
    "export": ("workbench.exporting:export", "writes one record a frame, for spreadsheets and pandas", {
        **PLAYED, **LINK, **to("OUT", default="-"), "files": {**CAPTURES["files"], "nargs": "*"},
        "--csv": flag("a table with commas"), "--json": flag("an array, a line for each record"),
        "--c-table": flag("the configuration alone, as a table in C for yelunnavi_receiver_open_table")}, (INPUTS,)),
    "draw": ("drawing.draw:draw", "draws what became of the frames, as a page for a browser", {
        **PLAYED, **to("OUT.html", default="-"), **EACH}, (INPUTS, PARTITIONS)),
    "check": ("workbench.checking:check", "looks for slips in a configuration, and in what captures show of it", {
        "place": {"nargs": "?", "metavar": "C.toml",
                  "help": "the receiver's configuration, if --config doesn't name it"},
        "--config": {**CONFIG["--config"], "required": False}, **CAPTURES, **SHIFT,
        "files": {**CAPTURES["files"], "nargs": "*"},
    }, ("A slip is a line FILE:LINE: TEXT. The status is 1 if there is any,\n5 if a file isn't of its form.",)),
    "propose": ("workbench.proposing:propose", "writes a configuration by what captures show, with the evidence of "
                "each value as a comment", {**CAPTURES, **SHIFT, **to("C.toml", default="-")}, (INPUTS,)),
    "traces": ("workbench.exporting:traces", "writes captures as hex traces, which the proved player takes: "
               "FOLDER/a.trace and FOLDER/b.trace", {
        **CAPTURES, **SHIFT,
        **to("FOLDER", required=True, help="where they are written; - is the standard output, of one network"),
        "--network": {"choices": tuple(NETWORKS), "help": "one alone"}}, (INPUTS,)),
}


def words(told_version):
    parser = argparse.ArgumentParser(prog="yelunnavi", allow_abbrev=False, description="Plays captures of two AFDX "
                                     "networks with the proved receiver: what became of each frame, and whether the "
                                     "networks are healthy.")
    parser.add_argument("--version", action="version", version=f"%(prog)s {told_version}",
                        help="tell the version, and end")
    commands = parser.add_subparsers(metavar="COMMAND", required=True)
    for name, (function, text, own, rest) in COMMANDS.items():
        command = commands.add_parser(name, help=text, description=f"{text[0].upper()}{text[1:]}.",
                                      epilog="\n".join(rest), allow_abbrev=False,
                                      formatter_class=argparse.RawDescriptionHelpFormatter)
        command._negative_number_matcher = re.compile("-[0-9][0-9.,-]*$")  # a shift with its rate is no word by itself
        for word, about in own.items():
            command.add_argument(word, **about)
        command.set_defaults(function=function)
    return parser


def look_at(parser, given):
    """Refuses words that don't go together."""
    names = getattr(given, "files", [])
    is_many = getattr(given, "workers", None) or getattr(given, "scheduler", None)
    if not is_many and not getattr(given, "in_a_row", False) and len(names) > 2 or names.count("-") > 1:
        parser.error("one capture or trace, or two; or with --in-a-row those of one capture")
    if is_many and ("-" in names or given.json or given.csv or given.link is not None):
        parser.error("many captures are files, and make a table: without --json, --csv and --link")
    if hasattr(given, "workers") and given.json + given.csv + (given.link is not None) > 1:
        parser.error("one form: --link, --json or --csv")
    if not is_many and getattr(given, "workers", 0) is None and given.to:
        parser.error("--to is for --workers or --scheduler")
    if hasattr(given, "place"):
        given.files = [*(filter(None, [given.place]) if given.config else []), *given.files]
        given.config = given.config or given.place or parser.error("the configuration: C.toml, or --config C.toml")
    if hasattr(given, "network") and given.to == "-" and not given.network:
        parser.error("the standard output takes the trace of one network: --network A or B")
    if hasattr(given, "c_table") and (given.csv + given.json + given.c_table != 1 or given.c_table == bool(names)):
        parser.error("export takes --csv or --json with captures, or --c-table with none")
    given.fcs = {"auto": None, "yes": True, "no": False}[getattr(given, "fcs", "auto")]
    given.untag, given.networks = getattr(given, "untag", False), getattr(given, "networks", "interface")


def main(arguments):
    for number in (signal.SIGINT, signal.SIGTERM, signal.SIGHUP):  # the run ends as a shell shows it
        signal.signal(number, lambda number, _: sys.exit(128 + number))
    try:
        parser = words(version() if "--version" in arguments else "")
        given = parser.parse_args(arguments)
        look_at(parser, given)
        return pkgutil.resolve_name(given.function)(given) or 0
    except Fault as fault:
        status, line = fault.status, str(fault)
    except MemoryError:
        status, line = NO_MEMORY, "out of memory"
    except OSError as error:
        name = f"{error.filename}: " if error.filename else ""
        status, line = NOT_READ, plain(f"{name}{error.strerror or error}")
    except Exception as error:
        status, line = NOT_READ, plain(f"a fault of this tool itself: {type(error).__name__}: {error}")
    with contextlib.suppress(OSError):
        os.write(2, f"yelunnavi: {line}\n".encode())
    return status
