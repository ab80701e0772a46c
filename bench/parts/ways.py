"""How each program is run once it is built: its words, its standard input, and what becomes of its output."""
import functools
import os
import subprocess
import sys
import tempfile
from typing import NamedTuple

from parts.peer import PROFILES, compiled, generated


class Refused(Exception):
    """Words that a program can't be run with."""


def ask_nothing(words):
    if words:
        raise Refused("it takes no words")
    return []


def ask_number(words, otherwise):
    """The number that a program is asked for, or what it is asked for without one."""
    if len(words) > 1 or words and not (words[0].isdecimal() and int(words[0])):
        raise Refused("it takes a number above 0, or nothing")
    return [int(words[0]) if words else otherwise]


def ask_traces(words):
    frames, *profiles = words or [1_000_000]
    if set(profiles) - set(PROFILES):
        raise Refused(f"the profiles are {', '.join(PROFILES)}")
    return [*ask_number([str(frames)], 0), profiles or PROFILES]


def start(program, given="", folder=None, seconds=None):
    """Runs a program on this standard input. Returns its status, or 124 if it took longer."""
    sys.stdout.flush()
    try:
        status = subprocess.run([program], input=given.encode(), cwd=folder, timeout=seconds).returncode
    except subprocess.TimeoutExpired:
        return 124
    return status if status >= 0 else 128 - status


def print_load():
    load = " ".join(f"{each:.2f}" for each in os.getloadavg())
    print(f"load of the machine: {load}, on {len(os.sched_getaffinity(0))} processors", flush=True)


def queue(program):
    return max(start(program) for _ in range(5))


def link_reads(program):
    print("octets readers ns/frame ns/2 reads | reads of 1, 2, .. 8 tries, of more | Busy after 8")
    return start(program)


def link_takes(program, frames, profiles):
    status = 0
    for profile in profiles:
        with tempfile.TemporaryDirectory() as folder:
            generated(folder, profile, frames)
            print(f"{profile}, {frames} frames")
            status = max(status, start(program, folder=folder))
    return status


def deliveries(program):
    print("datagrams that wait, ns/deliveries, ns/take_epoch")
    return start(program)


def one_task(program):
    return start(program)


def epochs(program, links):
    return start(program, f"{links}\n")


def system(program, runs):
    print_load()
    status = start(program, f"{runs}\n")
    print_load()
    return status


def stress(program, seconds):
    print_load()
    status = start(program, f"{seconds}\n", seconds=3 * seconds + 60)
    print_load()
    return status


def three_roofs(program, runs):
    return start(program, f"{runs}\n")


RECEIVES = ["verdicts", "ports", "longest"]


def ask_receives(words):
    if set(words) - set(RECEIVES):
        raise Refused(f"its words are {', '.join(RECEIVES)}")
    return [words or RECEIVES]


def receives(program, parts):
    status = 0
    for part in parts:
        print_load()
        status = max(status, start(program, f"{part}\n"))
    print_load()
    return status


# ---- a port beside one in C

BESIDE = [1, 4, 8]


def least_in_c(folder):
    """Picoseconds of a publication and of a read in C, by the octets and the readers beside."""
    peer = compiled(folder, "port_peer", "-pthread")
    found = {}
    for beside in BESIDE:
        done = subprocess.run([peer, "200", "5", str(beside)], stdout=subprocess.PIPE, text=True, check=True)
        for port, octets, readers, publish, read, *_ in map(str.split, done.stdout.splitlines()):
            if port == "slots":
                times = (1000 * float(publish), 1000 * float(read))
                key = int(octets), int(readers)
                found[key] = tuple(map(min, times, found.get(key, times)))
    return found


def print_ports(ours, theirs):
    print("octets  readers  publish  in C  read  in C")
    for octets, readers, publish, read in ours:
        c_publish, c_read = theirs[octets, readers]
        times = "".join(f" {time / 1000:8.1f}" for time in (publish, c_publish, read, c_read))
        more = "" if readers else f"   {publish / c_publish:.2f} {read / c_read:.2f} of C"
        print(f"{octets:6} {readers:8}{times}{more}")


def port(program):
    done = subprocess.run([program], stdout=subprocess.PIPE, text=True)
    if done.returncode == 0:
        with tempfile.TemporaryDirectory() as folder:
            theirs = least_in_c(folder)
        print_ports([tuple(map(int, line.split())) for line in done.stdout.splitlines()], theirs)
    return done.returncode


# ---- a system that keeps no frame, by one thread and by two

class Like(NamedTuple):
    """How many links there are, how many frames come to each in a row, 0 if all are smallest, and how often all are given."""
    links: int
    row: int
    sizes: int
    rounds: int


LIVE = [
    Like(64, 1, 1, 80), Like(64, 4, 1, 80), Like(64, 32, 1, 80), Like(64, 1, 0, 80), Like(64, 32, 0, 80),
    Like(1, 32, 1, 80), Like(1, 32, 0, 80),
]
# The ways in which frames are given, each with the number of groups in which the links stand; by as many as there are links.
EACH = 64
LIVE_WAYS = [("task", EACH), ("one", EACH), ("one_bursts", EACH), ("two", EACH), ("two_bursts", EACH), ("one_bursts", 2),
             ("two", 2), ("two_bursts", 2), ("two_bursts", 4), ("two_bursts", 8)]
# Some of these, of a million calls.
LIVE_LONGEST = [Like(64, 1, 1, 8), Like(64, 1, 0, 8), Like(1, 32, 1, 8)]


class Ran(NamedTuple):
    """Nanoseconds of a run by the clock of its program and of the processors, its frames, and its memory in KiB."""
    wall: int
    processors: float
    frames: int
    published: int
    memory: int


def ran(program, *words):
    with subprocess.Popen([program], stdin=subprocess.PIPE, stdout=subprocess.PIPE, text=True) as child:
        child.stdin.write(" ".join(map(str, words)))
        child.stdin.close()
        told = child.stdout.read()
        _, status, used = os.wait4(child.pid, 0)
        child.returncode = os.waitstatus_to_exitcode(status)
    if child.returncode:
        sys.exit(f"bench/run: live ended with status {child.returncode}")
    wall, frames, published = map(int, told.split())
    return Ran(wall, 1e9 * (used.ru_utime + used.ru_stime), frames, published, used.ru_maxrss)


def least_of(program, like, turns):
    """By its way and groups the least of so many turns: wall and processor time of a frame, and its share of published ones."""
    found = {}
    idle = min(ran(program, "one", *like[:3], 0, EACH).processors for _ in range(turns))
    for _ in range(turns):
        for way in LIVE_WAYS if like.links > 1 else LIVE_WAYS[:5]:
            run = ran(program, way[0], *like, way[1])
            times = run.wall / run.frames, (run.processors - idle) / run.frames
            found[way] = *map(min, times, found.get(way, times)), run.published / run.frames, run.memory / 1024
    return found


def named(like):
    sizes = "of many sizes" if like.sizes else "the smallest"
    return f"{like.links} links, {like.row} in a row, {sizes}"


def shown_groups(groups):
    return "" if groups == EACH else f", {groups} groups"


def print_live_longest(program):
    print("single calls of two threads, a million of them: ns; the longest, and how many above 2,500, by the least of 4 passes")
    print(f"{'':50}{'mean':>10}{'longest':>10}{'above':>8}{'the longest of all passes':>28}", flush=True)
    for like in LIVE_LONGEST:
        for groups in (EACH, 2) if like.links > 1 else (EACH,):
            words = " ".join(map(str, ("longest", *like, groups)))
            told = subprocess.run([program], input=words, stdout=subprocess.PIPE, text=True, check=True).stdout
            mean, longest, above, of_all = told.split()
            print(f"{named(like) + shown_groups(groups):50}{mean:>10}{longest:>10}{above:>8}{of_all:>28}", flush=True)


def live(program, turns):
    print_load()
    for like in LIVE:
        found = least_of(program, like, turns)
        wall, used = found["one", EACH][:2]
        print(f"{named(like)}: ns a frame, of the processors; over one thread; published; MiB")
        for (way, groups), (each, by, published, memory) in found.items():
            print(f"{way + shown_groups(groups):22} {each:7.1f} {by:7.1f}  {each / wall:.2f} {by / used:.2f}  {published:.3f}  {memory:.0f}", flush=True)
    print_live_longest(program)
    print_load()
    return 0


# How the words of each program are read, and how it is run with what they say.
WAYS = {
    "queue": (ask_nothing, queue),
    "port": (ask_nothing, port),
    "link_reads": (ask_nothing, link_reads),
    "link_takes": (ask_traces, link_takes),
    "deliveries": (ask_nothing, deliveries),
    "one_task": (ask_nothing, one_task),
    "epochs": (functools.partial(ask_number, otherwise=10_000), epochs),
    "system": (functools.partial(ask_number, otherwise=1_000), system),
    "three_roofs": (functools.partial(ask_number, otherwise=100), three_roofs),
    "receives": (ask_receives, receives),
    "stress": (functools.partial(ask_number, otherwise=60), stress),
    "live": (functools.partial(ask_number, otherwise=5), live),
}


def way_of(name, words):
    """How a program is run with these words, once there is its path."""
    ask, way = WAYS[name]
    given = ask(words)
    return lambda program: way(program, *given)
