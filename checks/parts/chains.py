"""What the check of each crate takes, and which chain of crates, each of which uses the one before, takes longest."""
import csv
import os
import re
import resource
import subprocess
import time
from typing import NamedTuple

KIT = "kit"
FIELDS = ("crate", "wall", "processors", "modules", "functions")


class Failed(Exception):
    """A crate isn't proved: what its check printed."""


class Kept(Exception):
    """A check began with what another one kept, so it says nothing."""


class Check(NamedTuple):
    """Seconds of a check by the clock and of the processors, modules that it loaded, and functions of its crate."""
    wall: float
    processors: float
    modules: int
    functions: int


# ---- the measure

def checked(words, folder):
    """What a command takes, and what it loads and proves by its own lines."""
    begun, before = time.monotonic(), resource.getrusage(resource.RUSAGE_CHILDREN)
    done = subprocess.run(words, cwd=folder, stdin=subprocess.DEVNULL, stdout=subprocess.PIPE, stderr=subprocess.STDOUT,
                          text=True, errors="replace")
    wall, after = time.monotonic() - begun, resource.getrusage(resource.RUSAGE_CHILDREN)
    if done.returncode:
        raise Failed(done.stdout)
    if re.search(r"begins with what a check kept", done.stdout):
        raise Kept
    modules = sum(map(int, re.findall(r"modules loaded=(\d+)", done.stdout)))
    functions = re.findall(r"^logic=proved functions=(\d+)", done.stdout, re.M)
    return Check(wall, after.ru_utime + after.ru_stime - before.ru_utime - before.ru_stime, modules,
                 int(functions[-1]) if functions else 0)


def measured(folder, names):
    """Each crate with its check, one after another, after what the kit itself loads once on a machine."""
    for name in (KIT, *names):
        words, at = (["rt", "selftest"], folder) if name == KIT else (["rt", "check"], os.path.join(folder, "crates", name))
        try:
            yield name, checked(words, at)
        except Failed as failed:
            raise Failed(f"{name} isn't proved:\n{failed}") from failed
        except Kept:
            raise Kept(f"the check of {name} began with what another one kept, and a new machine has nothing") from None


def write(path, found):
    with open(path, "w", encoding="utf-8", newline="") as out:
        rows = csv.writer(out, lineterminator="\n")
        rows.writerow(FIELDS)
        for name, it in found.items():
            rows.writerow((name, f"{it.wall:.1f}", f"{it.processors:.1f}", it.modules, it.functions))


def read(path):
    with open(path, encoding="utf-8", newline="") as text:
        return {row["crate"]: Check(float(row["wall"]), float(row["processors"]), int(row["modules"]), int(row["functions"]))
                for row in csv.DictReader(text)}


# ---- chains

def longest_chain(found, below, of=None):
    """The crates that end with one of these, of which each uses the one before, whose checks take longest in sum. Crates come
    after those that they use, as in crates.txt."""
    best = {}
    for name, used in below.items():
        chains = [best[it] for it in used if it in best]
        before = max(chains, key=lambda chain: chain[0], default=(0.0, ()))
        best[name] = (before[0] + found[name].wall, (*before[1], name))
    return max((best[name] for name in of or below), key=lambda chain: chain[0])
