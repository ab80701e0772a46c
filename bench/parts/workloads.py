"""Two builds beside each other: each workload is run by turns in two checkouts, and their outputs have to be the same."""
import os
import statistics
import subprocess
import sys
import time
from typing import NamedTuple

from parts.programs import BENCH

TURNS = 9
SEED = "1"
# What the workloads are, in a tree.
SOURCES = ["bench/workloads.txt", "crates/workloads/src"]


class Workload(NamedTuple):
    """A line of workloads.txt: its name, the crate of its program, the words, and a file for the standard input."""
    name: str
    crate: str
    words: list
    given: str


def workload_of(line):
    name, crate, *words = line.split()
    given = words.pop()[1:] if words and words[-1].startswith("<") else os.devnull
    return Workload(name, crate, words, given)


def workloads():
    with open(os.path.join(BENCH, "workloads.txt"), encoding="utf-8") as file:
        return [workload_of(line) for line in file if line.strip() and not line.startswith("#")]


def is_seed(word):
    """Whether a word is a number below 2^32."""
    digits = word.lstrip("0")[:11]
    return word.isascii() and word.isdigit() and int(digits or 0) < 2 ** 32


def files_of(tree):
    """The files of a tree that say what the workloads are, by their paths in it."""
    paths = []
    for source in SOURCES:
        path = os.path.join(tree, source)
        if os.path.isfile(path):
            paths.append(source)
        for folder, _, names in os.walk(path):
            paths += [os.path.relpath(os.path.join(folder, name), tree) for name in names]
    found = {}
    for path in paths:
        with open(os.path.join(tree, path), "rb") as file:
            found[path] = file.read()
    return found


def differing(old, new):
    """The files of the workloads that read otherwise in two trees, or stand in one of them alone."""
    was, now = files_of(old), files_of(new)
    return sorted(path for path in {*was, *now} if was.get(path) != now.get(path))


def program_of(tree, workload):
    path = os.path.join(tree, "crates", workload.crate, "out", workload.crate)
    if not os.access(path, os.X_OK):
        sys.exit(f"bench/run: {path} isn't built: `rt run` in its crate's folder builds it")
    return path


def run(program, tree, workload, seed):
    """One run: its seconds, those of the processors, and what it printed."""
    words = [seed if word == "SEED" else word for word in workload.words]
    before = os.times()
    start = time.perf_counter()
    with open(os.path.join(tree, "bench", workload.given), "rb") as given:
        ended = subprocess.run([program, *words], cwd=os.path.join(tree, "bench"), stdin=given,
                               stdout=subprocess.PIPE, check=False)
    seconds = time.perf_counter() - start
    after = os.times()
    if ended.returncode:
        sys.exit(f"bench/run: {workload.name} ended with status {ended.returncode} in {tree}")
    used = after.children_user + after.children_system - before.children_user - before.children_system
    return seconds, used, ended.stdout


def compare(old, new, workload, seed):
    """The medians of both checkouts, of seconds and of those of the processors."""
    trees = [old, new]
    programs = [program_of(tree, workload) for tree in trees]
    runs = [[], []]
    for turn in range(TURNS):
        for place in (0, 1) if turn % 2 == 0 else (1, 0):
            runs[place].append(run(programs[place], trees[place], workload, seed))
        if runs[0][-1][2] != runs[1][-1][2]:
            sys.exit(f"bench/run: the outputs of {workload.name} differ: {runs[0][-1][2]!r} and {runs[1][-1][2]!r}")
    return [[statistics.median(each[kind] for each in some) for some in runs] for kind in (0, 1)]


def beside(old, new, seed):
    """Prints a row for each workload, and before that which files of the workloads aren't the same in both trees."""
    old, new = os.path.realpath(old), os.path.realpath(new)
    others = differing(old, new)
    if others:
        print(f"The workloads of the two trees read otherwise: {', '.join(others)}", flush=True)
    print("| workload | seconds at the start | seconds now | start over now | of the processors: start | now | start over now |")
    print("|---|---|---|---|---|---|---|")
    for workload in workloads():
        (was, now), (used, uses) = compare(old, new, workload, seed)
        print(f"| {workload.name} | {was:.3f} | {now:.3f} | {was / now:.2f} | {used:.3f} | {uses:.3f} | {used / uses:.2f} |",
              flush=True)
    return 0
