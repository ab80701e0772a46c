"""Proves crates with all that they stand on: for `./build`, and for the checks that need crates proved.

It works in a folder of its own below ~/.cache/yelunnavi (or XDG_CACHE_HOME), with copies of these crates alone, since the
toolchain proves crates side by side only if it is told of all of them, tests included. The folder keeps what was proved,
so only what a change touches is proved again; crates that aren't of this build wait beside it. A line on standard error
says how far it is.
"""
import os
import re
import shutil
import subprocess
import sys
import time
from pathlib import Path

ROOT = Path(__file__).resolve().parent.parent
PROGRAM = "afdx_play"
KILOBYTES_OF_A_CHECK = 4_000_000
LINES_OF_A_FAILURE = 30


def say(text):
    print(f"{Path(sys.argv[0]).stem}: {text}", file=sys.stderr, flush=True)


def build_folder(name):
    """Where the copies for a purpose of this name stand, with what was proved of them."""
    cache = os.environ.get("XDG_CACHE_HOME") or Path.home() / ".cache"
    return Path(cache) / "yelunnavi" / name


# ---- the crates

def lines_of_crates():
    """The lines of crates.txt by their crate, each with the crates and libraries that it names."""
    found = {}
    for line in (ROOT / "crates.txt").read_text(encoding="utf-8").splitlines():
        if line and not line.startswith("#"):
            name, _, used = line.partition(":")
            found[name.split()[0]] = (line, used.split())
    return found


def with_those_below(names):
    """These crates and all that they stand on, in the order of crates.txt."""
    lines, found, waiting = lines_of_crates(), set(), list(names)
    while waiting:
        name = waiting.pop()
        if name in lines and name not in found:
            found.add(name)
            waiting += lines[name][1]
    return [name for name in lines if name in found]


def copy_changed(source, copy):
    """Makes a folder's copy like it, and leaves alone each file that is the same."""
    copy.mkdir(parents=True, exist_ok=True)
    names = {path.name for path in source.iterdir()}
    for path in copy.iterdir():
        if path.name not in names:
            shutil.rmtree(path) if path.is_dir() else path.unlink()
    for path in source.iterdir():
        to = copy / path.name
        if path.is_dir():
            copy_changed(path, to)
        elif not to.exists() or to.read_bytes() != path.read_bytes():
            shutil.copyfile(path, to)


def set_aside(folder, wanted):
    """Moves crates that aren't wanted out of a folder, with what was proved of them, and those that are back into it."""
    crates, aside = folder / "crates", folder.with_name(f"{folder.name}.aside")
    crates.mkdir(parents=True, exist_ok=True)
    aside.mkdir(exist_ok=True)
    for crate in set(crates.iterdir()) - {crates / name for name in wanted}:
        shutil.rmtree(aside / crate.name, ignore_errors=True)
        crate.rename(aside / crate.name)
    for name in wanted:
        if (aside / name).exists() and not (crates / name).exists():
            (aside / name).rename(crates / name)


def lay_crates(folder, names):
    """Lays copies of these crates and of all that they stand on, as a repository of its own."""
    wanted, lines = with_those_below(names), lines_of_crates()
    set_aside(folder, wanted)
    for name in wanted:
        for part in ("src", "specs", "proofs"):
            if (ROOT / "crates" / name / part).exists():
                copy_changed(ROOT / "crates" / name / part, folder / "crates" / name / part)
            else:
                shutil.rmtree(folder / "crates" / name / part, ignore_errors=True)
    (folder / "crates.txt").write_text("".join(f"{lines[name][0]}\n" for name in wanted), encoding="utf-8")
    shutil.copyfile(ROOT / "HANDLES", folder / "HANDLES")
    # The toolchain takes the nearest folder with a repository as the top.
    subprocess.run(["git", "init", "-q"], cwd=folder, check=True)
    return wanted


# ---- proving

def side_by_side():
    """How many checks fit the machine: one a processor, as many as memory holds."""
    free = int(re.search(r"MemAvailable:\s+(\d+)", Path("/proc/meminfo").read_text(encoding="ascii"))[1])
    return max(1, min(len(os.sched_getaffinity(0)), free // KILOBYTES_OF_A_CHECK))


def prove_crates(folder, count, jobs):
    """Proves all crates of a folder, with a line for each. Returns the whole report if one isn't proved, else None."""
    words = ["rt", "all", "check", "--jobs", str(jobs)]
    begun, done, report = time.monotonic(), 0, []
    with subprocess.Popen(words, cwd=folder, stdin=subprocess.DEVNULL, stdout=subprocess.PIPE,
                          stderr=subprocess.STDOUT, text=True) as running:
        for line in running.stdout:
            report.append(line)
            if line.startswith("== ") and done < count:
                done += 1
                say(f"{done} of {count} crates, {int(time.monotonic() - begun) // 60} min: {line[3:].strip()}")
    return "".join(report) if running.returncode else None
