"""What a release tells of itself: its commit, by what it was made, of which sources, what the gate printed, and what carries
each rule."""
import re
import subprocess
from pathlib import Path

from interface import compiler_of
from marks import TARGETS, kit, sum_of
from proving import ROOT, lines_of_crates

# What the gate reads, and what it and a release are made with.
SOURCES = ("HANDLES", "crates.txt", "crates", "wrong_bodies", "checks", ".ci", "build", "bench", "tools", "examples", "peer")
# What carries each rule, and which rules a piece of code carries.
MATRICES = ("TRACEABILITY.csv", "CODE.csv")
# Who makes the objects and the archives, and tells its version in a line.
MAKERS = {**{f"compiler of C for {target}": [*compiler_of(target), "--version"] for target in TARGETS},
          "archiver": ["ar", "--version"], "linker": ["ld", "--version"], "packer of packages": ["dpkg-deb", "--version"],
          "python": ["python3", "--version"]}
SYSTEM = Path("/etc/os-release")
NO_GATE = "Nothing that the gate printed was packed.\n"
PASSED = re.compile(r"^\d+ passed, 0 failed\b", re.M)


class NotOfOneCommit(Exception):
    """Why a release can't say of which commit it is."""


def git(*words):
    return subprocess.run(["git", *words], cwd=ROOT, stdout=subprocess.PIPE, check=True, text=True).stdout


def look_at_commit(gate):
    """A release is of a commit, as it stands; and the gate's output, if there is one, is of that very commit, which passed."""
    if changed := git("status", "--porcelain"):
        raise NotOfOneCommit(f"the tree isn't that of its commit: {changed.splitlines()[0]}")
    commit = git("rev-parse", "HEAD").strip()
    if gate is not None and f"commit {commit}" not in gate.splitlines():
        raise NotOfOneCommit(f"what the gate printed has no line 'commit {commit}', as .ci/run begins")
    if gate is not None and not PASSED.search(gate):
        raise NotOfOneCommit("what the gate printed has no line 'N passed, 0 failed'")


def sums_of_sources():
    """A sum and a name on a line, for each file that the repository lists."""
    names = filter(None, git("ls-files", "-z", *SOURCES).split("\0"))
    return "".join(f"{sum_of((ROOT / name).read_bytes())}  {name}\n" for name in names)


def versions():
    """By what it was made: a line each."""
    for what, words in MAKERS.items():
        try:
            said = subprocess.run(words, stdout=subprocess.PIPE, stderr=subprocess.DEVNULL, text=True).stdout
        except OSError:
            said = "none"
        yield f"{what}: {said.partition(chr(10))[0]}"
    lines = SYSTEM.read_text(encoding="utf-8").splitlines() if SYSTEM.exists() else []
    yield "system: " + next((line.partition("=")[2].strip('"') for line in lines if line.startswith("PRETTY_NAME=")), "unknown")


def index():
    """Each crate with what it stands on, and then the ported libraries, which are those of the toolchain."""
    own = {name: used for name, (_, used) in lines_of_crates().items()}
    ported = sorted({name for used in own.values() for name in used} - set(own))
    yield from (f"crate {name}: {' '.join(used) or '-'}" for name, used in own.items())
    yield from (f"ported {name}: {kit()}" for name in ported)


def evidence(gate=None):
    """The files of the folder `evidence`, by their names. `gate` is what the gate printed."""
    files = {"toolchain": f"{kit()}\n", "commit": git("log", "-1", "--format=%H %cI"), "sources": sums_of_sources(),
             "made-by": "".join(f"{line}\n" for line in versions()), "index": "".join(f"{line}\n" for line in index())}
    files |= {name: (ROOT / "docs" / "made" / name).read_text(encoding="utf-8") for name in MATRICES}
    return {**files, "gate": NO_GATE if gate is None else gate}
