"""What there is to run: the programs of programs.txt, what they use, and the scripts."""
import os
import sys

BENCH = os.path.dirname(os.path.dirname(os.path.realpath(__file__)))
TREE = os.path.dirname(BENCH)
PARTS = ["src", "specs", "proofs"]

# The scripts import words of the tools, whose folder stays as it is.
sys.path.append(os.path.join(TREE, "tools"))
sys.dont_write_bytecode = True


def lines_of(path):
    """The lines of a file in the form of crates.txt: each name, and what it uses."""
    with open(path, encoding="utf-8") as file:
        lines = [line.partition("#")[0].partition(":") for line in file]
    return {name.split()[0]: uses.split() for name, _, uses in lines if name.strip()}


PROGRAMS = lines_of(os.path.join(BENCH, "programs.txt"))
CRATES = lines_of(os.path.join(TREE, "crates.txt"))


def scripts():
    """The scripts beside `run`, and where they stand."""
    paths = {name: os.path.join(BENCH, name) for name in sorted(os.listdir(BENCH)) if name != "run"}
    return {name: path for name, path in paths.items() if os.path.isfile(path) and os.access(path, os.X_OK)}


def head_of(name):
    """What the head comment of a program or of a script says."""
    if name in PROGRAMS:
        with open(os.path.join(BENCH, name, "src", "main.rt.in"), encoding="utf-8") as file:
            return "".join(line[3:].removeprefix(" ") for line in file if line.startswith("//!"))
    with open(scripts()[name], encoding="utf-8") as file:
        return file.read().split('"""')[1]


def below(names):
    """The crates of the tree among these, each after those that it stands on."""
    found = []
    for name in names:
        if name in CRATES:
            found += [each for each in [*below(CRATES[name]), name] if each not in found]
    return found


def line_of(name):
    """The line of a crate or of a program in the crates.txt that it is built by."""
    uses = PROGRAMS[name] if name in PROGRAMS else CRATES[name]
    return f"{name}: {' '.join(use for use in uses if not use.startswith('shared/'))}\n"


def files_below(folder):
    """The files that a crate is made from."""
    walks = [walk for part in PARTS for walk in os.walk(os.path.join(folder, part))]
    return sorted(os.path.join(at, name) for at, _, names in walks for name in names)


def sources_of_crate(name):
    """Where each file of a crate of the tree is to stand, and where it stands."""
    return {os.path.relpath(path, TREE): path for path in files_below(os.path.join(TREE, "crates", name))}


def sources_of_program(name):
    """Where each file of a program is to stand, and where it stands. Some are empty."""
    folder = os.path.join(BENCH, name)
    found = {os.path.relpath(path, folder): path for path in files_below(folder)}
    shared = [use for use in PROGRAMS[name] if use.startswith("shared/")]
    found |= {f"src/{os.path.basename(use)}.rt.in": os.path.join(BENCH, f"{use}.rt.in") for use in shared}
    for part in ["specs", "proofs"] if os.path.isdir(os.path.join(folder, "proofs")) else ["specs"]:
        found.setdefault(f"{part}/Lib.antt.in", os.devnull)
    return {os.path.join("crates", name, place.removesuffix(".in")): path for place, path in found.items()}
