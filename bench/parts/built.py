"""The folder that the programs are built in: copies of them and of the crates below them. It is kept from call to call,
so that only what has changed is proved again."""
import contextlib
import fcntl
import hashlib
import os
import shutil
import subprocess
import sys

from parts.programs import PROGRAMS, TREE, below, files_below, line_of, sources_of_crate, sources_of_program

CACHE = os.path.join(os.environ.get("XDG_CACHE_HOME") or os.path.expanduser("~/.cache"), "yelunnavi-bench")


@contextlib.contextmanager
def alone():
    """One call at a time changes the folder: another one waits, of another clone too."""
    os.makedirs(CACHE, exist_ok=True)
    with open(os.path.join(CACHE, "lock"), "w") as file:
        try:
            fcntl.flock(file, fcntl.LOCK_EX | fcntl.LOCK_NB)
        except BlockingIOError:
            print("bench/run: another call is building: this one waits for it", file=sys.stderr)
            fcntl.flock(file, fcntl.LOCK_EX)
        yield


def folder_of(name):
    return os.path.join(CACHE, "crates", name)


def read(path):
    with open(path, "rb") as file:
        return file.read()


def write_if_other(path, octets):
    if os.path.isfile(path) and read(path) == octets:
        return
    os.makedirs(os.path.dirname(path), exist_ok=True)
    with open(path, "wb") as file:
        file.write(octets)


def copy_all():
    """Makes the sources in the folder what those of the tree and of the programs are now."""
    is_new = not os.path.isdir(os.path.join(CACHE, "crates"))
    crates = below([use for uses in PROGRAMS.values() for use in uses])
    wanted = {"HANDLES": os.path.join(TREE, "HANDLES")}
    for name in crates:
        wanted |= sources_of_crate(name)
    for name in PROGRAMS:
        wanted |= sources_of_program(name)
    for place, path in wanted.items():
        write_if_other(os.path.join(CACHE, place), read(path))
    write_if_other(os.path.join(CACHE, "crates.txt"), "".join(map(line_of, [*crates, *PROGRAMS])).encode())
    remove_others(wanted, [*crates, *PROGRAMS])
    if is_new:
        take_built(crates)


def remove_others(wanted, names):
    for name in os.listdir(os.path.join(CACHE, "crates")):
        if name not in names:
            shutil.rmtree(folder_of(name))
        for path in files_below(folder_of(name)):
            if os.path.relpath(path, CACHE) not in wanted:
                os.remove(path)


def take_built(crates):
    """A new folder takes along what is built in the tree already. `rt` looks itself whether it is of these sources."""
    for name in crates:
        built = os.path.join("crates", name, "out", "rlib")
        if os.path.isfile(os.path.join(TREE, built, "stamp")):
            shutil.copytree(os.path.join(TREE, built), os.path.join(CACHE, built))


def sum_of(name):
    """A number that says which sources a program is built from, and by which toolchain."""
    total = hashlib.sha256(subprocess.run(["rt", "version"], stdout=subprocess.PIPE, check=True).stdout)
    for each in [*below(PROGRAMS[name]), name]:
        total.update(line_of(each).encode())
        for path in files_below(folder_of(each)):
            total.update(repr((path, read(path))).encode())
    return total.hexdigest().encode()


@alone()
def build(name):
    """Proves and builds a program, if it has changed, and returns its path; None if it isn't proved."""
    copy_all()
    out, total = os.path.join(folder_of(name), "out"), sum_of(name)
    program, mark = os.path.join(out, name), os.path.join(out, "built")
    if os.path.isfile(program) and os.path.isfile(mark) and read(mark) == total:
        return program
    if os.path.exists(program):
        os.remove(program)
    prove(name)
    if not os.path.exists(program):
        return None
    write_if_other(mark, total)
    return program


def prove(name):
    """`rt run` builds a program, and runs it: here with nothing to read. Its status is the program's."""
    log = os.path.join(CACHE, f"{name}.log")
    print(f"bench/run: proving and building {name}: the first time up to 40 minutes; the log is {log}", file=sys.stderr)
    with open(log, "wb") as file:
        subprocess.run(["rt", "run"], cwd=folder_of(name), stdin=subprocess.DEVNULL, stdout=file, stderr=file)
    if not os.path.exists(os.path.join(folder_of(name), "out", name)):
        print(*read(log).decode("utf-8", "replace").splitlines()[-40:], sep="\n", file=sys.stderr)
        print(f"bench/run: {name} is not proved", file=sys.stderr)


@alone()
def try_unproved(name, given):
    """Compiles a program without a proof and runs it once, with checks. Returns the exit status of `rt try`."""
    copy_all()
    return subprocess.run(["rt", "try"], cwd=folder_of(name), input=given.encode()).returncode


@alone()
def lay_out(name):
    """Lays a program's files out, and those that it shares with others. Returns the exit status."""
    copy_all()
    status = subprocess.run(["rt", "fmt"], cwd=folder_of(name)).returncode
    for place, path in sources_of_program(name).items():
        if status == 0 and path != os.devnull:
            write_if_other(path, read(os.path.join(CACHE, place)))
    return status
