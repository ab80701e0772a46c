"""Files and the terminal: inputs whose progress is shown, outputs that are whole or not there."""
import contextlib
import io
import os
import secrets
import select
import signal
import sys
import time

from workbench.faults import NOT_READ, Fault, plain

BLOCK, BLOCK_OF_A_PIPE = 1 << 20, 1 << 13
QUIET_SECONDS, REDRAW_SECONDS = 1.0, 0.2


@contextlib.contextmanager
def bar(what, total):
    """Shows on a terminal how far the work is, once it has taken a second. Yields what adds to it."""
    due = time.monotonic() + QUIET_SECONDS if sys.stderr and sys.stderr.isatty() else float("inf")
    done, shown = 0, False

    def add(amount):
        nonlocal done, shown, due
        done += amount
        if time.monotonic() >= due:
            due, shown = time.monotonic() + REDRAW_SECONDS, True
            how_far = f"{min(done / total, 1):.0%}" if total else f"{done:,}"
            print(f"\r\x1b[K{what} {how_far}", end="", file=sys.stderr, flush=True)

    try:
        yield add
    finally:
        if shown:
            print("\r\x1b[K", end="", file=sys.stderr, flush=True)


class Watched(io.FileIO):
    """A file whose reading is shown, and whose faults are lines. The standard input is `-`. If it has patience, a read
    ends after so many seconds in which nothing comes."""
    read, readall = io.RawIOBase.read, io.RawIOBase.readall  # by readinto, which those of FileIO pass by
    patience = None

    def __init__(self, name):
        super().__init__(0 if name == "-" else name, closefd=name != "-")
        self.name = name

    def readinto(self, buffer):
        with telling(self.name, "read"):
            if self.patience and not select.select([self], [], [], self.patience)[0]:
                return None
            count = super().readinto(buffer)
        if count is None:
            raise Fault(f"{self.name}: not read: it gives nothing without a wait (O_NONBLOCK)", NOT_READ)
        self.add(count)
        return count


@contextlib.contextmanager
def reading(name):
    """The octets of a file, or of the standard input if its name is `-`."""
    with telling(name, "read"):
        raw = Watched(name)
    with raw, bar(f"reading {plain(name)}", os.fstat(raw.fileno()).st_size) as add:
        raw.add = add
        yield io.BufferedReader(raw, BLOCK_OF_A_PIPE if name == "-" else BLOCK)


def is_quiet(file, seconds):
    """Whether all of a file that came was taken, and nothing comes for so long."""
    file.raw.patience = seconds
    came = file.peek(1)
    file.raw.patience = None
    return not came


@contextlib.contextmanager
def telling(name, what):
    """What the system refuses meanwhile is told of this name, and ends the run."""
    try:
        yield
    except OSError as error:
        raise Fault(f"{name}: not {what}: {error.strerror or error}", NOT_READ) from None


@contextlib.contextmanager
def writing(name):
    """A file that has its name once it is whole; `-` is the standard output. A device or a pipe is written as it is."""
    with telling(name, "written"):
        is_own = os.path.isfile(name) or not os.path.exists(name)
        with output() if name == "-" else beside(name) if is_own else open(name, "wb", BLOCK) as file:
            yield file


@contextlib.contextmanager
def beside(name):
    """A file in the same folder, which takes the name at its end. It goes if the caller fails."""
    name = os.path.realpath(name)
    path = os.path.join(os.path.dirname(name), f".yelunnavi-{secrets.token_hex(8)}")
    file = open(path, "xb", BLOCK)
    try:
        with file:
            yield file
        os.replace(path, name)
    except BaseException:
        os.unlink(path)
        raise


@contextlib.contextmanager
def output():
    """The standard output. A reader that is gone, as `head` is, ends the run quietly, as a shell's pipe would."""
    try:
        with open(1, "wb", BLOCK, closefd=False) as file:
            yield file
    except BrokenPipeError:
        sys.exit(128 + signal.SIGPIPE)
    except OSError:
        raise Fault("output not written", NOT_READ) from None
