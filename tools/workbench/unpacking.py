"""Captures that were compressed: by gzip, and by zstd where its program is installed."""
import contextlib
import gzip
import io
import shutil
import subprocess
import threading
import zlib

from workbench.faults import Broken, Fault

GZIP, ZSTD = b"\x1f\x8b", b"\x28\xb5\x2f\xfd"


class Unpacked(io.RawIOBase):
    """What is in a compressed file. It isn't of its form where it is cut or damaged."""

    def __init__(self, read):
        self.read_some = read

    def readable(self):
        return True

    def readinto(self, buffer):
        try:
            octets = self.read_some(len(buffer))
        except (EOFError, OSError, zlib.error) as error:
            raise Broken(f"the compressed file is cut or damaged ({error})") from None
        buffer[:len(octets)] = octets
        return len(octets)


def unpacked(name, file, stack):
    """The file as it is before it was compressed, or the same file."""
    magic = file.peek(4)[:4]
    if magic[:2] == GZIP:
        return io.BufferedReader(Unpacked(gzip.GzipFile(fileobj=file).read1))
    if magic == ZSTD and (program := shutil.which("zstd")):
        words = [program, "-dcq"] if name == "-" else [program, "-dcq", "--", name]
        return io.BufferedReader(Unpacked(by_program(words, file if name == "-" else None, stack)))
    return file


def by_program(words, file, stack):
    """Reads what a program writes, of a file that it is given, if it is. At its end its status has to be 0."""
    ran = subprocess.Popen(words, stdin=subprocess.PIPE if file else subprocess.DEVNULL, stdout=subprocess.PIPE,
                           stderr=subprocess.DEVNULL)
    stack.callback(ended, ran)
    if file:
        threading.Thread(target=feed, args=(ran.stdin, file), daemon=True).start()

    def read(count):
        octets = ran.stdout.read1(count)
        if not octets and ran.wait():
            raise EOFError(f"zstd's status is {ran.returncode}")
        return octets

    return read


def feed(out, file):
    """Gives a program what comes, as long as it takes it."""
    with contextlib.suppress(OSError, Fault), out:
        while octets := file.read1():
            out.write(octets)
            out.flush()


def ended(ran):
    """It ends with its reader, who may have had enough."""
    ran.terminate()
    ran.stdout.close()
    ran.wait()
