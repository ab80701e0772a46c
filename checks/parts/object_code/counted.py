"""How often a program executed each instruction of an archive that is linked into it, and followed each branch, by
callgrind."""
import re
import subprocess
from collections import Counter
from pathlib import Path

VALGRIND = ["valgrind", "--tool=callgrind", "--dump-instr=yes", "--collect-jumps=yes", "--compress-strings=no",
            "--compress-pos=no", "--dump-line=no", "--vex-guest-chase=no"]
LINKED = re.compile(r"^ (\.text.*?)\s+0x([0-9a-f]+)\s+0x([0-9a-f]+) (\S+)\((\S+)\)$", re.M)
COST, JUMP = re.compile(r"^0x([0-9a-f]+) (\d+)"), re.compile(r"^(jcnd|calls|jump)=(\d+)(?:/\d+)? 0x([0-9a-f]+)")
# How a program is linked, so that a map says where each section of the archive stands.
FIXED = ("-no-pie", "-Wl,-z,noseparate-code")


class Failed(Exception):
    """Why a program's run doesn't count."""


class Counts:
    """How often each place was executed, how often the branch there was followed, and from where to where jumps and
    branches went."""

    def __init__(self):
        self.executed, self.taken, self.gone = Counter(), Counter(), set()

    def add(self, sections, text, program):
        """Adds what callgrind wrote of a run of this program."""
        in_program, jump = False, None
        for line in text.splitlines():
            if line.startswith("ob="):
                in_program = line[3:] == str(program)
            elif in_program and line[:1] in "jc" and JUMP.match(line):
                jump = JUMP.match(line)
            elif in_program and line.startswith("0x"):
                self.add_line(sections, int(line.split()[0], 16), line, jump)
                jump = None

    def add_line(self, sections, address, line, jump):
        place = place_of(sections, address)
        if place is None:
            return
        if jump is None:
            self.executed[place] += int(COST.match(line)[2])
        else:
            # A branch out of a function is a call to callgrind.
            self.taken[place] += int(jump[2]) if jump[1] in ("jcnd", "calls") else 0
            self.gone |= {(place, place_of(sections, int(jump[3], 16)))} if jump[1] != "calls" else set()


def sections_of(linker_map, archive):
    """Where a map says that each section of the archive stands: pairs of addresses, with the member and the
    section."""
    # A long name has a line of its own.
    text = re.sub(r"^( \.text(?:(?! 0x).)+)\n +(?=0x)", r"\1 ", linker_map, flags=re.M)
    name = Path(archive).name
    return sorted((int(at, 16), int(at, 16) + int(size, 16), member, section)
                  for section, at, size, path, member in LINKED.findall(text)
                  if Path(path).name == name and int(size, 16))


def place_of(sections, address):
    """The place in the archive of a program's address, or None."""
    low, high = 0, len(sections)
    while low < high:
        middle = (low + high) // 2
        low, high = (middle + 1, high) if sections[middle][0] <= address else (low, middle)
    if low and address < sections[low - 1][1]:
        first, _, member, section = sections[low - 1]
        return member, section, address - first
    return None


def count(counts, program, words, sections, folder, given=b""):
    """Runs a program under callgrind, adds what it executed, and returns what it printed."""
    out = folder / "callgrind.out"
    command = [*VALGRIND, f"--callgrind-out-file={out}", program, *map(str, words)]
    done = subprocess.run(command, input=given, capture_output=True)
    if done.returncode or not out.exists():
        raise Failed(f"{program.name} {' '.join(map(str, words))}: status {done.returncode}: {done.stderr[-400:]!r}")
    counts.add(sections, out.read_text(encoding="utf-8", errors="replace"), program)
    out.unlink()
    return done.stdout
