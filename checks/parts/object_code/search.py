"""A search for calls that take many instructions: walks are changed by chance, and those are kept that had the
longest call."""
import random
import re
import subprocess
import tempfile
import time
from collections import Counter
from pathlib import Path

from parts.object_code.walks import CLOSED, walk_of

CALLGRIND = ["valgrind", "--tool=callgrind", "--compress-strings=no", "--compress-pos=no"]
TRIGGER, CALLED = re.compile(r"^desc: Trigger: Client Request: (\w+)$", re.M), re.compile(r"^calls=.*\n.*\n", re.M)
COST = re.compile(r"^[-+*\d]\S* (\d+)$", re.M)
AT_A_TIME, KEPT = 6, 6


def own_instructions(text, functions):
    """The instructions that a dump counts in these functions themselves. The line after a call has what was called,
    which is counted where it stands."""
    parts = (part.split("\n", 1) for part in CALLED.sub("", text).split("\nfn=")[1:])
    return sum(sum(map(int, COST.findall(part[1]))) for part in parts if part[0] in functions)


class Search:
    """The longest calls so far: of each call the instructions, and the walks that had the most."""

    def __init__(self, program, functions, seed, left_out=()):
        self.program, self.functions, self.left_out, self.r = program, functions, left_out, random.Random(seed)
        self.most, self.kept, self.runs = Counter(), {}, 0

    def measured(self, walks):
        """Runs walks one after another in one process. Yields for each dump the call and its instructions."""
        lines = [line for walk in walks for line in (*walk.calls, *CLOSED) if not line.startswith(self.left_out)]
        with tempfile.TemporaryDirectory() as room:
            out = Path(room) / "out"
            command = [*CALLGRIND, f"--callgrind-out-file={out}", self.program]
            done = subprocess.run(command, input="\n".join(lines).encode(), capture_output=True)
            if done.returncode:
                raise RuntimeError(f"status {done.returncode}: {done.stderr[-400:]!r}")
            for path in Path(room).iterdir():
                text = path.read_text(encoding="utf-8", errors="replace")
                found = TRIGGER.search(text)
                if found:
                    yield found[1], own_instructions(text, self.functions)

    def look_at(self, walks):
        """Keeps the walks if one had a call that took longer than all before."""
        self.runs += 1
        longer = {}
        for name, count in self.measured(walks):
            if count > self.most[name]:
                self.most[name] = longer[name] = count
        for name in longer:
            self.kept.setdefault(name, []).append(walks)
            self.kept[name] = self.kept[name][-KEPT:]

    def next_walks(self):
        """New walks, or those that had the longest of some call, changed."""
        if not self.kept or self.r.random() < 0.3:
            return [walk_of(self.r) for _ in range(AT_A_TIME)]
        walks = self.r.choice(self.kept[self.r.choice(sorted(self.kept))])
        return [walk.changed(self.r, walks) for walk in walks]


def longest(program, functions, seconds, seed, left_out=()):
    """The most instructions of these functions that a search of so many seconds came to in a call, by the call's word.
    Some words are left out."""
    search, until = Search(program, functions, seed, left_out), time.monotonic() + seconds
    while time.monotonic() < until or not search.runs:
        search.look_at(search.next_walks())
    return search.most
