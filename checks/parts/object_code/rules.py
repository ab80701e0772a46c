"""What object code doesn't say of itself, as checks/bounds.txt and the page of measured costs say it.

    asks: END ..                    the ends of the names of calls that may reach the functions for memory
    memory: NAME ..                 those functions
    outside: NAME ..                the other functions outside of the archive
    frees: NAME: why                another call that reaches the one that gives memory back, and never comes to it
    grows: NAME: why                another call that reaches those that ask for memory, and never comes to them
    levels NUMBER: FUNCTION: why    a function that calls itself, and how many of its calls are open at most; one
                                    that calls itself through others as FUNCTION with FUNCTION ..
    loop TURNS: FUNCTION SHAPE: ROW a loop of a function, how often it takes a turn at most each time that it is come
                                    to, and its row in the page; of 0 turns if it never is come to
"""
import re
from math import prod
from typing import NamedTuple

from parts.object_code.calls import Recursion

OF_NAMES = re.compile(r"^(asks|memory|outside): (.*)$")
OF_NEVER = re.compile(r"^(frees|grows): (\w+): (.*)$")
OF_LEVELS = re.compile(r"^levels ([\d,]+): (.*?): (.*)$")
OF_LOOP = re.compile(r"^loop ([\d,]+): (.*) ([\d.]+ of \d+): (.*)$")
NUMBERS = {"twice": 2, "three": 3, "four": 4}


class LoopRow(NamedTuple):
    """A loop's row: the function, what the loop looks like there, its greatest count, and the page's words for it."""
    function: str
    shape: str
    count: int
    row: str


class Rules:
    """The lines of the file."""

    def __init__(self, path):
        self.asks, self.memory, self.outside, self.frees, self.grows = set(), set(), set(), set(), set()
        self.levels, self.loops, self.bad = [], [], []
        for number, line in enumerate(path.read_text(encoding="utf-8").splitlines(), 1):
            if line.strip() and not line.startswith("#") and not self.takes(line):
                self.bad.append(f"{path.name}:{number}: no line of this file: {line}")

    def takes(self, line):
        """Whether a line is one of these."""
        names, never = OF_NAMES.match(line), OF_NEVER.match(line)
        levels, loop = OF_LEVELS.match(line), OF_LOOP.match(line)
        if never:
            getattr(self, never[1]).add(never[2])
        elif names:
            getattr(self, names[1]).update(names[2].split())
        elif levels:
            counted, _, others = levels[2].partition(" with ")
            ring = frozenset([counted, *others.split()])
            self.levels.append(Recursion(frozenset([counted]), number_of(levels[1]), ring))
        elif loop:
            self.loops.append(LoopRow(loop[2], loop[3], number_of(loop[1]), loop[4]))
        return bool(names or never or levels or loop)


# ---- the page

def rows_of(text, *heads):
    """The rows of the page's table whose head begins with these cells, each as its cells."""
    inside = False
    for line in text.splitlines():
        cells = [cell.strip() for cell in line.strip().strip("|").split("|")] if line.startswith("|") else []
        if tuple(cells[:len(heads)]) == heads:
            inside = True
        elif not cells:
            inside = False
        elif inside and not set(line) <= set("|-"):
            yield cells


def most_of(cell):
    """What a cell of numbers comes to at most: `1,471 by 8`, `4, three times`."""
    numbers = [int(each.replace(",", "")) for each in re.findall(r"\d[\d,]*\d|\d", cell)]
    words = [number for word, number in NUMBERS.items() if re.search(rf"\b{word}\b", cell)]
    return prod([*numbers, *words]) if numbers else 0


def number_of(cell):
    """The number in a cell, 0 if there is none."""
    found = re.search(r"\d[\d,]*", cell)
    return int(found[0].replace(",", "")) if found else 0
