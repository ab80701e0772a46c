"""Why some code isn't exercised: checks/coverage.txt, by functions and by how much of each, beside what recognised.py tells.

    INSTRUCTIONS WAYS: FUNCTION: KIND: why    so many of its instructions, and ways of branches that are executed

Lines of one function add up: each function of this name has so much at most, and one of them has so many ways. A kind is
one of KINDS.
"""
import re
from collections import defaultdict

LINE = re.compile(r"^(\d+) (\d+): (.+?): (\w+): (.+)$")
KINDS = ("contract", "again", "panic", "library", "memory")


class Reasons:
    """The lines of the file: what each function may have, by the kinds of the reasons."""

    def __init__(self, path):
        self.name, self.bad = path.name, []
        self.of_kinds = defaultdict(lambda: {kind: (0, 0) for kind in KINDS})
        for number, line in enumerate(path.read_text(encoding="utf-8").splitlines(), 1):
            found = LINE.match(line)
            if found and found[4] in KINDS:
                of_function = self.of_kinds[found[3]]
                of_function[found[4]] = added(of_function[found[4]], (int(found[1]), int(found[2])))
            elif line and not line.startswith("#"):
                self.bad.append(f"{path.name}:{number}: no line of this file: {line}")

    def has(self, function):
        return function.name in self.of_kinds

    def allowed(self, name):
        """The instructions and ways that the lines of a name add up to."""
        return added(*self.of_kinds[name].values()) if name in self.of_kinds else (0, 0)

    def is_whole(self, hole, name):
        """Whether the lines of a name are for all that a function of it has left out."""
        return all(one <= other for one, other in zip(hole.left, self.allowed(name)))

    def by_kinds(self, holes, functions):
        """What some functions have left out, by the kinds of the reasons: as the lines say, or what it is if there is one
        kind."""
        found = {kind: (0, 0) for kind in KINDS}
        for function in filter(self.has, functions):
            kinds = {kind: numbers for kind, numbers in self.of_kinds[function.name].items() if any(numbers)}
            for kind, numbers in kinds.items():
                found[kind] = added(found[kind], holes[function].left if len(kinds) == 1 else numbers)
        return {kind: numbers for kind, numbers in found.items() if any(numbers)}

    def compare(self, holes, needed):
        """What some functions have left out with no reason; and reasons of any function for more than is left out."""
        yield from self.bad
        for function in sorted(needed, key=lambda it: (it.name, it.member)):
            left, allowed = holes[function].left, self.allowed(function.name)
            if not self.is_whole(holes[function], function.name):
                had = f"{left[0]} instructions and {left[1]} ways weren't gone"
                yield f"{function.name} of {function.member}: {had}, and {self.name} has reasons for {allowed[0]} and {allowed[1]}"
        for name in sorted(self.of_kinds):
            of_name, allowed = [hole.left for function, hole in holes.items() if function.name == name], self.allowed(name)
            most = tuple(map(max, zip(*of_name))) if of_name else (0, 0)
            if allowed[1] > most[1] or not any(most):
                yield f"{self.name}: {name}: reasons for {allowed[0]} and {allowed[1]}, and {most[0]} and {most[1]} weren't gone"


def added(*pairs):
    """The sums of the first and of the second ones."""
    return tuple(map(sum, zip(*pairs))) if pairs else (0, 0)
