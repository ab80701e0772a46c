"""How much of each part of an archive was exercised, and what is left out with no reason."""
from collections import Counter

from parts.object_code.covered import open_branches
from parts.object_code.recognised import recognised

# In 100, of all branches of the archive that go both ways or have a reason: what is reached, so that it doesn't become less.
# Aimed at are 95.
LEAST = 95
# The calls of which each hole has a reason, and those that ask for memory or give it back, by the ends of their names.
OF_FRAMES = ("_receive",)
OF_ENDS = ("_read", "_hold", "_octets", "_copy", "_release", "_take", "_limits", "_longest")
OF_CLOSES, OF_OPENINGS = ("_close",), ("_open", "_open_table", "_check_text")
WHOLE = "the whole archive"
SEVERAL = OF_FRAMES + OF_ENDS + OF_CLOSES + OF_OPENINGS


def parts_of(calls):
    """The functions of the archive by the calls that reach them, each where it is reached first, and all."""
    def below(are_meant):
        found = [calls.below(it) for it in calls.exports if are_meant(it.name)]
        return {it for functions in found for it in functions if it in calls.flows}
    asked = {"receives": lambda name: name.endswith(OF_FRAMES), "reads and takes": lambda name: name.endswith(OF_ENDS),
             "other calls": lambda name: not name.endswith(SEVERAL), "closes": lambda name: name.endswith(OF_CLOSES),
             "openings": lambda name: name.endswith(OF_OPENINGS)}
    parts, seen = {}, set()
    for part, are_meant in asked.items():
        parts[part] = below(are_meant) - seen
        seen |= parts[part]
    return {**{part: functions for part, functions in parts.items() if functions}, WHOLE: set(calls.flows)}


def of_the_way(parts):
    """The functions of which each hole has a reason."""
    return parts.get("receives", set()) | parts.get("reads and takes", set())


class Explained:
    """What has a reason: by the object code, or by a line of the file of reasons."""

    def __init__(self, calls, holes, reasons):
        self.calls, self.holes, self.reasons, self.kinds, self.left = calls, holes, reasons, {}, {}
        for function, flow in calls.flows.items():
            self.kinds[function], self.left[function] = recognised(flow, holes[function])

    def branches(self, functions):
        """How many branches of some functions don't go both ways, and have a reason."""
        return sum(map(self.branches_of, functions))

    def branches_of(self, function):
        """All that are left out if the lines of a function are for all of it; else one for each way of its lines."""
        flow, left = self.calls.flows[function], self.left[function]
        all_left = open_branches(flow, left)
        by_shape = open_branches(flow, self.holes[function]) - all_left
        by_lines = all_left if self.reasons.is_whole(left, function.name) else min(self.reasons.allowed(function.name)[1], len(left.ways))
        return by_shape + by_lines

    def by_kinds(self, functions):
        """The ways that are recognised, by their kinds, and what the lines are for: instructions and ways."""
        shapes = Counter(kind for function in functions for kind in self.kinds[function].values())
        return shapes, self.reasons.by_kinds(self.left, functions)


def problems_of(calls, parts, holes, reasons):
    yield from calls.problems
    reached = {it for export in calls.exports for it in calls.below(export)}
    yield from (f"{it.name}: no call reaches it" for it in sorted(calls.flows.keys() - reached))
    yield from (f"{it.name}: no run executes it" for it in sorted(calls.flows.keys() & reached)
                if not holes[it].executed and not reasons.has(it))
    yield from (f"{it.name}: a run went from +{at - it.first:x} to +{to - it.first:x}, and no way does"
                for it, hole in holes.items() for at, to in hole.unknown)
    explained = Explained(calls, holes, reasons)
    yield from reasons.compare(explained.left, of_the_way(parts))
    branches, whole = total(parts[WHOLE], holes)[2:4]
    told = whole + explained.branches(parts[WHOLE])
    if 100 * told < LEAST * branches:
        yield f"of {branches} branches {told} were followed and passed or have a reason, {LEAST} in 100 is the least"


def total(functions, holes):
    """How many instructions some functions have, and how many were executed; how many branches, and of how many both ways
    or one were gone."""
    found = [(it.of_instructions, it.executed, it.of_branches, it.whole_branches, it.half_branches)
             for it in (holes[function] for function in functions)]
    return tuple(map(sum, zip(*found)))


def print_reasons(parts, explained):
    """What has a reason, by its kind: of the calls for frames and at the ends, and of all."""
    for name, functions in (("a frame's way, reads and takes", of_the_way(parts)), (WHOLE, parts[WHOLE])):
        shapes, lines = explained.by_kinds(functions)
        told = [f"{kind} {ways}" for kind, ways in sorted(shapes.items())]
        told += [f"{kind} {instructions} and {ways}" for kind, (instructions, ways) in lines.items()]
        print(f"{name}: ways that are recognised, and instructions and ways of lines: {', '.join(told) or 'none'}")


def print_table(parts, holes, explained):
    print("| part | functions | instructions | executed | branches | both ways | one way | with a reason |\n|---|---|---|---|---|---|---|---|")
    for name, functions in parts.items():
        numbers = " | ".join(f"{number:,}" for number in (*total(functions, holes), explained.branches(functions)))
        print(f"| {name} | {len(functions)} | {numbers} |")


def print_share(parts, holes, explained):
    """How many branches go both ways or have a reason, in 100 of all."""
    branches, whole = total(parts[WHOLE], holes)[2:4]
    told = whole + explained.branches(parts[WHOLE])
    print(f"of {branches} branches {told} go both ways or have a reason: {100 * told / branches:.1f} in 100")
