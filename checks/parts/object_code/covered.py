"""What of each function was executed, and which ways of its branches were gone."""
from typing import NamedTuple

# What a branch does.
FOLLOWED, PASSED = "followed", "passed"


class Holes(NamedTuple):
    """What no run did in a function: instructions, and ways of branches that were executed, by offsets in its
    section; how many instructions and branches it has, and of how many branches both ways or one were gone; and from where to
    where runs went within it and its disassembly has no way."""
    instructions: tuple
    ways: tuple
    of_instructions: int
    of_branches: int
    whole_branches: int
    half_branches: int
    unknown: tuple

    @property
    def executed(self):
        return self.of_instructions - len(self.instructions)

    @property
    def left(self):
        return len(self.instructions), len(self.ways)

    def text(self, function):
        """The holes by their offsets in the function, instructions as ranges."""
        places = ", ".join(f"+{at - function.first:x}" for at in self.instructions)
        ways = ", ".join(f"+{at - function.first:x} never {way}" for at, way in self.ways)
        missed = f"{len(self.instructions)} of {self.of_instructions} instructions"
        return f"{missed}: {places}; {len(self.ways)} ways: {ways}"


def holes_of(flow, counts):
    """What no run did in a function. Of a branch that no run came to the ways aren't told again."""
    function = flow.function
    place = {at: (function.member, function.section, at) for at in flow.reached}
    missed = tuple(at for at in sorted(flow.reached) if not counts.executed[place[at]])
    ways, branches = [], [at for at in sorted(flow.reached) if flow.at[at].is_branch]
    for at in branches:
        done, taken = counts.executed[place[at]], counts.taken[place[at]]
        ways += [(at, FOLLOWED)] if done and not taken else []
        ways += [(at, PASSED)] if done and taken == done else []
    part = {at for at, _ in ways}
    whole = sum(1 for at in branches if counts.executed[place[at]] and at not in part)
    return Holes(missed, tuple(ways), len(flow.reached), len(branches), whole, len(part), unknown_to(flow, counts))


def unknown_to(flow, counts):
    """From where to where runs went within a function by a way that its disassembly doesn't have."""
    function = flow.function
    gone = ((at[2], to[2]) for at, to in counts.gone if function.has(at) and to is not None and function.has(to))
    return tuple(sorted((at, to) for at, to in gone if to not in flow.follows.get(at, ())))


def way_to(flow, at, way):
    """Where a way of a branch leads within the function, or None."""
    target = flow.at[at].target
    if way == FOLLOWED:
        return target[2] if flow.function.has(target) else None
    return flow.after[at]


def without(flow, holes, ways):
    """The holes if some ways are left out, with what only these lead to."""
    function, missed = flow.function, set(holes.instructions)
    ways_left = tuple(it for it in holes.ways if it not in ways)
    waiting = [way_to(flow, *it) for it in ways_left] + [function.first]
    waiting += [to for at in flow.reached - missed if not flow.at[at].is_branch for to in flow.follows[at]]
    found = set()
    while waiting:
        at = waiting.pop()
        if at in missed and at not in found:
            found.add(at)
            waiting += flow.follows[at]
    return holes._replace(instructions=tuple(sorted(found)), ways=ways_left)


def open_branches(flow, holes):
    """How many branches have holes: those of the ways, and those that no run came to."""
    return len({at for at, _ in holes.ways}) + sum(1 for at in holes.instructions if flow.at[at].is_branch)
