"""Who calls whom: what can be reached from each function, and how deep the stack is at most below it."""
from typing import NamedTuple

from parts.object_code.flow import Flow, Unfollowed, circles
from parts.object_code.machines import AARCH64
from parts.object_code.stack import Depths
from parts.object_code.stack_of_aarch64 import DepthsOfAarch64


class Call(NamedTuple):
    """A call, or a jump out of a function: from where, to a function or a name outside, and the octets of stack above
    it."""
    instruction: object
    to: object
    octets: int


class Calls:
    """The calls of all functions of an archive."""

    def __init__(self, archive):
        self.archive, self.flows, self.depths, self.calls, self.problems = archive, {}, {}, {}, []
        for function in archive.functions:
            try:
                flow = Flow(archive, function)
                depths = DepthsOfAarch64(flow) if archive.machine is AARCH64 else Depths(flow)
                self.calls[function] = [self.call(function, depths, it) for it in flow.leaving()]
                self.flows[function], self.depths[function] = flow, depths
            except Unfollowed as why:
                self.problems.append(str(why))
                self.calls[function] = []
        self.exports = [it for it in archive.functions if it.is_export]

    def call(self, function, depths, it):
        to = it.target if it.target is not None else it.about if it.is_indirect else None
        found = self.archive.function_at(to)
        if found is None and not isinstance(to, str):
            where = f"{function.name}+{it.at - function.first:x}"
            self.problems.append(f"{where}: {it.word} {it.operands} leads to nothing known")
        return Call(it, found or to, depths.before(it) + (self.archive.machine.word if it.is_call else 0))

    def below(self, first):
        """All functions and outside names that can be reached from a function, itself included."""
        seen, waiting = set(), [first]
        while waiting:
            it = waiting.pop()
            if it not in seen:
                seen.add(it)
                waiting += [call.to for call in self.calls.get(it, ())]
        return seen

    def rings(self):
        """The sets of functions that call each other, or themselves."""
        numbers = {it: n for n, it in enumerate(self.calls)}
        follows = {numbers[it]: tuple(numbers[call.to] for call in made if call.to in numbers)
                   for it, made in self.calls.items()}
        functions = list(self.calls)
        return [[functions[n] for n in sorted(ring)] for ring in circles(set(follows), follows)]


class Recursion(NamedTuple):
    """What bounds functions that call each other: those of which at most so many calls are open at a time, and all."""
    functions: frozenset
    levels: int
    ring: frozenset = frozenset()


class Deepest:
    """The octets of stack that each function takes at most, with all that it calls in the archive, below its return
    address."""

    def __init__(self, calls, recursions):
        self.calls, self.known, self.problems = calls, {}, []
        self.ring_of = {}
        for ring in calls.rings():
            bounds = [it for it in recursions if it.ring == {one.name for one in ring}]
            if not bounds:
                self.problems.append(f"calls itself, and nothing bounds how deep: {', '.join(it.name for it in ring)}")
            bound = Recursion(frozenset().union(*(it.functions for it in bounds)), sum(it.levels for it in bounds))
            self.ring_of |= {it: (frozenset(ring), bound) for it in ring}

    def of(self, function):
        """The octets of a function, or of a name outside."""
        if not hasattr(function, "name"):
            return 0
        if function not in self.known:
            ring, bound = self.ring_of.get(function, (frozenset(), None))
            found = self.of_ring(function, ring, bound) if ring else self.of_calls(function, frozenset(), {})
            self.known[function] = found
        return self.known[function]

    def of_calls(self, function, left_out, within):
        """A function's own stack and the deepest of what it calls, but for the functions left out; of some it's
        said."""
        depths = self.calls.depths.get(function)
        found = [depths.most if depths else 0]
        for call in self.calls.calls[function]:
            if call.to not in left_out:
                found.append(call.octets + (within[call.to] if call.to in within else self.of(call.to)))
        return max(found)

    def of_ring(self, function, ring, bound):
        """Of functions that call each other: as often as the bound says, the longest way from one of its functions to
        the next; and at the end the deepest of what they call besides."""
        counted = frozenset(it for it in ring if it.name in bound.functions)
        others = ring - counted
        ways, ends = {}, {}
        for it in self.in_order(others):
            ways[it] = max((call.octets + (0 if call.to in counted else ways[call.to])
                            for call in self.calls.calls[it] if call.to in ring), default=0)
            ends[it] = self.of_calls(it, counted, ends)
        level, end = 0, 0
        for it in counted:
            level = max([level, *(call.octets + (0 if call.to in counted else ways.get(call.to, 0))
                                  for call in self.calls.calls[it] if call.to in ring)])
            end = max(end, self.of_calls(it, counted, ends))
        within = max(bound.levels - 1, 0) * level + max([end, *ends.values()])
        return within if function in counted else max(ways.get(function, 0) + within, ends.get(function, 0))

    def in_order(self, functions):
        """Functions of a ring, each after those that it calls; a problem if there is no such order."""
        done, waiting = [], sorted(functions)
        while waiting:
            ready = [it for it in waiting if not any(call.to in waiting for call in self.calls.calls[it])]
            if not ready:
                self.problems.append(f"call each other besides what is bounded: {', '.join(it.name for it in waiting)}")
                return done
            done += ready
            waiting = [it for it in waiting if it not in ready]
        return done
