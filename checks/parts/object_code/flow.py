"""The way of control through a function: what follows each instruction, and its loops."""
from typing import NamedTuple

from parts.object_code import tables, tables_of_aarch64
from parts.object_code.archive import ENDS, STOPS
from parts.object_code.machines import AARCH64


class Unfollowed(Exception):
    """Why a function's way of control can't be told."""


class Loop(NamedTuple):
    """A loop: where it is entered, all its instructions, and the loops inside of it."""
    heads: tuple
    places: frozenset
    inner: tuple


class Flow:
    """What follows each instruction of a function within it; where it calls, leaves and ends."""

    def __init__(self, archive, function):
        self.function = function
        self.at = {it.at: it for it in function.instructions}
        self.order = sorted(self.at)
        self.after = dict(zip(self.order, [*self.order[1:], None]))
        self.by_table = {it.at for it in self.at.values() if it.is_jump and it.is_indirect and not named(archive, it)}
        of_machine = tables_of_aarch64 if archive.machine is AARCH64 else tables
        self.places = of_machine.places_of_jumps(archive, function, self.by_table) if self.by_table else {}
        self.follows = {at: tuple(self.next_of(it)) for at, it in self.at.items()}
        self.reached = self.from_here(function.first)

    def next_of(self, it):
        """The offsets of what comes after an instruction; a jump out of the function leads nowhere here."""
        if it.word in ENDS or it.word in STOPS:
            return
        if (it.is_jump or it.is_branch) and not it.is_indirect:
            if self.function.has(it.target):
                yield self.begun(it.target[2])
        if it.at in self.by_table:
            yield from map(self.begun, self.places[it.at])
        if not it.is_jump and self.after[it.at] is not None:
            yield self.after[it.at]

    def begun(self, at):
        """The same place, where an instruction begins."""
        if at not in self.at:
            raise Unfollowed(f"{self.function.name}: a jump into an instruction")
        return at

    def from_here(self, first):
        seen, waiting = set(), [first] if first in self.at else []
        while waiting:
            at = waiting.pop()
            if at not in seen:
                seen.add(at)
                waiting += self.follows[at]
        return seen

    def leaving(self):
        """The calls, and the jumps to other functions, that can be reached."""
        for at in sorted(self.reached):
            it = self.at[at]
            is_out = (it.is_jump or it.is_branch) and not it.is_indirect and not self.function.has(it.target)
            by_pointer = it.is_jump and it.is_indirect and not self.places.get(at)
            if it.is_call or is_out or by_pointer:
                yield it

    def loops(self):
        """The loops, the outermost ones, with those inside of them."""
        return loops_among(self.reached, self.follows)


def named(archive, it):
    """Whether a jump by a pointer names the function that the pointer is of."""
    return isinstance(it.about, str) or archive.function_at(it.about) is not None


# ---- loops

def loops_among(places, follows):
    """The outermost loops among some places: each set of places that lead to each other; within one, what is left of
    them if no way leads back to where it is entered."""
    found = []
    for circle in circles(places, follows):
        heads = {at for at in circle if any(at in follows[before] for before in places - circle)} or {min(circle)}
        inner = {at: tuple(to for to in follows[at] if to in circle and to not in heads) for at in circle}
        found.append(Loop(tuple(sorted(heads)), frozenset(circle), tuple(loops_among(circle, inner))))
    return sorted(found)


def circles(places, follows):
    """The largest sets of places that lead to each other, by Tarjan's algorithm, written without recursion."""
    index, low, stack, on_stack = {}, {}, [], set()
    for start in sorted(places):
        if start in index:
            continue
        work = [(start, iter(follows[start]))]
        index[start] = low[start] = len(index)
        stack.append(start), on_stack.add(start)
        while work:
            at, rest = work[-1]
            to = next((to for to in rest if to in places), None)
            if to is None:
                work.pop()
                if work:
                    low[work[-1][0]] = min(low[work[-1][0]], low[at])
                if low[at] == index[at]:
                    circle = {at}
                    while stack[-1] != at:
                        circle.add(stack[-1]), on_stack.discard(stack.pop())
                    stack.pop(), on_stack.discard(at)
                    if len(circle) > 1 or at in follows[at]:
                        yield circle
            elif to not in index:
                index[to] = low[to] = len(index)
                stack.append(to), on_stack.add(to)
                work.append((to, iter(follows[to])))
            elif to in on_stack:
                low[at] = min(low[at], index[to])


def each_loop(loops, depth=0):
    """All loops, those inside of others too, each with how many are around it."""
    for loop in loops:
        yield loop, depth
        yield from each_loop(loop.inner, depth + 1)
