"""Ways of branches that aren't gone, of which the object code around them says why. Each is told by a shape of its own:

    copy     copies one after another where the place to write begins within what is read; the other way calls memmove or memcpy
    panic    leads straight to what stops the processor: a panic stood there, and is proved away
    size     of a number of octets, entries or owners that is above what memory has: a limit of a list, or of a count
    row      moves entries of a row together, of 18 or more, without a call; the other way moves one after another
"""
from parts.object_code.archive import STOPS
from parts.object_code.covered import FOLLOWED, PASSED, way_to, without

KINDS = ("copy", "panic", "size", "row")
COPIES = ("memmove", "memcpy")
# What is above this many octets, entries or owners is in no memory of x86-64, which has 47 bits of addresses.
MEMORY_BITS, GREATEST = 47, 2**63 - 1
ROW = 18
# Instructions that leave the flags as they are, by the beginnings of their words.
NO_FLAGS = ("mov", "lea", "cmov", "set", "nop", "push", "pop", "pxor", "por", "pand", "xorps", "bswap", "pextr", "pinsr", "data16", "cs", "not")
OVER = {("ja", FOLLOWED), ("jae", FOLLOWED), ("jbe", PASSED), ("jb", PASSED), ("je", FOLLOWED), ("jne", PASSED)}


def recognised(flow, holes):
    """The kinds of the ways that are recognised, and the holes without them."""
    missed = set(holes.instructions)
    kinds = {it: kind_of(flow, missed, *it) for it in holes.ways}
    kinds = {it: kind for it, kind in kinds.items() if kind}
    return kinds, without(flow, holes, kinds)


def kind_of(flow, missed, at, way):
    """The kind of a way of a branch, or None."""
    shapes = {"copy": is_copy, "panic": is_stop, "size": is_size, "row": is_row}
    return next((kind for kind, is_one in shapes.items() if is_one(flow, missed, at, way)), None)


def straight(flow, at, most):
    """So many instructions from a place on at most, up to one that may lead to several places."""
    for _ in range(most):
        if at is None:
            return
        it = flow.at[at]
        yield it
        follows = flow.follows[at]
        at = follows[0] if len(follows) == 1 else None


def before(flow, at):
    """The instructions before a place, the nearest first, up to a jump or a call."""
    for place in reversed(flow.order[:flow.order.index(at)]):
        it = flow.at[place]
        if it.is_jump or it.is_call or it.word in STOPS or it.word.startswith("ret"):
            return
        yield it


def tested(flow, at):
    """The instruction by whose result a branch goes, and its operands; None if it isn't known."""
    it = next((it for it in before(flow, at) if not it.is_branch and not it.word.startswith(NO_FLAGS)), None)
    return it, it.operands.split(",") if it else []


def constant_of(flow, at, operand):
    """The number that an operand is, or was set to before a place; or None."""
    if operand.startswith("$"):
        return int(operand[1:], 16) if operand[1:].startswith("0x") else None
    for it in before(flow, at):
        first, _, last = it.operands.rpartition(",")
        if last == operand and it.word not in ("cmp", "test"):
            return int(first[1:], 16) if it.word in ("mov", "movabs") and first.startswith("$0x") else None
    return None


# ---- the shapes

def is_copy(flow, missed, at, way):
    """Of a branch by the distance from what is read to the place to write, less than what is copied."""
    it, (test, operands) = flow.at[at], tested(flow, at)
    other = {("jae", PASSED): FOLLOWED, ("jb", FOLLOWED): PASSED}.get((it.word, way))
    if other is None or test is None or test.word != "cmp" or not is_difference(flow, test.at, operands[-1]):
        return False
    calls = [that for that in straight(flow, way_to(flow, at, other), 12) if that.is_call]
    words = {flow.at[place].word for place in behind_of(flow, missed, at, way)}
    return bool(calls) and calls[0].target in COPIES and not words & {"call", "ret"} and any(it.startswith("mov") for it in words)


def is_difference(flow, at, operand):
    """Whether what stands in a register before a place was made by a subtraction."""
    return next((it.word == "sub" for it in before(flow, at) if it.operands.split(",")[-1] == operand and it.word not in ("cmp", "test")), False)


def is_stop(flow, missed, at, way):
    to = way_to(flow, at, way)
    return to in missed and any(it.word in STOPS for it in straight(flow, to, 3))


def is_size(flow, missed, at, way):
    it, (test, operands) = flow.at[at], tested(flow, at)
    if test is None:
        return False
    if test.word == "cmp" and operands[0] == "$0xffffffffffffffff" or test.word == "inc":
        return (it.word, way) in {("je", FOLLOWED), ("jne", PASSED)}
    if test.word == "cmp":
        limit = constant_of(flow, test.at, operands[0])
        return limit is not None and is_limit(limit) and (it.word, way) in OVER
    if test.word == "shr" and operands[0].startswith("$"):
        return int(operands[0][1:], 16) >= MEMORY_BITS and (it.word, way) in {("jne", FOLLOWED), ("je", PASSED)}
    return False


def is_limit(number):
    """Whether it is the greatest number of entries that a list may have, or near to that of its octets."""
    if number < 1 << MEMORY_BITS:
        return False
    size = GREATEST // number
    return GREATEST // size == number or GREATEST - number < 2


def is_row(flow, missed, at, way):
    it, (test, operands) = flow.at[at], tested(flow, at)
    if (it.word, way) not in {("jb", PASSED), ("jae", FOLLOWED)} or test is None or test.word != "cmp":
        return False
    most, places = constant_of(flow, test.at, operands[0]), behind_of(flow, missed, at, way)
    moves = {flow.at[place].word for place in places}
    return most is not None and ROW <= most < 1 << 12 and not moves & {"call", "ret"} and any(word.startswith("mov") for word in moves)


def behind_of(flow, missed, at, way):
    """What no run executed that a way leads to, without coming to what was executed."""
    found, waiting = set(), [way_to(flow, at, way)]
    while waiting:
        place = waiting.pop()
        if place in missed and place not in found:
            found.add(place)
            waiting += flow.follows[place]
    return found
