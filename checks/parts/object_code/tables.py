"""Where jumps by tables lead.

A compiler writes such a jump in four steps: the address of the table, an entry of it, their sum, and a jump to the sum. If
the four stand in one straight line, which jumps enter at its first instruction alone, the jump leads to the places of that
table and to no other: each way to it comes through the four, and nothing between them changes what they hold, since an
instruction that isn't among PLAIN counts as one that changes every register. If a jump isn't written so its table isn't
known, and it may lead to the places of all tables of the function.

A table goes up to where the next one begins, and what is looked up is one of its entries: the compiler is trusted for that.
A table that leads out of the function, or into an instruction, is told; checks/coverage tells a way that a run goes and that
isn't known here.
"""
import re

# What changes the register that stands last, or none.
PLAIN = {"mov", "movb", "movw", "movl", "movq", "movabs", "movzbl", "movzwl", "movslq", "lea", "add", "sub", "and", "or", "xor"}
LOADED = re.compile(r"^\((%r\w+),%r\w+,4\)$")
BEGINNING, ENTRY, PLACE = "beginning", "entry", "place"
# The register of 64 bits of each part of it.
WHOLE = {f"%{part}": f"%r{name}x" for name in "abcd" for part in (f"r{name}x", f"e{name}x", f"{name}x", f"{name}l", f"{name}h")}
WHOLE |= {f"%{part}": f"%r{name}" for name in ("si", "di", "bp", "sp") for part in (f"r{name}", f"e{name}", name, f"{name}l")}
WHOLE |= {f"%r{number}{end}": f"%r{number}" for number in range(8, 16) for end in ("", "d", "w", "b")}


def tables_of(archive, function):
    """The tables that a function looks up: by where each begins the places that constant data points to from there on, up
    to where the next one begins."""
    bases = sorted({it.about for it in function.instructions if isinstance(it.about, tuple)})
    found = {}
    for (member, section, at), (kind, place) in archive.pointed.items():
        base = max((it for it in bases if it[:2] == (member, section) and it[2] <= at), default=None)
        if base is not None and isinstance(place, tuple):
            place = (*place[:2], place[2] - (at - base[2])) if "PC32" in kind else place
            found.setdefault(base, set()).add(place)
    return found


def places_of_jumps(archive, function, jumps):
    """The places that each of these jumps by tables may lead to; none, if its table leads out of the function."""
    tables = tables_of(archive, function)
    every = {place[2] for place in set().union(*tables.values()) if function.has(place)}
    within = {table: {place[2] for place in places} for table, places in tables.items() if all(map(function.has, places))}
    entered = {it.target[2] for it in function.instructions if it.target is not None and function.has(it.target)} | every
    found, known = {}, {}
    for it in function.instructions:
        known = {} if it.at in entered else known
        if it.at in jumps:
            kind, table = known.get(it.operands.removeprefix("*"), (None, None))
            found[it.at] = sorted(within.get(table, ()) if kind == PLACE else every)
        known = after(it, known)
    return found


def after(it, known):
    """What registers are known to hold after an instruction: where a table begins, an entry of it, or a place that it leads
    to."""
    if it.word not in PLAIN:
        return {}
    source, _, last = it.operands.rpartition(",")
    rest = {register: value for register, value in known.items() if register != WHOLE.get(last)}
    made = made_by(it, source, last, known) if WHOLE.get(last) == last else None
    return {**rest, last: made} if made else rest


def made_by(it, source, last, known):
    """What an instruction makes of what registers are known to hold, None if that is nothing of a table."""
    loaded = LOADED.match(source)
    if it.word == "lea" and source.endswith("(%rip)") and isinstance(it.about, tuple):
        return BEGINNING, it.about
    if it.word == "movslq" and loaded and known.get(loaded[1], (None,))[0] == BEGINNING:
        return ENTRY, known[loaded[1]][1]
    if it.word == "add" and source in known and last in known:
        table = known[source][1]
        return (PLACE, table) if {known[source], known[last]} == {(BEGINNING, table), (ENTRY, table)} else None
    return None
