"""Where jumps by tables of aarch64 code lead.

A compiler writes such a jump in six steps: the address of the table, in two of them; the place that entries count from; an
entry, of one or two octets; the sum of these, of which an entry counts instructions; and a jump to the sum. As for x86-64
(tables.py) they have to stand in one straight line, and an instruction that isn't among PLAIN counts as one that changes
every register. A jump that isn't written so leads to nothing known.
"""
import re

# What changes the register that stands first, or none.
PLAIN = {"mov", "movk", "sub", "add", "and", "orr", "lsl", "adrp", "adr", "ldrb", "ldrh", "ldr", "cmp", "str", "strb"}
ORIGIN, SUM = re.compile(r"^(x\d+), ([0-9a-f]+) <"), re.compile(r"^(x\d+), (x\d+), [wx](\d+), (?:uxt[bh] #2|lsl #2)$")
LOADED = re.compile(r"^w(\d+), \[(x\d+), [wx]\d+(?:, (?:lsl|uxtw) #1)?\]$")
CONTENTS = re.compile(r"^ ([0-9a-f]+) ((?:[0-9a-f]{2,8} ){1,4})")
SIZES = {"ldrb": 1, "ldrh": 2}


def places_of_jumps(archive, function, jumps):
    """The places that each of these jumps by tables may lead to."""
    entered = {it.target[2] for it in function.instructions if it.target is not None and function.has(it.target)}
    found, known = {}, {}
    for it in function.instructions:
        known = {} if it.at in entered else known
        if it.at in jumps:
            found[it.at] = sorted(places_of(archive, function, known.get(it.operands)))
        known = after(it, known)
    return found


def places_of(archive, function, value):
    """Where a sum of a place and an entry may be: by each entry from where the table begins to where another one does. None, if
    one is out of the function."""
    kind, origin, (table, size) = value if value and value[0] == "sum" else (None, None, (None, 1))
    if kind is None:
        return set()
    ends = [it.about[2] for it in function.instructions
            if isinstance(it.about, tuple) and it.about[:2] == table[:2] and it.about[2] > table[2]]
    octets = octets_of(archive, table)[table[2]:min(ends, default=None)]
    numbers = [int.from_bytes(octets[at:at + size], "little") for at in range(0, len(octets), size)]
    found = {origin + 4 * number for number in numbers}
    return found if all(function.has((function.member, function.section, at)) for at in found) else set()


def octets_of(archive, place):
    """The octets of the section of a place."""
    member, found = None, bytearray()
    for line in archive.told("-s", "-j", place[1]):
        member = line.split(":")[0] if "file format" in line else member
        row = CONTENTS.match(line)
        if row and member == place[0]:
            found += bytes.fromhex(row[2])
    return bytes(found)


def after(it, known):
    """What registers are known to hold after an instruction."""
    if it.word not in PLAIN or "!" in it.operands or "], #" in it.operands:
        return {}
    changed = "x" + it.operands.partition(",")[0][1:]
    rest = {register: value for register, value in known.items() if register != changed}
    made = made_by(it, changed, known)
    return {**rest, changed: made} if made else rest


def made_by(it, changed, known):
    """What an instruction makes of what registers are known to hold, None if that is nothing of a table."""
    origin, loaded, both = ORIGIN.match(it.operands), LOADED.match(it.operands), SUM.match(it.operands)
    if it.word == "adrp" and isinstance(it.about, tuple):
        return "page", it.about
    if it.word == "add" and it.about is not None and known.get(changed) == ("page", it.about):
        return "beginning", it.about
    if it.word == "adr" and origin:
        return "origin", int(origin[2], 16)
    if it.word in SIZES and loaded and known.get(loaded[2], (None,))[0] == "beginning":
        return "entry", (known[loaded[2]][1], SIZES[it.word])
    if it.word == "add" and both and known.get(both[2], (None,))[0] == "origin" and known.get(f"x{both[3]}", (None,))[0] == "entry":
        return "sum", known[both[2]][1], known[f"x{both[3]}"][1]
    return None
