"""How deep a function's own stack is at each call of aarch64 code."""
import re

from parts.object_code.stack import Depths

MOVED = re.compile(r"^(sp|x\d+), (sp|x\d+), #(0x[0-9a-f]+)(?:, lsl #(\d+))?$")
FIRST, THEN, COMPARED = re.compile(r"\[sp, #(-?\d+)\]!$"), re.compile(r"\[sp\], #(-?\d+)$"), re.compile(r"^sp, (x\d+)$")
CHANGED = re.compile(r"^sp\b|\[sp\b.*\]!$|\[sp\], ")
STORES, LOADS = ("str", "stp", "stur"), ("ldr", "ldp", "ldur")


class DepthsOfAarch64(Depths):
    """The octets of a function's own stack at each of its instructions.

    A large frame is made step by step, each of which is written to, until the stack pointer is as low as a register says. So
    a state is the depth, that register with its own depth, and whether the two were just compared."""

    first = (0, None, False)

    def after(self, it, state):
        depth, lowest, _ = state
        moved, within = MOVED.match(it.operands), FIRST.search(it.operands) or THEN.search(it.operands)
        if it.word in ("sub", "add") and moved:
            return self.moved(it, state, *moved.groups())
        if it.word.startswith((*STORES, *LOADS)) and within:
            return depth - int(within[1]), self.kept(it, lowest), False
        if it.word == "cmp" and COMPARED.match(it.operands):
            return depth, lowest, lowest is not None and COMPARED.match(it.operands)[1] == lowest[0]
        if CHANGED.search(it.operands):
            raise self.unknown(it)
        # A store changes no register, and no flag.
        return state if it.word.startswith(STORES) else (depth, self.kept(it, lowest), False)

    def moved(self, it, state, to, of, number, shift):
        """The state after a register is so many octets away from another one."""
        depth, lowest, _ = state
        octets = (int(number, 16) << int(shift or 0)) * (1 if it.word == "sub" else -1)
        if to == of == "sp":
            return depth + octets, lowest, False
        if to == "sp":
            raise self.unknown(it)
        if of == "sp":
            return depth, (to, depth + octets), False
        known = lowest is not None and to == of == lowest[0]
        return depth, (to, lowest[1] + octets) if known else self.kept(it, lowest), False

    def kept(self, it, lowest):
        """The register, if the instruction doesn't speak of it, and calls nothing."""
        return lowest if lowest and not it.is_call and not re.search(rf"\b[wx]{lowest[0][1:]}\b", it.operands) else None

    def ways(self, it, state):
        """A frame is whole once the two are equal; until then another step is made, from where the first one was."""
        depth, lowest, compared = state
        if not compared or it.word.startswith(STORES):
            return super().ways(it, state)
        if it.word != "b.ne" or it.target[2] not in self.at or lowest[1] < depth:
            raise self.unknown(it)
        return [(self.flow.after[it.at], (lowest[1], None, False))]
