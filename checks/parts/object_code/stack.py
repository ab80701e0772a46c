"""How deep a function's own stack is at each call of x86-64 code, by what it pushes and takes off the stack pointer."""
import re

from parts.object_code.archive import ENDS, STOPS
from parts.object_code.flow import Unfollowed

WORD = 8
NUMBER = re.compile(r"^\$(0x[0-9a-f]+|-0x[0-9a-f]+),%rsp$")
LOADED = re.compile(r"^(-?0x[0-9a-f]+)\((%r[sb]p)\),%rsp$")
CHANGED = re.compile(r",%[re]?sp$")


class Depths:
    """The octets below the return address at each instruction of a function, and the most of all."""

    first = (0, None)

    def __init__(self, flow):
        self.flow, self.at = flow, {}
        waiting = [(flow.function.first, self.first)]
        while waiting:
            place, state = waiting.pop()
            if place in self.at:
                if self.at[place][0] != state[0] and flow.at[place].word not in STOPS:
                    raise Unfollowed(f"{flow.function.name}: two depths at +{place - flow.function.first:x}: "
                                     f"{self.at[place][0]} and {state[0]}")
                continue
            self.at[place] = state
            if flow.at[place].word in ENDS and state[0]:
                raise Unfollowed(f"{flow.function.name}: returns with {state[0]} octets")
            waiting += self.ways(flow.at[place], state)
        self.most = max(depth for depth, *_ in self.at.values())

    def ways(self, it, state):
        """What comes after an instruction, each with the state there."""
        after = self.after(it, state)
        return [(to, after) for to in self.flow.follows[it.at]]

    def before(self, instruction):
        return self.at[instruction.at][0]

    def after(self, it, state):
        """The depth after an instruction, and where the frame's pointer stands, if it was set from the stack
        pointer."""
        depth, frame = state
        if it.word.startswith("push"):
            return depth + WORD, frame
        if it.word.startswith("pop"):
            return depth - WORD, None if it.operands == "%rbp" else frame
        if it.word in ("sub", "subq", "add", "addq") and it.operands.endswith(",%rsp"):
            return self.by_number(it, depth), frame
        if it.word == "and" and it.operands.endswith(",%rsp"):
            return depth + self.rounding(it), frame
        if it.word in ("mov", "movq") and it.operands == "%rsp,%rbp":
            return depth, depth
        if it.word.startswith("leave"):
            return self.known(it, frame) - WORD, None
        if it.word.startswith("lea") and LOADED.match(it.operands):
            offset, base = LOADED.match(it.operands).groups()
            return (depth if base == "%rsp" else self.known(it, frame)) - int(offset, 16), frame
        if it.word in ("mov", "movq") and it.operands == "%rbp,%rsp":
            return self.known(it, frame), frame
        if CHANGED.search(it.operands) and not it.word.startswith(("cmp", "test")):
            raise self.unknown(it)
        return state

    def by_number(self, it, depth):
        found = NUMBER.match(it.operands)
        if not found:
            raise self.unknown(it)
        number = int(found[1], 16)
        number -= (1 << 64) if number >= 1 << 63 else 0
        return depth + number if it.word.startswith("sub") else depth - number

    def rounding(self, it):
        """What rounding the stack pointer down to a multiple takes at most."""
        found = NUMBER.match(it.operands)
        multiple = -int(found[1], 16) % (1 << 64) if found else 0
        if not WORD <= multiple <= 1 << 12:
            raise self.unknown(it)
        return multiple - WORD

    def known(self, it, frame):
        if frame is None:
            raise self.unknown(it)
        return frame

    def unknown(self, it):
        function = self.flow.function
        return Unfollowed(f"{function.name}: the stack after +{it.at - function.first:x}: {it.word} {it.operands}")
