"""The functions of an archive of code for x86-64 or aarch64, instruction by instruction, as binutils tell them.

A place is (member, section, offset). What isn't in the archive is told by its name alone.
"""
import re
import subprocess
from typing import NamedTuple

from parts.object_code.machines import X86_64

MEMBER = re.compile(r"^(\S+):\s+file format \S+$")
SECTION = re.compile(r"^Disassembly of section (.+):$")
SYMBOL = re.compile(r"^([0-9a-f]+) (.{7}) (.+?)\t([0-9a-f]+)\s+(?:\.hidden )?(.+)$")
LINE = re.compile(r"^\s*([0-9a-f]+):\t(.*)$")
RELOCATION = re.compile(r"\t([0-9a-f]+): (R_(?:X86_64|AARCH64)_\w+)\t(.+)$")
RELATIVE = re.compile("PC32|PLT32|GOTPC")
OF_DATA = re.compile(r"^([0-9a-f]+) (R_(?:X86_64|AARCH64)_\w+)\s+(.+)$")
ADDEND = re.compile(r"^(.*?)([+-]0x[0-9a-f]+)?$")
# What a compiler adds to the name of a function for some types, a sum that another build may have otherwise.
OF_TYPES = re.compile(r"<#[0-9a-f]+>")
PREFIXES = {"lock", "rep", "repz", "repnz", "notrack", "bnd", "data16", "cs", "ds", "es", "fs"}
# What ends a function besides a jump: a return, and what stops the processor.
ENDS, STOPS = {"ret", "retq"}, {"ud2", "hlt", "int3", "brk", "udf"}
# The branches of aarch64 that aren't named for what they ask.
BRANCHES = {"cbz", "cbnz", "tbz", "tbnz"}


class Instruction(NamedTuple):
    """An instruction: its offset in its section, its prefixes and word, and its operands; where it jumps to or what
    it calls, as a place or a name; and the place or name of what else it speaks of."""
    at: int
    prefix: str
    word: str
    operands: str
    target: object
    about: object

    @property
    def is_call(self):
        return self.word in ("call", "callq", "bl", "blr")

    @property
    def is_jump(self):
        return self.word in ("jmp", "jmpq", "b", "br")

    @property
    def is_branch(self):
        return self.word.startswith(("j", "b.")) and not self.is_jump or self.word in BRANCHES

    @property
    def repeats(self):
        return self.prefix.startswith("rep") and self.word.startswith(("movs", "stos", "cmps", "scas", "lods"))

    @property
    def is_indirect(self):
        return (self.is_call or self.is_jump) and self.operands.startswith("*") or self.word in ("br", "blr")


class Function(NamedTuple):
    """A function: its name without a sum of types, and with it; where it stands, its octets, whether other objects see it,
    and its instructions without what pads it."""
    name: str
    symbol: str
    member: str
    section: str
    first: int
    size: int
    is_export: bool
    instructions: tuple

    def has(self, place):
        return place[:2] == (self.member, self.section) and self.first <= place[2] < self.first + self.size


class Archive:
    """All functions of an archive, what its symbols stand for, and the places that its constant data points to."""

    def __init__(self, path, machine=X86_64):
        self.path, self.machine, self.symbols, self.exports, self.sizes = path, machine, {}, {}, {}
        self.read_symbols()
        self.pointed = self.read_data()
        self.functions = self.read_code()
        self.by_place = {(it.member, it.section, it.first): it for it in self.functions}

    def told(self, *words):
        """The lines that objdump prints."""
        command = [self.machine.objdump, *words, str(self.path)]
        return subprocess.run(command, stdout=subprocess.PIPE, check=True, text=True, errors="replace").stdout.splitlines()

    def read_symbols(self):
        member = None
        for line in self.told("-t"):
            opened, symbol = MEMBER.match(line), SYMBOL.match(line)
            member = opened[1] if opened else member
            if symbol and symbol[3] != "*UND*":
                place = (member, symbol[3], int(symbol[1], 16))
                self.symbols[member, symbol[5]] = place
                if "F" in symbol[2]:
                    self.sizes[place] = (int(symbol[4], 16), symbol[5])
                if symbol[2][0] in "gu" or "w" in symbol[2]:
                    self.exports.setdefault(symbol[5], place)

    def place_of(self, member, text, beyond):
        """The place that a relocation's text names, `beyond` its addend, or the name of what isn't here."""
        name, addend = ADDEND.match(text).groups()
        offset = int(addend or "0", 16) + beyond
        if (member, name) in self.symbols or name in self.exports:
            found = self.symbols.get((member, name)) or self.exports[name]
            return (*found[:2], found[2] + offset)
        return (member, name, offset) if name.startswith(".") else name

    def read_data(self):
        """What constant data points to: the places, by the place of the pointer; for relative ones, by the pointer's
        own offset."""
        member = section = None
        pointed = {}
        for line in self.told("-r"):
            opened, found = MEMBER.match(line), OF_DATA.match(line)
            member = opened[1] if opened else member
            if line.startswith("RELOCATION RECORDS FOR ["):
                section = line.partition("[")[2].rpartition("]")[0]
            elif found and section.startswith((".rodata", ".data")):
                at = int(found[1], 16)
                pointed[member, section, at] = (found[2], self.place_of(member, found[3], 0))
        return pointed

    def read_code(self):
        functions, member, section, lines = [], None, None, []
        for line in [*self.told("-d", "-r", "-w", "-z", "--no-show-raw-insn"), "end:     file format none"]:
            opened, headed, found = MEMBER.match(line), SECTION.match(line), LINE.match(line)
            if opened or headed:
                functions += self.functions_of(member, section, lines)
                member, section, lines = (opened[1], None, []) if opened else (member, headed[1], [])
            elif found:
                lines.append((int(found[1], 16), found[2]))
        return functions

    def functions_of(self, member, section, lines):
        """The functions of a section, by the symbols that say where each begins and how long it is."""
        exported = set(self.exports.values())
        starts = sorted((place, *size) for place, size in self.sizes.items() if place[:2] == (member, section))
        for place, size, name in starts:
            first = place[2]
            within = [line for line in lines if first <= line[0] < first + size]
            code = tuple(self.instruction(member, section, at, text) for at, text in within)
            plain = OF_TYPES.sub("<>", name)
            yield Function(plain, name, member, section, first, size, place in exported, code)

    def instruction(self, member, section, at, text):
        named = RELOCATION.search(text)
        words = text[:named.start() if named else None].split(self.machine.comment)[0].split()
        prefix = []
        while len(words) > 1 and words[0] in PREFIXES:
            prefix.append(words.pop(0))
        word, operands = words[0], " ".join(words[1:])
        about = None
        if named:
            # A relative operand counts from the instruction's end, which is four octets after the place of the last
            # operand.
            about = self.place_of(member, named[3], 4 if RELATIVE.search(named[2]) else 0)
        made = Instruction(at, " ".join(prefix), word, operands, None, about)
        if (made.is_call or made.is_jump or made.is_branch) and not made.is_indirect:
            target = about if named else (member, section, int(self.machine.target.search(operands)[1], 16))
            made = made._replace(target=target, about=None)
        return made

    def function_at(self, place):
        """The function that begins at a place, or None."""
        return self.by_place.get(place) if isinstance(place, tuple) else None
