"""The machines whose code can be followed: how binutils print it, and what differs in a call."""
import re
from typing import NamedTuple


class Machine(NamedTuple):
    """A machine: the program that disassembles its code, what begins a comment there, where an instruction's target stands, the
    octets that a call writes to the stack by itself, and which words compute with floating-point numbers."""
    objdump: str
    comment: str
    target: re.Pattern
    word: int
    floating: re.Pattern


X86_64 = Machine("objdump", "#", re.compile(r"^([0-9a-f]+)\b"), 8, re.compile(
    r"f(?!xsave|xrstor|ence)\w+|v?(?:add|sub|mul|div|sqrt|rsqrt|rcp|min|max|cmp\w*|comi|ucomi|round|dp|hadd|hsub|addsub)"
    r"[sp][sd]|v?cvt\w+|vfn?m(?:add|sub)\w+"))
AARCH64 = Machine("aarch64-linux-gnu-objdump", "//", re.compile(r"(?:^|, )([0-9a-f]+) <"), 0, re.compile(r"f(?!mov)\w+|[su]cvtf"))
