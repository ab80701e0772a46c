"""checks/bounds tells what is deeper, longer or otherwise than is said, planted one at a time in a small archive."""
import shutil
import subprocess
import sys

import pytest
from conftest import ROOT

from parts.object_code.archive import Archive
from parts.object_code.calls import Calls
from parts.object_code.machines import AARCH64, X86_64

# A call with a loop of three instructions, which calls another function; one that calls itself; and one that asks for
# memory.
CODE = """\
    .macro function name
    .section .text.\\name,"ax",@progbits
    .globl \\name
    .type \\name,@function
\\name:
    .endm
    .macro over name
    .size \\name, .-\\name
    .endm

    function stand_receive
    pushq %rbx
    subq $32,%rsp
    movq %rsi,%rcx
0:  addq $4,%rdi
    decq %rcx
    jne 0b
    call stand_place
    addq $32,%rsp
    popq %rbx
    ret
    over stand_receive

    function stand_place
    pushq %rbp
    xorl %eax,%eax
    popq %rbp
    ret
    over stand_place

    function stand_open
    pushq %rbx
    testl %edi,%edi
    je 0f
    decl %edi
    call stand_open
    call rattle_alloc
0:  popq %rbx
    ret
    over stand_open
"""
RULES = """\
asks: _open
memory: rattle_alloc
outside: memset
levels 80: stand_open: as deep as it may be
loop 5: stand_receive 1 of 3: words of four octets
"""
# Return addresses are 8 octets each: 8 + 8 + 32, with 8 + 8 of what is called; 80 times 8 + 8, with 8 + 8 of the last
# call.
PAGE = """\
| in a `receive` | at most |
|---|---|
| words of four octets of the header | 5 |

| call | stack at most | measured | instructions at most | the most found |
|---|---|---|---|---|
| `stand_receive` | 64 | 60 | 26 | 20 |
| `stand_place` | 16 | | 4 | |
| `stand_open` | 1,288 | | | |
"""


@pytest.fixture
def checked(tmp_path):
    """Runs the check over an archive of this code, with these rules and this page, and measures nothing."""
    def check(code=CODE, rules=RULES, page=PAGE, compiler="cc", more=()):
        for name, text in ("code.s", code), ("rules.txt", rules), ("page.md", page):
            (tmp_path / name).write_text(text, encoding="utf-8")
        subprocess.run([compiler, "-c", "code.s", "-o", "code.o"], cwd=tmp_path, check=True)
        subprocess.run(["ar", "rc", "code.a", "code.o"], cwd=tmp_path, check=True)
        words = ["--library", "code.a", "--rules", "rules.txt", "--page", "page.md", "--seconds", "0", *more]
        command = [sys.executable, ROOT / "checks" / "bounds", *words]
        return subprocess.run(command, cwd=tmp_path, capture_output=True, text=True)
    return check


def test_bounds_that_hold(checked):
    done = checked()
    assert done.returncode == 0, done.stdout + done.stderr
    assert "| `stand_receive` | 64 |  | 26 |  |" in done.stdout and "0 problems" in done.stdout


# What stands in the code, the rules or the page; what is put in its place; and what is told.
SLIPS = [
    ("rules", "loop 5: stand_receive 1 of 3: words of four octets\n", "", "stand_receive: loop 1 of 3: no row"),
    ("rules", "loop 5", "loop 6", "6 turns, and its row says 5"),
    ("rules", "four octets", "six octets", "the page has 0 rows"),
    ("rules", "1 of 3", "1 of 4", "stand_receive has no loop 1 of 4"),
    ("code", "    jne 0b\n", "    jne 0b\n1:  decq %rdx\n    jne 1b\n", "stand_receive: loop 2 of 2: no row"),
    ("code", "    call stand_place\n    addq $32", "    subq $16,%rsp\n    call stand_place\n    addq $48",
     "stand_receive: stack: 80 at most, and docs/MEASURED.md says 64"),
    ("code", "    xorl %eax,%eax\n", "    subq $16,%rsp\n    addq $16,%rsp\n", "stand_receive: stack: 80 at most"),
    ("code", "    xorl %eax,%eax\n", "    xorl %eax,%eax\n    nop\n    nop\n",
     "instructions: 28 at most, and docs/MEASURED.md says 26"),
    ("code", "    xorl %eax,%eax\n", "    call rattle_alloc\n", "stand_receive: reaches rattle_alloc"),
    ("code", "    xorl %eax,%eax\n", "    call malloc\n", "reaches malloc, which checks/bounds.txt doesn't have"),
    ("code", "    xorl %eax,%eax\n", "    addsd %xmm0,%xmm1\n", "stand_place computes with floating-point numbers"),
    ("code", "    xorl %eax,%eax\n", "    call *%rax\n", "call *%rax leads to nothing known"),
    ("code", "    xorl %eax,%eax\n", "    call stand_receive\n", "nothing bounds how deep: stand_receive, stand_place"),
    ("code", "    xorl %eax,%eax\n", "    subq %rax,%rsp\n", "the stack after +1: sub %rax,%rsp"),
    ("code", "    addq $32,%rsp\n", "    addq $24,%rsp\n", "stand_receive: returns with 8 octets"),
    ("rules", "levels 80: stand_open: as deep as it may be\n", "", "nothing bounds how deep: stand_open"),
    ("rules", "levels 80", "levels 81", "stand_open: stack: 1,304 at most, and docs/MEASURED.md says 1,288"),
    ("page", "| `stand_place` | 16 | | 4 | |\n", "", "docs/MEASURED.md: no row of stand_place"),
    ("page", "stand_place", "stand_gone", "docs/MEASURED.md: no call stand_gone"),
]


@pytest.mark.parametrize("file, old, new, told", SLIPS, ids=[slip[3] for slip in SLIPS])
def test_a_slip_is_told(checked, file, old, new, told):
    texts = {"code": CODE, "rules": RULES, "page": PAGE}
    assert old in texts[file]
    done = checked(**{file: texts[file].replace(old, new, 1)})
    assert done.returncode == 1 and told in done.stdout, done.stdout + done.stderr


# Two jumps, one after the other, by a table each. No way leads back.
BY_TABLES = """\
    .section .text.stand_kind,"ax",@progbits
    .globl stand_kind
    .type stand_kind,@function
stand_kind:
    leaq .Lfirst(%rip),%rcx
    movslq (%rcx,%rdi,4),%rax
    addq %rcx,%rax
    jmp *%rax
.Lsecondly:
    leaq .Lsecond(%rip),%rcx
    movslq (%rcx,%rsi,4),%rax
    xorl %edx,%edx
.Lwithin:
    addq %rax,%rcx
    jmp *%rcx
.Lover:
    ret
    .size stand_kind, .-stand_kind

    .section .rodata.stand_kind,"a",@progbits
.Lfirst:
    .long .Lsecondly-.Lfirst
    .long .Lover-.Lfirst
.Lsecond:
    .long .Lover-.Lsecond
.Lnone:
    .long 0
"""
OF_TABLES = "outside: memset\n", """\
| call | stack at most | measured | instructions at most | the most found |
|---|---|---|---|---|
| `stand_kind` | 8 | | 10 | |
"""


def test_jumps_by_two_tables_make_no_circle(checked):
    done = checked(BY_TABLES, *OF_TABLES)
    assert done.returncode == 0 and "0 problems" in done.stdout, done.stdout + done.stderr


# What stands in that code, what is put in its place, and what is told: a circle where the second table leads back, and where
# it isn't known which of the two the second jump looks up.
BETWEEN, TAKEN = "xorl %edx,%edx", "addq %rax,%rcx\n    jmp *%rcx"
CIRCLE = "stand_kind: loop 1 of {}: no row"
OTHER_JUMPS = [
    (".Lover-.Lsecond", ".Lsecondly-.Lsecond", CIRCLE.format(5)),
    (".Lover-.Lfirst", ".Lwithin-.Lfirst", CIRCLE.format(5)),
    *((BETWEEN, other, CIRCLE.format(5)) for other in (
        "xorl %ecx,%ecx", "movb $0,%al", "movb $0,%ch", "movl %edi,%eax", "mulq %rdx", "xchgq %rdx,%rcx", "call memset",
        "movslq (%rax,%rsi,4),%rax")),
    (BETWEEN, "testl %edi,%edi\n    je .Lwithin", CIRCLE.format(6)),
    ("    ret", "    testl %edi,%edi\n    je .Lwithin\n    ret", CIRCLE.format(7)),
    ("(%rcx,%rsi,4)", "(%rdx,%rsi,4)", CIRCLE.format(5)),
    ("(%rcx,%rsi,4)", "4(%rcx,%rsi,4)", CIRCLE.format(5)),
    ("leaq .Lsecond(%rip),%rcx", "leal .Lsecond(%rip),%ecx", CIRCLE.format(5)),
    ("leaq .Lsecond(%rip),%rcx", "leaq .Lsecond(%rdi),%rcx", CIRCLE.format(5)),
    (TAKEN, TAKEN.replace("jmp *%rcx", "jmp *%rax"), CIRCLE.format(5)),
    (TAKEN, "addq %rax,%rax\n    jmp *%rax", CIRCLE.format(5)),
    (".Lover-.Lsecond", "0", "jmp *%rcx leads to nothing known"),
    (".Lover-.Lsecond", ".Lover+1-.Lsecond", "jmp *%rcx leads to nothing known"),
    ("leaq .Lsecond", "leaq .Lnone", "stand_kind: a jump into an instruction"),
    (".Lover-.Lsecond", ".Lsecondly+1-.Lsecond", "stand_kind: a jump into an instruction"),
]


@pytest.mark.parametrize("old, new, told", OTHER_JUMPS, ids=[new for _, new, _ in OTHER_JUMPS])
def test_what_else_a_jump_by_a_table_may_lead_to_is_told(checked, old, new, told):
    assert BY_TABLES.count(old) == 1
    done = checked(BY_TABLES.replace(old, new), *OF_TABLES)
    assert done.returncode == 1 and told in done.stdout, done.stdout + done.stderr


# For aarch64: a call whose frame is made in steps, which calls another function.
OF_AARCH64 = CODE[:CODE.index("    function")] + """\
    function stand_receive
    stp x29, x30, [sp, #-32]!
    str x19, [sp, #16]
    sub x9, sp, #2, lsl #12
    sub x9, x9, #0x400
0:  sub sp, sp, #0xc00
    cmp sp, x9
    str xzr, [sp]
    b.ne 0b
    bl stand_place
    add sp, sp, #2, lsl #12
    add sp, sp, #0x400
    ldr x19, [sp, #16]
    ldp x29, x30, [sp], #32
    ret
    over stand_receive

    function stand_place
    sub sp, sp, #16
    adrp x9, .Lfirst
    add x9, x9, :lo12:.Lfirst
    adr x10, .Lhere
.Lline:
    ldrb w11, [x9, x8]
    add x10, x10, x11, lsl #2
    br x10
.Lhere:
    add sp, sp, #16
    ret
.Lthere:
    add sp, sp, #16
    b memset
    over stand_place

    .section .rodata.stand_place,"a",@progbits
.Lfirst:
    .byte (.Lthere-.Lhere)/4
    .byte 0
"""
# 32 and 9,216 octets, and 16 of what is called.
PAGE_OF_AARCH64 = """\
| call | stack at most on aarch64 | measured |
|---|---|---|
| `stand_receive` | 9,264 | |
| `stand_place` | 16 | |
"""
DEPTH, NO_FORM = "stand_receive: stack: {} at most, and docs/MEASURED.md says 9,264", "stand_{}: the stack after +{}: "
SLIPS_OF_AARCH64 = [
    ("    bl stand_place\n", "    sub sp, sp, #16\n    bl stand_place\n    add sp, sp, #16\n", DEPTH.format("9,280")),
    ("sub x9, x9, #0x400", "sub x9, x9, #0x1000", "stand_receive: returns with 3072 octets"),
    ("sub x9, x9, #0x400", "sub x9, x8, #0x400", "stand_receive: returns with -6144 octets"),
    ("sub x9, x9, #0x400", "mov x9, x0", "stand_receive: returns with -6144 octets"),
    ("cmp sp, x9", "cmp sp, x10", "stand_receive: returns with -6144 octets"),
    ("str xzr, [sp]", "tst x0, x0", NO_FORM.format("receive", "18") + "tst x0, x0"),
    ("str xzr, [sp]", "ldr x9, [sp]", NO_FORM.format("receive", "18") + "ldr x9, [sp]"),
    ("ldp x29, x30, [sp], #32", "ldp x29, x30, [sp], #16", "stand_receive: returns with 16 octets"),
    ("b.ne 0b", "b.hi 0b", NO_FORM.format("receive", "1c") + "b.hi"),
    ("    bl stand_place\n", "    mov sp, x19\n    bl stand_place\n", NO_FORM.format("receive", "20") + "mov sp, x19"),
    ("    bl stand_place\n", "    sub sp, x29, #16\n    bl stand_place\n", NO_FORM.format("receive", "20") + "sub sp, x29, #0x10"),
    ("    bl stand_place\n", "    sub sp, sp, x19\n    bl stand_place\n", NO_FORM.format("receive", "20") + "sub sp, sp, x19"),
    ("bl stand_place", "bl stand_receive", "nothing bounds how deep: stand_receive"),
    ("bl stand_place", "bl malloc", "reaches malloc, which checks/bounds.txt doesn't have"),
    ("bl stand_place", "blr x8", "blr x8 leads to nothing known"),
    ("bl stand_place", "bl rattle_alloc", "stand_receive: reaches rattle_alloc"),
    ("sub sp, sp, #16", "fadd d0, d0, d1\n    sub sp, sp, #16", "stand_place computes with floating-point numbers"),
    ("b memset", "b malloc", "reaches malloc, which checks/bounds.txt doesn't have"),
    ("lsl #2\n    br", "lsl #3\n    br", "br x10 leads to nothing known"),
    ("ldrb w11, [x9, x8]", "ldrb w11, [x8, x9]", "br x10 leads to nothing known"),
    ("add x9, x9, :lo12:.Lfirst", "mov x12, x12", "br x10 leads to nothing known"),
    ("    br x10", "    mov x10, x0\n    br x10", "br x10 leads to nothing known"),
    ("    br x10", "    bl memset\n    br x10", "br x10 leads to nothing known"),
    ("    br x10", "    ldp x9, x10, [x0]\n    br x10", "br x10 leads to nothing known"),
    (".Lline:\n", "    cbz x0, .Lline\n.Lline:\n", "br x10 leads to nothing known"),
    ("    b memset", "    cbz x0, .Lline\n    b memset", "br x10 leads to nothing known"),
    ("    .byte 0\n", "    .byte 255\n", "br x10 leads to nothing known"),
]


@pytest.fixture
def checked_of_aarch64(checked):
    """The same of code for aarch64."""
    if not shutil.which("aarch64-linux-gnu-gcc"):
        pytest.skip("needs aarch64-linux-gnu-gcc")
    rules = "asks: _open\nmemory: rattle_alloc\noutside: memset\n"
    return lambda code=OF_AARCH64: checked(code, rules, PAGE_OF_AARCH64, "aarch64-linux-gnu-gcc", ["--aarch64"])


def test_bounds_of_aarch64_that_hold(checked_of_aarch64):
    done = checked_of_aarch64()
    assert done.returncode == 0, done.stdout + done.stderr
    assert "| `stand_receive` | 9,264 |  |" in done.stdout and "0 problems" in done.stdout


@pytest.mark.parametrize("old, new, told", SLIPS_OF_AARCH64, ids=[slip[1] for slip in SLIPS_OF_AARCH64])
def test_a_slip_of_aarch64_is_told(checked_of_aarch64, old, new, told):
    assert OF_AARCH64.count(old) == 1
    done = checked_of_aarch64(OF_AARCH64.replace(old, new))
    assert done.returncode == 1 and told in done.stdout, done.stdout + done.stderr


@pytest.mark.parametrize("machine, compiler", [(X86_64, "gcc"), (AARCH64, "aarch64-linux-gnu-gcc")], ids=["x86-64", "aarch64"])
def test_the_stack_of_each_function_is_what_its_compiler_says(tmp_path, machine, compiler):
    """Of the player in C: gcc tells what each function takes, the return address included. No frame is made only before a call
    that never returns, which isn't known of it."""
    if not shutil.which(compiler):
        pytest.skip(f"needs {compiler}")
    names = ("receiver", "settings", "toml", "base")
    for name in names:
        words = [compiler, "-O2", "-fno-shrink-wrap", "-fstack-usage", "-ffunction-sections", "-o", f"{name}.o", "-c"]
        subprocess.run([*words, ROOT / "peer" / f"{name}.c"], cwd=tmp_path, check=True)
    subprocess.run(["ar", "rc", "peer.a", *(f"{name}.o" for name in names)], cwd=tmp_path, check=True)
    calls, said = Calls(Archive(tmp_path / "peer.a", machine)), {}
    for name in names:
        for line in (tmp_path / f"{name}.su").read_text().splitlines():
            place, octets, kind = line.split("\t")
            said[place.rpartition(":")[2]] = int(octets)
    found = {function.name: machine.word + depths.most for function, depths in calls.depths.items() if function.name in said}
    assert not calls.problems and len(found) > 20
    assert found == {name: octets for name, octets in said.items() if name in found}


ANSWERS = ["y * 3", "y / 7", "y - 100", "y ^ 77", "y << 5", "y % 9", "~y", "y & 12"]
CASES = " ".join(f"case {case}: return {answer};" for case, answer in enumerate(ANSWERS))
CHANGES = " ".join(f"case {case}: y = {answer}; break;" for case, answer in enumerate(ANSWERS))
ONE = f"int kind(int x, int y) {{ switch (x) {{ {CASES} default: return y; }} }}\n"
TWO = f"int kind(int x, int y, int z) {{ switch (x) {{ {CHANGES} default: y++; }} switch (z) {{ {CASES} default: return y; }} }}\n"


@pytest.mark.parametrize("compiler, machine", [("gcc", X86_64), ("clang", X86_64), ("clang --target=aarch64-linux-gnu", AARCH64)])
@pytest.mark.parametrize("code, jumps", [(ONE, 1), (TWO, 2)], ids=["one", "two"])
def test_a_jump_by_a_table_leads_to_each_of_its_places(tmp_path, compiler, machine, code, jumps):
    words = compiler.split()
    if not shutil.which(words[0]) or not shutil.which(machine.objdump):
        pytest.skip(f"needs {compiler} and {machine.objdump}")
    (tmp_path / "cases.c").write_text(code)
    subprocess.run([*words, "-O2", "-fPIC", "-ffunction-sections", "-c", "cases.c"], cwd=tmp_path, check=True)
    subprocess.run(["ar", "rc", "cases.a", "cases.o"], cwd=tmp_path, check=True)
    calls = Calls(Archive(tmp_path / "cases.a", machine))
    function, flow = next(pair for pair in calls.flows.items() if pair[0].name == "kind")
    padding = {it.at for it in function.instructions if it.word.startswith(("nop", "data16", "xchg"))}
    assert not calls.problems and len(flow.by_table) == jumps and not flow.loops()
    assert flow.reached - padding == flow.at.keys() - padding
