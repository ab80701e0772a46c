"""What checks/coverage tells of code that no run executes, and of branches that go one way alone, in a small
archive."""
import shutil
import subprocess

import pytest
import conftest  # noqa: F401

from parts.object_code.archive import Archive
from parts.object_code.calls import Calls
from parts.object_code.counted import FIXED, Counts, Failed, count, sections_of
from parts.object_code.covered import holes_of
from parts.object_code.reasons import Reasons
from parts.object_code.shares import LEAST, parts_of, problems_of, total

pytestmark = pytest.mark.skipif(not shutil.which("valgrind"), reason="needs valgrind")

# A branch that is followed where there is no frame, and passed else.
CODE = """\
    .section .text.stand_receive,"ax",@progbits
    .globl stand_receive
    .type stand_receive,@function
stand_receive:
    testl %edi,%edi
    je 0f
    movl $3,%eax
    ret
0:  xorl %eax,%eax
    ret
    .size stand_receive, .-stand_receive
"""
PLANTED = CODE.replace("stand_receive", "stand_planted").replace("    .globl stand_planted\n", "")
EXPORTED = CODE.replace("stand_receive", "stand_place")
# A table's second entry stands where another one seems to begin, so that it seems to lead elsewhere.
HIDDEN = """\
    .section .text.stand_receive,"ax",@progbits
    .globl stand_receive
    .type stand_receive,@function
stand_receive:
    leaq .Ltable(%rip),%rcx
    movslq (%rcx,%rdi,4),%rax
    addq %rcx,%rax
    jmp *%rax
.Lone:
    leaq .Lother(%rip),%rdx
    ret
.Ltwo:
    .rept 4
    nop
    .endr
    ret
    .size stand_receive, .-stand_receive

    .section .rodata.stand_receive,"a",@progbits
.Ltable:
    .long .Lone-.Ltable
.Lother:
    .long .Ltwo-.Ltable
"""
PROGRAM = """\
#include <stdlib.h>
int stand_receive(int frame);
int main(int n, char **words) { return n != 2 || stand_receive(atoi(words[1])) < 0; }
"""
BOTH = (["1"], ["0"])


@pytest.fixture
def told(tmp_path):
    """What is told of an archive of this code, after runs with these words, with these reasons."""
    def tell(code=CODE, runs=BOTH, reasons="", program=PROGRAM):
        for name, text in ("code.s", code), ("main.c", program), ("reasons.txt", reasons):
            (tmp_path / name).write_text(text, encoding="utf-8")
        for words in (["cc", "-c", "code.s"], ["ar", "rc", "code.a", "code.o"],
                      ["cc", *FIXED, "-Wl,-Map=main.map", "main.c", "code.a", "-o", "main"]):
            subprocess.run(words, cwd=tmp_path, check=True)
        archive, counts = Archive(tmp_path / "code.a"), Counts()
        sections = sections_of((tmp_path / "main.map").read_text(encoding="utf-8"), tmp_path / "code.a")
        for words in runs:
            count(counts, tmp_path / "main", words, sections, tmp_path)
        calls = Calls(archive)
        holes = {function: holes_of(flow, counts) for function, flow in calls.flows.items()}
        parts = parts_of(calls)
        problems = problems_of(calls, parts, holes, Reasons(tmp_path / "reasons.txt"))
        return list(problems), total(parts["the whole archive"], holes)
    return tell


def test_all_is_exercised(told):
    assert told() == ([], (6, 6, 1, 1, 0))


LEFT = "stand_receive of code.o: 2 instructions and 1 ways weren't gone, and reasons.txt has reasons for "
FEW = f"of 1 branches 0 were followed and passed or have a reason, {LEAST} in 100 is the least"


@pytest.mark.parametrize("word", ["0", "1"])
def test_a_way_that_is_never_gone_is_told(told, word):
    assert told(runs=[[word]]) == ([f"{LEFT}0 and 0", FEW], (6, 4, 1, 0, 1))


def test_a_reason_is_for_so_much_and_no_more(told):
    reason = "2 1: stand_receive: contract: no empty frame\n"
    assert told(runs=[["1"]], reasons=reason)[0] == []
    assert told(runs=[["1"]], reasons=reason.replace("2", "1"))[0] == [f"{LEFT}1 and 1"]
    assert told(reasons=reason)[0] == ["reasons.txt: stand_receive: reasons for 2 and 1, and 0 and 0 weren't gone"]
    assert "no line of this file" in told(reasons="stand_receive: no number\n")[0][0]
    assert "no line of this file" in told(reasons=reason.replace("contract", "belief"))[0][0]


def test_a_way_that_the_disassembly_does_not_have_is_told(told):
    found, program = "stand_receive: a run went from +e to +18, and no way does", PROGRAM.replace("< 0", "== -1")
    assert found in told(code=HIDDEN, program=program)[0]
    assert found not in told(code=HIDDEN, program=program, runs=[["0"]])[0]


BEGIN, END = CODE.split("    testl")[0], "    .size stand_receive, .-stand_receive\n"
# Of each shape a function with a way that isn't gone, and what is in the place of its mark if it is another shape.
SHAPES = {
    "copy": ("""\
    subq $8,%rsp
    movl $1,%edx
    leaq -16(%rsp),%rsi
    movq %rsp,%rdi
    movq %rdi,%rax
    subq %rsi,%rax
    cmpq %rdx,%rax
    jae 0f
    movzbl (%rsi),%ecx
    movb %cl,(%rdi)
    jmp 1f
0:  call memmove
1:  xorl %eax,%eax
    addq $8,%rsp
    ret
""", "memmove", "memcmp"),
    "panic": ("""\
    testl %edi,%edi
    je 0f
    xorl %eax,%eax
    ret
0:  ud2
""", "ud2", "ret"),
    "size": ("""\
    movslq %edi,%rdi
    movabsq $0x333333333333333,%rax
    cmpq %rax,%rdi
    movl $0,%eax
    ja 0f
    ret
0:  movl $3,%eax
    ret
""", "$0x333333333333333", "$0x333333"),
    "row": ("""\
    cmpl $0x12,%edi
    jb 1f
0:  movl -8(%rsp),%eax
    movl %eax,-4(%rsp)
    decl %edi
    jne 0b
1:  xorl %eax,%eax
    ret
""", "$0x12", "$0x11"),
}


@pytest.mark.parametrize("name", SHAPES)
def test_a_way_of_this_shape_has_a_reason_and_no_other(told, name):
    code, mark, other = SHAPES[name]
    assert told(code=BEGIN + code + END, runs=[["1"]])[0] == []
    problems = told(code=BEGIN + code.replace(mark, other) + END, runs=[["1"]])[0]
    assert "and reasons.txt has reasons for 0 and 0" in problems[0] and problems[1:] == [FEW.replace("1 branches", f"{1 + (name == 'row')} branches")]


def test_a_function_that_no_test_calls_is_told(told):
    problems, _ = told(code=CODE + EXPORTED)
    assert problems == ["stand_place: no run executes it", FEW.replace("1 branches 0", "2 branches 1")]


def test_a_function_that_nothing_reaches_is_told(told):
    assert "stand_planted: no call reaches it" in told(code=CODE + PLANTED)[0]


def test_a_run_that_fails_is_no_run(told):
    with pytest.raises(Failed):
        told(program=PROGRAM.replace("< 0", "== 3"))
