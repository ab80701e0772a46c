"""Wrong bodies that are tried by tests alone, without proof.

Those that the prover lets through, or would if the definition had the same mistake, stand in
wrong_bodies/by_tests/CRATE/NAME.edit. They have the form of all wrong bodies, and a line
`test: TESTCRATE::MODULE::NAME`, the test that has to fail. A line `by: checks/growths` says that the test fails
only where that check runs it, so that it isn't tried here. So it is with the program in C that `checks/c_interface` runs,
`test: checks/parts/codes.c`.

Each other wrong body has the tests that carry one of its rules (checks/parts/tree.py). A line `# told by: the proof alone`
says that none of them sees it.
"""
import hashlib
import os
import re
import subprocess
from dataclasses import dataclass, field

from parts.options import ROOT
from parts.tree import bodies, functions
from proving import build_folder, lay_crates, lines_of_crates, with_those_below

CRATES = ROOT / "crates"
OUTSIDE = ROOT / "wrong_bodies"
FOLDER = OUTSIDE / "by_tests"
ALONE = ("# told by", "the proof alone")
# What is kept of a try in which all tests passed.
PASSED = "-"
ANSWER = r"^test (\S+) \.\.\. (ok|FAILED)$"


# ---- the wrong bodies

def all_of(crate):
    """All wrong bodies of a crate."""
    folders = (CRATES / crate / "must-fail", OUTSIDE / crate, FOLDER / crate)
    return [edit for folder in folders for edit in sorted(folder.glob("*.edit"))]


def crates():
    """The crates that have wrong bodies, in the order of crates.txt."""
    return [name for name in lines_of_crates() if all_of(name)]


def wanted(crates):
    """All wrong bodies of these crates; or, if none is named, those that name a test."""
    if crates:
        return [edit for crate in crates for edit in all_of(crate)]
    return sorted(FOLDER.glob("*/*.edit"))


def name_of(edit):
    """The name by which checks/book knows a wrong body."""
    return str(edit.relative_to(CRATES if edit.is_relative_to(CRATES) else ROOT))


def crate_of(edit):
    """The crate that a wrong body changes."""
    return edit.parent.parent.name if edit.parent.name == "must-fail" else edit.parent.name


def lines_of(edit):
    """The lines of a wrong body: the word before each colon, and the text after it."""
    return [tuple(line.split(": ", 1)) for line in edit.read_text(encoding="utf-8").splitlines() if line]


def check_of(edit):
    """The check that has to run the test that a wrong body names, or None if any run does."""
    return dict(lines_of(edit)).get("by")


# ---- the tests that tell them

@dataclass
class Cited:
    """The tests that carry a rule of a wrong body, and whether it says that none sees it."""
    tests: list = field(default_factory=list)
    is_alone: bool = False


def cited():
    """What is to be tried of each wrong body, by its name."""
    tests = {}
    for it in functions():
        for rule in it.rules if it.is_test else ():
            tests.setdefault(rule, []).append(it.name)
    return {body.name: Cited(list(dict.fromkeys(test for rule in body.rules for test in tests.get(rule, ()))), ALONE in lines_of(body.path))
            for body in bodies()}


def cited_for(edit, of_all):
    """The tests that have to tell a wrong body: the one that it names, or those of its rules."""
    test = dict(lines_of(edit)).get("test")
    return Cited([test]) if test else of_all.get(name_of(edit), Cited())


def size_of(crate):
    """How many octets a crate's code has: the tests of a small crate run first."""
    return sum(path.stat().st_size for path in (CRATES / crate / "src").glob("**/*.rt"))


def by_crate(tests, edit):
    """The tests by their crates, the smallest crate first, as `MODULE::NAME`; with a wrong body those that run it.
    """
    found = {}
    for test in tests:
        crate, _, name = test.partition("::")
        if edit is None or crate_of(edit) in with_those_below([crate]):
            found.setdefault(crate, []).append(name)
    return sorted(found.items(), key=lambda one: size_of(one[0]))


# ---- what was tried before

class Tried:
    """What came of a try, in a file that is kept. A try is of a wrong body, its crate, and the crate of the tests."""

    def __init__(self, folder):
        self.file = folder / "tried"
        lines = self.file.read_text(encoding="utf-8").splitlines() if self.file.exists() else []
        self.answers = dict(line.split(" ", 1) for line in lines)

    def key(self, edit, crate, names):
        """A number for the contents of a wrong body, of its crate, and of this crate of tests; without one, for
        those of all crates that the tests run."""
        below = with_those_below([crate])
        if edit:
            below = [name for name in below if name in (crate, crate_of(edit)) or name.startswith("test_")]
        words = [edit.read_text(encoding="utf-8") if edit else "", crate, *sorted(names)]
        sources = sorted(path for name in below for path in (CRATES / name / "src").glob("**/*.rt"))
        texts = [word.encode() for word in words] + [path.read_bytes() for path in sources]
        return hashlib.sha256(b"\0".join(texts)).hexdigest()

    def keep(self, key, answer):
        self.answers[key] = answer
        with open(self.file, "a", encoding="utf-8") as file:
            print(key, answer, file=file)


# ---- trying

def lay_wrong(folder, edit):
    """Makes the change of a wrong body in a copy of its crate. Returns whether each old text stood there once."""
    path, old = None, None
    for word, text in lines_of(edit):
        if word == "file":
            path = folder / "crates" / crate_of(edit) / text
        elif word == "old":
            old = text
        elif word == "new":
            source = path.read_text(encoding="utf-8")
            if source.count(old) != 1:
                return False
            path.write_text(source.replace(old, text), encoding="utf-8")
    return True


class NotTried(Exception):
    """Why it isn't known whether tests fail."""


def failing_tests(folder, crate, names):
    """Runs tests of a crate without proof. Returns the names of those that fail."""
    # It runs all tests that have one text in their names.
    common = os.path.commonprefix(names)
    done = subprocess.run(["rt", "try", "--test", *(["--", common] if common else [])], cwd=folder / "crates" / crate,
                          stdin=subprocess.DEVNULL, stdout=subprocess.PIPE, stderr=subprocess.STDOUT, text=True)
    answers = dict(re.findall(ANSWER, done.stdout, re.M))
    if any(name not in answers for name in names) or ("FAILED" in answers.values()) == (done.returncode == 0):
        raise NotTried(f"status {done.returncode}: {done.stdout[-200:]!r}")
    return [name for name in names if answers[name] == "FAILED"]


class Trial:
    """The tries of a run, in a folder with copies of all crates that they need."""

    def __init__(self, crates):
        self.crates = crates
        self.folder = build_folder("wrong_bodies_by_tests")
        lay_crates(self.folder, crates)
        self.tried = Tried(self.folder)

    def failing(self, edit, crate, names):
        """The first of these tests that fails with this wrong body, or without one; None if all pass."""
        key = self.tried.key(edit, crate, names)
        if key not in self.tried.answers:
            lay_crates(self.folder, self.crates)
            if edit and not lay_wrong(self.folder, edit):
                raise NotTried("its old text doesn't stand there once")
            failed = failing_tests(self.folder, crate, names)
            self.tried.keep(key, failed[0] if failed else PASSED)
        answer = self.tried.answers[key]
        return None if answer == PASSED else f"{crate}::{answer}"

    def first_failing(self, edit, tests):
        """The first of these tests that fails with this wrong body, the smallest crate first; None if all pass."""
        for crate, names in by_crate(tests, edit):
            test = self.failing(edit, crate, names)
            if test:
                return test
        return None

    def try_wrong(self, edit, said):
        """Tries a wrong body with these tests. Prints its line, and returns the word by which it is counted."""
        try:
            word, line = judged(self.first_failing(edit, said.tests), said)
        except NotTried as reason:
            word, line = "not told", f"NOT TRIED: {reason}"
        print(f"{edit.relative_to(ROOT)}: {line}", flush=True)
        return word


def judged(test, said):
    """The word by which a wrong body is counted, and what its line says, if this test fails."""
    if not said.tests:
        return "without a test", "no test is cited"
    if test:
        return ("not told", f"NOT BY THE PROOF ALONE, told by {test}") if said.is_alone else ("told", f"told by {test}")
    if said.is_alone:
        return "seen by the proof alone", "seen by the proof alone, as it says"
    return "not told", f"NOT TOLD, seen by the proof alone: {', '.join(said.tests)}"


def tests_of(edits, of_all):
    """All tests that have to tell these wrong bodies, and can."""
    return sorted({f"{crate}::{name}" for edit in edits
                   for crate, names in by_crate(cited_for(edit, of_all).tests, edit) for name in names})


def try_all(edits):
    """Tries wrong bodies one after another. Prints a line for each and the counts, and returns the exit status."""
    apart, of_all = [edit for edit in edits if check_of(edit)], cited()
    tried = [edit for edit in edits if edit not in apart]
    tests = tests_of(tried, of_all)
    trial = Trial(sorted({test.partition("::")[0] for test in tests} | {crate_of(edit) for edit in tried}))
    try:
        failing = trial.first_failing(None, tests)
    except NotTried as reason:
        failing = reason
    if failing:
        print(f"the tests don't pass as the tree stands: {failing}")
        return 1
    words = [trial.try_wrong(edit, cited_for(edit, of_all)) for edit in tried]
    for edit in apart:
        print(f"{edit.relative_to(ROOT)}: not tried, since its test fails where {check_of(edit)} runs it")
    kinds = ("told", "seen by the proof alone", "without a test", "not told")
    counts = ", ".join(f"{words.count(kind)} {kind}" for kind in kinds)
    print(f"{len(tried)} wrong bodies tried by {len(tests)} tests: {counts}; {len(apart)} not tried")
    return 1 if "not told" in words else 0
