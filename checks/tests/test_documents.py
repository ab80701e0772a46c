"""checks/documents finds each kind of gap, planted in a copy of the tree: an example in a comment whose lines no test has, and
links and anchors that lead nowhere, a word that isn't explained where it first stands or has two meanings, a number of the
interface that CHANGELOG passes over, a time that wasn't measured. A page that is too long is none."""
import re
import shutil
import subprocess
import sys

import pytest
from conftest import ROOT
from minutes import OF_ALL, minutes

LEFT_OUT = shutil.ignore_patterns("out", "__pycache__", ".git")
CODE, TEST = "crates/block_list/src/lib.rt", "crates/test_end_system/src/histories.rt"
HEADER = "examples/c/yelunnavi.h"
ABI = int(re.search(r"YELUNNAVI_ABI (\d+)", (ROOT / HEADER).read_text(encoding="ascii"))[1])
# The line of the first example in the code.
EXAMPLE = (ROOT / CODE).read_text(encoding="utf-8").splitlines().index("/// ```rust") + 1


@pytest.fixture(scope="module")
def tree(tmp_path_factory):
    """A copy of the tree, but for what the toolchain made."""
    return shutil.copytree(ROOT, tmp_path_factory.mktemp("copy") / "tree", ignore=LEFT_OUT)


def checked(tree, file, old, new):
    """The status of the check, and what it printed, with another text in a file."""
    text = (tree / file).read_text(encoding="utf-8")
    assert old in text
    (tree / file).write_text(text.replace(old, new, 1), encoding="utf-8")
    try:
        done = subprocess.run([sys.executable, tree / "checks" / "documents"], capture_output=True, text=True, timeout=120)
    finally:
        (tree / file).write_text(text, encoding="utf-8")
    return done.returncode, done.stdout


@pytest.mark.parametrize("file, old, new", [
    (CODE, "/// list.push_reserved('a');", "/// list.push('a');"),
    (CODE, "/// A list that grows by blocks.\n", "/// A list that grows by blocks.\n///\n/// ```text\n/// list.len()    // 0\n/// ```\n"),
    (CODE, "/// list.push_reserved('a');", "/// ..\n/// list.reserve_one(rt.alloc())?;"),
    (TEST, "    list.push_reserved('a');\n", "    list.push_reserved('b');\n"),
])
def test_an_example_that_no_test_has_is_told(tree, file, old, new):
    status, told = checked(tree, file, old, new)
    assert status == 1 and f"{CODE}:{EXAMPLE}: an example whose lines stand in no test\n" in told, told


# Links that lead nowhere.
LINKS = [
    ("docs/RECEIVER.md", "(DELIVERY.md)", "(DELIVER.md)", "the link to DELIVER.md leads nowhere"),
    ("docs/RECEIVER.md", "(DELIVERY.md)", "(../../DELIVERY.md)", "the link to ../../DELIVERY.md leads nowhere"),
    ("docs/FORMATS.md", "#how-to-choose-skewmax", "#how-to-choose-skew", "the link to DELIVERY.md#how-to-choose-skew leads to no heading"),
    ("docs/DELIVERY.md", "## How to choose SkewMax", "## Choosing SkewMax", "the link to DELIVERY.md#how-to-choose-skewmax leads to no heading"),
    ("docs/CONCURRENCY.md", "(#the-mailboxes-of", "(#mailboxes-of", "leads to no heading"),
    ("README.md", "(docs/page.png)", "(docs/pages.png)", "the link to docs/pages.png leads nowhere"),
    ("CHANGELOG.md", "## Next\n", "## Next\n\n[this](docs/THAT.md)\n", "the link to docs/THAT.md leads nowhere"),
    ("docs/made/TRACEABILITY.md", "](../DELIVERY.md#", "](DELIVERY.md#", "leads nowhere"),
    ("docs/made/TRACEABILITY.md", "](../DELIVERY.md#", "](../DELIVERY.md#how-", "leads to no heading"),
    ("docs/made/PROMISES.md", "`visit`", "[`visit`](Lock::visit)", "the link to Lock::visit leads nowhere"),
]

# Words that aren't explained, or have two meanings.
WORDS = [
    ("README.md", "*gate*", "gate", "gate isn't explained where it first stands"),
    ("README.md", "*wrong bodies*", "wrong bodies", "wrong bodies isn't explained where it first stands"),
    ("README.md", "# Yelunnavi\n", "# Yelunnavi\n\nThe gate passes.\n", "gate isn't explained where it first stands"),
    ("README.md", "*run*", "run", "run isn't explained where it first stands"),
    ("README.md", "*kit*", "kit", "kit isn't explained where it first stands"),
    ("docs/ARCHITECTURE.md", "*roofs*", "roofs", "roofs isn't explained where it first stands"),
    ("docs/DELIVERY.md", "*law*", "law", "law isn't explained where it first stands"),
    ("docs/EMBEDDING.md", "*room*", "room", "room isn't explained where it first stands"),
    ("docs/EMBEDDING.md", "*slot*", "slot", "slot isn't explained where it first stands"),
    ("docs/EMBEDDING.md", "*mark*", "mark", "mark isn't explained where it first stands"),
    ("docs/GROWTHS.md", "*growth*", "growth", "growth isn't explained where it first stands"),
    ("docs/READING.md", "**Copy**: ", "**Copy**: a frame. **Copy**: ", "the glossary has copy twice"),
    ("README.md", "a port is given each message once", "a partition gets each message once", "a port is given each message"),
    ("docs/DELIVERY.md", "D + lateness < gap", "D + wait < gap", "'D + wait': lateness"),
    ("docs/SYMPTOMS.md", "where numbers were left out", "after a gap in the numbers", "gap is the least time between two frames"),
    ("docs/PROVED.md", "a second player, in C", "an independent player in C", "one author wrote the players"),
    ("docs/RECEIVER.md", "The pieces that are held", "The pieces that wait", "pieces are held"),
    ("CHANGELOG.md", "`YELUNNAVI_ABI` was 5 with it", "it had a number", "passes over YELUNNAVI_ABI 5"),
    (HEADER, f"YELUNNAVI_ABI {ABI}", f"YELUNNAVI_ABI {ABI + 1}", f"passes over YELUNNAVI_ABI {ABI + 1}"),
]

# What a new user meets otherwise.
MET_OTHERWISE = [
    ("README.md", "`ar`", "an archiver", "`ar` isn't named, which a build wants"),
    ("CONTRIBUTING.md", "Python from 3.11", "Python", "Python from 3.11 isn't named, which a build wants"),
    ("README.md", "(CONTRIBUTING.md#what-a-machine-needs)", "(CONTRIBUTING.md)", "no link to CONTRIBUTING.md#what-a-machine-needs"),
    ("afdx_play", "    exit 3\n", "    exit 2\n", "afdx_play:1: status 2"),
    ("afdx_play", r"^\+?0*", "^0*", "afdx_play:1: status 2"),
    ("docs/FORMATS.md", "`config not read`", "`config isn't read`", "and in FORMATS None"),
]

# Memory that pages say otherwise.
MEMORY = [
    ("docs/PERF.md", ", with one reader 5,", ", with one reader 6,", "octets with eight readers and one, by EMBEDDING"),
]

# Times that weren't measured so.
OF_A_BUILD = minutes()[OF_ALL]
TIMES = [
    ("README.md", f"in {OF_A_BUILD} minutes", f"in {OF_A_BUILD - 1} minutes", f"minutes of all: {OF_A_BUILD - 1}, and {OF_A_BUILD} in"),
    ("README.md", f"in {OF_A_BUILD} minutes", "soon", f"minutes of all: none, and {OF_A_BUILD} in"),
    ("checks/minutes.csv", "all,", "none,", f"minutes of all: {OF_A_BUILD}, and none in checks/minutes.csv"),
]


@pytest.mark.parametrize("file, old, new, told", [*LINKS, *WORDS, *MET_OTHERWISE, *MEMORY, *TIMES])
def test_a_page_that_says_something_wrong_is_told(tree, file, old, new, told):
    status, found = checked(tree, file, old, new)
    assert status == 1 and told in found, found


@pytest.mark.parametrize("file", ["README.md", "CHANGELOG.md", "docs/DELIVERY.md"])
def test_a_page_that_is_too_long_fails_nothing(tree, file):
    text = (tree / file).read_text(encoding="utf-8")
    status, found = checked(tree, file, text, text + "\nA sentence for users." * 1000)
    assert status == 0 and "the goal, which is passed" in found, found


def test_a_link_in_code_is_none(tree):
    text = (tree / "CHANGELOG.md").read_text(encoding="utf-8")
    status, found = checked(tree, "CHANGELOG.md", text, text + "\n- `[this](nowhere)`, ``[`that`](nowhere)``\n")
    assert status == 0, found
