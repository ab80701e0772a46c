"""checks/book finds each kind of gap, planted one at a time in a copy of the tree."""
import shutil
import subprocess
import sys

import pytest
from conftest import ROOT
from parts.rules import rules, source_of

COPIED = ("checks", "docs", "wrong_bodies", "crates.txt", "afdx_play")
RULES, MATRIX = "checks/rules.txt", "docs/made/TRACEABILITY.md"
INTEGRITY = "crates/link_rules/specs/Integrity.antt"
TESTS = "crates/test_link_receiver/src/integrity.rt"
BODY = "wrong_bodies/redundancy_manager/first_frame_with_number_0_redundant.edit"


@pytest.fixture(scope="module")
def tree(tmp_path_factory):
    """A copy of what the pages are made from."""
    top = tmp_path_factory.mktemp("tree")
    for name in COPIED:
        path = ROOT / name
        if path.is_dir():
            shutil.copytree(path, top / name, ignore=shutil.ignore_patterns("__pycache__"))
        elif path.exists():
            shutil.copy(path, top / name)
    shutil.copytree(ROOT / "crates", top / "crates", ignore=shutil.ignore_patterns("out", "proofs"))
    (top / "tools").symlink_to(ROOT / "tools")
    return top


def checked(tree):
    return subprocess.run([sys.executable, tree / "checks" / "book", "--check"], capture_output=True, text=True, timeout=300)


def test_the_tree_has_no_gap(tree):
    done = checked(tree)
    assert done.returncode == 0, done.stdout


# A file, what stands there, what is put in its place, and what is told.
GAPS = [
    (MATRIX, "### INT-1", "### INT-one", "would come out otherwise"),
    (INTEGRITY, "-- rule: INT-1\n", "", "INT-1: no definition, and no reason"),
    (INTEGRITY, "-- rule: INT-1\n", "-- rule: INT-99\n", "no rule INT-99"),
    (INTEGRITY, "-- rule: INT-1\n", "-- rule: INT-1\n\n", "stands above nothing"),
    (TESTS, "// rule: INT-1\n", "", "INT-1: no test, and no reason"),
    (TESTS, "// rule: INT-1\n", "// rule: INT-98\n", "no rule INT-98"),
    (BODY, "# rule: RM-2\n", "", "RM-2: no wrong body, and no reason"),
    (BODY, "# rule: RM-2\n", "# rule: INT-97\n", "no rule INT-97"),
    (RULES, "PORT-5 test: ", "PORT-6 test: ", "PORT-5: no test, and no reason"),
    (RULES, "PORT-5 test: ", "PORT-5, PORT-6 test: ", "PORT-6: a test, and a reason for none"),
    (RULES, "PORT-5 test: ", "PORT-5, PORT-99 test: ", "no rule PORT-99"),
    (RULES, "DELIV-12, DELIV-15, ", "DELIV-12, DELIV-13, ", "DELIV-15: no test, and no reason"),
    ("crates/vl_config/specs/Rows.antt", "-- rule: CONF-5, CONF-7, CONF-8, CONF-18\n", "-- rule: CONF-5, CONF-8, CONF-18\n",
     "the contract of receiver_c::yelunnavi_receiver_open_table doesn't come to CONF-7"),
    ("crates/frame_delivery/specs/Network.antt", "-- rule: DELIV-16\n", "", "DELIV-16: no definition, and no reason"),
    ("crates/frame_delivery/specs/Network.antt", "-- rule: DELIV-4, DELIV-18\n", "-- rule: DELIV-4\n",
     "DELIV-18: no definition, and no reason"),
    (RULES, "CONF-26\n\n", "CONF-26, CONF-27\n\n", "the contract of system_c::yelunnavi_system_open_table doesn't come to CONF-27"),
    ("docs/made/CODE.csv", "contract,block_list::BlockList::block,crates/block_list/src/lib.rt,0,\n", "",
     "docs/made/CODE.csv: would come out otherwise"),
    ("docs/RECEIVER.md", "**INT-1** ", "", "INT-1 is left out, and numbers stay"),
    ("docs/RECEIVER.md", "**INT-1** ", "**INT-2** ", "INT-2 is there twice"),
    ("docs/RECEIVER.md", "**INT-1** ", "**INT-1** Perhaps ", "INT-1 has other words: compare what serves it"),
    ("docs/RECEIVER.md", "**INT-4** ", "", "INT-4 was dropped, and no page says so"),
    ("docs/RECEIVER.md", "| 0 | 1 to 127 | yes |", "| 0 | 1 to 126 | yes |", "RM-7 has other words"),
    ("docs/RECEIVER.md", "1. **FRAME-2** ", "0. **FRAME-2** ", "FRAME-1 has other words"),
    ("docs/RECEIVER.md", " is accepted (own).", " is accepted.", "docs/made/TRACEABILITY.csv: would come out otherwise"),
    ("docs/FORMATS.md", "| 4 | 2 | link number", "| 6 | 2 | link number", "WIRE-2 has other words"),
    ("docs/FORMATS.md", "2. `constant`.\n", "", "CONF-18 has other words"),
    ("docs/FORMATS.md", "| key | where | kind | range |", "| key | where | kind | values |", "CONF-16 has other words"),
    ("docs/FORMATS.md", "| 12 | `overflow NAME` |", "| 12 | `overflows NAME` |", "OUT-6 has other words"),
    ("docs/EMBEDDING.md", "| `Taker::take` | a `put`", "| `Taker::take` | any `put`", "EMB-40 has other words"),
    ("checks/rules_sums.txt", "INT-1 ", "INT-96 0\nINT-1 ", "INT-96 was dropped, and no page says so"),
    ("crates/es_base/specs/Returns.antt", "-- rule: none", "-- none", "no rule, and no reason"),
    (INTEGRITY, "-- ", "-- rule: none (for a try)\n-- ", "a rule, and a reason for none"),
    ("crates/integrity_check/src/lib.rt", "//! ", "// ", "crates/integrity_check: no head"),
    ("crates/receiver/src/receiver.rt", "pub fn receive(", "pub fn take_frame(", "no function receiver::Receiver::receive"),
]


# What a rule is of, by its sentences or the heading above it.
@pytest.mark.parametrize("number, source", [
    ("FRAME-4", "ARINC 664 Part 7"), ("FRAME-7", "own"), ("INT-1", "own"), ("INT-2", "own"), ("INT-3", "own"),
    ("RM-4", "ARINC 664 Part 7"), ("RM-7", "own"), ("IP-1", "own"), ("IP-5", "RFC 791 3.1"), ("REAS-3", "own, RFC 791 3.1"),
    ("REAS-9", "RFC 791 3.2, own"), ("UDP-2", "RFC 768"), ("HIST-1", "own"), ("WIRE-3", "RFC 791 3.1"), ("DELIV-2", "own"),
])
def test_a_source_is_that_of_the_words(number, source):
    assert source_of(next(rule for rule in rules() if rule.number == number)) == source


@pytest.mark.parametrize("file, stands, put, told", GAPS)
def test_a_gap_is_told(tree, file, stands, put, told):
    path = tree / file
    text = path.read_text(encoding="utf-8")
    assert stands in text
    path.write_text(text.replace(stands, put) if stands == "//! " else text.replace(stands, put, 1), encoding="utf-8")
    try:
        done = checked(tree)
    finally:
        path.write_text(text, encoding="utf-8")
    assert done.returncode == 1 and told in done.stdout, done.stdout
