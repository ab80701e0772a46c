"""checks/sources finds each kind of slip, planted one at a time in a copy of the crates."""
import shutil
import subprocess
import sys

import pytest
from conftest import ROOT


@pytest.fixture(scope="module")
def tree(tmp_path_factory):
    """A copy of the crates and of the checks."""
    top = tmp_path_factory.mktemp("tree")
    shutil.copytree(ROOT / "checks", top / "checks", ignore=shutil.ignore_patterns("__pycache__"))
    shutil.copytree(ROOT / "crates", top / "crates", ignore=shutil.ignore_patterns("out", "proofs"))
    (top / "tools").symlink_to(ROOT / "tools")
    shutil.copy(ROOT / "crates.txt", top)
    return top


def checked(tree):
    return subprocess.run([sys.executable, tree / "checks" / "sources"], capture_output=True, text=True, timeout=60)


def test_the_tree_has_no_slip(tree):
    done = checked(tree)
    assert done.returncode == 0, done.stdout


CODE, KEPT, REASONS = "crates/integrity_check/src/lib.rt", "crates/integrity_check/specs/Kept.antt", "checks/names.txt"
RING, ENDS = "crates/message_ring/src/lib.rt", "crates/message_ring/specs/Ends.antt"
CRATES, OFFER, STEPS = "crates.txt", "crates/link_core/specs/Offer.antt", "crates/triple_buffer/src/steps.rt"


def line_of(file, text):
    """The line of a file in which a text stands first."""
    return (ROOT / file).read_text(encoding="utf-8").partition(text)[0].count("\n") + 1


# A file, what stands there, what is put in its place, and what is told.
SLIPS = [
    (CRATES, "\nlink_lock: atomic_table\n", "\n", "crates/link_lock: no line of crates.txt names it"),
    (CRATES, "\nlink_lock: ", "\nlink_latch:\nlink_lock: ", "link_latch is no folder of crates/"),
    (CODE, "        match self.last {", 41 * "        let _ = 0;\n" + "        match self.last {", "lines, 40 at most"),
    (CODE, "\nimpl Sequence {", "\n#[test]\nfn a_test() {}\n\nimpl Sequence {", "its place is a crate of tests"),
    (STEPS, "let found = self\n", "self.table.shared.peek(0);\n        let found = self\n", "a load that no contract counts"),
    (RING, "(max ≤ longest_queued)", "(max ≤ 8192)", f"{RING}:{line_of(RING, '(max ≤ longest_queued)')}: 8192; its name is longest_queued"),
    (ENDS, "depth ≤ deepest_queue", "depth ≤ 64", f"{ENDS}:{line_of(ENDS, 'depth ≤ deepest_queue')}: 64; its name is most_links or deepest_queue"),
    (RING, "(max ≤ longest_queued)", "(max < 8192)", "8192; its name is longest_queued"),
    (KEPT, "-- what is kept is", "abbrev pub latest : ℕ\nlatest = 0\n\n-- what is kept is", "latest stands in "),
    (KEPT, "abbrev pub StandsFor", "abbrev pub IsRun", "IsRun stands in "),
    # Crates that share other names, of a link with its history and without.
    (OFFER, "abbrev pub IsPlaceAt", "abbrev pub HasOutletAt : ℕ\nHasOutletAt = 0\n\nabbrev pub IsPlaceAt", "HasOutletAt stands in "),
    (REASONS, "ShowsAs: kept_messages", "ShowsAs: hex_trace", "ShowsAs stands in "),
    (REASONS, "\nEndsWith GoesOn: ", "\nis_none: es_base: of nothing\nEndsWith GoesOn: ", "is_none stands in one file"),
]


@pytest.mark.parametrize("file, old, new, told", SLIPS, ids=[f"{number}: {slip[3]}" for number, slip in enumerate(SLIPS)])
def test_a_slip_is_told(tree, file, old, new, told):
    path = tree / file
    text = path.read_text(encoding="utf-8")
    assert old in text, file
    path.write_text(text.replace(old, new, 1), encoding="utf-8")
    try:
        done = checked(tree)
    finally:
        path.write_text(text, encoding="utf-8")
    assert done.returncode == 1 and told in done.stdout, done.stdout
