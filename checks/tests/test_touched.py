"""checks/touched names the files that a new verdict, cause, kind of port or counter has still to come to, in a copy of the tree."""
import shutil
import subprocess
import sys

import pytest
from conftest import ROOT

COPIED = ("README.md", "docs", "peer", "examples", "tools", "checks", "bench")
PAGE = "docs/made/TOUCHED.md"
WORDS, PORTS, REPLIES = "tools/verdict_words.py", "crates/es_base/src/port.rt", "crates/receiver_slots/src/told/replies.rt"
OUTCOMES, OUTCOME = "crates/workloads/src/outcomes.rt", "crates/link_rules/specs/Outcome.antt"


@pytest.fixture
def tree(tmp_path):
    """A copy of what the check reads."""
    for name in COPIED:
        copied = shutil.copytree if (ROOT / name).is_dir() else shutil.copy
        copied(ROOT / name, tmp_path / name)
    shutil.copytree(ROOT / "crates", tmp_path / "crates", ignore=shutil.ignore_patterns("out", "proofs"))
    return tmp_path


def touched(tree, *words):
    return subprocess.run([sys.executable, tree / "checks" / "touched", *words], capture_output=True, text=True, timeout=60)


def write(tree, file, old, new):
    text = (tree / file).read_text(encoding="utf-8")
    assert old in text, file
    (tree / file).write_text(text.replace(old, new), encoding="utf-8")


def test_nothing_is_left_out(tree):
    done = touched(tree)
    assert done.returncode == 0, done.stdout


@pytest.mark.parametrize("file, old, new, word, places", [
    (WORDS, '"exhausted": "refused",', '"exhausted": "refused", "odd-length": "refused",', "odd-length",
     ("crates/es_base/specs/Verdict.antt", "crates/output_lines/src/frame.rt", OUTCOMES, OUTCOME, "crates/link_core/src/rules.rt",
      "docs/FORMATS.md", "docs/RECEIVER.md", "docs/SYMPTOMS.md", "examples/c/yelunnavi.h", "examples/ada/yelunnavi.ads",
      "examples/rust/yelunnavi.rs", "peer/afdx_peer.c", "peer/receiver.h", "checks/parts/model.py")),
    (WORDS, '"checksum", "protocol")', '"checksum", "protocol", "odd-flags")', "odd-flags",
     ("crates/frame_reader/src/packet.rt", "crates/es_base/specs/Packet.antt", "peer/receiver.c", "docs/FORMATS.md")),
    (WORDS, '"unknown-link")', '"unknown-link", "odd-source")', "odd-source",
     ("crates/thread_player/src/report.rt", "crates/es_base/src/fault.rt", "crates/receiver_slots/src/told/numbers.rt")),
    (PORTS, "pub enum PortKind {\n", "pub enum PortKind {\n    Streaming,\n", "streaming",
     ("crates/vl_config/src/document/port.rt", "tools/workbench/checking.py", "crates/output_lines/specs/Report.antt")),
    (REPLIES, "    pub given_up: u64,\n", "    pub given_up: u64,\n    pub cut_short: u64,\n", "cut_short",
     ("crates/receiver_slots/specs/Health.antt", "examples/ada/yelunnavi.ads", "tools/receiver/calls.py", "checks/parts/drive.c")),
])
def test_places_of_a_new_word_are_named(tree, file, old, new, word, places):
    write(tree, file, old, new)
    done = touched(tree)
    assert done.returncode == 1
    for place in places:
        assert f"\n{place}: no `{word}`, where " in f"\n{done.stdout}", place
    assert touched(tree, "--write").returncode == 1
    assert word not in (tree / PAGE).read_text()


def test_a_word_that_goes_is_told(tree):
    write(tree, OUTCOMES, "Verdict::NoPort", "Verdict::Never")
    assert f"{OUTCOMES}: no `no-port`, where all other words" in touched(tree).stdout


def test_a_file_that_names_many_may_leave_one_out(tree):
    write(tree, OUTCOME, "NoPort", "Never")
    done = touched(tree)
    assert f"{OUTCOME}: no `no-port`, where many other words" in done.stdout and "checks/touched --write" in done.stdout
    assert touched(tree, "--write").returncode == 0
    assert touched(tree).returncode == 0


def test_a_new_list_comes_to_the_page(tree):
    shutil.copy(tree / OUTCOMES, tree / "crates/workloads/src/others.rt")
    assert f"{PAGE} would come out otherwise" in touched(tree).stdout
    assert touched(tree, "--write").returncode == 0
    assert "- `crates/workloads/src/others.rt`\n" in (tree / PAGE).read_text()


def test_a_file_that_has_the_list_no_more_goes_by_hand(tree):
    write(tree, OUTCOMES, "Verdict::NoPort", "Verdict::Never")
    write(tree, PAGE, f"- `{OUTCOMES}`\n", "")
    assert touched(tree, "--write").returncode == 0
    assert f"- `{OUTCOMES}`, without `no-port`\n" in (tree / PAGE).read_text()


def test_who_names_words():
    names = touched(ROOT, "given_up", "latest_a").stdout.splitlines()
    assert "examples/c/yelunnavi.h" in names and "crates/link_core/src/link.rt" not in names
