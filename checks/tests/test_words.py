"""checks/words finds each word that is missing or another, and each list of words beside that of the tools, planted one at a
time in a copy."""
import shutil
import subprocess
import sys

import pytest
from conftest import ROOT
from verdict_words import KINDS

COPIED = ("checks", "tools", "bench", "peer", "docs/FORMATS.md", "crates/es_base", "crates/output_lines", "crates/test_inputs")


@pytest.fixture(scope="module")
def tree(tmp_path_factory):
    """A copy of what the check reads."""
    top = tmp_path_factory.mktemp("tree")
    for name in COPIED:
        to = top / name
        to.parent.mkdir(parents=True, exist_ok=True)
        if (ROOT / name).is_dir():
            shutil.copytree(ROOT / name, to, ignore=shutil.ignore_patterns("__pycache__", "out", "proofs"))
        else:
            shutil.copy(ROOT / name, to)
    return top


def checked(tree):
    return subprocess.run([sys.executable, tree / "checks" / "words"], capture_output=True, text=True, timeout=60)


def test_the_tree_has_no_slip(tree):
    done = checked(tree)
    assert done.returncode == 0, done.stdout


WORDS, FORMATS, PEER, ENUMS = "tools/verdict_words.py", "docs/FORMATS.md", "peer/afdx_peer.c", "peer/receiver.h"
SPANS, CONDITIONS, PAGE = "tools/workbench/spans.py", "tools/workbench/conditions.py", "tools/drawing/page.py"
VERDICT, LIMITS, STORED = "crates/es_base/src/verdict.rt", "crates/es_base/specs/Limits.antt", "crates/test_inputs/src/outputs.rt"
OF_C, NETWORKS, TEST, TO_C = "bench/from_c", "checks/networks", "checks/tests/test_health.py", "checks/parts/drive.c"
# Three words, of which a test of its own has no list.
THREE, NAMED = KINDS[9:12], ", ".join(sorted(KINDS[9:12]))
# A file, what stands there, what is put in its place, and what is told.
SLIPS = [
    (WORDS, '"exhausted": "refused",\n', '"exhausted": "refused", "odd": "refused",\n', f"{FORMATS}: table of verdicts: missing ['odd']"),
    (VERDICT, "    Exhausted,\n", "    Exhausted,\n    Odd,\n", f"{VERDICT}: VerdictKind: missing [], others ['Odd']"),
    (VERDICT, "VERDICT_KINDS: usize = 13", "VERDICT_KINDS: usize = 14", f"{VERDICT}: VERDICT_KINDS: usize = 14, and there are 13"),
    (LIMITS, "filter_causes = 5", "filter_causes = 6", f"{LIMITS}: filter_causes = 6, and there are 5"),
    (STORED, "count 17 A 0 ", "count 17 A ", f"{STORED}: 1 lines that haven't 13 counts: count 17 A "),
    (STORED, "filtered A 0", "filtered A 0 0", f"{STORED}: 1 lines that haven't 5 counts: filtered A "),
    (FORMATS, "`bad-udp`", "`bad-ucp`", "table of verdicts"),
    (PEER, 'TEXT("bad-udp', 'TEXT("bad-ucp', f"{PEER}: words from OUT_OF_SEQUENCE on: missing ['bad-udp'], others ['bad-ucp']"),
    (PEER, '        [NO_PORT] = TEXT("no-port\\n"),\n', "", "others ['no word of NO_PORT']"),
    (PEER, 'filtered not-ip', 'filtered no-ip', "words from TOO_SHORT_FRAME on"),
    (PEER, '"checksum', '"sum', "words from VERSION on"),
    (ENUMS, "    BAD_UDP,\n    NO_PORT,\n", "    NO_PORT,\n    BAD_UDP,\n", "in the order"),
    (SPANS, "\nSHOWN = 5", '\nDELIVERED = ("sampled", "queued")\nSHOWN = 5', f"{SPANS}:6: a list of queued, sampled"),
    (SPANS, "\nSHOWN = 5", '\nFULL = {"overflow", "queued"}\nSHOWN = 5', "a list of overflow, queued"),
    (CONDITIONS, "\nBROKEN_BY = ", '\nREFUSED = {"bad-udp": "packets", "no-port": "packets"}\nBROKEN_BY = ', "a list of bad-udp, no-port"),
    (CONDITIONS, "\nBROKEN_BY = ", '\nCLASSES = {"bad-udp": ("a", 1), "no-port": ("b", 2)}\nBROKEN_BY = ', "a list of bad-udp, no-port"),
    (PAGE, "\nOTHER_WORDS = ", f'\nWORDS = "{NAMED}"\nOTHER_WORDS = ', f"a list of {NAMED}"),
    (OF_C, 'WORDS = ["filtered", *KINDS]', 'WORDS = ["filtered", "out-of-sequence", "redundant"]', f"{OF_C}:"),
    (NETWORKS, "\nENOUGH = 10", '\nCAUSES = ["version", "checksum"]\nENOUGH = 10', f"{NETWORKS}:"),
    (TEST, "\n\n", f"\n\nEXPECTED = {THREE!r}\n", f"{TEST}:"),
    (TO_C, "#include", "/* " + " ".join(f'"{word}"' for word in THREE) + " */\n#include", f"{TO_C}:1: a list of {NAMED}"),
]
# What is no list of verdicts: a map to what is worked out, what has become of frames, two words of a test.
NO_LISTS = [
    (SPANS, "\nSHOWN = 5", '\nCOUNTS = {"sampled": 2 * 3, "queued": 1}\nSHOWN = 5'),
    (SPANS, "\nSHOWN = 5", '\nFATES = ("redundant", "overflow", "out")\nSHOWN = 5'),
    (TEST, "\n\n", '\n\nEXPECTED = ("sampled", "queued")\n'),
]


def checked_with(tree, file, old, new):
    path = tree / file
    text = path.read_text(encoding="utf-8")
    assert old in text, file
    path.write_text(text.replace(old, new, 1), encoding="utf-8")
    try:
        return checked(tree)
    finally:
        path.write_text(text, encoding="utf-8")


@pytest.mark.parametrize("file, old, new, told", SLIPS, ids=[f"{number}: {slip[3]}" for number, slip in enumerate(SLIPS)])
def test_a_slip_is_told(tree, file, old, new, told):
    done = checked_with(tree, file, old, new)
    assert done.returncode == 1 and told in done.stdout, done.stdout


@pytest.mark.parametrize("file, old, new", NO_LISTS)
def test_what_is_no_list_is_not_told(tree, file, old, new):
    done = checked_with(tree, file, old, new)
    assert done.returncode == 0, done.stdout
