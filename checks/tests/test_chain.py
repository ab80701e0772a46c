"""checks/chain measures crates by their checks, and adds up the longest chain; the toolchain here is a stub."""
import os
import shutil
import subprocess
import sys

import pytest
from conftest import ROOT

CRATES = "# low and high\nbase:\nshort: base\nlong: base\nreceiver_c staticlib: short\nsystem_c: base\nafdx_play: long short\n"
# Each check says what the toolchain's does, and that of `long` takes longer.
STUB = """\
#!/bin/sh
name=$(basename "$PWD")
[ "$1" = check ] && [ "$name" = "$NOT_PROVED" ] && { echo "fn f: not proved"; exit 1; }
[ "$name" = "$KEPT" ] && echo "rt: $name: begins with what a check kept in elsewhere"
[ "$name" = long ] && sleep 0.4
echo "statements core: modules loaded=800 checked=0"
echo "crate $name: modules loaded=20 checked=3"
echo "logic=proved functions=7 sum=0"
"""


@pytest.fixture
def tree(tmp_path):
    """A small tree of crates, with the check in it, and a stub of the toolchain before all others."""
    for part in ("checks/chain", "checks/parts/chains.py", "checks/parts/options.py", "tools/proving.py"):
        (tmp_path / part).parent.mkdir(parents=True, exist_ok=True)
        shutil.copy(ROOT / part, tmp_path / part)
    (tmp_path / "crates.txt").write_text(CRATES)
    (tmp_path / "HANDLES").write_text("Handles allowed: none.\n")
    for name in ("base", "short", "long", "receiver_c", "system_c", "afdx_play"):
        (tmp_path / "crates" / name / "src").mkdir(parents=True)
    (tmp_path / "bin").mkdir()
    (tmp_path / "bin" / "rt").write_text(STUB)
    (tmp_path / "bin" / "rt").chmod(0o755)
    return tmp_path


def chain(tree, *words, **told):
    given = {**os.environ, "PATH": f"{tree / 'bin'}:{os.environ['PATH']}", "XDG_CACHE_HOME": str(tree / "cache"), **told}
    return subprocess.run([sys.executable, tree / "checks/chain", *words], capture_output=True, text=True, env=given)


def test_the_chain_goes_through_what_takes_longest(tree):
    found = chain(tree, "--measure")
    assert found.returncode == 0, found.stderr
    lines = found.stdout.splitlines()
    assert "| 820 | 7 |" in next(line for line in lines if line.startswith("| `long` |"))
    assert [it.split()[0] for it in next(line for line in lines if line.startswith("the program: ")).split(": ")[2].split(", ")] \
        == ["base", "long", "afdx_play"]
    assert "long" not in next(line for line in lines if line.startswith("the library: "))
    assert (tree / "checks/chain.csv").read_text().splitlines()[:2][1].startswith("kit,")
    of_one = chain(tree, "short")
    assert of_one.returncode == 0 and of_one.stdout.splitlines()[-1].startswith("short: ")


@pytest.mark.parametrize(("told", "said"), [({"KEPT": "short"}, "short began with what another one kept"),
                                            ({"NOT_PROVED": "long"}, "long isn't proved:\nfn f: not proved")])
def test_a_measure_that_says_nothing_is_refused(tree, told, said):
    found = chain(tree, "--measure", **told)
    assert (found.returncode, said in found.stderr) == (1, True), found.stderr
    assert not (tree / "checks/chain.csv").exists()


def test_a_measure_of_other_crates_is_refused(tree):
    assert "--measure makes it" in chain(tree).stderr
    assert chain(tree, "--measure").returncode == 0
    (tree / "crates.txt").write_text(CRATES + "new: base\n")
    found = chain(tree)
    assert (found.returncode, "isn't of these crates: new" in found.stderr) == (1, True), found.stderr
    assert chain(tree, "none").returncode == 2
