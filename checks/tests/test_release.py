"""checks/release: what two clean clones pack, and what is told of it. What would be proved and built are stubs."""
import os
import subprocess
import sys

import pytest
from conftest import ROOT

# Lays stubs in the place of what ./build leaves, with marks that fit.
STUBS = """\
import sys
sys.path.insert(0, "tools")
sys.dont_write_bytecode = True
import interface
from marks import TARGETS, Product
from pathlib import Path
for product in (Product("program"), *(Product("library", target) for target in TARGETS)):
    made = Path("made")
    made.mkdir()
    if product.is_library:
        (made / "libyelunnavi.a").write_bytes(b"!<arch>\\n")
        interface.add_texts(made, "libyelunnavi-with-malloc.so.0")
    else:
        (made / "afdx_play").write_text("a stub")
    product.put(made, product.sum())
    made.rmdir()
"""


def git(folder, *words):
    return subprocess.run(["git", "-c", "user.name=x", "-c", "user.email=x@x", *words], cwd=folder, check=True, capture_output=True,
                          text=True).stdout


@pytest.fixture
def clone(tmp_path):
    """A clone with the checks as they stand here."""
    folder = tmp_path / "clone"
    git(tmp_path, "clone", "-q", ROOT, folder)
    for name in git(ROOT, "ls-files", "-z", "-m", "-o", "--exclude-standard").split("\0"):
        if name and (ROOT / name).is_file():
            (folder / name).parent.mkdir(parents=True, exist_ok=True)
            (folder / name).write_bytes((ROOT / name).read_bytes())
            os.chmod(folder / name, (ROOT / name).stat().st_mode)
    if git(folder, "status", "--porcelain"):
        git(folder, "add", "-A")
        git(folder, "commit", "-qm", "as it stands")
    return folder


def lay_stubs(folder):
    subprocess.run([sys.executable, "-c", STUBS], cwd=folder, check=True)


def checked(folder, *words):
    done = subprocess.run([sys.executable, folder / "checks" / "release", *words], capture_output=True, text=True, timeout=300)
    return done.returncode, done.stdout, done.stderr


def test_nothing_is_packed_of_what_is_not_built(clone):
    status, _, said = checked(clone)
    assert status == 2 and "not built of these sources: out/program" in said


def test_two_clean_clones_pack_the_same_octets_and_each_link_leads_somewhere(clone):
    lay_stubs(clone)
    status, said, _ = checked(clone)
    assert status == 0 and said.endswith("0 problems\n") and "differ" not in said, said
    assert ".tar.xz: " in said and " links, 0 problems" in said


def test_a_dead_link_of_a_release_is_told(clone):
    page = clone / "docs" / "RECEIVER.md"
    page.write_text(page.read_text(encoding="utf-8").replace("(DELIVERY.md#what-surprises)", "(DELIVERY.md#what-astonishes)"))
    release = clone / "tools" / "release.py"
    release.write_text(release.read_text(encoding="utf-8").replace("return found[0] if is_there else found[1]", "return found[0]"))
    git(clone, "commit", "-qam", "dead links")
    lay_stubs(clone)
    status, said, _ = checked(clone)
    assert status == 1 and "the link to DELIVERY.md#what-astonishes leads to no heading" in said
    assert "/README.md: the link to CONTRIBUTING.md#what-a-machine-needs leads nowhere" in said


def test_two_packings_that_differ_are_told(clone):
    evidence = clone / "tools" / "evidence.py"
    evidence.write_text(evidence.read_text(encoding="utf-8").replace(
        'NO_GATE = "', 'NO_GATE = f"{ROOT} ').replace("else gate}", "else gate}"))
    git(clone, "commit", "-qam", "the place where it was packed")
    lay_stubs(clone)
    status, said, _ = checked(clone)
    assert status == 1 and "two packings differ" in said


def test_what_the_gate_printed_of_another_commit_is_refused(clone, tmp_path):
    lay_stubs(clone)
    (tmp_path / "gate").write_text("commit 0\n3 passed, 0 failed\n")
    status, said, _ = checked(clone, "--gate", str(tmp_path / "gate"))
    assert status == 1 and "nothing was packed" in said and "no line 'commit" in said
