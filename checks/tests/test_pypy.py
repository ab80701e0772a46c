"""The workbench prints the same under PyPy, which long captures want."""
import shutil
import subprocess

import pytest
from conftest import CAPTURES, ROOT

PYPY, TOOL = shutil.which("pypy3"), ROOT / "tools" / "yelunnavi"
CONFIG = ROOT / "examples" / "two_links.toml"

pytestmark = pytest.mark.skipif(PYPY is None, reason="no pypy3 here")


def done(words):
    found = subprocess.run(words, capture_output=True, timeout=120)
    return found.returncode, found.stdout, found.stderr


@pytest.mark.parametrize("words", [
    ("health",), ("health", "--json", "--each"), ("health", "--link", "17"), ("play",), ("check",), ("draw", "--to", "-"),
    ("annotate", "--to", "-"),
], ids=" ".join)
def test_pypy_prints_the_same(words):
    name, *others = words
    given = [TOOL, name, "--config", CONFIG, *others, CAPTURES / "faults.pcapng"]
    assert done([PYPY, *given]) == done(given)
