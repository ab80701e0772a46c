"""The version: that of the newest heading of CHANGELOG.md."""
import re

from proving import ROOT

CHANGELOG = ROOT / "CHANGELOG.md"


def version():
    """The version of the tree, as `0.1.0`."""
    return re.search(r"^## (\d+\.\d+\.\d+)\b", CHANGELOG.read_text(encoding="utf-8"), re.M)[1]
