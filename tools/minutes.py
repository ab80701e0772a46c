"""What the builds and the gate take from nothing, by the last measure: on four processors, with nothing beside it.

checks/minutes.csv has seconds by the clock and of the processors, of what was measured.
"""
import csv

from proving import ROOT

MEASURE = ROOT / "checks" / "minutes.csv"
OF_LIBRARY, OF_PROGRAM, OF_ALL, OF_GATE = "library", "program", "all", "gate"


def minutes():
    """Minutes by the clock of what was measured, a part of one counted as one more."""
    with MEASURE.open(encoding="utf-8", newline="") as rows:
        return {row["what"]: -(-int(row["seconds"]) // 60) for row in csv.DictReader(rows)}
