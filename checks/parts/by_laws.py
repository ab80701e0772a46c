"""Wrong definitions that a law refuses: wrong_bodies/by_laws/CRATE/NAME.edit, each in the definitions of its crate.

They have the form of all wrong bodies, and a line `law: LAWCRATE::laws::NAME`, the law that isn't proved then. What
stands below the law's crate has to be proved all the same: where its own proofs refuse the definition, no law was asked.
So one whose contracts the crate's code keeps changes that code, too.
"""
import re
import subprocess

from parts.by_tests import lay_wrong, lines_of
from parts.options import ROOT
from proving import build_folder, lay_crates

FOLDER = ROOT / "wrong_bodies" / "by_laws"


def found_in(crates):
    """The wrong definitions of these crates, or of all."""
    return [edit for edit in sorted(FOLDER.glob("*/*.edit")) if not crates or edit.parent.name in crates]


def crates():
    """The crates that have wrong definitions."""
    return sorted({edit.parent.name for edit in found_in([])})


def law_of(edit):
    """The law that refuses a wrong definition."""
    return dict(lines_of(edit)).get("law", "")


def unproved(folder, crate, edit=None):
    """The functions that aren't proved in a copy of a crate and of all below it, with a wrong definition if one is given."""
    lay_crates(folder, [crate])
    if edit and not lay_wrong(folder, edit):
        return ["its old text doesn't stand there once"]
    done = subprocess.run(["rt", "check", "--jobs", "1"], cwd=folder / "crates" / crate, stdin=subprocess.DEVNULL,
                          stdout=subprocess.PIPE, stderr=subprocess.STDOUT, text=True)
    found = re.findall(r"^fn (\S+): not proved$", done.stdout, re.M)
    return found or ([f"status {done.returncode}: {done.stdout[-200:]!r}"] if done.returncode else [])


def try_all(edits):
    """Tries wrong definitions one after another. Prints a line for each and the counts, and returns the exit status."""
    folder, missed = build_folder("wrong_bodies_by_laws"), 0
    crates = sorted({law_of(edit).partition("::")[0] for edit in edits})
    problems = [name for crate in crates for name in unproved(folder, crate)]
    for name in problems:
        print(f"not proved as the tree stands: {name}", flush=True)
    for edit in edits:
        law = law_of(edit)
        left = unproved(folder, law.partition("::")[0], edit)
        missed += law not in left
        told = f"refused by {law}" if law in left else f"NOT REFUSED by {law}; not proved: {', '.join(left) or 'none'}"
        print(f"{edit.relative_to(ROOT)}: {told}", flush=True)
    print(f"{len(edits)} wrong definitions, {missed} not refused; {len(problems)} problems")
    return 1 if missed or problems else 0
