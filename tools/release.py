"""Packs a release: what was built, the tools, the examples and the pages, and the evidence, with a sum of each file.

Two packings of one commit are the same octets: each file has the time of the commit, nobody's name, and the rights to
read, and to run what is a program.
"""
import io
import os
import re
import shutil
import subprocess
import tarfile
import tempfile
from pathlib import Path

from evidence import evidence, git
from marks import OUT, sum_of
from proving import ROOT
from version import version

NAME = "yelunnavi"
# What of the tree goes along: what runs without the toolchain, and what is read.
PACKED = ("README.md", "CHANGELOG.md", "afdx_play", "docs", "examples", "tools")
LINK = re.compile(r"(?<!!)\[([^][]*)\]\(([^)\s]+)\)")
OUTSIDE = re.compile(r"[a-z]+://")
SUMS, EVIDENCE = "SUMS", "evidence"
# Where Debian's package lays the same files, and what one calls.
PLACE, COMMANDS = f"usr/lib/{NAME}", {"afdx_play": "afdx_play", NAME: f"tools/{NAME}"}
CONTROL = f"""\
Package: {NAME}
Version: {{version}}
Architecture: amd64
Maintainer: Yelunnavi
Depends: libc6, python3 (>= 3.11)
Recommends: python3-cffi, python3-rich, tshark
Description: receiving half of an AFDX end system, proved
"""


def files_of_tree():
    """The files of the tree that a release has, as the repository lists them."""
    listed = subprocess.run(["git", "ls-files", "-z", *PACKED], cwd=ROOT, stdout=subprocess.PIPE, check=True).stdout
    return [ROOT / name for name in listed.decode().split("\0") if name]


def contents(folders, gate):
    """The octets of each file and whether it is run, by its name in the release."""
    paths = [*files_of_tree(), *(path for folder in folders for path in sorted(folder.iterdir()))]
    files = {str(path.relative_to(ROOT)): (path.read_bytes(), os.access(path, os.X_OK)) for path in paths}
    files = without_dead_links(files)
    files |= {f"{EVIDENCE}/{name}": (text.encode(), False) for name, text in evidence(gate).items()}
    sums = "".join(f"{sum_of(octets)}  {name}\n" for name, (octets, _) in files.items())
    return {**files, SUMS: (sums.encode(), False)}


def without_dead_links(files):
    """The files, where a page's link to what isn't packed is its words alone."""
    known = {str(folder) for name in files for folder in (Path(name), *Path(name).parents)}

    def cut(page, found):
        to = found[2].partition("#")[0]
        is_there = not to or OUTSIDE.match(to) or os.path.normpath(page.parent / to) in known
        return found[0] if is_there else found[1]

    return {name: (LINK.sub(lambda found, page=Path(name): cut(page, found), octets.decode()).encode()
                   if name.endswith(".md") else octets, is_run) for name, (octets, is_run) in files.items()}


def write(path, octets, is_run=False):
    path.parent.mkdir(parents=True, exist_ok=True)
    path.write_bytes(octets)
    path.chmod(0o755 if is_run else 0o644)


def pack_for_debian(files, time, to):
    """Packs the files of a release for dpkg."""
    with tempfile.TemporaryDirectory() as folder:
        top = Path(folder)
        top.chmod(0o755)
        for name, (octets, is_run) in files.items():
            write(top / PLACE / name, octets, is_run)
        write(top / "DEBIAN" / "control", CONTROL.format(version=version()).encode())
        (top / "usr" / "bin").mkdir()
        for name, command in COMMANDS.items():
            (top / "usr" / "bin" / name).symlink_to(f"/{PLACE}/{command}")
        subprocess.run(["dpkg-deb", "--root-owner-group", "-Zxz", "--build", top, to], stdout=subprocess.DEVNULL, check=True,
                       env={**os.environ, "SOURCE_DATE_EPOCH": str(time)})


def pack(folders, gate=None):
    """Packs the tree's files, these folders and the evidence, with what the gate printed, as an archive and, where dpkg-deb
    is, as a package. Returns the archive's path."""
    made, time = f"{NAME}-{version()}", int(git("log", "-1", "--format=%ct"))
    to, files = OUT / f"{made}.tar.xz", contents(folders, gate)
    if shutil.which("dpkg-deb"):
        pack_for_debian(files, time, OUT / f"{NAME}_{version()}_amd64.deb")
    with tarfile.open(to, "w:xz", format=tarfile.GNU_FORMAT) as archive:
        for name, (octets, is_run) in files.items():
            entry = tarfile.TarInfo(f"{made}/{name}")
            entry.size, entry.mtime, entry.mode = len(octets), time, 0o755 if is_run else 0o644
            archive.addfile(entry, io.BytesIO(octets))
    return to
