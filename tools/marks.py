"""What is built, where it goes, and the mark beside it that says of which sources it is."""
import hashlib
import os
import shutil
import subprocess

from proving import PROGRAM, ROOT, lines_of_crates, with_those_below

OUT = ROOT / "out"
# The library is of two parts, each compiled apart, so that the way of a frame is laid into each: their archives make one.
LIBRARY = ["receiver_c", "system_c"]
HERE = "x86_64-unknown-linux-gnu"
# The C compiler of each target.
TARGETS = {HERE: "cc", "aarch64-unknown-linux-gnu": "aarch64-linux-gnu-gcc"}
HEADERS = [ROOT / "examples" / "c" / name for name in ("yelunnavi.h", "yelunnavi_words.h", "yelunnavi_table.h")]
HEAP = ROOT / "tools" / "heap.c"
SUPPRESSIONS = sorted((ROOT / "tools" / "suppressions").iterdir())
# The shared object's name for linkers. That for loaders has the number of the interface after it.
SHARED = "libyelunnavi-with-malloc.so"
PARTS = ("src", "specs", "proofs")
MARK = "mark"


def sum_of(octets):
    return hashlib.sha256(octets).hexdigest()


def kit():
    """The toolchain's line about itself. None if there is no toolchain."""
    if not shutil.which("rt"):
        return None
    return subprocess.run(["rt", "version"], stdout=subprocess.PIPE, check=True, text=True).stdout.strip()


class Product:
    """The program, or the library for a target: its crates, those that they stand on, and its folder."""

    def __init__(self, what, target=HERE):
        self.target = target
        self.is_library = what == "library"
        self.crates = LIBRARY if self.is_library else [PROGRAM]
        self.folder = OUT / "library" / target if self.is_library else OUT / "program"
        self.names = with_those_below(self.crates)

    def __str__(self):
        return "the library" if self.is_library else "the program"

    def sources_below(self, top):
        """The files of its crates in a tree: this one, or a copy."""
        folders = [top / "crates" / name / part for name in self.names for part in PARTS]
        return [path for folder in folders for path in sorted(folder.rglob("*")) if path.is_file()]

    def sum(self, top=ROOT):
        """A sum of all that it depends on, with the crates of a tree: this one, or a copy."""
        lines, found = lines_of_crates(), hashlib.sha256()
        found.update("".join(f"{lines[name][0]}\n" for name in self.names).encode())
        beside = [ROOT / "HANDLES", *([*HEADERS, HEAP, *SUPPRESSIONS] if self.is_library else [])]
        for path in [*beside, *self.sources_below(top)]:
            shown = path.relative_to(top) if path.is_relative_to(top / "crates") else path.relative_to(ROOT)
            content = path.read_bytes()
            found.update(f"{shown} {len(content)}\n".encode() + content)
        return found.hexdigest()

    def mark(self, toolchain, sources):
        """The text of its mark: the toolchain, the sum of its sources, and that of each file beside the mark."""
        files = sorted(path for path in self.folder.iterdir() if path.name != MARK)
        sums = [f"{path.name} = {sum_of(path.read_bytes())}\n" for path in files]
        return "".join([f"toolchain = {toolchain}\n", f"sources = {sources}\n", *sums])

    def is_built(self):
        """Whether what stands there is of these sources, and of this toolchain if there is one."""
        mark = self.folder / MARK
        if not mark.exists():
            return False
        text = mark.read_text(encoding="utf-8")
        toolchain = kit() or text.partition("\n")[0].partition(" = ")[2]
        return text == self.mark(toolchain, self.sum())

    def put(self, made, sources):
        """Moves what was made in a folder to its place. The mark comes last, so that it never fits what is half there."""
        self.folder.mkdir(parents=True, exist_ok=True)
        (self.folder / MARK).unlink(missing_ok=True)
        for old in self.folder.iterdir():
            if not (made / old.name).exists():
                old.unlink()
        for path in made.iterdir():
            os.replace(path, self.folder / path.name)
        to = made / MARK
        to.write_text(self.mark(kit(), sources), encoding="utf-8")
        os.replace(to, self.folder / MARK)
