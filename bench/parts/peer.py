"""What stands in peer/: programs in C, which are compiled where they are needed, and the generator of traces."""
import os
import shutil
import subprocess
import sys

from parts.programs import TREE

PEER = os.path.join(TREE, "peer")
PROFILES = ["sampling", "queuing", "fragments", "mixed"]


def compiled(folder, name, *words):
    """Compiles a program into a folder, and returns its path."""
    program = os.path.join(folder, name)
    compiler = os.environ.get("CC", "cc")
    if not shutil.which(compiler):
        sys.exit(f"bench: there is no C compiler {compiler}: set CC")
    subprocess.run([os.path.join(PEER, "build"), name, program, *words], check=True)
    return program


def generated(folder, profile, frames, *words):
    """Writes config.toml, a.trace and b.trace into a folder."""
    generator = os.path.join(PEER, "gen_trace.py")
    asked = ["--frames", str(frames), "--profile", profile, "--out-dir", folder]
    subprocess.run([sys.executable, generator, *asked, *words], check=True)
