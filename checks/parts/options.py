"""What all checks share: where the tree, its program and its tools stand, and the words of a command line."""
import argparse
import os
import shutil
import subprocess
import sys
from pathlib import Path

ROOT = Path(__file__).resolve().parent.parent.parent
TOOLS = ROOT / "tools"
EXAMPLES = ROOT / "examples"
NAME = f"checks/{Path(sys.argv[0]).name}"

# The checks import the tools that they try, whose folder stays as it is.
sys.path.insert(0, str(TOOLS))
sys.dont_write_bytecode = True


def parser_of(description):
    """A parser of a check's command line, with the text at the check's head."""
    raw = argparse.RawDescriptionHelpFormatter
    return argparse.ArgumentParser(prog=NAME, description=description, formatter_class=raw)


def add_program(parser):
    """Adds the word `--program`."""
    parser.add_argument("--program", metavar="PATH", help="the program (default: what ./build program leaves)")


def end_if_missing(path, builder):
    """Ends with a line and status 2 where a file isn't there that something else builds."""
    if not os.path.isfile(path):
        shown = os.path.relpath(path, ROOT) if Path(path).is_relative_to(ROOT) else path
        print(f"{NAME}: {shown} isn't there: {builder}", file=sys.stderr)
        sys.exit(2)


def built(what):
    """The path of the program, or of the library's folder, of these sources, if ./build has left it."""
    done = subprocess.run([ROOT / "build", what, "--if-built", "--path"], stdin=subprocess.DEVNULL, stdout=subprocess.PIPE,
                          text=True)
    return done.stdout.strip() if done.returncode == 0 else None


def program_of(given):
    """The absolute path of the program that a command line or AFDX_PLAY asks for, or of the one of these sources."""
    path = given.program or os.environ.get("AFDX_PLAY")
    path = shutil.which(path) or path if path else built("program")
    if not path or not os.access(path, os.X_OK) or os.path.isdir(path):
        print(f"{NAME}: no program {path or 'of these sources'}: ./build program proves and builds it; --program FILE or "
              "AFDX_PLAY name another", file=sys.stderr)
        sys.exit(2)
    return os.path.abspath(path)
