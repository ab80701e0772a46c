"""What the tests share. The program is that of AFDX_PLAY, or what ./build program leaves."""
import os
import subprocess
import sys
from pathlib import Path

import pytest

ROOT = Path(__file__).resolve().parents[2]
sys.path[:0] = [str(ROOT / "tools"), str(ROOT / "checks")]

from parts.options import built  # noqa: E402

TOOL = ROOT / "tools" / "yelunnavi"
CAPTURES = ROOT / "examples" / "captures"
CONFIG = ROOT / "examples" / "two_links.toml"
TSHARK = ["tshark", "-n", "-o", "eth.padding:Never", "-o", "eth.fcs:Never", "-o", "udp.check_checksum:FALSE", "-X",
          f"lua_script:{ROOT / 'tools' / 'wireshark' / 'afdx.lua'}"]

PROGRAM = os.environ.get("AFDX_PLAY") or built("program")


def run(*words, data=b"", **more):
    return subprocess.run([TOOL, *words], input=data, capture_output=True, timeout=120, **more)


def done(*words, **more):
    """What yelunnavi wrote, if its status is 0."""
    found = run(*words, **more)
    assert found.returncode == 0, found.stderr.decode()
    return found.stdout


def fault(status, *words, **more):
    """The line of a fault. Nothing else is written but what was met in the captures."""
    found = run(*words, **more)
    assert found.returncode == status, (found.returncode, found.stderr)
    assert found.stdout == b""
    lines = found.stderr.decode().splitlines()
    assert lines and "Traceback" not in found.stderr.decode()
    assert all(line.startswith("yelunnavi: ") for line in lines[:-1])
    return lines[-1]


def tshark(path, *words):
    """The fields that tshark shows of each packet."""
    found = subprocess.run([*TSHARK, "-r", path, "-T", "fields", *words], capture_output=True, timeout=120)
    assert found.returncode == 0, found.stderr.decode()
    return [line.split("\t") for line in found.stdout.decode().splitlines()]


def verdicts(output):
    """Network and words of each verdict line, without times."""
    return [line.split(b" ", 1)[1] for line in output.splitlines() if line[:1].isdigit() and line.split(b" ")[1] in (b"A", b"B")]


@pytest.fixture
def written(tmp_path):
    """Writes a file, and gives its name."""
    def write(name, data):
        path = tmp_path / name
        path.write_bytes(data.encode() if isinstance(data, str) else data)
        return os.fspath(path)
    return write
