"""The programs in C of checks/parts and examples/c, compiled against a library, and what they are given."""
import os
import random
import subprocess
import sys

from parts.driven import Script
from parts.options import EXAMPLES, ROOT
from parts.random_traces import write_case
from parts.rare_frames import rare_script

PROFILES = ("sampling", "queuing", "fragments", "mixed")
POOL = "-DPOOL_OCTETS=268435456u"
# What checks/parts/drive.c and stack.c call, and what a receiver alone has of it.
OF_RECEIVERS = ("health",)
ROOFS = {"receiver": [], "system, by one thread": ["-DSYSTEM"]}


def run(words, **given):
    return subprocess.run(list(map(str, words)), stdin=subprocess.DEVNULL, capture_output=True, timeout=600, **given)


def built_library(*words):
    """The library that ./build proves and builds."""
    words = [ROOT / "build", "library", "--path", *words]
    done = subprocess.run(words, stdin=subprocess.DEVNULL, stdout=subprocess.PIPE, text=True, check=True)
    return os.path.join(done.stdout.strip(), "libyelunnavi.a")


def library_of(given, *words):
    """The archive that a command line names, or the one that ./build proves and builds."""
    return os.path.abspath(given.library) if given.library else built_library(*words)


# ---- what is played: a name, and the paths of a configuration and two traces


def of_examples():
    for config, name in ("two_links", "network"), ("two_links", "fragments"), ("turning", "turning"):
        yield f"{name} of examples", [EXAMPLES / f"{config}.toml", EXAMPLES / f"{name}_a.trace", EXAMPLES / f"{name}_b.trace"], []


def of_profiles(room, frames):
    for profile in PROFILES:
        folder = room / profile
        subprocess.run([sys.executable, ROOT / "peer" / "gen_trace.py", "--frames", str(frames), "--profile",
                        profile, "--out-dir", folder], check=True, stdout=subprocess.DEVNULL)
        yield profile, [folder / name for name in ("config.toml", "a.trace", "b.trace")], []


def of_chance(room, cases, seed):
    for case in range(cases):
        folder = room / f"case-{case}"
        folder.mkdir()
        words = write_case(random.Random(f"{seed} {case}"), folder, 500)
        at = words[words.index("--at") + 1:][:1] if "--at" in words else []
        yield f"case {case}", [folder / name for name in ("config.toml", "a.trace", "b.trace")], at


# ---- programs, and calls at random moments


def compiled_part(name, room, *words, called=None):
    """A program of checks/parts, compiled with these words."""
    compiler, program = os.environ.get("CC", "cc").split(), room / (called or name)
    flags = ["-std=c11", "-O2", "-Wall", "-Wextra", f"-I{EXAMPLES / 'c'}"]
    subprocess.run([*compiler, *flags, "-o", program, ROOT / "checks" / "parts" / f"{name}.c", *words], check=True)
    return program


def stack_of(library, room, cases, runner=(), roof=()):
    """The most octets of stack that each call took, by its name."""
    program, most = compiled_part("stack", room, EXAMPLES / "c" / "pool.c", POOL, library, *roof, called=f"stack{len(roof)}"), {}
    for name, files, _ in cases:
        done = run([*runner, program, *files])
        if done.returncode:
            raise RuntimeError(f"{name}: stack: status {done.returncode}, {done.stderr!r}")
        for line in done.stdout.decode().splitlines():
            call, _, octets = line.rpartition(": ")
            most[call] = max(int(octets), most.get(call, 0))
    return most


def scripts_of(given, cases):
    """Cases of calls at random moments, and what the model answers; and one of frames that these hardly have."""
    for case in range(cases):
        yield f"script {case}", Script(random.Random(f"{given.seed} script {case}"), given.script_frames).make()
    yield "rare frames", rare_script()


def under(roof, scripts):
    """What a system has of them: its passes tell health by a call of their own."""
    return scripts if roof == "receiver" else [(name, script.without(*OF_RECEIVERS)) for name, script in scripts]
