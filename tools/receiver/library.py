"""Where the library is, and what its headers say: calls and numbers for cffi, words by their numbers."""
import functools
import os
import platform
import re
import subprocess
from pathlib import Path

ROOT = Path(__file__).resolve().parents[2]
HEADER, WORDS = (ROOT / "examples" / "c" / name for name in ("yelunnavi.h", "yelunnavi_words.h"))
BUILT = ROOT / "out" / "library" / f"{platform.machine()}-unknown-linux-gnu" / "libyelunnavi-with-malloc.so"
HOW = "./build library proves and builds it; YELUNNAVI_LIBRARY names another"


class NoLibrary(OSError):
    """Why the library wasn't loaded."""


def is_built():
    """Whether the library of these sources stands where ./build leaves it. In a release, which has no ./build, it does."""
    build = ROOT / "build"
    return not build.exists() or not subprocess.run([build, "library", "--if-built"], stdin=subprocess.DEVNULL).returncode


def find():
    """The library's path: that of YELUNNAVI_LIBRARY, or where ./build leaves it."""
    given = os.environ.get("YELUNNAVI_LIBRARY")
    if not given and not is_built():
        raise NoLibrary(f"no library of these sources is built: {HOW}")
    path = given or str(BUILT)
    if not os.path.isfile(path):
        raise NoLibrary(f"no library {path}: {HOW}")
    return os.path.abspath(path)


def declarations():
    """The header without what a preprocessor alone reads, its own functions, and the test of the machine's width."""
    text = re.sub(r"#ifdef __cplusplus.*?#endif", "", HEADER.read_text(encoding="ascii"), flags=re.DOTALL)
    text = re.sub(r"^static inline .*?^}$", "", text, flags=re.DOTALL | re.MULTILINE)
    return re.sub(r"^(#|typedef char yelunnavi_is_of_64_bits).*$", "", text, flags=re.MULTILINE)


@functools.cache
def load():
    """cffi's view of the header, and the library, once its number of the interface is seen to be the header's."""
    try:
        import cffi
    except ImportError:
        raise NoLibrary("no python3-cffi: apt-get install --no-install-recommends python3-cffi") from None
    path, ffi = find(), cffi.FFI()
    ffi.cdef(declarations())
    try:
        library = ffi.dlopen(path)
        found = library.yelunnavi_abi()
    except (OSError, AttributeError) as error:
        raise NoLibrary(f"{path}: not loaded: {error}") from None
    wanted = int(re.search(r"^#define YELUNNAVI_ABI (\d+)$", HEADER.read_text(encoding="ascii"), re.MULTILINE)[1])
    if found != wanted:
        raise NoLibrary(f"{path}: its interface has the number {found}, and {HEADER.name} has {wanted}: {HOW}")
    return ffi, library


@functools.cache
def words(function):
    """The words that a function of yelunnavi_words.h returns, by their numbers."""
    ffi, _ = load()
    numbers = {name: number for line in re.findall(r"^enum (\w+)", HEADER.read_text(encoding="ascii"), re.MULTILINE)
               for number, name in ffi.typeof(f"enum {line}").elements.items()}
    body = re.search(rf"\*yelunnavi_{function}\(.*?^}}", WORDS.read_text(encoding="ascii"), re.DOTALL | re.MULTILINE)[0]
    return {numbers[name]: word.replace('\\"', '"') for name, word in re.findall(r'case (\w+): word = "(.*)"; break;', body)}
