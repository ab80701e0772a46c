"""What lies beside the library for C: its headers, its memory of malloc, its files for pkg-config and CMake, and a shared
object."""
import ctypes
import os
import re
import shutil
import subprocess

from marks import HEADERS, HEAP, HERE, SHARED, SUPPRESSIONS, TARGETS
from proving import say
from version import version

# The archive, whose three functions for memory the program has: its own, or those of heap.c.
PACKAGE = """\
heap=${{pcfiledir}}/heap.c
Name: yelunnavi
Description: the receiving half of an AFDX end system, proved: an archive, which takes memory by three functions of the program
Version: {version}
Libs: ${{pcfiledir}}/libyelunnavi.a
Cflags: -I${{pcfiledir}}
"""
PACKAGE_OF_SHARED = """\
Name: yelunnavi-with-malloc
Description: the receiving half of an AFDX end system, proved: a shared object, which takes memory by malloc
Version: {version}
Libs: -L${{pcfiledir}} -Wl,-rpath,${{pcfiledir}} -lyelunnavi-with-malloc
Cflags: -I${{pcfiledir}}
"""
CMAKE = """\
# yelunnavi::yelunnavi is the archive, which takes memory by three functions of the program: its own, or those of heap.c,
# which yelunnavi::heap adds. yelunnavi::with_malloc is the shared object, which takes memory by malloc, where it was built.
if(NOT TARGET yelunnavi::yelunnavi)
  add_library(yelunnavi::yelunnavi STATIC IMPORTED)
  set_target_properties(yelunnavi::yelunnavi PROPERTIES IMPORTED_LOCATION "${CMAKE_CURRENT_LIST_DIR}/libyelunnavi.a"
    INTERFACE_INCLUDE_DIRECTORIES "${CMAKE_CURRENT_LIST_DIR}")
  add_library(yelunnavi::heap INTERFACE IMPORTED)
  set_target_properties(yelunnavi::heap PROPERTIES INTERFACE_SOURCES "${CMAKE_CURRENT_LIST_DIR}/heap.c"
    INTERFACE_LINK_LIBRARIES yelunnavi::yelunnavi)
endif()
if(EXISTS "${CMAKE_CURRENT_LIST_DIR}/libyelunnavi-with-malloc.so" AND NOT TARGET yelunnavi::with_malloc)
  add_library(yelunnavi::with_malloc SHARED IMPORTED)
  set_target_properties(yelunnavi::with_malloc PROPERTIES
    IMPORTED_LOCATION "${CMAKE_CURRENT_LIST_DIR}/libyelunnavi-with-malloc.so" IMPORTED_SONAME "@SONAME@"
    INTERFACE_INCLUDE_DIRECTORIES "${CMAKE_CURRENT_LIST_DIR}")
endif()
"""
# While the first number is 0, the second one rises where a promise goes.
CMAKE_VERSION = """\
set(PACKAGE_VERSION "@VERSION@")
set(PACKAGE_VERSION_COMPATIBLE FALSE)
set(PACKAGE_VERSION_EXACT FALSE)
set(wanted "${PACKAGE_FIND_VERSION_MAJOR}")
set(there "@MAJOR@")
if(there EQUAL 0)
  string(APPEND wanted ".${PACKAGE_FIND_VERSION_MINOR}")
  string(APPEND there ".@MINOR@")
endif()
if(NOT PACKAGE_FIND_VERSION OR (wanted STREQUAL there AND NOT PACKAGE_VERSION VERSION_LESS PACKAGE_FIND_VERSION))
  set(PACKAGE_VERSION_COMPATIBLE TRUE)
endif()
if(PACKAGE_FIND_VERSION VERSION_EQUAL PACKAGE_VERSION)
  set(PACKAGE_VERSION_EXACT TRUE)
endif()
if(CMAKE_SIZEOF_VOID_P AND NOT CMAKE_SIZEOF_VOID_P EQUAL 8)
  set(PACKAGE_VERSION_UNSUITABLE TRUE)
endif()
"""
WHOLE = ["-Wl,--whole-archive", "libyelunnavi.a", "-Wl,--no-whole-archive", "-Wl,-z,defs"]


def abi():
    """The number of the interface, of the header."""
    return re.search(r"^#define YELUNNAVI_ABI (\d+)$", HEADERS[0].read_text(encoding="ascii"), re.M)[1]


def short_rooms(shared):
    """The kinds of handles whose slot takes more octets than the header says are enough."""
    library, header = ctypes.CDLL(shared), HEADERS[0].read_text(encoding="ascii")
    octets = re.findall(r"^#define YELUNNAVI_(\w+)_OCTETS (\d+)U$", header, re.M)
    return [kind for kind, enough in octets if library[f"yelunnavi_{kind.lower()}_room"]() > int(enough)]


def compiler_of(target):
    named = os.environ.get("CC") if target == HERE else None
    return (named or TARGETS[target]).split()


def add_texts(made, soname):
    """Lays the headers, memory of malloc, what tools leave out, and the files for pkg-config and CMake into a folder."""
    for source in (*HEADERS, HEAP, *SUPPRESSIONS):
        shutil.copy(source, made)
    number = version()
    major, minor, _ = number.split(".")
    of_version = CMAKE_VERSION.replace("@VERSION@", number).replace("@MAJOR@", major).replace("@MINOR@", minor)
    texts = {"yelunnavi.pc": PACKAGE.format(version=number), "yelunnavi-with-malloc.pc": PACKAGE_OF_SHARED.format(version=number),
             "yelunnaviConfig.cmake": CMAKE.replace("@SONAME@", soname), "yelunnaviConfigVersion.cmake": of_version}
    for name, text in texts.items():
        (made / name).write_text(text, encoding="utf-8")


def add_interface(product, made):
    """Lays the headers, the files for pkg-config and CMake and, if a C compiler for the target makes it, the shared object
    into a folder. Returns why the header isn't of this library, if it isn't."""
    soname = f"{SHARED}.{abi()}"
    add_texts(made, soname)
    compiler = compiler_of(product.target)
    if not shutil.which(compiler[0]):
        say(f"no {compiler[0]} here, so there is no shared object for {product.target}")
        return None
    words = ["-shared", "-O2", "-fPIC", "-fvisibility=hidden", f"-I{HEADERS[0].parent}", "-o", soname, HEAP, *WHOLE,
             f"-Wl,-soname,{soname}"]
    if subprocess.run([*compiler, *words], cwd=made).returncode:
        say(f"{' '.join(compiler)} fails, as it says above, so there is no shared object for {product.target}")
        return None
    (made / SHARED).symlink_to(soname)
    short = short_rooms(made / soname) if product.target == HERE else []
    return f"{HEADERS[0].name}: too few octets for the room of {', '.join(short)}" if short else None
