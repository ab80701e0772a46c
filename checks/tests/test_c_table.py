"""The table of a configuration in C: it compiles in each standard without a warning, whatever the configuration has."""
import shutil
import subprocess

import pytest
from conftest import CONFIG, ROOT

import c_table

LINK = "[[link]]\nvl = 1\nskew_max_us = 0\nreassembly_us = 0\n"
PORT = '[[link.port]]\nname = "a"\nkind = "sampling"\naddress = "224.224.0.17"\nudp = 1\nrefresh_us = 1\nreaders = 2\n'
WARNINGS = ["-Wall", "-Wextra", "-Wpedantic", "-Wconversion", "-Wsign-conversion", "-Werror", "-Wno-unused-variable",
            "-Wno-unused-const-variable"]
STANDARDS = [*((name, "c", standard) for name in ("gcc", "clang") for standard in ("c99", "c11", "c17")),
             *((name, "c++", standard) for name in ("g++", "clang++") for standard in ("c++11", "c++14", "c++17", "c++20"))]


@pytest.mark.parametrize("text, links, ports", [
    (CONFIG.read_text(), 2, 3), (LINK, 1, 0), (LINK + LINK, 2, 0), (LINK + PORT, 1, 1), (LINK + PORT + LINK, 2, 1), ("link = []", 0, 0)])
def test_a_table_compiles_without_a_warning(text, links, ports):
    table = c_table.text_of(text.encode())
    assert f"TABLE_LINKS = {links}, TABLE_PORTS = {ports} " in table
    for compiler, language, standard in STANDARDS:
        if shutil.which(compiler):
            words = [compiler, "-x", language, f"-std={standard}", *WARNINGS, f"-I{ROOT / 'examples' / 'c'}", "-fsyntax-only", "-"]
            done = subprocess.run(words, input=f'#include "yelunnavi.h"\n{table}', capture_output=True, text=True, timeout=60)
            assert (done.returncode, done.stderr) == (0, ""), (compiler, standard)


def test_rows_that_stand_for_none():
    """Of a configuration without ports there is one row of zeros, which nobody reads; else the rows are the ports."""
    table = c_table.text_of(LINK.encode())
    assert "table_ports[] = {\n    {0, 0, 0, 0, 0, 0, {0}, 0},\n};" in table and "table_links[] = {\n    {1, 1, 0, 0, 2, 0},\n};" in table
    assert "{0, 0, 0" not in c_table.text_of(CONFIG.read_bytes())
