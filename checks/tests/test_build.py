"""What ./build keeps, and the words of ./afdx_play that are refused before anything is built."""
import csv
import importlib.util
import io
import os
import re
import shutil
import subprocess
import tarfile
from importlib.machinery import SourceFileLoader
from pathlib import Path

import evidence
import interface
import pytest
import release
from conftest import ROOT
from marks import HERE, TARGETS, Product, sum_of
from version import version

CONFIG = ROOT / "examples" / "two_links.toml"


def put(product, folder, octets):
    folder.mkdir()
    (folder / "afdx_play").write_bytes(octets)
    product.put(folder, product.sum())


def test_a_mark_fits_what_was_built_and_nothing_else(tmp_path):
    product = Product("program")
    product.folder = tmp_path / "program"
    assert not product.is_built()
    put(product, tmp_path / "first", b"a program")
    assert product.is_built()
    (product.folder / "afdx_play").write_bytes(b"another one")
    assert not product.is_built()
    put(product, tmp_path / "second", b"another one")
    assert product.is_built()
    (product.folder / "stray").write_bytes(b"")
    assert not product.is_built()


def test_a_mark_of_other_sources_does_not_fit(tmp_path):
    product = Product("program")
    product.folder = tmp_path / "program"
    put(product, tmp_path / "made", b"a program")
    product.sum = lambda: "of other sources"
    assert not product.is_built()


def test_the_library_depends_on_its_header_and_its_target_has_a_folder():
    library, other = Product("library"), Product("library", "aarch64-unknown-linux-gnu")
    assert library.folder != other.folder and library.sum() == other.sum() != Product("program").sum()


@pytest.fixture
def build(tmp_path, monkeypatch):
    """./build with a folder for what it makes, that proves nothing and keeps what it was asked to prove."""
    spec = importlib.util.spec_from_loader("build", SourceFileLoader("build", str(ROOT / "build")))
    found = importlib.util.module_from_spec(spec)
    spec.loader.exec_module(found)
    found.asked = []
    for name, instead in {
        "ROOT": tmp_path, "OUT": tmp_path, "build_folder": lambda name: tmp_path / "proofs" / name,
        "take_from_gate": lambda product: None, "prove_crates": lambda *_: None,
        "lay_crates": lambda folder, names: found.asked.append(names) or names,
        "put_together": lambda product, crates, made: (made / product.crates[0]).write_text("made") and None,
    }.items():
        monkeypatch.setattr(found, name, instead)
    return found


def test_what_is_missing_is_proved_in_one_run(build, tmp_path):
    products = [Product("program"), Product("library")]
    for product in products:
        product.folder, product.sum = tmp_path / product.crates[0], lambda *_: "the same sources"
    build.build(products)
    build.build(products)
    assert build.asked == [["afdx_play", "receiver_c", "system_c"]] and all(product.is_built() for product in products)
    (products[1].folder / "stray").write_text("")
    build.build(products)
    assert build.asked[1:] == [["receiver_c", "system_c"]]


@pytest.mark.parametrize("compiler, told", [("false", "false fails, as it says above"), ("nowhere-cc", "no nowhere-cc here")])
def test_a_library_without_a_shared_object(compiler, told, tmp_path, monkeypatch, capfd):
    """The proved library is there all the same."""
    monkeypatch.setenv("CC", compiler)
    interface.add_interface(Product("library"), tmp_path)
    assert sorted(path.name for path in tmp_path.iterdir()) == \
        ["drd.supp", "heap.c", "helgrind.supp", "tsan.supp", "yelunnavi-with-malloc.pc", "yelunnavi.h", "yelunnavi.pc",
         "yelunnaviConfig.cmake", "yelunnaviConfigVersion.cmake", "yelunnavi_table.h", "yelunnavi_words.h"]
    found = capfd.readouterr().err
    assert told in found and f"so there is no shared object for {HERE}" in found


def packed(folder, gate):
    """The octets of a release with one folder, which is in the tree and not in its commit."""
    release.OUT = folder
    return release.pack([ROOT / "examples" / "captures"], gate).read_bytes()


def test_a_release_of_one_commit_is_always_the_same_octets(tmp_path):
    made = packed(tmp_path, "12 passed, 0 failed\n")
    assert made == packed(tmp_path, "12 passed, 0 failed\n") != packed(tmp_path, None)
    with tarfile.open(fileobj=io.BytesIO(made)) as archive:
        files = {entry.name.partition("/")[2]: (entry, archive.extractfile(entry).read()) for entry in archive}
    assert files["afdx_play"][0].mode == 0o755 and files["README.md"][0].mode == 0o644
    assert {(entry.uid, entry.uname) for entry, _ in files.values()} == {(0, "")}
    sums = dict(reversed(line.split("  ", 1)) for line in files.pop(release.SUMS)[1].decode().splitlines())
    assert sums == {name: sum_of(octets) for name, (_, octets) in files.items()}
    assert files["evidence/gate"][1] == b"12 passed, 0 failed\n"
    ported = [line.split()[1] for line in files["evidence/index"][1].decode().splitlines() if line.startswith("ported ")]
    assert "atomic_table:" in ported
    made_by = {line.partition(": ")[0] for line in files["evidence/made-by"][1].decode().splitlines()}
    assert made_by >= {"archiver", "system", *(f"compiler of C for {target}" for target in TARGETS)}
    summed = {line.split("  ", 1)[1] for line in files["evidence/sources"][1].decode().splitlines()}
    assert summed >= {"build", "bench/run", "crates.txt", "checks/book", "tools/release.py", "peer/receiver.h"}
    rows = csv.DictReader(io.StringIO(files["evidence/TRACEABILITY.csv"][1].decode()))
    assert {row["part"] for row in rows} == {"definition", "contract", "wrong body", "test"}


def test_each_link_of_a_release_leads_to_what_is_packed(tmp_path):
    with tarfile.open(fileobj=io.BytesIO(packed(tmp_path, None))) as archive:
        files = {entry.name.partition("/")[2]: archive.extractfile(entry).read() for entry in archive}
    known = {str(folder) for name in files for folder in (Path(name), *Path(name).parents)}
    links = [(name, found[1]) for name, octets in files.items() if name.endswith(".md")
             for found in re.finditer(r"\]\(([^)\s#]+)[^)]*\)", octets.decode())]
    dead = [link for link in links if "://" not in link[1] and os.path.normpath(Path(link[0]).parent / link[1]) not in known]
    assert len(links) > 100 and not dead


@pytest.fixture
def committed(tmp_path, monkeypatch):
    """A tree of one commit in place of this one, and its number."""
    def git(*words):
        return subprocess.run(["git", "-c", "user.name=x", "-c", "user.email=x@x", *words], cwd=tmp_path, check=True,
                              capture_output=True, text=True).stdout
    (tmp_path / "file").write_text("one")
    for words in (["init", "-q"], ["add", "file"], ["commit", "-qm", "one"]):
        git(*words)
    monkeypatch.setattr(evidence, "ROOT", tmp_path)
    return tmp_path, git("rev-parse", "HEAD").strip()


def test_a_release_is_of_one_commit(committed):
    tree, commit = committed
    evidence.look_at_commit(None)
    evidence.look_at_commit(f"commit {commit}\n3 passed, 0 failed\n")
    with pytest.raises(evidence.NotOfOneCommit, match="no line 'commit"):
        evidence.look_at_commit("3 passed, 0 failed\n")
    with pytest.raises(evidence.NotOfOneCommit, match="no line 'N passed, 0 failed'"):
        evidence.look_at_commit(f"commit {commit}\n13 passed, 1 failed\n")
    (tree / "file").write_text("two")
    with pytest.raises(evidence.NotOfOneCommit, match="isn't that of its commit"):
        evidence.look_at_commit(None)


@pytest.mark.skipif(not shutil.which("dpkg-deb"), reason="no dpkg-deb")
def test_a_package_for_debian_has_the_files_of_the_archive(tmp_path):
    with tarfile.open(fileobj=io.BytesIO(packed(tmp_path, None))) as archive:
        files = {entry.name.partition("/")[2]: archive.extractfile(entry).read() for entry in archive}
    package, laid = tmp_path / f"yelunnavi_{version()}_amd64.deb", tmp_path / "laid"
    made = package.read_bytes()
    packed(tmp_path, None)
    assert made == package.read_bytes()
    subprocess.run(["dpkg-deb", "-x", package, laid], check=True)
    assert files == {str(path.relative_to(laid / release.PLACE)): path.read_bytes()
                     for path in (laid / release.PLACE).rglob("*") if path.is_file()}
    assert {path.name: str(path.readlink()) for path in (laid / "usr" / "bin").iterdir()} == {
        name: f"/{release.PLACE}/{command}" for name, command in release.COMMANDS.items()}


def test_the_workbench_tells_the_version():
    done = subprocess.run([ROOT / "tools" / "yelunnavi", "--version"], capture_output=True, text=True, timeout=10)
    assert (done.returncode, done.stdout) == (0, f"yelunnavi {version()}\n")


def unbuilt(*words):
    """A run of the script that builds nothing: its status, and the one line that it says."""
    done = subprocess.run([ROOT / "afdx_play", "--unproved", *words], stdin=subprocess.DEVNULL, capture_output=True,
                          text=True, timeout=10)
    assert done.stdout == "" and done.stderr.count("\n") == 1, done
    return done.returncode, done.stderr


def words_with(**more):
    """A whole command line, with these words in place of those that would be played."""
    trace = ROOT / "examples" / "network_a.trace"
    return [part for name, value in {"config": CONFIG, "a": trace, "b": trace, **more}.items() for part in (f"--{name}", value)]


@pytest.mark.parametrize("words, told", [
    (["--nonsense"], "no such word: --nonsense"),
    (["--config"], "--config needs a file"),
    (["--a", "/nowhere", "--b", "/nowhere"], "--config FILE is missing"),
    (["--config", "/nowhere", "--nonsense"], "no such word: --nonsense"),
    (["--threads", "--threads"], "--threads is given twice"),
    (words_with(at="soon"), "--at needs a number of microseconds"),
    (words_with(at="-5"), "--at needs a number of microseconds"),
    (words_with(at="9223372036854775808"), "--at is at most 9223372036854775807"),
    (words_with(a="/dev/stdin"), "is no plain file, and --unproved reads nothing else"),
])
def test_words_are_refused_at_once(words, told):
    status, said = unbuilt(*words)
    assert status == 2 and said.startswith("afdx_play: ") and told in said


@pytest.mark.parametrize("words, said", [
    (words_with(config="/nowhere"), "config not read"),
    (words_with(config=ROOT), "config not read"),
    (words_with(a="/nowhere"), "trace A not read"),
    (words_with(b="/nowhere"), "trace B not read"),
])
def test_a_file_that_cannot_be_read_has_the_line_and_the_status_of_the_program(words, said):
    assert unbuilt(*words) == (3, f"afdx_play: {said}\n")


@pytest.mark.parametrize("time", ["5", "+5", "+0005", "9223372036854775807", "000000000000000000000009"])
def test_a_time_is_read_as_by_the_program(time):
    """It isn't refused: the file after it is."""
    assert unbuilt(*words_with(b="/nowhere"), "--at", time) == (3, "afdx_play: trace B not read\n")


def test_the_script_tells_the_version():
    done = subprocess.run([ROOT / "afdx_play", "--unproved", "--version"], capture_output=True, text=True, timeout=10)
    assert (done.returncode, done.stdout) == (0, f"afdx_play {version()}\n")


def test_help_needs_no_build():
    done = subprocess.run([ROOT / "afdx_play", "--unproved", "--help"], capture_output=True, text=True, timeout=10)
    assert done.returncode == 0 and "--config FILE" in done.stdout and done.stderr == ""
