"""What health tells of captures with faults that are made up: each fault of a table alone, and all of them together; and of files
that have a fault."""
import json

import pytest
from conftest import run
from parts.told_faults import FILES, FIRST_VL, ROWS, capture, config, frames_of
from workbench import screen_text
from workbench.told import amiss, amiss_in_all

# What else is told of a row alone.
BESIDES = {"none came": b"it has no packet", "B slower by two gaps, within SkewMax": b"if it isn't its frames' delay"}


# What check says of a file whose times are wrong or whose numbers make no sense: this, and nothing else.
SLIPS = {"B appended to A": ": 499 packets are far behind the other network: --reorder ", "B's clock ahead": " 2300 us ahead ",
         "B's clock an hour ahead": " 3600000300 us ahead ", "B's clock faster": " 40.0 parts per million: ",
         "B's clock faster, beyond SkewMax": " 99.99 parts per million: ", "B's clock faster, and set right": "",
         "B's clock ahead and faster, and set right": "",
         "check sequences that are taken for frames": ": link 300: its numbers make no sense: "}


def told(written, rows, files, *words):
    """The links by their place in the table, all that was told, and the run."""
    names = [written(f"{number}.pcapng", octets) for number, octets in enumerate(files)]
    found = run("health", "--each", "--json", "--config", written("c.toml", "\n".join(config(rows))), *names, *words)
    report = json.loads(found.stdout)
    return {link["vl"] - FIRST_VL: link for link in report["links"]}, report, found


def words(link):
    """Those that are amiss, but for the law's, which has its own."""
    return {word: count for word, count in amiss(link).items() if word != "law"}


def look_at(link, row):
    assert (words(link), link["law"]) == row[3:5]
    assert link["arrived"] == link["delivered"]


@pytest.mark.parametrize("place, row", enumerate(ROWS), ids=[row[0] for row in ROWS])
def test_each_fault_alone(place, row, written):
    links, _, found = told(written, [(place, row)], [capture(sorted(frames_of(place, row)))])
    look_at(links[place], row)
    assert found.stderr.count(b"\n") == (row[0] in BESIDES) and BESIDES.get(row[0], b"") in found.stderr


def test_a_page_says_nothing_that_isnt_known(written):
    place, row = next((place, row) for place, row in enumerate(ROWS) if "one is slower" in row[0])
    page = run("draw", "--config", written("c.toml", "\n".join(config([(place, row)]))),
               written("x.pcapng", capture(sorted(frames_of(place, row))))).stdout.decode()
    assert "Link 327" in page and "before their BAG" not in page


def test_all_faults_together(written):
    frames = sorted(frame for place, row in enumerate(ROWS) for frame in frames_of(place, row))
    links, report, found = told(written, list(enumerate(ROWS)), [capture(frames)])
    for place, row in enumerate(ROWS):
        look_at(links[place], row)
    assert not found.stderr and not any(amiss_in_all(report).values())
    shown = [f"{word} {count}" for link in report["links"] for word, count in amiss(link).items()
             if word not in screen_text.SHOWN_ALONE]
    for room in (80, 120):
        lines = "\n".join(screen_text.links_in(report["links"], room)).split("\n")
        assert max(map(len, lines)) <= room and all(any(one in line for line in lines) for one in shown)


@pytest.mark.parametrize("name, made, files, options, of_link, of_all, status, error", FILES, ids=[row[0] for row in FILES])
def test_files(name, made, files, options, of_link, of_all, status, error, written):
    row = (name, made, [], of_link, "")
    links, report, found = told(written, [(0, row)], files(sorted(frames_of(0, row))), *options)
    assert words(links[0]) == of_link
    assert {word: count for word, count in amiss_in_all(report).items() if count} == of_all
    assert found.returncode == status and error in found.stderr.decode(), found.stderr
    if name in SLIPS:
        config_of, *names = (word for word in found.args[5:] if word not in options)
        slips = run("check", config_of, *names, *options).stdout.decode().splitlines()
        assert [SLIPS[name] in slip for slip in slips] == [True] * bool(SLIPS[name])
