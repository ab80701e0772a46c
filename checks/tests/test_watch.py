"""watch: what a tap gives is put in order, also where its clock is set; the metrics; what it can't listen to."""
import argparse
import json
import os
import signal
import subprocess
import time
import urllib.request

import pytest
from conftest import CAPTURES, CONFIG, TOOL, fault, run
from test_captures import read
from workbench import metrics, taps, watching
from workbench.captures import ETHERNET, Interface, Packet

A, B, MS = 0, 1, 1_000_000
OCTETS = read(CAPTURES / "a.pcap")[0].octets


class Tap:
    """Packets that are there: nanoseconds and network. `after` is called when the packet of a number was given."""
    patience, stop = 50 * MS, staticmethod(lambda: None)

    def __init__(self, packets, after=lambda number: None):
        self.given, self.after = packets, after

    def packets(self):
        for number, (at, net) in enumerate(self.given, 1):
            yield Packet(number, net, at, OCTETS, len(OCTETS), Interface(ETHERNET, None))
            self.after(number)


def tapped(tap):
    found = watching.Tapped(tap, argparse.Namespace(shift_b=(0, 0), fcs=None, untag=False, networks="interface"))
    return [(one.time, one.net) for one in found.until(time.monotonic() + 5)], found


def test_packets_of_two_interfaces_are_in_order():
    found, one = tapped(Tap([(1000 * MS, A), (990 * MS, B), (1100 * MS, B), (1090 * MS, A)]))
    assert found == [(990 * MS, B), (1000 * MS, A), (1090 * MS, A), (1100 * MS, B)] and one.has_ended


def test_a_clock_that_is_set_moves_no_time(monkeypatch):
    """Back by an hour after the second packet, and forward by two after the fourth: gaps stay as they were."""
    offset = [0]
    monkeypatch.setattr(watching, "clock", lambda: offset[0])
    times = [10**15, 10**15 + 8 * MS, 10**15 + 16 * MS, 10**15 + 24 * MS, 10**15 + 32 * MS, 10**15 + 40 * MS]
    hour = 3600 * 10**9
    given = [*((at, A) for at in times[:2]), *((at - hour, A) for at in times[2:4]), *((at + hour, A) for at in times[4:])]
    tap = Tap(given)
    one = watching.Tapped(tap, argparse.Namespace(shift_b=(0, 0), fcs=None, untag=False, networks="interface"))
    time.sleep(0.2)  # all were read
    seen, real = [], one.found.get

    def get(timeout):
        seen.append(1)
        offset[0] = 0 if len(seen) < 3 else -hour if len(seen) < 5 else hour
        return real(timeout=timeout)
    monkeypatch.setattr(one, "found", argparse.Namespace(get=get, empty=lambda: False))
    assert [arrival.time for arrival in one.until(time.monotonic() + 5)] == times and one.steps == 2


def test_the_metrics_are_served():
    pytest.importorskip("prometheus_client")
    watched = watching.Watch(argparse.Namespace(config=CONFIG))
    given = argparse.Namespace(files=[CAPTURES / "faults.pcapng"], interfaces=(0, 1), networks="interface", shift_b=(0, 0),
                               fcs=None, untag=False, reorder=1000, in_a_row=False, since=None, until=None)
    with watching.stream.opened(given) as packets:
        for one in packets:
            watched.take(one)
    shown = watched.picture([3, 0])
    metrics.serve(19_171, shown)
    text = urllib.request.urlopen("http://127.0.0.1:19171/metrics").read().decode()
    assert 'yelunnavi_frames_total{network="A",verdict="sampled",vl="17"} 18.0' in text
    assert 'yelunnavi_amiss{vl="17",what="twice"} 1.0' in text and 'yelunnavi_tap_lost_total{network="A"} 3.0' in text


def test_a_scrape_finds_the_picture_before_while_one_is_made():
    """Another thread reads what is shown at any moment: it is never empty once there was a picture."""
    found, shown = [], {}

    def picture(lost):
        found.append(dict(shown))
        return {"links": [len(found)]}
    watched = argparse.Namespace(take=None, pass_time=lambda moment: None, notes=[], picture=picture)
    tapped_one = argparse.Namespace(has_ended=False, is_ended=False, steps=0, until=lambda deadline: (), time=lambda: 0,
                                    tap=argparse.Namespace(count_lost=lambda: None))
    watching.go_on(argparse.Namespace(seconds=60), watched, tapped_one, shown, lambda shown: len(found) == 3)
    assert found == [{}, {"links": [1]}, {"links": [2]}]


def test_what_can_not_be_listened_to():
    for way in ("socket", "dumpcap"):
        found = run("watch", "--config", CONFIG, "nowhere-a", "nowhere-b", "--by", way, "--json", "--seconds", "5")
        assert found.returncode == 3 and b"Traceback" not in found.stderr
        assert b"nowhere-a: not listened to: No such device" in found.stderr or b"dumpcap ended: " in found.stderr
    assert "--fail-on takes" in fault(2, "watch", "--config", CONFIG, "a", "b", "--fail-on", "x")


CAPTURED = b"Packets captured: 33\nPackets received/dropped on interface 'a': 18/4 (pcap:0)\n" \
           b"Packets received/dropped on interface 'b': 15/0 (pcap:0)\n"


def test_packets_that_dumpcap_counts_and_does_not_write_are_told(tmp_path, monkeypatch):
    """It loses the one that it writes to a full pipe when it is ended; both.pcapng has 32."""
    made = tmp_path / "dumpcap"
    made.write_text(f"#!/bin/sh\ntrap '' TERM\ncat '{CAPTURES / 'both.pcapng'}'\ncat >&2 <<END\n{CAPTURED.decode()}END\n")
    made.chmod(0o755)
    monkeypatch.setenv("PATH", f"{tmp_path}:{os.environ['PATH']}")
    one = watching.Tapped(taps.Dumpcap(["a", "b"]), argparse.Namespace(shift_b=(0, 0), fcs=None, untag=False, networks="interface"))
    while one.found.qsize() < 32:
        time.sleep(0.01)
    taken = []
    assert (one.close(taken.append), one.behind, len(taken)) == ([4, 0], 1, 32)


@pytest.mark.skipif(os.geteuid() != 0, reason="listening to an interface takes a right")
@pytest.mark.parametrize("number, way", [(signal.SIGINT, "socket"), (signal.SIGTERM, "socket"), (signal.SIGINT, "dumpcap")])
def test_it_tells_what_was_seen_when_it_is_ended(number, way):
    process = subprocess.Popen([TOOL, "watch", "--config", CONFIG, "lo", "lo", "--by", way, "--json"], stdout=subprocess.PIPE,
                               stderr=subprocess.PIPE)
    lines = [process.stdout.readline() for _ in range(2)]
    process.send_signal(number)
    out, told = process.communicate(timeout=30)
    assert all(json.loads(line)["links"] for line in (*lines, out.splitlines()[-1]))
    assert process.returncode == 1 and b"lost by the tap: " in told and b"Traceback" not in told
