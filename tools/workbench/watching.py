"""Watches two interfaces live: the health of all links, refreshed each second, on a screen, as JSON lines, to Prometheus."""
import contextlib
import json
import queue
import signal
import sys
import threading
import time

from workbench import screen_text, station, stream, taps, told
from workbench.faults import REFUSED
from workbench.health import Health

MOST_WAITING = 100_000  # packets that were read and not taken; then the kernel keeps them, and counts what it loses
LAST_SECONDS = 20  # in which what came before the end is looked at
STEP = 2_000_000_000  # nanoseconds: a clock that goes by more than this beside the monotonic one was set


class Tapped:
    """What a tap gives, in order. A thread reads, so that nobody waits for a silent network.

    A packet waits by the packets' own times, so that nothing is put out of order where this process or dumpcap stood still;
    by the clock only while none comes."""

    def __init__(self, tap, given):
        self.tap, self.given, self.found = tap, given, queue.SimpleQueue()
        self.account = stream.Account("the networks")
        self.order, self.has_ended, self.error = stream.Order(self.account), False, None
        self.began, self.step, self.correction, self.newest, self.steps = clock(), 0, 0, 0, 0
        self.is_over, self.has_more, self.behind, self.is_ended = False, False, 0, False
        self.thread = threading.Thread(target=self.read, daemon=True)
        self.thread.start()

    def read(self):
        try:
            found = stream.arrivals(self.tap.packets(), (0, 1), self.given, self.account)
            for one in filter(None, found):
                if self.is_over:
                    self.behind += 1
                    continue
                self.found.put(one)
                while self.found.qsize() > MOST_WAITING and not self.is_over:
                    time.sleep(0.01)
        except Exception as error:  # told by the thread that takes
            self.found.put(error)
        self.found.put(None)

    def until(self, deadline):
        """What comes until then by the monotonic clock."""
        while not self.has_ended and not self.is_ended and (rest := deadline - time.monotonic()) > 0:
            try:
                one = self.found.get(timeout=min(rest, 0.05))
            except queue.Empty:
                yield from self.order.until(self.time())
                continue
            self.look_at_clock()
            if one is None:
                self.has_ended = True
                yield from self.order.until(float("inf"))
            elif isinstance(one, Exception):
                self.has_ended, self.error = True, one
                yield from self.order.until(float("inf"))
            else:
                one = self.corrected(one)
                self.order.add(one)
                yield from self.order.until(one.time - self.tap.patience)

    def close(self, take):
        """Ends the tap, and takes what it still has, for some seconds. Returns how many packets were lost; in `behind`
        stands how many came and weren't looked at."""
        self.tap.stop()
        self.is_ended = False
        for one in self.until(time.monotonic() + LAST_SECONDS):
            take(one)
        self.is_over = True
        self.thread.join(3 * LAST_SECONDS)
        self.has_more = self.thread.is_alive()
        while not self.found.empty():
            self.behind += isinstance(self.found.get(), stream.Arrival)
        lost, untaken = self.tap.close()
        self.behind += untaken + len(self.order.row) + len(self.order.heap)
        return lost

    def time(self):
        """Up to when nothing is waited for any more; 0 while there is something to take."""
        return time.time_ns() + self.correction - self.tap.patience if self.found.empty() and not self.step else 0

    def look_at_clock(self):
        """Sees whether the clock of the times was set, by the monotonic one."""
        now = clock()
        if abs(now - self.began) > STEP:
            self.step, self.steps = now - self.began, self.steps + 1
        self.began = now

    def corrected(self, one):
        """A packet with the time that it would have if the clock hadn't been set."""
        time_before = one.time + self.correction
        if self.step and abs(time_before - self.newest) > abs(self.step) / 2:
            self.correction, self.step = self.correction - self.step, 0
        one = one._replace(time=one.time + self.correction) if self.correction else one
        self.newest = max(self.newest, one.time)
        return one


def clock():
    """By how much the clock of the packets' times is ahead of the monotonic one, in nanoseconds."""
    return time.time_ns() - time.monotonic_ns()


class Watch:
    """The station and the health that are watched."""

    def __init__(self, given):
        self.played = station.Station(given.config)
        self.health, self.frames, self.seconds = Health(self.played), {}, time.monotonic()
        self.notes = []

    def take(self, one):
        now, reply = self.played.take(one)
        self.health.see(one, now, reply)

    def pass_time(self, moment):
        """Lets it be so late, though nothing came."""
        if self.health.first is not None and moment > self.health.latest:
            now = self.played.clock.since(moment)
            if now > self.played.latest:
                self.played.latest = now
                self.played.partition.wake(now)
            self.health.pass_time(moment)

    def picture(self, lost):
        """All that is shown, with the frames a second since the picture before."""
        found = told.of_all(self.health, self.played.partition, self.played.latest, lost)
        now = time.monotonic()
        took, self.seconds = max(1e-3, now - self.seconds), now
        for link in found["links"]:
            for net, about in link["networks"].items():
                before = self.frames.get((link["vl"], net), 0)
                self.frames[link["vl"], net] = about["frames"]
                about["rate"] = round((about["frames"] - before) / took, 1)
        return {"time": time.time(), **found, "notes": [*self.notes, *self.health.hints()]}


def watch(given):
    most = told.wanted(given.fail_on)
    watched, shown = Watch(given), {}
    if given.prometheus:
        from workbench import metrics
        metrics.serve(given.prometheus, shown)
    tapped = Tapped(taps.WAYS[given.by](given.interfaces), given)
    for number in (signal.SIGINT, signal.SIGTERM):
        signal.signal(number, lambda *_: setattr(tapped, "is_ended", True))  # then what was seen is told
    try:
        with screen_of(given) as show:
            go_on(given, watched, tapped, shown, show)
    finally:
        lost = tapped.close(watched.take)
    watched.health.finish(watched.played.latest)
    found = watched.picture(lost)
    return end(given, found, most, tapped)


def go_on(given, watched, tapped, shown, show):
    """Shows a picture each second, until it is ended."""
    end_at = time.monotonic() + (given.seconds or float("inf"))
    due = time.monotonic()
    while not tapped.has_ended and not tapped.is_ended and time.monotonic() < end_at:
        due = max(due + 1, time.monotonic() + 0.1)
        for one in tapped.until(min(due, end_at)):
            watched.take(one)
        watched.pass_time(tapped.time())
        if tapped.steps > len(watched.notes):
            watched.notes.append(f"at {int(time.time())} the clock was set; times go on as if it hadn't been")
        shown.update(watched.picture(tapped.tap.count_lost()))
        if show(shown):
            return


def end(given, found, most, tapped):
    """The last picture, and the status."""
    if given.json:
        print(json.dumps(found), flush=True)
    else:
        print("\n".join(screen_text.lines(found)))
    lost = found["lost_by_tap"]
    told_lost = "unknown" if lost is None else f"{lost[0]} on A, {lost[1]} on B"
    least = "at least " if tapped.has_more else ""
    behind = f"; {least}{tapped.behind} came, and weren't looked at by the end" if tapped.behind or least else ""
    print(f"yelunnavi: {tapped.account.packets} packets; lost by the tap: {told_lost}{behind}", file=sys.stderr)
    for line in (*tapped.account.lines(), *found["notes"]):
        print(f"yelunnavi: {line}", file=sys.stderr)
    if tapped.error:
        raise tapped.error
    return REFUSED if any(told.failures(found, most)) else 0


def screen_of(given):
    if given.json:
        return contextlib.nullcontext(lambda shown: print(json.dumps(shown), flush=True))
    from workbench import screen
    return screen.Screen(given.interfaces)
