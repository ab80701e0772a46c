"""The screen of `watch`: all links or one, refreshed at each picture, with keys."""
import os
import select
import sys
import termios
import tty

from workbench import screen_text, told
from workbench.faults import NOT_READ, Fault

SORTS = ("link", "what is amiss", "losses", "rate")
ESCAPE, ENTER = "\x1b", "\n\r"


class Keys:
    """What was typed, without a wait; nothing if the standard input is no terminal."""

    def __enter__(self):
        self.is_there = sys.stdin.isatty()
        if self.is_there:
            self.before = termios.tcgetattr(0)
            tty.setcbreak(0)
        return self

    def __exit__(self, *_):
        if self.is_there:
            termios.tcsetattr(0, termios.TCSADRAIN, self.before)

    def typed(self):
        while self.is_there and select.select([0], [], [], 0)[0]:
            yield from os.read(0, 64).decode(errors="replace")


class Screen:
    def __init__(self, names):
        try:
            from rich import console, live, text
        except ImportError:
            raise Fault("no python3-rich: apt-get install --no-install-recommends python3-rich, or --json",
                        NOT_READ) from None
        self.text, self.group = text.Text, console.Group
        self.names, self.keys, self.sort, self.link, self.digits = names, Keys(), 0, None, ""
        self.live = live.Live(auto_refresh=False, screen=True)

    def __enter__(self):
        self.keys.__enter__()
        self.live.__enter__()
        return self.show

    def __exit__(self, *given):
        self.live.__exit__(*given)
        self.keys.__exit__(*given)

    def show(self, shown):
        """Returns whether it is to end."""
        for key in self.keys.typed():
            if key == "q":
                return True
            self.take(key)
        rows = [self.head(shown), *self.notes(shown)]
        one = next((link for link in shown["links"] if link["vl"] == self.link), None)
        rows += [self.text(line, no_wrap=False) for line in screen_text.lines_of_link(one)] if one else self.links(shown)
        self.live.update(self.group(*rows), refresh=True)
        return False

    def take(self, key):
        if key == "s":
            self.sort = (self.sort + 1) % len(SORTS)
        elif key.isdigit():
            self.digits += key
        elif key in ENTER and self.digits:
            self.link, self.digits = int(self.digits), ""
        elif key == ESCAPE:
            self.link, self.digits = None, ""

    def head(self, shown):
        lost = shown["lost_by_tap"]
        told_lost = f"lost by the tap {lost[0]} {lost[1]}" if lost is not None else "losses of the tap are told at the end"
        return self.text(f"A {self.names[0]}  B {self.names[1]}  {shown['microseconds'] // 1_000_000} s  {told_lost}  "
                         f"sorted by {SORTS[self.sort]} {self.digits}",
                         style="bold red" if lost and any(lost) else "bold", no_wrap=True)

    def notes(self, shown):
        found = [f"{name} on {net}: " + ", ".join(f"{cause} {count}" for cause, count in counts.items())
                 for name in ("filtered", "left_out") for net, counts in shown[name].items() if counts]
        return [self.text(line, style="yellow", no_wrap=True) for line in (*found, *shown["notes"][-2:])]

    def links(self, shown):
        """A line a link: red if a network is silent or a message was lost, yellow if else something is amiss."""
        links = sorted(shown["links"], key=self.order)
        lines = screen_text.links_in(links, self.live.console.width)
        styles = ["bold", *map(style, links)]
        return [self.text(line, style=each, no_wrap=True, overflow="ellipsis") for line, each in zip(lines, styles)]

    def order(self, link):
        found = told.amiss(link)
        return {"link": link["vl"], "what is amiss": -sum(found.values()), "losses": -sum(
            found.get(word, 0) for word in ("lost-a", "lost-b", "lost-both")),
            "rate": -told.sum_of(link, "rate")}[SORTS[self.sort]]


def style(link):
    found = told.amiss(link)
    return "red" if {"silent", "lost-both", "overflow"} & found.keys() else "yellow" if found else ""
