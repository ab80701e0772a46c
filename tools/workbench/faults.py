"""What ends a run: one line on the standard error, and an exit status like the program's."""
import re

REFUSED, WRONG_WORDS, NOT_READ, NO_MEMORY, BROKEN = range(1, 6)


class Fault(Exception):
    """Why the run ends."""
    status = REFUSED

    def __init__(self, text, status=None):
        super().__init__(plain(text))
        self.status = status or self.status


class Broken(Fault):
    """From here on a file isn't of its form; what came before was played."""
    status = BROKEN


def plain(text):
    """The text on one line, with nothing in it that a terminal or a column of Wireshark would act on."""
    return re.sub("[^ -~]", "?", str(text))
