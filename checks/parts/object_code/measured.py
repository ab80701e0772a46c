"""The calls of the library that the words of checks/parts/drive.c and stack.c stand for."""
from verdict_words import KINDS

OF_ENDS = {"read": "reader_read", "hold": "reader_hold", "octets": "reader_octets", "copy": "reader_copy",
           "release": "reader_release", "limits": "reader_limits", "take": "queue_take", "longest": "queue_longest",
           "waiting": "queue_waiting",
           "close_reader": "reader_close", "close_queue": "queue_close"}
OF_PASSES = ("receive", "count", "filtered", "port_counts", "fill")
FILTERED = "filtered"


def calls_of(word, roof):
    """The names of the calls that a word of drive.c stands for: of a receiver, or of a system and its passes."""
    if word in OF_ENDS:
        return [f"yelunnavi_{OF_ENDS[word]}"]
    if roof == "receiver":
        return [f"yelunnavi_receiver_{word}"]
    if word == "close":
        return ["yelunnavi_system_close"]
    return [f"yelunnavi_{'pass' if word in OF_PASSES else 'system'}_{word}"]


def word_of_stack(word):
    """The word of drive.c for one of stack.c, which tells a frame by its verdict, and openings apart."""
    if word in KINDS or word == FILTERED:
        return "receive"
    if word.startswith("open"):
        return "open_table" if word.endswith(" table") else "open"
    return word.removeprefix("count of ")
