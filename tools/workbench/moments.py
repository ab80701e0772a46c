"""Moments of a capture: seconds since its first packet, a time of its first day, or a date and a time (UTC if no zone is
said). All are nanoseconds here."""
import argparse
import datetime
import re
import sys
from decimal import Decimal

SECOND, DAY = 10**9, 86_400 * 10**9
SINCE, OF_DAY, OF_ALL = range(3)
SECONDS = re.compile(r"\d+(\.\d+)?")
EPOCH = datetime.datetime(1970, 1, 1, tzinfo=datetime.timezone.utc)


def moment(word):
    """What a word of the command line says."""
    if SECONDS.fullmatch(word):
        return SINCE, int(Decimal(word) * SECOND)
    try:
        if ":" in word[:3]:
            found = datetime.datetime.combine(EPOCH, datetime.time.fromisoformat(word))
            return OF_DAY, since_1970(found)
        return OF_ALL, since_1970(datetime.datetime.fromisoformat(word))
    except ValueError:
        raise argparse.ArgumentTypeError(f"{word!r} is no moment: 12.5, 13:05:00 or 2026-11-29T13:05:00 (UTC)") from None


def since_1970(found):
    zoned = found if found.tzinfo else found.replace(tzinfo=datetime.timezone.utc)
    return (zoned - EPOCH) // datetime.timedelta(microseconds=1) * 1000


def told(time):
    """As a command line takes it, to the microsecond: a date and a time, or the seconds of a trace."""
    if time < DAY:
        return f"{time // 1000 / 1e6:.6f} s"
    return f"{EPOCH + datetime.timedelta(microseconds=time // 1000):%Y-%m-%dT%H:%M:%S.%f}"


def date(time):
    """Its date and time, to the second."""
    return f"{EPOCH + datetime.timedelta(seconds=time // SECOND):%Y-%m-%d %H:%M:%S} UTC"


def in_capture(found, first):
    """Nanoseconds of 1970, in a capture with this first packet."""
    kind, value = found
    return value + (first if kind == SINCE else first // DAY * DAY if kind == OF_DAY else 0)


def between(found, since, until):
    """The arrivals from one moment to another. Where there is none the time of the first of all is told."""
    first, began, ended, is_empty = None, None, None, True
    for one in found:
        if first is None:
            first, (began, ended) = one.time, (word and in_capture(word, one.time) for word in (since, until))
        if ended is not None and one.time > ended:
            break
        if one.time >= (began or 0):
            is_empty = False
            yield one
    if is_empty and first is not None:
        print(f"yelunnavi: no packet of that time; the first came at {told(first)}", file=sys.stderr)
