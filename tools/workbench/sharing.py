"""The health of many captures: each capture or pair is a task of a worker, and a record of a table for each of its links."""
import argparse
import concurrent.futures
import contextlib
import csv
import io
import os
import sys

from verdict_words import NETWORKS
from workbench import files, station, told
from workbench.faults import NOT_READ, REFUSED, Fault, plain

COLUMNS = ("capture", "vl", "name", "frames_a", "frames_b", "rate_a", "rate_b",
           *(word.replace("-", "_") for word in told.AMISS), "delay_least_us", "delay_median_us", "delay_most_of_99_us",
           "delay_greatest_us", "oldest_us", "most_waiting", "broken")


def task(words, names, tools=None):
    """On a worker: the records of a capture, and the lines of what fails; or a fault as a line."""
    if tools and tools not in sys.path:
        sys.path.insert(0, tools)
    from workbench import summing
    given = argparse.Namespace(**{**words, "files": names})
    try:
        found, status = summing.summed(given)
    except Fault as fault:
        return [], [str(fault)], fault.status
    failed = list(told.failures(found, told.wanted(given.fail_on)))
    return list(records(names, found)), failed, status


def records(names, found):
    for link in found["links"]:
        a, b = (link["networks"][net] for net in NETWORKS)
        delays, ports = link["delays_us"], link["ports"]
        yield (" ".join(map(plain, names)), link["vl"], link["name"], a["frames"], b["frames"], a["rate"], b["rate"],
               *told.counted(link).values(),
               *(delays[name] for name in ("least", "median", "most_of_99", "greatest")),
               max((port["oldest_us"] for port in ports if port["kind"] == "sampling"), default=None),
               max((port["most"] for port in ports if port["kind"] == "queuing"), default=None), " ".join(link["broken"]))


@contextlib.contextmanager
def executor_of(given):
    """Processes of this machine, or the workers of a scheduler."""
    if not given.scheduler:
        with concurrent.futures.ProcessPoolExecutor(given.workers) as executor:
            yield executor
        return
    try:
        import distributed
    except ImportError:
        raise Fault("no distributed: apt-get install --no-install-recommends python3-distributed", NOT_READ) from None
    try:
        with distributed.Client(given.scheduler, timeout=15) as client:
            yield client.get_executor(pure=False)
    except OSError as error:
        raise Fault(f"no scheduler at {given.scheduler}: {type(error).__name__}", NOT_READ) from None


def health(given, most):
    station.Station(given.config)  # what is wrong with it is told once
    own = ("files", "workers", "scheduler", "to", "json")
    words = {name: value for name, value in vars(given).items() if name not in own}
    words["config"] = os.path.abspath(given.config)
    tools = os.path.dirname(os.path.dirname(os.path.abspath(__file__)))
    pairs = [[os.path.abspath(name) for name in names.split(",")] for names in given.files]
    table, worst = [], 0
    with executor_of(given) as executor, files.bar("captures", len(pairs)) as add:
        tasks = [executor.submit(task, words, names, tools) for names in pairs]
        for names, one in zip(pairs, tasks):
            try:
                found, failed, status = one.result()
            except (concurrent.futures.BrokenExecutor, OSError, EOFError) as error:
                raise Fault(f"a worker died: {type(error).__name__}", NOT_READ) from None
            table += found
            worst = max(worst, status, REFUSED if failed else 0)
            for line in failed if given.fail_on is not None or not found else ():
                print(f"yelunnavi: {plain(' '.join(names))}: {line}", file=sys.stderr)
            add(1)
    write(given.to or "-", table)
    return worst


def write(to, table):
    if not to.endswith(".parquet"):
        text = io.StringIO()
        csv.writer(text, lineterminator="\n").writerows([COLUMNS, *table])
        with files.writing(to) as out:
            out.write(text.getvalue().encode())
        return
    try:
        import pandas
        octets = pandas.DataFrame(table, columns=COLUMNS).to_parquet()
    except ImportError:
        raise Fault("no pandas with pyarrow, which write Parquet: a .csv file needs neither", NOT_READ) from None
    with files.writing(to) as out:
        out.write(octets)
