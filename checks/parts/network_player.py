"""Plays random networks (checks/parts/random_networks.py) through a program."""
import collections
import subprocess
import sys

from parts.random_networks import NETS


def played(program, networks, folder):
    """The words of the verdict of each copy, in order, and the messages of each port, as times and octets."""
    for name, text in [("config.toml", networks.config()), *((net, networks.trace(net)) for net in NETS)]:
        (folder / name).write_text(text, encoding="utf-8")
    words = [program, "--config", "config.toml", "--a", "A", "--b", "B"]
    done = subprocess.run(words, cwd=folder, stdin=subprocess.DEVNULL, capture_output=True, text=True, timeout=60)
    if done.returncode:
        sys.exit(f"{program}: exit status {done.returncode}: {done.stderr}")
    verdicts, messages = [], collections.defaultdict(list)
    for line in done.stdout.splitlines():
        words = line.split(" ")
        if words[0].isdigit():
            verdicts.append(words[5:])
        elif words[0] == "message":
            messages[int(words[1])].append((int(words[2]), bytes.fromhex(words[4])))
    return verdicts, messages
