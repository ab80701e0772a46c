"""Slips in a configuration: what the receiver refuses, each fault with its place; what it passes over in silence.

The rules are the receiver's alone: it is asked again with each fault mended, until it takes the configuration.
"""
import contextlib
import difflib
import functools
import ipaddress
import json
import operator

from receiver import ConfigFault, Receiver
from workbench import files, settings
from workbench.faults import REFUSED, Fault, plain
from workbench.places import Document, members

LEVELS = {
    "the top": ("constant", "link"),
    "a link": ("vl", "skew_max_us", "redundancy", "reassembly_us", "window", "port", *settings.OWN_KEYS["a link"]),
    "a port": ("name", "kind", "address", "udp", "max", "refresh_us", "depth", *settings.OWN_KEYS["a port"]),
}
LEVEL_OF = {key: level for level, keys in LEVELS.items() for key in keys}
OF_OTHER_KIND = {"sampling": ("depth", "take_us"), "queuing": ("refresh_us", "read_us", "readers")}
MOST_FAULTS = 100
# A value that is right, for each key whose value needn't differ from others.
MENDED = {"constant": "03000000", "skew_max_us": 0, "redundancy": True, "reassembly_us": 0, "window": 2, "port": [],
          "max": 0, "refresh_us": 0, "depth": 1}
# For each other key a value by its number: no link or port may have that of another one.
UNUSED = {"vl": int, "udp": int, "name": "name-{}".format, "address": lambda number: str(ipaddress.IPv4Address(number))}


def check(given):
    slips, status = slips_of(given)
    with files.output() as out:
        out.writelines(f"{plain(line)}\n".encode() for line in slips)
    return status or (REFUSED if slips else 0)


def slips_of(given):
    """Each slip as a line, and the status of the captures."""
    octets = settings.read(given.config)
    fault = fault_of(octets)
    try:
        document = Document(given.config, octets, fault)
    except Fault as told:
        if not fault:
            raise
        return [str(told)], 0
    tables = document.tables
    wrong = list(settings.wrong_keys(tables))
    found = [document.slip(*one) for one in (*refused(tables, fault), *wrong, *silences(tables), *turns(tables))]
    if not given.files:
        return found, 0
    if fault or wrong:
        return [*found, f"{given.config}: the captures weren't compared with it, since it is refused"], 0
    from workbench import showing
    shown = showing.Shown(given)
    return [*found, *shown.slips(document)], shown.packets.status


def fault_of(octets):
    try:
        Receiver(octets).close()
    except ConfigFault as fault:
        return fault


def refused(config, fault):
    """The path and the words of each fault."""
    # A copy, in which dates are texts, and a float is one that JSON has.
    config = json.loads(json.dumps(config, default=str), parse_constant=lambda _: 0.5)
    for _ in range(MOST_FAULTS):
        if not fault:
            return
        path, told = settings.refusal(fault)
        yield path, told
        fault = fault_of(written(config).encode()) if mend(config, path) else None


def mend(config, path):
    """Makes what is refused right, or takes away what is too many. Returns whether it can."""
    *around, key = path or (None,)
    table = functools.reduce(operator.getitem, around, config)
    if isinstance(key, int):  # the place of the first that is too many
        del table[key:]
    elif key == "kind":
        table["kind"] = "queuing" if "depth" in table else "sampling"
        table.setdefault("refresh_us", 0)
    elif key in MENDED:
        table[key] = MENDED[key]
    elif key in UNUSED:
        taken = [each.get(key) for _, each, _ in members(config)]
        table[key] = next(value for value in map(UNUSED[key], range(65536)) if value not in taken)
    else:
        return False
    return True


def written(config):
    """A document as TOML, whose values are those of JSON but for what stands after a key."""
    tables = (json.dumps({key: value}, ensure_ascii=False, separators=(", ", " = ")) for key, value in config.items())
    lines = "\n".join(table.removeprefix("{").removesuffix("}") for table in tables)
    return lines.replace("\x7f", "\\u007f")


def turns(config):
    """Links whose numbers may turn while SkewMax runs, by the configuration alone."""
    for path, link, level in members(config):
        if level == "a link" and link.get("redundancy", True) and settings.is_right("bag_us", link.get("bag_us")):
            skew_max, gaps = link.get("skew_max_us"), settings.AHEAD * link["bag_us"]
            if type(skew_max) is int and skew_max >= gaps:
                yield (*path, "skew_max_us"), (f"skew_max_us {skew_max} isn't below {settings.AHEAD} BAGs, which are "
                                               f"{gaps} us (docs/DELIVERY.md)")


def silences(config):
    """The path of each, and words."""
    yield from unknown((), config, "the top")
    owners, ends = {}, []
    for path, table, level in members(config):
        yield from unknown(path, table, level)
        with contextlib.suppress(ValueError):  # what is no address has no end
            end = int(ipaddress.IPv4Address(str(table.get("address")) if level == "a port" else "")) & 0xFFFF
            pair, place = f"{table['address']} UDP {table.get('udp')}", path[1]
            if owners.setdefault(pair, place) != place:
                yield path, f"{pair} is also a port of link {config['link'][owners[pair]].get('vl')}"
            ends.append((path, config["link"][place].get("vl"), end))
    if 2 * sum(vl == end for _, vl, end in ends) > len(ends):
        for path, vl, end in ends:
            if vl != end:
                yield (*path, "address"), f"the address ends in {end}, where most end in their link's number ({vl})"


def unknown(path, table, level):
    for key in table:
        if key not in LEVELS[level]:
            close = [f" ({one} of {LEVEL_OF[one]}?)" for one in difflib.get_close_matches(key, LEVEL_OF, 1, 0.6)]
            yield (*path, key), f"unknown key {key} is ignored{''.join(close)}"
    for other in OF_OTHER_KIND.get(str(table.get("kind")), ()) if level == "a port" else ():
        if other in table:
            yield (*path, other), f"{other} is ignored at a {table['kind']} port"
