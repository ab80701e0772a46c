"""A configuration: the receiver that it opens, and the keys that it passes over, of names, BAGs and partitions."""
from receiver import ConfigFault, Receiver
from workbench import files, places
from workbench.faults import Fault, plain

MOST_PERIOD, LONGEST_NAME, LONGEST_TEXT = 10**9, 40, 200  # microseconds, letters
MOST_LINKS, MOST_PORTS, MOST_READERS, AHEAD = 64, 32, 8, 128  # and gaps after which a sequence number isn't ahead any more
# Of faults that name no key: which one is at fault, and what is allowed.
UNNAMED = {"link given twice": ("vl", "a number that no other link has"),
           "port given twice": ("udp", "an address and UDP port that no other port of the link has"),
           "name given twice": ("name", "a name that no other port has"),
           "too many links or ports": (None, f"{MOST_LINKS} links, {MOST_PORTS} ports of a link")}
# What a value of an own key has to be.
PERIOD = f"a whole number of microseconds, 1 to {MOST_PERIOD}"
LONGEST = {"name": LONGEST_NAME, "not_one_sender": LONGEST_TEXT}
OWN_KEYS = {"a link": {**{key: f"a text of 1 to {most} letters" for key, most in LONGEST.items()}, "bag_us": PERIOD,
                       "jitter_us": PERIOD.replace("1", "0", 1)},
            "a port": {"read_us": PERIOD, "take_us": PERIOD, "readers": f"a whole number, 1 to {MOST_READERS}"}}


def read(path):
    with files.reading(path) as file:
        return file.read()


def refusal(fault):
    """The path of what is refused, and the receiver's words, with what is allowed."""
    links = ("link", fault.link) if fault.link is not None else ()
    ports = ("port", fault.port) if fault.port is not None else ()
    key, allowed = UNNAMED.get(str(fault), (fault.key, ""))
    path = (*links, *ports, *filter(None, [key]))
    if str(fault).startswith("too many"):
        path = (*links, "port", MOST_PORTS) if links else ("link", MOST_LINKS)
    return path, f"refused: {fault}" + (f" (allowed: {allowed})" if allowed else fault.allowed)


def is_right(key, value):
    if key in LONGEST:
        return isinstance(value, str) and 0 < len(value) <= LONGEST[key] and plain(value) == value
    most = MOST_READERS if key == "readers" else MOST_PERIOD
    return type(value) is int and (key != "jitter_us") <= value <= most


def wrong_keys(config):
    """The path of each own key whose value can't be, with what it has to be."""
    for path, table, level in places.members(config):
        for key, wanted in OWN_KEYS[level].items():
            if key in table and not is_right(key, table[key]):
                yield (*path, key), f"{key} isn't {wanted}"


def receiver_of(path, octets):
    """The receiver of a configuration; where it is refused the fault is told with its place."""
    try:
        return Receiver(octets)
    except ConfigFault as fault:
        raise Fault(places.Document(path, octets, fault).slip(*refusal(fault))) from None


def own_keys(path, octets):
    """The tables of links, by their numbers, and the periods of ports, by their names; each own key is right."""
    found = places.Document(path, octets)
    for wrong, why in wrong_keys(found.tables):
        raise Fault(found.slip(wrong, why))
    links = {link["vl"]: link for link in found.tables["link"]}
    return links, {port["name"]: port.get("read_us" if port["kind"] == "sampling" else "take_us")
                   for link in links.values() for port in link.get("port", [])}
