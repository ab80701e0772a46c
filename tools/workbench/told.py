"""The health of links as plain data: for JSON and tables, screens and the words of `--fail-on`."""
import re

from verdict_words import NETWORKS
from workbench.faults import WRONG_WORDS, Fault


def micro(nanoseconds):
    return None if nanoseconds is None else round(nanoseconds / 1000)


def of_network(link, number, latest):
    net, bag, counts = link.nets[number], link.own.get("bag_us"), link.lost_on(number)
    counts["longest_run"] = counts.pop("longest")
    return {"frames": net.frames, "rate": round(net.rate, 1),
            "least_gap_us": micro(net.least), "greatest_gap_us": micro(net.most), "least_128_gaps_us": micro(net.closest),
            "usual_gap_ms": net.usual,
            "jitter_us": max(0, bag - micro(net.least)) if bag and net.least is not None else None,
            "early": None if link.nonsense() else net.early, **counts,
            "silent_us": None if net.last is None else micro(latest - net.last),
            "refused": {cause: {"count": count, "first": str(first)} for cause, (count, first) in link.refused[number].items()},
            "hidden": dict(link.hidden[number]), "verdicts": dict(net.kinds)}


def of_delays(link):
    """How much later B's copy came, negative if it came first."""
    found = link.delays
    if link.untimed():
        return dict.fromkeys(("pairs", "least", "median", "most_of_99", "greatest", "beyond"))
    median, most_of_99 = (found.median(), found.below(0.99)) if found.number else (None, None)
    return {"pairs": found.number, "least": found.least, "median": median, "most_of_99": most_of_99,
            "greatest": found.greatest, "beyond": link.beyond}


def of_events(events, why_not=None):
    return {"count": None, "first": []} if why_not else {"count": events.count, "first": events.first}


def of_link(link, ports, latest):
    link.look()
    settings, nonsense, untimed = link.link, link.nonsense(), link.untimed()
    spans = link.spans.told(settings.reassembly if link.pieces.has_fragments else 0)
    broken = {word: {"count": one.count, **causes[0], "causes": causes} for word, one in link.broken().items()
              if (causes := [{"first": str(first), "how": how} for how, first in one.causes.items()])}
    return {"vl": settings.vl, "name": link.own.get("name"), "bag_us": link.own.get("bag_us"),
            "redundancy": settings.redundancy, "skew_max_us": settings.skew_max, "window": settings.window,
            "reassembly_us": settings.reassembly,
            "networks": {net: of_network(link, number, latest) for number, net in enumerate(NETWORKS)},
            "senders": [sender.hex(":") for sender in link.senders], "sender_count": link.sender_count(),
            "nonsense": nonsense, "untimed": untimed,
            "lost_both": link.summed("lost_both"), "delays_us": of_delays(link), "twice": of_events(link.twice, untimed),
            "resets": of_events(link.resets, nonsense), "least_pause_us": None if nonsense else link.least_pause,
            "unfinished": of_events(link.unfinished),
            "identification_again": of_events(link.again), "fragments": of_events(link.fragments),
            "bad": sum(count for refused in link.refused for count, _ in refused.values()),
            "out_of_sequence": link.of_kinds("out-of-sequence"), "overflows": link.of_kinds("overflow"),
            "law": link.law(), "costs": link.costs(),
            **(dict.fromkeys(spans) if untimed else spans),
            "outages": of_events(link.outages, nonsense), "free_outages": None if nonsense else link.free_outages,
            "broken": broken, "ports": ports}


def of_port(end, now):
    """What a partition found at the end of a port."""
    port = end.port
    if not port.is_sampling:
        return {"port": port.name, "vl": port.vl, "kind": "queuing", "state": "overflow" if end.overflows else "",
                "taken": end.taken, "waiting": end.waiting, "most": end.most, "depth": port.limit, "oldest_us": end.oldest,
                "overflows": end.overflows, "take_us": end.period}
    age = None if end.latest is None else max(0, now - end.latest)
    oldest, stale = (end.oldest, end.stale) if end.period else end.worst(now)
    return {"port": port.name, "vl": port.vl, "kind": "sampling",
            "state": "empty" if age is None else "stale" if age > port.limit else "fresh", "messages": end.messages,
            "age_us": age, "oldest_us": oldest, "refresh_us": port.limit, "stale": stale, "read_us": end.period,
            "reads": end.reads, "missed": end.missed}


def of_all(health, partition, now, lost=None, beside=()):
    """Of all links, at a moment in microseconds since the first packet. `lost` are the packets that the tap lost; `beside`
    what is of neither network: why, how many, and the first."""
    ports = [of_port(end, now) for end in partition.ends.values()] if partition else []
    links = [of_link(link, [port for port in ports if port["vl"] == link.link.vl], health.latest)
             for link in health.links.values()]
    counted = {name: {net: dict(counts) for net, counts in zip(NETWORKS, found)}
               for name, found in (("filtered", health.filtered), ("left_out", health.left_out))}
    firsts = {net: {cause: first for (each, cause), first in health.firsts.items() if each == number}
              for number, net in enumerate(NETWORKS)}
    for why, count, first in beside:
        if count:
            neither = counted["left_out"].setdefault("neither", {})
            neither[why] = neither.get(why, 0) + count
            if first:
                firsts.setdefault("neither", {}).setdefault(why, first)
    return {"first_ns": health.first, "microseconds": now, "frames": health.frames, "links": links, **counted,
            "first_packets": firsts, "lost_by_tap": lost, "drift_ppm": health.drift.rate()}


# ---- what is amiss

def sum_of(link, name):
    return sum(net[name] for net in link["networks"].values())


# Each word of a link: a count that should be 0. Those by numbers aren't counted where these make no sense.
AMISS = {
    "lost-a": lambda link: link["networks"]["A"]["lost"],
    "lost-b": lambda link: link["networks"]["B"]["lost"],
    "lost-both": lambda link: link["lost_both"],
    "dropped": lambda link: link["costs"]["dropped"],
    "delay": lambda link: link["delays_us"]["beyond"],
    "twice": lambda link: link["twice"]["count"],
    "overtaken": lambda link: sum_of(link, "overtaken"),
    "repeated": lambda link: sum_of(link, "repeated"),
    "astray": lambda link: sum_of(link, "astray") + sum_of(link, "late"),
    "reset": lambda link: link["resets"]["count"],
    "early": lambda link: sum_of(link, "early"),
    "unfinished": lambda link: link["unfinished"]["count"],
    "identification": lambda link: link["identification_again"]["count"],
    "fragments": lambda link: link["fragments"]["count"],
    "bad": lambda link: link["bad"],
    "hidden": lambda link: sum(sum(net["hidden"].values()) for net in link["networks"].values()),
    "out-of-sequence": lambda link: link["out_of_sequence"],
    "overflow": lambda link: link["overflows"],
    "stale": lambda link: sum(port.get("stale", 0) for port in link["ports"]),
    "silent": lambda link: sum(is_silent(net) for net in link["networks"].values()),
    "senders": lambda link: link["sender_count"] if link["sender_count"] > 1 else 0,
    "numbers": lambda link: link["nonsense"] is not None,
    "law": lambda link: link["law"] in ("lost", "twice", "not known"),
}
BY_NUMBERS = {"lost-a", "lost-b", "lost-both", "dropped", "delay", "twice", "overtaken", "repeated", "astray", "reset",
              "early"}
OF_ALL = ("filtered", "left-out", "tap", "drift")
# A sender may restart without a fault.
NOT_BY_DEFAULT = ("reset",)
# A network is silent if it brought nothing, or nothing for so many of its longest gaps before.
SILENT_GAPS = 3
HARMLESS = ("not-ip",)


def is_silent(net):
    if net["frames"] < 2:
        return net["frames"] == 0
    return net["silent_us"] > SILENT_GAPS * max(1, net["greatest_gap_us"])


def counted(link):
    """Each word with its count; what isn't known is none."""
    return {word: 0 if link["nonsense"] and word in BY_NUMBERS else int(count(link) or 0) for word, count in AMISS.items()}


def amiss(link):
    """The words of what a link has amiss, with their counts."""
    return {word: count for word, count in counted(link).items() if count}


def amiss_in_all(told):
    """The same of what is of no link."""
    filtered = sum(count for counts in told["filtered"].values() for cause, count in counts.items() if cause not in HARMLESS)
    left_out = sum(sum(counts.values()) for counts in told["left_out"].values())
    return dict(zip(OF_ALL, (filtered, left_out, sum(told["lost_by_tap"] or ()), int(told["drift_ppm"] != 0))))


def failures(told, most):
    """A line for each word that has more than its most; `most` is by word."""
    for link in told["links"]:
        found = ((word, count) for word, count in amiss(link).items() if count > most.get(word, count))
        yield from (f"link {link['vl']}: {word} {count}" for word, count in found)
    yield from (f"{word} {count}" for word, count in amiss_in_all(told).items() if count > most.get(word, count))


def wanted(words):
    """The most of each word that `--fail-on` names; of all but a few if it isn't given."""
    if words is None:
        return {word: 0 for word in (*AMISS, *OF_ALL) if word not in NOT_BY_DEFAULT}
    found = {}
    for one in filter(None, words.split(",")):
        word, _, most = one.partition("=")
        if word not in AMISS and word not in OF_ALL or not re.fullmatch("[0-9]{0,18}", most):
            raise Fault(f"--fail-on takes {' '.join((*AMISS, *OF_ALL))}, each perhaps with =MOST", WRONG_WORDS)
        found[word] = int(most or 0)
    return found
