"""The health of links as text: a line a link, a screen for one, and the ports."""
import textwrap

from verdict_words import NETWORKS
from workbench import told
from workbench.conditions import CONDITIONS

HEADS = ("link", "A/s", "B/s", "lost A", "B", "both", "delay us", "SkewMax", "twice", "age ms", "queue", "law", "amiss")
LEFT = ("link", "network", "law", "amiss")
# What a narrow terminal goes without, in this order.
DISPENSABLE = ("queue", "age ms", "SkewMax", "A/s", "B/s")
# Of a network of one link: how its frames come, and what it does to them. Times without a unit are in microseconds.
COMES = ("frames", "rate", "least_gap_us", "greatest_gap_us", "usual_gap_ms", "jitter_us", "early", "silent_us")
LOSES = ("lost", "longest_run", "overtaken", "repeated", "late", "astray")
EVENTS = {"twice": "delivered twice", "resets": "restarts", "unfinished": "datagrams given up",
          "identification_again": "identifications again", "fragments": "datagrams in fragments", "outages": "outages of a network"}
TIE = "\xa0"  # between a word and its count, which stay on one line
SHOWN_ALONE = ("lost-a", "lost-b", "lost-both", "twice", "law")


def number(value):
    """A figure as short as it can be."""
    return "-" if value is None else f"{value:.0f}" if abs(value) >= 100 or value == int(value) else f"{value:.1f}"


def count(value):
    """One that may be not known."""
    return "?" if value is None else str(value)


def rate(net, is_marked=True):
    return number(net["rate"]) + ("!" if is_marked and told.is_silent(net) else "")


def delays(link):
    """The least, the median, that which 99 of 100 don't pass, and the greatest."""
    found = [link["delays_us"][name] for name in ("least", "median", "most_of_99", "greatest")]
    return "?" if link["untimed"] else "-" if None in found else "/".join(map(str, found))


def age(link):
    """The worst age at a sampling port."""
    ages = [port["oldest_us"] for port in link["ports"] if port["kind"] == "sampling" and port["state"] != "empty"]
    return number(max(ages) / 1000) if ages else "-"


def queue(link):
    """Of the queue that was fullest: how many messages waited at most, and its depth."""
    found = [port for port in link["ports"] if port["kind"] == "queuing"]
    worst = max(found, key=lambda port: port["most"] / port["depth"], default=None)
    return f"{worst['most']}/{worst['depth']}" if worst else "-"


def law(link):
    """What came of the law, and the conditions that were broken."""
    return link["law"] + (f" not {','.join(link['broken'])}" if link["redundancy"] and link["broken"] else "")


def cells(link):
    """The line of a link."""
    a, b = link["networks"].values()
    words = [f"{word}{TIE}{count}" for word, count in told.amiss(link).items() if word not in SHOWN_ALONE]
    label = f"{link['vl']} {link['name']}" if link["name"] else str(link["vl"])
    return (label, rate(a), rate(b), count(a["lost"]), count(b["lost"]), count(link["lost_both"]), delays(link),
            str(link["skew_max_us"]) if link["redundancy"] else "off", count(link["twice"]["count"]), age(link), queue(link),
            law(link), ", ".join(words))


def table(heads, rows, room=None):
    """Lines of columns: those that there is room for, words to the left and figures to the right."""
    widths = {head: max(len(row[place]) for row in (heads, *rows)) for place, head in enumerate(heads)}
    for head in DISPENSABLE:
        if room and sum(width + 1 for of, width in widths.items() if of != heads[-1]) > room:
            widths.pop(head, None)
    for row in (heads, *rows):
        shown = [(cell, widths[head], head in LEFT) for head, cell in zip(heads, row) if head in widths]
        line = " ".join(cell.ljust(width) if is_left else cell.rjust(width) for cell, width, is_left in shown).rstrip()
        yield (line if not room or len(line) <= room else "\n".join(textwrap.wrap(
            line, room, subsequent_indent="    ", break_on_hyphens=False))).replace(TIE, " ")


def links_in(links, room):
    """A line a link. Where there is no room the conditions that were broken give way, and what is amiss goes on below."""
    rows = [cells(link) for link in links]
    shown = list(table(HEADS, rows, room))
    if any("\n" in line for line in shown):
        place = HEADS.index("law")
        shown = list(table(HEADS, [(*row[:place], row[place].partition(" not ")[0], *row[place + 1:]) for row in rows], room))
    return shown


def lines(found, room=None):
    """The screen of all links; in so many columns, if they are told."""
    yield from links_in(found["links"], room)
    yield from lines_beside(found)


def lines_beside(found):
    """Of what is of no link: causes, with the first packet of each."""
    for name in ("filtered", "left_out"):
        for net, counts in found[name].items():
            firsts = found["first_packets"].get(net, {})
            if counts:
                causes = (f"{cause} {count}" + (f", first {firsts[cause]}" if cause in firsts else "")
                          for cause, count in counts.items())
                yield f"{name.replace('_', ' ')} on {net}: {'; '.join(causes)}"
    if found["lost_by_tap"]:
        lost = [f"{count} on {net}" for net, count in zip(NETWORKS, found["lost_by_tap"])]
        yield f"lost by the tap: {', '.join(lost) if len(lost) > 1 else found['lost_by_tap'][0]}"


def lines_of_link(link):
    """The screen of one link."""
    name = f" {link['name']}" if link["name"] else ""
    bag = f", BAG {link['bag_us']} us" if link["bag_us"] else ""
    yield (f"link {link['vl']}{name}: SkewMax {link['skew_max_us']} us, window {link['window']}, reassembly "
           f"{link['reassembly_us']} us{bag}{'' if link['redundancy'] else ', redundancy management is off'}")
    for keys in (COMES, LOSES):
        yield from table(("network", *(key.removesuffix("_us").replace("_", " ") for key in keys)), [
            (net, *(number(about[key]) for key in keys)) for net, about in link["networks"].items()])
    for net, about in link["networks"].items():
        hidden = "".join(f"; hidden by the other network's copies: {kind} {count}"
                         for kind, count in about["hidden"].items())
        verdicts = ", ".join(f"{kind} {count}" for kind, count in about["verdicts"].items())
        yield f"verdicts on {net}: {verdicts or 'none'}{hidden}"
    found = link["delays_us"]
    for net, about in link["networks"].items():
        for cause, one in about["refused"].items():
            yield f"refused on {net}: {cause} {one['count']}, at first {one['first']}"
    if link["sender_count"] > 1:
        yield f"senders: {', '.join(link['senders'])}"
    if link["nonsense"]:
        yield f"numbers make no sense: {link['nonsense']}; what they would tell is not known"
    yield f"lost on both networks: {count(link['lost_both'])}"
    if link["untimed"]:
        yield f"delays are not known: {link['untimed']}"
    else:
        yield (f"B's copy came later by, in us, least/median/99 %/greatest: {delays(link)}; {found['pairs']} pairs, "
               f"{found['beyond']} beyond SkewMax")
    for key, what in EVENTS.items():
        if link[key]["count"]:
            yield f"{what}: {link[key]['count']}, at first {', '.join(link[key]['first'])}"
    yield from map(line_of_port, link["ports"])
    if link["redundancy"]:
        yield from lines_of_law(link)
    for word, one in link["broken"].items():
        causes = "; ".join(f"first by {cause['first']}: {cause['how']}" for cause in one["causes"])
        yield f"  {word}: {CONDITIONS[word]}: {one['count']} times, {causes}"


def lines_of_law(link):
    """In which spans of time the law held, what arrived by it, and what faults cost."""
    if link["untimed"]:
        yield f"law of docs/DELIVERY.md: {link['law']}"
        return
    healed = f"; healed at {link['healed_us']} us" if link["healed_us"] is not None else ""
    if link["fragments_healed_us"] != link["healed_us"]:
        healed += f", for fragments at {link['fragments_healed_us']} us"
    yield f"law of docs/DELIVERY.md: {link['law']}; its conditions held for {link['held_us']} us{healed}"
    if link["span_count"] > len(link["spans"]):
        yield f"  {link['span_count']} spans, the first ones and the latest:"
    for span in link["spans"]:
        ended = f", up to {span['packet']}: {span['ended_by']}" if span["ended_by"] else ""
        yield f"  {span['from_us']} to {span['to_us']} us{ended}"
    full = f"; {link['full']} found their queue full" if link["full"] else ""
    yield f"messages that arrived by the law: {link['arrived']}, of these delivered: {link['delivered']}{full}"
    costs = ", ".join(f"{word} {count}" for word, count in link["costs"].items() if count)
    a, b = (net["lost"] for net in link["networks"].values())
    yield f"what cost messages: {costs or 'nothing'}"
    yield (f"what cost none: copies lost on A alone {a}, on B alone {b}; outages of a network {link['free_outages']} of "
           f"{link['outages']['count']}")


def line_of_port(port):
    words = " ".join(f"{key.removesuffix('_us')} {value}" for key, value in port.items()
                     if key not in ("port", "vl", "kind") and value not in (None, ""))
    return f"port {port['port']} {port['kind']}: {words}"


