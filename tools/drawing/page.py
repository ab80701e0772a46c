"""The page: totals, an overview, faults, the words, a section for each link, and filtered frames."""
from html import escape

from drawing.gather import LOST, RESTART, ROWS, TWICE, UNFINISHED
from drawing.picture import (
    BESIDES, CLASSES, Row, Times, age_picture, class_of, delay_picture, filtered_rows, mark, path, queue_picture, rows_picture,
    strip,
)
from drawing.style import PATTERNS, SCRIPT, STYLE
from verdict_words import FILTER_CAUSES, FIRST_FORWARDED, KINDS, NETWORKS, NOT_FORWARDED, OUT_OF_SEQUENCE, REDUNDANT, kinds_of
from workbench.conditions import CONDITIONS
from workbench.moments import date

# Sections that are open at first; points and stretches of all pictures of ports together.
OPEN_LINKS, POINTS_OF_PORTS, STRETCHES_OF_PORTS = 3, 80_000, 4_000

# What each mark says of a frame; and by which words, where these are no kinds of verdicts.
MEANINGS = {
    "delivered": "the frame was forwarded, and made a message at a port",
    "held": "it was forwarded, and its fragment waits for the rest of its datagram",
    "refused": "it was forwarded, and refused later for this cause",
    "overflow": "it was forwarded, and the queue of its port was full, so that its message is lost",
    "redundant": "it passed integrity checking, and redundancy management didn't forward it",
    "out": "integrity checking discarded it: its sequence number may not come next on its network",
    "lost": "a copy that didn’t come: the other network brought it, or frames after it came. It stands at the time of the "
            "other copy, or of the frame that showed it, so that an outage of any length is seen",
    "twice": "the second copy of a frame that was forwarded too: its message came twice",
    "restart": "the sender began anew, with the number 0 or without",
    "unfinished": "at this frame a datagram in parts was given up, or at its own first frame if it never ended",
    "filtered": "octets that are no frame of a configured link; no link's picture has them",
}
OTHER_WORDS = {"lost": "(no verdict)", "filtered": "filtered CAUSE"}


def key(of_class):
    return f'<svg class="key" viewBox="0 0 14 14" aria-hidden="true">{path(of_class, mark(of_class, 7, 7))}</svg>'


def share(part, whole):
    if not whole:
        return "–"
    percent = 100 * part / whole
    return "0 %" if not part else "under 0.01 %" if percent < 0.01 else f"{percent:.2f} %"


def plural(number, one, many=None):
    return f"{number:,} {one if number == 1 else many or one + 's'}"


def listed(parts):
    parts = list(parts)
    return parts[0] if len(parts) == 1 else f"{', '.join(parts[:-1])} and {parts[-1]}" if parts else "none"


def figure(drawn, caption, **data):
    """A picture with the sentence that has its figures; for programs they stand in `data-` attributes too."""
    said = "".join(f' data-{name.replace("_", "-")}="{escape(str(value))}"' for name, value in data.items())
    return f"<figure{said}>{drawn}<figcaption>{escape(caption)}</figcaption></figure>"


def sum_of(link, kinds):
    return sum(link.kinds_of(network)[kind] for network in (0, 1) for kind in kinds)


FORWARDED_KINDS = range(FIRST_FORWARDED, len(KINDS))
KINDS_OF = {name: [kind for kind, word in enumerate(KINDS) if class_of(word) == name] for name in CLASSES}


# ---- the head of the page

def totals(gathered):
    """Each figure of the head, with its name."""
    bins = gathered.bins
    times = [f"{time:,} µs" if gathered.frames else "none" for time in (bins.first, bins.last, bins.last - bins.first)]
    began = [("time 0", date(gathered.base))] if gathered.base else []
    return [("frames", f"{gathered.frames:,}"), ("links", f"{len(gathered.links):,}"), ("ports", f"{len(gathered.ports):,}"),
            *zip(("first frame", "last frame", "from first to last"), times), *began]


def head(gathered, source):
    links = gathered.links.values()
    counted = {name: sum(sum_of(link, kinds) for link in links) for name, kinds in KINDS_OF.items()}
    rows = [("", "forwarded, in all", sum(sum_of(link, FORWARDED_KINDS) for link in links))]
    rows += [(name, f"of these {CLASSES[name][1]}", counted[name])
             for name in ("delivered", "held", "refused", "overflow")]
    rows += [(name, CLASSES[name][1], counted[name]) for name in ("redundant", "out")]
    rows.append(("filtered", "filtered", sum(sum(counts.values()) for counts in gathered.filtered)))
    shown = "".join(f"<div><dt>{name}</dt><dd>{value}</dd></div>" for name, value in totals(gathered))
    body = "".join(
        f'<tr><td class="word">{key(name) if name else ""} {escape(said)}</td>'
        f'<td data-total="{escape(said)}">{number:,}</td>'
        f'<td>{share(number, gathered.frames)}</td><td class="bar"><span class="share" '
        f'style="width:{100 * number / (gathered.frames or 1):.2f}%"></span></td></tr>'
        for name, said, number in rows)
    return (f"<h1>What became of each frame</h1><p>Drawn from {escape(source)}.</p>"
            f'<dl class="totals">{shown}</dl><table><thead><tr><th class="word">what became of it</th><th>frames</th>'
            f'<th>of all frames</th><th></th></tr></thead><tbody>{body}</tbody></table>')


def overview_row(link, times):
    cells = [link.nets[0].frames, link.nets[1].frames, sum_of(link, FORWARDED_KINDS), sum_of(link, [REDUNDANT]),
             sum_of(link, [OUT_OF_SEQUENCE]), sum_of(link, KINDS_OF["refused"]), sum_of(link, KINDS_OF["overflow"]),
             *(link.lost_on(net)["lost"] for net in (0, 1)), link.summed("lost_both"),
             *((None, None) if link.untimed() else (link.beyond, link.twice.count)), link.unfinished.count,
             None if link.nonsense() else link.resets.count]
    label = (f"Link {link.label} in small: {cells[0]} frames on A, {cells[1]} on B, {cells[4]} out of sequence, "
             f"{cells[5]} refused")
    median = None if link.untimed() else link.delays.median()
    law = link.law()
    return (f'<tr><td class="word" data-value="{link.number}"><a href="#link-{link.number}">{escape(link.label)}</a></td>'
            f"<td>{strip(label, times, link)}</td>" + "".join(map(number_cell, cells))
            + f'<td data-value="{-1 if median is None else median}">{"–" if median is None else f"{median:,}"}</td>'
            f'<td class="word">{law}</td></tr>')


def overview(gathered, times):
    rows = [overview_row(link, times) for link in gathered.links.values()]
    heads = ["frames on A", "frames on B", "forwarded", "redundant", "out of sequence", "refused", "overflow", "lost on A alone",
             "lost on B alone", "lost on both", "beyond SkewMax", "delivered twice", "given up", "restarts",
             "median delay of B in µs", "law of delivery"]
    span = f"{gathered.bins.first:,} to {gathered.bins.last:,} µs" if gathered.frames else "no frame"
    head = (f'<th class="word">link</th><th class="word fixed">{span}: A up, B down</th>'
            + "".join(f"<th>{head}</th>" for head in heads))
    return ('<h2 id="overview">All links</h2><div class="scroll" id="links-in-small">'
            f'<table class="sort"><thead><tr>{head}</tr></thead><tbody>{"".join(rows)}</tbody></table></div>'
            f"<p>In small: bars are frames, on a scale of each link’s own; {key('out')} stands where a frame was out "
            f"of sequence, {key('refused')} where one was refused for another cause than a full queue.</p>")


def number_cell(number):
    if number is None:
        return '<td data-value="-1">?</td>'
    return f'<td data-value="{number}" class="{"some" if number else "zero"}">{number:,}</td>'


def words_of(name):
    """The words of the verdicts that a mark stands for."""
    kinds = [f"{kind} CAUSE" if kind == "bad-header" else kind for kind in kinds_of(name)]
    return ", ".join(kinds) or OTHER_WORDS.get(name, "(besides its verdict)")


def words(gathered):
    rows = "".join(f'<tr><td>{key(name)}</td><td class="word">{CLASSES[name][1]}</td>'
                   f'<td class="word"><code>{escape(words_of(name))}</code></td><td class="word">{escape(meaning)}</td></tr>'
                   for name, meaning in MEANINGS.items())
    bins = gathered.bins
    return f"""<details id="words"><summary>How to read the pictures</summary>
<div class="scroll"><table><thead><tr><th></th><th class="word">mark</th><th class="word">verdicts</th>
<th class="word">meaning</th></tr></thead><tbody>{rows}</tbody></table></div>
<p><b>Rows.</b> The time from the first frame to the last one is cut into {plural(bins.number, "bin")} of
{bins.width:,} µs each, and a link’s picture has a row for each kind of verdict that occurs, for network A above and
for B below. A bar’s height is the number of frames in its bin; each row has its own scale: “full bar” is the number
that its highest bar stands for, and “frames” counts all of the row. A row of few frames has a mark for each. Rest the
pointer on a bin, or go there by the arrow keys, for its numbers and for its first frame in the input.</p>
<p><b>Second copies</b> are paired by their place among the sender’s frames, whatever became of them. Beyond SkewMax a bar has
another colour: such a copy makes a second message of its frame.</p>
<p><b>Ports.</b> A sampling port’s picture has the age of its newest message: in each bin the greatest one, from the
first message to the last frame. Above the refresh period it is hatched: the message is stale there. Whether the newest
message is fresh or stale holds for the last frame. A queuing port’s picture has the messages that wait: a partition takes all
by the period <code>take_us</code> of the configuration, or at once without one.</p></details>"""


# ---- faults and losses

def faults_part(faults, gathered, unit):
    rows = [[kind, f"{count:,}", ", ".join(faults.first[kind])] for kind, count in sorted(faults.counts.items())]
    lost = [[link.label, name, *counts] for link in gathered.links.values() for net, name in enumerate(NETWORKS)
            if any(counts := losses(link, net)) or link.nonsense()]
    others = [[link.label, what, events.count, ", ".join(events.first)] for link in gathered.links.values()
              for what, events, why_not in ((TWICE, link.twice, link.untimed()), (RESTART, link.resets, link.nonsense()),
                                            (UNFINISHED, link.unfinished, None), ("identification again", link.again, None))
              if events.count and not why_not]
    hints = "".join(f'<p class="note">{escape(hint)}</p>' for hint in faults.hints)
    return "".join([
        f'<h2 id="faults">Faults and losses, by {unit}</h2>{hints}', table(["kind", "frames", f"first {unit}s"], rows),
        "<p>Copies that didn’t come, by their numbers and times; the most in a row; and frames that came after a later one of "
        "their network, again, or far off.</p>",
        table(["link", "network", "lost on it alone", "lost on both", "in a row", "overtaken", "again", "far off"], lost),
        table(["link", "what", "times", f"first {unit}s"], others) if others else ""])


def losses(link, net):
    """What a network lost or had otherwise, as the columns have it; a count that isn't known is a question mark."""
    side, both = link.lost_on(net), link.summed("lost_both")
    if both is None:
        return ["?"] * 6
    return [side["lost"], both, side["longest"], side["overtaken"], side["repeated"], side["late"] + side["astray"]]


def table(heads, rows):
    if not rows:
        return "<p>None.</p>"
    head, *body = (f"<tr>{''.join(cell(tag, one) for one in row)}</tr>"
                   for tag, row in [("th", heads), *(("td", row) for row in rows)])
    return f'<div class="scroll"><table><thead>{head}</thead><tbody>{"".join(body)}</tbody></table></div>'


def cell(tag, value):
    return f'<{tag} class="word">{"" if value is None else escape(str(value))}</{tag}>'


# ---- the links

def rows_of(drawn, network):
    """The rows of a network that have a frame, in the order of the verdicts; those that no verdict says are last."""
    rows = drawn.rows[network]
    names = [name for name in ROWS if ROWS[name] >= FIRST_FORWARDED]
    names.sort(key=lambda name: list(CLASSES).index(class_of(name)))
    return [Row(name, class_of(name), rows[name])
            for name in (*names, *reversed(NOT_FORWARDED), LOST, TWICE, RESTART, UNFINISHED) if name in rows]


def rate_of(drawn, net):
    """How often frames came on a network, beside the BAG."""
    if net.frames < 2:
        return ""
    beside = f", where the BAG allows {10**6 / net.bag:,.1f}" if net.bag else ""
    early = f"; {plural(net.early, 'frame')} came before their BAG was over" if net.early and not drawn.nonsense() else ""
    return f" {net.rate:,.1f} frames a second{beside}; the least gap is {net.least // 1000:,} µs{early}."


def verdicts_figure(drawn, times):
    number, said, bands, found = drawn.number, [], [], {}
    for network, name in enumerate(NETWORKS):
        rows, net, shown = rows_of(drawn, network), drawn.nets[network], losses(drawn, network)
        bands.append((f"Network {name}: {plural(net.frames, 'frame')}", rows))
        counts = listed(f"{row.total:,} {row.name}" for row in rows if row.of_class not in BESIDES)
        lost = drawn.rows[network][LOST].total if LOST in drawn.rows[network] else 0
        found[f"lost_{name.lower()}"] = " ".join(map(str, (lost, *shown[2:])))
        said.append(f"Network {name} brought {plural(net.frames, 'frame')}{': ' + counts if net.frames else ''}."
                    f"{rate_of(drawn, net)}" + (f" {plural(lost, 'copy was', 'copies were')} lost, at most {shown[2]} in a row."
                                         if lost else ""))
    return figure(rows_picture(f"Verdicts of link {drawn.label} over time, network A above and B below", times, bands),
                  " ".join(said), verdicts=number, **found)


def conditions_part(drawn):
    """Which conditions of the laws were kept."""
    broken = drawn.broken()
    if not broken:
        return "<p>No condition of the laws of delivery was seen broken.</p>"
    rows = [[word, CONDITIONS[word], one.count, "; ".join(f"{where}: {how}" for how, where in one.causes.items())]
            for word, one in broken.items()]
    heads = ["word", "condition", "times", "first by"]
    return "<h3>Conditions of the laws of delivery that were broken</h3>" + table(heads, rows)


def delays_figure(drawn):
    both = drawn.directions()
    if why_not := drawn.untimed():
        return f"<p>Delays are not known: {escape(why_not)}.</p>"
    if not drawn.delays.number:
        return "<p>No second copy of a frame of this link came.</p>"
    said = []
    for network, found in enumerate(both):
        if found.number:
            exact = "" if found.step == 1 else f" (to {found.step} µs)"
            said.append(f"First on {NETWORKS[network]}, {'solid' if network == 0 else 'hatched'}: "
                        f"{plural(found.number, 'pair')}, delays of {found.least:,} µs at least, "
                        f"{found.median():,} µs in the median{exact}, {found.greatest:,} µs at most.")
    skew_max = drawn.link.skew_max
    beyond = f" {plural(drawn.beyond, 'copy', 'copies')} came beyond it." if drawn.beyond else ""
    caption = f"{' '.join(said)} The link’s SkewMax is {skew_max:,} µs.{beyond}"
    pairs = {f"first_{name.lower()}": f"{d.number} {d.least} {d.median()} {d.greatest}"
             for name, d in zip(NETWORKS, both) if d.number}
    return figure(delay_picture(f"Delays of second copies of link {drawn.label}", both, skew_max), caption,
                  delays=drawn.number, beyond=drawn.beyond, **pairs)


def age_caption(ages, last):
    part = share(ages.stale_time, max(1, last - ages.first))
    stale = (f"the message was stale (hatched) {plural(ages.stale_stretches, 'time')}, for {ages.stale_time:,} µs in "
             f"all, {part} of the time since the first message." if ages.stale_stretches else "no message was stale.")
    state = "stale" if last - ages.latest > ages.refresh else "fresh"
    return (f"{plural(ages.messages, 'message')}, the first at {ages.first:,} µs and the newest at {ages.latest:,} µs. "
            f"The greatest age up to the last frame was {ages.oldest:,} µs. The refresh period is {ages.refresh:,} µs; "
            f"{stale} At the last frame it is {state}.")


def queue_caption(queue, unit, period):
    said = [plural(queue.queued, "message") + " queued"]
    if queue.queued:
        said.append(f", the first at {queue.first:,} µs and the last at {queue.last:,} µs")
    said.append(f"; {plural(queue.overflows.total, 'overflow')}" if queue.overflows.total else "; no overflow")
    if queue.overflows.total:
        said.append(f", the first at {queue.first_overflow[0]:,} µs ({unit} {queue.first_overflow[1]})")
    said.append(f". The queue holds {plural(queue.depth, 'message')}; at most {queue.level.greatest} waited. They are taken "
                + (f"each {period:,} µs." if period else "at once."))
    return "".join(said)


def ports_part(gathered, times, number):
    """The pictures of a link's ports, and the names of those that got nothing."""
    of_all = max(1, len(gathered.ports))
    points = max(40, POINTS_OF_PORTS // of_all)
    size = -(-gathered.bins.number // points)
    stretches = min(60, STRETCHES_OF_PORTS // of_all)
    hover_size = -(-gathered.bins.number // stretches) if stretches > 4 else 0
    parts, empty = [], []
    for port in gathered.ports:
        if port.vl != number:
            continue
        ages, queue = gathered.ages.get(port.name), gathered.queues.get(port.name)
        if ages and ages.messages:
            caption = age_caption(ages, gathered.bins.last)
            drawn = age_picture(port.name, times, ages, size, hover_size)
            data = {"sampling": port.name, "messages": ages.messages, "oldest": ages.oldest, "stale": ages.stale_time}
            parts.append(f"<h3>Sampling port {port.name}: age of its newest message</h3>")
            parts.append(figure(drawn, caption, **data))
        elif queue and (queue.queued or queue.overflows.total):
            caption = queue_caption(queue, gathered.unit, gathered.periods[port.name])
            drawn = queue_picture(port.name, times, queue, size, hover_size)
            data = {"queuing": port.name, "queued": queue.queued, "overflow": queue.overflows.total,
                    "most": queue.level.greatest}
            parts.append(f"<h3>Queuing port {port.name}: messages in its queue</h3>")
            parts.append(figure(drawn, caption, **data))
        else:
            empty.append(f"{port.name} ({'sampling' if port.is_sampling else 'queuing'})")
    if empty:
        parts.append(f"<p>No message came to {escape(listed(empty))}.</p>")
    return "".join(parts)


def link_section(gathered, times, place, link):
    events = sum(net.frames for net in link.nets)
    said = (f"{plural(events, 'frame')}: {plural(sum_of(link, FORWARDED_KINDS), 'forwarded', 'forwarded')}, "
            f"{sum_of(link, [REDUNDANT]):,} redundant, {sum_of(link, [OUT_OF_SEQUENCE]):,} out of sequence")
    counts = " ".join(f'data-{name.lower()}="{" ".join(map(str, link.kinds_of(n)))}"' for n, name in enumerate(NETWORKS))
    inside = ports_part(gathered, times, link.number)
    if events:
        inside = (f"{verdicts_figure(link, times)}<h3>Delay of second copies</h3>{delays_figure(link)}{conditions_part(link)}"
                  f"{inside}")
    is_open = " open" if place < OPEN_LINKS else ""
    return (f'<details id="link-{link.number}" data-link="{link.number}" {counts}{is_open}>'
            f"<summary>Link {escape(link.label)} <span>{said}</span></summary>{inside}</details>")


def links_part(gathered, times):
    sections = (link_section(gathered, times, place, link) for place, link in enumerate(gathered.links.values()))
    return f'<h2 id="links">Link by link</h2>{"".join(sections)}'


# ---- filtered frames

def filtered_part(gathered, times):
    head = '<h2 id="filtered">Filtered frames</h2>'
    if not any(sum(counts.values()) for counts in gathered.filtered):
        return f"{head}<p>No frame was filtered.</p>"
    bands, said = [], []
    for network, name in enumerate(NETWORKS):
        found = filtered_rows(gathered.filtered_rows[network])
        number = sum(gathered.filtered[network].values())
        bands.append((f"Network {name}: {number:,} filtered", found))
        said.append(f"On network {name} {plural(number, 'frame was', 'frames were')} filtered"
                    + (": " + listed(f"{row.total:,} {row.name}" for row in found) if number else "") + ".")
    caption = " ".join(said)
    drawn = rows_picture("Filtered frames over time by cause, network A above and B below", times, bands)
    return head + figure(drawn, caption, **{f"filtered_{net.lower()}": " ".join(str(found[cause]) for cause in FILTER_CAUSES)
                                            for net, found in zip(NETWORKS, gathered.filtered)})


def page(gathered, source, faults):
    """The whole page, as text."""
    times = Times(gathered.bins, gathered.unit, gathered.base)
    parts = [
        '<!DOCTYPE html>\n<html lang="en"><head><meta charset="utf-8">'
        '<meta name="viewport" content="width=device-width,initial-scale=1">'
        f"<title>What became of each frame: {escape(source)}</title><style>{STYLE}</style></head><body>"
        f'<svg width="0" height="0" aria-hidden="true" style="position:absolute"><defs>{PATTERNS}{times.definition()}'
        "</defs></svg>",
        head(gathered, source),
        '<nav aria-label="parts of the page"><a href="#overview">All links</a><a href="#faults">Faults and losses</a>'
        '<a href="#words">How to read the pictures</a><a href="#links">Link by link</a>'
        '<a href="#filtered">Filtered frames</a></nav>',
        overview(gathered, times), faults_part(faults, gathered, gathered.unit), words(gathered),
        links_part(gathered, times), filtered_part(gathered, times),
        f"<script>{SCRIPT}</script></body></html>\n",
    ]
    return "".join(parts)
