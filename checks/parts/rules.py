"""The numbered rules of the pages, and what serves each: definitions, contracts, wrong bodies and tests.

A rule is a sentence with a number, `**RM-3** words`, up to the next number or the end of its paragraph, and the list or the
table that it leads in with a colon. What a tag can't say stands in checks/rules.txt: why a rule has none of a part, and the
rules that a stored run shows.

A rule's source is what its sentences name, `own` or a public standard, and of a sentence that names none what the heading
above names, or else `own`. "All of this is own" speaks of the rules before it in its paragraph, too.

Which contracts carry a rule follows: those whose promises cite a definition that carries it, directly or through up to
STEPS other definitions; of the functions that a user calls, CALLS, through any number.
"""
import hashlib
import re
from collections import namedtuple
from functools import cache

from parts.options import ROOT
from parts.tree import CRATES, bodies, definitions, functions, lines_of

PAGES = [ROOT / "docs" / f"{name}.md" for name in ("RECEIVER", "SAMPLING", "CONCURRENCY", "EMBEDDING", "DELIVERY", "FORMATS")]
REMARKS = ROOT / "checks" / "rules.txt"
PARTS = ("definition", "contract", "wrong body", "test")
STEPS = 1
# The calls that a user makes, by their kind.
CALLS = {
    "each call that takes frames": (
        "receiver::Receiver::receive", "receiver_c::yelunnavi_receiver_receive", "live_system::LiveSystem::receive",
        "system_c::yelunnavi_pass_receive", "link_receiver::LinkState::take", "end_system::EndSystem::receive", "trace_player::play", "program::run"),
    "each opening": (
        "receiver_c::yelunnavi_receiver_open", "receiver_c::yelunnavi_receiver_open_table", "system_c::yelunnavi_system_open",
        "system_c::yelunnavi_system_open_table"),
    "each call of a partition": (
        "mailbox_port::MailboxReader::read", "sampling_port::PartitionReader::read", "message_ring::RingTaker::take",
        "queuing_port::Taker::take"),
    "each call of a partition from C": ("receiver_c::yelunnavi_reader_read", "receiver_c::yelunnavi_queue_take"),
    "each call that takes a history out": ("link_receiver::LinkState::take_epoch", "end_system::EndSystem::settle"),
}
ENTRIES = tuple(name for names in CALLS.values() for name in names)
NUMBER = re.compile(r"\*\*([A-Z]+-\d+)\*\* ")

# Its words with what leads them in, and alone; the lines of what it leads in, or of the head of its table.
Rule = namedtuple("Rule", "number words own beside page line section")
# The sum of each rule's words when somebody last compared what serves it with them.
SUMS = ROOT / "checks" / "rules_sums.txt"
DROPPED = re.compile(r"\b([A-Z]+-\d+) is dropped")
SOURCES = re.compile(r"RFC \d+(?: \d+(?:\.\d+)*)?|ARINC 664 Part 7|(?<=[(: ])own(?=[),:;. ])")
IS_ITEM = re.compile(r"\s*(?:\d+\.|-) ")
# What serves a rule: its part, the name, the place, and how many definitions stand between (0 where it has the tag).
Link = namedtuple("Link", "rule part name path line steps")


def block_after(lines, at):
    """The lines of the list, table or code that stands after a paragraph."""
    at += 1 + (lines[at + 1:at + 2] == [""])
    starts = lines[at] if at < len(lines) else ""
    if starts.startswith("```"):
        return lines[at:lines.index("```", at + 1) + 1]
    end = at
    while end < len(lines) and (IS_ITEM.match(lines[end]) if IS_ITEM.match(starts) else lines[end].startswith("|")):
        end += 1
    return lines[at:end]


def table_head(lines, at):
    """The first row of the table in which a line stands."""
    while lines[at].startswith("|") and at:
        at -= 1
    return lines[at + 1:at + 2]


@cache
def rules():
    """The numbered rules in the order of their pages. What leads a list in stands before each rule of the list."""
    found = []
    for page in PAGES:
        lines, section, lead = lines_of(page), "", ""
        for at, text in enumerate(lines):
            heading, is_item = re.match(r"##+ (.*)", text), IS_ITEM.match(text)
            section = heading[1] if heading else section
            if text and not is_item:
                last = NUMBER.sub("", re.split(r"(?<=[.;]) (?=\S)", text)[-1])
                lead = f"{last} .. " if last.endswith((":", ",")) else ""
            pieces = NUMBER.split(text)
            own = [words.strip().strip("|").strip() for words in pieces[2::2]]
            for place, number in enumerate(pieces[1::2]):
                leads_in = own[-1].endswith((":", ",")) and all(words.endswith((":", ",")) for words in own[place:]) and not is_item
                beside = block_after(lines, at) if leads_in else table_head(lines, at) if text.startswith("|") else []
                found.append(Rule(number, lead + own[place] if is_item else own[place], own[place], beside, page, at + 1, section))
    return found


@cache
def dropped():
    """The numbers of which a page says that they are dropped."""
    return {found for page in PAGES for line in lines_of(page) for found in DROPPED.findall(line)}


def sentences_of(words):
    """The sentences of a rule, each with the remark in brackets after it."""
    return re.split(r"(?<=[.;]) (?!\()", words)


def source_of(rule):
    """The public standards that a rule is of, and `own`, in the order of its sentences."""
    same = [other for other in rules() if (other.page, other.line) == (rule.page, rule.line)]
    if any("ll of this is own" in other.own for other in same[same.index(rule):]):
        return "own"
    found = []
    for sentence in sentences_of(rule.own):
        found += SOURCES.findall(" ".join(re.findall(r"\([^()]*\)", sentence))) or SOURCES.findall(rule.section)[:1] or ["own"]
    return ", ".join(dict.fromkeys(found))


def sum_of(rule):
    return hashlib.sha256("\n".join([rule.words, *rule.beside]).encode()).hexdigest()[:12]


def sums():
    """The rules that were there, each with the sum of its words."""
    return dict(line.split() for line in lines_of(SUMS) if line)


def write_sums():
    SUMS.write_text("".join(f"{rule.number} {sum_of(rule)}\n" for rule in rules()), encoding="utf-8")


def remarks():
    """What checks/rules.txt says: the reasons by rule and part, the stored runs with their rules, and the calls that have to
    come to rules."""
    reasons, stored, promised = {}, [], []
    for line in lines_of(REMARKS):
        if not line or line.startswith("#"):
            continue
        head, _, text = line.partition(": ")
        if head in ("stored", "promised"):
            name, _, named = text.partition(": ")
            (stored if head == "stored" else promised).append((name, named.split(", ")))
            continue
        part = next(part for part in PARTS if head.endswith(f" {part}"))
        reasons.update({(rule, part): text for rule in head.removesuffix(f" {part}").split(", ")})
    return reasons, stored, promised


@cache
def steps_from(cites):
    """The definitions to which these come, each with the fewest steps."""
    known, found, steps = definitions(), {}, 0
    front = set(cites) & known.keys()
    while front:
        found.update(dict.fromkeys(front, steps))
        front, steps = {other for key in front for other in known[key].cites if other in known} - found.keys(), steps + 1
    return found


def carried(it):
    """The rules that a contract carries, each with the fewest steps to a definition that says it."""
    found = dict.fromkeys(it.rules, 0)
    for key, steps in steps_from(frozenset(it.cites)).items():
        for rule in definitions()[key].rules:
            found[rule] = min(found.get(rule, steps), steps)
    return found


@cache
def links():
    """Everything that serves a rule."""
    found = [Link(rule, "definition", it.name, it.path, it.line, 0) for it in definitions().values() for rule in it.rules]
    for it in functions():
        if it.is_test:
            found += [Link(rule, "test", it.name, it.path, it.line, 0) for rule in it.rules]
        elif not it.crate.startswith("test_"):
            most = None if it.name in ENTRIES else STEPS
            found += [Link(rule, "contract", it.name, it.path, it.line, steps) for rule, steps in carried(it).items()
                      if most is None or steps <= most]
    found += [Link(rule, "wrong body", it.name, it.path, 1, 0) for it in bodies() for rule in it.rules]
    found += [Link(rule, "test", file, ROOT / file if (ROOT / file).exists() else CRATES / file, 1, 0)
              for file, named in remarks()[1] for rule in named]
    return found


def way_to(rule, it):
    """A shortest chain of definitions from a function's contract to one that says the rule, each citing the next."""
    known = definitions()
    before = dict.fromkeys(sorted(it.cites & known.keys()))
    queue = list(before)
    for key in queue:
        if rule in known[key].rules:
            way = [key]
            while before[way[-1]]:
                way.append(before[way[-1]])
            return [known[step] for step in reversed(way)]
        fresh = [other for other in sorted(known[key].cites) if other in known and other not in before]
        before.update(dict.fromkeys(fresh, key))
        queue += fresh
    return []
