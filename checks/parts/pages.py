"""The pages that checks/book makes: the matrix of the rules and its tables both ways, the promises, the crates."""
import csv
import io
import re

from parts.options import ROOT
from parts.rules import CALLS, NUMBER, PARTS, links, remarks, rules, source_of
from parts.tree import CRATES, bodies, crates, functions, head_of

NOTE = "<!-- Made by checks/book: edit the sources. -->"
LINK = re.compile(r"\[([^][]*)\]\(([^)\s]+)\)")


def from_made(words, page):
    """The words of a page, whose links lead to the same places from docs/made."""
    def moved(to):
        return to if "://" in to else f"../{page.name}{to}" if to.startswith("#") else f"../{to}"
    return LINK.sub(lambda found: f"[{found[1]}]({moved(found[2])})", words)


def without_links(comment):
    """The words of a comment of the code, whose links are names there."""
    return LINK.sub(lambda found: found[0] if "://" in found[2] else found[1], comment)


# ---- the matrix


def names_of(found):
    return ", ".join(f"`{name}`" for name in sorted({it.name for it in found}))


def definitions_text(found):
    """Definitions, each file once, as a link to it."""
    files = {}
    for it in found:
        file, _, name = it.name.partition(": ")
        files.setdefault((file, it.path), []).append(f"`{name}`")
    return "; ".join(f"[{file}](../../{path.relative_to(ROOT)}): {', '.join(names)}"
                     for (file, path), names in sorted(files.items()))


def contracts_text(found):
    """Those that are nearest to a definition of the rule; and the calls that a user makes."""
    steps = min(it.steps for it in found)
    near = names_of(it for it in found if it.steps == steps)
    promised, shown = {it.name for it in found}, []
    for kind, names in CALLS.items():
        own = [f"`{name}`" for name in names if name in promised]
        shown += [f"*{kind}*"] if len(own) == len(names) else own
    return near + (f", through {steps} more" if steps else "") + (f"; promised by {', '.join(shown)}" if shown else "")


SHOWN = {"definition": definitions_text, "contract": contracts_text, "wrong body": names_of, "test": names_of}


def quoted(rule):
    """The list or table that a rule leads in, if no other rule stands in it."""
    if len(rule.beside) > 1 and not any(map(NUMBER.search, rule.beside)):
        yield from (">", *(f"> {from_made(line, rule.page)}" for line in rule.beside))


def matrix():
    """A heading for each rule, and its four parts."""
    yield from ("# Which rule is kept by what", "", NOTE, "")
    yield ("A **definition** says the rule in the checker's words. A **contract** that cites it is proved; *through 1 "
           "more*: it cites a definition that cites it. The nearest are shown, TRACEABILITY.csv has more. *Promised by*: "
           "the calls that a user makes whose contracts come to the rule through any number of definitions. To be cited is "
           "necessary, not enough: that a contract says the rule is read in it. A **wrong body** is refused: by the prover, "
           "or, where it stands in `by_tests` or `by_laws`, by the test or the law that it names. A **test** checks that the "
           "definition means what the rule means. The **source** is the public standard that the rule is of, or own, this profile's "
           "choice; both, where its sentences differ. `checks/book RM-3` prints a rule's places with their lines, `checks/book NAME` what "
           "a definition, function, test or wrong body serves, and `checks/book RM-3 NAME` how a contract comes to a rule.")
    yield ""
    yield from (f"- *{kind}*: {', '.join(f'`{name}`' for name in names)}" for kind, names in CALLS.items())
    at, reasons = None, remarks()[0]
    for rule in rules():
        if (rule.page, rule.section) != at:
            at = (rule.page, rule.section)
            yield from ("", f"## [{rule.page.stem}](../{rule.page.name}): {rule.section}")
        yield from ("", f"### {rule.number}", "", f"> {from_made(rule.words, rule.page)}", *quoted(rule), "", f"Source: {source_of(rule)}", "")
        for part in PARTS:
            own = [it for it in links() if (it.rule, it.part) == (rule.number, part)]
            yield f"- {part}: {SHOWN[part](own) if own else 'none: ' + reasons.get((rule.number, part), 'no reason')}"


def table(header, rows):
    out = io.StringIO()
    csv.writer(out, lineterminator="\n").writerows([header, *rows])
    return [out.getvalue().rstrip("\n")]


def by_rule():
    """From a rule to all that serves it."""
    order = {rule.number: at for at, rule in enumerate(rules())}
    found = sorted(links(), key=lambda it: (order.get(it.rule, -1), PARTS.index(it.part), it.steps, it.name))
    sources = {rule.number: source_of(rule) for rule in rules()}
    rows = [(it.rule, it.part, it.name, it.path.relative_to(ROOT), it.steps, sources.get(it.rule), "") for it in found]
    rows += [(rule, part, "", "", "", sources.get(rule), why) for (rule, part), why in remarks()[0].items()]
    rows.sort(key=lambda row: (order.get(row[0], -1), PARTS.index(row[1])))
    return table(("rule", "part", "name", "file", "steps", "source", "why none"), dict.fromkeys(rows))


def by_code():
    """From what there is to the rules that it serves, those at the fewest steps; functions, tests and wrong bodies of no rule
    too."""
    order, code, rows = {rule.number: at for at, rule in enumerate(rules())}, {}, []
    for it in links():
        code.setdefault((it.part, it.name, it.path.relative_to(ROOT)), []).append((it.steps, order.get(it.rule, -1), it.rule))
    code_of_none = (it for it in functions() if not it.is_test and not it.crate.startswith("test_"))
    for part, found in (("contract", code_of_none), ("test", (it for it in functions() if it.is_test)), ("wrong body", bodies())):
        for it in found:
            code.setdefault((part, it.name, it.path.relative_to(ROOT)), [])
    for (part, name, file), served in sorted(code.items(), key=lambda one: (PARTS.index(one[0][0]), str(one[0][2]), one[0][1])):
        nearest = min(served, default=(0,))[0]
        named = dict.fromkeys(rule for steps, _, rule in sorted(served) if steps == nearest)
        rows.append((part, name, file, nearest, " ".join(named)))
    return table(("part", "name", "file", "steps", "rules"), rows)


# ---- the promises


def promises():
    """Each public function of the libraries: what it is, what it asks for, and what it promises, clause by clause."""
    yield from ("# What each public function promises", "", NOTE, "")
    yield ("Crate by crate, in the order in which they stand on one another: the first sentence of the function's comment, "
           "what it asks for, and what it promises, in the words of its contract ([READING](../READING.md) has the notation). "
           "Each of these contracts is proved.")
    for _, crate, _ in crates():
        own = [it for it in functions() if it.crate == crate and it.is_public and not it.is_test]
        if not own or crate.startswith("test_") or not (CRATES / crate / "src" / "lib.rt").exists():
            continue
        yield from ("", f"## {crate}", "", without_links(head_of(crate)))
        for it in own:
            yield from ("", f"**{it.name.partition('::')[2]}** {without_links(it.said)}".rstrip())
            said = [(word, name, " ".join(body.split())) for word, name, body in it.clauses if word != "decreases"]
            if said:
                yield ""
            for word, name, body in said:
                yield f"- {'asks' if word == 'requires' else 'promises'} {name or ''}".rstrip() + f": `` {body} ``"


# ---- the crates


def crates_page():
    """Each crate by its head, in the order and under the headings of crates.txt, with what it stands on."""
    yield from ("# The crates", "", NOTE)
    last = None
    for heading, crate, below in crates():
        if heading != last:
            last = heading
            yield from ("", heading, "", "| crate | what it is | stands on |", "|---|---|---|")
        tied = ", ".join(f"`{name}`" for name in below)
        yield f"| [{crate}](../../crates/{crate}/src) | {without_links(head_of(crate)).replace('|', chr(92) + '|')} | {tied} |"


def pages():
    """The lines of each page, by its name."""
    return {"TRACEABILITY.md": matrix(), "TRACEABILITY.csv": by_rule(), "CODE.csv": by_code(), "PROMISES.md": promises(),
            "CRATES.md": crates_page()}
