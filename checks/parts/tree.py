"""The tree as checks/book reads it: definitions, functions with what they promise, tests, wrong bodies and crates, each
with its place, its rules, and the definitions that it cites.

A rule is named by a tag, a comment of one line above a definition, a function or a test, or a line of a wrong body:

    -- rule: RM-2, RM-3        // rule: RM-2        # rule: RM-2

Of a whole file of definitions that says no rule, its first line is `-- rule: none (why)`.
"""
import re
from collections import namedtuple
from functools import cache

from parts.options import ROOT

CRATES = ROOT / "crates"
TAG = re.compile(r"^\s*(?:--|//|#) rule: (?!none)(.+)$")
REASON = re.compile(r"^-- rule: none \((.*)\)$")
USE = re.compile(r"\buse Rattle\.([\w.]+?)(?:\.\{([^}]*)\}| as (\w+))")
# At the left margin, or in a module with parameters, where fields of records are indented too.
DEFINITION = re.compile(r"^(?:(?:\w+ )?pub (?:(?:record|data) )?|  (?:abbrev pub|pub record|pub data) )(?!mod |use )(\S+)")
BLOCK = re.compile(r"^(?:pub(?:\(\w+\))? )?(impl|trait|struct|enum)\b(?:<.*?>)? ?(.*)")
FUNCTION = re.compile(r"^(\s*)(pub(?:\(\w+\))? )?(?:const )?(?:unsafe )?(?:extern \"C\" )?fn (\w+)")
CLAUSE = re.compile(r"^\s*(requires|ensures|decreases)\*?(?: (\w+))? \{", re.M)
# What a type keeps: a field of proofs, or what an impl says of all values.
KEPT = re.compile(r"^\s+(?:pub )?ghost (?!view|use|Value)(\w+)(?: =|:) \{", re.M)
NAME = re.compile(r"(?<![\w.◌])([A-Za-z_]\w*)(?:\.([A-Za-z_]\w*))?")

# A definition's key is (crate, file, name); `cites` are keys.
Definition = namedtuple("Definition", "key name path line rules cites")
# `said` is the first sentence of its comment; `clauses` are a word, a name or None, and the text.
Function = namedtuple("Function", "crate name path line is_public is_test rules said clauses cites")
Body = namedtuple("Body", "name path rules")


def rules_of(line):
    """The rules that a line names as a tag."""
    tag = TAG.match(line)
    return re.split(r",\s*", tag[1].strip()) if tag else []


def tags_above(lines, at, comment):
    """The rules of the tags among the comments above a line."""
    rules, at = [], at - 1
    while at >= 0 and lines[at].lstrip().startswith((comment, "#[")):
        rules = rules_of(lines[at]) + rules
        at -= 1
    return rules


def said_above(lines, at):
    """The first sentence of the doc comment above a line."""
    said, at = [], at - 1
    while at >= 0 and lines[at].lstrip().startswith(("//", "#[")):
        said = [lines[at].strip()[3:].strip(), *said] if lines[at].lstrip().startswith("///") else said
        at -= 1
    return first_sentence(" ".join(said))


def first_sentence(text):
    found = re.match(r".*?[.:](?=\s+[A-Z`]|\s*$)", text)
    return (found[0] if found else text).rstrip(":").strip()


def lines_of(path):
    return path.read_text(encoding="utf-8").splitlines()


# ---- what names mean


def names_used(text):
    """What the names of a file mean that it uses of others: definitions by their names here, and whole files."""
    names, modules = {}, {}
    for path, listed, alias in USE.findall(text):
        parts = path.split(".")
        if len(parts) != 3 or parts[1] != "specs":
            continue
        if alias:
            modules[alias] = (parts[0], parts[2])
        for item in filter(None, (item.strip() for item in listed.split(","))):
            name, _, other = item.partition(" as ")
            names[other or name] = (parts[0], parts[2], name)
    return names, modules


def cited(text, names, modules):
    """The definitions that a text names."""
    found = {names[head] for head, _ in NAME.findall(text) if head in names}
    return found | {(*modules[head], tail) for head, tail in NAME.findall(text) if head in modules and tail}


def module_of(path):
    """The module of a source file, as `crate::module`, or `crate::module::module` in a folder."""
    crate, _, *modules = path.relative_to(CRATES).with_suffix("").parts
    return "::".join((crate, *modules))


# ---- definitions


def definitions_of(path):
    """The public definitions of a file."""
    crate, file, lines = path.parts[-3], path.stem, lines_of(path)
    starts = [(at, match[1]) for at, match in enumerate(map(DEFINITION.match, lines)) if match]
    names, modules = names_used("\n".join(lines))
    names.update({name: (crate, file, name) for _, name in starts})
    for (at, name), (end, _) in zip(starts, [*starts[1:], (len(lines), None)]):
        body = "\n".join(line for line in lines[at:end] if not line.lstrip().startswith("--"))
        key, shown = (crate, file, name), f"{path.relative_to(CRATES)}: {name}"
        yield Definition(key, shown, path, at + 1, tags_above(lines, at, "--"), cited(body, names, modules) - {key})


@cache
def passed_on():
    """Names that a file passes on, each with the definition that it stands for."""
    found = {}
    for path in sorted(CRATES.glob("*/specs/**/*.antt")):
        for line in lines_of(path):
            if line.startswith("pub use"):
                found.update({(path.parts[-3], path.stem, name): key for name, key in names_used(line)[0].items()})
    return found


def where_they_stand(keys):
    return {passed_on().get(key, key) for key in keys}


@cache
def definitions():
    """All public definitions by their keys."""
    found = [it for path in sorted(CRATES.glob("*/specs/**/*.antt")) for it in definitions_of(path)]
    return {it.key: it._replace(cites=where_they_stand(it.cites)) for it in found}


# ---- functions


def between(text, at):
    """What stands from here to the brace that closes it."""
    depth, start = 1, at
    while depth and at < len(text):
        depth += {"{": 1, "}": -1}.get(text[at], 0)
        at += 1
    return text[start:at - 1]


def contract_of(lines, at, indent):
    """The text from a function's name to its body, or to the semicolon of one that has none."""
    taken, depth = [], 0
    for line in lines[at:]:
        if line in (indent + "{", indent + "{}"):
            break
        taken.append(line)
        depth += sum(line.count(sign) for sign in "({") - sum(line.count(sign) for sign in ")}")
        has_body = line.endswith("{}") or depth == 1 and line.endswith(" {") and not CLAUSE.search(line)
        if has_body or depth == 0 and line.endswith(";"):
            break
    return "\n".join(taken)


def conclusion(text):
    """What a clause says, without what it says it under: of `A → B` it is B, within brackets too."""
    open_texts = [""]
    for sign in text:
        if sign == "(":
            open_texts.append("")
        elif sign == ")" and len(open_texts) > 1:
            inner = open_texts.pop()
            open_texts[-1] += f"({inner})"
        elif sign == "→":
            open_texts[-1] = ""
        else:
            open_texts[-1] += sign
    return "(".join(open_texts)


def block_text(lines, at):
    """The text of a block that begins here."""
    end = next((n for n in range(at + 1, len(lines)) if lines[n] == "}"), len(lines))
    return "\n".join(lines[at:end])


def functions_of(path):
    """The functions of a file, and the types that keep something."""
    crate, lines, block, is_trait = path.relative_to(CRATES).parts[0], lines_of(path), None, False
    names, modules = names_used("\n".join(lines))
    is_laws = path.stem == "laws"
    for at, line in enumerate(lines):
        opened, match = BLOCK.match(line), FUNCTION.match(line)
        if opened and not line.endswith("}"):
            block, is_trait, text = re.search(r"\w+", opened[2].split(" for ")[-1])[0], line.startswith("pub trait"), block_text(lines, at)
            kept = [(match[1], between(text, match.end())) for match in KEPT.finditer(text)]
            if kept:
                cites = cited("\n".join(body for _, body in kept), names, modules)
                yield Function(crate, f"{crate}::{block}", path, at + 1, False, False, tags_above(lines, at, "//"),
                               said_above(lines, at), [("keeps", *one) for one in kept], where_they_stand(cites))
        elif line == "}":
            block, is_trait = None, False
        elif match:
            indent, seen, name = match.groups()
            text = contract_of(lines, at, indent)
            clauses = [(clause[1], clause[2], between(text, clause.end())) for clause in CLAUSE.finditer(text)]
            # Of a law what it says it under is half of what it says.
            said = [body if is_laws else conclusion(body) for word, _, body in clauses if word == "ensures"]
            is_test = any(before.strip() == "#[test]" for before in lines[max(0, at - 3):at])
            whole = f"{module_of(path)}::{name}" if is_test or is_laws else "::".join(filter(None, (crate, block, name)))
            yield Function(crate, whole, path, at + 1, seen == "pub " or is_trait, is_test, tags_above(lines, at, "//"),
                           said_above(lines, at), clauses, where_they_stand(cited("\n".join(said), names, modules)))


@cache
def functions():
    """All functions of libraries, programs and tests, and the types that keep something."""
    return [it for path in sorted(CRATES.glob("*/src/**/*.rt")) for it in functions_of(path)]


# ---- wrong bodies, crates, and tags wherever they stand


@cache
def bodies():
    """All wrong bodies, each by its path from `crates` or from the top."""
    found = [(base, path) for base, pattern in ((CRATES, "*/must-fail/*.edit"), (ROOT, "wrong_bodies/**/*.edit"))
             for path in sorted(base.glob(pattern))]
    return [Body(str(path.relative_to(base)), path, [rule for line in lines_of(path) for rule in rules_of(line)])
            for base, path in found]


def crates():
    """The crates of crates.txt: the heading above each, its name, and what it stands on."""
    heading = ""
    for line in lines_of(ROOT / "crates.txt"):
        if line.startswith("#"):
            heading = line.strip("# ")
        elif line:
            name, _, below = line.partition(":")
            yield heading, name.split()[0], below.split()


def head_of(crate):
    """The first sentence of a crate's head."""
    for file in ("lib.rt", "main.rt"):
        path = CRATES / crate / "src" / file
        if path.exists():
            return first_sentence(" ".join(line[3:].strip() for line in lines_of(path) if line.startswith("//!")))
    return ""


def reason_of(path):
    """Why a file of definitions says no rule, or None."""
    found = REASON.match(lines_of(path)[0])
    return found[1] if found else None


def tags_of(path):
    """How many rules the tags of a file name."""
    return sum(len(rules_of(line)) for line in lines_of(path))
