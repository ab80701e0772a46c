"""The interface of the library for C, read as text: what crates/receiver_c and crates/system_c export, and its faces for C, Rust and Ada.

An interface has structs, with their fields in order; calls, each with its result and its parameters in order; numbers by
their names, and a word for each. Each is in the source's words, whatever the face calls it: a field or a parameter is a
name and a type; `octets` are pointed to and read, `FrameReply out` is pointed to and written, `room` is an address.
"""
import re
from itertools import zip_longest
from typing import NamedTuple

import parts.options  # noqa: F401  (the tools are on the path then)
from verdict_words import FILTER_CAUSES, HEADER_CAUSES, KINDS, NETWORKS

CALLS = ("crates/receiver_c/src/lib.rt", *(f"crates/system_c/src/{name}_calls.rt" for name in ("system", "pass")))
HELD = "crates/receiver_c/src/held_octets.rt"
REPLIES, CODES, NUMBERS = (f"crates/receiver_slots/src/{name}.rt" for name in ("told/replies", "codes", "told/numbers"))
PORT_COUNTS = "crates/receiver_slots/src/told/port_counts.rt"
VERDICTS = "crates/es_base/src/verdict.rt"
FAULTS, ROWS = "crates/vl_config/src/fault.rt", "crates/vl_config/src/rows.rt"
# What each key of a configuration may have, in the program's words.
EXPLANATION = "crates/program/src/explanation.rt"
BOUNDS = ("crates/es_base/src/config.rt", "crates/es_base/src/settings.rt", "crates/es_base/src/port.rt",
          "crates/es_base/src/name.rt", "crates/mailbox_port/src/count.rt")
C, RUST, ADA = "examples/c/yelunnavi.h", "examples/rust/yelunnavi.rs", "examples/ada/yelunnavi.ads"
WORDS = "examples/c/yelunnavi_words.h"
PYTHON, BODY_OF_ADA = "tools/receiver/calls.py", "examples/ada/yelunnavi.adb"
# Where the functions for memory are defined, in C and in Rust.
MEMORY_OF_C = ("tools/heap.c", "examples/c/pool.c", "peer/pass_pool.c",
               *(f"checks/parts/{name}" for name in ("memory.h", "drive.c", "closing.c")))
MEMORY_OF_RUST = "examples/rust/play.rs"
# The number of the interface: where it is defined, what tells of it, and what the newest release has.
ABI, CHANGES, RELEASED = "crates/receiver_c/specs/Abi.antt", "CHANGELOG.md", "checks/interface_sum.txt"
KINDS_OF_HANDLES = ("Receiver", "System", "Pass", "Reader", "Taker")
HANDLES = {kind: f"crates/{'system_c' if kind in ('System', 'Pass') else 'slot_handles'}/src/{kind.lower()}_handle.rt"
           for kind in KINDS_OF_HANDLES}
# The handles that faces call otherwise: the end of a queue is a queue in all of them; System is a package of its own in Ada.
HANDLES_OF_FACES = {"Queue": "Taker", "End_System": "System"}

# What the faces call otherwise: the period of a sampling port, and where the room of a handle is.
FIELDS = {("LimitReply", "limit"): "refresh"}
ROOM = "room"
# The structs of C and of Rust, by those of the source. Ada's have the same names, but for a frame's reply.
STRUCTS_OF_C = {
    "FaultReply": "yelunnavi_fault", "FrameReply": "yelunnavi_verdict", "ReadReply": "yelunnavi_read",
    "TakeReply": "yelunnavi_taken", "LinkReply": "yelunnavi_link", "PortReply": "yelunnavi_port",
    "PlaceReply": "yelunnavi_place", "LimitReply": "yelunnavi_limits", "HeldOctets": "yelunnavi_octets",
    "HealthReply": "yelunnavi_health", "LinkHealthReply": "yelunnavi_link_health", "FillReply": "yelunnavi_fill",
    "PortCountsReply": "yelunnavi_port_counts",
    "LinkRow": "yelunnavi_link_row", "PortRow": "yelunnavi_port_row",
    **{f"{kind}Handle": f"yelunnavi_{kind.lower()}" for kind in KINDS_OF_HANDLES}, "TakerHandle": "yelunnavi_queue",
}
STRUCTS_OF_RUST = {
    "FaultReply": "Fault", "FrameReply": "Verdict", "ReadReply": "Read", "TakeReply": "Taken", "LinkReply": "Link",
    "HealthReply": "Health", "LinkHealthReply": "LinkHealth", "FillReply": "Fill", "PortCountsReply": "PortCounts",
    "PortReply": "Port", "PlaceReply": "Place", "LimitReply": "Limits", "LinkRow": "LinkRow", "PortRow": "PortRow", "HeldOctets": "Held",
}
STRUCTS_OF_ADA = {"Verdict_Reply": "FrameReply"}
# The structs that the Python binding takes apart itself, by their names there; all else it reads from the header. And the types of
# their fields, by their letters.
STRUCTS_OF_PYTHON = {"VERDICT": "FrameReply", "TAKEN": "TakeReply", "READ": "ReadReply"}
LETTERS = {"I": "u32", "Q": "u64", "N": "usize"}
# What a number's name begins with in C, after YELUNNAVI_, and in Ada. In Rust it is a constant of a type of its group.
PREFIXES = {
    "Code": ("", ""),
    "Network": ("", "Network_"),
    "VerdictKind": ("VERDICT_", "Verdict_"),
    "FilterCause": ("FILTER_", "Filter_"),
    "HeaderFault": ("BAD_", "Bad_"),
    "ConfigFault": ("FAULT_", "Fault_"),
    "Key": ("KEY_", "Key_"),
    "Level": ("LEVEL_", "Level_"),
    "Service": ("SERVICE_", "Service_"),
    "Bound": ("", ""),
    "Interface": ("", ""),
}
# The groups whose numbers are plain constants in Rust, and have no words.
PLAIN = ("Bound", "Interface")
# The group of each function of C that returns words, yelunnavi_code_word and so on.
WORDS_OF_C = {"code": "Code", "network": "Network", "verdict": "VerdictKind", "filter": "FilterCause", "header": "HeaderFault",
              "fault": "ConfigFault", "key": "Key", "level": "Level", "service": "Service"}
# A fault of a configuration that no call tells: it is the code NO_MEMORY.
UNTOLD = "MEMORY"
# What of the constants of these files the faces have: the greatest numbers of things, and the longest of them.
OF_BOUNDS = ("MOST_LINKS", "MOST_PORTS", "MOST_READERS", "LONGEST_NAME", "LONGEST_SAMPLE", "LONGEST_QUEUED", "DEEPEST_QUEUE")


class Interface(NamedTuple):
    """Structs, calls, numbers and words by their names; no words where a face has none."""
    structs: dict
    calls: dict
    numbers: dict
    words: dict


class Unread(Exception):
    """What the text of an interface has that isn't read here."""


def swapped(names):
    return {value: key for key, value in names.items()}


def found(pattern, text, what):
    match = re.search(pattern, text, re.M | re.S)
    if not match:
        raise Unread(what)
    return match


def split_at(separator, text):
    return [part.strip() for part in re.sub(r"\s+", " ", text).split(separator) if part.strip()]


# ---- the source


def parameters(name, of_type):
    """The parameters in C of one of an export: a slice is two, and the allocator none."""
    pairs = {"Global": [], "*mut u8": [(ROOM, ROOM)], "&[u8]": [(name, "octets"), ("len", "usize")],
             "&mut [u8]": [(name, "octets out"), ("len", "usize")], "&mut [u8; 16]": [(name, "16 octets out")], "&[u8; 4]": [(name, "octets")],
             "&[LinkRow]": [(name, "LinkRows"), (f"{name}_len", "usize")],
             "&[PortRow]": [(name, "PortRows"), (f"{name}_len", "usize")]}
    if of_type in pairs:
        return pairs[of_type]
    kind = found(r"^(&mut )?(\w+)$", of_type, f"the type {of_type}")
    return [(name, kind[2] + (" out" if kind[1] and not kind[2].endswith("Handle") else ""))]


def exports(text):
    calls = {}
    pattern = r'^pub (?:unsafe )?extern "C" fn (\w+)\(([^)]*)\)(?: -> (\w+))?\s*(?:\{|ensures|requires)'
    for name, words, result in re.findall(pattern, text, re.M):
        pairs = [part.split(": ", 1) for part in split_at(",", words)]
        calls[name] = (result or None, sum((parameters(*pair) for pair in pairs), []))
    if len(calls) != text.count("#[unsafe(no_mangle)]"):
        raise Unread("an export")
    return calls


def of_array(kind):
    """The type of a field: an array of octets is so many of them."""
    array = re.fullmatch(r"\[u8; (\d+)\]", kind)
    return f"{array[1]} octets" if array else kind


def structs_of_source(tree):
    text = "".join((tree / path).read_text(encoding="utf-8").split("/// A fault of a table")[0] for path in (REPLIES, PORT_COUNTS, ROWS))
    made = {}
    for name, body in re.findall(r"^#\[repr\(C\)\]\n(?:#[^\n]*\n)*pub struct (\w+) \{\n(.*?)^\}", text, re.M | re.S):
        fields = re.findall(r"^    pub (\w+): (\[u8; \d+\]|\w+),$", body, re.M)
        made[name] = [(FIELDS.get((name, field), field), of_array(kind)) for field, kind in fields]
    if len(made) != text.count("pub struct "):
        raise Unread("a struct of replies")
    for kind in KINDS_OF_HANDLES:
        text = (tree / HANDLES[kind]).read_text(encoding="utf-8")
        found(r"^#\[repr\(C\)\]\npub struct \w+Handle \{\n    at: \*mut u8,\n    pub ghost .*\n\}", text, f"{kind}Handle")
        made[f"{kind}Handle"] = [(ROOM, ROOM)]
    text = (tree / HELD).read_text(encoding="utf-8")
    found(r"^pub struct HeldOctets \{\n    pub at: \*const u8,\n    pub len: usize,\n\}", text, "HeldOctets")
    made["HeldOctets"] = [("at", "octets"), ("len", "usize")]
    return made


def function(text, name):
    return found(rf"^( *)(?:pub(?:\(crate\))? )?fn {name}\(.*?^\1\}}", text, name)[0]


def upper(variant):
    """A variant's name as a constant's."""
    return re.sub(r"(?<=[a-z])(?=[A-Z])", "_", variant).upper()


def numbered(text):
    """The numbers of a function's variants."""
    pattern = r"\w+::(\w+)(?:\([^)]*\)| \{ \.\. \})? => (\d+)"
    return {upper(name): int(number) for name, number in re.findall(pattern, text)}


def of_number(text):
    """The variants that a function has for numbers, the other way round."""
    return {upper(name): int(number) for number, name in re.findall(r"(\d+) => Some\(\w+::(\w+)\)", text)}


def levels(text):
    """What level_of says of the places of a link and a port."""
    places = ("(None, _)", "DOCUMENT"), ("(Some(_), None)", "LINK"), ("(Some(_), Some(_))", "PORT")
    return {name: int(found(rf"{re.escape(place)} => (\d+)", text, "level_of")[1]) for place, name in places}


def bounds(tree):
    text = "".join((tree / path).read_text(encoding="utf-8") for path in BOUNDS)
    return {name: int(found(rf"^pub const {name}: \w+ = ([\d_]+);", text, name)[1]) for name in OF_BOUNDS}


def numbers_of_source(tree):
    """The numbers by their groups and names."""
    read = ((tree / path).read_text(encoding="utf-8") for path in (CALLS[0], CODES, NUMBERS, REPLIES, VERDICTS))
    calls, codes, numbers, replies, verdicts = read
    filtered = found(r"Reply::Filtered\(cause\) => FrameReply \{\s*kind: (\d+),", replies, "a filtered frame's kind")
    no_key = found(r"ConfigFault::Memory => (\d+)", function(numbers, "fault_key"), "no key")
    faults = numbered(function(numbers, "fault_number"))
    return {
        "Code": {name: int(number) for name, number in re.findall(r"^pub const (\w+): u32 = (\d+);", codes, re.M)},
        "Network": of_number(function(numbers, "net_of")),
        "VerdictKind": {"FILTERED": int(filtered[1]), **of_number(function(verdicts, "from_number"))},
        "FilterCause": of_number(function(numbers, "cause_of")),
        "HeaderFault": numbered(function(numbers, "header_number")),
        "ConfigFault": {name: number for name, number in faults.items() if name != UNTOLD},
        "Key": {"NONE": int(no_key[1]), **numbered(function(numbers, "key_number"))},
        "Level": levels(function(replies, "level_of")),
        "Service": numbered(function(numbers, "service_number")),
        "Bound": bounds(tree),
        "Interface": {"ABI": int(found(r"^pub const ABI: u32 = (\d+);", calls, "ABI")[1])},
    }


def words_of_source(tree, numbers):
    """The words by their groups and names: those that the player prints, else the names. `{}` is a fault's key."""
    text = (tree / FAULTS).read_text(encoding="utf-8")
    keys = {upper(name): word for name, word in re.findall(r"Key::(\w+) => \"(\w+)\"", text)}
    faults = {upper(name): word.replace("{0}", "{}")
              for word, name in re.findall(r"#\[error\(\"(.*?)\"\)\]\n    (\w+)", text) if upper(name) != UNTOLD}
    words = {group: {name: name.lower().replace("_", "-") for name in names}
             for group, names in numbers.items() if group not in PLAIN}
    printed = {"Network": NETWORKS, "VerdictKind": ("filtered", *KINDS), "FilterCause": FILTER_CAUSES,
               "HeaderFault": HEADER_CAUSES}
    for group, in_order in printed.items():
        words[group] = dict(zip(sorted(numbers[group], key=numbers[group].get), in_order))
    return {**words, "Key": {"NONE": "", **keys}, "ConfigFault": faults}


def source(tree):
    text = "\n".join((tree / path).read_text(encoding="utf-8") for path in CALLS)
    calls, numbers = exports(text), numbers_of_source(tree)
    return Interface(structs_of_source(tree), calls, numbers, words_of_source(tree, numbers))


# ---- C


def type_of_c(words):
    """A type of the header in the source's words."""
    plain = {"uint32_t": "u32", "uint64_t": "u64", "size_t": "usize", "void": None}
    if words in plain:
        return plain[words]
    pointers = {"void *": ROOM, "const uint8_t *": "octets", "uint8_t *": "octets out"}
    if words in pointers:
        return pointers[words]
    of_struct = re.fullmatch(r"struct (\w+) \*", words)
    if of_struct and of_struct[1] in STRUCTS_OF_C.values():
        name = swapped(STRUCTS_OF_C)[of_struct[1]]
        return name if name.endswith("Handle") else f"{name} out"
    of_rows = re.fullmatch(r"const struct (\w+_row) \*", words)
    if of_rows and of_rows[1] in STRUCTS_OF_C.values():
        return f"{swapped(STRUCTS_OF_C)[of_rows[1]]}s"
    of_number = re.fullmatch(r"(uint64_t|size_t) \*", words)
    return f"{plain[of_number[1]]} out" if of_number else words


def declared_in_c(words):
    """A name and its type, of a field or a parameter."""
    array = re.fullmatch(r"uint8_t \(\*(\w+)\)\[(\d+)\]", words)
    if array:
        return array[1], f"{array[2]} octets out"
    field = re.fullmatch(r"uint8_t (\w+)\[(\d+)\]", words)
    if field:
        return field[1], f"{field[2]} octets"
    parts = found(r"^(.*?)(\w+)$", words, f"{C}: {words}")
    return parts[2], type_of_c(parts[1].strip())


def enumerators(body):
    """The names and values of an enum's body."""
    value, made = -1, {}
    for part in split_at(",", body):
        name, _, given = part.partition(" = ")
        value = int(given) if given else value + 1
        made[name] = value
    return made


def words_of_c(tree):
    """The words in the header of words. Those of a fault stand in two functions, before and after its key."""
    text = (tree / WORDS).read_text(encoding="utf-8")
    pattern = r"^static inline const char \*yelunnavi_(\w+)_(word|before|after)\(uint32_t \w+\) \{(.*?)^\}"
    made = {}
    for name, part, body in re.findall(pattern, text, re.M | re.S):
        if name not in WORDS_OF_C:
            raise Unread(f"{WORDS}: yelunnavi_{name}_{part}")
        group = WORDS_OF_C[name]
        for case, word in re.findall(r'case YELUNNAVI_(\w+): word = "(.*?)"; break;', body):
            number = f"{group}::{case.removeprefix(PREFIXES[group][0])}"
            needs_key = part == "before" and case.endswith(("MISSING", "KIND", "RANGE"))
            made[number] = made.get(number, "") + word + "{}" * needs_key
    return made


def texts(pattern, text):
    """The texts of cases, by their names."""
    return {upper(name): word.replace('\\"', '"') for name, word in re.findall(pattern + r' "((?:[^"\\]|\\.)*)"', text)}


def allowed_of_c(tree):
    """What the header of words says that each key may have, by the key."""
    text = (tree / WORDS).read_text(encoding="utf-8")
    body = found(r"yelunnavi_key_allowed\(uint32_t key\) \{(.*?)^\}", text, f"{WORDS}: yelunnavi_key_allowed")[1]
    return texts(r"case YELUNNAVI_KEY_(\w+): word =", body)


def allowed_of_rust(tree):
    """The same of the Rust wrapper."""
    body = found(r"fn allowed\(self\).*?^    \}", (tree / RUST).read_text(encoding="utf-8"), f"{RUST}: allowed")[0]
    return texts(r"Key::(\w+) =>", body)


def allowed_of_source(tree):
    """The same by the program."""
    return {"NONE": "", **texts(r"Key::(\w+) =>", function((tree / EXPLANATION).read_text(encoding="utf-8"), "allowed_of"))}


def face_of_c(tree):
    text = re.sub(r"/\*.*?\*/", "", (tree / C).read_text(encoding="utf-8"), flags=re.S)
    names = swapped(STRUCTS_OF_C)
    structs = {name: [declared_in_c(part) for part in split_at(";", body)]
               for name, body in re.findall(r"^struct (yelunnavi_\w+) \{(.*?)\}", text, re.M | re.S)}
    calls = {}
    for result, name, words in re.findall(r"^(\w+) (yelunnavi_\w+)\(([^;{]*)\);", text, re.M):
        calls[name] = (type_of_c(result), [declared_in_c(part) for part in split_at(",", words) if part != "void"])
    bodies = re.findall(r"^enum \w+ \{(.*?)\}", text, re.M | re.S)
    numbers = {name: value for body in bodies for name, value in enumerators(body).items()}
    numbers |= {name: int(value) for name, value in re.findall(r"^#define (YELUNNAVI_\w+) (\d+)$", text, re.M)}
    return Interface({names.get(name, name): fields for name, fields in structs.items()}, calls, numbers, words_of_c(tree))


def name_in_c(group, name):
    return f"YELUNNAVI_{PREFIXES[group][0]}{name}"


# ---- Rust


def block_of_rust(text, macro):
    return found(rf"^{macro}! \{{\n(.*?)^\}}", text, f"{RUST}: {macro}!")[1]


def type_of_rust(words, width, groups):
    """A type of the wrapper in the source's words. All handles are one type there."""
    names = swapped(STRUCTS_OF_RUST)
    pointers = {"*mut c_void": ROOM, "*const u8": "octets", "*mut u8": "octets out", "*mut Handle": "Handle"}
    array = re.fullmatch(r"\*mut \[u8; (\d+)\]", words)
    if words in pointers or array:
        return f"{array[1]} octets out" if array else pointers[words]
    of_rows = re.fullmatch(r"\*const (\w+Row)", words)
    if of_rows or words.startswith("["):
        return f"{of_rows[1]}s" if of_rows else of_array(words)
    kind = found(r"^(\*mut )?(\w+)$", words, f"{RUST}: {words}")
    plain = width if kind[2] in groups else names.get(kind[2], kind[2])
    return plain + (" out" if kind[1] else "")


def numbers_of_rust(text, groups):
    numbers = {f"{group}::{name}": int(value) for group, body in groups.items()
               for name, value in re.findall(r"(\w+) = (\d+)", body)}
    plain = re.findall(r"^pub const (\w+): (?:usize|u32) = (\d+);", text, re.M)
    return {**numbers, **{name: int(value) for name, value in plain}}


def face_of_rust(tree):
    text = re.sub(r"//.*", "", (tree / RUST).read_text(encoding="utf-8"))
    of_number = r"#\[repr\(transparent\)\] [^;]*?pub struct \$name\(pub (\w+)\);"
    width = found(of_number, text, f"{RUST}: the type of a number")[1]
    found(r"#\[repr\(C\)\] [^;]*?pub struct \$name \{", text, f"{RUST}: the form of a reply")
    groups = dict(re.findall(r"^    (\w+) \{(.*?)^    \}", block_of_rust(text, "numbers"), re.M | re.S))
    handle = found(r"#\[repr\(C\)\]\nstruct Handle \{(.*?)\}", text, f"{RUST}: Handle")[1]
    held = found(r"#\[repr\(C\)\]\nstruct Held \{(.*?)\}", text, f"{RUST}: Held")[1]
    structs = {"Handle": re.findall(r"(\w+): ([^,]+)", handle), "Held": re.findall(r"(\w+): (\**\w[^,]*\w)", held)}
    structs |= {name: re.findall(r"(\w+): (\[u8; \d+\]|\w+)", body)
                for name, body in re.findall(r"^ +(\w+) \{ (.*?) \}$", block_of_rust(text, "replies"), re.M)}
    calls = re.findall(r"^ +(yelunnavi_\w+)\((.*?)\)(?: -> (\w+))?;", block_of_rust(text, "calls"), re.M)

    def pairs(fields):
        return [(name, type_of_rust(words, width, groups)) for name, words in fields]

    names = swapped(STRUCTS_OF_RUST)
    return Interface({names.get(name, name): pairs(fields) for name, fields in structs.items()},
                     {name: (type_of_rust(result, width, groups) if result else None,
                             pairs(re.findall(r"(\w+): ([^,]+)", words))) for name, words, result in calls},
                     numbers_of_rust(text, groups),
                     {f"{group}::{name}": word for group, body in groups.items()
                      for name, word in re.findall(r'(\w+) = \d+ "(.*?)"', body)})


def with_one_handle(interface):
    """The interface where all handles are of one type."""
    def one(pairs):
        return [(name, "Handle" if kind.endswith("Handle") else kind) for name, kind in pairs]
    structs = {name: fields for name, fields in interface.structs.items() if not name.endswith("Handle")}
    return Interface({"Handle": [(ROOM, ROOM)], **structs},
                     {name: (result, one(pairs)) for name, (result, pairs) in interface.calls.items()},
                     interface.numbers, interface.words)


def name_in_rust(group, name):
    return name if group in PLAIN else f"{group}::{name}"


# ---- Ada

NAMES_OF_ADA = {"length": "len", "name_length": "name_len", "into": "out", "where": "at",
                "constant_field": "constant", "links_length": "links_len", "ports_length": "ports_len"}


def name_of_ada(name):
    return NAMES_OF_ADA.get(name.lower(), name.lower())


def struct_of_ada(name):
    return STRUCTS_OF_ADA.get(name, name.replace("_", ""))


def type_of_ada(words, subtypes):
    """A type of the package in the source's words."""
    mode, name = ("in out ", words[7:]) if words.startswith("in out ") else ("", words)
    name = subtypes.get(name, name)
    plain = {"Unsigned_32": "u32", "Unsigned_64": "u64", "size_t": "usize", "System.Address": ROOM,
             "access constant Unsigned_8": "octets"}
    name = HANDLES_OF_FACES.get(name, name)
    if name in KINDS_OF_HANDLES:
        return f"{name}Handle" if mode else name
    if name.endswith(" octets"):
        return f"{name} out" if mode else name
    return plain.get(name, struct_of_ada(name)) + (" out" if mode else "")


def subtypes_of_ada(text):
    """What names of the package stand for."""
    found(r"type Octets is array \(size_t range <>\) of aliased Unsigned_8 with Convention => C;", text, f"{ADA}: Octets")
    made = dict(re.findall(r"subtype (\w+) is (\w+);", text))
    for name, last in re.findall(r"subtype (\w+) is Octets \(0 \.\. (\d+)\);", text):
        made[name] = f"{int(last) + 1} octets"
    return {**made, "Octets": " octets"}


def pairs_of_ada(text, subtypes):
    """The fields or parameters of a declaration: several of one type may stand together."""
    made = []
    for part in split_at(";", text):
        names, _, words = part.partition(" : ")
        made += [(name_of_ada(name), type_of_ada(words, subtypes).strip()) for name in split_at(",", names)]
    return made


def face_of_ada(tree):
    text = re.sub(r"--.*", "", (tree / ADA).read_text(encoding="utf-8"))
    subtypes = subtypes_of_ada(text)
    structs = {}
    for name, body in re.findall(r"type (\w+) is (?:limited )?record(.*?)end record with Convention => C;", text, re.S):
        name = HANDLES_OF_FACES.get(name, name)
        name = f"{name}Handle" if name in KINDS_OF_HANDLES else struct_of_ada(name)
        structs[name] = pairs_of_ada(body, subtypes)
    pattern = (r"(?:function|procedure) \w+\s*(?:\(([^)]*)\))?\s*(?:return (\w+))?\s*"
               r'with Import, Convention => C, External_Name => "(\w+)";')
    calls = {name: (type_of_ada(result, subtypes) if result else None, pairs_of_ada(words, subtypes))
             for words, result, name in re.findall(pattern, text)}
    numbers = re.findall(r"(\w+) : constant (?:Code |Unsigned_32 )?:= (\d+);", text)
    return Interface(structs, calls, {name: int(value) for name, value in numbers}, {})


def name_in_ada(group, name):
    return PREFIXES[group][1] + name.title()


# ---- Python


def structs_of_python(tree):
    """The structs that are taken apart at each call: their fields by the names to which they are given, and the letters."""
    text = (tree / PYTHON).read_text(encoding="utf-8")
    names, letters = found(r"^([A-Z, ]+) = \(struct\.Struct\(fields\)\.unpack_from for fields in \(([^)]*)\)\)$", text,
                           f"{PYTHON}: layouts").groups()
    made = {}
    for name, layout in zip_longest(split_at(",", names), re.findall(r'"(\w+)"', letters), fillvalue=""):
        fields = split_at(",", found(rf"^ +([\w, ]+) = {name}\(", text, f"{PYTHON}: the fields of {name}")[1])
        made[STRUCTS_OF_PYTHON.get(name, name)] = [(name_of_ada(field), LETTERS.get(letter, letter))
                                                   for field, letter in zip_longest(fields, layout, fillvalue="nothing")]
    return made


# ---- what the header has beside the library's calls


def memory_of_c(tree, path=C):
    """The functions for memory that a file in C declares or defines."""
    text = re.sub(r"/\*.*?\*/", "", (tree / path).read_text(encoding="utf-8"), flags=re.S)
    declared = re.findall(r"^(struct rattle_tried|void) (rattle_\w+)\(([^)]*)\)\s*[;{]", text, re.M)
    return {name: (result.removesuffix("void") or None, [declared_in_c(part) for part in split_at(",", words)])
            for result, name, words in declared}


def tried_of_c(tree):
    """What they answer, by the header."""
    text = re.sub(r"/\*.*?\*/", "", (tree / C).read_text(encoding="utf-8"), flags=re.S)
    fields = found(r"^struct rattle_tried \{(.*?)\}", text, f"{C}: rattle_tried")[1]
    return {"rattle_tried": [declared_in_c(part) for part in split_at(";", fields)]}


def memory_of_rust(tree):
    """The same functions in Rust, and what they answer there."""
    text, results = (tree / MEMORY_OF_RUST).read_text(encoding="utf-8"), {"": None, "Tried": "struct rattle_tried"}
    types = {"*mut c_void": ROOM}

    def pairs(words):
        return [(name.removeprefix("_"), types.get(kind, kind)) for name, kind in (part.split(": ") for part in split_at(",", words))]

    defined = re.findall(r'^pub (?:unsafe )?extern "C" fn (rattle_\w+)\(([^)]*)\)(?: -> (\w+))? \{', text, re.M)
    tried = found(r"^#\[repr\(C\)\]\npub struct Tried \{(.*?)\}", text, f"{MEMORY_OF_RUST}: Tried")[1]
    return {name: (results.get(result, result), pairs(words)) for name, words, result in defined}, {"rattle_tried": pairs(tried)}


# The functions that make a handle, by the kind and what follows it.
INITS = {C: r"^static inline uint32_t yelunnavi_(\w+)_init(\(.*?^\})", BODY_OF_ADA: r"^   function Init \(H : out (\w+)(; .*?)^   end Init;"}


def inits(tree, path):
    """The bodies of the functions that make a handle, by its kind, whose name is KIND in all of them."""
    bodies = re.findall(INITS[path], (tree / path).read_text(encoding="utf-8"), re.M | re.S)
    return {HANDLES_OF_FACES.get(kind.title(), kind.title()): " ".join(re.sub(rf"(?<![A-Za-z]){kind}(?![a-z])", "KIND", body).split())
            for kind, body in bodies}


# The octets that are enough for a slot, by the kind of its handle.
ROOMS = {C: r"^#define YELUNNAVI_(\w+)_OCTETS (\d+)U$", RUST: r"^    (\w+), \w+Room, (\d+), yelunnavi_",
         ADA: r"^   (\w+)_Octets : constant size_t := (\d+);$"}


def rooms(tree, path):
    octets = re.findall(ROOMS[path], (tree / path).read_text(encoding="utf-8"), re.M)
    return {HANDLES_OF_FACES.get(kind.title(), kind.title()): int(many) for kind, many in octets}



# ---- the faces: the file, how it is read, how a number is called there, and what the source is there

FACES = (
    (C, face_of_c, name_in_c, lambda interface: interface),
    (RUST, face_of_rust, name_in_rust, with_one_handle),
    (ADA, face_of_ada, name_in_ada, lambda interface: interface),
)
