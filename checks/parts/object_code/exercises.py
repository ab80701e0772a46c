"""The runs by which checks/coverage exercises the library: its tests in C, and calls by chance."""
import random
from itertools import islice

from parts import fuzz_cases
from parts.c_programs import POOL, ROOFS, compiled_part, of_examples, scripts_of, under
from parts.driven import ENOUGH, hexed
from parts.fuzz_cases import Case
from parts.object_code import shapes, stray_keys
from parts.object_code.counted import FIXED
from parts.object_code.decimals import decimals
from parts.object_code.names import lookups
from parts.object_code.near_texts import LATE, LONG, SHORT, TEXTS, WIDE, faulty_links, near_texts, texts_of_lines
from parts.object_code.rare_texts import RARE, texts_of_long_keys, texts_of_many_keys, texts_of_several_keys
from parts.object_code.toml_texts import toml_text
from parts.object_code.walks import CLOSED
from parts.options import EXAMPLES

ENDS = 12


def calls_of_case(r):
    """A configuration, often with a fault, and frames with calls at its ports between them, in the words of
    drive.c."""
    case = Case(r)
    calls = [f"open {r.choice([1, 2, 8])} {hexed(case.config)}"]
    names = [port["name"] for link in fuzz_cases.worked_links() for port in link["port"]]
    names += [f"p{link}-{place}" for link in range(3) for place in range(3)]
    for slot, name in enumerate(r.sample(names, min(len(names), ENDS))):
        calls += [f"hand_{kind} {slot} {hexed(name.encode())}" for kind in ("reader", "queue")]
    for moment, net, octets in case.frames():
        calls.append(f"receive {net} {moment} {hexed(octets)}")
        if r.random() < 0.3:
            slot = r.randrange(ENDS)
            held = [f"hold {slot} {moment}", f"octets {slot}", f"release {slot}"]
            calls += r.choice([[f"read {slot} {moment} {ENOUGH}"], held, [f"take {slot} {ENOUGH}"] * r.choice([1, 3])])
    return calls + CLOSED


def good_texts():
    """Texts that are opened with each request for memory refused, too; some have a fault at their end."""
    whole = (EXAMPLES / "two_links.toml").read_bytes()
    yield from (*map(str.encode, [*TEXTS, *LONG]), *texts_of_lines(2))
    yield from (SHORT.encode(), whole, whole + whole, whole + b"[[link.port]]\n", whole + b"udp = 1\n")


def texts(given):
    """Texts that are opened: near to good ones, of a few lines, of numbers, and by chance."""
    r = random.Random(f"{given.seed} openings")
    yield from (*near_texts(), *faulty_links(), *texts_of_lines(3), *map(str.encode, WIDE))
    yield from (f"a = {sign}{number}".encode() for number in decimals() for sign in ("", "-"))
    yield from (toml_text(r) if number % 4 else Case(r).config for number in range(given.texts))


def openings(given):
    """Each text is opened and closed, or checked; some of them with each request for memory refused."""
    for text in texts(given):
        yield from (f"open 1 {hexed(text)}", "close")
    for text in (*good_texts(), *islice(texts(given), None, None, given.texts_for_each)):
        yield from (f"open_each 2 {hexed(text)}", "close")
    for text in (*RARE, *map(str.encode, LATE)):
        yield from (f"open_each 1 {hexed(text)}", f"open_each 8 {hexed(text)}", f"check_each {hexed(text)}", "close")
    yield from (f"open_each 1 {hexed(text)}" for text in texts_of_several_keys())
    for text in (*texts_of_long_keys(), *texts_of_many_keys()):
        yield from (f"open 1 {hexed(text)}", "close")
    yield from (f"check {hexed(text.encode())}" for text in stray_keys.texts())
    yield from (*shapes.openings(), *CLOSED)


def by_chance(given):
    """What drive.c reads: under each roof the scripts of checks/c_interface, and the cases of checks/fuzz."""
    scripts = list(scripts_of(given, given.scripts))
    cases = [calls_of_case(random.Random(f"{given.seed} case {number}")) for number in range(given.cases)]
    for roof in ROOFS:
        calls = [call for _, script in under(roof, scripts) for call in (*script.calls, *CLOSED)]
        calls += [call for case in cases for call in case]
        calls += ["health 0"] if roof == "receiver" else []
        yield roof, "\n".join([*calls, *lookups(), *openings(given)]).encode()


def exercises(library, room, given):
    """Each program, its map, and what it is run with: words, and what it reads."""
    _, (_, fragments, _), _ = of_examples()
    pool = (EXAMPLES / "c" / "pool.c", POOL)

    def part(name, *words, called=None):
        linker_map = room / f"{called or name}.map"
        return compiled_part(name, room, *FIXED, f"-Wl,-Map={linker_map}", *words, library, called=called), linker_map

    yield *part("codes"), [([], b"")]
    yield *part("systems", "-pthread"), [([], b"")]
    yield *part("apex", *pool), [([], b"")]
    yield *part("closing", "-pthread"), [([], b"")]
    yield *part("schedules", "-pthread", f"-DFRAMES={given.frames}"), [(["1", str(given.seed)], b"")]
    for number, (roof, text) in enumerate(by_chance(given)):
        yield *part("drive", *ROOFS[roof], called=f"drive{number}"), [([], text)]
        yield *part("stack", *pool, *ROOFS[roof], called=f"stack{number}"), [(fragments, b"")]
