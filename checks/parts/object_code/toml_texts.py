"""TOML texts by chance: values of all kinds, keys and headers of all forms, and now and then a slip."""
import json
import tomllib

WORDS = ["a", "b", "c", "link", "port", "vl", "max", '"a b"', "'c'", '""', "1", "k-_9", '"\\u00e9"', "x" * 40]
ESCAPES = ["\\b", "\\t", "\\n", "\\f", "\\r", "\\e", "\\\"", "\\\\", "\\x41", "\\u00e9", "\\U0001F600", "\\uD800", "\\q", "é", "😀", "\t", "\x7f"]
NUMBERS = ["0", "-1", "+7", "1_000", "0xdead_BEEF", "0o755", "0b1101", "9223372036854775807", "9223372036854775808", "1__0", "01", "0x",
           "1.5", "-0.0", "+6.022e23", "1e-7", "1E+3", "3.1415926535897932384626433832795028841971", "inf", "-nan", "1.", ".5", "1e",
           "9007199254740993.0", "1.7976931348623157e308", "4.9e-324", "2.2250738585072011e-308", "1e400", "1e-400", "123456789012345678901234567890.5e-10",
           "0." + "1234567890" * 8 + "e20", "8" * 60 + ".5e-90", "179769313486231580793e289", "5e-324", "0.1e-340", "1_0.0_1", "7.450580596923828e-9"]
TIMES = ["1979-05-27", "1979-05-27T07:32:00Z", "1979-05-27t00:32:00.999999-07:00", "1979-05-27 07:32:00", "07:32:00.5", "07:32", "2024-02-29",
         "2023-02-29", "1979-13-01", "1979-05-27T24:00:00Z", "1979-05-27T07:32:60Z", "0000-01-01", "07:60:00", "1979-05-27T07:32:00+24:00", "1979-5-27"]


def text_of(r, length):
    return "".join(r.choice([*ESCAPES, *"abc def 0123456789"] if r.random() < 0.3 else "abcdefgh 0123") for _ in range(r.randrange(length)))


def string_of(r):
    body = text_of(r, r.choice([3, 20, 80]))
    return r.choice([f'"{body}"', f"'{body}'", f'"""\n{body}\\\n  {body}"""', f"'''{body}\n{body}'''", f'"""{body}""""', json.dumps(body)])


def value_of(r, depth):
    """A value, of fewer levels the deeper it stands."""
    kind = r.randrange(8 if depth < 4 else 5)
    if kind < 2:
        return r.choice(NUMBERS)
    if kind < 5:
        return [string_of(r), r.choice(TIMES), r.choice(["true", "false", "tru"])][kind - 2]
    values = [value_of(r, depth + 1) for _ in range(r.choice([0, 1, 2, 5]))]
    if kind < 7:
        space = r.choice(["", " ", "\n", " # a comment\n"])
        return "[" + space + f",{space}".join(values) + r.choice(["", "", ",", space]) + "]"
    return "{" + r.choice(["", " "]) + ", ".join(f"{key_of(r)} = {value}" for value in values) + r.choice(["", " ", ","]) + "}"


def key_of(r):
    parts = [r.choice([*WORDS, f"k{r.randrange(60)}"]) for _ in range(r.choice([1, 1, 1, 2, 3, 6]))]
    return r.choice([".", ".", " . "]).join(parts)


def line_of(r):
    if r.random() < 0.2:
        return r.choice(["[{}]", "[{}]", "[[{}]]", "[ {} ]", "[[{}]", "[{}"]).format(key_of(r)) + r.choice(["", " # a comment", "\r"])
    line = f"{r.choice(['', ' ', chr(9)])}{key_of(r)} = {value_of(r, 0)}{r.choice(['', '', ' # a comment', chr(13)])}"
    return line if r.random() > 0.02 else line[:r.randrange(len(line) + 1)]


def is_toml(text):
    try:
        return bool(tomllib.loads(text)) or True
    except (tomllib.TOMLDecodeError, RecursionError):
        return False


def mostly_good(r, make):
    """What is made, if Python's reader takes it, but now and then."""
    while True:
        made = make()
        if is_toml(made) or r.random() < 0.04:
            return made


def toml_text(r):
    """A text: a few lines of all kinds, or many keys of one table."""
    if r.random() < 0.15:
        keys = r.sample(range(2000), r.choice([20, 90, 400]))
        lines = [mostly_good(r, lambda: f"{r.choice(['', 'a.', 'b.c.'])}k{key} = {r.choice(['1', value_of(r, 3)])}") for key in keys]
    else:
        lines = [mostly_good(r, lambda: line_of(r)) for _ in range(r.choice([1, 2, 3, 8, 20]))]
    octets = "\n".join(lines).encode("utf-8", "surrogatepass")
    if r.random() < 0.05 and octets:
        place = r.randrange(len(octets))
        octets = octets[:place] + bytes([r.randrange(256)]) + octets[place + 1:]
    return octets
