#!/usr/bin/env python3
"""Writes a configuration as a table in C, for yelunnavi_receiver_open_table: a file that can be reviewed, and compiled in.

    tools/c_table.py CONFIG     the table of a configuration that the program takes (docs/FORMATS.md), on the standard output;
                                `tools/yelunnavi export --c-table` asks the receiver first

Whether the program takes it is asked of the library when the table is opened. Keys that have no meaning are left out, but
for `readers` at a sampling port: how many readers it gets, 1 to 8; without it as many as the opening is told.
"""
import ipaddress
import sys

try:
    import tomllib
except ImportError:  # PyPy, which is behind: Debian's python3-tomli is the same
    import tomli as tomllib

CONSTANT, WINDOW = "03000000", 2
LARGEST = {"sampling": 1471, "queuing": 8192}
LIMITS = {"sampling": "refresh_us", "queuing": "depth"}
# What stands in a table of no rows, and isn't read: C before C23 has no empty one.
NO_LINK, NO_PORT = "    {0, 0, 0, 0, 0, 0},", "    {0, 0, 0, 0, 0, 0, {0}, 0},"


def number(value, bits=32):
    """A number that the table has room for; whether it is within its limits the library says."""
    if isinstance(value, bool) or not isinstance(value, int) or not 0 <= value < 1 << bits:
        raise ValueError(f"{value} is no number of {bits} bits")
    return value


def link_row(link):
    redundancy, window = int(link.get("redundancy", True)), number(link.get("window", WINDOW))
    times = number(link["skew_max_us"], 64), number(link["reassembly_us"], 64)
    words = number(link["vl"]), redundancy, *times, window, len(link.get("port", ()))
    return f"    {{{', '.join(map(str, words))}}},"


def port_row(port):
    kind, name = port["kind"], port["name"]
    address = int(ipaddress.IPv4Address(port["address"]))
    words = number(port["udp"]), number(port.get("max", LARGEST[kind])), number(port[LIMITS[kind]], 64), len(name)
    octets = ", ".join(f"'{letter}'" for letter in name)
    readers = number(port.get("readers", 0)) if kind == "sampling" else 0
    return f"    {{YELUNNAVI_SERVICE_{kind.upper()}, 0x{address:08x}, {', '.join(map(str, words))}, {{{octets}}}, {readers}}},"


def table(config):
    """The lines of the table."""
    constant = ", ".join(f"0x{octet:02x}" for octet in bytes.fromhex(config.get("constant", CONSTANT)))
    ports = [port for link in config["link"] for port in link.get("port", ())]
    return [
        "/* The table of a configuration, for yelunnavi_receiver_open_table (tools/c_table.py). */",
        f"static const uint8_t table_constant[4] = {{{constant}}};",
        "/* vl, redundancy, skew_max, reassembly, window, ports */",
        "static const struct yelunnavi_link_row table_links[] = {", *(list(map(link_row, config["link"])) or [NO_LINK]), "};",
        "/* service, address, udp, max, limit, name_len, name, readers */",
        "static const struct yelunnavi_port_row table_ports[] = {", *(list(map(port_row, ports)) or [NO_PORT]), "};",
        f"enum {{ TABLE_LINKS = {len(config['link'])}, TABLE_PORTS = {len(ports)} }};",
    ]


def text_of(octets):
    """The table of a configuration's text."""
    return "\n".join(table(tomllib.loads(octets.decode("utf-8-sig")))) + "\n"


def main():
    if len(sys.argv) != 2:
        sys.exit(__doc__)
    try:
        with open(sys.argv[1], "rb") as file:
            text = text_of(file.read())
    except (OSError, ValueError, KeyError, TypeError, AttributeError) as error:
        sys.exit(f"c_table: {sys.argv[1]}: {type(error).__name__}: {error}; tools/yelunnavi check says what the program refuses")
    print(text, end="")


if __name__ == "__main__":
    main()
