"""The words of verdicts and causes, once for all scripts: those of docs/FORMATS.md, in its order."""

NETWORKS = "AB"
# Each kind of verdict, and what has become of its frame: it is out or redundant, or else it was forwarded, and then
# delivered, held as a fragment, refused for itself, or lost at a full queue.
FATES = {
    "out-of-sequence": "out", "redundant": "redundant", "bad-header": "refused", "bad-fragment": "refused",
    "fragment-held": "held", "bad-udp": "refused", "no-port": "refused", "too-long": "refused",
    "fragmented-sample": "refused", "sampled": "delivered", "queued": "delivered", "overflow": "overflow",
    "exhausted": "refused",
}
KINDS = tuple(FATES)
HEADER_CAUSES = ("version", "header-length", "total-length", "checksum", "protocol")
FILTER_CAUSES = ("too-short", "too-long", "not-ip", "foreign-constant", "unknown-link")
# Redundancy management forwards a frame of any kind but the first two, whatever becomes of it later.
OUT_OF_SEQUENCE, REDUNDANT, FIRST_FORWARDED = 0, 1, 2
NOT_FORWARDED = KINDS[:FIRST_FORWARDED]


def kinds_of(*fates):
    """The kinds of verdicts whose frames have become one of these."""
    return tuple(kind for kind, fate in FATES.items() if fate in fates)


DELIVERED, REFUSED, (HELD,), (FULL,) = map(kinds_of, ("delivered", "refused", "held", "overflow"))

# The kinds of verdicts that name a port, and the kind of that port where the verdict says it.
PORT_KINDS = {
    "too-long": None, "fragmented-sample": "sampling", "sampled": "sampling", "exhausted": "sampling",
    "queued": "queuing", "overflow": "queuing",
}
# The kinds whose word only the name of a port follows.
NAMED_KINDS = tuple(kind for kind in PORT_KINDS if kind != "sampled")
