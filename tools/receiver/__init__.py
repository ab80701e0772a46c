"""The proved receiver in a Python process: the shared object of `./build library`, called through the header of C.

    from receiver import A, Receiver

    with Receiver(open("two_links.toml", "rb").read()) as receiver:
        reply = receiver.receive(A, 1000, octets)       # a frame without its check sequence, at 1,000 microseconds
        reply.words                                     # "vl 17 0 sampled pos 1", as the player writes it
        reply.kind, reply.vl, reply.place, reply.port   # "sampled", 17, 0, "pos"
        receiver.reader("pos").read(1500)               # Read(number=1, time=1000, valid=True, octets=b"..")
        receiver.taker("nav").take()                    # Taken(time, octets, lost), or None if nothing waits
        receiver.counts()                               # {(17, "A"): {"sampled": 1, ..}, .., (None, "A"): {..}}

Nothing is decided here: numbers become words, and lengths octets. `ConfigFault` says what is wrong with a configuration and
where; `Refused` is a call's code by its word; `NoLibrary` says why none was loaded. It wants Debian's python3-cffi.

One thread at a time uses a Receiver, and so a Reader or a Taker; Python's own lock is given back during a call. A System is for two
threads, one a network: `System(text).hand_pass(A)` is the Pass of one, with `receive(now, octets)` and `counts()`.
"""
from receiver.calls import A, B, ConfigFault, Link, Pass, Port, Read, Reader, Receiver, Refused, Reply, System, Taken, Taker
from receiver.library import NoLibrary, find

__all__ = ["A", "B", "ConfigFault", "Link", "NoLibrary", "Pass", "Port", "Read", "Reader", "Receiver", "Refused", "Reply", "System",
           "Taken", "Taker", "find"]
