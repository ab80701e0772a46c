"""Packets of two interfaces as they come: by dumpcap, or by sockets of this process. Both have the kernel's times."""
import itertools
import re
import select
import socket
import struct
import subprocess
import tempfile

from workbench import captures
from workbench.captures import Interface, Packet
from workbench.faults import NOT_READ, Fault, plain

# Of Linux: ETH_P_ALL, SO_TIMESTAMPNS, SO_RCVBUFFORCE; SOL_PACKET with its options; PACKET_OUTGOING.
ALL_PROTOCOLS, TIMESTAMPS, FORCED_BUFFER = 3, 35, 33
PACKET_LEVEL, ADD_MEMBERSHIP, STATISTICS, PROMISCUOUS, OUTGOING = 263, 1, 6, 1, 4
BUFFER, LARGEST = 64 << 20, 65_536
# dumpcap's own queue: by default it has 1,000 packets, and loses the rest.
QUEUE = ("-B", "64", "-N", "1000000", "-C", "268435456")
ETHERNET = Interface(captures.ETHERNET, None)
TIME = struct.Struct("qq").unpack


class Sockets:
    """Needs the right CAP_NET_RAW. Tells at any moment how many packets were lost."""
    patience = 50_000_000  # nanoseconds that a packet waits for earlier ones

    def __init__(self, names):
        self.lost, self.passed, self.taken, self.is_stopped = [0, 0], [0, 0], [0, 0], False
        self.sockets = [self.opened(name) for name in names]

    def opened(self, name):
        try:
            found = socket.socket(socket.AF_PACKET, socket.SOCK_RAW, 0)
            found.setsockopt(socket.SOL_SOCKET, TIMESTAMPS, 1)
            found.setsockopt(socket.SOL_SOCKET, FORCED_BUFFER, BUFFER)
            found.bind((name, ALL_PROTOCOLS))
            member = struct.pack("iHH8s", socket.if_nametoindex(name), PROMISCUOUS, 0, b"")
            found.setsockopt(PACKET_LEVEL, ADD_MEMBERSHIP, member)
        except OSError as error:
            raise Fault(f"{name}: not listened to: {error.strerror}", NOT_READ) from None
        found.setblocking(False)
        return found

    def packets(self):
        """The earlier of both heads, so that they stay in order also where much has come meanwhile."""
        poll, numbers, heads = select.poll(), itertools.count(1), [None, None]
        for one in self.sockets:
            poll.register(one, select.POLLIN)
        while True:
            for net in range(2):
                heads[net] = heads[net] or self.head(net)
            found = [one for one in heads if one]
            if not found and self.is_stopped:
                return
            if not found:
                poll.poll(100)
                continue
            time, net, octets = min(found)
            heads[net] = None
            yield Packet(next(numbers), net, time, octets, len(octets), ETHERNET)

    def head(self, net):
        """The next that was received, if there is one."""
        while True:
            try:
                octets, told, _, (name, _, kind, _, _) = self.sockets[net].recvmsg(LARGEST, 64)
            except BlockingIOError:
                return None
            except OSError as error:
                raise Fault(f"an interface went away: {error.strerror}", NOT_READ) from None
            self.taken[net] += 1
            if kind != OUTGOING:
                seconds, rest = TIME(told[0][2])
                return seconds * captures.SECOND + rest, net, octets

    def count_lost(self):
        """The kernel counts anew after each answer."""
        for net, one in enumerate(self.sockets):
            passed, lost = struct.unpack("II", one.getsockopt(PACKET_LEVEL, STATISTICS, 8))
            self.passed[net] += passed
            self.lost[net] += lost
        return self.lost

    def stop(self):
        """No packet is waited for any more."""
        self.is_stopped = True

    def close(self):
        """The packets that were lost, and how many weren't taken."""
        lost = self.count_lost()
        for one in self.sockets:
            one.close()
        return lost, max(0, sum(self.passed) - sum(lost) - sum(self.taken))


class Dumpcap:
    """Needs the rights of dumpcap alone, which goes on until it is ended. It tells at its end how many packets were lost."""
    patience = 400_000_000

    def __init__(self, names):
        self.told, self.taken, self.is_stopped = tempfile.TemporaryFile(), 0, False
        words = ["dumpcap", "-q", "-n", *QUEUE, *itertools.chain(*(("-i", name) for name in names)), "-w", "-"]
        try:
            self.process = subprocess.Popen(words, stdin=subprocess.DEVNULL, stdout=subprocess.PIPE, stderr=self.told,
                                            bufsize=1 << 20, start_new_session=True)
        except OSError as error:
            raise Fault(f"dumpcap: not run: {error.strerror}", NOT_READ) from None

    def packets(self):
        file = self.process.stdout
        magic = file.read(4)
        for one in captures.packets(file, magic) if magic else ():
            self.taken += one is not None
            yield one
        self.process.wait()
        if self.is_stopped:
            return
        self.told.seek(0)
        lines = [line for line in self.told.read().decode(errors="replace").splitlines() if line]
        raise Fault(f"dumpcap ended: {plain(' '.join(lines))}", NOT_READ)

    def counts(self, pattern):
        """Those that it tells at its end."""
        self.told.seek(0)
        return [int(count) for count in re.findall(pattern, self.told.read())]

    def count_lost(self):
        """None until it has ended."""
        found = self.counts(rb"received/dropped on interface .*?: \d+/(\d+)")
        return found if len(found) == 2 else None

    def stop(self):
        """It writes what it has, and ends."""
        self.is_stopped = True
        self.process.terminate()

    def close(self):
        """The packets that were lost, and how many weren't taken: of a pipe that is full dumpcap loses the packet that it
        writes when it is ended, and counts it as captured."""
        if self.process.poll() is None:
            self.process.kill()
        self.process.wait()
        return self.count_lost(), max(0, sum(self.counts(rb"Packets captured: (\d+)")) - self.taken)


WAYS = {"dumpcap": Dumpcap, "socket": Sockets}
