"""A receiver and the partition that reads and takes its ports, fed by a stream."""
from workbench import settings, stream
from workbench.faults import WRONG_WORDS, Fault
from workbench.partitions import Partition


class Station:
    """The receiver of a configuration, which is read before any capture. With `takes` partitions read and take; else
    nobody does, as in the player. Brief replies have neither the place of the frame nor the number of the message."""

    def __init__(self, path, takes=True, tell=None, is_brief=True):
        self.octets, self.own, self.partition = settings.read(path), {}, None
        self.receiver = settings.receiver_of(path, self.octets)
        self.receive = self.receiver.receive_briefly if is_brief else self.receiver.receive
        if takes:
            self.own, periods = settings.own_keys(path, self.octets)
            self.partition = Partition(self.receiver, periods, tell)
        self.clock, self.latest = stream.Clock(), 0

    def take(self, one):
        """The time of an arrival in microseconds since the first, and its reply; none if it was left out."""
        time, net, _, octets, left_out, _ = one
        if left_out:
            return self.clock.since(time), None
        partition, now = self.partition, self.clock.of(net, time)
        self.latest = max(self.latest, now)
        if partition and now > partition.due[0][0]:
            partition.wake(now - 1)
        reply = self.receive(net, now, octets)
        if partition and reply.port:
            partition.came(now, reply)
        return now, reply

    def seen(self, found):
        """Each arrival of a stream with its time and its reply."""
        self.clock = found.clock
        for one in found:
            now, reply = self.take(one)
            yield one, now, reply


def of_link(given, played, found):
    """What a stream's arrivals came to, all or those of the link that a command line names."""
    if given.link is None:
        return played.seen(found)
    if not any(link.vl == given.link for link in played.receiver.links):
        raise Fault(f"{given.config} has no link {given.link}", WRONG_WORDS)
    return (seen for seen in played.seen(found) if seen[2] and seen[2].vl == given.link)
