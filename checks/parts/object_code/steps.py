"""The most instructions that a call of a function can take, from its ways of control and how often each loop is
entered anew.

What a call outside of the archive takes isn't in it.
"""
from parts.object_code.flow import Unfollowed


class Steps:
    """The most instructions of each function, with all that it calls in the archive.

    `turns` gives how often a loop of a function begins a turn at most each time that it is come to.
    """

    def __init__(self, calls, turns):
        self.calls, self.turns, self.known, self.open = calls, turns, {}, set()

    def of(self, function):
        if not hasattr(function, "name"):
            return 0
        if function not in self.known:
            if function in self.open or function not in self.calls.flows:
                raise Unfollowed(f"{function.name}: its steps have no bound")
            self.open.add(function)
            self.known[function] = self.of_flow(function, self.calls.flows[function])
            self.open.discard(function)
        return self.known[function]

    def of_flow(self, function, flow):
        weights = {at: 1 for at in flow.reached}
        for call in self.calls.calls[function]:
            weights[call.instruction.at] += self.of(call.to)
        ways = self.ways(function, flow.reached, flow.follows, flow.loops(), weights, [function.first])
        return max(ways.values())

    def ways(self, function, places, follows, loops, weights, heads):
        """The most steps from the heads of a part of a function to each of its places that is come to, that place's own
        included.

        The part has no circle but the loops. In one of these each turn takes the longest way back to its head, but
        the last.
        """
        loop_of = {at: loop for loop in loops for at in loop.places}
        found, before = {}, dict.fromkeys(heads, 0)
        for node in in_order(places, follows, loop_of):
            within = (node,) if isinstance(node, int) else node.places
            found |= self.of_node(function, node, before, weights, follows)
            for at in within:
                for to in follows[at] if at in found else ():
                    if to not in within:
                        before[to] = max(before.get(to, 0), found[at])
        return found

    def of_node(self, function, node, before, weights, follows):
        """The most steps to a place, or to each of a loop, if one comes to it."""
        heads = [at for at in ((node,) if isinstance(node, int) else node.heads) if at in before]
        if not heads:
            return {}
        start = max(before[at] for at in heads)
        if isinstance(node, int):
            return {node: start + weights[node]}
        return {at: start + steps for at, steps in self.turn(function, node, follows, weights).items()}

    def turn(self, function, loop, follows, weights):
        """The most steps from the first time that a loop is come to, to each of its places; none if it never is."""
        turns = self.turns(function, loop)
        if not turns:
            return {}
        others = loop.places - set(loop.heads)
        within = {at: tuple(to for to in follows[at] if to in others) for at in loop.places}
        ways = self.ways(function, loop.places, within, loop.inner, weights, loop.heads)
        back = max((ways[at] for at in ways if any(to in loop.heads for to in follows[at])), default=0)
        return {at: steps + (turns - 1) * back for at, steps in ways.items()}


def in_order(places, follows, loop_of):
    """The places and loops of a part of a function, each after all that lead to it."""
    node_of = {at: loop_of.get(at, at) for at in places}
    leads = {node: set() for node in node_of.values()}
    for at in places:
        leads[node_of[at]] |= {node_of[to] for to in follows[at] if to in node_of and node_of[to] != node_of[at]}
    waits = dict.fromkeys(leads, 0)
    for to in leads.values():
        for node in to:
            waits[node] += 1
    ready = [node for node, count in waits.items() if not count]
    while ready:
        node = ready.pop()
        yield node
        for to in leads[node]:
            waits[to] -= 1
            if not waits[to]:
                ready.append(to)
