"""The bound of a call's instructions is never below its longest way, found by going all ways, in graphs by chance."""
import random
from functools import cache

import conftest  # noqa: F401
import pytest

from parts.object_code.flow import each_loop, loops_among
from parts.object_code.steps import Steps


def graph_of(r):
    """The places that are come to from the first, and what follows each: mostly the next, and now and then any."""
    count = r.randint(2, 9)
    follows = {}
    for at in range(count):
        nexts = {at + 1} if at + 1 < count and r.random() < 0.9 else set()
        follows[at] = tuple(sorted(nexts | ({r.randrange(count)} if r.random() < 0.45 else set())))
    seen, waiting = set(), [0]
    while waiting:
        at = waiting.pop()
        waiting += [] if at in seen else follows[at]
        seen.add(at)
    return seen, follows


def longest_way(follows, turns, weights):
    """The heaviest of all ways from the first place, on which no loop takes more turns than it may each time that it is
    come to."""
    loops = list(turns)

    def begun(loop, at, to, count):
        """How many turns of a loop have begun, after a step."""
        return 0 if to not in loop.places else (count if at in loop.places else 0) + (to in loop.heads)

    @cache
    def go(at, counts):
        most = 0
        for to in follows[at]:
            after = tuple(begun(loop, at, to, count) for loop, count in zip(loops, counts))
            if all(count <= turns[loop] for loop, count in zip(loops, after)):
                most = max(most, go(to, after))
        return weights[at] + most

    return go(0, tuple(int(0 in loop.heads) for loop in loops))


@pytest.mark.parametrize("seed", range(20))
def test_no_way_is_longer_than_the_bound(seed):
    r = random.Random(seed)
    for _ in range(50):
        places, follows = graph_of(r)
        loops = loops_among(places, follows)
        turns = {loop: r.randint(1, 3) for loop, _ in each_loop(loops)}
        weights = {at: r.randint(1, 4) for at in follows}
        steps = Steps(None, lambda function, loop: turns[loop])
        bound = max(steps.ways(None, places, follows, loops, weights, [0]).values())
        assert bound >= longest_way(follows, turns, weights), follows
