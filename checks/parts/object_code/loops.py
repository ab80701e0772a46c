"""Which row of the page each loop is, by the file that says so: a loop is named by its place among the function's,
and its size."""
from parts.object_code.rules import most_of


def shapes_of(flow):
    """The loops of a function, each with its place, `2.1` for the first within the second, and how many instructions
    it has."""
    def named(loops, before):
        for number, loop in enumerate(loops, 1):
            yield loop, f"{before}{number} of {len(loop.places)}"
            yield from named(loop.inner, f"{before}{number}.")
    return dict(named(flow.loops(), ""))


class Turns:
    """How often each loop takes a turn at most, by its row; and what is wrong with the rows."""

    def __init__(self, calls, rules, page):
        self.shapes = {function: shapes_of(flow) for function, flow in calls.flows.items()}
        self.rows = {(row.function, row.shape): row for row in rules.loops}
        self.used, self.problems = set(), []
        for row in rules.loops:
            most = [most_of(cells[1]) for cells in page if cells[0].replace("`", "").startswith(row.row)]
            if len(most) != 1:
                self.problems.append(f"{row.function} {row.shape}: the page has {len(most)} rows {row.row!r}")
            elif most[0] < row.count:
                self.problems.append(f"{row.function} {row.shape}: {row.count} turns, and its row says {most[0]}")

    def __call__(self, function, loop):
        shape = self.shapes[function][loop]
        self.used.add((function.name, shape))
        row = self.rows.get((function.name, shape))
        return row.count if row else 1

    def of(self, functions):
        """The loops of some functions, each with its row or None."""
        for function in functions:
            for loop, shape in self.shapes.get(function, {}).items():
                self.used.add((function.name, shape))
                yield function, shape, self.rows.get((function.name, shape))

    def needless(self):
        return sorted(self.rows.keys() - self.used)
