#!/usr/bin/env python3
"""Makes the formulas of the solver's benchmark as DIMACS files.

    python3 bench/formulas/make.py FOLDER

Pigeonholes, random 3-SAT near the threshold, parities, colourings and latin squares with
holes. Every machine makes the same files: the numbers come from a generator that stands
here, and each formula has a seed of its own.
"""

import sys
from pathlib import Path

MASK = (1 << 64) - 1


class Random:
    """Numbers that look random (splitmix64), the same for the same seed everywhere."""

    def __init__(self, seed):
        self.state = seed

    def word(self):
        self.state = (self.state + 0x9E3779B97F4A7C15) & MASK
        z = self.state
        z = ((z ^ (z >> 30)) * 0xBF58476D1CE4E5B9) & MASK
        z = ((z ^ (z >> 27)) * 0x94D049BB133111EB) & MASK
        return z ^ (z >> 31)

    def below(self, bound):
        return self.word() % bound

    def shuffled(self, items):
        items = list(items)
        for last in range(len(items) - 1, 0, -1):
            other = self.below(last + 1)
            items[last], items[other] = items[other], items[last]
        return items

    def distinct(self, count, bound):
        """So many different numbers below a bound, in the order in which they were met."""
        chosen = []
        while len(chosen) < count:
            number = self.below(bound)
            if number not in chosen:
                chosen.append(number)
        return chosen


class Formula:
    def __init__(self, variables=0):
        self.variables = variables
        self.clauses = []

    def variable(self):
        self.variables += 1
        return self.variables

    def clause(self, *literals):
        self.clauses.append(literals)

    def at_most_one(self, literals):
        for place, literal in enumerate(literals):
            for other in literals[:place]:
                self.clause(-literal, -other)

    def exactly_one(self, literals):
        self.clause(*literals)
        self.at_most_one(literals)

    def text(self):
        lines = [f"p cnf {self.variables} {len(self.clauses)}"]
        lines += [" ".join(map(str, clause)) + " 0" for clause in self.clauses]
        return "\n".join(lines) + "\n"


def pigeonhole(holes):
    """One pigeon more than there are holes, each in a hole, no two in the same."""
    formula = Formula((holes + 1) * holes)

    def sits(pigeon, hole):
        return pigeon * holes + hole + 1

    for pigeon in range(holes + 1):
        formula.clause(*(sits(pigeon, hole) for hole in range(holes)))
    for hole in range(holes):
        formula.at_most_one([sits(pigeon, hole) for pigeon in range(holes + 1)])
    return formula


def random_clauses(variables, seed):
    """Clauses of three different variables, 4.26 for each variable."""
    random = Random(seed)
    formula = Formula(variables)
    for _ in range(variables * 426 // 100):
        chosen = random.distinct(3, variables)
        formula.clause(*(x + 1 if random.below(2) else -x - 1 for x in chosen))
    return formula


def chain(formula, variables, odd):
    """That an odd (or an even) number of the variables is true, by a new variable a step."""
    sum_so_far = variables[0]
    for x in variables[1:]:
        y = formula.variable()
        formula.clause(-y, sum_so_far, x)
        formula.clause(-y, -sum_so_far, -x)
        formula.clause(y, -sum_so_far, x)
        formula.clause(y, sum_so_far, -x)
        sum_so_far = y
    formula.clause(sum_so_far if odd else -sum_so_far)


def parity_contradiction(variables, seed):
    """The same sum twice, in two orders: odd and even."""
    random = Random(seed)
    formula = Formula(variables)
    order = range(1, variables + 1)
    chain(formula, list(order), True)
    chain(formula, random.shuffled(order), False)
    return formula


def parity_sums(variables, sums, length, seed):
    """Sums of so many variables each, all as they come out in one hidden assignment."""
    random = Random(seed)
    formula = Formula(variables)
    hidden = [random.below(2) for _ in range(variables)]
    for _ in range(sums):
        chosen = random.distinct(length, variables)
        odd = sum(hidden[x] for x in chosen) % 2 == 1
        chain(formula, [x + 1 for x in chosen], odd)
    return formula


def colouring(nodes, edges, colours, seed):
    """A random graph coloured so that no edge joins two nodes of one colour."""
    random = Random(seed)
    formula = Formula(nodes * colours)
    joined = set()
    while len(joined) < edges:
        joined.add(tuple(sorted(random.distinct(2, nodes))))

    def has(node, colour):
        return node * colours + colour + 1

    for node in range(nodes):
        formula.clause(*(has(node, colour) for colour in range(colours)))
    for node, other in sorted(joined):
        for colour in range(colours):
            formula.clause(-has(node, colour), -has(other, colour))
    return formula


class Square(Formula):
    """A latin square: each symbol once in every row and once in every column."""

    def __init__(self, order):
        super().__init__(order**3)
        self.order = order
        numbers = range(order)
        for a in numbers:
            for b in numbers:
                self.exactly_one([self.holds(a, b, c) for c in numbers])
                self.exactly_one([self.holds(a, c, b) for c in numbers])
                self.exactly_one([self.holds(c, a, b) for c in numbers])

    def holds(self, row, column, symbol):
        return (row * self.order + column) * self.order + symbol + 1


def latin_square(order, holes, seed):
    """A latin square of which so many cells are left to fill."""
    random = Random(seed)
    rows, columns, symbols = (random.shuffled(range(order)) for _ in range(3))
    square = Square(order)
    cells = random.shuffled((row, column) for row in range(order) for column in range(order))
    for row, column in cells[holes:]:
        symbol = symbols[(rows[row] + columns[column]) % order]
        square.clause(square.holds(row, column, symbol))
    return square


def mirrored_square(order):
    """A latin square that is its own mirror image, with each symbol once in the diagonal.

    There is none of even order: a symbol stands as often above the diagonal as below it.
    """
    square = Square(order)
    for row in range(order):
        square.clause(square.holds(row, row, row))
        for column in range(row):
            for symbol in range(order):
                here = square.holds(row, column, symbol)
                there = square.holds(column, row, symbol)
                square.clause(-here, there)
                square.clause(here, -there)
    return square


# Two seeds without a model and two with one, for each number of variables.
RANDOM_SEEDS = {
    100: (0, 1, 2, 9),
    125: (1, 7, 2, 8),
    150: (3, 9, 1, 6),
    175: (3, 4, 8, 9),
    200: (0, 3, 1, 7),
}


def formulas():
    """The benchmark: names and formulas, in the order of the table."""
    for holes in (7, 8, 9):
        yield f"pigeonhole-{holes}", pigeonhole(holes)
    for variables, seeds in RANDOM_SEEDS.items():
        for seed in seeds:
            yield f"random-{variables}-{seed}", random_clauses(variables, seed)
    for variables in (18, 22, 26):
        yield f"parity-{variables}", parity_contradiction(variables, variables)
    for seed in (1, 2):
        yield f"parity-sums-400-{seed}", parity_sums(400, 360, 3, seed)
    for nodes, edges, colours, seed in (
        (200, 460, 3, 1),
        (300, 690, 3, 1),
        (400, 930, 3, 1),
        (500, 1100, 3, 1),
        (100, 440, 4, 1),
        (120, 500, 4, 3),
        (120, 520, 4, 3),
        (200, 820, 4, 2),
    ):
        yield f"colouring-{nodes}-{colours}-{edges}", colouring(nodes, edges, colours, seed)
    for order, holes in ((16, 130), (18, 160), (20, 190)):
        yield f"latin-{order}-{holes}", latin_square(order, holes, order)
    for order in (12, 14):
        yield f"latin-mirrored-{order}", mirrored_square(order)


def write(folder):
    """Writes them all, and gives the paths in the order of the table."""
    folder.mkdir(parents=True, exist_ok=True)
    paths = []
    for name, formula in formulas():
        path = folder / f"{name}.cnf"
        path.write_text(formula.text())
        paths.append(path)
    return paths


if __name__ == "__main__":
    if len(sys.argv) != 2:
        sys.exit("usage: make.py FOLDER")
    print(f"{len(write(Path(sys.argv[1])))} formulas")
