"""Descriptions read from their bytes, and whether a picture is of one: a plain evaluator.

Nothing of words.py is used here, so that a plan's bytes have to say what the plan says.
A tree is a tuple of its byte and its parts. A thing spoken of is (1, level), where the one
spoken of first has level 0; so equal trees mean the same wherever they stand.
"""

from itertools import product

MOST_BYTES = 512
MOST_RELATIONS = 8
DEEPEST = 4

RELATION_PARTS = {2: 0, 3: 0, 4: 2, 5: 2, 6: 2, 7: 2, 8: 1, 9: 1, 10: 1}


class NoDescription(Exception):
    """The bytes are no description; says why."""


class Description:
    def __init__(self, data):
        self.data = bytes(data)
        if not 1 <= len(self.data) <= MOST_BYTES:
            raise NoDescription(f"{len(self.data)} bytes")
        self.relations = self.data[0]
        if not 1 <= self.relations <= MOST_RELATIONS:
            raise NoDescription(f"{self.relations} relations")
        self.at = 1
        self.depth = 0
        self.sentence = self.read_sentence(0)
        if self.at != len(self.data):
            raise NoDescription(f"bytes behind the sentence, from {self.at} on")

    def byte(self):
        if self.at == len(self.data):
            raise NoDescription("the bytes end within a part")
        self.at += 1
        return self.data[self.at - 1]

    def read_sentence(self, spoken):
        self.depth = max(self.depth, spoken)
        byte = self.byte()
        if byte == 20:
            return (20, self.read_relation(spoken), self.read_relation(spoken))
        if byte == 21:
            return (21, self.read_relation(spoken))
        if byte == 22:
            return (22, self.read_sentence(spoken))
        if byte == 23:
            return (23, self.read_sentence(spoken), self.read_sentence(spoken))
        if byte == 24 and spoken < DEEPEST:
            return (24, self.read_sentence(spoken + 1))
        raise NoDescription(f"byte {self.at - 1} is {byte}, which begins no sentence")

    def read_relation(self, spoken):
        byte = self.byte()
        if byte in (0, 1):
            number = self.byte()
            if number >= (self.relations if byte == 0 else spoken):
                raise NoDescription(f"byte {self.at - 1} is {number}, which names nothing")
            return (0, number) if byte == 0 else (1, spoken - 1 - number)
        if byte in RELATION_PARTS:
            return (byte, *(self.read_relation(spoken) for _ in range(RELATION_PARTS[byte])))
        raise NoDescription(f"byte {self.at - 1} is {byte}, which begins no relation")

    def is_of(self, things, bits):
        """Whether the picture of so many things with these bits is of the description."""
        size = things * things
        pairs = list(product(range(things), repeat=2))
        named = [
            {pair for pair, bit in zip(pairs, bits[r * size : (r + 1) * size]) if bit}
            for r in range(self.relations)
        ]
        return Picture(things, named).holds(self.sentence, ())


class Picture:
    """Relations as sets of pairs."""

    def __init__(self, things, named):
        self.things = range(things)
        self.named = named

    def value(self, tree, spoken):
        match tree:
            case (0, number):
                return self.named[number]
            case (1, level):
                return {(spoken[level], spoken[level])}
            case (2,):
                return {(i, i) for i in self.things}
            case (3,):
                return set()
            case (4, a, b):
                return self.value(a, spoken) | self.value(b, spoken)
            case (5, a, b):
                return self.value(a, spoken) & self.value(b, spoken)
            case (6, a, b):
                return self.value(a, spoken) - self.value(b, spoken)
            case (7, a, b):
                return after(self.value(a, spoken), self.value(b, spoken))
            case (8, a):
                return {(j, i) for i, j in self.value(a, spoken)}
            case (9, a):
                reached = step = self.value(a, spoken)
                while not (further := after(reached, step)) <= reached:
                    reached = reached | further
                return reached
            case (10, a):
                return {(i, i) for i, _ in self.value(a, spoken)}

    def holds(self, tree, spoken):
        match tree:
            case (20, a, b):
                return self.value(a, spoken) <= self.value(b, spoken)
            case (21, a):
                return bool(self.value(a, spoken))
            case (22, c):
                return not self.holds(c, spoken)
            case (23, c, d):
                return self.holds(c, spoken) and self.holds(d, spoken)
            case (24, c):
                return all(self.holds(c, (*spoken, i)) for i in self.things)


def after(a, b):
    return {(i, j) for i, k in a for l, j in b if k == l}


def first_by_trying(description, most):
    """The first picture by trying all: its things and its bits, or None."""
    for things in range(most + 1):
        for bits in product((0, 1), repeat=description.relations * things * things):
            if description.is_of(things, bits):
                return things, bits
    return None
