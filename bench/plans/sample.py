"""Random descriptions, the same in every run."""

from make import Random


# There is a thing that is not all; there are things, and no two of them are all.
TWO_AT_LEAST = [22, 24, 20, 2, 1, 0]
THREE_AT_LEAST = [23, 21, 2, 24, 24, 22, 20, 2, 4, 1, 0, 1, 1]


def description(random, relations):
    """The bytes of one: two sentences, and mostly that something stands in a relation or that
    there are several things, since much holds of nothing."""
    wishes = [sentence(random, relations, 0, 3 + random.below(8)) for _ in range(2)]
    demand = [21, *relation(random, relations, 0, 1 + random.below(5))]
    kind = random.below(8)
    if kind == 0:
        return bytes([relations, 23, *wishes[0], *wishes[1]])
    if kind < 4:
        demand = [23, *TWO_AT_LEAST, *demand]
    elif kind < 6:
        demand = THREE_AT_LEAST
    return bytes([relations, 23, *wishes[0], 23, *wishes[1], *demand])


def sentence(random, relations, spoken, size):
    kind = random.below(8)
    if size > 3 and kind == 0:
        return [22, *sentence(random, relations, spoken, size - 1)]
    if size > 5 and kind in (1, 2):
        half = size // 2
        parts = [sentence(random, relations, spoken, part) for part in (half, size - half)]
        return [23, *parts[0], *parts[1]]
    if size > 3 and kind in (3, 4, 5) and spoken < 3:
        return [24, *sentence(random, relations, spoken + 1, size - 1)]
    if kind in (6, 7):
        some = [21, *relation(random, relations, spoken, size - 1)]
        return some if random.below(2) else [22, *some]
    half = (size + 1) // 2
    return [
        20,
        *relation(random, relations, spoken, half),
        *relation(random, relations, spoken, half),
    ]


def relation(random, relations, spoken, size):
    if size <= 1:
        kind = random.below(12)
        if kind < 6:
            return [0, random.below(relations)]
        if kind < 9 and spoken:
            return [1, random.below(spoken)]
        return [3] if kind == 11 else [2]
    kind = random.below(7)
    if kind < 3:
        return [8 + kind, *relation(random, relations, spoken, size - 1)]
    half = size // 2
    return [
        kind + 1,
        *relation(random, relations, spoken, half),
        *relation(random, relations, spoken, size - half),
    ]
