"""The words in which plans are written, and the bytes that they come to.

Relations: `a | b` is the one or the other, `a & b` the one and the other, `a - b` the one but
not the other, `a @ b` the one after the other, `~a` turned round, `often(a)` once or more
often, `firsts(a)` and `seconds(a)`, ALL each thing to itself, NOTHING.
Sentences: `a <= b` the one is within the other, `some(a)`, `no(a)`, `both(..)`, `either(..)`,
`if_then(a, b)`, `negation(a)`, and `for_every(lambda x: ..)`, in which x is a relation too: the
thing spoken of, to itself.
"""

from functools import reduce


class Relation:
    """A relation by its byte, its number where it has one, and its parts."""

    def __init__(self, byte, *parts, number=None):
        self.byte = byte
        self.parts = parts
        self.number = number

    def __or__(self, other):
        return Relation(4, self, other)

    def __and__(self, other):
        return Relation(5, self, other)

    def __sub__(self, other):
        return Relation(6, self, other)

    def __matmul__(self, other):
        return Relation(7, self, other)

    def __invert__(self):
        return Relation(8, self)

    def __le__(self, other):
        return Sentence(20, self, other)

    def bytes(self, spoken):
        """Its bytes, with the things spoken of, the newest last."""
        if self.byte == 1:
            return [1, spoken[::-1].index(self)]
        number = [] if self.number is None else [self.number]
        return [self.byte, *number, *(byte for part in self.parts for byte in part.bytes(spoken))]


class Sentence:
    """A sentence by its byte and its parts, and the thing that a 'for every' speaks of."""

    def __init__(self, byte, *parts, thing=None):
        self.byte = byte
        self.parts = parts
        self.thing = thing

    def bytes(self, spoken=()):
        if self.thing is not None:
            spoken = (*spoken, self.thing)
        return [self.byte, *(byte for part in self.parts for byte in part.bytes(spoken))]


ALL = Relation(2)
NOTHING = Relation(3)


def often(a):
    return Relation(9, a)


def firsts(a):
    return Relation(10, a)


def seconds(a):
    return firsts(~a)


def some(a):
    return Sentence(21, a)


def negation(sentence):
    # Not not is said by leaving both out.
    return sentence.parts[0] if sentence.byte == 22 else Sentence(22, sentence)


def no(a):
    return negation(some(a))


def both(*sentences):
    return reduce(lambda a, b: Sentence(23, a, b), sentences)


def either(*sentences):
    return negation(both(*map(negation, sentences)))


def if_then(a, b):
    return negation(both(a, negation(b)))


def for_every(say):
    thing = Relation(1)
    return Sentence(24, say(thing), thing=thing)


def for_some(say):
    return negation(for_every(lambda x: negation(say(x))))


def steps(a, count):
    """So many steps of a relation, one after the other."""
    return reduce(lambda b, c: b @ c, [a] * count)


# What people ask of relations.


def is_set(a):
    return a <= ALL


def leads(a, here, there):
    """A relation leads from things of one set only to things of another."""
    return a <= here @ a @ there


def symmetric(a):
    return a <= ~a


def strict_order(a):
    return both(a @ a <= a, no(a & ALL))


def one_to_one(a):
    """At most one to each, and each to at most one."""
    return both(a @ ~a <= ALL, ~a @ a <= ALL)


def complete(a):
    """Any two different things stand in it, one way or the other."""
    return for_every(lambda x: ALL <= x | firsts((a | ~a) @ x))


def row(a):
    """A strict order in which any two different things stand."""
    return both(strict_order(a), complete(a))


def at_least(count, a):
    """So many things at least stand in a row."""
    return some(steps(a, count - 1))


def at_most(count, a):
    return no(steps(a, count))


class Plan:
    """A description: its name, what a planner would say, its relations and its sentences."""

    def __init__(self, name, text, relations, *sentences):
        self.name = name
        self.text = text
        self.relations = relations
        self.sentence = both(*sentences)

    def bytes(self, order=None):
        """Its bytes, with the relations numbered as they come, or in another order."""
        for number, relation in enumerate(order or self.relations):
            relation.number = number
        return bytes([len(self.relations), *self.sentence.bytes()])

    def renumbered(self):
        """Its bytes with the relations numbered the other way round."""
        return self.bytes(self.relations[::-1])


def relations(count):
    return [Relation(0, number=number) for number in range(count)]
