"""Plans: what a planner would say, in the words of words.py, and the bytes.

    python3 bench/plans/plans.py        prints each plan and its bytes

Most are about master key systems. Keys and doors are things, sets of them are relations in
which their things stand to themselves, and `opens` leads from keys to doors. Two small ones
come first; the others need five things or more, or there is none of up to eight.
"""

from functools import reduce

from words import (
    ALL,
    Plan,
    at_least,
    at_most,
    both,
    complete,
    firsts,
    for_every,
    for_some,
    if_then,
    is_set,
    leads,
    negation,
    no,
    often,
    one_to_one,
    relations,
    row,
    seconds,
    some,
    steps,
    strict_order,
    symmetric,
)


def keys_and_doors(keys, doors, opens):
    """Every thing is a key or a door, and none is both. Keys open doors."""
    return both(
        is_set(keys),
        is_set(doors),
        no(keys & doors),
        ALL <= keys | doors,
        leads(opens, keys, doors),
    )


def under_is_opening_less(keys, opens, under):
    """A key is under another if the other opens all that it opens; else not.

    Under is a strict order, so no two keys open the same doors.
    """

    def said(x, y):
        within = both(some(keys & x), seconds(x @ opens) <= seconds(y @ opens))
        return if_then(within, some(x @ (ALL | under) @ y))

    return both(
        strict_order(under),
        leads(under, keys, keys),
        ~under @ opens <= opens,
        for_every(lambda x: for_every(lambda y: said(x, y))),
    )


def two_keys_for_each(doors, opens, under):
    """For every door there are two keys, neither under the other."""
    return for_every(
        lambda door: if_then(
            some(doors & door), some((opens @ door @ ~opens) - (ALL | under | ~under))
        )
    )


def not_both_unless_all(doors, opens, here, there):
    """No key opens both unless it opens everything."""
    return for_every(
        lambda key: if_then(
            both(some(key @ opens @ here), some(key @ opens @ there)),
            doors <= seconds(key @ opens),
        )
    )


def some_key_for_all(doors, opens):
    """Some key opens everything."""
    return both(some(doors), for_some(lambda key: doors <= seconds(key @ opens)))


def no_key_for_all(doors, opens):
    """No key opens everything."""
    return for_every(lambda key: negation(doors <= seconds(key @ opens)))


def no_two_alike(keys, opens):
    """Every key opens some door, and no two open the same ones."""

    def said(x, y):
        mine, other = seconds(x @ opens), seconds(y @ opens)
        return if_then(both(some(keys & x), mine <= other, other <= mine), some(x & y))

    return for_every(lambda x: for_every(lambda y: said(x, y)))


def way_round():
    (leads_to,) = named = relations(1)
    return Plan(
        "way round",
        """Every thing leads somewhere, none to itself, and each back to itself in some number of
        steps. There is a thing.""",
        named,
        ALL <= firsts(leads_to),
        no(leads_to & ALL),
        ALL <= often(leads_to),
        some(ALL),
    )


def order_and_next():
    order, following = named = relations(2)
    return Plan(
        "order and next",
        """A strict order and its next: what is in order but not in order after order. Some pair
        is in order but not next.""",
        named,
        strict_order(order),
        following <= order - order @ order,
        order - order @ order <= following,
        some(order - following),
    )


def clinic(name, text, master):
    keys, doors, opens, under, pharmacy, store, night = named = relations(7)
    sentences = [
        keys_and_doors(keys, doors, opens),
        under_is_opening_less(keys, opens, under),
        two_keys_for_each(doors, opens, under),
        both(
            some(pharmacy),
            some(store),
            pharmacy | store <= doors,
            no(pharmacy & store),
            not_both_unless_all(doors, opens, pharmacy, store),
        ),
        both(
            night <= keys,
            no(night @ opens @ pharmacy),
            doors - pharmacy <= seconds(night @ opens),
        ),
    ]
    if master:
        sentences.append(some_key_for_all(doors, opens))
    return Plan(name, text, named, *sentences)


def clinic_in_graz():
    return clinic(
        "clinic in Graz",
        """Every thing is a key or a door, and keys open doors. A key is under another exactly
        if the other opens all that it opens. For every door there are two keys, neither under
        the other. There are a pharmacy and a store, and no key opens both unless it opens
        everything. No night key opens the pharmacy, and every other door has one. Some key
        opens everything. Five keys and four doors: nine things.""",
        master=True,
    )


def smaller_clinic():
    return clinic(
        "smaller clinic",
        """The clinic in Graz, but for the key that opens everything: four keys, four doors.""",
        master=False,
    )


def two_keys_a_door():
    keys, doors, opens, under = named = relations(4)
    return Plan(
        "two keys a door",
        """For every door there are two keys, neither under the other, and a key is under
        another exactly if the other opens all that it opens. There is a door.""",
        named,
        keys_and_doors(keys, doors, opens),
        under_is_opening_less(keys, opens, under),
        two_keys_for_each(doors, opens, under),
        some(doors),
    )


def pharmacy_and_store():
    keys, doors, opens, pharmacy, store = named = relations(5)

    def only(here, there):
        return firsts(opens @ here) - firsts(opens @ there)

    return Plan(
        "pharmacy and store",
        """No key opens both the pharmacy and the store unless it opens everything, and some key
        does. Whichever key is lost, one is left that opens the pharmacy but not the store, and
        one that opens the store but not the pharmacy.""",
        named,
        keys_and_doors(keys, doors, opens),
        pharmacy | store <= doors,
        no(pharmacy & store),
        not_both_unless_all(doors, opens, pharmacy, store),
        some_key_for_all(doors, opens),
        for_every(
            lambda lost: both(
                some(only(pharmacy, store) - lost), some(only(store, pharmacy) - lost)
            )
        ),
    )


def loss_of_a_key():
    keys, doors, opens, night = named = relations(4)
    return Plan(
        "loss of a key",
        """Whichever key is lost, every door can still be opened. No key opens everything, and no
        two keys open the same doors. Some night key opens two doors, and no door has two night
        keys.""",
        named,
        keys_and_doors(keys, doors, opens),
        for_every(lambda lost: doors <= seconds((keys - lost) @ opens)),
        no_key_for_all(doors, opens),
        no_two_alike(keys, opens),
        night <= keys,
        some((~opens @ night @ opens) - ALL),
        night @ opens @ ~opens @ night <= ALL,
    )


def loss_of_two_keys():
    keys, doors, opens = named = relations(3)
    return Plan(
        "loss of two keys",
        """Whichever two keys are lost, every door can still be opened. No key opens everything,
        and no two keys open the same doors. There is a door.""",
        named,
        keys_and_doors(keys, doors, opens),
        for_every(
            lambda lost: for_every(
                lambda other: doors <= seconds((keys - (lost | other)) @ opens)
            )
        ),
        no_key_for_all(doors, opens),
        no_two_alike(keys, opens),
        some(doors),
    )


def three_levels():
    under, directly = named = relations(2)
    return Plan(
        "three levels of keys",
        """Under is a strict order of keys, and what is over a key stands in a row. All keys but
        one are under that one. A key with keys under it has two directly under it, and a key
        with none has two over it.""",
        named,
        strict_order(under),
        directly <= under - under @ under,
        under - under @ under <= directly,
        ~under @ under <= ALL | under | ~under,
        for_some(lambda top: ALL <= top | firsts(under @ top)),
        for_every(
            lambda key: if_then(
                some(under @ key), some((directly @ key @ ~directly) - ALL)
            )
        ),
        ALL - seconds(under) <= firsts(under @ under),
    )


def pairing(count, word):
    pairs, order = named = relations(2)
    return Plan(
        f"pairing of {word}",
        f"""A pairing is its own turning, never of a thing with itself, never twice from one
        thing, and leaves none out. There are exactly {word} things: they stand in a row.""",
        named,
        symmetric(pairs),
        no(pairs & ALL),
        ~pairs @ pairs <= ALL,
        ALL <= firsts(pairs),
        row(order),
        at_least(count, order),
        at_most(count, order),
    )


def pairing_of_six():
    pairs, following = named = relations(2)
    return Plan(
        "pairing of six",
        """A pairing leaves none out of exactly six things, which are counted by what follows
        what: from one the others are reached, each by one way, and never the same again. No two
        that follow one another are a pair.""",
        named,
        symmetric(pairs),
        ~pairs @ pairs <= ALL,
        ALL <= firsts(pairs - ALL),
        one_to_one(following),
        no(often(following) & ALL),
        for_some(lambda x: ALL <= x | seconds(x @ often(following))),
        some(steps(following, 5)),
        no(steps(following, 6)),
        no(pairs & following),
    )


def keys_on_hooks():
    keys, hooks, hangs, order = named = relations(4)
    return Plan(
        "keys on hooks",
        """Five keys at least hang on three hooks at most, no two on the same hook. All things
        stand in a row, by which they are counted.""",
        named,
        is_set(keys),
        is_set(hooks),
        leads(hangs, keys, hooks),
        keys <= firsts(hangs),
        hangs @ ~hangs <= ALL,
        row(order),
        some(steps(keys @ order, 4) @ keys),
        no(steps(hooks @ order, 3) @ hooks),
    )


def apart(named):
    """No pair stands in two of the relations: any two differ in some digit of their numbers."""
    digits = range((len(named) - 1).bit_length())
    sides = [
        [union(r for at, r in enumerate(named) if at >> digit & 1 == side) for side in (0, 1)]
        for digit in digits
    ]
    return both(*(no(here & there) for here, there in sides))


def union(parts):
    return reduce(lambda a, b: a | b, parts)


def symbols(named):
    """Each symbol once in every row and in every column, and in each cell exactly one."""
    return both(
        *(both(one_to_one(symbol), ALL <= firsts(symbol)) for symbol in named),
        apart(named),
        for_every(lambda x: ALL <= firsts(union(named) @ x)),
        some(ALL),
    )


def latin_square():
    named = relations(6)
    return Plan(
        "latin square",
        """Six symbols, each once in every row and once in every column, and in each cell exactly
        one: relation s has the cells, row to column, in which symbol s stands.""",
        named,
        symbols(named),
    )


def mirrored_square():
    named = relations(8)
    return Plan(
        "mirrored latin square",
        """Eight symbols in a latin square that is its own mirror image, each in the diagonal.
        There is none, since a symbol stands as often above the diagonal as below it.""",
        named,
        symbols(named),
        *(both(symmetric(symbol), some(symbol & ALL)) for symbol in named),
    )


def seven_nights():
    named = relations(7)
    every = union(named)
    first, *others = named
    return Plan(
        "seven nights",
        """On each of seven nights the watchmen go in pairs, none is left out, and any two go
        together exactly once. Who goes with whom on the first night and on any other leads from
        each to each.""",
        named,
        *(both(symmetric(a), ~a @ a <= ALL, ALL <= firsts(a)) for a in named),
        apart(named),
        no(every & ALL),
        complete(every),
        for_every(lambda x: both(*(ALL <= firsts(often(first | a) @ x) for a in others))),
        some(ALL),
    )


def two_colours_of_six():
    red, blue = named = relations(2)
    return Plan(
        "two colours of six",
        """Any two of at least six keys, in a row, have a red or a blue tag in common, and no
        three the same.""",
        named,
        row(red | blue),
        no(red & blue),
        no(red @ red & red),
        no(blue @ blue & blue),
        at_least(6, red | blue),
    )


def two_colours_of_eight():
    red, blue = named = relations(2)

    def no_three_after(x):
        after = seconds(x @ blue)
        return no((after @ blue @ after @ blue @ after) & blue)

    return Plan(
        "two colours of eight",
        """Any two of at least eight keys, in a row, have a red or a blue tag in common, no three
        are red and no four are blue.""",
        named,
        row(red | blue),
        no(red & blue),
        no(red @ red & red),
        for_every(no_three_after),
        at_least(8, red | blue),
    )


def tournament():
    (beats,) = named = relations(1)
    return Plan(
        "tournament",
        """Of any two watchmen one beats the other, and for any two there is one who beats
        both.""",
        named,
        no(beats & ~beats),
        complete(beats),
        for_every(lambda x: ALL <= seconds(firsts(beats @ x) @ beats)),
        some(ALL),
    )


def seven_offices():
    (opens,) = named = relations(1)

    def shares_one(x):
        mine = seconds(x @ opens)
        shared = mine @ ~opens @ (ALL - x) @ opens @ mine
        return both(ALL <= firsts(opens @ mine), shared <= ALL)

    return Plan(
        "seven offices",
        """Each office has a key of its own number. Any two keys have exactly one door in common,
        and every key opens three doors at least.""",
        named,
        for_every(shares_one),
        for_every(
            lambda x: for_every(
                lambda y: for_every(lambda z: negation(seconds(x @ opens) <= y | z))
            )
        ),
        some(ALL),
    )


def corridors():
    (joined,) = named = relations(1)

    def one_way_round(x):
        near = seconds(x @ joined)
        return near @ joined @ (ALL - x) @ joined @ near <= ALL

    def has_three(x):
        return for_every(
            lambda y: some(((ALL - y) @ joined @ x @ joined @ (ALL - y)) - ALL)
        )

    return Plan(
        "corridors",
        """Corridors join rooms, each room to any other in two steps at most, with no way round
        by three rooms or by four. No room is joined to all others, and some room to three.
        The first has ten rooms.""",
        named,
        symmetric(joined),
        no(joined & ALL),
        no(joined @ joined & joined),
        for_every(one_way_round),
        for_every(lambda x: ALL <= firsts((ALL | joined | joined @ joined) @ x)),
        for_every(lambda x: negation(ALL <= x | firsts(joined @ x))),
        for_some(has_three),
    )


def corridors_one_way():
    (leads_to,) = named = relations(1)

    def still_reached(shut, x):
        left = ALL - shut
        return if_then(no(shut & x), left <= seconds(x @ often(left @ leads_to @ left)))

    return Plan(
        "corridors one way",
        """Corridors lead one way, and by no three of them back to where one was. Whichever room
        is shut, from each other room all others are reached, and itself.""",
        named,
        no(leads_to & ~leads_to),
        no(leads_to @ leads_to & ~leads_to),
        for_every(lambda shut: for_every(lambda x: still_reached(shut, x))),
        some(leads_to),
    )


def five_keys():
    keys, doors, opens = named = relations(3)

    def four(w, x, y, z):
        return negation(keys <= w | x | y | z)

    return Plan(
        "five keys",
        """There are five keys at least, no two open the same doors, and some key opens
        everything.""",
        named,
        keys_and_doors(keys, doors, opens),
        for_every(
            lambda w: for_every(
                lambda x: for_every(lambda y: for_every(lambda z: four(w, x, y, z)))
            )
        ),
        no_two_alike(keys, opens),
        some_key_for_all(doors, opens),
    )


PLANS = [
    way_round(),
    order_and_next(),
    clinic_in_graz(),
    smaller_clinic(),
    two_keys_a_door(),
    pharmacy_and_store(),
    loss_of_a_key(),
    loss_of_two_keys(),
    three_levels(),
    five_keys(),
    keys_on_hooks(),
    pairing(5, "five"),
    pairing_of_six(),
    pairing(7, "seven"),
    two_colours_of_six(),
    two_colours_of_eight(),
    tournament(),
    seven_offices(),
    latin_square(),
    mirrored_square(),
    seven_nights(),
    corridors(),
    corridors_one_way(),
]


# Pictures of more things the call is not asked for.
MOST_THINGS = 8


class Question:
    """What is asked: a plan's name and bytes."""

    def __init__(self, name, data):
        self.name = name
        self.data = data


def questions():
    """Each plan, and each of several relations once more with these numbered the other way."""
    for plan in PLANS:
        yield Question(plan.name, plan.bytes())
        if len(plan.relations) > 1:
            yield Question(f"{plan.name}, renumbered", plan.renumbered())


def main():
    for plan in PLANS:
        print(f"{plan.name}: {' '.join(plan.text.split())}")
        print(f"  {' '.join(map(str, plan.bytes()))}")


if __name__ == "__main__":
    main()
