"""The first picture of a description by answer sets: gringo makes rules into ground ones,
clasp finds the least answer set. It shares nothing with the library but the meaning.

Each different part of a description becomes one predicate. Its arguments are the things
spoken of that it depends on, and, for a relation, the two things of a pair. The picture's bits
are free choices, one level of the minimum each, the first bit the weightiest.
"""

from processes import Run

# How clasp looks for the least: as it comes, and in another way.
USUAL = ["clasp", "--quiet=1,2,2"]
OTHER = [*USUAL, "--configuration=crafty", "--opt-strategy=usc"]


class Late(Exception):
    """The limit was reached."""


class Rules:
    """The rules of a description, the same for each number of things."""

    def __init__(self, description):
        self.description = description
        self.lines = []
        self.parts = {}
        root, _ = self.sentence(description.sentence, 0)
        self.lines.append(f":- not {root}.")

    def part(self, tree, write):
        """The predicate of a part, and which things it depends on; its rules but once."""
        if tree not in self.parts:
            name = f"p{len(self.parts)}"
            self.parts[tree] = None
            self.parts[tree] = name, write(name)
        return self.parts[tree]

    def relation(self, tree):
        return self.part(tree, lambda name: self.relation_rules(name, tree))

    def relation_rules(self, name, tree):
        if tree[0] == 0:
            self.rule(pair(name, ()), f"bit({tree[1]},I,J)")
            return ()
        if tree[0] == 1:
            x = thing(tree[1])
            self.rule(f"{name}({x},{x},{x})", f"thing({x})")
            return (tree[1],)
        if tree[0] == 2:
            self.rule(pair(name, (), "I", "I"), "thing(I)")
            return ()
        if tree[0] == 3:
            return ()
        parts = [self.relation(part) for part in tree[1:]]
        free = tuple(sorted({level for _, levels in parts for level in levels}))
        bound = [f"thing({thing(level)})" for level in free]
        here = pair(name, free)
        a = pair(*parts[0])
        if tree[0] == 4:
            self.rule(here, a, *bound)
            self.rule(here, pair(*parts[1]), *bound)
        elif tree[0] == 5:
            self.rule(here, a, pair(*parts[1]))
        elif tree[0] == 6:
            self.rule(here, a, f"not {pair(*parts[1])}", *bound)
        elif tree[0] == 7:
            self.rule(here, pair(*parts[0], "I", "K"), pair(*parts[1], "K", "J"))
        elif tree[0] == 8:
            self.rule(here, pair(*parts[0], "J", "I"))
        elif tree[0] == 9:
            self.rule(here, a)
            self.rule(here, pair(*parts[0], "I", "K"), pair(name, free, "K", "J"))
        elif tree[0] == 10:
            self.rule(pair(name, free, "I", "I"), a)
        return free

    def sentence(self, tree, spoken):
        """The atom of a sentence, and which things it depends on."""
        # The same tree speaks of another thing where 'for every' stands deeper.
        name, free = self.part(
            (tree, spoken), lambda name: self.sentence_rules(name, tree, spoken)
        )
        return atom(name, free), free

    def sentence_rules(self, name, tree, spoken):
        if tree[0] in (20, 21):
            parts = [self.relation(part) for part in tree[1:]]
            free = tuple(sorted({level for _, levels in parts for level in levels}))
        else:
            inner = spoken + 1 if tree[0] == 24 else spoken
            parts = [self.sentence(part, inner) for part in tree[1:]]
            levels = {level for _, levels in parts for level in levels}
            free = tuple(sorted(levels - {spoken} if tree[0] == 24 else levels))
        here = atom(name, free)
        bound = [f"thing({thing(level)})" for level in free]
        if tree[0] == 20:
            fails = atom(f"{name}fails", free)
            self.rule(fails, pair(*parts[0]), f"not {pair(*parts[1])}", *bound)
            self.rule(here, f"not {fails}", *bound)
        elif tree[0] == 21:
            self.rule(here, pair(*parts[0]), *bound)
        elif tree[0] == 22:
            self.rule(here, f"not {parts[0][0]}", *bound)
        elif tree[0] == 23:
            self.rule(here, parts[0][0], parts[1][0], *bound)
        elif tree[0] == 24:
            fails = atom(f"{name}fails", free)
            self.rule(fails, f"not {parts[0][0]}", f"thing({thing(spoken)})", *bound)
            self.rule(here, f"not {fails}", *bound)
        return free

    def rule(self, head, *body):
        self.lines.append(f"{head} :- {', '.join(body)}.")

    def program(self, things):
        relations = self.description.relations
        weight = f"{relations * things * things}-((R*{things}+I)*{things}+J)"
        return "\n".join(
            [
                f"thing(0..{things - 1}).",
                f"relation(0..{relations - 1}).",
                "{ bit(R,I,J) : relation(R), thing(I), thing(J) }.",
                f"#minimize {{ 1@{weight},R,I,J : bit(R,I,J) }}.",
                "#show bit/3.",
                *self.lines,
                "",
            ]
        )


def thing(level):
    return f"X{level}"


def atom(name, free):
    return f"{name}({','.join(map(thing, free))})" if free else name


def pair(name, free, i="I", j="J"):
    return f"{name}({','.join([*map(thing, free), i, j])})"


class Finder:
    """Finds first pictures within a limit of seconds, and adds up the user time of it."""

    def __init__(self, description, limit=float("inf"), clasp=USUAL):
        self.description = description
        self.rules = Rules(description)
        self.left = limit
        self.clasp = clasp
        self.user = 0.0

    def run(self, command, text):
        if self.left <= 0:
            raise Late
        run = Run(command, min(self.left, 1e6), text.encode())
        self.left -= run.wall
        self.user += run.user
        if run.late:
            raise Late
        # What clasp ends with says what it found: 10, 20 and 30 are answers.
        if run.code not in (0, 10, 20, 30):
            raise RuntimeError(f"{command[0]} ended with {run.code}: {run.errors}")
        return run.output

    def first_of_size(self, things):
        """The bits of the first picture of so many things, or None."""
        said = self.run(
            self.clasp, self.run(["gringo", "-Wnone"], self.rules.program(things))
        )
        if "UNSATISFIABLE" in said:
            return None
        bits = [0] * (self.description.relations * things * things)
        # Where there are no bits, there is nothing to make least.
        if ("OPTIMUM FOUND" if bits else "SATISFIABLE") not in said:
            raise RuntimeError(f"clasp says neither that there is none nor the least:\n{said}")
        lines = said.splitlines()
        last = max(at for at, line in enumerate(lines) if line.startswith("Answer:"))
        for word in lines[last + 1].split():
            r, i, j = map(int, word[len("bit(") : -1].split(","))
            bits[(r * things + i) * things + j] = 1
        if not self.description.is_of(things, bits):
            raise RuntimeError("clasp's picture is not of the description")
        return tuple(bits)

    def first(self, most):
        """The first picture of up to so many things: its things and its bits, or None."""
        for things in range(most + 1):
            bits = self.first_of_size(things)
            if bits is not None:
                return things, bits
        return None
