#!/usr/bin/env python3
"""Brings the names of this repository's definitions and lemmas to today's spelling.

usage: python3 tools/respell.py [--list]     at the top of the repository, once, after the toolchain's port.py

Functions, lemmas, fields and constructors are in snake case, types and facts in upper camel case. Names that Rattle
makes (goals, steps) and names of functions and types in src/ keep theirs. It writes specs/, proofs/, the clauses of
src/ and the must-fail edits, and names in backquotes of README.md and docs/. With --list it only prints the names.
"""

import collections
import glob
import re
import sys

CHAR = r"[\w'′-]"
HEAD = re.compile(r"^(?P<indent>\s*)(?:(?:abbrev|unfoldable|pub|data|record|erased|private)\s+)*(?P<name>[^\s(){}\[\];,.@\"◌]+)\s*(?P<rest>[({:].*)$")
SPECIAL = {
    # would fall together with words of the library
    "Is-true": "IsTrueUnder",
    "Is-false": "IsFalseUnder",
    "bit-and": "bit_of_and",
    "bit-or": "bit_of_or",
    "bit-xor": "bit_of_xor",
    # would fall together with one another
    "First-of": "FirstWith",
    "Too-few": "TooFewWords",
    "bit-of": "bit_is",
    "combine-cost": "combine_costs",
    "transform-cost": "transform_costs",
}


def read(path):
    with open(path, encoding="utf-8") as f:
        return f.read()


def is_answer(path):
    return re.search(r"/(Answers|Invariants|Choices|Proof)\.antt$", path) is not None


def statements(path, text):
    """The definitions of a file: name, and its signature as one line."""
    lines = text.split("\n")
    for at, line in enumerate(lines):
        if line.lstrip().startswith("--") or re.match(r"\s*(use|pub use|pub mod|mod|ghost)\b", line):
            continue
        m = HEAD.match(line)
        if not m:
            continue
        kind = line.strip().split()
        if kind[0] == "record" and kind[1:2] and kind[1][0] == "{":
            continue
        declares = any(w in ("record", "data") for w in kind[:3])
        signature = m.group("rest")
        for more in lines[at + 1 :]:
            if not more.startswith(m.group("indent") + "  ") or declares:
                break
            signature += " " + more.strip()
        if not declares:
            depth, colon = 0, None
            for i, c in enumerate(signature):
                if c in "({[":
                    depth += 1
                elif c in ")}]":
                    depth -= 1
                elif c == ":" and depth == 0 and (i == 0 or signature[i - 1] in " )}"):
                    colon = i
                    break
            if colon is None:
                continue
            if "=" in signature[:colon]:
                continue
            signature = signature[colon + 1 :].strip()
        yield m.group("name"), declares, signature


def parts(name):
    name = name.replace("getD", "get_or")
    name = re.sub(r"(?<=[a-z0-9])(?=[A-Z])", "_", name)
    return [p for p in re.split(r"[-_]", name) if p]


def camel(name):
    return "".join(p[0].upper() + p[1:] for p in re.split(r"[-_]", name) if p)


def snake(name):
    return "_".join(p[0].lower() + p[1:] if len(p) < 2 or not p[1].isupper() else p for p in parts(name))


def table():
    names = collections.defaultdict(set)
    for path in sorted(glob.glob("crates/*/specs/**/*.antt", recursive=True) + glob.glob("crates/*/proofs/**/*.antt", recursive=True)):
        for name, declares, signature in statements(path, read(path)):
            if is_answer(path) and re.match(r"(goal|Rattle)\.", signature):
                continue
            names[name].add(declares or re.search(r"Type 0$", signature.split(" where")[0].rstrip()) is not None)
    return names


def renames(names):
    out = {}
    for name, kinds in names.items():
        if name in SPECIAL:
            out[name] = SPECIAL[name]
        elif name[0].isupper() or True in kinds:
            new = camel(name) if "-" in name or "_" in name or name[0].islower() else name
            if new != name:
                out[name] = new
        else:
            new = snake(name)
            if new != name:
                out[name] = new
    return out


def main():
    names = table()
    new = renames(names)
    clash = collections.defaultdict(list)
    for name in names:
        clash[new.get(name, name)].append(name)
    for to, olds in sorted(clash.items()):
        if len(olds) > 1:
            print("falls together:", to, "from", " ".join(sorted(olds)))
    if "--list" in sys.argv:
        for name in sorted(new):
            print(name, new[name])
        return
    token = re.compile(r"(?<!" + CHAR + r")(" + "|".join(re.escape(n) for n in sorted(new, key=len, reverse=True)) + r")(?!" + CHAR + r")")
    word = re.compile(r"(?<!" + CHAR + r")(" + "|".join(re.escape(n) for n in sorted(set(new.values()), key=len, reverse=True)) + r")(?!" + CHAR + r")")

    def turn(text):
        return token.sub(lambda m: new[m.group(1)], text)

    texts = glob.glob("crates/*/specs/**/*.antt", recursive=True) + glob.glob("crates/*/proofs/**/*.antt", recursive=True)
    sources = glob.glob("crates/*/src/**/*.rt", recursive=True)
    edits = glob.glob("crates/*/must-fail/*.edit")
    pages = ["README.md"] + glob.glob("docs/*.md")
    for path in sorted(texts + sources + edits + pages):
        old = read(path)
        if path in pages:
            text = re.sub(r"`[^`\n]+`", lambda m: turn(m.group(0)), old)
        elif path in sources:
            # strings keep their text
            text = "".join(p if i % 2 else turn(p) for i, p in enumerate(re.split(r'("(?:[^"\\]|\\.)*")', old)))
        elif path in edits:
            text = turn(old)
        else:
            # a goal or a step of Rattle's keeps its name
            made = {m.group(1) for m in re.finditer(r"(?m)^(?:abbrev |unfoldable )?(?:pub )?(\S+) : (?:goal|Rattle)\.", old)} if is_answer(path) else set()
            text = token.sub(lambda m: m.group(1) if m.group(1) in made else new[m.group(1)], old)
        before = set(word.findall(old))
        for name in sorted(before):
            froms = [o for o in new if new[o] == name and re.search(r"(?<!" + CHAR + ")" + re.escape(o) + "(?!" + CHAR + ")", old)]
            if froms:
                print("look:", path, "has", name, "already, and", " ".join(froms))
        if text != old:
            with open(path, "w", encoding="utf-8") as f:
                f.write(text)


main()
