#!/usr/bin/env python3
"""Respells the repository's own words of specs/ and proofs/: words and lemmas in snake case, types in camel case.

usage: python3 tools/respell.py            in the repository, once, after the kit's port.py
       python3 tools/respell.py --names    prints each old name and its new one, and changes nothing

What the specs/ and proofs/ of the crates define decides which names are turned. A name is turned where it stands as a whole name: in each .antt
file and in the clauses, ghost items and attributes of each .rt file. Comments, strings and the code of .rt files stay, and so do must-fail edits,
which are all of code. Functions of src/, what the check makes (goals, invariants) and the kit's names are not ours to turn, and stay.
"""
import glob
import os
import re
import sys

# An own name that would fall together with another one gets a name of its own here.
BY_HAND = {
    "bit-xor": "bit_of_xor",
    "by_code": "by_code_is",
    "came-on": "came_on_is",
    "held-or": "held_or_is",
    "jis-memory": "jis_memory_is",
    "one_more": "one_more_is",
    "up-to": "up_to_is",
}

NAME = r"[^\W\d_·](?:[\w'₀-₉-]*[\w'₀-₉])?"
TOKEN = re.compile(r"(?<![\w'·-])" + NAME)
DEFINED = re.compile(r"^\s*(?:(?:abbrev|unfoldable|pub|data|record|module) )*(" + NAME + r")(?: (?:\{[^{}]*\}|\([^()]*\)))* : ")
HEADED = re.compile(r"^\s*(?:pub )?(?:data|record) (" + NAME + r")\b")
# in proofs/ the check says the names of these two files: goals, invariants, measures
GOALS = ("Answers.antt", "Invariants.antt")


def own_names(files):
    names = set()
    for path in files:
        if os.path.basename(path) in GOALS and os.sep + "proofs" + os.sep in path:
            continue
        with open(path, encoding="utf-8") as f:
            for line in f:
                for m in (DEFINED.match(line), HEADED.match(line)):
                    if m:
                        names.add(m.group(1))
    return names


def snake(name):
    name = name.replace("-", "_")
    name = re.sub(r"(?<=[a-z0-9])([A-Z])(?=[A-Z])", r"_\1", name)
    name = re.sub(r"(?<=[a-z0-9])([A-Z])", r"_\1", name)
    name = re.sub(r"(?<=[A-Z])([A-Z])(?=[a-z])", r"_\1", name)
    return name.lower()


def camel(name):
    return "".join(part[:1].upper() + part[1:] for part in name.split("-"))


def turned(name):
    if name in BY_HAND:
        return BY_HAND[name]
    return camel(name) if name[0].isupper() else snake(name)


def mapping(root):
    files = glob.glob(os.path.join(root, "crates/*/specs/**/*.antt"), recursive=True) + glob.glob(os.path.join(root, "crates/*/proofs/**/*.antt"), recursive=True)
    return {n: turned(n) for n in sorted(own_names(files)) if turned(n) != n}


def respelled(text, names):
    return TOKEN.sub(lambda m: names.get(m.group(0), m.group(0)), text)


def antt(text, names):
    out = []
    for line in text.split("\n"):
        code, dashes, comment = line.partition("-- ") if not line.lstrip().startswith("--") else ("", "", line)
        out.append(respelled(code, names) + dashes + comment)
    return "\n".join(out)


CLAUSE = re.compile(r"^\s*(?:ghost\b|law\b|requires\b|ensures\b|requires\*|ensures\*|#\[tactic)")


def rust(text, names):
    """Clauses and ghost items run from their first line to the one on which their brackets close."""
    out, depth, inside = [], 0, False
    for line in text.split("\n"):
        if not inside and CLAUSE.match(line):
            inside, depth = True, 0
        if inside:
            out.append(respelled(line, names))
            depth += len(re.findall(r"[{(\[]", line)) - len(re.findall(r"[})\]]", line))
            inside = depth > 0
        else:
            out.append(line)
    return "\n".join(out)


def main():
    root = os.path.dirname(os.path.dirname(os.path.realpath(__file__)))
    names = mapping(root)
    if "--names" in sys.argv:
        for old, new in names.items():
            print(old, new)
        return
    for path in sorted(glob.glob(os.path.join(root, "crates/**/*"), recursive=True)):
        if os.sep + "out" + os.sep in path or not path.endswith((".antt", ".rt")):
            continue
        with open(path, encoding="utf-8") as f:
            old = f.read()
        new = (antt if path.endswith(".antt") else rust)(old, names)
        if new != old:
            with open(path, "w", encoding="utf-8") as f:
                f.write(new)


if __name__ == "__main__":
    main()
