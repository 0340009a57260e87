#!/usr/bin/env python3
"""Spells the repository's own definitions and lemmas as today's Rattle does: words in snake case, types in camel case.

usage: python3 tools/snake_names.py [--dry]      at the top of the repository, once, after the toolchain's own scripts

A name is turned where a file of specs/ or proofs/ declares it, and then wherever it stands as a whole word in a file of specs/ or
proofs/, or in the ghost text and comments of a file of src/. Functions of src/, strings, inputs and outputs keep their names: none
of them has a dash or a capital within. A dash stays where it joins two names, as in `member-and`.
"""

import os
import re
import sys

# heads and tails of lemmas between which a dash stays: definitions, and the operators that they meet
HEADS = {"member", "bit", "sum", "sum_over", "size_of", "count", "numerator", "length", "volume"}
TAILS = {"and", "or", "xor", "not", "zero", "append", "minus"}

# names that the rules below would not give
BY_HAND = {
    "bit_not": "bit-not",  # the toolchain's script took this lemma for the library's word
    "Bound-between": "BoundBetween",
    "Bound-is-sustainable": "BoundIsSustainable",
    "Bound-is-the-largest": "BoundIsTheLargest",
    "numeratorOf": "numerator_of",
    "size-zero": "size_of-zero",
    "size-or": "size_of-or",
    "size-sum": "size_of_sum",
    "is-ahead": "is_ahead",
    "is-beside": "is_beside",
    "leads-on": "leads_on_task",  # leadsOn is leads_on
    "all-equal": "all_equal_lem",  # the function that it is about is all_equal
}

DECLARED = re.compile(r"(?:^\s*(?:abbrev |unfoldable )?(?:pub )?|[({]|\blet )(?P<name>[^\s:(){}\[\],;.λ→]+)\s+[:=](?:\s|$)")
WORD = re.compile(r"(?:(?<![\w'])(?:c|goal)\.)?[^\s(){}\[\],;:.⟨⟩\"`|]+")  # what a goal is called is the toolchain's to name


def files():
    for folder, dirs, names in os.walk("crates"):
        dirs[:] = sorted(d for d in dirs if d != "out")
        for name in sorted(names):
            path = os.path.join(folder, name)
            part = path.split(os.sep)[2]
            if part in ("specs", "proofs") and name.endswith(".antt") or part == "src" and name.endswith(".rt"):
                yield path


def snake(name):
    words = re.sub(r"(?<=[a-z0-9])([A-Z])", lambda m: "_" + m.group(1).lower(), name)
    words = words.replace("-", "_")
    for head in sorted(HEADS, key=len, reverse=True):
        if words.startswith(head + "_") and words[len(head) + 1:] in TAILS:
            return head + "-" + words[len(head) + 1:]
    return words


def declared():
    own = set()
    for path in files():
        if not path.endswith(".antt"):
            continue
        with open(path, encoding="utf-8") as f:
            lines = f.read().splitlines()
        for line in lines:
            if line.lstrip().startswith("--") or re.search(r":\s+goal\.", line):
                continue
            own |= {m.group("name") for m in DECLARED.finditer(line)}
    return own


def turned():
    names = {}
    for name in sorted(declared()):
        new = BY_HAND.get(name)
        if new is None and (re.search(r"[a-z0-9][A-Z]", name) or "-" in name) and re.fullmatch(r"[a-z][A-Za-z0-9_-]*", name):
            new = snake(name)
        if new is not None and new != name:
            names[name] = new
    return names


def main(argv):
    names = turned()
    words = set()
    for path in files():
        with open(path, encoding="utf-8") as f:
            words |= set(WORD.findall(f.read()))
    seen = {}
    for old, new in sorted(names.items()):
        if new in words or new in seen:
            print(f"look: {old} -> {new} falls together with {seen.get(new, 'a word that stands')}")
        seen[new] = old
    if "--dry" in argv:
        print("\n".join(f"{a} -> {b}" for a, b in sorted(names.items())))
        return 0
    for path in files():
        with open(path, encoding="utf-8") as f:
            text = f.read()
        new = WORD.sub(lambda m: names.get(m.group(0), m.group(0)), text)
        if new != text:
            with open(path, "w", encoding="utf-8") as f:
                f.write(new)
    print(f"{len(names)} names turned")
    return 0


if __name__ == "__main__":
    raise SystemExit(main(sys.argv[1:]))
