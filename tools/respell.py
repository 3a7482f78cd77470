#!/usr/bin/env python3
"""Brings the definitions and lemmas of specs/ and proofs/ to one spelling: words in snake case, types in camel case.

usage: tools/respell.py [--dry] [FOLDER]   a checkout right after port.py ran in it; run it once

A name is respelled wherever it stands in the repository's specs, proofs, clauses and must-fail edits. Names of
src/, and names that the library spells with a dash as well (add-zero, mul-one, ..), stay.
"""
import collections
import os
import re
import sys

DRY = "--dry" in sys.argv
ARGS = [a for a in sys.argv[1:] if not a.startswith("--")]
ROOT = ARGS[0] if ARGS else "."
# a character of a name of antt
CHAR = r"[^\s(){}\[\].,;:λ\"|=∥⌜⌝]"
NAME = CHAR + "+"
# names that would fall together with another one
APART = {
    "Worked-sums": "WorkedSumsStand",
    "Worked-pieces": "WorkedPiecesStand",
    "Reads-back": "ReadsBackWhole",
    "bit-xor": "bit_xor",
    "bitXor": "bit_xor",
    "gained-all": "gained_all_sum",
    "in-range": "is_in_range",
    "fullAt": "full_length_at",
    "numbersOf": "field_numbers_of",
    "other-field": "other_field_refused",
    "piece-at": "piece_at_is",
}
KEEP = {"add-mul", "add-zero", "mul-add", "mul-one", "mul-zero", "one-mul", "zero-mul"}


def new_name(name):
    if name in APART:
        return APART[name]
    name = name.replace("′", "'")
    if name[0].isupper():
        return "".join(p[:1].upper() + p[1:] for p in re.split(r"[-_]", name))
    name = re.sub(r"(?<=[a-z0-9])([A-Z])", lambda m: "_" + m[1].lower(), name)
    return name.replace("-", "_")


def files():
    for top in ("crates",):
        for folder, dirs, names in os.walk(os.path.join(ROOT, top)):
            dirs[:] = sorted(d for d in dirs if d != "out")
            for n in sorted(names):
                if n.endswith((".antt", ".rt", ".edit")):
                    yield os.path.join(folder, n)


def text(path):
    with open(path, encoding="utf-8") as f:
        return f.read()


def declared():
    """The names that specs/ and proofs/ declare, but for answers to goals, invariants and measures."""
    found = collections.defaultdict(set)
    head = re.compile(r"^\s*(?:(?:pub|abbrev|unfoldable|record|data) )*(" + NAME + r")(?:\s+[({][^\n]*)? :(?: (.*))?$", re.M)
    for path in files():
        if not path.endswith(".antt"):
            continue
        for m in head.finditer(text(path)):
            if re.match(r"(goal|given|need)\.", m[2] or ""):
                continue
            found[m[1]].add(os.path.relpath(path, ROOT))
    return found


def odd(name):
    return "-" in name or "′" in name or bool(re.search(r"[a-z0-9][A-Z]", name) and name[0].islower()) or (name[0].isupper() and "_" in name)


def main():
    names = declared()
    turn = {n: new_name(n) for n in names if odd(n) and n not in KEEP and re.match(r"[A-Za-z]", n)}
    turn.update({k: v for k, v in APART.items() if k in ("bit-xor", "bitXor")})
    turn = {a: b for a, b in turn.items() if a != b}
    token = re.compile(NAME)
    # what already stands where a new name would
    held = collections.defaultdict(set)
    for path in files():
        for t in set(token.findall(text(path))):
            held[t].add(os.path.relpath(path, ROOT))
    by_new = collections.defaultdict(list)
    for a, b in turn.items():
        by_new[b].append(a)
    for b, olds in sorted(by_new.items()):
        if len(olds) > 1:
            print(f"together: {b}: {', '.join(sorted(olds))}")
        if b in held and b != "bit_xor":
            both = [p for p in held[b] if any(p in held[a] for a in olds)]
            print(f"held: {b} stands already, for {', '.join(olds)}; in one file: {both[:4]}; declared: {sorted(names.get(b, []))[:3]}")
    if DRY:
        print(len(turn), "names")
        return
    changed = 0
    for path in files():
        old = text(path)
        new = []
        for line in old.split("\n"):
            if path.endswith(".rt") and not re.match(r"\s*(ghost|requires|ensures|law)\b|.*#\[tactic|.*prove!", line) and not in_clause(line):
                new.append(line)
                continue
            new.append(token.sub(lambda m: turn.get(m[0], m[0]), line))
        new = "\n".join(new)
        if path.endswith("specs/Gf256.antt"):
            # the library's own spelling stands for the one that this file brought in
            new = re.sub(r"\bbit_xor, bit_xor\b", "bit_xor", new)
        if new != old:
            changed += 1
            with open(path, "w", encoding="utf-8") as f:
                f.write(new)
    print(f"{len(turn)} names, {changed} files")


def in_clause(line):
    """A line inside a clause that is longer than a line."""
    return bool(re.search(r"[≡≤≢×→λ◌⊎]", line))


if __name__ == "__main__":
    main()
