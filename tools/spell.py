#!/usr/bin/env python3
"""Brings the repository's own definitions and lemmas to the spelling of its contracts: usage: tools/spell.py [--list] [ROOT]

A definition, a lemma or a field is in snake case, a fact in upper camel case. A dash is kept between two names (`sum-add`) and gives way to `_`
before a plain word (`sum_none`). Names of src/ and names that the prover makes (goals such as `f-requires`) stay as they are.
It was run when the repository was brought to a newer Rattle; it changes nothing where the names are spelled so already.
"""
import glob
import os
import re
import sys

# Words that count as names beside the repository's own definitions: operations and relations of the library.
NAMES = "length take drop set map append replicate get_or sum add sub mul div mod le lt eq suc zero one leb ltb eqb cond bind".split()
# What the prover makes: goals by their ending, and answers for them.
MADE = re.compile(r"^(returns|overflow|bounds|slice_bounds|offset|nonzero|invariant|decreases|loop-|prove)|-requires(-\d+)?(-clause-\w+)?$|-(preserved|init|smaller)$")
DECL = re.compile(r"^ {0,4}((?:(?:abbrev|unfoldable|pub|record|data)\s+)*)([^\s:(){}=,.;]+)((?:\s+[({][^=]*)?)\s+:(?:\s|$)")
TOKEN = re.compile(r"[^\s(){}\[\],;.=:λ\"`|]+")
# A lemma that would have its function's name.
LEMMAS = {"cycle-of": "cycle_of_lem", "end-of": "end_of_lem", "with-base": "with_base_lem"}
SKIP = {"let", "where", "module", "elim", "in", "use", "record", "data", "pub"}


def files(root, *kinds):
    return sorted(p for kind in kinds for p in glob.glob(os.path.join(root, kind), recursive=True) if "/out/" not in p)


def declared(root):
    """Each declared name with whether it stands in specs/ as a definition, and the files that declare it."""
    found = {}
    for path in files(root, "crates/*/specs/**/*.antt", "crates/*/proofs/**/*.antt"):
        for line in open(path, encoding="utf-8"):
            m = DECL.match(line)
            if m and m[2] not in SKIP and not line.startswith("--") and not MADE.search(m[2]):
                found.setdefault(m[2], set()).add(path)
    return found


def snake(word):
    return re.sub(r"(?<=[a-z0-9])([A-Z])", lambda m: "_" + m[1].lower(), word)


def spelled(name, names):
    if name[0].isupper():
        return "".join(p[0].upper() + p[1:] for p in name.split("-")) if "-" in name else name
    parts = [snake(p) for p in name.split("-")]
    out = parts[0]
    for left, right in zip(parts, parts[1:]):
        out += ("-" if left in names and right in names else "_") + right
    return out


def crate(path):
    return path.split("/crates/")[1].split("/")[0]


def below(root):
    """Of each crate, itself and the crates that it knows."""
    lines = [l.split("#")[0].split(":") for l in open(os.path.join(root, "crates.txt")) if ":" in l.split("#")[0]]
    return {l[0].strip(): {l[0].strip(), *l[1].split()} for l in lines}


def main(argv):
    root = next((a for a in argv if not a.startswith("-")), ".")
    found = declared(root)
    known = below(root)

    def names(n):
        """The words that are names where n is declared."""
        seen = set.union(*(known[crate(p)] for p in found[n]))
        return set(NAMES) | {snake(m) for m, where in found.items() if "-" not in m and any("/specs/" in p and crate(p) in seen for p in where)}

    turn = {n: LEMMAS.get(n) or spelled(spelled(n, names(n)), names(n)) for n in found}
    turn = {a: b for a, b in turn.items() if a != b}
    for a, b in sorted(turn.items()):
        if "--list" in argv:
            print(f"{a} -> {b}")
        if b in found or list(turn.values()).count(b) > 1:
            print(f"falls together: {a} -> {b}: {sorted(found[a])} and {sorted(found.get(b, []))}")
    if "--list" in argv:
        return
    for path in files(root, "crates/*/specs/**/*.antt", "crates/*/proofs/**/*.antt", "crates/*/src/**/*.rt", "crates/*/must-fail/*.edit", "docs/*.md", "README.md"):
        if os.path.basename(path) == "PORT.md":
            continue
        text = open(path, encoding="utf-8").read()
        new = TOKEN.sub(lambda m: turn.get(m[0], m[0]) if m[0] in turn and not made_field(text, m) else m[0], text)
        if new != text:
            open(path, "w", encoding="utf-8").write(new)


FIELDS = {"some-period"}


def made_field(text, m):
    """A name behind a dot is a field, and only a record's own field is respelled there; but not so where a module stands before the dot."""
    if m.start() == 0 or text[m.start() - 1] != "." or m[0] in FIELDS:
        return False
    before = re.search(r"([^\s(){}\[\],;.=:]+)\.$", text[: m.start()])
    return not (before and re.search(r"^\s*use \S+ as " + re.escape(before[1]) + r"$", text, re.M))


if __name__ == "__main__":
    main(sys.argv[1:])
