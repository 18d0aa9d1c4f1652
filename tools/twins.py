#!/usr/bin/env python3
"""Lists the pairs of functions and types of src/ that are alike but for names, types and numbers.

Usage: tools/twins.py [FOLDER]     (the checkout to read; this one by default)
"""
import difflib
import pathlib
import re
import sys

KEPT = set("as break const continue else enum fn for if impl in let loop match mut pub ref return self Self struct trait use where while dyn move true false Ok Err Some None Result Option".split())
TOKEN = re.compile(r"[A-Za-z_][A-Za-z_0-9]*|\d[\d_]*|b?'[^']*'|b?\"[^\"]*\"|[^\sA-Za-z_0-9]")
HEAD = re.compile(r"^( *)(?:pub(?:\([a-z]+\))? )?(fn|struct|enum) ([A-Za-z_0-9]+)")
CLAUSE = re.compile(r"^ *(?:requires|ensures|ghost|decreases)\b")


def items(path):
    """Each function and type of a file: its name, its line and its text without comments and clauses."""
    lines = path.read_text().split("\n")
    i = 0
    while i < len(lines):
        head = HEAD.match(lines[i])
        if not head:
            i += 1
            continue
        start, body, close = i, [], head.group(1) + "}"
        while i < len(lines):
            line = lines[i]
            done = line.rstrip() == close or line.rstrip().endswith(";") and not body and "{" not in line
            if not line.strip().startswith("//"):
                body.append(line)
            i += 1
            if done:
                break
        kept, depth = [], 0
        for line in body:
            if CLAUSE.match(line) or depth > 0:
                depth += line.count("{") + line.count("(") - line.count("}") - line.count(")")
                depth = max(depth, 0)
                continue
            kept.append(line)
        yield head.group(3), start + 1, "\n".join(kept)


def shape(text):
    """The tokens of a text, with each name, number and string as one sign."""
    out = []
    for token in TOKEN.findall(text):
        if token in KEPT:
            out.append(token)
        elif token[0].isalpha() or token[0] == "_":
            out.append("name")
        elif token[0].isdigit() or token[-1] in "'\"":
            out.append("value")
        else:
            out.append(token)
    return out


def main():
    top = pathlib.Path(sys.argv[1] if len(sys.argv) > 1 else pathlib.Path(__file__).resolve().parent.parent)
    found = []
    for path in sorted(top.glob("crates/*/src/**/*.rt")):
        for name, line, text in items(path):
            found.append((f"{path.relative_to(top)}:{line} {name}", shape(text)))
    pairs = 0
    for i, (a, x) in enumerate(found):
        for b, y in found[i + 1 :]:
            if min(len(x), len(y)) < 30:
                continue
            same = difflib.SequenceMatcher(None, x, y, autojunk=False)
            if same.quick_ratio() >= 0.85 and same.ratio() >= 0.85:
                pairs += 1
                print(f"{same.ratio():.2f}  {a}  ~  {b}")
    print(f"{pairs} pairs of {len(found)} functions and types")


main()
