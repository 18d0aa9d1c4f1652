#!/usr/bin/env python3
"""Has the built program `sheet_cases` read random machine files, whole and damaged, and compares what it prints with tests/model.py.

Usage: compare_sheets.py [COUNT [SEED]]   after `rt run` in crates/sheet_cases; ends with status 1 at the first difference, which it keeps.
"""
import os
import random
import subprocess
import sys
import tempfile

sys.dont_write_bytecode = True
sys.path.insert(0, os.path.dirname(os.path.abspath(__file__)))
import model
from compare_spare import damaged, whole

PROGRAM = os.path.join(os.path.dirname(os.path.abspath(__file__)), "..", "crates", "sheet_cases", "out", "sheet_cases")
BATCH = 200


def scripted(rng, data):
    """The same with more script lines, of which some may not be of their form."""
    lines = [rng.choice(["mr", "gr", "bm", "xr", "rr", "gg"]) for _ in range(rng.choice([0, 3, 30, 60]))]
    if lines and rng.random() < 0.3:
        lines[rng.randrange(len(lines))] = rng.choice(["", "m", "mrr", "ma", "m r", "m2", "contents", "am"])
    return data + "".join(l + "\n" for l in lines).encode()


def main():
    count = int(sys.argv[1]) if len(sys.argv) > 1 else 1000
    rng = random.Random(int(sys.argv[2]) if len(sys.argv) > 2 else 1)
    kinds = {}
    with tempfile.TemporaryDirectory() as room:
        for start in range(0, count, BATCH):
            names, pages = [], []
            for i in range(start, min(start + BATCH, count)):
                data = scripted(rng, whole(rng))
                if rng.random() < 0.6:
                    data = damaged(rng, data)
                with open(os.path.join(room, f"f{i}"), "wb") as f:
                    f.write(data)
                names.append(f"f{i}")
                pages.append(f"== f{i}\n" + model.sheet_page(data))
            ran = subprocess.run([os.path.abspath(PROGRAM)] + names, cwd=room, stdout=subprocess.PIPE, check=True)
            got = ["== " + page for page in ran.stdout.decode("latin1").split("== ")[1:]]
            for name, want, page in zip(names, pages, got):
                if want != page:
                    os.replace(os.path.join(room, name), "differs.machine")
                    print(f"differs.machine: expected\n{want}got\n{page}")
                    sys.exit(1)
                last = want.splitlines()[-1]
                kind = " ".join(last.split()[:2]) if last.startswith("refused") else "read"
                kinds[kind] = kinds.get(kind, 0) + 1
    print(f"{count} files agree: " + ", ".join(f"{kinds[k]} {k}" for k in sorted(kinds)))


if __name__ == "__main__":
    main()
