#!/usr/bin/env python3
"""Feeds the built program `spare` random machine files, whole and damaged, and compares what it prints with tests/model.py.

Usage: compare_spare.py [COUNT [SEED]]   after `rt run < stdin` in crates/spare; ends with status 1 at the first difference, which it keeps.
"""
import os
import random
import subprocess
import sys

sys.dont_write_bytecode = True
sys.path.insert(0, os.path.dirname(os.path.abspath(__file__)))
import model

PROGRAM = os.path.join(os.path.dirname(os.path.abspath(__file__)), "..", "crates", "spare", "out", "spare")
SHORT = [1, 2, 3, 4, 5, 6, 8, 10, 12, 15, 20, 24, 30, 40, 60, 120]
LONG = [p for p in range(1, 30001) if 30000 % p == 0]


def whole(rng):
    """A file of the right form, whose table may still be refused."""
    count = rng.randint(1, 16)
    periods = rng.choice([SHORT, SHORT, LONG])
    names = set()
    while len(names) < count:
        names.add("".join(rng.choice("abcdefghijklmnopqrstuvwxyz") for _ in range(rng.randint(1, 8))))
    tasks = []
    for name in sorted(names):
        period = rng.choice(periods)
        share = rng.choice([0.5, 1.2, 2]) / count
        work = period + 1 if rng.random() < 0.02 else rng.randint(1, max(1, min(period, int(period * share) + 1)))
        tasks.append(f"{name} {work} {period}")
    levels = sorted(rng.sample(range(1, 100), rng.randint(0, 7))) + [100]
    if rng.random() < 0.05:
        rng.shuffle(levels)
    power = " ".join(str(rng.randint(0, 10000)) for _ in range(3))
    body = {"levels": [str(l) for l in levels], "power": [power], "tasks": tasks}
    order = list(body)
    rng.shuffle(order)
    lines = ["contents"] + [f"{s} {len(body[s])}" for s in order] + ["end"]
    for s in order:
        lines += [s] + body[s]
    lines += [rng.choice(["mr", "gr", "rr", "bx"]) for _ in range(rng.choice([0, 0, 5]))]
    return "".join(l + "\n" for l in lines).encode()


def damaged(rng, data):
    """The same with a byte or a line changed, dropped, added or moved, once or more often."""
    for _ in range(rng.randint(1, 3)):
        if not data:
            return data
        i = rng.randrange(len(data))
        way = rng.random()
        if way < 0.35:
            data = data[:i] + bytes([rng.choice(b"abcz019 \nrest")]) + data[i + 1:]
        elif way < 0.5:
            data = data[:i] + data[i + 1:]
        elif way < 0.7:
            data = data[:i] + bytes([rng.choice(b"0 19a\n")]) + data[i:]
        elif way < 0.78:
            data = data[:i]
        elif way < 0.85:
            data = data[:i] + bytes([rng.randrange(256)]) + data[i + 1:]
        else:
            lines = data.split(b"\n")
            j, k = rng.randrange(len(lines)), rng.randrange(len(lines))
            lines[j], lines[k] = lines[k], lines[j]
            data = b"\n".join(lines)
    return data


def main():
    count = int(sys.argv[1]) if len(sys.argv) > 1 else 1000
    rng = random.Random(int(sys.argv[2]) if len(sys.argv) > 2 else 1)
    kinds = {}
    for _ in range(count):
        data = whole(rng)
        if rng.random() < 0.6:
            data = damaged(rng, data)
        want = model.page(data)
        refused = want.startswith("refused")
        ran = subprocess.run([PROGRAM], input=data, stdout=subprocess.PIPE)
        if ran.stdout != want.encode() or ran.returncode != (1 if refused else 0):
            with open("differs.machine", "wb") as f:
                f.write(data)
            print(f"differs.machine: expected\n{want}got\n{ran.stdout.decode('latin1')}")
            sys.exit(1)
        kind = " ".join(want.split()[:2]) if refused else "plans"
        kinds[kind] = kinds.get(kind, 0) + 1
    print(f"{count} files agree: " + ", ".join(f"{kinds[k]} {k}" for k in sorted(kinds)))


if __name__ == "__main__":
    main()
