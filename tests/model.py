#!/usr/bin/env python3
"""An independent computation of what the program `spare` prints and of what reading a file yields, written from
docs/RULES.md alone.

Usage: model.py FILE...           prints the page of each file, headed by its name where there are several;
       model.py --sheet FILE...   prints what reading each file yields instead, headed likewise.
In crates/sheet_cases/data, `xargs python3 ../../../tests/model.py --sheet < ../args > ../stdout` made that program's stdout.
It shares no code with the crates: lists and dictionaries where they have fixed places, a search for the common
multiple where they divide, and the backlog of the spare found from the jobs and not from a running sum.
"""
import re
import sys

ROOM = 32768
LONGEST = 30000
MOST_SHOWN = 40


class Refused(Exception):
    def __init__(self, number, layer, line):
        self.text = f"refused {number} {layer} line {line}\n"


def split_lines(data):
    """Pass 1: bytes. The lines without their LF."""
    parts = data.split(b"\n")
    for n, part in enumerate(parts[:-1], 1):
        if len(part) > 40 or not re.fullmatch(rb"[a-z0-9 ]*", part):
            raise Refused(1, "bytes", n)
    if parts[-1]:
        raise Refused(1, "bytes", len(parts))
    return [p.decode("ascii") for p in parts[:-1]]


NAME = re.compile(r"[a-z]{1,8}")
NUMBER = re.compile(r"0|[1-9][0-9]{0,5}")


def words(line):
    """The words of a line, each a name or a number, or None."""
    out = []
    for w in line.split(" "):
        if NAME.fullmatch(w):
            out.append(w)
        elif NUMBER.fullmatch(w):
            out.append(int(w))
        else:
            return None
    return out


LIMITS = {"levels": 8, "power": 1, "tasks": 16}


def contents(lines):
    """Pass 2: the sections in their sequence, with their numbers of lines."""
    def at(n):
        return lines[n - 1] if n <= len(lines) else None

    if at(1) != "contents":
        raise Refused(2, "sheet", 1)
    found = []
    for n in (2, 3, 4):
        ws = words(at(n)) if at(n) is not None else None
        ok = ws is not None and len(ws) == 2 and isinstance(ws[0], str) and isinstance(ws[1], int)
        if not ok or ws[0] not in LIMITS or ws[0] in [s for s, _ in found] or not 1 <= ws[1] <= LIMITS[ws[0]]:
            raise Refused(2, "sheet", n)
        found.append((ws[0], ws[1]))
    if at(5) != "end":
        raise Refused(2, "sheet", 5)
    return found


def item(section, line):
    ws = words(line)
    if ws is None:
        return None
    kinds = "".join("n" if isinstance(w, str) else "d" for w in ws)
    if section == "levels":
        return ws[0] if kinds == "d" and 1 <= ws[0] <= 100 else None
    if section == "power":
        return tuple(ws) if kinds == "ddd" and max(ws) <= 10000 else None
    ok = kinds == "ndd" and 1 <= ws[1] <= LONGEST and 1 <= ws[2] <= LONGEST
    return tuple(ws) if ok else None


def bodies(lines, found):
    """Pass 3: for each section its items with their line numbers, and the line after the last body."""
    n, got = 6, {}
    for section, count in found:
        if n > len(lines) or lines[n - 1] != section:
            raise Refused(3, "sheet", n)
        n += 1
        got[section] = []
        for _ in range(count):
            x = item(section, lines[n - 1]) if n <= len(lines) else None
            if x is None:
                raise Refused(3, "sheet", n)
            got[section].append((n, x))
            n += 1
    return got, n


def read(data):
    """Passes 1 to 5: the levels, the power, the tasks with their line numbers, and the script's lines with theirs."""
    lines = split_lines(data)
    got, after = bodies(lines, contents(lines))
    before = 0
    for n, level in got["levels"]:
        if level <= before:
            raise Refused(4, "sheet", n)
        before = level
    if before != 100:
        raise Refused(4, "sheet", got["levels"][-1][0])
    seen = {"rest"}
    for n, (name, work, period) in got["tasks"]:
        if name in seen or work > period:
            raise Refused(5, "sheet", n)
        seen.add(name)
    script = list(enumerate(lines, 1))[after - 1:]
    return [l for _, l in got["levels"]], got["power"][0][1], got["tasks"], (after, script)


def check_script(script):
    """The last check: the form of the script's lines."""
    for n, line in script:
        if not re.fullmatch(r"[mgbxr]{2}", line):
            raise Refused(9, "script", n)


def admit(levels, tasks):
    cycle = 1
    for n, (_, _, period) in tasks:
        multiple = cycle
        while multiple % period:
            multiple += cycle
        if multiple > LONGEST:
            raise Refused(6, "plan", n)
        cycle = multiple
    for level in levels:
        allowances = [-(-100 * w // level) for _, (_, w, _) in tasks]
        if sum(e * (cycle // p) for e, (_, (_, _, p)) in zip(allowances, tasks)) <= cycle:
            return cycle, level, allowances
    raise Refused(7, "plan", 0)


def late(loads, cycle):
    """Awake ticks, earliest deadline late: every job's slots are placed from its deadline down, latest deadlines first."""
    taken = set()
    jobs = sorted(((j + 1) * p, w) for w, p in loads for j in range(cycle // p))
    for due, w in reversed(jobs):
        t = due - 1
        for _ in range(w):
            while t in taken:
                t -= 1
            taken.add(t)
    return taken


def first_jobs(loads, cycle, awake):
    """The ticks of each task's first job, by earliest deadline first over the awake ticks."""
    got = [[] for _ in loads]
    left = [w for w, _ in loads]
    for t in range(max(p for _, p in loads)):
        for i, (w, p) in enumerate(loads):
            if t and t % p == 0:
                left[i] = w
        if t % cycle not in awake:
            continue
        ready = [((t // p + 1) * p, i) for i, (_, p) in enumerate(loads) if left[i]]
        if ready:
            i = min(ready)[1]
            left[i] -= 1
            if t < loads[i][1]:
                got[i].append(t)
    return got


def spans(ticks):
    out, ticks = "", sorted(ticks)
    while ticks:
        n = 1
        while n < len(ticks) and ticks[n] == ticks[0] + n:
            n += 1
        out += f" {ticks[0]}..{ticks[0] + n}"
        ticks = ticks[n:]
    return out


def page(data):
    try:
        levels, _, tasks, _ = read(data[:ROOM])
        cycle, base, allowances = admit(levels, tasks)
    except Refused as refusal:
        return refusal.text
    out = f"cycle {cycle}\nbase {base}\n"
    for e, (_, (name, work, period)) in zip(allowances, tasks):
        out += f"{name} work {work} period {period} allowance {e}\n"
    works = [(w, p) for _, (_, w, p) in tasks]
    awake = late(works, cycle)
    out += f"awake{spans(awake)}\nawake ticks {len(awake)} rest ticks {cycle - len(awake)}\n"
    primary = first_jobs([(e, p) for e, (_, p) in zip(allowances, works)], cycle, set(range(cycle)))
    spare = first_jobs(works, cycle, awake)
    for (_, (name, _, _)), a, b in zip(tasks, primary, spare):
        out += f"{name} primary{spans(a)} spare{spans(b)}\n"
    return out


def sheet_page(data):
    """What reading a file yields: the sheet and its script, or why either is refused."""
    try:
        levels, power, tasks, (after, script) = read(data[:ROOM])
    except Refused as refusal:
        return refusal.text
    out = "levels " + " ".join(map(str, levels)) + "\n"
    out += "power " + " ".join(map(str, power)) + "\n"
    for _, (name, work, period) in tasks:
        out += f"task {name} {work} {period}\n"
    out += f"first task on line {tasks[0][0]}\n"
    try:
        check_script(script)
    except Refused as refusal:
        return out + refusal.text
    shown = [line for _, line in script] if len(script) <= MOST_SHOWN else [f"{len(script)} lines"]
    return out + " ".join([f"script from line {after}:"] + shown) + "\n"


def main():
    paths, text = sys.argv[1:], page
    if paths[:1] == ["--sheet"]:
        paths, text = paths[1:], sheet_page
    for path in paths:
        if len(paths) > 1:
            print(f"== {path.rsplit('/', 1)[-1]}")
        with open(path, "rb") as f:
            sys.stdout.write(text(f.read()))


if __name__ == "__main__":
    main()
