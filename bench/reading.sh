#!/usr/bin/env bash
# Measures what reading costs: nanoseconds of processor time per byte of Sheet::read, beside a plain scan for line feeds in C,
# over the same machine files in the same run. A long and a short file show whether the cost grows with the bytes alone.
# Usage: bench/reading.sh [TURNS]   how often the long file is read in a run (20000); it builds the program read_many first, if it is not built yet.
set -eu
cd "$(dirname "$0")/.."
turns=${1:-20000}
runs=7

read_many=crates/read_many/out/read_many
if [ ! -x "$read_many" ]; then
    echo "proving and building read_many, which takes some minutes" >&2
    (cd crates/read_many && rt run -- 0 < stdin) >&2
fi
room=$(mktemp -d)
trap 'rm -rf "$room"' EXIT
cc -O2 -o "$room/scan" bench/scan.c
echo "scan by $(cc --version | head -n 1), -O2"

# machine BYTES: a valid file of 16 tasks, filled up with script lines to at most so many bytes.
machine() {
    awk -v room="$1" 'function put(line) { printf "%s\n", line; size += length(line) + 1 }
        BEGIN {
            put("contents"); put("levels 4"); put("power 1"); put("tasks 16"); put("end")
            put("levels"); put("40"); put("60"); put("80"); put("100"); put("power"); put("20 50 1000"); put("tasks")
            for (i = 0; i < 16; i++) put(sprintf("task%c %d 30000", 97 + i, 100 + i))
            while (size + 3 <= room) put(substr("mrgrbrxrrr", 1 + 2 * (n++ % 5), 2))
        }'
}

# cost PROGRAM TURNS FILE: the milliseconds of processor time of one run.
cost() {
    local TIMEFORMAT='%U %S'
    { time "$1" "$2" < "$3" > "$room/out"; } 2>&1 | awk '{ printf "%d\n", 1000 * ($1 + $2) + 0.5 }'
}

# least A B: the smaller of two numbers, where the first may be missing.
least() {
    if [ -z "$1" ] || [ "$2" -lt "$1" ]; then echo "$2"; else echo "$1"; fi
}

# measure FILE TURNS: the best of several runs of both programs, turn about, each less its run without a turn.
measure() {
    local file=$1 n=$2 read='' read_none='' scan='' scan_none='' bytes
    bytes=$(wc -c < "$file")
    for _ in $(seq "$runs"); do
        read=$(least "$read" "$(cost "$read_many" "$n" "$file")")
        if [ "$(cat "$room/out")" != "accepted $n of $n" ]; then
            echo "read_many did not accept the file $n times" >&2
            exit 1
        fi
        scan=$(least "$scan" "$(cost "$room/scan" "$n" "$file")")
        read_none=$(least "$read_none" "$(cost "$read_many" 0 "$file")")
        scan_none=$(least "$scan_none" "$(cost "$room/scan" 0 "$file")")
    done
    awk -v bytes="$bytes" -v n="$n" -v read="$((read - read_none))" -v scan="$((scan - scan_none))" 'BEGIN {
        all = bytes * n / 1000000
        printf "%d bytes, %d turns: reading %.3f ns per byte, plain scan %.3f ns per byte, ratio %.2f\n", bytes, n, read / all, scan / all, read / scan
    }'
}

machine 32768 > "$room/long"
machine 8192 > "$room/short"
measure "$room/long" "$turns"
measure "$room/short" "$((4 * turns))"
