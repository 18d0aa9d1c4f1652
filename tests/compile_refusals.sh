#!/usr/bin/env bash
# Programs that the compiler must refuse, each with a twin that differs in the offending line alone and is accepted.
# They stand in a repository of their own, made in a temporary folder, since a refused crate may not stand in this one.
set -eu
top=$(cd "$(dirname "$0")/.." && pwd)
room=$(mktemp -d)
trap 'rm -rf "$room"' EXIT

for crate in basis theory grammar lines sheet table; do
    mkdir -p "$room/crates/$crate"
    cp -R "$top/crates/$crate/src" "$top/crates/$crate/specs" "$top/crates/$crate/proofs" "$room/crates/$crate/"
done
grep -E '^(basis|theory|grammar|lines|sheet|table):' "$top/crates.txt" > "$room/crates.txt"

# expect NAME DEPS ACCEPTED REFUSED ERROR < SOURCE: the source with the line ACCEPTED in place of @LINE@ is accepted,
# and with REFUSED it is refused with ERROR.
expect() {
    local name=$1 deps=$2 accepted=$3 refused=$4 error=$5 source
    source=$(cat)
    mkdir -p "$room/crates/$name/src"
    echo "$name: $deps" >> "$room/crates.txt"
    printf '%s\n' "${source/@LINE@/$accepted}" > "$room/crates/$name/src/lib.rt"
    if ! (cd "$room/crates/$name" && rt check) > "$room/out" 2>&1; then
        tail -n 20 "$room/out"
        echo "$name: the accepted twin was refused"
        exit 1
    fi
    printf '%s\n' "${source/@LINE@/$refused}" > "$room/crates/$name/src/lib.rt"
    if (cd "$room/crates/$name" && rt check) > "$room/out" 2>&1; then
        echo "$name: the program that must be refused was accepted"
        exit 1
    fi
    if ! grep -q "$error" "$room/out"; then
        tail -n 20 "$room/out"
        echo "$name: refused, but not with $error"
        exit 1
    fi
    echo "$name: refused with $error, and its twin accepted"
}

# a sheet that was merely read is no admitted table
expect merely_read "basis theory grammar lines sheet table" 'cycle(table)' 'cycle(sheet)' 'mismatched-types' << 'RT'
use sheet::Sheet;
use table::Table;

fn cycle(table: &Table) -> u32 {
    table.works().cycle()
}

pub fn of_a_file(sheet: &mut Sheet, table: &mut Table, text: &[u8]) -> u32 {
    let _ = sheet.read(text);
    let _ = table.admit(sheet);
    @LINE@
}
RT
