#!/usr/bin/env python3
"""Compares the answers that run.sh has collected, line by line.

Usage: agree.py FOLDER bounds|exact

In each case's folder: second.txt (with both bounds of the window count),
rust.txt (with `-` for the count), program.txt if a program was run, and
second-list.txt, rust-list.txt for the listing. Removes the folders of cases
that agree, prints the first lines that differ and the numbers.
"""

import os
import shutil
import sys
from collections import Counter


def read(folder, name):
    """The lines of a file; only a newline ends one."""
    with open(os.path.join(folder, name), "rb") as file:
        lines = file.read().decode("latin-1").split("\n")
    return lines if lines[-1] else lines[:-1]


def is_counted(fields):
    """Whether an answer of second.txt ends with the two bounds: `ok`, two
    numbers, two bounds. Periods have four numbers too, but no count."""
    return fields[0] == "ok" and len(fields) == 5


def same(query, told, other, counts):
    """Whether an answer agrees with the second implementation's."""
    told, other = told.split(" "), other.split(" ")
    if not is_counted(told) or query.split(" ")[0] in ("next", "previous"):
        return told == other
    if len(other) != 4 or told[:3] != other[:3]:
        return False
    if counts == "none":
        return other[3] == "-"
    if not other[3].isascii() or not other[3].isdigit():
        return False
    least, most = int(told[3]), int(told[4])
    return other[3] == told[3] if counts == "exact" else least <= int(other[3]) <= most


def compare(folder, queries, told, other, counts, who, totals):
    queries, told, other = read(folder, queries), read(folder, told), read(folder, other)
    length = max(len(told), len(other))
    differing = 0
    for place in range(length):
        a = told[place] if place < len(told) else "(none)"
        b = other[place] if place < len(other) else "(none)"
        query = queries[place] if place < len(queries) else "(none)"
        totals[who, "lines"] += 1
        if not same(query, a, b, counts):
            differing += 1
            totals[who, "differ"] += 1
            if totals[who, "differ"] <= 20:
                print(f"{os.path.basename(folder)} line {place + 1}, {who}: {query!r}: {a!r}, {b!r}")
    return differing


def main(folder, counts):
    totals = Counter()
    kinds = Counter()
    kept = cases = 0
    for name in sorted(os.listdir(folder)):
        case = os.path.join(folder, name)
        if not os.path.exists(os.path.join(case, "second.txt")):
            continue
        cases += 1
        differing = compare(case, "queries.txt", "second.txt", "rust.txt", "none", "Rust", totals)
        differing += compare(case, "listing.txt", "second-list.txt", "rust-list.txt", "exact", "Rust, listing", totals)
        if os.path.exists(os.path.join(case, "program.txt")):
            differing += compare(case, "queries.txt", "second.txt", "program.txt", counts, f"program, counts by {counts}", totals)
        for answer in read(case, "second.txt") + read(case, "second-list.txt"):
            kinds[" ".join(answer.split(" ")[: 2 if answer[:2] == "no" else 1])] += 1
        if differing:
            kept += 1
        else:
            shutil.rmtree(case)
    for who in sorted({who for who, _ in totals}):
        print(f"{who}: {totals[who, 'lines']} lines compared, {totals[who, 'differ']} differ")
    told = ", ".join(f"{count} {kind}" for kind, count in sorted(kinds.items()))
    print(f"{cases} cases; answers: {told}")
    if kept:
        print(f"{kept} cases differ and are kept in {folder}")
    sys.exit(1 if kept else 0)


if __name__ == "__main__":
    if len(sys.argv) != 3 or sys.argv[2] not in ("bounds", "exact"):
        sys.exit("usage: agree.py FOLDER bounds|exact")
    main(*sys.argv[1:])
