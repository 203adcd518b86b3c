#!/usr/bin/env python3
"""Chooses cases for the gate and answers them with the original over jiff itself.

Usage: store_jiff.py ANSWER BYTES CASES OUT

CASES has cases of generate.py, ANSWER is the original over jiff as build.sh makes
it. OUT gets a folder for each chosen case, in order until they have BYTES, as
tools/vector_cases.py takes them. A case is chosen where the original builds its
book, and document 01, as second.py has it, says the same of each line. Of its
lines those are kept that the original itself answers, `ok`, 6 or 7, and of these
at most LINES. An answer is the original's; the window count, which the original
does not report, is that of second.py.
"""

import os
import random
import subprocess
import sys

sys.dont_write_bytecode = True  # no cache beside the sources

from second import read_file

LINES = 60  # of a case
LARGEST = 12_000  # bytes of a case
FEWEST = 10  # lines of a case
ANSWERED = (b"ok", b"no 6 0", b"no 7 0")
COUNTED = (b"between ", b"add ", b"sub ")
BUILT = b"between 0 0 0 0"  # refused by building alone


def lines_of(path):
    """The lines of a file, with BUILT before them."""
    with open(path, "rb") as file:
        return [BUILT] + file.read().rstrip(b"\n").split(b"\n")


def answers(command, lines, folder):
    command = command + ["book.bin", "zones.bin"]
    run = subprocess.run(command, input=b"\n".join(lines) + b"\n", stdout=subprocess.PIPE, cwd=folder, check=True)
    return run.stdout.rstrip(b"\n").split(b"\n")


def with_count(line, real, second):
    """The original's answer with second.py's window count; None where they differ."""
    if not line.startswith(COUNTED) or not real.startswith(b"ok"):
        return real if real == second else None
    told, _, count = second.rpartition(b" ")
    return second if real == told + b" -" else None


def chosen(case, answer):
    """The lines of a case and their answers; None where it is not to be stored."""
    lines = lines_of(os.path.join(case, "queries.txt"))
    real = answers([answer], lines, case)
    if not real[0].startswith(b"ok"):
        return None
    second = answers([sys.executable, os.path.join(os.path.dirname(os.path.abspath(__file__)), "second.py")], lines, case)
    told = [with_count(*three) for three in zip(lines, real, second)]
    if None in told:
        return None
    pairs = [pair for pair in list(zip(lines, told))[1:] if pair[1].startswith(ANSWERED)]
    places = random.Random(case.rpartition("/")[2]).sample(range(len(pairs)), min(LINES, len(pairs)))
    return [pairs[place] for place in sorted(places)]


def write(folder, files):
    os.makedirs(folder, exist_ok=True)
    for name, data in files.items():
        with open(os.path.join(folder, name), "wb") as file:
            file.write(data)


def main(answer, most, cases, out):
    total = count = lines = 0
    for name in sorted(os.listdir(cases)):
        case = os.path.join(cases, name)
        pairs = chosen(case, answer)
        if pairs is None or len(pairs) < FEWEST:
            continue
        files = {file: read_file(os.path.join(case, file)) for file in ("book.bin", "zones.bin")}
        files["queries.txt"], files["expected.txt"] = (b"".join(text + b"\n" for text in texts) for texts in zip(*pairs))
        size = sum(map(len, files.values()))
        if size > LARGEST:
            continue
        if total + size > most:
            break
        write(os.path.join(out, name), files)
        total, count, lines = total + size, count + 1, lines + len(pairs)
    print(f"{count} cases, {lines} lines, {total} bytes")


if __name__ == "__main__":
    if len(sys.argv) != 5:
        sys.exit("usage: store_jiff.py ANSWER BYTES CASES OUT")
    main(os.path.abspath(sys.argv[1]), int(sys.argv[2]), *sys.argv[3:])
