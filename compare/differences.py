#!/usr/bin/env python3
"""Runs the inputs of docs/DIFFERENCES.md and checks what is told of each.

Usage: differences.py FOLDER [--calls PROGRAM] [--clock PROGRAM]
                      [--document FILE] [--table]

FOLDER has the programs of jiff/build.sh in `checked` and in `release`. Each row
of difference_rows.py is asked of jiff, or of the original over it, and of
second.py, a reading of document 01. With --calls the program test_zone_calls
and with --clock the program clock are asked too, and must answer as second.py
does. Each row is printed with the two answers. With --document the file must
have the rows in its tables, and no others; with --table they are printed as
they stand there.

Ends with 1 if an answer is not as its row tells, or a row is not in FILE.
"""

import os
import subprocess
import sys
import tempfile

sys.dont_write_bytecode = True  # no cache beside the sources

from difference_rows import ENDLESS, INSTANTS, NAMES, NO, PARTS, ROWS, STOPS
from zone_ask import Calls, Jiff, Second

HERE = os.path.dirname(os.path.abspath(__file__))
PATIENCE = 5  # seconds for a call that may not end
STOPPED = 101  # what a Rust program ends with where an assertion fails
OFFICE = bytes.fromhex("000000010000000C0000001301001F00007E900000000000" + "00EF1000000000")
HEAD = "| Input | Question | {} | Here | What decides |\n|---|---|---|---|---|"


def run(command, line, book, pack):
    """A program's answer to one query line over a book and a pack."""
    with tempfile.TemporaryDirectory() as folder:
        paths = [os.path.join(folder, name) for name in ("book.bin", "zones.bin")]
        for path, data in zip(paths, (book, pack)):
            with open(path, "wb") as file:
                file.write(data)
        run_ = subprocess.run([*command, *paths], input=line + "\n", capture_output=True, text=True, cwd=folder)
    return run_.stdout.strip()


def beyond(folder, profile, word, second):
    """What the original does with an instant beyond the range."""
    command = [os.path.join(folder, profile, "beyond"), word, str(second)]
    try:
        ran = subprocess.run(command, capture_output=True, text=True, timeout=PATIENCE)
    except subprocess.TimeoutExpired:
        return ENDLESS
    return STOPS if ran.returncode == STOPPED else ran.stdout.strip()


def joined(answers):
    """The answer that all files of a row give, or all of them."""
    return " or ".join(dict.fromkeys(answers))


class Programs:
    def __init__(self, folder, calls, clock):
        self.folder = folder
        self.jiff = Jiff(os.path.join(folder, "checked", "zone"))
        self.second = Second()
        self.calls = Calls(calls) if calls else None
        self.clock = [os.path.abspath(clock)] if clock else None

    def theirs(self, row):
        if row.part == INSTANTS:
            return beyond(self.folder, *row.given)
        if row.part == NAMES:
            return run([os.path.join(self.folder, "checked", "answer")], row.line, *row.given)
        return joined(self.jiff.ask(file, [row.line])[0] for file in row.given)

    def ours(self, row):
        """The answers of second.py and of this product's program, if told."""
        if row.part not in (INSTANTS, NAMES):
            found = [self.second, self.calls] if self.calls else [self.second]
            return [joined(one.ask(file, [row.line])[0] for file in row.given) for one in found]
        given = row.given if row.part == NAMES else (OFFICE, bytes(4))
        found = [[sys.executable, os.path.join(HERE, "second.py")]] + ([self.clock] if self.clock else [])
        return [run(command, row.line, *given) for command in found]


def shown(row):
    """The row as it stands in the document's table."""
    answers = ["refused" if answer == NO else f"`{answer}`" for answer in (row.theirs, row.ours)]
    answers = [answer.strip("`") if answer.strip("`") in (ENDLESS, STOPS, "none") else answer for answer in answers]
    return f"| {row.what} | `{row.line}` | {answers[0]} | {answers[1]} | {row.decides} |"


def table(part):
    title = "The original over jiff" if part in (NAMES, INSTANTS) else "jiff"
    return "\n".join([HEAD.format(title)] + [shown(row) for row in ROWS if row.part == part])


def document_lacks(path):
    """The rows that the document's tables lack, and those that it has above."""
    with open(path, encoding="utf-8") as file:
        text = file.read()
    known = {shown(row) for row in ROWS}
    parts = [text.partition(f"## {part}\n")[2].partition("\n## ")[0] for part in PARTS]
    stand = {line for part in parts for line in part.splitlines() if line.startswith("| ")}
    stand = {line for line in stand if not line.startswith("| Input ")}
    return sorted(known - stand) + sorted(stand - known)


def check(programs):
    """Runs all rows and prints them; how many are not as told."""
    wrong = 0
    for row in ROWS:
        theirs, ours = programs.theirs(row), programs.ours(row)
        good = theirs == row.theirs and all(answer == row.ours for answer in ours)
        wrong += not good
        print(f"{'as told' if good else 'NOT AS TOLD'}: {row.what}: {row.line}: jiff {theirs}, here {' and '.join(dict.fromkeys(ours))}")
        if not good:
            print(f"    the row tells: jiff {row.theirs}, here {row.ours}")
    print(f"{len(ROWS)} rows, {wrong} not as told")
    return wrong


def main(arguments):
    def option(name):
        if name not in arguments:
            return None
        place = arguments.index(name)
        value = arguments[place + 1]
        del arguments[place : place + 2]
        return value

    calls, clock, document = option("--calls"), option("--clock"), option("--document")
    if "--table" in arguments:
        print("\n\n".join(f"## {part}\n\n{table(part)}" for part in PARTS))
        return
    if len(arguments) != 1:
        sys.exit(__doc__)
    wrong = check(Programs(arguments[0], calls, clock))
    for line in document_lacks(document) if document else []:
        print("only in the rows or only in the document:", line)
        wrong += 1
    sys.exit(1 if wrong else 0)


if __name__ == "__main__":
    main(sys.argv[1:])
