#!/usr/bin/env python3
"""Holds our listing to that of the original over jiff itself.

Usage: lists_jiff.py FOLDER PROGRAM

FOLDER has the cases that run_jiff.sh has answered. PROGRAM is out/test_replay_lists
as `rt run` in crates/test_replay_lists builds it: our listing, which no query line
asks for, asked for the stretches that a file lists.bin tells. The answers that it must give are those of
real-list.txt, where the stand-in gives the same; the others are agree_jiff.py's
concern. Prints the numbers, and ends with 1 if a listing differs.
"""

import os
import re
import struct
import subprocess
import sys
import tempfile

sys.dont_write_bytecode = True  # no cache beside the sources

from agree import read
from second import FILE_LIMIT, read_file

ROOM = 2_048  # the most numbers that PROGRAM lends
LIFTED = 2**63  # added to each signed number
TOLD = re.compile(r"(\d+) cases, (\d+) listings and (\d+) refusals equal, (\d+) different")


def question(line, answer):
    """The bytes of a listing and its answer, as tools/list_cases.py has them;
    None where the answer does not fit PROGRAM's numbers."""
    *span, room = map(int, line.split(" ")[1:])
    fields = list(map(int, answer.split(" ")[1:]))
    given = answer.startswith("ok")
    if given and 4 * fields[0] > ROOM or not given and fields[0] == 10 and room > ROOM:
        return None
    number, place, told = (0, fields[0], fields[1:]) if given else (*fields, [])
    words = struct.pack(">4Q", *(word + LIFTED for word in span))
    words += struct.pack(">III", min(room, ROOM), number, place)
    return words + struct.pack(f">{len(told)}Q", *(word + LIFTED for word in told))


def questions(case):
    """A case's book, pack and questions, as they stand in lists.bin."""
    asked = []
    files = [read(case, name) for name in ("listing.txt", "real-list.txt", "standin-list.txt")]
    for line, real, other in zip(*files):
        if real == other:
            asked.append(question(line, real))
    parts = [read_file(os.path.join(case, name)) for name in ("book.bin", "zones.bin")]
    parts.append(b"".join(words for words in asked if words))
    return struct.pack(">III", *map(len, parts)) + b"".join(parts), asked


def replay(program, data):
    """How many listings and refusals of a lists.bin are equal, and how many differ."""
    with tempfile.TemporaryDirectory() as folder:
        with open(os.path.join(folder, "lists.bin"), "wb") as file:
            file.write(data)
        out = subprocess.run([program], cwd=folder, stdout=subprocess.PIPE, check=True).stdout.decode()
    _, given, refused, different = map(int, TOLD.search(out).groups())
    return given, refused, different


def main(folder, program):
    totals, left_out, data = [0, 0, 0], 0, b""
    cases = sorted(os.path.join(folder, name) for name in os.listdir(folder))
    for case in [case for case in cases if os.path.exists(os.path.join(case, "real-list.txt"))] + [None]:
        more, asked = questions(case) if case else (b"", [])
        left_out += asked.count(None)
        if len(more) > FILE_LIMIT:
            left_out += len(asked) - asked.count(None)
            continue
        if data and (not case or len(data) + len(more) > FILE_LIMIT):
            totals = [total + seen for total, seen in zip(totals, replay(program, data))]
            data = b""
        data += more
    given, refused, different = totals
    print(f"our listing: {given} listings and {refused} refusals equal to those of the original over jiff, {different} differ, {left_out} too long for the program")
    sys.exit(1 if different else 0)


if __name__ == "__main__":
    if len(sys.argv) != 3:
        sys.exit("usage: lists_jiff.py FOLDER PROGRAM")
    main(sys.argv[1], os.path.abspath(sys.argv[2]))
