#!/usr/bin/env python3
"""Checks that second.py's answers with marks are its answers without them.

Usage: forget_marks.py SEED COUNT

Makes the COUNT cases of SEED as marks.py does and asks second.py their questions in
both ways: a local time's instant, a period and the blocks of a window, without the
marks, must be what `resolve`, `period` and `working_time` give, and the refusals the
same. Blocks must be sorted and apart. Ends with 1 where they are not.
"""

import os
import re
import sys

sys.dont_write_bytecode = True  # no cache beside the sources

import marks
import second
from marks import BLOCKS, NEXT, RESOLVE, Case


def unmarked(case, question):
    """The answer to a question by the calls without marks: instants or a refusal."""
    kind, numbers = question[0], question[1:]
    try:
        if kind == RESOLVE:
            return [case.zone().resolve(*second.read_local(*numbers))]
        schedule = case.schedule()
        given = second.read_instant(*numbers[:2])
        if kind == BLOCKS:
            return [instant for stretch in schedule.working_time(given, second.read_instant(*numbers[2:])) for instant in stretch]
        return list(schedule.period(1 if kind == NEXT else -1, given))
    except second.Refusal as refusal:
        return refusal.number, refusal.place


def forgotten(question, answer):
    """The same of an answer with marks."""
    number, place, told = answer
    if number:
        return number, place
    if question[0] == RESOLVE:
        pairs = [told[:2]]
    elif question[0] == BLOCKS:
        pairs = [told[at : at + 2] for at in range(1, len(told), 3)]
    else:
        pairs = [told[:2], told[2:4]]
    return [second_ * second.NANO + nano for second_, nano in pairs]


def main(seed, count):
    zoneinfo = os.environ.get("ZONEINFO", "/usr/share/zoneinfo")
    asked = different = 0
    for place in range(count):
        book, pack, questions = marks.case_of(seed, place, zoneinfo)
        case = Case(vars(second), book, pack)
        for question in questions:
            found = forgotten(question, case.answer(question))
            apart = question[0] == RESOLVE or isinstance(found, tuple) or all(a < b for a, b in zip(found, found[1:]))
            asked += 1
            if found != unmarked(case, question) or not apart:
                different += 1
                print(f"case {place}: {question}")
    print(f"{count} cases, {asked} questions, {different} different without their marks")
    sys.exit(1 if different else 0)


if __name__ == "__main__":
    if len(sys.argv) != 3 or not re.fullmatch("[0-9]+", sys.argv[2]):
        sys.exit("usage: forget_marks.py SEED COUNT")
    main(sys.argv[1], int(sys.argv[2]))
