#!/usr/bin/env python3
"""Tries the sharpness of stored marks: wrong marks must differ.

Usage: wrong_marks.py FILE [NAME..]

FILE is a marks.bin. Each entry of WRONG changes one place of second.py into a
mistake that is easy to make; second.py with it, or with each of those that are
named, is asked the questions of FILE, case by case. Printed is the first question to
which the answer is not the stored one, how many there are, and in how many of them
the marks alone are wrong. Ends with 1 if second.py itself differs, or if a mistake is
not seen.
"""

import os
import sys

sys.dont_write_bytecode = True  # no cache beside the sources

from forget_marks import forgotten
from marks import Case, read_cases
from wrong import HERE, load

# name: (what stands in second.py, what the wrong one has)
NONE = "        if not readings:\n            return SKIPPED\n"
MANY = "return PLAIN if len(readings) == 1 else REPEATED"
READINGS = "readings = [offset for offset in self.descending if self.offset(local - offset) == offset]"
RANGE = "        if not FIRST <= self.reading(local) * NANO + nano <= LAST:\n            return BEYOND\n"
READS, INSIDE = "self.offset(local - o) == o", "FIRST <= (local - o) * NANO + nano <= LAST"
NO_DATE = "            return LAST, BEYOND\n"
TOUCH = "if groups and start[0] <= max(end[0] for _, end in groups[-1]):"
FIRST_MARK = "first_mark = max(start[1] for start, _ in group if start[0] == first)"
LAST_MARK = "last_mark = max(end[1] for _, end in group if end[0] == last)"
MISSES = "if gap_end[0] <= start[0] or end[0] <= gap_start[0]:"
BEFORE_GAP = "found.append((start, gap_start))"
BEHIND_GAP = "            start = gap_end\n"
CUT_START = "if start[0] < low:"
CUT_END = "if end[0] > high:"
OFF = "off = merged(block for rule in self.breaks + self.holidays for block in rule.marked(low, high))"
WORKING = "return cut(subtracted(work, off), low, high)"
IN_TURN = "\n        return cut(one_by_one(subtracted, work, off), low, high)"
SHIFT_END = "end = self.zone.edge(date + (self.end <= self.start), self.end)"
SHIFT_HOLDS = "                if start[0] < end[0]:\n                    yield start, end\n"
HOLIDAY = "start, end = self.zone.edge(date, 0), self.zone.edge(date + 1, 0)"
HOLIDAY_HOLDS = "            if start[0] < end[0]:\n                yield start, end\n"
FOUND = "                    period = start, end\n"
JOIN = "                    period = period[0], end\n"
JOINS = "elif period[1][0] == start[0]:"
LIMIT = "        if end[0] - start[0] > self.limit:\n            end = start[0] + self.limit, PLAIN\n"
TURNED = "return (start, end) if sign > 0 else ((-end[0], end[1]), (-start[0], start[1]))"
BACK = "return [((-end[0], end[1]), (-start[0], start[1])) for start, end in reversed(self.marked(-high, -low))]"
AHEAD = "for start, end in self.marked_from(sign, low, high):"
WRONG = {
    # a local time
    "no mark on a skipped time": (NONE, "        if not readings:\n            return PLAIN\n"),
    "no mark on a repeated time": (MANY, "return PLAIN"),
    "two readings plain": (MANY, "return PLAIN if len(readings) <= 2 else REPEATED"),
    "repeated for a time that is jumped over and read once": (MANY, "return PLAIN if len(readings) == 1 and not jumped(self, local) else REPEATED"),
    "a time that is jumped over and read later skipped": (NONE, "        if not readings or jumped(self, local):\n            return SKIPPED\n"),
    "readings of the range alone": (READINGS, READINGS + f"\n        readings = [o for o in readings if {INSIDE}] or readings"),
    "readings of one day": (READINGS, READINGS.replace("self.descending", "self.descending if abs(offset) <= 43_200")),
    "beyond loses to skipped": (RANGE, RANGE.replace("return BEYOND", f"return BEYOND if any({READS} for o in self.descending) else SKIPPED")),
    "beyond loses to repeated": (RANGE, RANGE.replace("return BEYOND", f"return REPEATED if sum({READS} for o in self.descending) > 1 else BEYOND")),
    "no mark beyond the range": (RANGE, RANGE.replace("return BEYOND", "return PLAIN")),
    "beyond at the first instant itself": (RANGE, RANGE.replace("not FIRST <=", "not FIRST <")),
    "beyond at the last instant itself": (RANGE, RANGE.replace("<= LAST", "< LAST")),
    "beyond if any reading is": (RANGE, RANGE + f"        if any({READS} and not {INSIDE} for o in self.descending):\n            return BEYOND\n"),
    "beyond only if all readings are": (RANGE, RANGE.replace("return BEYOND", f"return PLAIN if any({READS} and {INSIDE} for o in self.descending) else BEYOND")),
    # blocks of a rule
    "an end without a next date plain": (NO_DATE, "            return LAST, PLAIN\n"),
    "a shift's end has its start's mark": (SHIFT_END, SHIFT_END + "\n                end = end[0], start[1]"),
    "a shift's mark on the start's date": (SHIFT_END, SHIFT_END + "\n                end = end[0], self.zone.edge(date, self.end)[1] if date < LAST_DATE else BEYOND"),
    "a holiday's ends plain": (HOLIDAY, HOLIDAY + "\n            start, end = (start[0], PLAIN), (end[0], PLAIN)"),
    "a shift that ends where it starts kept": (SHIFT_HOLDS, SHIFT_HOLDS.replace("start[0] < end[0]", "start[0] <= end[0]")),
    "a shift that ends before it starts turned round": (SHIFT_HOLDS, "                yield (start, end) if start[0] < end[0] else (end, start)\n"),
    "a holiday that ends before it starts kept": (HOLIDAY_HOLDS, "            yield (start, end) if start[0] < end[0] else (end, start)\n"),
    # merging
    "the mark of the first of two starts that coincide": (FIRST_MARK, "first_mark = [start[1] for start, _ in group if start[0] == first][0]"),
    "the mark of the later of two starts that coincide": (FIRST_MARK, "first_mark = [start[1] for start, _ in group if start[0] == first][-1]"),
    "the mark of the first of two ends that coincide": (LAST_MARK, "last_mark = [end[1] for _, end in group if end[0] == last][0]"),
    "the mark of the later of two ends that coincide": (LAST_MARK, "last_mark = [end[1] for _, end in group if end[0] == last][-1]"),
    "the lesser mark of two starts": (FIRST_MARK, FIRST_MARK.replace("max", "min")),
    "the lesser mark of two ends": (LAST_MARK, LAST_MARK.replace("max", "min")),
    "repeated before skipped": (FIRST_MARK, "first_mark = max((start[1] for start, _ in group if start[0] == first), key=(0, 2, 1, 3).__getitem__)"),
    "repeated before skipped at ends": (LAST_MARK, "last_mark = max((end[1] for _, end in group if end[0] == last), key=(0, 2, 1, 3).__getitem__)"),
    "skipped before beyond": (FIRST_MARK, "first_mark = max((start[1] for start, _ in group if start[0] == first), key=(0, 1, 3, 2).__getitem__)"),
    "skipped before beyond at ends": (LAST_MARK, "last_mark = max((end[1] for _, end in group if end[0] == last), key=(0, 1, 3, 2).__getitem__)"),
    "marks of all starts that were merged": (FIRST_MARK, "first_mark = max(start[1] for start, _ in group)"),
    "marks of all ends that were merged": (LAST_MARK, "last_mark = max(end[1] for _, end in group)"),
    "the end's mark of the block that starts last": (LAST_MARK, "last_mark = group[-1][1][1]"),
    "touching blocks not merged": (TOUCH, TOUCH.replace("<=", "<")),
    # subtracting
    "a touching gap gives its mark": (MISSES, "if gap_end[0] < start[0] or end[0] < gap_start[0]:"),
    "a gap that touches the start gives its mark": (MISSES, "if gap_end[0] < start[0] or end[0] <= gap_start[0]:"),
    "a gap that touches the end gives its mark": (MISSES, "if gap_end[0] <= start[0] or end[0] < gap_start[0]:"),
    "a gap's other edge at a new end": (BEFORE_GAP, "found.append((start, (gap_start[0], gap_end[1])))"),
    "a gap's other edge at a new start": (BEHIND_GAP, "            start = gap_end[0], gap_start[1]\n"),
    "a new end plain": (BEFORE_GAP, "found.append((start, (gap_start[0], PLAIN)))"),
    "a new start plain": (BEHIND_GAP, "            start = gap_end[0], PLAIN\n"),
    "a new end keeps the block's mark": (BEFORE_GAP, "found.append((start, (gap_start[0], end[1])))"),
    "a new start keeps the block's mark": (BEHIND_GAP, "            start = gap_end[0], start[1]\n"),
    "a new end has the greater of both marks": (BEFORE_GAP, "found.append((start, (gap_start[0], max(gap_start[1], end[1]))))"),
    # the blocks of a window
    "windows cut first": (WORKING, "return subtracted(cut(work, low, high), cut(off, low, high))"),
    "windows cut before merging": (WORKING, "return subtracted(*(merged(cut(whole(rules, low, high), low, high)) for rules in (self.work, self.breaks + self.holidays)))"),
    "breaks and holidays subtracted one by one": (OFF, "off = [[gap] for gap in whole(self.breaks + self.holidays, low, high)]" + IN_TURN),
    "holidays subtracted after breaks": (OFF, "off = [merged(whole(rules, low, high)) for rules in (self.breaks, self.holidays)]" + IN_TURN),
    "breaks subtracted after holidays": (OFF, "off = [merged(whole(rules, low, high)) for rules in (self.holidays, self.breaks)]" + IN_TURN),
    "work merged after subtraction": (WORKING, "return cut(merged(subtracted(whole(self.work, low, high), off)), low, high)"),
    "a start on a border plain": (CUT_START, "if start[0] <= low:"),
    "an end on a border plain": (CUT_END, "if end[0] >= high:"),
    "a start that is cut keeps its mark": ("start = low, PLAIN", "start = low, start[1]"),
    "an end that is cut keeps its mark": ("end = high, PLAIN", "end = high, end[1]"),
    "an end at the last instant plain": (CUT_END, "if end[0] > high or end[0] == LAST:"),
    "a start at the first instant plain": (CUT_START, "if start[0] < low or start[0] == FIRST:"),
    # periods
    "the instant given plain though it moves nothing": (FOUND, "                    period = (start[0], PLAIN if start[0] == given else start[1]), end\n"),
    "a period's start plain in every window but the first": (FOUND, "                    period = (start[0], start[1] if low == given else PLAIN), end\n"),
    "the limit's end keeps its mark": (LIMIT, LIMIT.replace("PLAIN", "end[1]")),
    "the limit plain though it moves nothing": (LIMIT, LIMIT.replace(">", ">=")),
    "the limit does not cut": (LIMIT, ""),
    "an inner end's mark kept at a join": (JOIN, "                    period = period[0], (end[0], period[1][1])\n"),
    "the greater of an inner end's mark and the end's": (JOIN, "                    period = period[0], (end[0], max(end[1], period[1][1]))\n"),
    "an inner start's mark kept at a join": (JOIN, "                    period = (period[0][0], max(start[1], period[0][1])), end\n"),
    "pieces at a border not joined": (JOINS, "elif False:"),
    "marks turned round in previous": (TURNED, "return (start, end) if sign > 0 else ((-end[0], start[1]), (-start[0], end[1]))"),
    "marks of pieces turned round in previous": (BACK, "return [((-end[0], start[1]), (-start[0], end[1])) for start, end in reversed(self.marked(-high, -low))]"),
    "start and end told the other way round": (TURNED, "return ((start[0], end[1]), (end[0], start[1])) if sign > 0 else ((-end[0], end[1]), (-start[0], start[1]))"),
    "all in one window": (AHEAD, "for start, end in self.marked_from(sign, low, min(low + 60 * WINDOW, end_of_range)):"),
}  # fmt: skip


def jumped(zone, local):
    """Whether a change jumps over a local second."""
    farthest = 93_599
    changes = zone.changes(local - farthest - 1, local + farthest)
    return any(change + zone.offset(change - 1) <= local < change + zone.offset(change) for change in changes)


def whole(rules, low, high):
    """The whole marked blocks of some rules."""
    return [block for rule in rules for block in rule.marked(low, high)]


def one_by_one(subtracted, blocks, lists):
    """Blocks less the gaps of each list in turn."""
    for gaps in lists:
        blocks = subtracted(blocks, gaps)
    return blocks


def differing(module, cases):
    """The first question, with the number of its case, that is answered otherwise
    than stored; how many there are, and how many but for the marks are as stored."""
    first, count, marks = None, 0, 0
    for place, (book, pack, questions, answers) in enumerate(cases):
        case = Case(module, book, pack)
        for question, told in zip(questions, answers):
            try:
                found = case.answer(question)
            except Exception:  # a wrong one may also fall over
                found = None
            if found != told:
                first = first or (place, question)
                count += 1
                marks += found is not None and forgotten(question, found) == forgotten(question, told)
    return first, count, marks


def main(path, wanted):
    with open(path, "rb") as file:
        cases = list(read_cases(file.read()))
    with open(os.path.join(HERE, "second.py"), encoding="utf-8") as file:
        source = file.read()
    if differing(load(source), cases)[0]:
        sys.exit(f"second.py answers otherwise: {differing(load(source), cases)}")
    missed = 0
    names = [name for name in WRONG if not wanted or name in wanted]
    for name in names:
        stands, has = WRONG[name]
        if source.count(stands) != 1:
            sys.exit(f"{name}: {stands!r} stands {source.count(stands)} times in second.py")
        module = load(source.replace(stands, has))
        module |= {"jumped": jumped, "whole": whole, "one_by_one": one_by_one}
        first, count, marks = differing(module, cases)
        missed += not first
        shown = f"case {first[0]}, {' '.join(map(str, first[1]))}; {count} differ, {marks} in marks alone" if first else "NOT SEEN"
        print(f"{name}: {shown}", flush=True)
    print(f"{sum(len(case[2]) for case in cases)} questions; {missed} of {len(names)} mistakes not seen")
    sys.exit(1 if missed else 0)


if __name__ == "__main__":
    if len(sys.argv) < 2 or sys.argv[1].startswith("-"):
        sys.exit("usage: wrong_marks.py FILE [NAME..]")
    main(sys.argv[1], sys.argv[2:])
