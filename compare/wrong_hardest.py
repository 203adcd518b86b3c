#!/usr/bin/env python3
"""Tries the sharpness of stored logs: wrong hardest stretches must differ.

Usage: wrong_hardest.py FILE [NAME..]

FILE is a hardest.bin. Each entry of WRONG changes one place of second.py into a
mistake that is easy to make; second.py with it, or with each of those that are
named, is asked the questions of FILE, short logs first. Printed is the first
question, of those it has in this order, to which the answer is not the stored one.
Ends with 1 if second.py itself differs, or if a mistake is not seen.
"""

import os
import sys

sys.dont_write_bytecode = True  # no cache beside the sources

from hardest import answer, built, read_cases
from wrong import HERE, load

# name: (what stands in second.py, what the wrong one has)
BEST = "if best is None or total > best[0]:"
PART = "part = max(start, low), min(end, high)"
IN_WINDOW = "if low < end and start < high:"
WINDOWS = "for low, _ in runs:"
HIGH = "high = min(low + width, LAST)"
COUNT = "if len(numbers) % 2 or len(numbers) > 2 * RUNS:"
RUN = "if offset < ended or length < 1:"
END = "if given + ended * NANO > LAST:"
ENDED = "ended = offset + length\n"
LEAST = "ended = 0  #"
PAIRS = "for offset, length in zip(numbers[::2], numbers[1::2]):"
WIDTH = "if not 1 <= width <= WIDEST:"
READ_LOG = "        runs = read_log(first, numbers[3:])\n"
READ_WIDTH = "        width = read_width(numbers[2])\n"
INSTANT = "    first = read_instant(*numbers[:2])\n"
WRONG = {
    "latest of equal windows": (BEST, "if best is None or total >= best[0]:"),
    "first window that is less than one before ends the search": (BEST, "if best and total < best[0]:\n                break\n            " + BEST),
    "a window at the first run alone": (WINDOWS, "for low, _ in runs[:1]:"),
    "a window at the instant given too": (WINDOWS, "for low, _ in [(given, given)] * bool(runs) + runs:"),
    "no window at the last run": (WINDOWS, "for low, _ in runs[:-1] or runs:"),
    "no window that would pass the last instant": (HIGH, "high = low + width\n            if high > LAST:\n                continue"),
    "a window one second short": (HIGH, "high = min(low + width - NANO, LAST)"),
    "a window one second long": (HIGH, "high = min(low + width + NANO, LAST)"),
    "a window's last nanosecond left out": (HIGH, "high = min(low + width - 1, LAST)"),
    "a part counted whole": (PART, "part = start, end"),
    "a cut part not counted": (IN_WINDOW, "if low <= start and end <= high:"),
    "a window's first run alone": (IN_WINDOW, "if start == low:"),
    "runs up to the end of the log": (IN_WINDOW, "if low < end:"),
    "running time": ("times[part] = self.between(*part)[0]", "times[part] = part[1] - part[0]"),
    "working time of the whole window": ("total += times[part]", "total = self.between(low, high)[0]"),
    "touching runs joined in a window": ("for start, end in runs:\n", "for start, end in joined(runs):\n"),
    "touching runs joined in the log": ("    return runs\n", "    return joined(runs)\n"),
    "windows of zero at the instant given": ("return best or (0, given)", "return best if best and best[0] else (0, given)"),
    "nanoseconds of the instant left out": ("runs.append((given + offset * NANO,", "runs.append((given // NANO * NANO + offset * NANO,"),
    "width before the log": (READ_LOG + READ_WIDTH, READ_WIDTH + READ_LOG),
    "log before the instant": (INSTANT, "    if word == 'hardest':\n        read_log(0, numbers[3:])\n" + INSTANT),
    "width before the instant": (INSTANT, "    if word == 'hardest':\n        read_width(numbers[2])\n" + INSTANT),
    "any width for an empty log": (READ_WIDTH, "        width = read_width(numbers[2]) if runs else 0\n"),
    "width 0 taken": (WIDTH, "if not 0 <= width <= WIDEST:"),
    "width 1 refused": (WIDTH, "if not 1 < width <= WIDEST:"),
    "width 34,560,000 refused": (WIDTH, "if not 1 <= width < WIDEST:"),
    "width 34,560,001 taken": (WIDTH, "if not 1 <= width <= WIDEST + 1:"),
    "width of 32 bits": (WIDTH, "if not 1 <= width % 2**32 <= WIDEST:"),
    "one number too many passed over": (COUNT, "if len(numbers) > 2 * RUNS:"),
    "4,097 runs taken": (COUNT, "if len(numbers) % 2 or len(numbers) > 2 * RUNS + 2:"),
    "4,096 runs refused": (COUNT, "if len(numbers) % 2 or len(numbers) >= 2 * RUNS:"),
    "offset below 0 taken": (LEAST, "ended = -(2**63)  #"),
    "offset 0 refused": (LEAST, "ended = 1  #"),
    "length 0 taken": (RUN, "if offset < ended or length < 0:"),
    "length 1 refused": (RUN, "if offset < ended or length < 2:"),
    "overlap by a second taken": (RUN, "if offset < max(0, ended - 1) or length < 1:"),
    "touching runs refused": (RUN, "if offset < ended or runs and offset == ended or length < 1:"),
    "any overlap taken": (RUN, "if offset < (runs and (runs[-1][0] - given) // NANO or 0) or length < 1:"),
    "order by offset not asked for": (RUN, "if offset < 0 or length < 1:"),
    "end of a run in 64 bits": (ENDED, "ended = (offset + length + 2**63) % 2**64 - 2**63\n"),
    "end of a run from 1970 on in 64 bits": (END, "if (given // NANO + ended + 2**63) % 2**64 - 2**63 > LAST // NANO:"),
    "end of a run not compared": (END, "if False:"),
    "last instant without its nanoseconds": (END, "if given + ended * NANO > LAST // NANO * NANO:"),
    "end in the last second refused": (END, "if (given + ended * NANO) // NANO >= LAST // NANO:"),
    "end at the last instant refused": (END, "if given + ended * NANO >= LAST:"),
    "end a nanosecond past the last instant taken": (END, "if given + ended * NANO > LAST + 1:"),
    "offsets of 32 bits": (PAIRS, "for offset, length in zip((n % 2**32 for n in numbers[::2]), numbers[1::2]):"),
    "lengths of 32 bits": (PAIRS, "for offset, length in zip(numbers[::2], (n % 2**32 for n in numbers[1::2])):"),
}


def joined(runs):
    """Runs with those that touch made one."""
    found = []
    for start, end in runs:
        if found and found[-1][1] == start:
            found[-1] = (found[-1][0], end)
        else:
            found.append((start, end))
    return found


def differing(module, cases):
    """The first question, short logs first, that is answered otherwise than stored;
    None for none."""
    schedules = [built(module, book, pack) for book, pack, _, _ in cases]
    asked = [(len(question), place, question, told) for place, case in enumerate(cases) for question, told in zip(*case[2:])]
    for _, place, question, told in sorted(asked):
        try:
            if answer(module, *schedules[place], question) != told:
                return place, question
        except Exception:  # a wrong one may also fall over
            return place, question
    return None


def main(path, wanted):
    with open(path, "rb") as file:
        cases = list(read_cases(file.read()))
    with open(os.path.join(HERE, "second.py"), encoding="utf-8") as file:
        source = file.read()
    if differing(load(source), cases):
        sys.exit(f"second.py answers otherwise: {differing(load(source), cases)}")
    missed = 0
    names = [name for name in WRONG if not wanted or name in wanted]
    for name in names:
        stands, has = WRONG[name]
        if source.count(stands) != 1:
            sys.exit(f"{name}: {stands!r} stands {source.count(stands)} times in second.py")
        module = load(source.replace(stands, has))
        module["joined"] = joined
        seen = differing(module, cases)
        missed += not seen
        shown = " ".join(map(str, seen[1]))[:80] if seen else ""
        print(f"{name}: case {seen[0]}, {shown}" if seen else f"{name}: NOT SEEN", flush=True)
    print(f"{sum(len(case[2]) for case in cases)} questions; {missed} of {len(names)} mistakes not seen")
    sys.exit(1 if missed else 0)


if __name__ == "__main__":
    if len(sys.argv) < 2 or sys.argv[1].startswith("-"):
        sys.exit("usage: wrong_hardest.py FILE [NAME..]")
    main(sys.argv[1], sys.argv[2:])
