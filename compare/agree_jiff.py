#!/usr/bin/env python3
"""Compares the answers that run_jiff.sh has collected, line by line.

Usage: agree_jiff.py FOLDER DIFFERENCES ZONE

In each case's folder: real.txt (the original over jiff itself), standin.txt
(over the stand-in), program.txt if a program was run, and real-list.txt and
standin-list.txt for the listing. Writes every line that differs, with its
causes, to DIFFERENCES; prints how many lines differ by the same causes and how
many by each of them, and the lines that none explains. ZONE is the driver for
zone files: explain_jiff.py says how a cause is found. Removes the folders of
cases that agree. Ends with 1 if a line is not explained.
"""

import os
import shutil
import sys
from collections import Counter, defaultdict

sys.dont_write_bytecode = True  # no cache beside the sources

from agree import read
from explain_jiff import SEVERAL, TOO_LONG, Case, without_count

# (lines, answers of the original over jiff, answers of the other, who that is)
PAIRS = [
    ("queries.txt", "real.txt", "standin.txt", "stand-in"),
    ("queries.txt", "real.txt", "program.txt", "program"),
    ("listing.txt", "real-list.txt", "standin-list.txt", "stand-in, listing"),
]
SHOWN = 20  # unexplained lines printed
NOT_EXPLAINED = "NOT EXPLAINED"


class Totals:
    def __init__(self):
        self.lines, self.differ, self.answers = Counter(), Counter(), Counter()
        self.causes = defaultdict(Counter)  # by who and causes: lines of each case

    def unexplained(self):
        return sum(sum(lines.values()) for (_, cause), lines in self.causes.items() if cause == NOT_EXPLAINED)

    def show(self):
        told = ", ".join(f"{count} {kind}" for kind, count in sorted(self.answers.items()))
        print(f"answers of the original over jiff: {told}")
        shown = None
        for who in sorted(self.lines):
            lines, differ = self.lines[who], self.differ[who]
            print(f"{who}: {lines} lines compared with the original over jiff, {lines - differ} equal, {differ} differ")
            causes = [(sum(count.values()), len(count), cause) for (of, cause), count in self.causes.items() if of == who]
            causes.sort(reverse=True)
            if causes and causes == shown:
                print("         by the same causes")
                continue
            for count, cases, cause in causes:
                print(f"{count:8} lines in {cases} cases: {cause}")
            self.show_each(who)
            shown = causes

    def show_each(self, who):
        """Lines by each cause: a line with several counts with each of them."""
        found, several, long = defaultdict(Counter), 0, 0
        for (of, causes), lines in self.causes.items():
            if of == who:
                each = causes.removesuffix(TOO_LONG).split(SEVERAL)
                several += sum(lines.values()) if len(each) > 1 else 0
                long += sum(lines.values()) if causes.endswith(TOO_LONG) else 0
                for cause in each:
                    found[cause].update(lines)
        print(f"         by each cause ({several} lines have several, {long} are too long to be worked out again):")
        for cause, lines in sorted(found.items(), key=lambda one: -sum(one[1].values())):
            print(f"{sum(lines.values()):8} lines in {len(lines)} cases: {cause}")


def differing(case, names):
    """The places where two answers differ: (place, line, answer, other)."""
    queries, real, other = (read(case, name) for name in names)
    length = max(len(real), len(other))
    real, other, queries = (lines + ["(none)"] * (length - len(lines)) for lines in (real, other, queries))
    for place, (query, one, two) in enumerate(zip(queries, real, other)):
        if without_count(query, one) != without_count(query, two):
            yield place, query, one, two
    return length


def compare(case, zone, totals, out):
    """Compares a case. Says whether it agrees."""
    title = os.path.basename(case)
    pairs = [pair for pair in PAIRS if os.path.exists(os.path.join(case, pair[2]))]
    asked = None
    for *names, who in pairs:
        totals.lines[who] += max(len(read(case, name)) for name in names[1:])
        for place, query, real, other in differing(case, names):
            asked = asked or Case(case, zone)
            cause = asked.why(query, real, other, "list" in who) or NOT_EXPLAINED
            totals.differ[who] += 1
            totals.causes[who, cause][title] += 1
            line = f"{title} line {place + 1}, {who}: {query!r}: jiff {real!r}, other {other!r}: {cause}"
            print(line, file=out)
            if cause == NOT_EXPLAINED and totals.unexplained() <= SHOWN:
                print(line)
    for answer in read(case, "real.txt"):
        totals.answers[" ".join(answer.split(" ")[: 2 if answer[:2] == "no" else 1])] += 1
    if asked:
        asked.close()
    return asked is None


def main(folder, differences, zone):
    totals = Totals()
    cases = [os.path.join(folder, name) for name in sorted(os.listdir(folder))]
    cases = [case for case in cases if os.path.exists(os.path.join(case, "real.txt"))]
    with open(differences, "w", encoding="utf-8") as out:
        agreeing = [case for case in cases if compare(case, zone, totals, out)]
    totals.show()
    for case in agreeing:
        shutil.rmtree(case)
    kept = len(cases) - len(agreeing)
    print(f"{len(cases)} cases, {kept} with lines that differ" + (f", kept in {folder}" if kept else ""))
    sys.exit(1 if totals.unexplained() else 0)


if __name__ == "__main__":
    if len(sys.argv) != 4:
        sys.exit("usage: agree_jiff.py FOLDER DIFFERENCES ZONE")
    main(*sys.argv[1:])
