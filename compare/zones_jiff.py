#!/usr/bin/env python3
"""Compares offsets, changes and local times of zone files: jiff's and ours.

Usage: zones_jiff.py ZONE database [--zoneinfo DIR] [--calls PROGRAM]
       zones_jiff.py ZONE made SEED COUNT [FAMILY] [--calls PROGRAM]
       zones_jiff.py ZONE taken COUNT [--zoneinfo DIR] [--calls PROGRAM]

ZONE is the program `zone` that jiff/build.sh builds. `database` asks about
every different zone file below DIR (/usr/share/zoneinfo if not told
otherwise), `made` about COUNT files made from SEED that are meant to be taken
by both, of a mix or of one family of made_zones.py (`wide`: rule times that
version 3 alone has, which is in no mix), `taken` of COUNT files below DIR with a byte changed, dropped or added
and of COUNT footers put together from good and bad parts, each in version 2
and in version 3 (as tools/zone_survey.py makes them), only whether they are
taken. Ours is second.py's reading of document 01; PROGRAM is test_zone_calls as
`rt run` in crates/test_zone_calls builds it (out/test_zone_calls there), and
must answer each line as second.py does. Lines lie about every change (a second
before, at and after it, and the local times about both of its readings), four
times a year from 1900 to 2200, and at both ends of the range.

Prints how many lines there are of each class, with the first line of each that
differs. Ends with 1 if PROGRAM and second.py differ, or if a difference from
jiff belongs to no class.
"""

import collections
import os
import random
import sys

sys.dont_write_bytecode = True  # no cache beside the sources

import made_zones
import second
from classes import NO_CLASS, class_of, zone_survey
from second import DAY
from zone_ask import FIRST_S, LAST_S, REFUSED, Calls, Jiff, Second, local_line

YEARS = range(1900, 2201)
FROM, TO = second.new_year(YEARS[0]) * DAY, second.new_year(YEARS[-1] + 1) * DAY
SEASONS = [(1, 1, 0), (3, 28, 9000), (7, 1, 43_200), (10, 26, 9000)]
FEWER = 20  # made files are asked about one year in so many
ENDS = [0, 1, 3600, 43_200, DAY, 93_599, 93_600, 2 * DAY, 200 * DAY, 400 * DAY]
LEAP_FOLDER = "right/"
TAKEN_YEAR = 2026
EXAMPLES = 1  # lines shown of each class


# --------------------------------------------------------------------- questions


def about_instant(second_):
    """Questions about an instant, if it is one."""
    if not FIRST_S <= second_ <= LAST_S:
        return []
    return [f"offset {second_}", f"change {second_}"]


def about_change(zone, change):
    """Questions about a change: instants, and local times by both readings."""
    lines = []
    for step in (-1, 0, 1):
        lines += about_instant(change + step)
    before, after = zone.offset(change - 1), zone.offset(change)
    readings = {change + offset + step for offset in (before, after) for step in (-1, 0, 1)}
    readings.add(change + (before + after) // 2)
    return lines + [local_line(local) for local in sorted(readings)]


def about_years(years):
    lines = []
    for year in years:
        for month, day, time in SEASONS:
            local = second.day_number(year, month, day) * DAY + time
            lines += [f"offset {local}", local_line(local)]
        lines.append(f"change {second.new_year(year) * DAY}")
    return lines


def about_ends(zone):
    """Both ends of the range and of the calendar."""
    lines = []
    for step in ENDS:
        lines += about_instant(FIRST_S + step) + about_instant(LAST_S - step)
        for offset in {0, zone.offset(FIRST_S), zone.offset(LAST_S)}:
            for local in (FIRST_S + offset + step, FIRST_S + offset - step):
                lines.append(local_line(local))
            for local in (LAST_S + offset + step, LAST_S + offset - step):
                lines.append(local_line(local))
        lines.append(local_line(second.FIRST_DATE * DAY + step))
        lines.append(local_line(second.LAST_DATE * DAY + DAY - 1 - step))
    return lines


def questions(zone, spans, years):
    """All questions about a zone: its transitions, the footer's changes in some
    spans, some years, and the ends of the range."""
    found = {time for time in zone.times if FIRST_S - 200_000 < time < LAST_S + 200_000}
    for low, high in spans:
        found.update(zone.changes(low, high))
    lines = [line for change in sorted(found) for line in about_change(zone, change)]
    lines += about_years(years) + about_ends(zone)
    return list(dict.fromkeys(line for line in lines if line))


# ------------------------------------------------------------------------- counts


class Counts:
    """Lines by class, and the first ones of each that differs."""

    def __init__(self):
        self.lines = collections.Counter()
        self.files = collections.defaultdict(set)
        self.shown = collections.defaultdict(list)
        self.wrong = []

    def put(self, name, title, example=None):
        self.lines[title] += 1
        self.files[title].add(name)
        if example and len(self.shown[title]) < EXAMPLES:
            self.shown[title].append(f"{name}: {example}")

    def show(self):
        print(f"{sum(self.lines.values())} lines")
        for title, count in self.lines.most_common():
            print(f"  {count:9} lines in {len(self.files[title]):6} files: {title}")
            for example in self.shown[title]:
                print(f"            {example}")
        for line in self.wrong[:20]:
            print("program and second.py differ:", line)
        return 1 if self.wrong or any(NO_CLASS in title for title in self.lines) else 0


class Comparison:
    def __init__(self, jiff, calls):
        self.jiff = Jiff(jiff)
        self.second = Second()
        self.calls = Calls(calls) if calls else None
        self.counts = Counts()
        self.leaps = collections.Counter()

    def compare(self, name, file, lines):
        """Puts each line of a file in its class."""
        theirs, ours = self.jiff.ask(file, lines), self.second.ask(file, lines)
        if self.calls:
            program = self.calls.ask(file, lines)
            rows = zip(lines, ours, program)
            self.counts.wrong += [(name, *row) for row in rows if row[1] != row[2]]
        for line, their, our in zip(lines, theirs, ours):
            if their == our:
                self.counts.put(name, "refused by both" if our == REFUSED else "equal")
            else:
                title = class_of(file, line, their, our, self.jiff.reason)
                self.counts.put(name, title, f"{line}: jiff {their}, ours {our}")


# ------------------------------------------------------------------- the database


def zone_files(folder):
    """The different zone files below a folder, each with its names."""
    names = collections.defaultdict(list)
    for place, _, files in os.walk(folder, followlinks=True):
        for name in files:
            path = os.path.join(place, name)
            if os.path.isfile(path):
                with open(path, "rb") as file:
                    data = file.read()
                if data[:4] == b"TZif":
                    names[data].append(os.path.relpath(path, folder))
    return sorted((min(found), data) for data, found in names.items())


def database(comparison, folder):
    files = zone_files(folder)
    refused = 0
    for name, file in files:
        zone = made_zones.table_of(file)
        try:
            zone = second.read_zone(file)
        except ValueError:
            refused += 1
        lines = questions(zone, [(FROM, TO)], YEARS)
        comparison.compare(name, file, lines)
        leap_seconds(comparison, folder, name, file, lines)
    print(f"{len(files)} different zone files below {folder}, {refused} refused by document 01")
    print(f"jiff's answers for files with leap records: {dict(comparison.leaps)}")


def leap_seconds(comparison, folder, name, file, lines):
    """How jiff answers for a file with leap records and for the same zone
    without, below the folder itself."""
    path = os.path.join(folder, name[len(LEAP_FOLDER) :])
    if not name.startswith(LEAP_FOLDER) or not os.path.isfile(path):
        return
    with open(path, "rb") as plain:
        rows = zip(comparison.jiff.ask(file, lines), comparison.jiff.ask(plain.read(), lines))
    same = [one == two for one, two in rows]
    comparison.leaps["as without leap records"] += sum(same)
    comparison.leaps["otherwise"] += len(same) - sum(same)


def taken(comparison, folder, count):
    """Which files and footers jiff takes and document 01 refuses, and the other
    way round."""
    files = [(name, file) for name, file in zone_files(folder) if not name.startswith(LEAP_FOLDER)]
    cases = [*zone_survey.damaged(files, count), *zone_survey.footed(count), *zone_survey.footed(count, "3")]
    for name, file in cases:
        line = [f"offset {second.new_year(TAKEN_YEAR) * DAY}"]
        their, our = comparison.jiff.ask(file, line)[0], comparison.second.ask(file, line)[0]
        if comparison.calls and comparison.calls.ask(file, line)[0] != our:
            comparison.counts.wrong.append((name, our))
        kind = name.partition("/")[0]
        if (their == REFUSED) == (our == REFUSED):
            comparison.counts.put(name, f"{kind}: {'refused' if our == REFUSED else 'taken'} by both")
        elif our == REFUSED:
            comparison.counts.put(name, f"{kind}: taken by jiff, refused here: {zone_survey.judge(file)}")
        else:
            comparison.counts.put(name, f"{kind}: refused by jiff, taken here: {comparison.jiff.reason}")
    print(f"{len(cases)} files")


def made(comparison, seed, count, family):
    for place in range(count):
        rng = random.Random(f"{seed}/{place}")
        title, file, spans = made_zones.make(rng, family)
        lines = questions(second.read_zone(file), spans, YEARS[::FEWER])
        comparison.compare(f"{place} {title}", file, lines)
    print(f"{count} made zone files of seed {seed}")


def main(arguments):
    def option(name, otherwise):
        if name not in arguments:
            return otherwise
        place = arguments.index(name)
        value = arguments[place + 1]
        del arguments[place : place + 2]
        return value

    zoneinfo = option("--zoneinfo", "/usr/share/zoneinfo")
    calls = option("--calls", None)
    title = arguments.pop() if arguments[1:2] == ["made"] and len(arguments) == 5 else None
    family = made_zones.family_of(title)
    modes = {"database": 2, "taken": 3, "made": 4}
    if len(arguments) < 2 or modes.get(arguments[1]) != len(arguments) or (title and not family):
        sys.exit(__doc__)
    comparison = Comparison(arguments[0], calls)
    if arguments[1] == "database":
        database(comparison, zoneinfo)
    elif arguments[1] == "taken":
        taken(comparison, zoneinfo, int(arguments[2]))
    else:
        made(comparison, arguments[2], int(arguments[3]), family)
    sys.exit(comparison.counts.show())


if __name__ == "__main__":
    main(sys.argv[1:])
