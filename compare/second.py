#!/usr/bin/env python3
"""A second implementation of the working-hours clock, in exact integers.

Usage: second.py BOOK ZONES [--bounds] [--listing] [--every] < queries > answers
       second.py BOOK ZONES --hardest < calls > answers
       second.py BOOK ZONES --marks < calls > answers
       second.py BOOK ZONES --tickets < calls > answers

It is the program of document 01: a rule book and a zone pack are read, then
query lines are answered one by one. A file that is missing or longer than
65,536 bytes counts as empty. The window count of an `ok` line is the one that
results when every window that may be skipped is skipped.

  --bounds   print the least and the most window count instead of one number
  --listing  understand lines `list SEC NS SEC NS N` too: the listing from the
             first instant to the second into N lent numbers, printed as
             `ok COUNT numbers..` or `no 10 0`
  --every    skip no window (for the check that skipping changes no answer)
  --hardest  answer the lines `hardest SEC NS WIDTH NUMBER..` alone and pass over
             all others: the hardest stretch of a log of runs, from an instant on,
             printed as `ok SEC NS SEC NS` (the duration, the window's start)
  --marks    answer the lines that tell marks alone and pass over all others:
             `resolve YEAR MONTH DAY SEC NS`, a local time in the default zone,
             printed as `ok SEC NS MARK`; `next SEC NS` and `previous SEC NS`,
             printed as `ok SEC NS SEC NS MARK MARK`; `blocks SEC NS SEC NS`, the
             blocks of a window of at most seven days, printed as `ok` and
             `SEC NS MARK SEC NS MARK` for each
  --tickets  answer the lines about tickets alone and pass over all others: `ticket`,
             a new one, printed as `ok 0 0`; its commands `start SEC NS`,
             `hold SEC NS`, `resume SEC NS`, `mark NAME SEC NS` and
             `back NAME SEC NS`, printed as `ok SEC NS` (the elapsed time)

It is written from document 01, with the rule times that version 3 of a zone file
may have since the first change to it, the hardest stretch of the second, the marks
of the fourth and the tickets of the fifth, and shares no code with the verified
program.
Instants and durations are whole numbers of nanoseconds, dates are day numbers
from 1970-01-01, zone offsets and changes are whole seconds.
"""

import re
import sys
from bisect import bisect_left, bisect_right

NANO = 10**9
DAY = 86_400
FIRST = -377_705_023_201 * NANO
LAST = 253_402_207_200 * NANO + NANO - 1
WINDOW = 7 * DAY * NANO
REACH = 11 * DAY * NANO
BUILD_START = 978_307_200 * NANO
FILE_LIMIT = 65_536
FARTHEST = 93_599  # the largest offset, either way
RUNS = 4_096  # the most of a log
WIDEST = 400 * DAY  # the largest width of a window of a log, in seconds
NAMES = 8  # marks of a ticket have the names 0 to 7
NEW, RUNNING, HELD = range(3)  # states of a ticket
PLAIN, REPEATED, SKIPPED, BEYOND = range(4)  # marks; of two the greater is kept
MARKS = ("plain", "repeated", "skipped", "beyond")


class Refusal(Exception):
    """A refusal's number and place."""

    def __init__(self, number, place=0):
        super().__init__(number, place)
        self.number = number
        self.place = place


# ---------------------------------------------------------------- the calendar


def is_leap(year):
    return year % 4 == 0 and (year % 100 != 0 or year % 400 == 0)


def month_days(year, month):
    if month == 2:
        return 29 if is_leap(year) else 28
    return 30 if month in (4, 6, 9, 11) else 31


def new_year(year):
    """Day number of 1 January of any year."""
    before = year - 1
    return 365 * before + before // 4 - before // 100 + before // 400 - 719_162


def day_number(year, month, day):
    return new_year(year) + sum(month_days(year, m) for m in range(1, month)) + day - 1


def year_of(day):
    """The year that a day number lies in."""
    year = 1970 + day * 400 // 146_097
    while new_year(year) > day:
        year -= 1
    while new_year(year + 1) <= day:
        year += 1
    return year


def weekday(day):
    """0 for Monday to 6 for Sunday; day 0 was a Thursday."""
    return (day + 3) % 7


FIRST_DATE = day_number(-9999, 1, 1)
LAST_DATE = day_number(9999, 12, 31)


# ------------------------------------------------------------ footers and zones


class Footer:
    """A POSIX TZ string: offsets in seconds east, and two rules or none."""

    def __init__(self, standard, daylight=None, start=None, end=None):
        self.standard = standard
        self.daylight = daylight
        self.rules = (start, end)
        self.near = {}

    def offsets(self):
        return {self.standard} if self.daylight is None else {self.standard, self.daylight}

    def of_year(self, year):
        """The year's two changes: (instant, whether daylight time starts).

        The start is told in standard time, the end in daylight time."""
        start, end = self.rules
        return [
            (rule_second(start, year) - self.standard, True),
            (rule_second(end, year) - self.daylight, False),
        ]

    def around(self, year):
        """All changes of the years about `year`, in order; on a tie the start
        of daylight time stands last, so that it counts. A change leaves its
        year by less than nine days (168 hours and an offset of 26), so the latest
        one by any second of a year belongs to a year from two before it to one
        after it."""
        if year not in self.near:
            if len(self.near) > 4_000:
                self.near.clear()
            self.near[year] = sorted(c for y in range(year - 3, year + 3) for c in self.of_year(y))
        return self.near[year]

    def offset(self, second):
        if self.daylight is None:
            return self.standard
        changes = self.around(year_of(second // DAY))
        latest = changes[bisect_right(changes, (second, True)) - 1]
        return self.daylight if latest[1] else self.standard

    def instants(self, low, high):
        """Instants in (low, high] at which a rule asks for a change."""
        if self.daylight is None:
            return set()
        years = range(year_of(low // DAY) - 2, year_of(high // DAY) + 3)
        found = {second for year in years for second, _ in self.of_year(year)}
        return {second for second in found if low < second <= high}


def rule_second(rule, year):
    """Local second of a rule (form, numbers, time) in a year."""
    form, numbers, time = rule
    if form == "J":  # 1 to 365, 29 February is never counted
        day = new_year(year) + numbers[0] - 1
        if is_leap(year) and numbers[0] >= 60:
            day += 1
    elif form == "n":  # 0 to 365, 29 February is counted
        day = new_year(year) + numbers[0]
    else:  # month, week 1 to 5 (the last), weekday 0 for Sunday
        month, week, wanted = numbers
        first = day_number(year, month, 1)
        day = first + (wanted - (weekday(first) + 1)) % 7 + 7 * (week - 1)
        while day >= first + month_days(year, month):
            day -= 7
    return day * DAY + time


class Text:
    """Reads a footer of a file of version b"2" or b"3" from left to right; it
    raises ValueError where it can't."""

    def __init__(self, text, version):
        self.text = text
        self.version = version
        self.at = 0

    def take(self, pattern):
        found = re.compile(pattern).match(self.text, self.at)
        if found is None:
            raise ValueError("footer")
        self.at = found.end()
        return found

    def next_is(self, chars):
        return self.text[self.at : self.at + 1] in [bytes([c]) for c in chars]

    def name(self):
        self.take(rb"[A-Za-z]{3,}|<[A-Za-z0-9+-]{3,}>")

    def clock(self, digits, most):
        """hh[:mm[:ss]], hours of one to `digits` digits, 0 to `most`."""
        found = self.take(rb"([0-9]{1,%d})(?::([0-9]{2})(?::([0-9]{2}))?)?" % digits)
        hours, minutes, seconds = (int(part or b"0") for part in found.groups())
        # A digit or a colon left behind makes the next reading fail.
        if hours > most or minutes > 59 or seconds > 59:
            raise ValueError("footer")
        return hours * 3600 + minutes * 60 + seconds

    def offset(self):
        """Offsets are written west of UTC; they are the same in both versions."""
        sign = self.take(rb"[+-]?").group()
        return self.clock(2, 24) if sign == b"-" else -self.clock(2, 24)

    def rule_time(self):
        """A rule's time, which in version 3 may have a sign, for all of it, and
        three digits of hours (RFC 8536, 3.3.1)."""
        if self.version != b"3":
            return self.clock(2, 24)
        sign = self.take(rb"[+-]?").group()
        time = self.clock(3, 167)
        return -time if sign == b"-" else time

    def rule(self):
        if self.next_is(b"J"):
            numbers = [int(self.take(rb"J([0-9]{1,3})").group(1))]
            form, good = "J", 1 <= numbers[0] <= 365
        elif self.next_is(b"M"):
            found = self.take(rb"M([0-9]{1,2})\.([0-9])\.([0-9])")
            numbers = [int(part) for part in found.groups()]
            month, week, day = numbers
            form, good = "M", 1 <= month <= 12 and 1 <= week <= 5 and day <= 6
        else:
            numbers = [int(self.take(rb"([0-9]{1,3})").group(1))]
            form, good = "n", numbers[0] <= 365
        if not good:
            raise ValueError("footer")
        time = 2 * 3600
        if self.next_is(b"/"):
            self.at += 1
            time = self.rule_time()
        return form, numbers, time


def read_footer(text, version):
    """A footer that isn't empty, of a file of version b"2" or b"3"."""
    reader = Text(text, version)
    reader.name()
    standard = reader.offset()
    if reader.at == len(text):
        return Footer(standard)
    reader.name()
    daylight = standard + 3600
    if not reader.next_is(b","):
        daylight = reader.offset()
    reader.take(b",")
    start = reader.rule()
    reader.take(b",")
    end = reader.rule()
    if reader.at != len(text):
        raise ValueError("footer")
    return Footer(standard, daylight, start, end)


class Zone:
    """Offsets in seconds east of UTC, for every second there is."""

    def __init__(self, types, times=(), numbers=(), footer=None):
        self.types = types
        self.times = list(times)
        self.numbers = list(numbers)
        self.footer = footer
        known = set(types) | (footer.offsets() if footer else set())
        self.descending = sorted(known, reverse=True)
        self.calm = (0, 0)

    def offset(self, second):
        place = bisect_right(self.times, second)
        if place == len(self.times):
            if self.footer:
                return self.footer.offset(second)
            return self.types[self.numbers[-1] if self.numbers else 0]
        return self.types[self.numbers[place - 1] if place else 0]

    def changes(self, low, high):
        """Instants in (low, high] at which the offset changes, in order."""
        times = self.times
        found = set(times[bisect_right(times, low) : bisect_right(times, high)])
        if self.footer:
            found |= self.footer.instants(low, high)
        return sorted(c for c in found if self.offset(c - 1) != self.offset(c))

    def steady(self, low, high):
        """Whether no change lies in (low, high]. The last stretch seen to be
        without change is kept."""
        start, end = self.calm
        if not start <= low <= high <= end:
            far = max(high, low + 200 * DAY)
            found = self.changes(low, far)
            self.calm = (low, found[0] - 1 if found else far)
        return high <= self.calm[1]

    def reading(self, local):
        """The second that a local second means, past the range too."""
        for offset in self.descending:  # the largest gives the earliest
            if self.offset(local - offset) == offset:
                return local - offset
        for change in self.changes(local - FARTHEST - 1, local + FARTHEST):
            before, after = self.offset(change - 1), self.offset(change)
            if change + before <= local < change + after:
                return local - before
        raise AssertionError("a local time that is neither read nor jumped over")

    def resolve(self, date, time):
        """The instant of a time of day (nanoseconds) on a date."""
        local = date * DAY * NANO + time
        instant = self.reading(local // NANO) * NANO + local % NANO
        if FIRST <= instant <= LAST:
            return instant
        return FIRST if date < new_year(0) else LAST

    def mark(self, date, time):
        """The mark of a time of day on a date: by how many seconds read so, past
        the range too. Beyond the range wins."""
        local, nano = divmod(date * DAY * NANO + time, NANO)
        if not FIRST <= self.reading(local) * NANO + nano <= LAST:
            return BEYOND
        readings = [offset for offset in self.descending if self.offset(local - offset) == offset]
        if not readings:
            return SKIPPED
        return PLAIN if len(readings) == 1 else REPEATED

    def edge(self, date, time):
        """The end of a block at a time of day on a date: its instant and its mark;
        beyond the range where there is no such date."""
        if date > LAST_DATE:
            return LAST, BEYOND
        return self.resolve(date, time), self.mark(date, time)

    def date_at(self, instant):
        second = instant // NANO
        return (second + self.offset(second)) // DAY

    def local_dates(self, low, high):
        """First and last date whose blocks a window looks at."""
        first = self.date_at(low)
        if first - 2 >= FIRST_DATE:
            first -= 2
        last = self.date_at(high)
        if last + 1 <= LAST_DATE:
            last += 1
        return first, last


UTC = Zone([0])


def number(data, at, size, signed=False):
    if at < 0 or at + size > len(data):
        raise ValueError("too short")
    return int.from_bytes(data[at : at + size], "big", signed=signed)


def read_zone(data):
    """A TZif file; ValueError where it isn't usable."""
    _, start = read_header(data, 0, None, 4, 8)
    counts, end = read_header(data, start, data[4], 8, 12)
    ut_count, std_count, leaps, transitions, types, letters = counts
    good = (
        1 <= types <= 256
        and transitions <= 2_048
        and leaps == 0
        and ut_count in (0, types)
        and std_count in (0, types)
        and letters >= 1
    )
    if not good or end > len(data):
        raise ValueError("counts")
    at = start + 44
    times = [number(data, at + 8 * i, 8, True) for i in range(transitions)]
    at += 8 * transitions
    numbers = list(data[at : at + transitions])
    at += transitions
    offsets = []
    for i in range(types):
        offset = number(data, at + 6 * i, 4, True)
        daylight, letter = data[at + 6 * i + 4], data[at + 6 * i + 5]
        if abs(offset) > FARTHEST or daylight > 1 or letter >= letters:
            raise ValueError("type")
        offsets.append(offset)
    at += 6 * types + letters
    if any(flag > 1 for flag in data[at:end]):
        raise ValueError("indicator")
    if any(a >= b for a, b in zip(times, times[1:])) or any(n >= types for n in numbers):
        raise ValueError("transitions")
    rest = data[end:]
    if len(rest) < 2 or rest[:1] != b"\n" or rest[-1:] != b"\n":
        raise ValueError("newlines")
    footer = read_footer(rest[1:-1], data[4:5]) if rest[1:-1] else None
    return Zone(offsets, times, numbers, footer)


def read_header(data, at, version, time_size, leap_size):
    """The six counts of the header at `at`, and where its data block ends."""
    if data[at : at + 4] != b"TZif" or data[at + 4 : at + 5] not in (b"2", b"3"):
        raise ValueError("header")
    if version is not None and data[at + 4] != version:
        raise ValueError("version")
    counts = [number(data, at + 20 + 4 * i, 4) for i in range(6)]
    ut_count, std_count, leaps, transitions, types, letters = counts
    size = (time_size + 1) * transitions + 6 * types + letters + leap_size * leaps
    return counts, at + 44 + size + std_count + ut_count


# ------------------------------------------------------------- pack and rule book


def directory(data):
    """The records (offset, bytes) of a book or pack; ValueError if broken."""
    count = number(data, 0, 4)
    if 4 + 8 * count > len(data):
        raise ValueError("directory")
    free = 4 + 8 * count
    records = []
    for i in range(count):
        offset, length = number(data, 4 + 8 * i, 4), number(data, 8 + 8 * i, 4)
        if offset < free or length == 0 or offset + length > len(data):
            raise ValueError("record")
        records.append((offset, data[offset : offset + length]))
        free = offset + length
    return records


def read_pack(data):
    """The pack's (name, file) pairs; refusal 3."""
    try:
        records = directory(data)
        if len(records) > 1_024:
            raise ValueError("count")
        pairs = []
        for _, record in records:
            length = record[0]
            if not 1 <= length <= 64 or 1 + length > len(record):
                raise ValueError("name")
            pairs.append((record[1 : 1 + length], record[1 + length :]))
        return pairs
    except ValueError:
        raise Refusal(3) from None


def folded(name):
    return bytes(c + 32 if 65 <= c <= 90 else c for c in name)


class Pack:
    def __init__(self, data):
        self.first = {}
        for name, file in read_pack(data):
            self.first.setdefault(folded(name), file)
        self.zones = {}

    def zone(self, name, place):
        """The zone of a name that isn't empty; refusals 4 and 5."""
        key = folded(name)
        if key not in self.first:
            raise Refusal(4, place)
        if key not in self.zones:
            try:
                self.zones[key] = read_zone(self.first[key])
            except ValueError:
                raise Refusal(5, place) from None
        return self.zones[key]


def read_record(offset, record):
    """(kind, place, name, body) of a book's record; ValueError if broken."""
    if len(record) < 2 or record[0] > 3 or record[1] > 64:
        raise ValueError("record")
    kind, end = record[0], 2 + record[1]
    if len(record) < end:
        raise ValueError("name")
    name, body = record[2:end], record[end:]
    if kind == 0:
        if body:
            raise ValueError("body")
        return kind, offset, name, None
    if kind in (1, 2):
        if len(body) != 17 or body[0] > 127:
            raise ValueError("shift")
        times = []
        for at in (1, 9):
            second, nano = number(body, at, 4), number(body, at + 4, 4)
            if second >= DAY or nano >= NANO:
                raise ValueError("time")
            times.append(second * NANO + nano)
        return kind, offset, name, (body[0], *times)
    count = number(body, 0, 2)
    if len(body) != 2 + 4 * count:
        raise ValueError("dates")
    dates = []
    for at in range(2, len(body), 4):
        year, month, day = number(body, at, 2, True), body[at + 2], body[at + 3]
        if not -9999 <= year <= 9999 or not 1 <= month <= 12:
            raise ValueError("date")
        if not 1 <= day <= month_days(year, month):
            raise ValueError("date")
        dates.append(day_number(year, month, day))
    return kind, offset, name, dates


def read_book(data):
    """All records of a book; refusals 1 and 2."""
    try:
        records = [read_record(*record) for record in directory(data)]
    except ValueError:
        raise Refusal(1) from None
    kinds = [record[0] for record in records]
    dates = sum(len(record[3]) for record in records if record[0] == 3)
    if len(records) > 64 or kinds.count(1) > 16 or kinds.count(2) > 16:
        raise Refusal(2)
    if kinds.count(3) > 8 or dates > 512:
        raise Refusal(2)
    return records


# ----------------------------------------------------------------- marked blocks

# A marked block is its start and its end, each an edge: an instant and a mark.


def merged(blocks):
    """Marked blocks, those that overlap or touch made one. Of the starts that are
    the least, and of the ends that are the greatest, the greatest mark is kept."""
    groups = []
    for start, end in sorted(blocks, key=lambda block: block[0][0]):
        if groups and start[0] <= max(end[0] for _, end in groups[-1]):
            groups[-1].append((start, end))
        else:
            groups.append([(start, end)])
    found = []
    for group in groups:
        first = min(start[0] for start, _ in group)
        last = max(end[0] for _, end in group)
        first_mark = max(start[1] for start, _ in group if start[0] == first)
        last_mark = max(end[1] for _, end in group if end[0] == last)
        found.append(((first, first_mark), (last, last_mark)))
    return found


def subtracted(blocks, gaps):
    """Marked blocks less the gaps, both merged. Where a gap cuts, the new end is
    the gap's edge; one that only touches cuts nothing."""
    found = []
    for start, end in blocks:
        for gap_start, gap_end in gaps:
            if gap_end[0] <= start[0] or end[0] <= gap_start[0]:
                continue
            if start[0] < gap_start[0]:
                found.append((start, gap_start))
            start = gap_end
        if start[0] < end[0]:
            found.append((start, end))
    return found


def cut(blocks, low, high):
    """Marked blocks cut to a window. An end that is moved is plain; one on the
    border isn't moved."""
    found = []
    for start, end in blocks:
        if start[0] < low:
            start = low, PLAIN
        if end[0] > high:
            end = high, PLAIN
        if start[0] < end[0]:
            found.append((start, end))
    return found


# ------------------------------------------------------------------ the schedule


class Shift:
    """A work or break record with its zone."""

    def __init__(self, zone, days, start, end):
        self.zone = zone
        self.days = days
        self.start = start
        self.end = end

    def blocks(self, low, high):
        first, last = self.zone.local_dates(low, high)
        for date in range(first, last + 1):
            if self.days >> weekday(date) & 1:
                ending = date + 1 if self.end <= self.start else date
                start = self.zone.resolve(date, self.start)
                end = self.zone.resolve(ending, self.end) if ending <= LAST_DATE else LAST
                yield start, end

    def marked(self, low, high):
        """The same blocks with their marks, those that hold nothing left out."""
        first, last = self.zone.local_dates(low, high)
        for date in range(first, last + 1):
            if self.days >> weekday(date) & 1:
                start = self.zone.edge(date, self.start)
                end = self.zone.edge(date + (self.end <= self.start), self.end)
                if start[0] < end[0]:
                    yield start, end


class Holidays:
    """A holiday record with its zone."""

    def __init__(self, zone, dates):
        self.zone = zone
        self.dates = sorted(set(dates))

    def among(self, low, high):
        """Its dates among the local dates of a span."""
        first, last = self.zone.local_dates(low, high)
        return self.dates[bisect_left(self.dates, first) : bisect_right(self.dates, last)]

    def blocks(self, low, high):
        for date in self.among(low, high):
            start = self.zone.resolve(date, 0)
            end = self.zone.resolve(date + 1, 0) if date < LAST_DATE else LAST
            yield start, end

    def marked(self, low, high):
        """The same blocks with their marks, those that hold nothing left out."""
        for date in self.among(low, high):
            start, end = self.zone.edge(date, 0), self.zone.edge(date + 1, 0)
            if start[0] < end[0]:
                yield start, end


class Schedule:
    """A book that was built over a pack."""

    def __init__(self, book, pack):
        records = read_book(book)
        zones = Pack(pack)
        default = UTC
        for kind, place, name, _ in reversed(records):
            if kind == 0:
                if not name:
                    raise Refusal(4, place)
                default = zones.zone(name, place)
                break
        self.default = default
        self.work, self.breaks, holidays = [], [], []
        for kind, place, name, body in records:
            if kind == 0:
                continue
            zone = zones.zone(name, place) if name else default
            if kind == 3:
                holidays.append(Holidays(zone, body))
            else:
                (self.work if kind == 1 else self.breaks).append(Shift(zone, *body))
        self.zones = list(dict.fromkeys(rule.zone for rule in self.work + self.breaks))
        self.free = (0, 0)  # see skippable
        self.holidays = []
        if not self.working_time(BUILD_START, BUILD_START + 2 * WINDOW):
            raise Refusal(6)
        self.holidays = holidays
        days = 366 + 7 * sum(len(rule.dates) for rule in holidays)
        self.limit = days * DAY * NANO
        self.every = False

    def working_time(self, low, high):
        """The maximal stretches of working time that a window shows: swept
        over from edge to edge, with how many work rules and how many breaks
        and holidays run at the moment."""
        edges = {}

        def put(blocks, which):
            for start, end in blocks:
                start, end = max(start, low), min(end, high)
                if start < end:
                    edges.setdefault(start, [0, 0])[which] += 1
                    edges.setdefault(end, [0, 0])[which] -= 1

        for rule in self.work:
            put(rule.blocks(low, high), 0)
        if not edges:
            return []
        for rule in self.breaks + self.holidays:
            put(rule.blocks(low, high), 1)
        stretches = []
        on = off = 0
        since = None
        for instant in sorted(edges):
            on += edges[instant][0]
            off += edges[instant][1]
            works = on > 0 and off == 0
            if works and since is None:
                since = instant
            elif not works and since is not None:
                stretches.append((since, instant))
                since = None
        return stretches

    def marked(self, low, high):
        """The same with the marks of all ends. Work merges, and breaks with
        holidays, before subtraction; the window cuts last."""
        work = merged(block for rule in self.work for block in rule.marked(low, high))
        off = merged(block for rule in self.breaks + self.holidays for block in rule.marked(low, high))
        return cut(subtracted(work, off), low, high)

    def may_skip(self, low, high):
        """The skip test for a span, usually 11 days before and after a border."""
        if self.every or low < FIRST or high > LAST:
            return False
        if not all(zone.steady(low // NANO, high // NANO) for zone in self.zones):
            return False
        return not any(rule.among(low, high) for rule in self.holidays)

    def skippable(self, sign, border):
        """How many windows in a row may be skipped from a border on (all taken
        to be whole). Where a long span passes the test, so does each span six
        days inside it: the last such span is kept, for long walks."""
        low, high = border - REACH, border + REACH
        if not (self.free[0] <= low and high <= self.free[1]):
            if not self.may_skip(low, high):
                return 0
            self.free = (low, high)
            wider = 6 * DAY * NANO
            while self.may_skip(low - 2 * wider, high + 2 * wider):
                wider *= 2
                self.free = (low - wider + 6 * DAY * NANO, high + wider - 6 * DAY * NANO)
        spare = self.free[1] - high if sign > 0 else low - self.free[0]
        return 1 + spare // WINDOW

    def between(self, a, b):
        """Working time from a to b and the windows resolved."""
        if b < a:
            time, count = self.between(b, a)
            return -time, count
        total = count = 0
        known = None  # the time of the window before, which was whole
        low = a
        while low < b:
            high = min(low + WINDOW, b)
            whole = high - low == WINDOW
            if whole and known is not None:
                skipped = min(self.skippable(1, low), (b - low) // WINDOW)
                if skipped:
                    total += skipped * known
                    low += skipped * WINDOW
                    continue
            known = sum(end - start for start, end in self.working_time(low, high))
            count += 1
            total += known
            low = high
        return total, count

    # `add` and `next` walk forward, `sub` and `previous` backward. Both use
    # one walk over positions, which are instants times `sign`.

    def stretches_from(self, sign, low, high):
        if sign > 0:
            return self.working_time(low, high)
        return [(-end, -start) for start, end in reversed(self.working_time(-high, -low))]

    def move(self, sign, instant, duration):
        """The instant where `duration` (at least 0) is used up, and the
        windows resolved."""
        if duration == 0:
            return instant, 0
        end_of_range = LAST if sign > 0 else -FIRST
        left, count = duration, 0
        low = worked = sign * instant
        known = None  # time and idle rest of the window before
        while low < end_of_range:
            high = min(low + WINDOW, end_of_range)
            whole = high - low == WINDOW
            if known and whole and known[0] < left:
                skipped = self.skippable(sign, sign * low)
                skipped = min(skipped, (end_of_range - low) // WINDOW, (left - 1) // known[0])
                if skipped:
                    left -= skipped * known[0]
                    low += skipped * WINDOW
                    worked = low - known[1]
                    continue
            count += 1
            time = 0
            for start, end in self.stretches_from(sign, low, high):
                if start - worked > self.limit:
                    raise Refusal(6)
                if left <= end - start:
                    return sign * (start + left), count
                left -= end - start
                time += end - start
                worked = end
            if high - worked > self.limit:
                raise Refusal(6)
            known = (time, high - worked) if whole and time > 0 else None
            low = high
        raise Refusal(7)

    def period(self, sign, instant):
        """The period at or after (or before) an instant, as (start, end)."""
        end_of_range = LAST if sign > 0 else -FIRST
        origin = low = sign * instant
        found = None
        while low < end_of_range:
            high = min(low + WINDOW, end_of_range)
            pieces = self.stretches_from(sign, low, high)
            if found is None and pieces:
                if pieces[0][0] - origin > self.limit:
                    raise Refusal(6)
                found = pieces.pop(0)
            elif found and pieces and pieces[0][0] == found[1]:
                found = (found[0], pieces.pop(0)[1])
            if found is None and high - origin > self.limit:
                raise Refusal(6)
            if found and (pieces or found[1] < high or found[1] - found[0] >= self.limit):
                break
            low = high
        if found is None:
            raise Refusal(7)
        start, end = found[0], min(found[1], found[0] + self.limit)
        return (start, end) if sign > 0 else (-end, -start)

    def marked_from(self, sign, low, high):
        if sign > 0:
            return self.marked(low, high)
        return [((-end[0], end[1]), (-start[0], start[1])) for start, end in reversed(self.marked(-high, -low))]

    def marked_period(self, sign, instant):
        """The period with the marks of both ends, each an edge. Pieces that touch
        at a window's border join, and the ends between them vanish."""
        end_of_range = LAST if sign > 0 else -FIRST
        given = low = sign * instant
        period = None
        ended = False
        while low < end_of_range and not ended:
            high = min(low + WINDOW, end_of_range)
            for start, end in self.marked_from(sign, low, high):
                if period is None:
                    if start[0] - given > self.limit:
                        raise Refusal(6)
                    period = start, end
                elif period[1][0] == start[0]:
                    period = period[0], end
                else:
                    ended = True
                    break
            if period is None and high - given > self.limit:
                raise Refusal(6)
            if period and (period[1][0] < high or period[1][0] - period[0][0] >= self.limit):
                ended = True
            low = high
        if period is None:
            raise Refusal(7)
        start, end = period
        if end[0] - start[0] > self.limit:
            end = start[0] + self.limit, PLAIN
        return (start, end) if sign > 0 else ((-end[0], end[1]), (-start[0], start[1]))

    def listing(self, low, high, room):
        """All maximal stretches in [low, high); refusal 10 if `room` numbers
        are too few for them."""
        found = []
        while low < high:
            border = min(low + WINDOW, high)
            for start, end in self.working_time(low, border):
                if found and found[-1][1] == start:
                    found[-1] = (found[-1][0], end)
                else:
                    found.append((start, end))
            low = border
        if 4 * len(found) > room:
            raise Refusal(10)
        return found

    def hardest(self, given, runs, width):
        """The most working time of runs in a window of `width` that starts at a
        run's start, and the start of the earliest such window; with no runs zero
        and the instant given. What `between` gives for a part is kept, since
        windows share most parts."""
        times = {}
        best = None
        for low, _ in runs:
            high = min(low + width, LAST)
            total = 0
            for start, end in runs:
                if low < end and start < high:
                    part = max(start, low), min(end, high)
                    if part not in times:
                        times[part] = self.between(*part)[0]
                    total += times[part]
            if best is None or total > best[0]:
                best = total, low
        return best or (0, given)


# ----------------------------------------------------------------------- tickets


class Ticket:
    """A service ticket: the commands that it took, as they were given, and nothing
    else. What they come to is worked out from the whole list after each.

    A command goes on from the one before it, one that sets back from the mark it
    goes back to. What remains is the last command and all that it goes on from."""

    def __init__(self):
        self.commands = []  # word, name, instant

    def latest_mark(self, name, end):
        """The place of the latest command before the place `end` that set this
        mark, -1 for none. Where that one does not remain the mark is not set: the
        ones before it are gone for good."""
        places = [place for place in range(end) if self.commands[place][:2] == ("mark", name)]
        return places[-1] if places else -1

    def before(self, place):
        """The place of the command that a command goes on from, -1 for the first."""
        word, name, _ = self.commands[place]
        return self.latest_mark(name, place) if word == "back" else place - 1

    def remaining(self):
        """The places of the commands that remain, in order."""
        places = []
        place = len(self.commands) - 1
        while place >= 0:
            places.append(place)
            place = self.before(place)
        return places[::-1]

    def state(self):
        """The state that the last of what remains leaves, but for marks and
        set-backs, which leave it as it is."""
        words = [self.commands[place][0] for place in self.remaining()]
        states = [HELD if word == "hold" else RUNNING for word in words if word not in ("mark", "back")]
        return states[-1] if states else NEW

    def allows(self, word, name):
        """Whether a command is allowed in this state, and its mark set or, where it
        sets one, one of the eight."""
        if word == "start":
            return self.state() == NEW
        if word == "hold":
            return self.state() == RUNNING
        if word == "resume":
            return self.state() == HELD
        if word == "mark":
            return self.state() != NEW and 0 <= name < NAMES
        return self.latest_mark(name, len(self.commands)) in self.remaining()

    def take(self, word, name, instant):
        """Takes a command; refusals 13 and 14. The last instant is that of the last
        command, whether it remains or not."""
        if self.commands and instant < self.commands[-1][2]:
            raise Refusal(13)
        if not self.allows(word, name):
            raise Refusal(14)
        self.commands.append((word, name, instant))

    def spells(self):
        """The running spells of what remains, as start and end, the last of them up
        to the last command. A mark splits none. One that ran at the mark that was
        gone back to ends at the mark, and another begins at the set-back."""
        found = []
        since = at = None  # since when it runs; the instant of the command before
        for place in self.remaining():
            word, _, instant = self.commands[place]
            if word in ("start", "resume"):
                since = instant
            elif word == "hold":
                found.append((since, instant))
                since = None
            elif word == "back" and since is not None:
                found.append((since, at))
                since = instant
            at = instant
        return found if since is None else found + [(since, at)]


# ------------------------------------------------------------------- query lines


FORMS = {b"between": 4, b"add": 4, b"sub": 4, b"next": 2, b"previous": 2}
NUMBER = re.compile(rb"-?[0-9]+\Z")


def read_line(line, listing):
    """Word and numbers of a query line, or None for any other line."""
    word, *fields = line.split(b" ")
    wanted = 5 if listing and word == b"list" else FORMS.get(word)
    if wanted is None or len(fields) != wanted:
        return None
    numbers = read_numbers(fields)
    if numbers is None or wanted == 5 and numbers[4] < 0:
        return None
    return word.decode(), numbers


def read_numbers(fields):
    """Signed 64-bit numbers, or None where a field is no such number."""
    numbers = []
    for field in fields:
        if not NUMBER.match(field):
            return None
        digits = field.lstrip(b"-").lstrip(b"0") or b"0"
        value = int(digits) if len(digits) < 20 else 2**64
        value = -value if field[:1] == b"-" else value
        if not -(2**63) <= value < 2**63:
            return None
        numbers.append(value)
    return numbers


def read_call(line):
    """The same for a line `hardest SEC NS WIDTH NUMBER..`."""
    word, *fields = line.split(b" ")
    numbers = read_numbers(fields)
    if word != b"hardest" or len(fields) < 3 or numbers is None:
        return None
    return word.decode(), numbers


MARKED = {b"resolve": 5, b"next": 2, b"previous": 2, b"blocks": 4}


def read_marked(line):
    """The same for a line that tells marks."""
    word, *fields = line.split(b" ")
    numbers = read_numbers(fields)
    if MARKED.get(word) != len(fields) or numbers is None:
        return None
    return word.decode(), numbers


TICKETED = {b"ticket": 0, b"start": 2, b"hold": 2, b"resume": 2, b"mark": 3, b"back": 3}


def read_ticketed(line):
    """The same for a line about a ticket."""
    word, *fields = line.split(b" ")
    numbers = read_numbers(fields)
    if TICKETED.get(word) != len(fields) or numbers is None:
        return None
    return word.decode(), numbers


def read_instant(second, nano):
    if not 0 <= nano < NANO or not FIRST <= second * NANO + nano <= LAST:
        raise Refusal(8)
    return second * NANO + nano


def read_duration(second, nano):
    if abs(nano) >= NANO or second * nano < 0:
        raise Refusal(9)
    return second * NANO + nano


def read_local(year, month, day, second, nano):
    """A date and a time of day."""
    if not -9999 <= year <= 9999 or not 1 <= month <= 12 or not 1 <= day <= month_days(year, month):
        raise Refusal(8)
    if not 0 <= second < DAY or not 0 <= nano < NANO:
        raise Refusal(8)
    return day_number(year, month, day), second * NANO + nano


def read_log(given, numbers):
    """The runs of a log from an instant on, each as start and end; refusal 11."""
    if len(numbers) % 2 or len(numbers) > 2 * RUNS:
        raise Refusal(11)
    runs = []
    ended = 0  # the least offset that the next run may have
    for offset, length in zip(numbers[::2], numbers[1::2]):
        if offset < ended or length < 1:
            raise Refusal(11)
        ended = offset + length
        if given + ended * NANO > LAST:
            raise Refusal(11)
        runs.append((given + offset * NANO, given + ended * NANO))
    return runs


def read_width(width):
    if not 1 <= width <= WIDEST:
        raise Refusal(12)
    return width * NANO


def show_instant(instant):
    return f"{instant // NANO} {instant % NANO}"


def show_duration(duration):
    sign = -1 if duration < 0 else 1
    return f"{sign * (abs(duration) // NANO)} {sign * (abs(duration) % NANO)}"


def begun(span):
    return -(-abs(span) // WINDOW)


def answer(schedule, word, numbers, bounds):
    """The `ok` line for a query; Refusal otherwise."""
    first = read_instant(*numbers[:2])
    if word in ("next", "previous"):
        start, end = schedule.period(1 if word == "next" else -1, first)
        return f"ok {show_instant(start)} {show_instant(end)}"
    if word == "hardest":
        runs = read_log(first, numbers[3:])
        width = read_width(numbers[2])
        time, start = schedule.hardest(first, runs, width)
        return f"ok {show_duration(time)} {show_instant(start)}"
    if word == "between":
        second = read_instant(*numbers[2:])
        time, least = schedule.between(first, second)
        shown, most = show_duration(time), begun(second - first)
    elif word == "list":
        second = read_instant(*numbers[2:4])
        found = schedule.listing(first, second, numbers[4])
        shown = "".join(f" {show_instant(a)} {show_instant(b)}" for a, b in found)
        return f"ok {len(found)}{shown}"
    else:
        duration = read_duration(*numbers[2:])
        sign = 1 if word == "add" else -1
        if duration < 0:
            if numbers[2] == -(2**63):
                raise Refusal(7)
            sign, duration = -sign, -duration
        moved, least = schedule.move(sign, first, duration)
        shown, most = show_instant(moved), begun(moved - first)
    return f"ok {shown} {least} {most}" if bounds else f"ok {shown} {least}"


def resolved(zone, numbers):
    """The edge of a local time: year, month, day, second, nanosecond."""
    return zone.edge(*read_local(*numbers))


def show_edge(edge):
    return f"{show_instant(edge[0])} {MARKS[edge[1]]}"


def marked_answer(schedule, word, numbers):
    """The `ok` line for a call that tells marks; Refusal otherwise."""
    if word == "resolve":
        return f"ok {show_edge(resolved(schedule.default, numbers))}"
    given = read_instant(numbers[0], numbers[1])
    if word == "blocks":
        found = schedule.marked(given, read_instant(numbers[2], numbers[3]))
        return "ok" + "".join(f" {show_edge(edge)}" for block in found for edge in block)
    start, end = schedule.marked_period(1 if word == "next" else -1, given)
    return f"ok {show_instant(start[0])} {show_instant(end[0])} {MARKS[start[1]]} {MARKS[end[1]]}"


def command_answer(schedule, refused, ticket, word, numbers):
    """The `ok` line for a command to a ticket; Refusal otherwise, first that of the
    book if it has one."""
    if refused:
        raise refused
    name = numbers[0] if word in ("mark", "back") else None
    ticket.take(word, name, read_instant(*numbers[-2:]))
    return f"ok {show_duration(sum(schedule.between(*spell)[0] for spell in ticket.spells()))}"


def answer_tickets(schedule, refused, lines):
    """Prints the answers to the lines about tickets."""
    ticket = Ticket()
    for line in lines:
        if line.split(b" ")[0] not in TICKETED:
            continue
        command = read_ticketed(line)
        if command is None:
            print("bad")
        elif command[0] == "ticket":
            ticket = Ticket()
            print("ok 0 0")
        else:
            try:
                print(command_answer(schedule, refused, ticket, *command))
            except Refusal as refusal:
                print(f"no {refusal.number} {refusal.place}")


def read_file(path):
    try:
        with open(path, "rb") as file:
            data = file.read(FILE_LIMIT + 1)
    except OSError:
        return b""
    return data if len(data) <= FILE_LIMIT else b""


def main(arguments):
    known = {"--bounds", "--listing", "--every", "--hardest", "--marks", "--tickets"}
    options = {argument for argument in arguments if argument.startswith("--")}
    paths = [argument for argument in arguments if argument not in options]
    if options - known or len(paths) != 2:
        sys.exit("usage: second.py BOOK ZONES [--bounds] [--listing] [--every] | [--hardest] | [--marks] | [--tickets] < queries")
    refused = schedule = None
    try:
        schedule = Schedule(read_file(paths[0]), read_file(paths[1]))
        schedule.every = "--every" in options
    except Refusal as refusal:
        refused = refusal
    lines = sys.stdin.buffer.read().split(b"\n")
    if not lines[-1]:
        lines.pop()
    if "--tickets" in options:
        answer_tickets(schedule, refused, lines)
        return
    calls, marks = "--hardest" in options, "--marks" in options
    if calls:
        lines = [line for line in lines if line.startswith(b"hardest ")]
    if marks:
        lines = [line for line in lines if line.split(b" ")[0] in MARKED]
    for line in lines:
        query = read_marked(line) if marks else read_call(line) if calls else read_line(line, "--listing" in options)
        try:
            if query is None:
                print("bad")
            elif refused:
                print(f"no {refused.number} {refused.place}")
            elif marks:
                print(marked_answer(schedule, *query))
            else:
                print(answer(schedule, *query, "--bounds" in options))
        except Refusal as refusal:
            print(f"no {refusal.number} {refusal.place}")


if __name__ == "__main__":
    main(sys.argv[1:])
