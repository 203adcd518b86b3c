#!/usr/bin/env python3
"""Holds a program's marks to those of second.py.

Usage: marks.py SEED COUNT PROGRAM

Makes COUNT cases from SEED: books and packs of generate.py's families and of
families with more changes of zones, and zone files, each with some questions and
the answers of second.py. They go to files marks.bin, one after the other, in a new
folder, where PROGRAM (out/test_replay_marks as `rt run` in crates/test_replay_marks
builds it) is run without arguments. A line of PROGRAM about a question whose answer
differs is printed, the file of such cases is kept, and the command ends with 1. The
last lines printed tell the marks asked for and all numbers. ZONEINFO tells where real
zone files are (if not set /usr/share/zoneinfo).

In marks.bin a case is three numbers of 4 bytes, the lengths of its parts, and then
the parts: book, pack, questions. A question is its kind, its length in bytes, the
refusal's number (0 for none) and its place, 4 bytes each, then what is asked and the
answer, numbers of 8 bytes (zeros where it is refused):

  kind          asked                                  answer
  0  resolve    year, month, day, second, nanoseconds  instant, mark
  1  next       instant                                start, end, their marks
  2  previous   instant                                start, end, their marks
  3  blocks     the window's start and end             how many blocks; start, mark,
                                                       end, mark of each

An instant, a start and an end are seconds and nanoseconds. Marks are 0 plain, 1
repeated, 2 skipped, 3 beyond. Numbers of 8 bytes are signed (two's complement); all
are big-endian. A case with questions of kind 0 has no book, and its pack is a zone
file. The window of kind 3 lies in the range, does not end before it starts and has at
most seven days.
"""

import os
import random
import re
import shutil
import struct
import subprocess
import sys
import tempfile

sys.dont_write_bytecode = True  # no cache beside the sources

import generate
import second
from generate import BUILD, FIRST_S, LAST_S, MON, default, holidays, pack_record, shift, tzif
from second import DAY, FIRST, LAST, NANO, WINDOW
from zone_ask import date_of

WEEK = 7 * DAY
MOST = 300_000  # bytes of a file
LEAST_I64, MOST_I64 = -(2**63), 2**63 - 1
RESOLVE, NEXT, PREVIOUS, BLOCKS = range(4)  # kinds
ASKED = (5, 2, 2, 4)  # how many numbers a kind asks with
TOLD = (3, 6, 6, 1)  # how many a refused answer has
QUESTIONS = 8  # of a case
TRIES = 5  # books that are made to find one with marks
FAMILIES = {"many": 8, "apart": 6, "edges": 6, "twice": 5, "pairs": 9}  # see below
FAMILIES |= {"real": 4, "odd": 4, "footers": 2, "ends": 4, "always": 2, "jumps": 4, "year_ends": 2, "wide": 2}
FAMILIES |= {"gaps": 1, "exact_gaps": 1, "end_gaps": 1, "builds": 1, "limits": 1, "names": 1, "files": 1}
LAST_LINE = re.compile(r"(\d+) cases, (\d+) answers and (\d+) refusals equal, (\d+) different")


# --------------------------------------------------------------------- marks.bin


class Case:
    """A book and a pack, or a zone file, as a second.py reads them. `module` has
    the names of it."""

    def __init__(self, module, book, pack):
        self.module = module
        self.book = book
        self.pack = pack
        self.read = {}

    def schedule(self):
        return self.once("schedule", lambda: self.module["Schedule"](self.book, self.pack))

    def zone(self):
        return self.once("zone", self.read_zone)

    def read_zone(self):
        try:
            return self.module["read_zone"](self.pack)
        except ValueError:
            raise self.module["Refusal"](5) from None

    def once(self, name, make):
        """What `make` gives, or its refusal raised, made once."""
        if name not in self.read:
            try:
                self.read[name] = make(), None
            except self.module["Refusal"] as refusal:
                self.read[name] = None, refusal
        value, refusal = self.read[name]
        if refusal:
            raise refusal
        return value

    def told(self, question):
        """The answer's numbers."""
        kind, numbers = question[0], question[1:]
        if kind == RESOLVE:
            instant, mark = self.module["resolved"](self.zone(), numbers)
            return [*split(instant), mark]
        schedule = self.schedule()
        given = self.module["read_instant"](*numbers[:2])
        if kind == BLOCKS:
            found = schedule.marked(given, self.module["read_instant"](*numbers[2:]))
            edges = [edge for block in found for edge in block]
            return [len(found)] + [number for instant, mark in edges for number in (*split(instant), mark)]
        start, end = schedule.marked_period(1 if kind == NEXT else -1, given)
        return [*split(start[0]), *split(end[0]), start[1], end[1]]

    def answer(self, question):
        """Number and place of the refusal, 0 for none, and the answer's numbers."""
        try:
            return 0, 0, self.told(question)
        except self.module["Refusal"] as refusal:
            return refusal.number, refusal.place, [0] * TOLD[question[0]]


def split(instant):
    return instant // NANO, instant % NANO


def written(book, pack, questions, answers):
    """A case as it stands in marks.bin. A question is its kind and its numbers."""
    data = b""
    for (kind, *asked), (number, place, told) in zip(questions, answers):
        numbers = asked + told
        data += struct.pack(">4I", kind, 16 + 8 * len(numbers), number, place) + struct.pack(f">{len(numbers)}q", *numbers)
    return struct.pack(">3I", len(book), len(pack), len(data)) + book + pack + data


def read_questions(data):
    """The questions of a case and their answers."""
    questions, answers, at = [], [], 0
    while at < len(data):
        kind, length, number, place = struct.unpack(">4I", data[at : at + 16])
        numbers = struct.unpack(f">{length // 8 - 2}q", data[at + 16 : at + length])
        questions.append([kind, *numbers[: ASKED[kind]]])
        answers.append((number, place, list(numbers[ASKED[kind] :])))
        at += length
    return questions, answers


def read_cases(data):
    """All cases of a marks.bin: book, pack, questions, answers."""
    at = 0
    while at < len(data):
        sizes = struct.unpack(">3I", data[at : at + 12])
        at += 12
        parts = [data[at + sum(sizes[:k]) : at + sum(sizes[: k + 1])] for k in range(3)]
        at += sum(sizes)
        yield parts[0], parts[1], *read_questions(parts[2])


def case_data(book, pack, questions):
    """A case as it stands in marks.bin, with the answers of second.py."""
    case = Case(vars(second), book, pack)
    return written(book, pack, questions, [case.answer(question) for question in questions])


def ends_told(question, told):
    """The marks of an answer: those of starts, those of ends."""
    kind = question[0]
    if kind == RESOLVE:
        return [], []
    if kind == BLOCKS:
        return told[3::6], told[6::6]
    return told[4:5], told[5:6]


# -------------------------------------------- books and zones with many changes


def many_zone(rng, about):
    """Changes hours to days apart, each by a second to a day and more."""
    base = rng.choice([0, 0, 3600, -7200, 19_800, 50_400, -43_200, rng.randint(-40_000, 40_000)])
    steps = rng.choice([[3600], [3600, 7200], [1800, 3600], [1, 60, 3600], [10_800, 43_200], [40_000, 86_399], [600, 3600, 50_000]])
    types = [base] + [base + rng.choice([1, -1]) * step for step in steps for _ in range(2)]
    types = [max(-93_599, min(93_599, offset)) for offset in types]
    space = rng.choice([[600, 1800, 3600], [3600, 7200, 14_400], [6 * 3600, DAY], [DAY, DAY + 1, WEEK], [3 * DAY, WEEK, 10 * DAY]])
    count = rng.choice([4, 10, 20, 40])
    at = about - rng.randint(0, count) * min(space)
    changes, last = [], 0
    for _ in range(count):
        kind = rng.choice([place for place in range(len(types)) if types[place] != types[last]] or [0])
        changes.append((at, kind))
        last = kind
        at += rng.choice(space) + rng.choice([0, 0, 1, -1])
    footer = rng.choice([b"", b"", b"CET-1CEST,M3.5.0,M10.5.0/3", b"<-02>2<-01>,M3.5.0/-1,M10.5.0/0"])
    return tzif(types, changes, footer, b"3")


def apart_zone(rng, about):
    """A few changes of many hours: of a day, of two, of nearly all that there is."""
    far = rng.choice([36_000, 43_200, 50_400, 86_399, 86_400, 86_401, 93_599])
    low = rng.choice([-far, 0, far - 93_599])
    types = [low, min(93_599, low + far), rng.choice([0, low + far // 2, 3600])]
    at = about + rng.randint(-2 * DAY, 2 * DAY)
    changes = []
    for _ in range(rng.choice([1, 2, 2, 3, 5])):
        changes.append((at, rng.choice([1, 0, 1, 0, 2])))
        at += rng.choice([1, 600, 3600, far, far + 1, far - 1, DAY, 2 * DAY, WEEK])
    return tzif(types, changes)


def twice_zone(rng, about):
    """A footer with two changes a year, or transitions of that kind."""
    footers = [b"CET-1CEST,M3.5.0,M10.5.0/3", b"EST5EDT,M3.2.0,M11.1.0", b"<-02>2<-01>,M3.5.0/-1,M10.5.0/0"]
    footers += [b"<+1030>-10:30<+11>-11,M10.1.0,M4.1.0", b"EET-2EEST,M3.4.4/50,M10.4.4/50", b"AAA0BBB-12,J70/0,J150/12"]
    footers += [b"IST-1GMT0,M10.5.0,M3.5.0/1", b"AAA3BBB,M3.2.0/0,M11.1.0/0", b"AAA-14BBB-24:59:59,0/0,J365/23"]
    return tzif([rng.choice([0, 3600, -18_000])], (), rng.choice(footers), b"3")


def times_about(rng, zone, change):
    """Local times about a change, as seconds of the day in the zone and in UTC: most
    are skipped or come twice there, others fall on the same instant as one of these."""
    before, after = zone.offset(change - 1), zone.offset(change)
    low, high = sorted((change + before, change + after))
    inside = [low, high - 1, (low + high) // 2, min(low + 600, high - 1), rng.randrange(low, high)]
    if rng.random() < 0.6:
        inside = [rng.choice(inside)]
    near = inside * 2 + [second_ + high - low for second_ in inside] + rng.sample([low - 1, high, high + 1], 4 - min(3, len(inside)))
    return [second_ % DAY for second_ in near], [(second_ - before) % DAY for second_ in inside * 2] + [change % DAY]


def aimed_shift(rng, kind, name, pool, records):
    """A rule with ends of a pool of times, or such as another rule has."""
    start = (rng.choice(pool), rng.choice([0, 0, 0, 0, 0, 1, NANO - 1]))
    form = rng.random()
    end = (rng.choice(pool), start[1])
    if form < 0.4:
        end = ((start[0] + rng.choice([1, 60, 1800, 3600, 7200, rng.randint(1, 36_000)])) % DAY, start[1])
    elif form < 0.6:
        end = generate.time_of_day(rng)
    if rng.random() < 0.3:
        start, end = end, start
    if records and rng.random() < 0.3:
        same = rng.choice(struct.unpack(">2Q", rng.choice(records)[-16:]))
        start, end = rng.choice([(start, divmod(same, 2**32)), (divmod(same, 2**32), end)])
    days = rng.choice([0x7F, 0x7F, 0x7F, 0x7F, 1 << rng.randrange(7), rng.randrange(1, 128)])
    return shift(kind, name, days, start, end)


def aimed(rng, zone_of, abouts):
    """A case: a zone or two, and rules whose ends lie about their changes, in their
    own time and in UTC."""
    about = rng.choice(abouts)
    zones = [(b"Z%d" % place, zone_of(rng, about)) for place in range(rng.choice([1, 1, 1, 2]))]
    names = [name for name, _ in zones]
    changes, pools, utc = [], {}, [0]
    for name, file in zones:
        zone = second.read_zone(file)
        found = zone.changes(about - 400 * DAY, about + 400 * DAY)
        found = rng.sample(found, min(len(found), rng.choice([1, 1, 2, 5])))
        changes += found
        times = [times_about(rng, zone, change) for change in found]
        pools[name] = [second_ for own, _ in times for second_ in own] or [0]
        utc += [second_ for _, instants in times for second_ in instants]
    pools[b"UTC"] = utc
    records = []
    for kind, counts in ((1, [1, 1, 2, 2, 3, 5]), (2, [0, 0, 1, 1, 2, 4])):
        for _ in range(rng.choice(counts)):
            name = rng.choice(names * 3 + [b"UTC"])
            records.append(aimed_shift(rng, kind, name, pools[name], records))
    if len(records) > 1 and rng.random() < 0.2:
        records.append(shift(1, rng.choice(names), 0x7F, (0, 0), (0, 0)))
    for _ in range(rng.choice([0, 0, 1, 2])):
        dates = [generate.date_near(rng, rng.choice(changes + [about])) for _ in range(rng.choice([1, 2, 4]))]
        records.append(holidays(rng.choice(names + [b"UTC"]), dates))
    if rng.random() < 0.2:
        records.append(shift(1, b"", 0x7F, generate.time_of_day(rng), generate.time_of_day(rng)))
    records.append(default(rng.choice(names)))
    rng.shuffle(records)
    pack = [pack_record(*zone) for zone in zones + [(b"UTC", tzif([0]))]]
    return records, pack, changes or [about]


def edge_zone(rng, about):
    """Changes about an end of the range, before and behind it."""
    zone_of = rng.choice([many_zone, apart_zone])
    return zone_of(rng, about + rng.randint(-DAY, DAY))


def pairs(rng):
    """A case: rules that have an end at one instant, by a local time that comes twice,
    one that is skipped, a plain one, or one beyond the range; breaks and holidays
    too."""
    at = rng.choice([MON + rng.randrange(WEEK)] * 4 + [BUILD + 90 * DAY + rng.randrange(DAY), FIRST_S, LAST_S])
    nano = NANO - 1 if at == LAST_S else rng.choice([0, 0, 0, 1]) if at != FIRST_S else 0
    east = [rng.choice([0, 3600, -18_000, 43_200, (-at) % DAY, (-at) % DAY - DAY]) for _ in range(2)]
    near, far = (rng.choice([1800, 3600, 50_000, DAY]) for _ in range(2))
    near, far = min(near, east[0] + 93_599) or 1, min(far, 93_599 - east[1]) or 1
    zones = [(b"Rep", tzif([east[0], east[0] - near], [(at + rng.randint(1, near), 1)]))]
    zones += [(b"Skip", tzif([east[1], east[1] + far], [(at - rng.randrange(far), 1)])), (b"UTC", tzif([0]))]
    times = {b"Rep": (at + east[0]) % DAY, b"Skip": (at + east[1]) % DAY, b"UTC": at % DAY}
    days = rng.choice([0x7F, 0x7F, 1 << second.weekday(at // DAY)])
    records = []
    for place in range(rng.choice([2, 2, 3, 3, 4, 6])):
        name = rng.choice(list(times))
        length = rng.choice([600, 3600, 14_400, 36_000, 60_000])
        ends = [(times[name], nano), ((times[name] + rng.choice([1, -1]) * length) % DAY, 0)]
        rng.shuffle(ends)
        records.append(shift(2 if place and rng.random() < 0.4 else 1, name, days, *ends))
    if rng.random() < 0.35:
        records.append(shift(1, rng.choice(list(times)), 0x7F, (0, 0), (0, 0)))
    for _ in range(rng.choice([0, 0, 1, 2])):
        day = max(second.FIRST_DATE, min(second.LAST_DATE, (at + rng.choice(east + [0])) // DAY + rng.choice([0, 0, -1, 1, -7, 7])))
        records.append(holidays(rng.choice(list(times)), [date_of(day)]))
    rng.shuffle(records)
    return records, [pack_record(*zone) for zone in zones], [at]


OWN = {
    "many": lambda rng: aimed(rng, many_zone, [MON, MON, BUILD + 90 * DAY]),
    "apart": lambda rng: aimed(rng, apart_zone, [MON, MON, BUILD + 90 * DAY]),
    "twice": lambda rng: aimed(rng, twice_zone, [MON + 84 * DAY, MON + 294 * DAY]),
    "edges": lambda rng: aimed(rng, edge_zone, [FIRST_S, LAST_S]),
    "pairs": pairs,
}


def family_case(rng, title, zoneinfo):
    """Records, pack records and instants of note, in seconds; of a family of its own
    such that blocks there have marks, if some tries give one."""
    if title not in OWN:
        records, pack, lines, _ = generate.family_of(title)(rng, zoneinfo)
        return records, pack, lines.abouts
    for _ in range(TRIES):
        records, pack, abouts = OWN[title](rng)
        schedule = generate.schedule_of(generate.join(records), generate.join(pack), False)
        if schedule and blocks_about(rng, schedule, abouts)[0]:
            break
    return records, pack, abouts


# --------------------------------------------------------------------- questions


def clamped(instant):
    return max(FIRST, min(LAST, instant))


def blocks_about(rng, schedule, abouts):
    """Blocks about instants of note, as pairs of instants: those with a mark, all."""
    found = []
    for about in rng.sample(abouts, min(len(abouts), 4)):
        low = clamped((about - rng.choice([1, 3, 6]) * DAY) * NANO)
        found += schedule.marked(low, clamped(low + WINDOW))
    marked = [(start[0], end[0]) for start, end in found if start[1] or end[1]]
    return marked, [(start[0], end[0]) for start, end in found]


def instant_of(rng, sign, schedule, abouts, blocks):
    """An instant to go on from (or back, by `sign`): about a block, mostly one with a
    mark, at its start, inside it, or such that its end lies on a window's border or
    the search limit away."""
    marked, every = blocks
    pool = marked if marked and rng.random() < 0.85 else every
    if not pool or rng.random() < 0.08:
        return clamped((rng.choice(abouts) + rng.choice([0, 0, 1, -1, 3600, DAY, -DAY, rng.randint(-WEEK, WEEK)])) * NANO)
    near, far = rng.choice(pool)[::sign]
    form = rng.random()
    if form < 0.4:
        instant = near - sign * rng.choice([0, 0, 0, 1, NANO, rng.randint(0, DAY) * NANO])
    elif form < 0.55:
        instant = rng.choice([near + sign, far - sign, far, rng.randint(min(near, far), max(near, far))])
    elif form < 0.8:
        instant = far - sign * rng.randint(1, 3) * WINDOW + rng.choice([0, 0, 0, 1, -1])
    elif form < 0.9:
        instant = rng.choice([near, far]) - sign * schedule.limit + rng.choice([0, 0, 1, -1])
    else:
        instant = near + rng.randint(-3 * WEEK, 3 * WEEK) * NANO
    return clamped(instant)


def window_of(rng, abouts, blocks):
    """A window, mostly with a border on an end of a block."""
    marked, every = blocks
    if not every or rng.random() < 0.15:
        low = rng.choice(abouts) * NANO + rng.choice([0, 1, -1]) * rng.randint(0, WINDOW)
        return clamped(low), clamped(clamped(low) + rng.choice([0, 1, NANO, DAY * NANO, WINDOW]))
    ends = [instant for block in every for instant in block]
    border = rng.choice(rng.choice(marked or every)) + rng.choice([0, 0, 0, 0, 1, -1])
    lengths = [abs(instant - border) for instant in ends if abs(instant - border) <= WINDOW]
    length = rng.choice(lengths + [WINDOW, WINDOW, DAY * NANO, rng.randint(0, WINDOW)])
    low = clamped(border - rng.choice([0, length, rng.randint(0, length)]))
    return low, clamped(low + length)


def question_of(rng, schedule, abouts, blocks):
    kind = rng.choice([NEXT, NEXT, PREVIOUS, PREVIOUS, BLOCKS])
    if kind == BLOCKS:
        low, high = window_of(rng, abouts, blocks)
        return [kind, *split(low), *split(high)]
    if rng.random() < 0.03:
        return [kind, *rng.choice([(LAST_S + 1, 0), (0, NANO), (0, -1), (LEAST_I64, MOST_I64), (FIRST_S - 1, NANO - 1)])]
    if rng.random() < 0.04:
        return [kind, *rng.choice([split(FIRST), split(LAST), split(LAST - 1), split(FIRST + 1)])]
    return [kind, *split(instant_of(rng, 1 if kind == NEXT else -1, schedule, abouts, blocks))]


def local_of(rng, zone, abouts):
    """A date and a time of day about a change, at the calendar's ends, or none."""
    form = rng.random()
    if form < 0.05:
        wrong = [(2026, 2, 29, 0, 0), (2026, 13, 1, 0, 0), (2026, 0, 1, 0, 0), (2026, 1, 0, 0, 0), (2026, 4, 31, 0, 0), (10_000, 1, 1, 0, 0)]
        wrong += [(-10_000, 12, 31, 0, 0), (2026, 1, 1, DAY, 0), (2026, 1, 1, -1, 0), (2026, 1, 1, 0, NANO), (2026, 1, 1, 0, -1)]
        return rng.choice(wrong + [(LEAST_I64, 1, 1, 0, 0), (2026, MOST_I64, 1, 0, 0), (2026, 1, 2**32 + 1, 0, 0), (2024, 2, 29, 2**32, 0)])
    near = rng.choice(abouts)
    found = zone.changes(near - 30 * DAY, near + 30 * DAY) if zone else []
    if form < 0.2:
        near = rng.choice([FIRST_S, LAST_S])
        found = zone.changes(near - 3 * DAY, near + 3 * DAY) if zone and rng.random() < 0.5 else []
    change = rng.choice(found or [near])
    before, after = (zone.offset(change - 1), zone.offset(change)) if zone else (0, 0)
    low, high = sorted((change + before, change + after))
    local = rng.choice([low, high, low - 1, high - 1, high + 1, rng.randint(low, high), rng.randint(low - 3600, high + 3600)])
    date = max(second.FIRST_DATE, min(second.LAST_DATE, local // DAY))
    return [*date_of(date), local % DAY, rng.choice([0, 0, 0, 1, NANO - 1])]


def file_case(rng, pack, abouts):
    """A zone file of a pack and local times."""
    file = rng.choice(pack) if pack else b"\0"
    file = file[1 + file[0] :]
    try:
        zone = second.read_zone(file)
    except ValueError:
        zone = None
    return b"", file, [[RESOLVE, *local_of(rng, zone, abouts)] for _ in range(2 * QUESTIONS)]


def case_of(seed, place, zoneinfo):
    """Book, pack and questions of a case; one in four has a zone file."""
    rng = random.Random(f"marks {seed}/{place}")
    title = rng.choices(list(FAMILIES), list(FAMILIES.values()))[0]
    records, pack, abouts = family_case(rng, title, zoneinfo)
    if rng.random() < 0.25:
        return file_case(rng, pack, abouts)
    if rng.random() < 0.05:
        book, zones = generate.damaged(rng, records, pack)
    else:
        book, zones = generate.join(records, rng), generate.join(pack, rng)
    schedule = generate.schedule_of(book, zones, False)
    blocks = blocks_about(rng, schedule, abouts) if schedule else ([], [])
    return book, zones, [question_of(rng, schedule, abouts, blocks) for _ in range(QUESTIONS)]


# ----------------------------------------------------------------------- running


def replay(program, data):
    """What PROGRAM tells of a marks.bin: cases, answers, refusals, different."""
    folder = tempfile.mkdtemp(prefix="marks.")
    with open(os.path.join(folder, "marks.bin"), "wb") as file:
        file.write(data)
    out = subprocess.run([program], cwd=folder, stdout=subprocess.PIPE, check=True).stdout.decode()
    *lines, last = out.rstrip("\n").split("\n")
    for line in lines:
        print(line)
    if not LAST_LINE.fullmatch(last):
        sys.exit(f"{program} ended with the line {last!r}, in {folder}")
    told = [int(number) for number in LAST_LINE.fullmatch(last).groups()]
    if told[3]:
        print(f"these cases are kept in {folder}")
    else:
        shutil.rmtree(folder)
    return told


def marks_seen(data):
    """How often each mark stands in a marks.bin: of local times, starts, ends."""
    seen = [[0] * 4 for _ in range(3)]
    for _, _, questions, answers in read_cases(data):
        for question, (number, _, told) in zip(questions, answers):
            if not number:
                local = told[2:] if question[0] == RESOLVE else []
                for place, marks in enumerate((local, *ends_told(question, told))):
                    for mark in marks:
                        seen[place][mark] += 1
    return seen


def show_marks(seen):
    for title, counts in zip(("local times", "starts", "ends"), seen):
        print(f"{title}: " + ", ".join(f"{count} {name}" for name, count in zip(second.MARKS, counts)))


def main(seed, count, program):
    zoneinfo = os.environ.get("ZONEINFO", "/usr/share/zoneinfo")
    totals, seen, data = [0] * 4, [[0] * 4 for _ in range(3)], b""
    for place in range(count + 1):
        more = case_data(*case_of(seed, place, zoneinfo)) if place < count else b""
        if data and (not more or len(data) + len(more) > MOST):
            totals = [total + told for total, told in zip(totals, replay(program, data))]
            seen = [[a + b for a, b in zip(*rows)] for rows in zip(seen, marks_seen(data))]
            data = b""
        data += more
    show_marks(seen)
    print("{} cases, {} answers and {} refusals equal, {} different".format(*totals))
    sys.exit(1 if totals[3] or totals[0] != count else 0)


if __name__ == "__main__":
    if len(sys.argv) != 4 or not re.fullmatch("[0-9]+", sys.argv[2]):
        sys.exit("usage: marks.py SEED COUNT PROGRAM")
    main(sys.argv[1], int(sys.argv[2]), os.path.abspath(sys.argv[3]))
