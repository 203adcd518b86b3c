#!/usr/bin/env python3
"""Holds a program's tickets to those of second.py.

Usage: tickets.py SEED COUNT PROGRAM

Makes COUNT cases from SEED, each a book and a pack of generate.py's families, or such
that working times do not add up, and the commands of some tickets, with the answers of
second.py. They go to files tickets.bin, one after the other, in a new folder, where
PROGRAM (test_replay_tickets as the gate builds it) is run without arguments. A line of
PROGRAM about a command whose answer differs is printed, the file of such cases is
kept, and the command ends with 1. The last lines printed tell how many commands were
accepted, how many were refused with each number, and all numbers. ZONEINFO tells where
real zone files are (if not set /usr/share/zoneinfo).

In tickets.bin a case is three numbers of 4 bytes, the lengths of its parts, and then
the parts: book, pack, commands. A command is eight numbers of 8 bytes: its kind, its
name, its instant's seconds and nanoseconds; then the answer: the refusal's number (0
for none) and its place, the elapsed time's seconds and nanoseconds (zeros where it is
refused). Numbers of 8 bytes are signed (two's complement); all are big-endian.

  kind          name
  0  new ticket 0, as all other numbers are: nothing is asked
  1  start      0
  2  hold       0
  3  resume     0
  4  mark       the mark's, from 0 to 2^63 - 1
  5  back       the mark's, from 0 to 2^63 - 1

A case begins with a new ticket.
"""

import functools
import os
import random
import re
import shutil
import struct
import subprocess
import sys
import tempfile

sys.dont_write_bytecode = True  # no cache beside the sources

import generate
import second
from generate import BUILD, FIRST_S, LAST_S, MON, default, holidays, pack_record, shift, tzif
from second import DAY, FIRST, LAST, NAMES, NANO, RUNNING

HOUR = 3600
WEEK = 7 * DAY
MOST = 300_000  # bytes of a file
LEAST_I64, MOST_I64 = -(2**63), 2**63 - 1
NEW, START, HOLD, RESUME, MARK, BACK = range(6)  # kinds
WORDS = ("ticket", "start", "hold", "resume", "mark", "back")
NAMED = (MARK, BACK)  # kinds that have a name
COMMAND = struct.Struct(">8q")
UNASKED = (0, 0, [0, 0])  # what stands as the answer to a new ticket
TICKETS = 4  # of a case, the most
LENGTHS = [3, 8, 12, 18, 25, 40]  # commands of a ticket
REFUSED_LENGTH = 8  # of the one ticket of a book that is refused
TRIES = 6  # books that are made to find one whose working times do not add up
SPLITS = 12  # spans that are tried for that
LONGEST = 3 * 365 * DAY  # seconds of a running spell, if its zones change each year
FAMILIES = {"apart": 16}  # see below
FAMILIES |= {"real": 5, "odd": 6, "footers": 3, "ends": 5, "always": 2, "jumps": 4, "skips": 3, "year_ends": 2, "wide": 2}
FAMILIES |= {"gaps": 1, "limits": 1, "names": 1, "builds": 1, "files": 1}
STEPS = [1, 60, HOUR, 8 * HOUR, DAY, 3 * DAY, WEEK, WEEK, 2 * WEEK, 5 * WEEK, 30 * DAY, 200 * DAY]
ANY_NAMES = [*range(10), 15, 16, 255, 256, 2**31, 2**32, 2**32 + 1, 2**63 - 8, 2**63 - 1]
NO_INSTANTS = [(LAST_S + 1, 0), (FIRST_S - 1, NANO - 1), (MON, NANO), (MON, -1), (LEAST_I64, MOST_I64), (MOST_I64, 0), (0, MOST_I64)]
TOLD = re.compile(r"(\d+) cases, (\d+) answers and (\d+) refusals equal, (\d+) different")


# ------------------------------------------------------------------- tickets.bin


def built(book, pack):
    """The schedule, or the refusal. What `between` gives for a span is kept, since
    each command asks for all spells again."""
    try:
        schedule = second.Schedule(book, pack)
    except second.Refusal as refusal:
        return None, refusal
    schedule.between = functools.cache(schedule.between)
    return schedule, None


def answer(module, schedule, refused, ticket, command):
    """Number and place of the refusal, 0 for none, and the elapsed time's two numbers.
    `module` is second.py."""
    kind, *numbers = command
    try:
        told = module["command_answer"](schedule, refused, ticket, WORDS[kind], numbers if kind in NAMED else numbers[1:])
        return 0, 0, [int(word) for word in told.split(" ")[1:]]
    except module["Refusal"] as refusal:
        return refusal.number, refusal.place, [0] * 2


def answers(module, schedule, refused, commands):
    """The answers to the commands of a case."""
    found = []
    for command in commands:
        if command[0] == NEW:
            ticket = module["Ticket"]()
            found.append(UNASKED)
        else:
            found.append(answer(module, schedule, refused, ticket, command))
    return found


def written(book, pack, commands, told):
    """A case as it stands in tickets.bin."""
    data = b"".join(COMMAND.pack(*command, number, place, *time) for command, (number, place, time) in zip(commands, told))
    return struct.pack(">3I", len(book), len(pack), len(data)) + book + pack + data


def read_commands(data):
    """The commands of a case and their answers."""
    rows = [list(row) for row in COMMAND.iter_unpack(data)]
    return [row[:4] for row in rows], [(row[4], row[5], row[6:]) for row in rows]


def read_cases(data):
    """All cases of a tickets.bin: book, pack, commands, answers."""
    at = 0
    while at < len(data):
        sizes = struct.unpack(">3I", data[at : at + 12])
        at += 12
        parts = [data[at + sum(sizes[:k]) : at + sum(sizes[: k + 1])] for k in range(3)]
        at += sum(sizes)
        yield parts[0], parts[1], *read_commands(parts[2])


def case_data(book, pack, commands):
    """A case as it stands in tickets.bin, with the answers of second.py."""
    return written(book, pack, commands, answers(vars(second), *built(book, pack), commands))


# ------------------------------------------ books whose working times don't add up


def apart_zone(rng, about):
    """A few changes of more than a day, to and fro."""
    low = rng.choice([-93_599, -86_400, -rng.randint(43_200, 93_599)])
    high = rng.choice([93_599, 86_400, rng.randint(43_201, 93_599)])
    types = rng.choice([[low, high], [high, low], [low, high, 0], [0, low, high]])
    at = about + rng.randint(-2 * DAY, 2 * DAY)
    changes, last = [], 0
    for _ in range(rng.choice([1, 1, 2, 3, 5])):
        last = rng.choice([place for place in range(len(types)) if place != last])
        changes.append((at, last))
        at += rng.choice([1, HOUR, DAY, 2 * DAY, WEEK, 10 * DAY, rng.randint(1, 9 * DAY)])
    return tzif(types, changes)


def apart_shift(rng, kind, lengths):
    """A rule of some seconds in the zone, each day, on one or on some."""
    start = rng.choice([0, 12 * HOUR, rng.randrange(DAY)])
    end = (start + rng.choice(lengths)) % DAY
    days = rng.choice([0x7F, 0x7F, 0x01, 1 << rng.randrange(7), rng.randrange(1, 128)])
    return shift(kind, b"Apart", days, (start, 0), (end, rng.choice([0, 0, 1, NANO - 1])))


def apart(rng):
    """A case: one such zone and a few rules in it."""
    about = rng.choice([MON, MON, MON, BUILD + 90 * DAY, FIRST_S + rng.randint(0, 9) * DAY, LAST_S - rng.randint(0, 9) * DAY])
    zone = apart_zone(rng, about)
    records = [apart_shift(rng, 1, [DAY, 8 * HOUR, 12 * HOUR, 20 * HOUR]) for _ in range(rng.choice([1, 1, 2, 3]))]
    records += [apart_shift(rng, 2, [HOUR, 5 * HOUR]) for _ in range(rng.choice([0, 0, 1, 2]))]
    if rng.random() < 0.3:
        records.append(holidays(b"Apart", [generate.date_near(rng, about) for _ in range(rng.randint(1, 3))]))
    if rng.random() < 0.2:
        records += [shift(1, b"", 0x1F, (9 * HOUR, 0), (17 * HOUR, 0)), default(b"Apart")]
    rng.shuffle(records)
    return records, [pack_record(b"Apart", zone)], [about, *second.read_zone(zone).times]


def splits(rng, schedule, abouts, tries):
    """Spans about instants of note with a place that splits them, where the working
    time of the whole isn't that of both parts; all that some tries find."""
    found = []
    for _ in range(tries):
        about = rng.choice(abouts) * NANO
        low, high = (clamped(about + sign * rng.randint(0, 10 * 24) * HOUR * NANO) for sign in (-1, 1))
        middle = rng.choice([about, low + WEEK * NANO, rng.randint(0, (high - low) // HOUR // NANO) * HOUR * NANO + low])
        middle = max(low, min(high, middle))
        whole, *parts = (schedule.between(*span)[0] for span in ((low, high), (low, middle), (middle, high)))
        if whole != sum(parts):
            found.append((low, middle, high))
    return found


def family_case(rng, title, zoneinfo):
    """Records, pack records and instants of note, in seconds; of the family `apart`
    such that working times don't add up, if some tries give one."""
    if title != "apart":
        records, pack, lines, _ = generate.family_of(title)(rng, zoneinfo)
        return records, pack, lines.abouts
    for _ in range(TRIES):
        records, pack, abouts = apart(rng)
        schedule = generate.schedule_of(generate.join(records), generate.join(pack), False)
        if schedule and splits(rng, schedule, abouts, SPLITS):
            break
    return records, pack, abouts


# ---------------------------------------------------------------------- commands


def clamped(instant):
    return max(FIRST, min(LAST, instant))


def split(instant):
    return instant // NANO, instant % NANO


def pool_of(rng, schedule, abouts, found):
    """Instants of note of a case, in order: changes and a nanosecond beside, where
    working time starts and ends, and the spans that were found."""
    pool = [instant for span in found for instant in span]
    for about in rng.sample(abouts, min(len(abouts), 4)):
        instant = clamped(about * NANO)
        pool += [instant, instant + 1, instant - 1]
        low = clamped(instant - rng.choice([1, 3]) * DAY * NANO)
        pool += [end for stretch in schedule.working_time(low, clamped(low + 4 * DAY * NANO))[:6] for end in stretch]
    return sorted({clamped(instant) for instant in pool})


def is_yearly(schedule):
    """Whether a zone changes each year, so that a walk over the whole range may take
    second.py minutes."""
    return any(zone.footer and zone.footer.daylight is not None for zone in schedule.zones)


class Maker:
    """Makes the commands of a ticket. The ticket of second.py tells what state they
    have come to, to aim. `far` tells whether a spell may be as long as the range."""

    def __init__(self, rng, pool, far):
        self.rng = rng
        self.pool = pool
        self.far = far
        self.ticket = second.Ticket()
        self.commands = [[NEW, 0, 0, 0]]
        self.names = rng.sample(range(NAMES), rng.choice([1, 2, 3, 5, NAMES]))

    def put(self, kind, name, given):
        """Puts a command with an instant, given as seconds and nanoseconds."""
        name = name if kind in NAMED else 0
        self.commands.append([kind, name, *given])
        try:
            self.ticket.take(WORDS[kind], name, second.read_instant(*given))
        except second.Refusal:
            pass

    def last(self):
        """The last instant; None on a new ticket."""
        return self.ticket.commands[-1][2] if self.ticket.commands else None

    def marks_set(self):
        places = set(self.ticket.remaining())
        return [name for name in range(NAMES) if self.ticket.latest_mark(name, len(self.ticket.commands)) in places]

    def kind_and_name(self):
        """Mostly such as is allowed; names that were set, that were set and dropped,
        and any."""
        rng, state = self.rng, self.ticket.state()
        if rng.random() < 0.15:
            return rng.choice([START, HOLD, RESUME, MARK, MARK, BACK, BACK]), rng.choice(ANY_NAMES)
        if state == second.NEW:
            return START, 0
        known = self.marks_set()
        kind = rng.choice([HOLD if state == RUNNING else RESUME] * 2 + [MARK] * 3 + [BACK] * (4 if known else 1))
        if kind == BACK and known and rng.random() < 0.85:
            return kind, rng.choice(known)
        return kind, rng.choice(self.names)

    def first(self):
        """An instant to start at, not long before one of note."""
        back = self.rng.choice([0, 0, HOUR, DAY, WEEK, 3 * WEEK, self.rng.randint(0, 9 * DAY)])
        return clamped(self.rng.choice(self.pool) - back * NANO)

    def earlier(self, last):
        """An instant before the last one, mostly: by a nanosecond, by more, or that of
        a command before."""
        return clamped(self.rng.choice([last - 1, last - 1, last - NANO, FIRST, self.rng.choice(self.ticket.commands)[2]]))

    def later(self, last):
        """An instant at the last one, a nanosecond behind it, one of note, some time
        behind it, or at the end of the range."""
        rng, form = self.rng, self.rng.random()
        if form < 0.25:
            return last
        if form < 0.3:
            return clamped(last + 1)
        near = [instant for instant in self.pool if last < instant <= last + LONGEST * NANO]
        if form < 0.65 and near:
            return min(rng.sample(near, min(len(near), 3)))
        if form < 0.99 or self.ticket.state() == RUNNING and not self.far:
            instant = last + rng.choice(STEPS) * NANO + rng.choice([0, 0, 0, 1, rng.randrange(NANO)])
            return instant if instant <= LAST else rng.choice([LAST, rng.randint(last, LAST), rng.randint(last, LAST)])
        return max(last, rng.choice([LAST, LAST - 1, LAST_S * NANO] + [LAST - rng.randint(0, 400 * DAY) * NANO] * 3))

    def given(self):
        rng, last = self.rng, self.last()
        form = rng.random()
        if form < 0.03:
            return rng.choice(NO_INSTANTS)
        if last is None:
            return split(self.first())
        return split(self.earlier(last) if form < 0.1 else self.later(last))

    def go_on(self, count):
        """Puts as many commands."""
        for _ in range(count):
            self.put(*self.kind_and_name(), self.given())

    # openings

    def open_new(self):
        """Commands that a new ticket does not allow."""
        for _ in range(self.rng.randint(1, 3)):
            self.put(self.rng.choice([HOLD, RESUME, MARK, BACK]), self.rng.choice(ANY_NAMES), split(self.first()))

    def open_split(self, span):
        """A spell over a span that is more or less than its parts, with a mark where
        the parts meet, or a set-back, or a hold and a resumption."""
        rng = self.rng
        one, other = self.names = rng.sample(range(NAMES), 2)
        begins = rng.choice([[], [], [(MARK, one), (BACK, one)], [(HOLD, 0), (RESUME, 0)]])
        meets = rng.choice([[(MARK, other)], [(MARK, other)], [(MARK, one), (MARK, other)], [(HOLD, 0), (RESUME, 0)]])
        meets = meets + rng.choice([[]] * 4 + [[(BACK, other)], [(BACK, other)] * 2, [(HOLD, 0), (BACK, other)]])
        ends = rng.choice([[(MARK, one)], [(HOLD, 0)], [(HOLD, 0), (RESUME, 0)], [(MARK, one), (BACK, one)]])
        for instant, commands in zip(map(split, span), ([(START, 0)] + begins, meets, ends)):
            for kind, name in commands:
                self.put(kind, name, instant)

    def open_deep(self):
        """All eight marks, set running and held."""
        rng = self.rng
        self.names = rng.sample(range(NAMES), NAMES)
        self.put(START, 0, split(self.first()))
        for name in self.names:
            if rng.random() < 0.5:
                self.put(HOLD if self.ticket.state() == RUNNING else RESUME, 0, split(self.later(self.last())))
            self.put(MARK, name, split(self.later(self.last())))

    def open_again(self):
        """A mark set again, with another between, and set-backs to both."""
        one, other = self.rng.sample(range(NAMES), 2)
        self.put(START, 0, split(self.first()))
        for kind, name in ((MARK, one), (MARK, other), (MARK, one), (BACK, other), (BACK, one), (MARK, one), (BACK, other)):
            self.put(kind, name, split(self.later(self.last())))


def ticket_of(rng, pool, found, far):
    """The commands of a ticket."""
    maker = Maker(rng, pool, far)
    if rng.random() < 0.15:
        maker.open_new()
    form = rng.random()
    if found and rng.random() < 0.7:
        maker.open_split(rng.choice(found))
    elif form < 0.4:
        maker.open_deep()
    elif form < 0.55:
        maker.open_again()
    maker.go_on(rng.choice(LENGTHS))
    return maker.commands


def commands_of(rng, schedule, abouts):
    """The commands of a case, of some tickets; of one where the book is refused."""
    if schedule is None:
        maker = Maker(rng, [clamped(about * NANO) for about in abouts], False)
        maker.go_on(REFUSED_LENGTH)
        return maker.commands
    found = splits(rng, schedule, abouts, SPLITS)
    pool, far = pool_of(rng, schedule, abouts, found), not is_yearly(schedule)
    tickets = [ticket_of(rng, pool, found, far) for _ in range(rng.randint(1, TICKETS))]
    return [command for commands in tickets for command in commands]


def case_of(seed, place, zoneinfo):
    """Book, pack and commands of a case."""
    rng = random.Random(f"tickets {seed}/{place}")
    title = rng.choices(list(FAMILIES), list(FAMILIES.values()))[0]
    records, pack, abouts = family_case(rng, title, zoneinfo)
    if rng.random() < 0.05:
        book, zones = generate.damaged(rng, records, pack)
    else:
        book, zones = generate.join(records, rng), generate.join(pack, rng)
    return book, zones, commands_of(rng, built(book, zones)[0], abouts)


# ----------------------------------------------------------------------- running


def replay(program, data):
    """What PROGRAM tells of a tickets.bin: cases, answers, refusals, different."""
    folder = tempfile.mkdtemp(prefix="tickets.")
    with open(os.path.join(folder, "tickets.bin"), "wb") as file:
        file.write(data)
    out = subprocess.run([program], cwd=folder, stdout=subprocess.PIPE, check=True).stdout.decode()
    *lines, last = out.rstrip("\n").split("\n")
    for line in lines:
        print(line)
    if not TOLD.fullmatch(last):
        sys.exit(f"{program} ended with the line {last!r}, in {folder}")
    told = [int(number) for number in TOLD.fullmatch(last).groups()]
    if told[3]:
        print(f"these cases are kept in {folder}")
    else:
        shutil.rmtree(folder)
    return told


def numbers_seen(data):
    """How often each refusal stands in a tickets.bin, 0 for an accepted command."""
    seen = {}
    for _, _, commands, told in read_cases(data):
        for command, (number, _, _) in zip(commands, told):
            if command[0] != NEW:
                seen[number] = seen.get(number, 0) + 1
    return seen


def show_numbers(seen):
    refused = ", ".join(f"{seen[number]} with {number}" for number in sorted(seen) if number)
    print(f"{seen.get(0, 0)} commands accepted; refused: {refused or 'none'}")


def main(seed, count, program):
    zoneinfo = os.environ.get("ZONEINFO", "/usr/share/zoneinfo")
    totals, seen, data = [0] * 4, {}, b""
    for place in range(count + 1):
        more = case_data(*case_of(seed, place, zoneinfo)) if place < count else b""
        if data and (not more or len(data) + len(more) > MOST):
            totals = [total + told for total, told in zip(totals, replay(program, data))]
            for number, times in numbers_seen(data).items():
                seen[number] = seen.get(number, 0) + times
            data = b""
        data += more
    show_numbers(seen)
    print("{} cases, {} answers and {} refusals equal, {} different".format(*totals))
    all_asked = totals[0] == count and sum(totals[1:]) == sum(seen.values())
    sys.exit(1 if totals[3] or not all_asked else 0)


if __name__ == "__main__":
    if len(sys.argv) != 4 or not re.fullmatch("[0-9]+", sys.argv[2]):
        sys.exit("usage: tickets.py SEED COUNT PROGRAM")
    main(sys.argv[1], int(sys.argv[2]), os.path.abspath(sys.argv[3]))
