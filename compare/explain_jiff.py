"""Why the original over jiff itself answers a line otherwise than document 01.

agree_jiff.py asks `Case.why` for the cause of a line that differs. A line is
explained where two things were seen: second.py over the zones as document 01
reads them gives the other answer, and second.py over the zones as jiff reads
them (asked of the driver `zone`) gives jiff's answer. So all of the difference
lies in the zones, and the cause is told by what jiff and document 01 say of
them: which files they take, and where offsets and local times part.
"""

import functools
import os
import re
import subprocess
import sys
import tempfile
from bisect import bisect_right

sys.dont_write_bytecode = True  # no cache beside the sources

import second
from classes import lacks_day, seconds_told
from second import DAY, FARTHEST, FIRST, LAST, NANO

BUILT_IN = (b"utc", b"etc/unknown")
COUNTED = ("between", "add", "sub")
MOST_HOURS, MOST_TRANSITIONS, MOST_TYPES = 24, 2_048, 256  # hours of a rule time in version 2
HEADER = 44  # bytes of a zone file's header
AHEAD = 60  # dates to either side that are asked about together: walks go on to them
KEPT = 200_000  # answers kept of a zone
MOST_WINDOWS = 2_000  # that are worked out for a line
SEVERAL = "; "  # between the causes of a line
LEAVES = "a footer's change that leaves its year"
TOO_LONG = " (the line is too long for jiff's answer to be worked out again)"


@functools.lru_cache(maxsize=100_000)
def civil(day):
    """Year, month and day of a day number."""
    year = second.year_of(day)
    month = 1
    while month < 12 and second.day_number(year, month + 1, 1) <= day:
        month += 1
    return year, month, day - second.day_number(year, month, 1) + 1


def without_count(query, answer):
    """The answer without the window count, which ends `between`, `add` and `sub`."""
    fields = answer.split(" ")
    counted = fields[0] == "ok" and query.split(" ")[0] in COUNTED
    return fields[:-1] if counted else fields


# ------------------------------------------------------------- files: who takes them


def footer_reason(text, version):
    """Why document 01 refuses a footer that jiff takes, which reads rule times in
    every version as version 3 has them."""
    if b"\n" in text:
        return "bytes behind the footer"
    if version == b"2":
        if re.search(rb"/[-+]", text):
            return "a sign on a rule time in version 2"
        if any(int(hours) > MOST_HOURS for hours in re.findall(rb"/([0-9]+)", text)):
            return "a rule time with hours above 24 in version 2"
        if re.search(rb"/[0-9]{3}", text):
            return "a rule time with hours of three digits in version 2"
    return "a footer's form"


def count_reason(file):
    """Which count of the second block document 01 refuses."""
    _, start = second.read_header(file, 0, None, 4, 8)
    ut_count, std_count, leaps, transitions, types, letters = second.read_header(file, start, None, 8, 12)[0]
    if leaps:
        return "leap records"
    if ut_count not in (0, types) or std_count not in (0, types):
        return "indicators for some types"
    if transitions > MOST_TRANSITIONS or types > MOST_TYPES:
        return "more than 2,048 transitions or 256 types"
    return "no types, no letters, or a file that ends early" if not types or not letters else "a file that ends early"


def transition_reason(file):
    """What is wrong with the transitions of a file."""
    _, start = second.read_header(file, 0, None, 4, 8)
    transitions, types = second.read_header(file, start, None, 8, 12)[0][3:5]
    at = start + HEADER
    times = [second.number(file, at + 8 * place, 8, True) for place in range(transitions)]
    if any(number >= types for number in file[at + 8 * transitions : at + 9 * transitions]):
        return "a transition's type out of bounds"
    steps = [later - earlier for earlier, later in zip(times, times[1:])]
    return "equal transitions" if min(steps) == 0 else "transitions that descend"


def footer_of(file):
    """What stands between the newlines of a file that has both."""
    _, start = second.read_header(file, 0, None, 4, 8)
    return file[second.read_header(file, start, None, 8, 12)[1] + 1 : -1]


def paper_reason(file):
    """Why document 01 refuses a file, and None where it takes it."""
    try:
        second.read_zone(file)
    except ValueError as error:
        told = str(error)
    else:
        return None
    if told == "footer":
        return footer_reason(footer_of(file), file[4:5])
    if told == "counts":
        return count_reason(file)
    if told == "transitions":
        return transition_reason(file)
    return {
        "header": "a header's magic or version",
        "version": "two versions",
        "type": "an offset, a flag or an abbreviation's place",
        "indicator": "an indicator's flag",
        "newlines": "no newline before the footer, or bytes behind it",
        "too short": "a file that ends early",
    }[told]


class Driver:
    """The program `zone` on one file; answers are kept."""

    def __init__(self, program, file, folder):
        path = os.path.join(folder, f"{len(os.listdir(folder))}")
        with open(path, "wb") as out:
            out.write(file)
        self.errors = open(path + ".txt", "w+b")
        pipes = {"stdin": subprocess.PIPE, "stdout": subprocess.PIPE, "stderr": self.errors}
        self.process = subprocess.Popen([program, path], **pipes)
        self.known = {}
        self.taken = self.ask("offset 0") != "no 5"

    def ask_all(self, lines):
        """Answers to a few lines, which the pipes hold at once."""
        self.process.stdin.write("".join(line + "\n" for line in lines).encode())
        self.process.stdin.flush()
        return [self.process.stdout.readline().decode().strip() for _ in lines]

    def ask(self, line):
        if line not in self.known:
            if len(self.known) > KEPT:
                self.known.clear()
            [self.known[line]] = self.ask_all([line])
        return self.known[line]

    def reason(self):
        """jiff's own words for a refusal, without their numbers."""
        self.errors.seek(0)
        told = self.errors.read().decode("utf-8", "replace").strip().split("\n")[0]
        return re.sub(r"[0-9]+", "N", told.rpartition(": ")[2])

    def close(self):
        self.process.stdin.close()
        self.process.wait()
        self.process.stdout.close()
        self.errors.close()


# --------------------------------------------------------------- zones as jiff reads them


class BuiltIn:
    """UTC, which jiff has without a file, in the driver's place."""

    def ask(self, line):
        word, *numbers = line.split(" ")
        if word == "change":
            return "none"
        if word == "offset":
            return "ok 0"
        year, month, day, time, nano = map(int, numbers)
        at = second.day_number(year, month, day) * DAY + time
        return f"ok {at} {nano}" if FIRST <= at * NANO + nano <= LAST else "beyond"

    def ask_all(self, lines):
        return [self.ask(line) for line in lines]


def numbers_in(answer):
    """The numbers of an answer that must have some."""
    word, *numbers = answer.split(" ")
    assert word == "ok", answer
    return list(map(int, numbers))


def instant_in(answer):
    at, nano = numbers_in(answer)
    return at * NANO + nano


class JiffZone(second.Zone):
    """A zone that asks jiff, by the nanosecond, since jiff's changes may lie
    within a second, and notes where document 01 says otherwise: `cause` is why,
    where it is known before."""

    offset = steady = reading = None  # by the second, so not asked of it

    def __init__(self, driver, paper, seen, cause=None):
        super().__init__([0])
        self.driver, self.paper, self.seen, self.cause = driver, paper, seen, cause
        self.locals = {}

    def date_at(self, instant):
        at, nano = divmod(instant, NANO)
        [told] = numbers_in(self.driver.ask(f"offset {at} {nano}"))
        if self.paper and told != self.paper.offset(at):
            self.seen.add(self.cause or self.cut_cause(at, nano, told) or offset_cause(self.paper, at, told))
        return (at + told) // DAY

    def cut_cause(self, at, nano, told):
        """Before 1970 jiff cuts nanoseconds towards 0, so to the next second."""
        if at >= 0 or nano == 0:
            return None
        [this], [after] = (numbers_in(self.driver.ask(f"offset {told_at}")) for told_at in (at, at + 1))
        return "nanoseconds before 1970: jiff's offset is that of the second behind" if told == after != this else None

    def is_steady(self, low, high):
        """Whether jiff tells no change after `low` and up to `high`."""
        told = self.driver.ask(f"change {low // NANO} {low % NANO}")
        return told == "none" or instant_in(told) > high

    def local(self, date, time):
        """jiff's instant of a time of day; None beyond the range."""
        if (date, time) not in self.locals:
            if len(self.locals) > KEPT:
                self.locals.clear()
            dates = range(max(second.FIRST_DATE, date - AHEAD), min(second.LAST_DATE, date + AHEAD) + 1)
            new = [day for day in dates if (day, time) not in self.locals]
            lines = ["local {} {} {} {} {}".format(*civil(day), time // NANO, time % NANO) for day in new]
            for day, told in zip(new, self.driver.ask_all(lines)):
                self.locals[day, time] = None if told == "beyond" else instant_in(told)
        return self.locals[date, time]

    def resolve(self, date, time):
        instant = self.local(date, time)
        if instant is None:
            instant = FIRST if date < second.new_year(0) else LAST
        if self.paper and instant != self.paper.resolve(date, time):
            self.seen.add(self.cause or local_cause(self.paper, date, time, instant, self.driver))
        return instant


class TooLong(Exception):
    """A line takes more windows than are worked out here."""


class JiffSchedule(second.Schedule):
    """A schedule over zones that ask jiff."""

    windows = 0

    def working_time(self, low, high):
        self.windows += 1
        if self.windows > MOST_WINDOWS:
            raise TooLong
        return super().working_time(low, high)

    def may_skip(self, low, high):
        asked = [zone for zone in self.zones if isinstance(zone, JiffZone)]
        self.zones = [zone for zone in self.zones if zone not in asked]  # UTC, without changes
        told = super().may_skip(low, high) and all(zone.is_steady(low, high) for zone in asked)
        self.zones += asked
        return told


def offset_cause(zone, at, told):
    """Why jiff's offset at an instant, `told`, is not document 01's."""
    last = zone.times[-1] if zone.times else FIRST // NANO
    if zone.footer and at >= last:
        return footer_cause(zone, last, at, told)
    moved = [min(max(time, FIRST // NANO), LAST // NANO) for time in zone.times]
    place = bisect_right(moved, at)
    ruling = zone.types[zone.numbers[place - 1] if place else 0]
    return "a transition beyond the range, which jiff moves to its end" if moved != zone.times and told == ruling else None


def footer_cause(zone, last, at, told):
    """The same where the footer rules."""
    footer = zone.footer
    kept = zone.types[zone.numbers[-1] if zone.numbers else 0]
    if told == kept and not footer.instants(max(last, FIRST // NANO), at):
        return "the time before a footer's first change: jiff keeps the last type"
    return year_cause(footer, second.year_of(at // DAY))


def year_cause(footer, year):
    """What of a footer jiff sees otherwise, which looks at a year alone."""
    if footer.daylight is None:
        return None
    changes = [(start, end) for (start, _), (end, _) in (footer.of_year(near) for near in (year - 1, year, year + 1))]
    if any(start == end for start, end in changes):
        return "a tie of a footer's two changes"
    if leaves_its_year(footer, year):
        return LEAVES
    if any(lacks_day(rule, near) for near in (year - 1, year, year + 1) for rule in footer.rules):
        return "a footer's day 365 in a common year: jiff takes the year's last moment"
    if len({start < end for start, end in changes}) > 1:
        return "a footer's two changes in another order than in a year beside"
    start, end = (second.rule_second(rule, year) for rule in footer.rules)
    if (start < end) != (changes[1][0] < changes[1][1]) or start == end:
        return "a footer's two changes in another order by local time than by UTC"
    read = [(near, at) for near in (year - 1, year, year + 1) for at in seconds_told(footer, near)]
    return LEAVES if any(second.year_of(at // DAY) != near for near, at in read) else None


def leaves_its_year(footer, about):
    """Whether a change of a year or of one beside it lies in another year, by
    UTC or by the local time that the rule tells."""
    for year in (about - 1, about, about + 1):
        seconds = [change for change, _ in footer.of_year(year)]
        seconds += [second.rule_second(rule, year) for rule in footer.rules]
        if any(second.year_of(told // DAY) != year for told in seconds):
            return True
    return False


def local_cause(zone, date, time, told, driver):
    """Why jiff's instant of a local time is not document 01's."""
    local = date * DAY + time // NANO
    low, high = local - FARTHEST - 1, local + FARTHEST
    transitions = {at for at in zone.times if low < at <= high}
    if zone.footer and (not zone.times or zone.times[-1] <= high):
        transitions |= zone.footer.instants(low, high)
    near = [zone.resolve(date, time) // NANO, told // NANO]
    for at in near + [at for change in transitions for at in (change - 1, change)]:
        answer = driver.ask(f"offset {at}")
        if answer != "no 8" and answer != f"ok {zone.offset(at)}":
            return offset_cause(zone, at, *numbers_in(answer))
    if not FIRST <= zone.reading(local) * NANO <= LAST or told in (FIRST, LAST):
        return "a local time at the range's end"
    if len(transitions) > 1:
        return close_cause(zone, local, transitions, told // NANO)
    rules = zone.footer and (not zone.times or zone.times[-1] <= max(low, *near))
    return year_cause(zone.footer, second.year_of(date)) if rules else None


def close_cause(zone, local, transitions, told):
    """Why jiff answers otherwise about a local time near two transitions or more."""
    reads = [local - offset for offset in zone.descending if zone.offset(local - offset) == offset]
    if told in reads:
        return "a repeated local time near close transitions: jiff takes a later instant"
    if reads:
        return "a local time near close transitions: jiff's instant does not read so"
    jumps = [at for at in transitions if at + zone.offset(at - 1) <= local < at + zone.offset(at)]
    if len(jumps) > 1:
        return "a local time that is jumped over more than once"
    return "a local time that is jumped over once, near close transitions"


class JiffPack(second.Pack):
    """A pack as jiff has it: its own names, and the files that it takes."""

    def __init__(self, data, driver_of, seen):
        super().__init__(data)
        self.driver_of, self.seen = driver_of, seen

    def zone(self, name, place):
        key = second.folded(name)
        if key in BUILT_IN:
            return self.built_in(key)
        if key not in self.first:
            raise second.Refusal(4, place)
        if key not in self.zones:
            file = self.first[key]
            driver, reason = self.driver_of(file), paper_reason(file)
            if not driver.taken:
                if reason is None:
                    self.seen.add(f"jiff refuses a file that document 01 takes: {driver.reason()}")
                raise second.Refusal(5, place)
            if reason:
                self.seen.add(f"jiff takes a file that document 01 refuses: {reason}")
            self.zones[key] = JiffZone(driver, None if reason else second.read_zone(file), self.seen)
        return self.zones[key]

    def built_in(self, key):
        """A zone that jiff has without the pack."""
        cause = f"the name {key.decode()} is built into jiff"
        file = self.first.get(key)
        if file is None or paper_reason(file):
            self.seen.add(f"{cause}: the pack lacks it or has no usable file")
            return second.UTC
        return JiffZone(BuiltIn(), second.read_zone(file), self.seen, f"{cause}: the pack's file is another zone")


# ------------------------------------------------------------------------------ cases


def schedule_over(kind, pack_class, book, pack):
    """A schedule of some kind over a kind of pack, or its refusal."""
    usual = second.Pack
    second.Pack = pack_class
    try:
        return kind(book, pack)
    except second.Refusal as refusal:
        return refusal
    finally:
        second.Pack = usual


def answered(schedule, line, listing):
    """The answer of a schedule or of a refusal to a line."""
    query = second.read_line(line.encode("latin-1"), listing)
    if query is None:
        return "bad"
    try:
        if isinstance(schedule, second.Refusal):
            raise schedule
        return second.answer(schedule, *query, False)
    except second.Refusal as refusal:
        return f"no {refusal.number} {refusal.place}"


class Case:
    """A case's book and pack, to be asked why lines differ."""

    def __init__(self, folder, program):
        book, pack = (second.read_file(os.path.join(folder, name)) for name in ("book.bin", "zones.bin"))
        self.program = program
        self.drivers = {}
        self.files = tempfile.TemporaryDirectory()
        self.seen = set()
        self.paper = schedule_over(second.Schedule, second.Pack, book, pack)
        self.jiff = schedule_over(JiffSchedule, lambda data: JiffPack(data, self.driver, self.seen), book, pack)
        self.building = set(self.seen)
        self.known = {}

    def driver(self, file):
        if file not in self.drivers:
            self.drivers[file] = Driver(self.program, file, self.files.name)
        return self.drivers[file]

    def both(self, line, listing):
        """Document 01's answer to a line, jiff's (None where that is too long to
        be worked out), and the causes seen on the way."""
        if line not in self.known:
            paper = answered(self.paper, line, listing)
            self.seen.clear()
            self.jiff.windows = 0
            try:
                jiff = without_count(line, answered(self.jiff, line, listing))
            except TooLong:
                jiff = None
            self.known[line] = without_count(line, paper), jiff, self.building | self.seen
        return self.known[line]

    def why(self, line, real, other, listing=False):
        """The cause, or None with the line unexplained."""
        paper, jiff, causes = self.both(line, listing)
        if paper != without_count(line, other) or not causes or None in causes:
            return None
        told = SEVERAL.join(sorted(causes))
        if jiff is None:
            return told + TOO_LONG
        return told if jiff == without_count(line, real) else None

    def close(self):
        for driver in self.drivers.values():
            driver.close()
        self.files.cleanup()
