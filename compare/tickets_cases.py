#!/usr/bin/env python3
"""Writes stored commands of tickets with their answers, for the program `test_replay_tickets`.

usage: tickets_cases.py VECTORS OUT

VECTORS has the vectors of document 02: folders with book.bin, zones.bin, calls.txt and answers.txt, of which the lines `ticket`, `start`, `hold`, `resume`,
`mark` and `back` are taken. Of a folder whose book has records that second.py does not read (kinds 4 and 5) nothing is stored; which of its commands are
refused, and with what number, does not depend on the book and is checked. A line with a name below 0, which tickets.bin can't have, is checked and not
stored. OUT gets tickets.bin; tickets.py tells its layout. The answers come from second.py, not from the code that is to be compared; those of VECTORS and of
EXAMPLES must be the same. The stored commands must tell tickets whose spells are split by marking, or joined where they touch, from the right ones. No zone
file of a machine is used, so the same VECTORS give the same data. What is in the repository was made by

    compare/tickets_cases.py VECTORS crates/test_replay_tickets/data
"""
import sys
from pathlib import Path

sys.dont_write_bytecode = True
sys.path.insert(0, str(Path(__file__).resolve().parent.parent / "compare"))
import second  # noqa: E402
import tickets  # noqa: E402
from generate import FIRST_S, LAST_S, MON, default, holidays, join, pack_record, shift, tzif  # noqa: E402
from second import DAY, NAMES, NANO  # noqa: E402
from tickets import ANY_NAMES, BACK, HOLD, HOUR, MARK, MOST_I64, NAMED, NEW, NO_INSTANTS, RESUME, START, WEEK, WORDS, built  # noqa: E402
from wrong_tickets import joined, parts  # noqa: E402

RANDOM = ("2051", 25)  # seed and number of the random cases
SPANS = 2  # of a book whose working times do not add up
MOST = 250_000  # bytes
LATE = 999_999_999
NINE = MON + 9 * HOUR  # Monday 2026-01-05T09:00Z
FRIDAY = MON + 4 * DAY + 16 * HOUR  # the Friday after it, 16:00Z
SPRING, AUTUMN = 1774746000, 1792890000  # 2026-03-29T01:00Z and 2026-10-25T01:00Z, when Central Europe changes
NEW_YORK = 1772953200  # 2026-03-08T07:00Z, when New York changes
ALL, WORKDAYS = 0x7F, 0x1F
OFFICE = bytes.fromhex("000000010000000C0000001301001F00007E90000000000000EF1000000000")
NO_PACK = bytes(4)


def work(name, days, start, end, kind=1):
    return shift(kind, name, days, (start, 0), (end, 0))


def pause(name, days, start, end):
    return work(name, days, start, end, 2)


def packed(*zones):
    return join([pack_record(*zone) for zone in zones])


CET = (b"CET", tzif([3600], (), b"CET-1CEST,M3.5.0,M10.5.0/3"))
EST = (b"EST", tzif([-18000, -14400], [(NEW_YORK - 364 * DAY, 1)], b"EST5EDT,M3.2.0,M11.1.0"))
JUMP = MON + 20 * HOUR + 93599
APART = (b"Apart", tzif([-93599, 93599], [(JUMP, 1)]))  # a jump of more than two days
BACKWARD = (b"Backward", tzif([93599, -93599], [(JUMP, 1)]))  # the same back
TO_AND_FRO = (b"ToAndFro", tzif([0, -80000, 80000], [(MON, 1), (MON + 2 * DAY, 2), (MON + 9 * DAY, 0)]))
WEST = (b"West", tzif([-93599]))


# ---- commands


def command(kind, *numbers):
    """A command: a name, if its kind has one, and an instant, as seconds or as seconds and nanoseconds."""
    name = numbers[0] if kind in NAMED else 0
    given = numbers[-1] if isinstance(numbers[-1], tuple) else (numbers[-1], 0)
    return [kind, name, *given]


def ticket(*rows):
    """The commands of a new ticket."""
    return [[NEW, 0, 0, 0]] + [command(*row) for row in rows]


def all_of(made):
    """The commands of some tickets, one behind the other."""
    return [row for rows in made for row in rows]


# ---- examples, worked out by hand: working time is 09:00 to 17:00, Monday to Friday, UTC

EXAMPLES = [
    # hold and resume; set back to a mark that was set running, twice
    [(START, NINE, 0), (MARK, 0, NINE + HOUR, 1), (HOLD, NINE + 2 * HOUR, 2), (RESUME, NINE + 3 * HOUR, 2), (BACK, 0, NINE + 4 * HOUR, 1), (HOLD, NINE + 5 * HOUR, 2),
     (BACK, 0, NINE + 6 * HOUR, 1), (HOLD, NINE + 7 * HOUR, 2)],
    # set back to a mark that was set held
    [(START, NINE, 0), (HOLD, NINE + HOUR, 1), (MARK, 7, NINE + 2 * HOUR, 1), (RESUME, NINE + 3 * HOUR, 1), (MARK, 6, NINE + 4 * HOUR, 2), (BACK, 7, NINE + 5 * HOUR, 1),
     (BACK, 6, NINE + 5 * HOUR, None), (HOLD, NINE + 6 * HOUR, None), (RESUME, NINE + 6 * HOUR, 1), (HOLD, NINE + 8 * HOUR, 3)],
    # an earlier place of a mark does not come back
    [(START, NINE, 0), (MARK, 0, NINE + HOUR, 1), (MARK, 1, NINE + 2 * HOUR, 2), (MARK, 0, NINE + 3 * HOUR, 3), (BACK, 1, NINE + 4 * HOUR, 2), (BACK, 0, NINE + 5 * HOUR, None),
     (BACK, 1, NINE + 6 * HOUR, 2)],
    # the same where the marks have one instant
    [(START, NINE, 0), (MARK, 0, NINE, 0), (MARK, 1, NINE, 0), (MARK, 0, NINE, 0), (BACK, 1, NINE, 0), (BACK, 0, NINE, None), (HOLD, NINE + HOUR, 1)],
    # marks of one instant: those set later are dropped
    [(START, NINE, 0), (MARK, 2, NINE, 0), (MARK, 1, NINE, 0), (MARK, 3, NINE, 0), (BACK, 1, NINE, 0), (BACK, 3, NINE, None), (BACK, 2, NINE, 0), (BACK, 1, NINE, None)],
    # a weekend; working time alone counts
    [(START, FRIDAY, 0), (MARK, 4, FRIDAY + HOUR, 1), (MARK, 5, FRIDAY + 65 * HOUR, 1), (HOLD, FRIDAY + 66 * HOUR, 2), (BACK, 4, FRIDAY + 66 * HOUR, 1), (HOLD, FRIDAY + 67 * HOUR, 2)],
]  # fmt: skip
SET_BACK = [(START, NINE), (MARK, 0, NINE + HOUR), (HOLD, NINE + 3 * HOUR), (BACK, 0, NINE + 4 * HOUR)]


def examples():
    """The examples, which second.py must answer so; the last instant is not set back."""
    made = []
    for rows in EXAMPLES:
        commands = ticket(*(row[:-1] for row in rows))
        told = tickets.answers(vars(second), *built(OFFICE, NO_PACK), commands)[1:]
        if told != [(14, 0, [0, 0]) if row[-1] is None else (0, 0, [row[-1] * HOUR, 0]) for row in rows]:
            sys.exit(f"second.py answers otherwise than the example {rows}")
        made.append(commands)
    early = [(NINE + HOUR, 0), (NINE + 2 * HOUR, 0), (NINE + 3 * HOUR, 0), (NINE + 4 * HOUR - 1, LATE)]
    made.append(ticket(*SET_BACK, *((kind, 0, given) for given in early for kind in (HOLD, MARK, BACK)), (HOLD, NINE + 4 * HOUR)))
    yield OFFICE, NO_PACK, all_of(made)


# ---- states, names, instants and the order of refusals

STATES = {
    "new": [],
    "running": [(START, NINE), (MARK, 3, NINE + HOUR)],
    "held": [(START, NINE), (MARK, 3, NINE + HOUR), (HOLD, NINE + 2 * HOUR)],
    "set back, running": [(START, NINE), (MARK, 3, NINE + HOUR), (MARK, 0, NINE + HOUR), (HOLD, NINE + 2 * HOUR), (BACK, 3, NINE + 3 * HOUR)],
    "set back, held": [(START, NINE), (HOLD, NINE + HOUR), (MARK, 3, NINE + 2 * HOUR), (RESUME, NINE + 2 * HOUR), (BACK, 3, NINE + 3 * HOUR)],
}
TRIED = [(START,), (HOLD,), (RESUME,), (MARK, 0), (MARK, 3), (MARK, 7), (MARK, 8), (BACK, 3), (BACK, 0), (BACK, 8)]


def state_of(rows):
    """The ticket of second.py after some commands."""
    made = second.Ticket()
    for kind, name, *given in ticket(*rows)[1:]:
        made.take(WORDS[kind], name, second.read_instant(*given))
    return made


def is_allowed(rows, tried):
    return state_of(rows).allows(WORDS[tried[0]], tried[1] if len(tried) > 1 else 0)


def states():
    """Each command in each state, at the last instant, behind it and before it, and out of the range. What is refused stands in one ticket, which goes on as if
    it had not been there; what is accepted has a ticket each."""
    for rows in STATES.values():
        last = rows[-1][-1] if rows else NINE
        good, bad = [(last, 0), (last + HOUR, 0)], [(last - 1, LATE), (FIRST_S, 0), (LAST_S + 1, 0), (last, NANO)]
        not_allowed = [tried for tried in TRIED if not is_allowed(rows, tried)]
        made = ticket(*rows)
        made += [command(*tried, given) for tried in not_allowed for given in bad + good]
        if rows:
            made += [command(*tried, given) for tried in TRIED for given in bad]
        rest = [(HOLD, last + 2 * HOUR), (RESUME, last + 3 * HOUR), (BACK, 3, last + 4 * HOUR)]
        made += [command(*row) for row in [(START, last + HOUR)] * (not rows) + rest]
        for tried in TRIED:
            if tried not in not_allowed:
                made += all_of(ticket(*rows, (*tried, given), *rest) for given in good)
        yield OFFICE, NO_PACK, made


def names():
    """Names of all sizes, in marking and in setting back, on a running and on a held ticket."""
    made = []
    for rows in STATES["running"], STATES["held"]:
        start = rows[-1][-1]
        made += ticket(*rows)
        made += [command(kind, name, start + place * 60) for place, name in enumerate(ANY_NAMES) for kind in (BACK, MARK, BACK)]
    yield OFFICE, NO_PACK, made


def depths():
    """All eight marks, set running and held, and a set-back to each; then set-backs to all, the later ones first, which are gone."""
    for order in (range(NAMES), [5, 0, 7, 2, 4, 1, 6, 3]):
        made = []
        for depth in range(NAMES):
            rows, at = [(START, NINE)], NINE
            for place, name in enumerate(order):
                at += 1800
                if place in (2, 3, 6):
                    rows.append((HOLD if place != 3 else RESUME, at - 600))
                rows.append((MARK, name, at))
            rows += [(BACK, order[depth], at + HOUR)] + [(BACK, name, at + 2 * HOUR) for name in reversed(order)]
            made += ticket(*rows, (MARK, order[depth], at + DAY), (HOLD, at + DAY + HOUR))
        yield OFFICE, NO_PACK, made


def instants():
    """Instants that are equal, a nanosecond later and earlier; the nanoseconds of the elapsed time; both ends of the range and what lies outside."""
    always = join([work(b"", ALL, 0, 0)])
    near = [(NINE, LATE), (NINE + 1, 0), (NINE + 1, 0), (NINE, LATE), (NINE + 1, 1), (NINE + 1, 0), (NINE + 2, 0), (NINE + 1, LATE)]
    made = ticket((START, (NINE, LATE - 1)), *((MARK, place, given) for place, given in enumerate(near)), (HOLD, (NINE + 2, 1)), (BACK, 4, (NINE + 2, 1)), (BACK, 0, (NINE + 2, 2)))
    ends = [(LAST_S, LATE - 1), (LAST_S, LATE), (LAST_S, LATE)]
    made += ticket((START, (FIRST_S - 1, LATE)), (START, FIRST_S), (MARK, 0, FIRST_S), (MARK, 1, (FIRST_S, 1)), *((MARK, 2 + place, given) for place, given in enumerate(ends)),
                   (HOLD, LAST_S + 1), (HOLD, (LAST_S, LATE)), (RESUME, (LAST_S, LATE)), (BACK, 2, (LAST_S, LATE)), (BACK, 1, (LAST_S, LATE - 1)), (BACK, 1, (LAST_S, LATE)),
                   (HOLD, (LAST_S, LATE)), (BACK, 0, (LAST_S, LATE)), (BACK, 0, (MOST_I64, MOST_I64)))  # fmt: skip
    made += ticket((START, (LAST_S, LATE)), (MARK, 0, (LAST_S, LATE)), (BACK, 0, (LAST_S, LATE)), (HOLD, (LAST_S, LATE)), (HOLD, FIRST_S), (BACK, 0, LAST_S))
    for rows in ([], [(START, NINE)], [(START, NINE), (HOLD, NINE)]):
        made += ticket(*rows, *((kind, 0, given) for given in NO_INSTANTS for kind in (START, HOLD, RESUME, MARK, BACK)))
    for book in (OFFICE, always):
        yield book, NO_PACK, made


# ---- books with zones


def spells_about(instant):
    """Tickets whose spells lie over an instant: short ones, ones of weeks, and many, with marks before, at and behind it."""
    made = ticket((START, instant - 2 * HOUR), (MARK, 0, instant - 1800), (MARK, 1, instant), (MARK, 2, instant + 1800), (BACK, 1, instant + 2 * HOUR), (HOLD, instant + 4 * HOUR),
                  (BACK, 0, instant + 5 * HOUR), (HOLD, instant + 8 * HOUR))  # fmt: skip
    made += ticket((START, instant - 5 * WEEK), (MARK, 3, instant - DAY), (HOLD, (instant - 1, LATE)), (RESUME, instant), (MARK, 4, instant + 3 * WEEK), (BACK, 3, instant + 5 * WEEK),
                   (MARK, 3, instant + 40 * WEEK), (BACK, 4, instant + 41 * WEEK), (HOLD, instant + 100 * WEEK))  # fmt: skip
    days = [((HOLD, RESUME)[place % 2], instant + (place - 8) * 12 * HOUR) for place in range(1, 16)]
    return made + ticket((START, instant - 4 * DAY), *days[:5], (MARK, 6, instant - DAY), *days[5:], (BACK, 6, instant + 5 * DAY), (RESUME, instant + 5 * DAY), (HOLD, instant + 6 * DAY))


def changes():
    """Spells over changes of zones, in books with breaks and holidays."""
    berlin = [default(b"cet"), work(b"", WORKDAYS, 8 * HOUR, 17 * HOUR), work(b"", 0x40, 5400, 12600), pause(b"", WORKDAYS, 43200, 45000)]
    berlin.append(holidays(b"", [(2026, 1, 1), (2026, 4, 3), (2026, 4, 6), (2026, 10, 26)]))
    yield join(berlin), packed(CET), spells_about(SPRING) + spells_about(AUTUMN)
    nights = [work(b"EST", ALL, 22 * HOUR, 6 * HOUR), work(b"CET", WORKDAYS, 9 * HOUR, 17 * HOUR), pause(b"EST", ALL, 7200, 9000)]
    yield join(nights), packed(CET, EST), spells_about(NEW_YORK) + spells_about(AUTUMN + 7 * DAY)


def parted(schedule, low, high, step):
    """Spans between two instants, in seconds, with a place where the working time of the whole is not that of both parts; all of them on multiples of a step."""
    time, found = {}, []
    instants = range(low, high, step)
    for start in instants:
        for middle in range(start, high, step):
            for end in range(middle, high, step):
                for span in ((start, end), (start, middle), (middle, end)):
                    if span not in time:
                        time[span] = schedule.between(*(instant * NANO for instant in span))[0]
                if time[start, end] != time[start, middle] + time[middle, end]:
                    found.append((start, middle, end))
    return found


def spread(found, count):
    """Some of what was found, from all over it."""
    return [found[place * len(found) // count] for place in range(count)]


def split_tickets(low, middle, high):
    """Tickets with one spell from low to high, marked in the middle, and such as have two: by a set-back at the mark's own instant, by a hold and a resumption."""
    inside = [[(MARK, 0, middle)], [(MARK, 0, middle), (BACK, 0, middle)], [(HOLD, middle), (RESUME, middle)], [(MARK, 0, middle), (HOLD, middle), (BACK, 0, middle)]]
    for rows in inside:
        yield ticket((START, low), *rows, (MARK, 1, high), (HOLD, high), (BACK, 1, high), (HOLD, high))
    yield ticket((START, low), (MARK, 2, low), (BACK, 2, low), (MARK, 0, middle), (MARK, 1, high), (BACK, 0, high), (HOLD, high))
    yield ticket((START, low), (HOLD, low), (MARK, 5, low), (RESUME, low), (MARK, 0, middle), (HOLD, high), (BACK, 0, high), (BACK, 5, high + HOUR))


def not_additive():
    """Books whose working times do not add up: by hours about a change, by days, and where the range begins."""
    apart, backward = [work(b"Apart", 0x01, 12 * HOUR, 12 * HOUR)], [work(b"Backward", ALL, 12 * HOUR, 6 * HOUR), pause(b"Backward", 0x02, 20 * HOUR, 22 * HOUR)]
    yield apart, APART, (JUMP - 3 * DAY, JUMP + 3 * DAY, 4 * HOUR)
    yield backward, BACKWARD, (JUMP - 3 * DAY, JUMP + 3 * DAY, 4 * HOUR)
    yield backward, BACKWARD, (JUMP - 20 * DAY, JUMP + 20 * DAY, DAY)
    yield [work(b"ToAndFro", ALL, 22 * HOUR, 6 * HOUR), holidays(b"", [(2026, 1, 9)])], TO_AND_FRO, (MON - DAY, MON + 5 * DAY, 4 * HOUR)
    yield [work(b"West", ALL, 22 * HOUR, 6 * HOUR)], WEST, (FIRST_S, FIRST_S + 3 * DAY, 4 * HOUR)


def split_spells():
    """Tickets on these books."""
    for records, zone, about in not_additive():
        book, pack = join(records), packed(zone)
        spans = spread(parted(built(book, pack)[0], *about), SPANS)
        yield book, pack, all_of(made for span in spans for made in split_tickets(*span))


def refused_books():
    """A book for each refusal of its own, 1 to 6; 4 and 5 with a place. No command is answered with another."""
    office = work(b"", WORKDAYS, 9 * HOUR, 17 * HOUR)
    books = [(bytes(3), NO_PACK), (join([office] * 17), NO_PACK), (OFFICE, b""), (join([office, default(b"UTC")]), NO_PACK)]
    books += [(join([office, work(b"Bad", WORKDAYS, 0, HOUR)]), join([pack_record(b"Bad", b"TZif")])), (bytes(4), NO_PACK)]
    for book, pack in books:
        yield book, pack, ticket((HOLD, NINE), (START, LAST_S + 1), (START, NINE), (START, NINE), (HOLD, (NINE, -1)), (MARK, 8, NINE), (BACK, 0, NINE - 1))


# ---- the vectors of document 02


def vector_lines(path):
    """The lines of a folder about tickets: word, numbers, the answer."""
    calls, told = ((path / name).read_text("ascii").split("\n") for name in ("calls.txt", "answers.txt"))
    pairs = [(second.read_ticketed(line.encode()), answer) for line, answer in zip(calls, told)]
    return [(*read, answer) for read, answer in pairs if read]


def told_line(schedule, made, word, numbers):
    """An answer as VECTORS tells it."""
    try:
        return second.command_answer(schedule, None, made, word, numbers)
    except second.Refusal as refusal:
        return f"no {refusal.number} {refusal.place}"


def told_lines(schedule, lines):
    made, found = second.Ticket(), []
    for word, numbers, _ in lines:
        made = second.Ticket() if word == "ticket" else made
        found.append("ok 0 0" if word == "ticket" else told_line(schedule, made, word, numbers))
    return found


def without_time(answer):
    return answer if answer.startswith("no ") else "ok"


def stored(lines):
    """The commands of some lines, but for names below 0, which are refused."""
    rows = [(WORDS.index(word), *numbers[:-2], tuple(numbers[-2:])) for word, numbers, _ in lines if word != "ticket"]
    return ticket(*(row for row in rows if row[0] not in NAMED or row[1] >= 0))


def vectors(folder):
    """The cases of VECTORS; prints how many folders and lines are taken and left out. A folder has one ticket."""
    cases, taken, left_out = [], [], []
    office = built(OFFICE, NO_PACK)[0]
    for path in sorted(path for path in folder.iterdir() if (path / "calls.txt").exists()):
        book, pack = ((path / name).read_bytes() for name in ("book.bin", "zones.bin"))
        lines = vector_lines(path)
        schedule, refused = built(book, pack)
        found, told = told_lines(schedule or office, lines), [answer for _, _, answer in lines]
        if refused:
            found, told = ([without_time(answer) for answer in texts] for texts in (found, told))
        if found != told or [word for word, _, _ in lines].count("ticket") != 1:
            sys.exit(f"{path.name}: second.py answers otherwise")
        (left_out if refused else taken).append(len(lines))
        if not refused:
            cases.append((book, pack, stored(lines)))
    print(f"vectors: {len(taken)} folders, {sum(taken)} lines, all as expected, {sum(len(case[2]) for case in cases)} stored; "
          f"{len(left_out)} folders, {sum(left_out)} lines left out, refused and accepted as expected")  # fmt: skip
    return cases


# ---- what the stored commands tell apart


class Split(second.Ticket):
    """A ticket whose spells are split by marking."""

    def spells(self):
        return [part for spell in super().spells() for part in parts(self, *spell)]


class Joined(second.Ticket):
    """A ticket whose spells are joined where they touch."""

    def spells(self):
        return joined(super().spells())


def check_apart(data, wrong):
    """How many answers, and in how many cases, tickets of a wrong kind give otherwise; there must be some."""
    counts = []
    for book, pack, commands, told in tickets.read_cases(data):
        schedule, refused = built(book, pack)
        found = tickets.answers(vars(second) | {"Ticket": wrong}, schedule, refused, commands)
        counts.append(sum(one != other for one, other in zip(found, told)))
    if not any(counts):
        sys.exit(f"no answer differs: {wrong.__doc__}")
    print(f"{wrong.__doc__} {sum(counts)} answers in {sum(map(bool, counts))} cases differ.")


def main(folder, out):
    cases = vectors(folder)
    for made in (examples, states, names, depths, instants, changes, split_spells, refused_books):
        cases += list(made())
    cases += [tickets.case_of(RANDOM[0], place, "") for place in range(RANDOM[1])]
    data = b"".join(tickets.case_data(*case) for case in cases)
    if len(data) > MOST:
        sys.exit(f"{len(data)} bytes are too many")
    for wrong in (Split, Joined):
        check_apart(data, wrong)
    out.mkdir(parents=True, exist_ok=True)
    (out / "tickets.bin").write_bytes(data)
    made = [command[0] for case in cases for command in case[2]]
    print(f"{len(data)} bytes, {len(cases)} cases, {made.count(NEW)} tickets, {len(made) - made.count(NEW)} commands")
    tickets.show_numbers(tickets.numbers_seen(data))


if __name__ == "__main__":
    if len(sys.argv) != 3 or sys.argv[1].startswith("-"):
        sys.exit(__doc__)
    main(Path(sys.argv[1]), Path(sys.argv[2]))
