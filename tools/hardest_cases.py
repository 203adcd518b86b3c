#!/usr/bin/env python3
"""Writes stored logs of runs with their hardest stretches, for the program `test_replay_hardest`.

usage: tools/hardest_cases.py VECTORS OUT

VECTORS has the vectors of document 02: folders with book.bin, zones.bin, calls.txt and answers.txt, of which the lines `hardest` are taken. A folder
whose book has records that compare/second.py does not read (kinds 4 and 5) is left out. OUT gets hardest.bin; compare/hardest.py tells its layout. The
answers come from compare/second.py, not from the code that is to be compared; those of VECTORS must be the same. No zone file of a machine is used, so
the same VECTORS give the same data. What is in the repository was made by

    tools/hardest_cases.py VECTORS crates/test_replay_hardest/data
"""
import random
import sys
from pathlib import Path

sys.dont_write_bytecode = True
sys.path.insert(0, str(Path(__file__).resolve().parent.parent / "compare"))
import hardest  # noqa: E402
import second  # noqa: E402
from generate import FIRST_S, LAST_S, MON, WEEK, default, holidays, join, pack_record, shift, tzif  # noqa: E402
from second import DAY, RUNS, WIDEST  # noqa: E402

RANDOM = ("2032", 32)  # seed and number of the random cases
HOUR = 3600
LATE = 999_999_999
LEAST, MOST = -(2**63), 2**63 - 1
EIGHT, TEN = MON + 8 * HOUR, MON + 10 * HOUR  # Monday 2026-01-05T08:00Z and 10:00Z
SPRING, AUTUMN = 1774746000, 1792890000  # 2026-03-29T01:00Z and 2026-10-25T01:00Z, when most of Europe and Nuuk change
NEW_YORK = 1772953200  # 2026-03-08T07:00Z, when New York changes
OFFICE = bytes.fromhex("000000010000000C0000001301001F00007E90000000000000EF1000000000")
NO_PACK = bytes(4)
EXAMPLE = [HOUR, 100, 2 * HOUR, 100]
NEXT_WEEK = [7 * DAY + 9 * HOUR, 60, 7 * DAY + 10 * HOUR, 60, 8 * DAY, 10 * HOUR]


def work(name, days, start, end, kind=1):
    return shift(kind, name, days, (start, 0), (end, 0))


def pause(name, days, start, end):
    return work(name, days, start, end, 2)


# ---- logs, widths and instants that are refused, or just not

LOGS = [
    [5], [0, 10, 20], [0, 10, 20, 30, 40],  # odd numbers of numbers
    [-1, 10], [LEAST, 1], [LEAST, MOST], [LEAST, LEAST],  # an offset below 0
    [0, 0], [0, -1], [0, LEAST], [0, 10, 20, 0], [0, 10, 20, -1],  # a length below 1
    [0, 10, 9, 5], [0, 10, 10, 5], [0, 10, 11, 5],  # overlap by a second, touching, a second between
    [10, 5, 0, 5], [0, 10, 0, 10], [0, 10, 5, 20], [0, 100, 1, 1], [HOUR, 20, HOUR + 19, 1], [HOUR, 20, HOUR + 20, 1],
    [MOST, MOST], [MOST, 1], [1, MOST], [0, MOST], [MOST - 1, 1], [0, 10, MOST, 1], [0, 10, MOST, MOST],  # ends beyond 64 bits, or beyond the range
    [2**62, 2**62], [2**62, 2**62 - 1], [0, 4, 4, MOST], [0, 4, 4, MOST, 10, 5], [0, 10, MOST, MOST, -1, 5], [2**32, 1], [0, 2**32 + 1],
]  # fmt: skip
WIDTHS = [1, 2, 100, 101, 3599, 3600, 3650, 3699, 3700, 3701, WIDEST - 1, WIDEST]
OUTSIDE = [0, -1, WIDEST + 1, LEAST, MOST, 2**32, 2**32 + 1, 2**32 + WIDEST, -WIDEST]
NO_INSTANTS = [(FIRST_S - 1, LATE), (LAST_S + 1, 0), (EIGHT, -1), (EIGHT, LATE + 1), (LEAST, LEAST), (MOST, MOST), (EIGHT, LEAST), (0, MOST)]


def refusals():
    """Each log, each width and each instant that is refused, or just not; where two refusals hold, the first must be told."""
    asked = [[TEN, 0, 60, *log] for log in LOGS]
    asked += [[EIGHT, 0, width, *EXAMPLE] for width in WIDTHS + OUTSIDE]
    asked += [[EIGHT, 0, width] for width in [1, WIDEST] + OUTSIDE]
    asked += [[EIGHT, 0, width, *log] for width in OUTSIDE for log in ([5], [0, 10, 9, 5])]
    asked += [[*given, 60, *EXAMPLE] for given in NO_INSTANTS]
    asked += [[*given, width, *log] for given in NO_INSTANTS[:3] for width in (60, 0) for log in ([5], [])]
    return asked + [[EIGHT, 0, MOST, 0, MOST]]


def at_the_end():
    """Runs that end at the last instant, a second before and a second behind it."""
    asked = []
    for nano in (0, 1, 500_000_000, LATE - 1, LATE):
        for log in ([0, 9], [0, 10], [0, 11], [10, 1], [9, 1], [0, 3, 3, 7], [0, 3, 4, 7], [2, 3, 6, 4]):
            asked.append([LAST_S - 10, nano, 5, *log])
        asked.append([LAST_S - 10, nano, WIDEST, 0, 4, 5, 5])
        asked.append([LAST_S, nano, 1])
        asked.append([LAST_S, nano, 1, 0, 1])
        asked.append([LAST_S - 1, nano, 1, 0, 1])
    all_seconds = LAST_S - FIRST_S
    asked += [[FIRST_S, nano, WIDEST, 0, all_seconds + more] for nano in (0, LATE) for more in (0, 1)]
    return asked + [[FIRST_S, LATE, 7 * DAY, 0, 1, all_seconds - 10 * DAY, 10 * DAY]]


def equal_windows():
    """Windows of the same value, of which the earliest counts, and cut runs, from an hour with work on."""
    logs = [[0, 10, 20, 10, 40, 10], [0, 5, 20, 10, 40, 10], [0, 5, 20, 10, 40, 10, 60, 4], [5, 1, 7, 1, 9, 1], [0, 10, 10, 10, 20, 10]]
    logs += [[0, 5, 10, 30, 50, 30], [7, 100], [0, 1, 1, 1, 2, 1, 4, 1, 5, 1, 6, 1], [3, 4, 8, 9, 20, 2, 23, 11]]
    asked = [[TEN, nano, width, *log] for log in logs for nano, width in ((0, 10), (1, 25), (0, 30), (LATE, 1), (0, 1000))]
    days = [number for day in range(14) for number in (day * DAY + 9 * HOUR, HOUR)]
    weekend = [5 * DAY, HOUR, 5 * DAY + 2 * HOUR, HOUR, 6 * DAY + 3, DAY - 10]
    asked += [[MON, 0, width, *log] for log in (days, [0, HOUR, *days], weekend, [*weekend, *NEXT_WEEK]) for width in (HOUR, DAY, WEEK)]
    return asked + [[MON + 5 * DAY, nano, width] for nano, width in ((0, 1), (LATE, WIDEST))]


def about(second_, nano=0):
    """Runs about an instant: touching hours, days, and runs longer than any window."""
    hours = [number for place in range(8) for number in (place * HOUR, HOUR)]
    days = [number for place in range(7) for number in (place * DAY, 8 * HOUR)]
    years = [0, 700 * DAY, 700 * DAY, 300 * DAY]
    asked = [(second_ - 4 * HOUR, width, hours) for width in (HOUR, HOUR + 1800, 5 * HOUR)]
    asked += [(second_ - 3 * DAY, width, days) for width in (4 * HOUR, 3 * DAY, WEEK)]
    asked += [(second_ - 600 * DAY, WIDEST, years), (second_ - HOUR, 2 * HOUR, [0, DAY]), (second_ - 1, 2, [0, 1, 1, 1])]
    return [[max(FIRST_S, at), nano, width, *log] for at, width, log in asked]


# ---- books

CET = (b"CET", tzif([0, 3600, 7200], [(SPRING - 364 * DAY, 2), (AUTUMN - 364 * DAY, 1)], b"CET-1CEST,M3.5.0,M10.5.0/3"))
EST = (b"EST", tzif([-18000], (), b"EST5EDT,M3.2.0,M11.1.0"))
NUUK = (b"Nuuk", tzif([-7200], (), b"<-02>2<-01>,M3.5.0/-1,M10.5.0/0", b"3"))
HOWE = (b"Howe", tzif([37800], (), b"<+1030>-10:30<+11>-11,M10.1.0,M4.1.0"))
APART = (b"Apart", tzif([-93599, 93599], [(MON + 20 * HOUR + 93599, 1)]))  # a jump of more than two days
WEST = (b"West", tzif([-93599]))


def packed(*zones):
    return join([pack_record(*zone) for zone in zones])


def full_book():
    """16 work, 16 break, 8 holiday records, 512 dates and two zones."""
    rng = random.Random("full")
    records = [work(rng.choice([b"", b"EST"]), 1 << place % 7 | 1, rng.randrange(DAY), rng.randrange(DAY)) for place in range(16)]
    for place in range(16):
        start = rng.randrange(DAY)
        records.append(pause(rng.choice([b"", b"EST"]), 1 << place % 7, start, (start + rng.randint(1, HOUR)) % DAY))
    for place in range(8):
        dates = [(2026 + place, 1 + month, 1 + 3 * day) for month in range(8) for day in range(8)]
        records.append(holidays(b"EST" if place % 2 else b"", dates))
    return join(records + [default(b"CET")])


def books():
    """Books that build, with their packs and questions."""
    examples = [[EIGHT, 0, width, *EXAMPLE] for width in (3650, 3600, 3700)] + [[LAST_S - 10, LATE, 5, 0, length] for length in (10, 11)]
    yield OFFICE, NO_PACK, examples + refusals() + equal_windows()
    always = join([work(b"", 0x7F, 0, 0)])
    yield always, NO_PACK, at_the_end() + [[MON, 0, WIDEST, 0, 1, 5, WIDEST - 4, WIDEST + 1, 6]]
    nights = [work(b"", 0x7F, 22 * HOUR, 6 * HOUR), pause(b"", 0x7F, 2 * HOUR, 9000), holidays(b"", [(2026, 1, 6), (2026, 3, 29)])]
    yield join(nights), NO_PACK, about(MON + DAY) + about(SPRING, 1) + about(LAST_S - DAY) + about(FIRST_S + DAY, LATE)
    berlin = [default(b"cet"), work(b"", 0x1F, 8 * HOUR, 17 * HOUR), work(b"", 0x40, 5400, 12600), pause(b"", 0x1F, 43200, 45000)]
    berlin.append(holidays(b"", [(2026, 1, 1), (2026, 4, 3), (2026, 4, 6), (2026, 10, 26)]))
    yield join(berlin), packed(CET), about(SPRING) + about(AUTUMN, LATE) + about(SPRING - 364 * DAY)
    mixed = [work(b"EST", 0x7F, 1800, 5 * HOUR), work(b"CET", 0x1F, 9 * HOUR, 17 * HOUR), pause(b"Howe", 0x7F, HOUR, 2 * HOUR)]
    mixed.append(holidays(b"Howe", [(2026, 3, 30), (2026, 11, 1)]))
    yield join(mixed), packed(CET, EST, HOWE), about(NEW_YORK) + about(AUTUMN + 7 * DAY, 1)
    nuuk = [default(b"Nuuk"), work(b"", 0x60, 21 * HOUR, HOUR), work(b"", 0x1F, 8 * HOUR, 16 * HOUR)]
    yield join(nuuk), packed(NUUK), about(SPRING) + about(AUTUMN)
    yield full_book(), packed(EST, CET), about(SPRING) + about(MON + 9 * HOUR)
    # The working times of the next three books do not add up.
    jump = MON + 20 * HOUR + 93599
    yield join([work(b"Apart", 0x7F, 12 * HOUR, 12 * HOUR)]), packed(APART), about(jump) + about(jump + 2, 500)
    apart = [[jump - HOUR, 0, width, 0, HOUR + 2, HOUR + 2, 5 * HOUR] for width in (HOUR, 3 * HOUR, DAY)]
    yield join([work(b"Apart", 0x01, 12 * HOUR, 12 * HOUR)]), packed(APART), apart + about(jump + HOUR)
    first = [[FIRST_S + 22 * HOUR, nano, width, 0, 4 * HOUR, 4 * HOUR, 6 * HOUR] for nano in (0, 1) for width in (HOUR, 5 * HOUR, DAY)]
    yield join([work(b"West", 0x7F, 22 * HOUR, 6 * HOUR)]), packed(WEST), first + about(FIRST_S, 7) + about(FIRST_S + DAY)


def refused_books():
    """A book for each refusal of its own, 1 to 6; 4 and 5 with a place."""
    office = work(b"", 0x1F, 9 * HOUR, 17 * HOUR)
    yield bytes(3), NO_PACK
    yield join([office] * 17), NO_PACK
    yield OFFICE, b""
    yield join([office, default(b"UTC")]), NO_PACK
    yield join([office, work(b"Bad", 0x1F, 0, HOUR)]), join([pack_record(b"Bad", b"TZif")])
    yield bytes(4), NO_PACK


# ---- logs at the limit of runs


def short_runs(count):
    """Short runs with short pauses, the densest of them last."""
    rng = random.Random("runs")
    log, at = [], 5
    for place in range(count):
        late = place >= count - 8
        length = 290 if late else rng.randint(1, 240)
        log += [at, length]
        at += length + (1 if late else rng.randint(60, 500))
    return log


def full_logs():
    """4,096 runs in office hours, the hardest window at the eighth run from the end; 4,096 that end at the last instant; one run too many."""
    log = short_runs(RUNS)
    seconds = log[-2] + log[-1]
    yield OFFICE, NO_PACK, [[MON + 35 * DAY + 12 * HOUR - seconds, 0, 2100, *log]]
    always = join([work(b"", 0x7F, 0, 0), pause(b"", 0x7F, 21 * HOUR, 22 * HOUR)])
    yield always, NO_PACK, [[LAST_S - seconds, LATE, 700, *log]]
    yield OFFICE, NO_PACK, [[MON, 0, 3600, *short_runs(RUNS + 1)]]


# ---- the vectors of document 02


def vectors(folder):
    """The cases of VECTORS; prints how many folders and lines are taken and left out."""
    cases, left_out = [], [0, 0]
    for path in sorted(path for path in folder.iterdir() if (path / "calls.txt").exists()):
        files = [(path / name).read_bytes() for name in ("book.bin", "zones.bin", "calls.txt", "answers.txt")]
        pairs = [pair for pair in zip(*(data.split(b"\n") for data in files[2:])) if pair[0].startswith(b"hardest ")]
        schedule, refused = hardest.built(vars(second), *files[:2])
        if refused and refused.number == 1:
            left_out = [left_out[0] + 1, left_out[1] + len(pairs)]
            continue
        questions = [second.read_call(line)[1] for line, _ in pairs]
        for question, (_, told) in zip(questions, pairs):
            number, place, numbers = hardest.answer(vars(second), schedule, refused, question)
            if told.decode() != (f"no {number} {place}" if number else "ok " + " ".join(map(str, numbers))):
                sys.exit(f"{path.name}: second.py answers otherwise than {told.decode()}")
        cases.append((*files[:2], questions))
    lines = sum(len(questions) for _, _, questions in cases)
    print(f"vectors: {len(cases)} folders, {lines} lines, all as expected; {left_out[0]} folders, {left_out[1]} lines left out")
    return cases


def main(folder, out):
    cases = vectors(folder) + list(books())
    wrong = [[LAST_S + 1, 0, 0, 5], [EIGHT, 0, 0, 5], [EIGHT, 0, 0], [EIGHT, 0, 60, *EXAMPLE]]
    cases += [(book, pack, wrong) for book, pack in refused_books()]
    cases += [hardest.case_of(RANDOM[0], place, "") for place in range(RANDOM[1])]
    cases += list(full_logs())
    data = b"".join(hardest.case_data(*case) for case in cases)
    if len(data) > hardest.MOST:
        sys.exit(f"{len(data)} bytes are too many")
    seen = [number for _, _, _, answers in hardest.read_cases(data) for number, _, _ in answers]
    out.mkdir(parents=True, exist_ok=True)
    (out / "hardest.bin").write_bytes(data)
    by_number = {number: seen.count(number) for number in sorted(set(seen)) if number}
    print(f"{len(data)} bytes, {len(cases)} cases, {seen.count(0)} answers; refusals by number: {by_number}")


if __name__ == "__main__":
    if len(sys.argv) != 3 or sys.argv[1].startswith("-"):
        sys.exit(__doc__)
    main(Path(sys.argv[1]), Path(sys.argv[2]))
