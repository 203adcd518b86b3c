#!/usr/bin/env python3
"""Writes stored listings with the answers that are expected, for the program `test_replay_lists`.

usage: tools/list_cases.py CASES OUT

CASES is a folder of cases-00.bin and so on, as tools/vector_cases.py writes them; of each case the book and the pack are taken, not the query lines. OUT
gets lists.bin. The answers come from compare/second.py, not from the code that is to be compared.

In lists.bin a case is three numbers of 4 bytes, big-endian, the lengths of its parts, and then the parts: book, pack, questions. A question is two
instants as four signed numbers of 8 bytes, each with 2^63 added; then, in 4 bytes each, how many numbers are lent, the refusal's number (0 for none) and
its place or how many stretches there are; then the numbers of the stretches, 8 bytes each with 2^63 added.
"""
import struct
import sys
from pathlib import Path

sys.path.insert(0, str(Path(__file__).resolve().parent.parent / "compare"))
import second  # noqa: E402

MOST = 65536
SPARE = 7
PLENTY = 2048
FIRST, LAST = second.FIRST // second.NANO, second.LAST // second.NANO
DAY = 86400
WINTER, SPRING, AUTUMN = 1767778200, 1774000000, 1792800000  # 2026-01-07T09:30, 2026-03-20T09:46:40, 2026-10-24T00:00, all UTC

# The cases that build, by their place among CASES, and how many days are listed from a Wednesday in January on.
CHOSEN = {
    0: 365,  # office hours in UTC
    1: 28,  # the same with a holiday
    2: 21,  # nights
    3: 800,  # no end of work: one stretch over many windows
    33: 28,  # nine records, so that the larger memory is used
    64: 14,  # three records, a zone with changes
    225: 14,  # four records, a zone of the real database
    280: 28,  # five records, a zone with changes
}

# Spans that every such case is asked: seconds and nanoseconds of both ends.
SPANS = [
    (SPRING, 0, SPRING + 10 * DAY, 0),
    (AUTUMN, 1, AUTUMN + 3 * DAY, 999999999),
    (WINTER + 1, 500000000, WINTER + 2, 0),
    (WINTER, 0, WINTER, 0),
    (WINTER + 5, 0, WINTER, 0),
    (FIRST, 0, FIRST + 5 * DAY, 0),
    (LAST - 5 * DAY, 0, LAST, 999999999),
]

# Numbers that are no instants.
OUTSIDE = [
    (FIRST - 1, 999999999, WINTER, 0),
    (WINTER, 0, LAST + 1, 0),
    (WINTER, -1, WINTER + DAY, 0),
    (WINTER, 0, WINTER + DAY, 1000000000),
    (-(2**63), -(2**63), 2**63 - 1, 2**63 - 1),
]


def cases(folder):
    for path in sorted(folder.glob("cases-*.bin")):
        data, at = path.read_bytes(), 0
        while at < len(data):
            sizes = struct.unpack(">IIII", data[at : at + 16])
            at += 16
            parts = [data[at + sum(sizes[:k]) : at + sum(sizes[: k + 1])] for k in range(4)]
            at += sum(sizes)
            yield parts[0], parts[1]


def built(book, pack):
    """The schedule, or the refusal."""
    try:
        return second.Schedule(book, pack), None
    except second.Refusal as refusal:
        return None, refusal


def numbers(instant):
    return [instant // second.NANO, instant % second.NANO]


def question(schedule, refused, span, room):
    """The bytes of a question with its answer, and whether the listing is given."""
    number, place, told = 0, 0, []
    try:
        if refused:
            raise refused
        low, high = second.read_instant(*span[:2]), second.read_instant(*span[2:])
        found = schedule.listing(low, high, room)
        place = len(found)
        told = [number for start, end in found for number in numbers(start) + numbers(end)]
    except second.Refusal as refusal:
        number, place = refusal.number, refusal.place
    data = struct.pack(">4Q", *(word + 2**63 for word in span)) + struct.pack(">III", room, number, place)
    return data + struct.pack(f">{len(told)}Q", *(word + 2**63 for word in told)), number


def questions(schedule, spans):
    """Each span with all numbers that it needs and some to spare, exactly these, one too few, and none at all."""
    for span in spans:
        need = 4 * len(schedule.listing(second.read_instant(*span[:2]), second.read_instant(*span[2:]), PLENTY))
        for room in sorted({need + SPARE, need, max(need - 1, 0), 0}):
            yield question(schedule, None, span, room)


def joined(book, pack, asked):
    asked = list(asked)
    for _, number in asked:
        seen[number] = seen.get(number, 0) + 1
    parts = [book, pack, b"".join(data for data, _ in asked)]
    return struct.pack(">III", *map(len, parts)) + b"".join(parts)


if len(sys.argv) != 3 or sys.argv[1].startswith("-"):
    sys.exit(__doc__)
every = list(cases(Path(sys.argv[1])))
out, seen = b"", {}
for place, days in CHOSEN.items():
    schedule, refused = built(*every[place])
    if refused:
        sys.exit(f"case {place} is refused")
    long = (WINTER, 0, WINTER + days * DAY, 0)
    asked = list(questions(schedule, [long, *SPANS])) if place else list(questions(schedule, [(*long[:2], WINTER + 28 * DAY, 0), *SPANS]))
    asked.append(question(schedule, None, long, PLENTY))
    asked += [question(schedule, None, span, room) for span in OUTSIDE for room in (0, SPARE)]
    out += joined(*every[place], asked)
for number in range(1, 7):
    refused = [(len(book) + len(pack), place) for place, (book, pack) in enumerate(every) if getattr(built(book, pack)[1], "number", 0) == number]
    for _, place in sorted(refused)[:2]:
        asked = [question(None, built(*every[place])[1], span, room) for span in (SPANS[0], OUTSIDE[0]) for room in (0, SPARE)]
        out += joined(*every[place], asked)
if len(out) > MOST:
    sys.exit(f"{len(out)} bytes are too many")
Path(sys.argv[2]).mkdir(parents=True, exist_ok=True)
(Path(sys.argv[2]) / "lists.bin").write_bytes(out)
print(f"{len(out)} bytes, {seen[0]} listings; refusals by number: {dict(sorted((k, v) for k, v in seen.items() if k))}")
