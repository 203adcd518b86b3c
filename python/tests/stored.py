"""The stored cases of the repository, and times that the tests make with arithmetic of their own."""

import io
import os
import struct
from datetime import datetime, timedelta, timezone
from pathlib import Path
from zoneinfo import ZoneInfo

import hirgwamo

PYTHON = Path(__file__).resolve().parent.parent
ROOT = PYTHON.parent
CASES = ROOT / "crates" / "test_replay" / "data"
LISTS = ROOT / "crates" / "test_replay_lists" / "data" / "lists.bin"
HARDEST = ROOT / "crates" / "test_replay_hardest" / "data" / "hardest.bin"
MARKS = ROOT / "crates" / "test_replay_marks" / "data" / "marks.bin"
ZONE_CALLS = ROOT / "crates" / "test_zone_calls"
SAMPLE = ROOT / "sample"
CLOCK = Path(os.environ.get("CLOCK") or ROOT / "target" / "bin" / "clock").resolve()

LIFTED = 2**63  # added to each signed number of 8 bytes
LISTING = struct.Struct(">4QIII")  # span; room, refusal's number, its place or how many stretches
LOG = struct.Struct(">3QII4QI")  # instant, width; refusal's number, its place; answer; how many numbers the log has
MARKED = struct.Struct(">4I")  # kind, the question's length, refusal's number, its place
QUESTION = struct.Struct(">III5Q")  # call, the file's place, its length; numbers
NUMBER_SIZE = 8
STRETCH = 4  # numbers of a stretch
EPOCH = datetime(1970, 1, 1, tzinfo=timezone.utc)
YEAR_1 = -62_135_596_800  # 0001-01-01T00:00:00Z
YEAR_10000 = 253_402_300_800  # 10000-01-01T00:00:00Z
LONGEST = 86_400 * 999_999_999  # seconds of the longest timedelta, less a day

# The kinds of stored questions about marks that a call answers, how many numbers each is given, and where an answer's marks begin.
LOCAL, NEXT, PREVIOUS = range(3)
_numbers = hirgwamo.numbers
MARK_CALLS = {LOCAL: _numbers.resolve_marked, NEXT: _numbers.next_period_marked, PREVIOUS: _numbers.previous_period_marked}
MARK_GIVEN = {LOCAL: 5, NEXT: 2, PREVIOUS: 2}
MARKS_FROM = {LOCAL: 2, NEXT: 4, PREVIOUS: 4}

OFFICE = bytes.fromhex("000000010000000C0000001301001F00007E90000000000000EF1000000000")  # Monday to Friday, 09:00 to 17:00, UTC
NO_PACK = bytes(4)
MONDAY = 1_767_571_200  # 2026-01-05T00:00:00Z
HOUR = 3_600
DAY = 86_400


def parts_of(data, at, count):
    """The parts of a case that begins at a place, each with its length in front, and where the case ends."""
    sizes = struct.unpack(f">{count}I", data[at : at + 4 * count])
    at += 4 * count
    parts = []
    for size in sizes:
        parts.append(data[at : at + size])
        at += size
    return parts, at


def cases_of(data, count):
    at = 0
    while at < len(data):
        parts, at = parts_of(data, at, count)
        yield parts


def cases():
    """Every case: book, pack, and pairs of a query line and its answer."""
    for path in sorted(CASES.glob("cases-*.bin")):
        for book, pack, lines, answers in cases_of(path.read_bytes(), 4):
            yield book, pack, [*zip(lines.decode("latin-1").split("\n"), answers.decode("ascii").split("\n")[:-1])]


def lowered(numbers):
    return [number - LIFTED for number in numbers]


def numbers_at(data, at, count):
    """So many signed numbers from a place on, and where they end."""
    end = at + NUMBER_SIZE * count
    return lowered(struct.unpack(f">{count}Q", data[at:end])), end


def lists():
    """Every stored listing: book, pack, span (four numbers), room, refusal's number, its place, stretches."""
    for book, pack, data in cases_of(LISTS.read_bytes(), 3):
        at = 0
        while at < len(data):
            *span, room, number, place = LISTING.unpack_from(data, at)
            told, at = numbers_at(data, at + LISTING.size, 0 if number else STRETCH * place)
            stretches = [tuple(told[k : k + STRETCH]) for k in range(0, len(told), STRETCH)]
            yield book, pack, lowered(span), room, number, place if number else 0, stretches


def hardest():
    """Every stored log: book, pack, instant (two numbers), width, log, refusal's number, its place, answer (four numbers)."""
    for book, pack, data in cases_of(HARDEST.read_bytes(), 3):
        at = 0
        while at < len(data):
            *given, number, place, n0, n1, n2, n3, count = LOG.unpack_from(data, at)
            sec, ns, width = lowered(given)
            log, at = numbers_at(data, at + LOG.size, count)
            yield book, pack, (sec, ns), width, log, number, place, tuple(lowered((n0, n1, n2, n3)))


def marks():
    """Every stored question about marks that a call answers: kind, bytes lent, numbers, refusal's number, its place, answer."""
    for book, pack, data in cases_of(MARKS.read_bytes(), 3):
        at = 0
        while at < len(data):
            kind, length, number, place = MARKED.unpack_from(data, at)
            told = [n for (n,) in struct.iter_unpack(">q", data[at + MARKED.size : at + length])]
            at += length
            if kind in MARK_CALLS:
                given = MARK_GIVEN[kind]
                yield kind, [pack] if kind == LOCAL else [book, pack], told[:given], number, place, told[given:]


def zone_questions():
    """Every stored question about a zone file: the file, the call's name, its numbers, the answer in words. A local time is asked with its mark and without."""
    files, data = (ZONE_CALLS / "data" / "zones.bin").read_bytes(), (ZONE_CALLS / "data" / "questions.bin").read_bytes()
    lines = (ZONE_CALLS / "stdout").read_text().splitlines()
    for place, line in enumerate(lines):
        asked, _, answer = line.partition(": ")
        call, *numbers = asked.split(" ")
        _, at, length, *_ = QUESTION.unpack_from(data, QUESTION.size * place)
        file, given = files[at : at + length], [int(number) for number in numbers]
        if call == "resolve":
            yield file, "resolve_marked", given, answer
            answer = answer if answer.startswith("no") else answer.rpartition(" ")[0]
        yield file, call, given, answer


def directory(*records):
    """A book or a pack of these records."""
    head, place = len(records).to_bytes(4, "big"), 4 + 8 * len(records)
    for record in records:
        head += place.to_bytes(4, "big") + len(record).to_bytes(4, "big")
        place += len(record)
    return head + b"".join(records)


def zone_of_pack(pack):
    """Name and file of the first zone of a pack."""
    at, length = struct.unpack(">II", pack[4:12])
    record = pack[at : at + length]
    return record[1 : 1 + record[0]].decode(), record[1 + record[0] :]


BERLIN_FILE = zone_of_pack((SAMPLE / "zones.bin").read_bytes())[1]
BERLIN = ZoneInfo.from_file(io.BytesIO(BERLIN_FILE))


# ---- times


def has_datetime(sec, ns):
    return YEAR_1 <= sec < YEAR_10000 and 0 <= ns < 10**9


def has_timedelta(sec, ns):
    return abs(sec) < LONGEST and abs(ns) < 10**9 and (sec >= 0 <= ns or sec <= 0 >= ns)


def at(sec, ns=0, zone=timezone.utc):
    """The datetime of two numbers: a plain one, or an Instant where there are nanoseconds below its microsecond."""
    plain = EPOCH + timedelta(seconds=sec, microseconds=ns // 1000)
    if YEAR_1 + 2 * DAY < sec < YEAR_10000 - 2 * DAY:
        plain = plain.astimezone(zone)
    parts = (plain.year, plain.month, plain.day, plain.hour, plain.minute, plain.second, plain.microsecond)
    return hirgwamo.Instant(*parts, plain.tzinfo, fold=plain.fold, nanosecond=ns % 1000) if ns % 1000 else plain


def lasting(sec, ns=0):
    """The timedelta of two numbers: a plain one, or a Duration where there are nanoseconds below its microsecond."""
    if ns % 1000:
        return hirgwamo.Duration(seconds=sec, nanoseconds=ns)
    return timedelta(seconds=sec, microseconds=ns // 1000)


def instant_pair(answer):
    """The two numbers of an answer that is an Instant in UTC."""
    assert type(answer) is hirgwamo.Instant and answer.tzinfo is timezone.utc, repr(answer)
    whole = datetime(answer.year, answer.month, answer.day, answer.hour, answer.minute, answer.second, tzinfo=timezone.utc)
    since = whole - EPOCH
    return since.days * DAY + since.seconds, answer.microsecond * 1000 + answer.nanosecond


def duration_pair(answer):
    """The two numbers of an answer that is a Duration."""
    assert type(answer) is hirgwamo.Duration, repr(answer)
    sec, ns = answer.days * DAY + answer.seconds, answer.microseconds * 1000 + answer.nanoseconds
    return (sec + 1, ns - 10**9) if sec < 0 < ns else (sec, ns)
