"""The stored cases: the numbers, the datetimes and the program give the stored answers."""

import dataclasses
import subprocess
import tempfile
import unittest
from collections import Counter
from datetime import timedelta, timezone
from pathlib import Path

import hirgwamo
from hirgwamo import Add, Between, BeyondDatetime, Clock, NextPeriod, PreviousPeriod, Refusal, Sub, numbers
from hirgwamo.refusals import BY_NUMBER

from . import stored
from .stored import at, duration_pair, has_datetime, has_timedelta, instant_pair, lasting

STEP = 3  # every third case is given to the program
MOST_SHOWN = 5
LINES = 18_433  # of the stored cases, without those that are bad
ANSWERED = 16_196  # of these lines
TOO_FEW = hirgwamo.TooFewNumbers.number
KINDS = {"between": numbers.BETWEEN, "add": numbers.ADD, "sub": numbers.SUB, "next": numbers.NEXT, "previous": numbers.PREVIOUS}
CALLS = {"between": numbers.between, "add": numbers.add, "sub": numbers.sub, "next": numbers.next_period, "previous": numbers.previous_period}
MARKED = {"next": numbers.next_period_marked, "previous": numbers.previous_period_marked}
PERIODS = ("next", "previous")
ZONES = [timezone.utc, timezone(timedelta(hours=5, minutes=45)), stored.BERLIN, timezone(timedelta(hours=-11, microseconds=1))]


def cases():
    """Every case: book, pack, and pairs of a line's words and its answer. Lines that the program calls bad are left out."""
    for book, pack, pairs in stored.cases():
        yield book, pack, [(line.split(" "), answer) for line, answer in pairs if answer != "bad"]


def refused(refusal):
    return f"no {refusal.number} {refusal.place}"


def told(answer):
    return "ok " + " ".join(map(str, answer))


def by_numbers(book, pack, words):
    try:
        return told(CALLS[words[0]](book, pack, *map(int, words[1:])))
    except Refusal as refusal:
        return refused(refusal)


def by_marked_numbers(book, pack, words):
    try:
        *period, start_mark, end_mark = MARKED[words[0]](book, pack, *map(int, words[1:]))
    except Refusal as refusal:
        return refused(refusal)
    return told(period) if {start_mark, end_mark} <= {*hirgwamo.Mark} else f"the marks {start_mark} {end_mark}"


def by_many_numbers(book, pack, rows):
    """The answers of one call to all lines."""
    queries = [(KINDS[words[0]], *map(int, words[1:]), *([0, 0] if words[0] in PERIODS else [])) for words, _ in rows]
    for (words, _), (number, place, *answer) in zip(rows, numbers.answers(book, pack, queries)):
        yield f"no {number} {place}" if number else told(answer if words[0] in PERIODS else [*answer[:2], place])


class Shown(unittest.TestCase):
    def show(self, wrong):
        self.assertEqual(wrong[:MOST_SHOWN], [], f"{len(wrong)} answers differ; these are the first, with what is expected")


class ReplayNumbers(Shown):
    def test_numbers(self):
        wrong, seen = [], Counter()
        for book, pack, rows in cases():
            for words, answer in rows:
                seen[words[0]] += 1
                seen[" ".join(answer.split(" ")[:2]) if answer.startswith("no") else "ok"] += 1
                given = by_numbers(book, pack, words)
                wrong += [(words, given, answer)] if given != answer else []
        self.show(wrong)
        for word in [*KINDS, "ok", *(f"no {number}" for number in range(1, 10))]:
            self.assertGreater(seen[word], 1, word)
        self.assertEqual((sum(seen[word] for word in KINDS), seen["ok"]), (LINES, ANSWERED))

    def test_marked_numbers(self):
        """The calls that tell marks give the stored periods and refusals too."""
        wrong, count = [], 0
        for book, pack, rows in cases():
            for words, answer in rows:
                if words[0] in PERIODS:
                    given = by_marked_numbers(book, pack, words)
                    wrong += [(words, given, answer)] if given != answer else []
                    count += 1
        self.show(wrong)
        self.assertGreater(count, 5000)

    def test_many_numbers(self):
        count = 0
        for book, pack, rows in cases():
            given = [*by_many_numbers(book, pack, rows)]
            self.show([row for row in zip(given, rows) if row[0] != row[1][1]])
            count += len(given)
        self.assertEqual(count, LINES)

    def test_program(self):
        count = 0
        with tempfile.TemporaryDirectory() as folder:
            for book, pack, rows in [*cases()][::STEP]:
                (Path(folder) / "book.bin").write_bytes(book)
                (Path(folder) / "zones.bin").write_bytes(pack)
                lines = "".join(" ".join(words) + "\n" for words, _ in rows)
                done = subprocess.run([stored.CLOCK], input=lines, stdout=subprocess.PIPE, cwd=folder, text=True, check=True)
                given = [*by_many_numbers(book, pack, rows)]
                self.show([row for row in zip(done.stdout.splitlines(), given, rows) if row[0] != row[1]])
                self.assertEqual(len(done.stdout.splitlines()), len(rows))
                count += len(rows)
        self.assertGreater(count, 5000)


# ---- datetimes


def query_of(words, zone):
    """The query of a line, in some time zone; None where a datetime or a timedelta cannot hold its numbers."""
    first, second = [int(word) for word in words[1:3]], [int(word) for word in words[3:]]
    other_held = not second or (has_datetime(*second) if words[0] == "between" else has_timedelta(*second))
    if not (has_datetime(*first) and other_held):
        return None
    t = at(*first, zone)
    if words[0] in PERIODS:
        return NextPeriod(t) if words[0] == "next" else PreviousPeriod(t)
    if words[0] == "between":
        return Between(t, at(*second))
    return (Add if words[0] == "add" else Sub)(t, lasting(*second))


def asked(clock, query):
    """The answer of the single call, or what it raises."""
    calls = {Between: clock.between, Add: clock.add, Sub: clock.sub, NextPeriod: clock.next_period, PreviousPeriod: clock.previous_period}
    try:
        return calls[type(query)](*(getattr(query, field.name) for field in dataclasses.fields(query)))
    except (Refusal, BeyondDatetime) as reason:
        return reason


def numbers_of(answer):
    """An answer as the program's words, without the count of windows; of an instant that no datetime is, that instant."""
    if isinstance(answer, Refusal):
        return refused(answer)
    if isinstance(answer, BeyondDatetime):
        return f"beyond {answer.seconds} {answer.nanoseconds}"
    if isinstance(answer, hirgwamo.Period):
        return told([*instant_pair(answer.start), *instant_pair(answer.end)])
    return told(duration_pair(answer) if isinstance(answer, timedelta) else instant_pair(answer))


def expected_of(words, answer):
    """What the datetimes must give where the program gives an answer."""
    if answer.startswith("no"):
        return answer
    numbers_told = [int(word) for word in answer.split(" ")[1:]]
    pairs = [numbers_told[:2], numbers_told[2:]] if words[0] in PERIODS else [numbers_told[:2]]
    beyond = [pair for pair in pairs if words[0] != "between" and not has_datetime(*pair)]
    return f"beyond {beyond[0][0]} {beyond[0][1]}" if beyond else told([number for pair in pairs for number in pair])


def clock_of(book, pack):
    try:
        return Clock(book, pack), None
    except Refusal as refusal:
        return None, refused(refusal)


class ReplayDatetimes(Shown):
    def test_datetimes(self):
        wrong, seen = [], Counter()
        for book, pack, rows in cases():
            clock, refusal = clock_of(book, pack)
            if clock is None:
                wrong += [(words, refusal, answer) for words, answer in rows if answer != refusal]
                seen["refused"] += 1
                continue
            held = [(query_of(words, ZONES[k % len(ZONES)]), expected_of(words, answer)) for k, (words, answer) in enumerate(rows)]
            held = [(query, answer) for query, answer in held if query]
            many = clock.answers(query for query, _ in held)
            for (query, answer), one in zip(held, many):
                given = [numbers_of(asked(clock, query)), numbers_of(one)]
                wrong += [(query, given, answer)] if given != [answer, answer] else []
                seen[type(query).__name__] += 1
                seen[answer.split(" ")[0]] += 1
        self.show(wrong)
        least_seen = {"refused": 100, "ok": 10_000, "no": 500, "beyond": 4}
        least_seen.update({"Between": 4000, "Add": 2000, "Sub": 1500, "NextPeriod": 3000, "PreviousPeriod": 2500})
        for word, least in least_seen.items():
            self.assertGreater(seen[word], least, (word, seen))


class ReplayLists(unittest.TestCase):
    def test_lists(self):
        seen = Counter()
        for book, pack, span, room, number, place, stretches in stored.lists():
            seen[number] += 1
            if number:
                with self.assertRaises(Refusal) as caught:
                    numbers.list_into(book, pack, *span, room)
                self.assertEqual((caught.exception.number, caught.exception.place), (number, place))
            else:
                self.assertEqual(numbers.list_into(book, pack, *span, room), stretches)
        self.assertEqual([seen[number] > 0 for number in range(11)], [True] * 7 + [False, True, False, True])
        self.assertEqual(sum(seen.values()), 356)

    def test_lists_grow(self):
        rows = [*stored.lists()]
        whole = {(book, pack, *span): stretches for book, pack, span, _, number, _, stretches in rows if number == 0}
        for book, pack, span, _, number, _, _ in rows:
            if number == TOO_FEW:  # nobody sees this one: the listing is asked again with more room
                self.assertEqual(numbers.list(book, pack, *span), whole[(book, pack, *span)])
            elif number:
                self.assertRaises(BY_NUMBER[number], numbers.list, book, pack, *span)
        (long,) = [key for key, stretches in whole.items() if len(stretches) > numbers._FIRST_STRETCHES]
        self.assertEqual(numbers.list(*long), whole[long])

    def test_lists_of_datetimes(self):
        count = 0
        for book, pack, span, _, number, _, stretches in stored.lists():
            if number == 0 and has_datetime(*span[:2]) and has_datetime(*span[2:]):
                given = Clock(book, pack).list(at(*span[:2], stored.BERLIN), at(*span[2:]))
                self.assertEqual([(*instant_pair(start), *instant_pair(end)) for start, end in given], stretches)
                count += 1
        self.assertGreater(count, 50)


class ReplayHardest(unittest.TestCase):
    def test_hardest(self):
        seen = Counter()
        for book, pack, given, width, log, number, place, answer in stored.hardest():
            seen[number] += 1
            if number:
                with self.assertRaises(Refusal) as caught:
                    numbers.hardest(book, pack, *given, log, width)
                self.assertEqual((caught.exception.number, caught.exception.place), (number, place))
            else:
                self.assertEqual(numbers.hardest(book, pack, *given, log, width), answer)
        self.assertEqual([seen[number] > 0 for number in range(13)], [True] * 7 + [False, True, False, False, True, True])
        self.assertEqual(sum(seen.values()), 634)

    def test_hardest_of_datetimes(self):
        seen = Counter()
        for book, pack, given, width, log, number, place, answer in stored.hardest():
            held = all(has_timedelta(second, 0) for second in [width, *log])
            if not (has_datetime(*given) and held and len(log) % 2 == 0) or number in range(1, 7):
                continue
            clock, runs = Clock(book, pack), [(lasting(log[k]), lasting(log[k + 1])) for k in range(0, len(log), 2)]
            seen[number] += 1
            if number:
                with self.assertRaises(Refusal) as caught:
                    clock.hardest(at(*given), runs, lasting(width))
                self.assertEqual(caught.exception.number, number)
            else:
                time, start = clock.hardest(at(*given, stored.BERLIN), runs, lasting(width))
                self.assertEqual((*duration_pair(time), *instant_pair(start)), answer)
        self.assertTrue(seen[0] > 200 and seen[11] > 20 and seen[12] > 5, seen)


class ReplayMarks(unittest.TestCase):
    def asked(self, call, *given):
        """The numbers of a call, or its refusal's number and place."""
        try:
            return list(call(*given))
        except Refusal as refusal:
            return [refusal.number, refusal.place]

    def test_marks(self):
        seen = Counter()
        for kind, lent, given, number, place, answer in stored.marks():
            told = self.asked(stored.MARK_CALLS[kind], *lent, *given)
            self.assertEqual(told, [number, place] if number else answer, (kind, given))
            seen[kind] += 1
            seen.update([] if number else [("mark", mark) for mark in answer[stored.MARKS_FROM[kind] :]])
        for word in [*stored.MARK_CALLS, *(("mark", mark) for mark in hirgwamo.Mark)]:
            self.assertGreater(seen[word], 0, (word, seen))

    def test_marks_of_datetimes(self):
        count = 0
        for kind, (book, *pack), given, number, _, answer in stored.marks():
            if kind == stored.LOCAL or number or not all(has_datetime(*pair) for pair in (given, answer[:2], answer[2:4])):
                continue
            clock = Clock(book, *pack)
            call = clock.next_period_marked if kind == stored.NEXT else clock.previous_period_marked
            told = call(at(*given, stored.BERLIN))
            self.assertEqual([*instant_pair(told.start), *instant_pair(told.end), told.start_mark, told.end_mark], answer)
            count += 1
        self.assertGreater(count, 0)
