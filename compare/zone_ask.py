"""Asks implementations about a zone file, for the comparison with jiff.

Questions are the lines of jiff/src/zone.rs: `offset SEC [NS]`, `change SEC
[NS]` and `local YEAR MONTH DAY SECOND`. Answers of all are brought to one form:

  offset   the offset
  change   the second of the first change after an instant, and its nanoseconds
           where jiff's has some, or `none`
  local    second and nanoseconds of the instant; beyond the range the first or
           the last instant, as the original and document 01 have it

or `no 5` where the file is refused. They come from jiff (`Jiff`, the program
`zone`), from second.py, a reading of document 01 (`Second`), and from this
product's calls on a zone file (`Calls`, the program test_zone_calls).
"""

import os
import struct
import subprocess
import sys
import tempfile
from bisect import bisect_right

sys.dont_write_bytecode = True  # no cache beside the sources

import second
from second import DAY, FIRST, LAST, NANO

FIRST_S, LAST_S = FIRST // NANO, LAST // NANO
FIRST_SHOWN, LAST_SHOWN = f"{FIRST_S} 0", f"{LAST_S} {NANO - 1}"
REFUSED = "no 5"
STEP = 4 * 366 * DAY  # how far a footer's next change is looked for at a time
CYCLE = 401 * 366 * DAY  # footers repeat after 400 years: no change so long, none at all


def date_of(day):
    """Year, month and day of a day number."""
    year = second.year_of(day)
    month = 1
    while month < 12 and second.day_number(year, month + 1, 1) <= day:
        month += 1
    return year, month, day - second.day_number(year, month, 1) + 1


def local_line(local):
    """The question for a local second, or None beyond the calendar."""
    day = local // DAY
    if not second.FIRST_DATE <= day <= second.LAST_DATE:
        return None
    return "local %d %d %d %d" % (*date_of(day), local % DAY)


def local_of(line):
    """The local second that a question of the word `local` tells."""
    year, month, day, time = map(int, line.split()[1:])
    return second.day_number(year, month, day) * DAY + time


class Jiff:
    """jiff itself; `reason` is why it refused the last file."""

    def __init__(self, program, folder=None):
        self.program = program
        self.path = os.path.join(folder or tempfile.mkdtemp(), "zone.bin")
        self.reason = ""

    def ask(self, file, lines):
        with open(self.path, "wb") as out:
            out.write(file)
        text = "".join(line + "\n" for line in lines)
        run = subprocess.run([self.program, self.path], input=text, capture_output=True, text=True)
        self.reason = run.stderr.strip()
        answers = run.stdout.splitlines()
        if run.returncode or len(answers) != len(lines):
            sys.exit(f"{self.program} ended with {run.returncode}: {self.reason}")
        return [self.common(line, answer) for line, answer in zip(lines, answers)]

    @staticmethod
    def common(line, answer):
        if answer == "beyond":
            return FIRST_SHOWN if int(line.split()[1]) < 0 else LAST_SHOWN
        if answer.startswith("ok "):
            if line.startswith("change") and line.count(" ") == 2:
                return answer[3:].removesuffix(" 0")
            return answer[3:] + (" 0" if line.startswith("local") else "")
        return answer


class Second:
    """second.py's reading of document 01."""

    quiet = None  # a zone whose footer has no changes, once it was seen

    def ask(self, file, lines):
        try:
            zone = second.read_zone(file)
        except ValueError:
            return [REFUSED] * len(lines)
        return [self.answer(zone, line) for line in lines]

    def answer(self, zone, line):
        word, *numbers = line.split()
        if word == "local":
            year, month, day, time = map(int, numbers)
            instant = zone.resolve(second.day_number(year, month, day), time * NANO)
            return f"{instant // NANO} {instant % NANO}"
        if word == "offset":
            return str(zone.offset(int(numbers[0])))
        return self.change(zone, int(numbers[0]))

    def change(self, zone, low):
        """The next change: in the table, then by the footer. A footer without
        one for CYCLE has none at all, which is kept for the next question."""
        for time in zone.times[bisect_right(zone.times, low) :]:
            if time <= LAST_S and zone.offset(time - 1) != zone.offset(time):
                return str(time)
        low = far = max([low, *zone.times[-1:]])
        if zone.footer is not None and zone.footer.daylight is not None and zone is not self.quiet:
            far += CYCLE
        while low < min(far, LAST_S):
            high = min(low + STEP, LAST_S)
            found = zone.changes(low, high)
            if found:
                return str(found[0])
            low = high
        if low >= far:
            self.quiet = zone
        return "none"


class Calls:
    """This product's calls on a zone file, by the program test_zone_calls,
    which reads zones.bin and questions.bin in its folder."""

    NUMBERS = {"offset": 1, "change": 2, "local": 3}
    MOST = 65_536 // 52  # questions in a file that it reads whole

    def __init__(self, program, folder=None):
        self.program = os.path.abspath(program)
        self.folder = folder or tempfile.mkdtemp()

    def ask(self, file, lines):
        with open(os.path.join(self.folder, "zones.bin"), "wb") as out:
            out.write(file)
        answers = []
        for at in range(0, len(lines), self.MOST):
            answers += self.part(len(file), lines[at : at + self.MOST])
        return answers

    def part(self, length, lines):
        questions = b""
        for line in lines:
            word, *numbers = line.split()
            numbers = ([int(number) for number in numbers] + [0] * 5)[:5]
            questions += struct.pack(">3I", self.NUMBERS[word], 0, length)
            questions += struct.pack(">5Q", *(number + 2**63 for number in numbers))
        with open(os.path.join(self.folder, "questions.bin"), "wb") as out:
            out.write(questions)
        run = subprocess.run([self.program], cwd=self.folder, capture_output=True, text=True, check=True)
        answers = run.stdout.splitlines()
        if len(answers) != len(lines):
            sys.exit(f"{self.program}: {len(answers)} answers to {len(lines)} questions")
        return [self.common(line, answer) for line, answer in zip(lines, answers)]

    @staticmethod
    def common(line, answer):
        answer = answer.partition(": ")[2]
        if answer.startswith("no "):
            return answer.rpartition(" ")[0]
        if answer == "never":
            return "none"
        return answer.rpartition(" ")[0] if line.startswith("change") else answer
