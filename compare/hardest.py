#!/usr/bin/env python3
"""Holds a program's hardest stretches to those of second.py.

Usage: hardest.py SEED COUNT PROGRAM

Makes COUNT cases from SEED, each a book and a pack of generate.py's families and
some logs of runs, with the answers of second.py. They go to files hardest.bin, one
after the other, in a new folder, where PROGRAM (out/test_replay_hardest as `rt run`
in crates/test_replay_hardest builds it) is run without arguments. A line of PROGRAM
about a question whose answer differs is printed, the file of such cases is kept, and
the command ends with 1. The last line printed tells all numbers. ZONEINFO tells where
real zone files are (if not set /usr/share/zoneinfo).

In hardest.bin a case is three numbers of 4 bytes, the lengths of its parts, and then
the parts: book, pack, questions. A question is the instant's seconds and nanoseconds
and the width, 8 bytes each; the refusal's number (0 for none) and its place, 4 bytes
each; the duration and the window's start, each as seconds and nanoseconds of 8 bytes
(four zeros where it is refused); how many numbers the log has, 4 bytes; and these, 8
bytes each. A number of 8 bytes is signed and stored with 2^63 added; all are
big-endian.
"""

import os
import random
import re
import shutil
import struct
import subprocess
import sys
import tempfile

sys.dont_write_bytecode = True  # no cache beside the sources

import generate
import second
from second import DAY, LAST, NANO, WIDEST

WEEK = 7 * DAY
MOST = 300_000  # bytes of a file
LIFTED = 2**63  # added to each signed number
LEAST_I64, MOST_I64 = -(2**63), 2**63 - 1
QUESTIONS = 6  # of a case
FAMILIES = {"real": 5, "odd": 5, "footers": 4, "ends": 5, "always": 3, "jumps": 4, "skips": 3, "year_ends": 3}
FAMILIES |= {"wide": 3, "gaps": 1, "limits": 1, "names": 1, "builds": 1, "files": 1}
GAPS = [0, 0, 0, 1, 59, 3600, 50_000, DAY, 6 * DAY]
LENGTHS = [1, 60, 3600, 8 * 3600, 40_000, 90_000]
TOLD = re.compile(r"(\d+) cases, (\d+) answers and (\d+) refusals equal, (\d+) different")


# ------------------------------------------------------------------- hardest.bin


def lifted(numbers):
    return struct.pack(f">{len(numbers)}Q", *(number + LIFTED for number in numbers))


def lowered(data):
    return [number - LIFTED for number in struct.unpack(f">{len(data) // 8}Q", data)]


def answer(module, schedule, refused, question):
    """Number and place of the refusal, 0 for none, and the four numbers, of a
    question: seconds, nanoseconds, width, the log's numbers. `module` is second.py."""
    try:
        if refused:
            raise refused
        told = module["answer"](schedule, "hardest", question, False)
        return 0, 0, [int(word) for word in told.split(" ")[1:]]
    except module["Refusal"] as refusal:
        return refusal.number, refusal.place, [0] * 4


def built(module, book, pack):
    """The schedule, or the refusal."""
    try:
        return module["Schedule"](book, pack), None
    except module["Refusal"] as refusal:
        return None, refusal


def written(book, pack, questions, answers):
    """A case as it stands in hardest.bin."""
    data = b""
    for question, (number, place, told) in zip(questions, answers):
        data += lifted(question[:3]) + struct.pack(">II", number, place) + lifted(told)
        data += struct.pack(">I", len(question) - 3) + lifted(question[3:])
    return struct.pack(">III", len(book), len(pack), len(data)) + book + pack + data


def read_questions(data):
    """The questions of a case and their answers."""
    questions, answers, at = [], [], 0
    while at < len(data):
        number, place = struct.unpack(">II", data[at + 24 : at + 32])
        end = at + 68 + 8 * struct.unpack(">I", data[at + 64 : at + 68])[0]
        questions.append(lowered(data[at : at + 24] + data[at + 68 : end]))
        answers.append((number, place, lowered(data[at + 32 : at + 64])))
        at = end
    return questions, answers


def read_cases(data):
    """All cases of a hardest.bin: book, pack, questions, answers."""
    at = 0
    while at < len(data):
        sizes = struct.unpack(">III", data[at : at + 12])
        at += 12
        parts = [data[at + sum(sizes[:k]) : at + sum(sizes[: k + 1])] for k in range(3)]
        at += sum(sizes)
        yield parts[0], parts[1], *read_questions(parts[2])


# -------------------------------------------------------------------------- logs


def plain(rng):
    """Runs and pauses of all lengths, three runs in ten touching the next."""
    log, at = [], rng.choice(GAPS)
    for _ in range(rng.choice([1, 1, 2, 3, 5, 9, 14])):
        length = rng.choice(LENGTHS + [rng.randint(1, 2 * DAY)])
        log += [at, length]
        at += length + rng.choice(GAPS + [rng.randint(0, 2 * DAY)])
    return log


def regular(rng):
    """The same each hour, day or week, so that windows are equal."""
    step = rng.choice([3600, DAY, DAY, WEEK])
    length = min(step, rng.choice([1, 1800, 3600, DAY // 2, step]))
    first = rng.choice([0, 0, 3600, rng.randrange(WEEK)])
    return [number for place in range(rng.randint(2, 12)) for number in (first + place * step, length)]


def long(rng):
    """Runs of months and years."""
    log, at = [], rng.choice([0, 1, 30 * DAY])
    for _ in range(rng.randint(1, 3)):
        length = rng.choice([100 * DAY, WIDEST, WIDEST + 1, 5 * 365 * DAY, rng.randint(1, 1000 * DAY)])
        log += [at, length]
        at += length + rng.choice([0, 1, 90 * DAY])
    return log


def many(rng):
    """Many short runs, some touching."""
    log, at = [], 0
    for _ in range(rng.choice([30, 60, 150, 400])):
        length = rng.choice([1, 30, 600, 1800])
        log += [at, length]
        at += length + rng.choice([0, 1, 30, 600, 3000])
    return log


def broken(rng, log):
    """A log that is malformed, or just not."""
    log = list(log)
    place = 2 * rng.randrange(len(log) // 2)
    ended = log[place - 2] + log[place - 1] if place else 0
    form = rng.randrange(7)
    if form == 0:
        log.pop(rng.randrange(len(log)))
    elif form == 1:
        log[place] = ended - 1
    elif form == 2:
        log[place + 1] = rng.choice([0, -1, LEAST_I64])
    elif form == 3:
        log[rng.randrange(len(log))] = rng.choice([LEAST_I64, MOST_I64, -1, 0, 2**62, 10**12])
    elif form == 4:
        log[-2:] = rng.choice([[MOST_I64, 1], [MOST_I64, MOST_I64], [1, MOST_I64], [MOST_I64 - 1, 1], [2**62, 2**62]])
    elif form == 5:
        log.append(rng.choice([0, 1, MOST_I64]))
    else:
        log[place] = ended
    return log


def log_of(rng):
    form = rng.random()
    if form < 0.06:
        return []
    log = plain(rng) if form < 0.5 else regular(rng) if form < 0.78 else long(rng) if form < 0.97 else many(rng)
    return broken(rng, log) if rng.random() < 0.12 else log


def width_of(rng, log):
    """A width, often such that a window's end meets a run's start or end."""
    form = rng.random()
    if form < 0.1:
        return rng.choice([0, -1, WIDEST + 1, LEAST_I64, MOST_I64, 2**32 + 1, WIDEST + 2**32])
    if form < 0.4 or len(log) < 2:
        return rng.choice([1, 60, 3600, DAY, WEEK, WIDEST, rng.randint(1, WIDEST)])
    start, place = rng.randrange(0, len(log) // 2), rng.randrange(0, len(log) // 2)
    end = log[2 * place] + rng.choice([0, log[2 * place + 1], log[2 * place + 1] // 2])
    return max(1, min(WIDEST, abs(end - log[2 * start]) + rng.choice([0, 0, 1, -1])))


def given_of(rng, lines, log):
    """The instant: any of note, or such that a run lies about one, or such that
    the log ends at the last instant, a second before or behind it."""
    form = rng.random()
    if form < 0.03:
        return rng.choice([(LAST // NANO + 1, 0), (0, NANO), (0, -1), (LEAST_I64, MOST_I64), (generate.FIRST_S - 1, 999_999_999)])
    instant = lines.instant()
    if form < 0.4 and len(log) > 1:
        instant -= (rng.choice(log[::2]) + rng.choice([0, 1, log[1] // 2, 3600])) * NANO
    elif form < 0.5 and len(log) > 1:
        instant = LAST - (log[-2] + log[-1] + rng.choice([0, 0, -1, 1])) * NANO - rng.choice([0, 1, NANO - 1, rng.randrange(NANO)])
    instant = lines.clamp(instant)
    return instant // NANO, instant % NANO


def case_of(seed, place, zoneinfo):
    """Book, pack and questions of a case."""
    rng = random.Random(f"hardest {seed}/{place}")
    title = rng.choices(list(FAMILIES), list(FAMILIES.values()))[0]
    records, pack, lines, _ = generate.family_of(title)(rng, zoneinfo)
    if rng.random() < 0.07:
        book, zones = generate.damaged(rng, records, pack)
    else:
        book, zones = generate.join(records, rng), generate.join(pack, rng)
    questions = []
    for _ in range(QUESTIONS):
        log = log_of(rng)
        questions.append([*given_of(rng, lines, log), width_of(rng, log), *log])
    return book, zones, questions


def case_data(book, pack, questions):
    """A case as it stands in hardest.bin, with the answers of second.py."""
    module = vars(second)
    schedule, refused = built(module, book, pack)
    return written(book, pack, questions, [answer(module, schedule, refused, question) for question in questions])


# ----------------------------------------------------------------------- running


def replay(program, data):
    """What PROGRAM tells of a hardest.bin: cases, answers, refusals, different."""
    folder = tempfile.mkdtemp(prefix="hardest.")
    with open(os.path.join(folder, "hardest.bin"), "wb") as file:
        file.write(data)
    out = subprocess.run([program], cwd=folder, stdout=subprocess.PIPE, check=True).stdout.decode()
    *lines, last = out.rstrip("\n").split("\n")
    for line in lines:
        print(line)
    if not TOLD.fullmatch(last):
        sys.exit(f"{program} ended with the line {last!r}, in {folder}")
    told = [int(number) for number in TOLD.fullmatch(last).groups()]
    if told[3]:
        print(f"these cases are kept in {folder}")
    else:
        shutil.rmtree(folder)
    return told


def main(seed, count, program):
    zoneinfo = os.environ.get("ZONEINFO", "/usr/share/zoneinfo")
    totals, data = [0] * 4, b""
    for place in range(count + 1):
        more = case_data(*case_of(seed, place, zoneinfo)) if place < count else b""
        if data and (not more or len(data) + len(more) > MOST):
            totals = [total + seen for total, seen in zip(totals, replay(program, data))]
            data = b""
        data += more
    print("{} cases, {} answers and {} refusals equal, {} different".format(*totals))
    sys.exit(1 if totals[3] or totals[0] != count else 0)


if __name__ == "__main__":
    if len(sys.argv) != 4 or not re.fullmatch("[0-9]+", sys.argv[2]):
        sys.exit("usage: hardest.py SEED COUNT PROGRAM")
    main(sys.argv[1], int(sys.argv[2]), os.path.abspath(sys.argv[3]))
