#!/usr/bin/env python3
"""Asks the calendar for every day of the years -10002 to 10003, 7,307,041 of them.

usage: tools/days.py

The program below, in C, goes from day to day by itself: it knows how many days a month has, which years are leap years, and that 1970-01-01 is a
Thursday and day 0, and nothing else of the code. Of each day it asks whether the day's number has that weekday and that date, and the date that number
(crates/test_dates), and that it has not those of the day before. Builds crates/test_dates/out/libtest_dates.a by `rt lib` there unless it is newer than
the code. Needs cc. Prints how many days were asked for and ends with 1 at the first that is wrong.
"""
import subprocess
import sys
import tempfile
from pathlib import Path

ROOT = Path(__file__).resolve().parent.parent

DRIVER = r"""
#include <stdbool.h>
#include <stdint.h>
#include <stdio.h>
bool test_is_date_of(int32_t number, uint32_t weekday, uint32_t year, uint32_t month, uint32_t day);

enum { FIRST_YEAR = -10002, LAST_YEAR = 10003, START = -10400 }; /* the code counts years from START */
typedef struct { int32_t number; uint32_t weekday; int year, month, day; } today; /* Monday is 0 */

static bool leap(int year) { return year % 4 == 0 && (year % 100 != 0 || year % 400 == 0); }

static int length(int year, int month) {
    static const int days[] = {0, 31, 28, 31, 30, 31, 30, 31, 31, 30, 31, 30, 31};
    return days[month] + (month == 2 && leap(year));
}

static today next(today t) {
    t.number++;
    t.weekday = (t.weekday + 1) % 7;
    if (++t.day <= length(t.year, t.month)) return t;
    t.day = 1;
    if (++t.month <= 12) return t;
    t.month = 1;
    t.year++;
    return t;
}

static today previous(today t) {
    t.number--;
    t.weekday = (t.weekday + 6) % 7;
    if (--t.day >= 1) return t;
    if (--t.month < 1) {
        t.month = 12;
        t.year--;
    }
    t.day = length(t.year, t.month);
    return t;
}

static bool has(int32_t number, today t) {
    return test_is_date_of(number, t.weekday, (uint32_t)(t.year - START), (uint32_t)t.month, (uint32_t)t.day);
}

/* The number has the date, and not that of the day before. */
static bool right(today t) { return has(t.number, t) && !has(t.number, previous(t)); }

int main(void) {
    const today epoch = {0, 3, 1970, 1, 1};
    long asked = 0;
    for (today t = epoch; t.year <= LAST_YEAR; t = next(t), asked++)
        if (!right(t)) return printf("day %d is not %d-%02d-%02d\n", (int)t.number, t.year, t.month, t.day), 1;
    for (today t = previous(epoch); t.year >= FIRST_YEAR; t = previous(t), asked++)
        if (!right(t)) return printf("day %d is not %d-%02d-%02d\n", (int)t.number, t.year, t.month, t.day), 1;
    printf("%ld days, all right\n", asked);
    return 0;
}
"""


def archive():
    """The static library, made anew where some code is newer."""
    crate = ROOT / "crates" / "test_dates"
    made = crate / "out" / "libtest_dates.a"
    if not made.exists() or any(f.stat().st_mtime > made.stat().st_mtime for f in (ROOT / "crates").glob("*/src/*.rt")):
        done = subprocess.run(["rt", "lib"], cwd=crate, stdout=subprocess.PIPE, stderr=subprocess.STDOUT, text=True)
        if done.returncode != 0:
            raise SystemExit(done.stdout[-2000:])
    return made


def main():
    if len(sys.argv) > 1:
        raise SystemExit(__doc__)
    library = archive()
    with tempfile.TemporaryDirectory() as folder:
        source, program = Path(folder) / "days.c", Path(folder) / "days"
        source.write_text(DRIVER)
        subprocess.run(["cc", "-O2", "-Wall", "-o", program, source, library], check=True)
        raise SystemExit(subprocess.run([program]).returncode)


main()
