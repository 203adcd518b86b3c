#!/usr/bin/env python3
"""Measures how much stack the program and each function of the part need.

usage: tools/stack.py [FOLDER..]

Each FOLDER has a book.bin and a zones.bin (sample/ where none is told). Builds target/part/libhirgwamo.a by `make` and crates/clock/out/clock by
`rt run` there unless they are newer than the code, and a small program in C over the archive. Needs cc and objdump. Prints, in bytes:

- bound: read from the compiled code. A function's need is its frame and the deepest need of those it calls; nothing is called through a pointer. So
  it holds for every input. A function that calls itself, which only the writer of a number's digits does, counts 20 times, for 20 digits. What
  the C library's functions need is not in it.
- seen: how deep the call went on each FOLDER: it runs on a stack that is painted before. The caller's arguments on the stack count, up to 32 bytes.
- the program: the least limit on the stack (`ulimit -s`) under which it answers the queries about each FOLDER.
"""
import re
import resource
import subprocess
import sys
import tempfile
from pathlib import Path

ROOT = Path(__file__).resolve().parent.parent
RUNS = 40  # of the program under one limit
POINTER = "through a pointer"
START = "clock::main+start"  # the program's main, which C's main jumps to
DIGITS = 20  # how often a function that calls itself is in its own frames
CALLS = [
    "build", "between", "add", "sub", "next_period", "previous_period", "list", "hardest", "answers", "offset", "next_change", "resolve",
    "next_period_marked", "previous_period_marked", "resolve_marked",
]  # fmt: skip
QUERIES = b"between 1767782400 0 2713862400 1\nadd 1767782400 0 14400000 0\nsub 1767782400 0 14400000 5\nnext 1768039200 0\nprevious 1768039200 0\n"

DRIVER = r"""
#include <stdint.h>
#include <stdio.h>
#include <stdlib.h>
#include <string.h>
#include <ucontext.h>
#include "hirgwamo.h"
typedef struct { const uint8_t *p; size_t n; } bytes; /* a lent slice is a pointer and a length */
#define BOOK book.p, book.n, pack.p, pack.n
enum { SIZE = 1 << 22, PAINT = 0xA5, NUMBERS = 1 << 20, CALLS = 15 };
enum { RUNS = 4096, SLOT = 8437, LONG = 6000, WIDTH = 30 * 86400 }; /* a log at its limit over 400 days, in seconds */
static uint8_t stack[SIZE];
static ucontext_t home, there;
static bytes book, pack, file;
static int64_t numbers[NUMBERS], runs[2 * RUNS], answer[HIRGWAMO_MARKED_PERIOD_SIZE], answers[5 * HIRGWAMO_ANSWER_SIZE];
static int which;
enum { ROOM = sizeof answer / sizeof *answer };
#define WEDNESDAY INT64_C(1767782400) /* 2026-01-07T10:40Z */
#define CLOCK_CHANGE INT64_C(1793160000) /* 2026-10-28T04:00Z, three days after the clock change in Berlin */
#define YEAR INT64_C(31536000)

static const int64_t queries[] = { /* one of each kind */
    HIRGWAMO_BETWEEN, WEDNESDAY, 0, WEDNESDAY + 30 * YEAR, 1, HIRGWAMO_ADD, WEDNESDAY, 0, 14400000, 0, HIRGWAMO_SUB, WEDNESDAY, 0, 14400000, 0,
    HIRGWAMO_NEXT, WEDNESDAY, 0, 0, 0, HIRGWAMO_PREVIOUS, WEDNESDAY, 0, 0, 0,
};

static void call(void) {
    switch (which) {
    case 0: hirgwamo_build(BOOK, answer, ROOM); break;
    case 1: hirgwamo_between(BOOK, WEDNESDAY, 0, WEDNESDAY + 30 * YEAR, 1, answer, ROOM); break;
    case 2: hirgwamo_add(BOOK, WEDNESDAY, 0, 14400000, 0, answer, ROOM); break;
    case 3: hirgwamo_sub(BOOK, WEDNESDAY, 0, 14400000, 0, answer, ROOM); break;
    case 4: hirgwamo_next_period(BOOK, WEDNESDAY, 0, answer, ROOM); break;
    case 5: hirgwamo_previous_period(BOOK, WEDNESDAY, 0, answer, ROOM); break;
    case 6: hirgwamo_list(BOOK, WEDNESDAY, 0, WEDNESDAY + YEAR, 0, numbers, NUMBERS, answer, ROOM); break;
    case 7: hirgwamo_hardest(BOOK, WEDNESDAY, 0, runs, 2 * RUNS, WIDTH, answer, ROOM); break;
    case 8: hirgwamo_answers(BOOK, queries, sizeof queries / sizeof *queries, answers, sizeof answers / sizeof *answers); break;
    case 9: hirgwamo_offset(file.p, file.n, WEDNESDAY + 40 * YEAR, 0, answer, ROOM); break;
    case 10: hirgwamo_next_change(file.p, file.n, WEDNESDAY + 40 * YEAR, 0, answer, ROOM); break;
    case 11: hirgwamo_resolve(file.p, file.n, 2066, 3, 28, 9000, 0, answer, ROOM); break;
    case 12: hirgwamo_next_period_marked(BOOK, CLOCK_CHANGE, 0, answer, ROOM); break;
    case 13: hirgwamo_previous_period_marked(BOOK, CLOCK_CHANGE, 0, answer, ROOM); break;
    case 14: hirgwamo_resolve_marked(file.p, file.n, 2066, 3, 28, 9000, 0, answer, ROOM); break;
    default: break;
    }
}

static bytes read_all(const char *path) {
    FILE *f = fopen(path, "rb");
    uint8_t *p = malloc(65536);
    bytes b = {p, f ? fread(p, 1, 65536, f) : 0};
    if (f) fclose(f);
    return b;
}

/* How many bytes of the painted stack the call changed, from its top down to the lowest. */
static size_t deep(int k) {
    memset(stack, PAINT, SIZE);
    getcontext(&there);
    there.uc_stack.ss_sp = stack;
    there.uc_stack.ss_size = SIZE;
    there.uc_link = &home;
    which = k;
    makecontext(&there, call, 0);
    swapcontext(&home, &there);
    size_t i = 0;
    while (i < SIZE && stack[i] == PAINT) i++;
    return SIZE - i;
}

int main(int n, char **v) {
    (void)n;
    book = read_all(v[1]);
    pack = read_all(v[2]);
    if (pack.n > 12) { /* the first record's file */
        const uint8_t *q = pack.p + 4;
        size_t at = (size_t)q[2] << 8 | q[3], len = (size_t)q[6] << 8 | q[7], name = pack.p[at];
        file.p = pack.p + at + 1 + name;
        file.n = len - 1 - name;
    }
    for (int k = 0; k < RUNS; k++) {
        runs[2 * k] = (int64_t)k * SLOT;
        runs[2 * k + 1] = LONG;
    }
    size_t none = deep(-1); /* what the switch to the other stack takes itself */
    for (int k = 0; k < CALLS; k++) printf("%zu\n", deep(k) - none);
    return 0;
}
"""


def newer(made):
    """Some code is newer than what was made of it."""
    return not made.exists() or any(f.stat().st_mtime > made.stat().st_mtime for f in (ROOT / "crates").glob("*/src/*.rt"))


def quiet(command, folder=ROOT):
    """Runs a command in the repository, with no input, and shows what it wrote only where it fails."""
    done = subprocess.run(command, cwd=folder, stdin=subprocess.DEVNULL, stdout=subprocess.PIPE, stderr=subprocess.STDOUT, text=True)
    if done.returncode != 0:
        raise SystemExit(done.stdout[-2000:])


def build(folder):
    """The program in C over the archive, with our functions' names in it."""
    archive = ROOT / "target" / "part" / "libhirgwamo.a"
    if newer(archive):
        quiet(["make"])
    crate = ROOT / "crates" / "clock"
    program = crate / "out" / "clock"
    if newer(program):
        quiet(["rt", "run"], crate)
    source, driver = folder / "driver.c", folder / "driver"
    source.write_text(DRIVER)
    subprocess.run(["cc", "-O2", "-I", archive.parent, "-Wl,-z,now", "-o", driver, source, archive], check=True)
    return driver, program


def functions(path):
    """For each function of the compiled code how deep its own frame goes, and at which depth it calls which other one."""
    text = subprocess.run(["objdump", "-d", "-C", "--no-show-raw-insn", path], stdout=subprocess.PIPE, check=True, text=True).stdout
    found, name = {}, None
    for line in text.splitlines():
        head = re.match(r"[0-9a-f]+ <(.*)>:$", line)
        if head:
            name = head.group(1)
            found[name] = frame = {"depth": 8, "calls": {}}  # the return address
            depth = body = 8
            base = None  # how deep the stack is where %rbp stands
            start, loop = True, False
            continue
        part = re.match(r"\s+[0-9a-f]+:\s+(\S+)\s*(.*)", line)
        if not part or name is None:
            continue
        word, rest = part.group(1), part.group(2).split(" # ")[0].strip()
        amount = re.match(r"\$(-?0x[0-9a-f]+),%rsp$", rest)
        probed = re.match(r"\$(0x[0-9a-f]+),%r11$", rest)  # a large frame is taken in steps less than a page, in a loop that ends at %r11
        back = re.match(r"-(0x[0-9a-f]+)\(%rbp\),%rsp$", rest)
        if word.startswith("push"):
            depth += 8
        elif word.startswith("pop"):
            depth -= 8
            start = False
        elif word == "sub" and probed and start:
            depth += int(probed.group(1), 16)
            loop = True
        elif word == "sub" and amount and loop:
            loop = False  # a step of the loop
        elif word == "sub" and amount:
            depth += int(amount.group(1), 16)
        elif word == "mov" and rest == "%rsp,%rbp":
            base = depth
        elif word == "lea" and back and base is not None:
            depth = base + int(back.group(1), 16)
            start = False
        elif word == "add" and amount:
            depth -= int(amount.group(1), 16)
            start = False
        elif word == "and" and amount:
            depth += 2**64 - int(amount.group(1), 16) if int(amount.group(1), 16) > 0 else -int(amount.group(1), 16)
        elif word not in ("cmp", "test") and rest.endswith(",%rsp"):
            frame["odd"] = f"{path}: {name}: what does `{word} {rest}` do to the stack?"
        if start:
            body = depth
        red = re.search(r"-0x([0-9a-f]+)\(%rsp", rest)  # a function that calls none may use 128 bytes below its frame
        frame["depth"] = max(frame["depth"], depth + (int(red.group(1), 16) if red else 0))
        target = re.search(r"<(?!.*\+0x[0-9a-f]+>$)(.*)>$", rest)  # not a place inside of a function
        if word in ("call", "callq", "jmp", "jmpq") and target and target.group(1) != name or word.startswith("call") and target:
            callee = target.group(1)
            below = depth if word.startswith("call") else depth - 8
            frame["calls"][callee] = max(frame["calls"].get(callee, 0), below)
        elif word.startswith("call") and "(%rip)" not in rest:  # through (%rip) it is the C library's
            frame["calls"][POINTER] = depth
        if word in ("ret", "retq") or word.startswith("jmp") and depth < body:
            depth = body
    return found


def need(found, name, above=()):
    """The deepest that a function goes, and the way to there."""
    frame = found.get(name)
    if frame is None or name.endswith("@plt"):
        return 0, []
    if "odd" in frame:
        raise SystemExit(frame["odd"])
    best, way = frame["depth"], [name]
    for callee, depth in frame["calls"].items():
        if callee == name:
            best = max(best, DIGITS * frame["depth"])
        elif callee == POINTER:
            raise SystemExit(f"{name} calls through a pointer")
        elif callee in above:
            raise SystemExit(f"{name} and {callee} call each other")
        else:
            below, path = need(found, callee, above + (name,))
            if depth + below > best:
                best, way = depth + below, [name] + path
    return best, way


def least_limit(program, folder):
    """The least limit on the stack, in kB, under which the program answers in all of some runs: where the stack begins is random."""

    def answers(size):
        return all(one_run(size) for _ in range(RUNS))

    def one_run(size):
        done = subprocess.run([program], cwd=folder, input=QUERIES, stdout=subprocess.PIPE, preexec_fn=lambda: resource.setrlimit(resource.RLIMIT_STACK, (size * 1024, size * 1024)))
        return done.returncode == 0 and done.stdout.count(b"\n") == QUERIES.count(b"\n")

    low, high = 0, 8192
    while high - low > 4:
        middle = (low + high) // 2
        low, high = (low, middle) if answers(middle) else (middle, high)
    return high


def main():
    if sys.argv[1:2] and sys.argv[1].startswith("-"):
        sys.exit(__doc__)
    folders = [Path(f).resolve() for f in sys.argv[1:]] or [ROOT / "sample"]
    with tempfile.TemporaryDirectory() as place:
        driver, program = build(Path(place))
        found = functions(driver)
        seen = [subprocess.run([driver, f / "book.bin", f / "zones.bin"], stdout=subprocess.PIPE, check=True, text=True).stdout.split() for f in folders]
        print("call: bound; seen on " + ", ".join(f.name for f in folders))
        for k, name in enumerate(CALLS):
            deepest, way = need(found, "hirgwamo_" + name)
            print(f"{name}: {deepest}; {', '.join(s[k] for s in seen)}    ({' > '.join(way[1:])})")
        deepest, way = need(functions(program), START)
        print(f"the program: {deepest}    ({' > '.join(way)})")
        for f in folders:
            print(f"least limit on the program's stack, {f.name}: {least_limit(program, f)} kB")


if __name__ == "__main__":
    main()
