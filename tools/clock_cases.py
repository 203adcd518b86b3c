#!/usr/bin/env python3
"""Writes what the test programs test_clock_* are run on, and what they must write.

usage: tools/clock_cases.py

Writes stdin, stdout and data/ of the four crates. The book and the pack are those of sample/. The answers come from compare/second.py, not from the
program that is to be compared. The same lines come out each time.
"""
import random
import subprocess
import sys
from pathlib import Path

ROOT = Path(__file__).resolve().parent.parent
SECOND = ROOT / "compare" / "second.py"
PIECE = 65536  # what the program reads at a time, and the most that a book or a pack may have
YEAR_2026 = 1767225600
BOOK = (ROOT / "sample" / "book.bin").read_bytes()
PACK = (ROOT / "sample" / "zones.bin").read_bytes()


def padded(pack, length):
    """The same pack with bytes behind its records, which are ignored."""
    return pack + bytes(length - len(pack))


def query(dice):
    """A query line about 2026 to 2035, most often of a kind whose answer is longer than itself; one in twelve is malformed."""
    first, second = (YEAR_2026 + dice.randrange(10 * 365 * 86400) for _ in range(2))
    nanoseconds = dice.randrange(10**9)
    return dice.choice(
        [f"next {first} 0"] * 5
        + [f"previous {first} 0"] * 2
        + [f"previous {first} {nanoseconds}"]
        + [f"add {first} {nanoseconds} {dice.randrange(-(10**6), 10**6)} 0"]
        + [f"sub {first} 0 {dice.randrange(10**6)} {nanoseconds}"]
        + [f"between {first} {nanoseconds} {second} 0"]
        + [dice.choice(["next 1", f"add  {first} 0 1 0", f"between {first} 0", f"previous {first} 0\r", ""])]
    )


def queries(seed, length):
    """Lines of this length in all or a little more, so that no line ends at the border of two pieces."""
    dice = random.Random(seed)
    text = "".join(query(dice) + "\n" for _ in range(length // 16))
    text = text[: text.index("\n", length) + 1].encode()
    border = text[PIECE - 8 : PIECE + 8]
    if len(text) > PIECE and b"\n" in border:
        return queries(seed + 1, length)
    return text


def write(name, data, stdin):
    crate = ROOT / "crates" / name
    (crate / "data").mkdir(parents=True, exist_ok=True)
    for file, content in data.items():
        (crate / "data" / file).write_bytes(content)
    (crate / "stdin").write_bytes(stdin)
    command = [sys.executable, str(SECOND), str(crate / "data" / "book.bin"), str(crate / "data" / "zones.bin")]
    (crate / "stdout").write_bytes(subprocess.run(command, input=stdin, stdout=subprocess.PIPE, check=True).stdout)


if len(sys.argv) > 1:
    sys.exit(__doc__)
few = queries(4, 400)
write("test_clock_long", {"book.bin": BOOK, "zones.bin": PACK}, queries(1, PIECE + 400))
write("test_clock_no_book", {"zones.bin": PACK}, few)
write("test_clock_long_pack", {"book.bin": BOOK, "zones.bin": padded(PACK, PIECE + 1)}, few)
write("test_clock_no_newline", {"book.bin": BOOK, "zones.bin": padded(PACK, PIECE)}, few.rstrip(b"\n"))
