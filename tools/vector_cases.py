#!/usr/bin/env python3
"""Puts cases of book, zone pack, query lines and expected answers into a few files, for the program `test_replay`.

usage: tools/vector_cases.py [--first NUMBER] FOLDER.. OUT

Each FOLDER has a folder for each case: book.bin, zones.bin, queries.txt and expected.txt. OUT gets cases-00.bin, cases-01.bin and so on, or those from
NUMBER on, of at most 65,536 bytes each. In them a case is four numbers of 4 bytes, big-endian, the lengths of its parts, and then the parts: book, pack, query lines, answers.
A missing file or one of more than 65,536 bytes counts as empty, as it does for the clock. A case that fits no file is left out, and said so.
"""
import struct
import sys
from pathlib import Path

MOST = 65536


def part(path):
    data = path.read_bytes() if path.exists() else b""
    return data if len(data) <= MOST else b""


def case(folder):
    parts = [part(folder / "book.bin"), part(folder / "zones.bin")]
    parts += [(folder / "queries.txt").read_bytes(), (folder / "expected.txt").read_bytes()]
    return struct.pack(">IIII", *map(len, parts)) + b"".join(parts)


words, first = sys.argv[1:], 0
if words[:1] == ["--first"] and len(words) > 1:
    words, first = words[2:], int(words[1])
if len(words) < 2 or words[0].startswith("-"):
    sys.exit(__doc__)
folders, out = [Path(word) for word in words[:-1]], Path(words[-1])
out.mkdir(parents=True, exist_ok=True)
files, cases, lines = [b""], 0, 0
for path in (path for folder in folders for path in sorted(folder.iterdir()) if path.is_dir()):
    data = case(path)
    if len(data) > MOST:
        print(f"{path.name}: {len(data)} bytes, left out")
        continue
    if len(files[-1]) + len(data) > MOST:
        files.append(b"")
    files[-1] += data
    cases += 1
    lines += (path / "expected.txt").read_bytes().count(b"\n")
for place, data in enumerate(files, first):
    (out / f"cases-{place:02}.bin").write_bytes(data)
print(f"{cases} cases, {lines} lines, {len(files)} files")
