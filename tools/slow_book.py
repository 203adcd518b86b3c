#!/usr/bin/env python3
"""Writes a book and a pack for which the program may skip no window, and a query line over the whole range.

usage: tools/slow_book.py FOLDER

FOLDER gets book.bin, zones.bin and queries: 16 work and 16 break records, each in a zone of its own that changes its offset on two days of the year,
and 8 holiday records with 512 dates. The changes of all zones are some six days apart, so that one lies near every border of two windows.
"""
import struct
import sys
from pathlib import Path

FIRST, LAST = -377_705_023_201, 253_402_207_200
HOUR = 3600
ZONES = 32


def directory(records):
    at, pairs, body = 4 + 8 * len(records), b"", b""
    for record in records:
        pairs += struct.pack(">II", at, len(record))
        body += record
        at += len(record)
    return struct.pack(">I", len(records)) + pairs + body


def zone_file(day):
    """A zone file without transitions: daylight time of an hour from about a day of the year on, for half a year."""
    month, week, weekday = day // 31, 1 + day % 31 // 7, day % 7
    footer = f"AAA0BBB,M{1 + month}.{week}.{weekday},M{7 + month}.{week}.{weekday}"
    head = b"TZif2" + bytes(15)
    types = struct.pack(">iBB", 0, 0, 0) + b"AAA\0"
    return head + struct.pack(">6I", *[0] * 6) + head + struct.pack(">6I", 0, 0, 0, 0, 1, 4) + types + f"\n{footer}\n".encode()


def named(name, body):
    return bytes([len(name)]) + name.encode() + body


def main():
    if len(sys.argv) != 2 or sys.argv[1].startswith("-"):
        sys.exit(__doc__)
    folder = Path(sys.argv[1])
    folder.mkdir(parents=True, exist_ok=True)
    names = [f"Zone/{k}" for k in range(ZONES)]
    pack = directory([named(name, zone_file(1 + k * 180 // ZONES)) for k, name in enumerate(names)])
    records = []
    for k in range(16):
        start = k * HOUR + 1800
        records.append(b"\1" + named(names[2 * k], struct.pack(">BIIII", 127, start, 0, start + 3000, 0)))
        records.append(b"\2" + named(names[2 * k + 1], struct.pack(">BIIII", 127, start + 1200, 0, start + 1500, 0)))
    for k in range(8):
        dates = b"".join(struct.pack(">hBB", 2026 + (64 * k + d) // 48, (64 * k + d) // 4 % 12 + 1, d % 4 * 7 + 3) for d in range(64))
        records.append(b"\3" + named(names[k], struct.pack(">H", 64) + dates))
    (folder / "book.bin").write_bytes(directory(records))
    (folder / "zones.bin").write_bytes(pack)
    (folder / "queries").write_text(f"between {FIRST} 0 {LAST} 0\n")


main()
