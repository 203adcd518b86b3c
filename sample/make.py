#!/usr/bin/env python3
"""Makes the sample calendar: book.bin and zones.bin beside this file.

usage: sample/make.py [ZONEINFO]

The book: Monday to Friday 08:00 to 18:00, Europe/Berlin, and the site's holidays of 2026 to 2028. The pack holds that one zone, from the folder
ZONEINFO (/usr/share/zoneinfo if not told otherwise). Both layouts are those of document 01: a count, pairs of offset and length, the records.
"""
import struct
import sys
from pathlib import Path

ZONE = b"Europe/Berlin"
MONDAY_TO_FRIDAY = 0b0011111

# New Year, Good Friday, Easter Monday, May Day, Ascension, Whit Monday, Unity Day, Christmas Eve to 26 December, New Year's Eve
HOLIDAYS = {
    2026: [(1, 1), (4, 3), (4, 6), (5, 1), (5, 14), (5, 25), (10, 3), (12, 24), (12, 25), (12, 26), (12, 31)],
    2027: [(1, 1), (3, 26), (3, 29), (5, 1), (5, 6), (5, 17), (10, 3), (12, 24), (12, 25), (12, 26), (12, 31)],
    2028: [(1, 1), (4, 14), (4, 17), (5, 1), (5, 25), (6, 5), (10, 3), (12, 24), (12, 25), (12, 26), (12, 31)],
}


def directory(records):
    """The count, the pairs of offset and length, and the records behind them."""
    at = 4 + 8 * len(records)
    head = struct.pack(">I", len(records))
    for record in records:
        head += struct.pack(">II", at, len(record))
        at += len(record)
    return head + b"".join(records)


def book():
    default = bytes([0, len(ZONE)]) + ZONE
    work = bytes([1, 0, MONDAY_TO_FRIDAY]) + struct.pack(">IIII", 8 * 3600, 0, 18 * 3600, 0)
    dates = [struct.pack(">hBB", year, month, day) for year in sorted(HOLIDAYS) for month, day in HOLIDAYS[year]]
    closed = bytes([3, 0]) + struct.pack(">H", len(dates)) + b"".join(dates)
    return directory([default, work, closed])


def pack(zoneinfo):
    return directory([bytes([len(ZONE)]) + ZONE + (zoneinfo / ZONE.decode()).read_bytes()])


if len(sys.argv) > 2 or sys.argv[1:2] and sys.argv[1].startswith("-"):
    sys.exit(__doc__)
here = Path(__file__).parent
(here / "book.bin").write_bytes(book())
(here / "zones.bin").write_bytes(pack(Path(sys.argv[1] if len(sys.argv) > 1 else "/usr/share/zoneinfo")))
