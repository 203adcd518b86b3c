"""The rows of docs/DIFFERENCES.md: an input each, what jiff or the original over
it answers, what is answered here, and the sentence that decides.

`given` is a list of zone files, which are all answered alike; in the last two
parts it is a book and a pack, or a profile, a word and a second of `beyond`."""

import collections
import struct
import sys

sys.dont_write_bytecode = True  # no cache beside the sources

import generate
from made_zones import offsets_file, zone_file
from second import DAY
from zone_ask import FIRST_S, LAST_S

Row = collections.namedtuple("Row", "part what given line theirs ours decides")

TAKEN = "Taken by jiff, refused here"
REFUSED = "Refused by jiff, taken here"
OTHER = "Answered otherwise"
ALIKE = "Alike, though it may be doubted"
NAMES = "Zone names"
INSTANTS = "Instants beyond the range"
PARTS = [TAKEN, REFUSED, OTHER, ALIKE, NAMES, INSTANTS]

NO = "no 5"
YEAR = 1_767_225_600  # 2026-01-01T00:00:00Z
LEAP_YEAR = 1_704_067_200  # 2024-01-01T00:00:00Z
JULY = 1_782_864_000  # 2026-07-01T00:00:00Z
WEEK_BEHIND = YEAR + 604_799  # 2026-01-07T23:59:59Z, 167:59:59 behind the year's start
WEEK_BEFORE = YEAR - 604_799  # 2025-12-25T00:00:01Z, 167:59:59 before it
LATE = 2_145_916_800  # 2038-01-01T00:00:00Z
EVE = 2_240_609_400  # 2040-12-31T23:30:00Z
ENDLESS = "does not end"
STOPS = "stops: an assertion fails"
TITLES = {"checked": "built with assertions", "release": "built without"}


def quote(text):
    return f'01: "{text}"'


def quote_change(text):
    return f'02, 1: "{text}"'


HOURS = quote("Hours in offsets and rule times go from 0 to 24.")
POSIX = quote("A footer is empty or a POSIX TZ string.")
NARROW = quote_change("version '2' and all offsets stay at 0 to 24")
SIGN = NARROW + "; RFC 8536, 3.3.1 has signs in version 3 alone"
DIGITS = quote_change("Take that range, in one to three digits")
WIDE = quote_change("For version '3' RFC 8536 lets the hours of rule times run from -167 to 167, signed.")
RULES = quote("A daylight name needs both its rules.")
VERSION = quote("'2' or '3', in both headers")
SKIPPED = quote("its first data block skipped by its own counts")
NAME = quote("A usable file has: .. abbreviation indices inside a non-empty table")
NUL = NAME + "; RFC 8536, 3.2 asks writers for NUL"
ENCODING = NAME + "; RFC 8536, 3.2 sets no encoding, 4 advises ASCII"
LENGTH = NAME + "; RFC 8536, 4 advises three to six characters"
UT = quote("A usable file has: .. indicator counts 0 or the type count, flags 0 or 1") + "; RFC 8536, 3.2 asks more of writers"
AGREES = quote("A usable file has: .. then newline, footer, newline and nothing behind") + "; RFC 8536, 3.3 asks writers to agree"
LATEST = quote("the latest of all years' changes counts")
TIE = quote("on a tie daylight time starts")
ALL_YEAR = TIE + "; RFC 8536, 3.3.1: in version 3 daylight time all year"
THROUGHOUT = quote("With no transitions the footer rules throughout, or type 0.") + "; RFC 8536, 3.2"
FOOTER = quote("from the last one on the footer, or the last type where it is empty") + "; RFC 8536, 3.2"
BEFORE = quote("type 0 before the first transition") + "; RFC 8536, 3.2"
EARLIEST = quote("a local time takes the earliest instant that reads so") + "; RFC 5545, 3.3.5"
JUMPED = quote("take the earliest change that jumps over it and use the offset before it") + "; RFC 5545, 3.3.5"
PAST = quote("looked for past both ends of the range too")
CHANGES = quote("no work or break zone changes offset in it")
PACK = quote("zone not in pack")
FIRST_MATCH = quote("The finder hands back the TZif part of the lent pack itself.")
RANGE = quote("instant or its nanoseconds out of range")
ROUNDED = quote("whole seconds from 1970-01-01T00:00:00Z, rounded down")

JERUSALEM, GAZA, NUUK = "IST-2IDT,M3.4.4/26,M10.5.0", "EET-2EEST,M3.4.4/50,M10.4.4/50", "<-02>2<-01>,M3.5.0/-1,M10.5.0/0"

ROWS = []


def zone(part, what, file, line, theirs, ours, decides):
    ROWS.append(Row(part, what, [file], line, theirs, ours, decides))


def footed(part, text, line, theirs, ours, decides, what=None, version=None):
    """A footer alone, in files of version 2 and of version 3, or of one of them."""
    files = [zone_file(footer=text.encode(), versions=versions) for versions in ([version * 2] if version else (b"22", b"33"))]
    told = f", version {version.decode()}" if version else ""
    ROWS.append(Row(part, what or f"footer `{text}`{told}", files, line, theirs, ours, decides))


def in_three(part, text, line, theirs, ours, decides):
    """A footer alone, in a file of version 3."""
    footed(part, text, line, theirs, ours, decides, version=b"3")


def taken_footers():
    at = f"offset {YEAR}"
    rows = [("AAA0BBB,0/25,1", "0", NARROW), ("AAA0BBB,0/167:59:59,1", "3600", NARROW), ("AAA0BBB,0/-1,1", "3600", NARROW)]
    rows += [("AAA0BBB,0/-167,1", "3600", NARROW), ("AAA0BBB,0/-0:30,1", "3600", SIGN), ("AAA0BBB,0/+1,1", "0", SIGN)]
    rows += [("AAA0BBB,0/000,1", "3600", POSIX), ("AAA0BBB,0/002,1", "0", POSIX)]
    rows += [(JERUSALEM, "7200", NARROW), (GAZA, "7200", NARROW), (NUUK, "-7200", NARROW)]
    for text, offset, decides in rows:
        footed(TAKEN, text, at, offset, NO, decides, version=b"2")


def taken_files():
    at, two = "offset 0", ((0, 0, 0), (3600, 0, 0))
    first = ((0, 0, 0, 0, 1, 4), struct.pack(">iBB", 3600, 0, 0) + b"AAA\0")
    for versions, title in ((b"11", "'1'"), (b"44", "'4'"), (b"23", "'2', then '3'")):
        zone(TAKEN, f"version {title} in the headers", zone_file(versions=versions), at, "0", NO, VERSION)
    zone(TAKEN, "version NUL in the first header, whose block has the offset 3600; jiff reads that block alone",
         zone_file(versions=b"\0002", first=first), at, "3600", NO, VERSION)
    leap = struct.pack(">qi", 78_796_800, 1)
    zone(TAKEN, "a leap record: 78796800, 1", zone_file(leaps=leap), at, "0", NO, quote("no leap records"))
    zone(TAKEN, "a byte behind the footer", zone_file(behind=b"\0"), at, "0", NO,
         quote("then newline, footer, newline and nothing behind"))
    ascending = quote("at most 2,048 transitions strictly ascending")
    zone(TAKEN, "two transitions at 0, to 0 and to 3600", zone_file(two, [(0, 0), (0, 1)]), at, "3600", NO, ascending)
    zone(TAKEN, "transitions at 1 to 3600 and at 0 to 0", zone_file(two, [(1, 1), (0, 0)]), "offset 1", "0", NO, ascending)
    many = [(second, second % 2) for second in range(2049)]
    zone(TAKEN, "2,049 transitions", zone_file(two, many), at, "0", NO, ascending)
    zone(TAKEN, "257 types", zone_file(((0, 0, 0),) * 257), at, "0", NO, quote("1 to 256 types"))
    zone(TAKEN, "a daylight flag of 2", zone_file(((0, 2, 0),)), at, "0", NO, quote("flags 0 or 1"))


def refused_files():
    at = "offset 0"
    blocks = [("no type and no name", ((0, 0, 0, 0, 0, 0), b"")), ("a type and no name", ((0, 0, 0, 0, 1, 0), bytes(6)))]
    blocks.append(("one type and two standard indicators", ((0, 2, 0, 0, 1, 4), bytes(6) + b"AAA\0\0\0")))
    for title, block in blocks:
        zone(REFUSED, f"first data block with {title}", zone_file(first=block), at, NO, "0", SKIPPED)
    zone(REFUSED, "a name without NUL: `AAA`", zone_file(letters=b"AAA"), at, NO, "0", NUL)
    zone(REFUSED, "a name that is not UTF-8: FF 00", zone_file(letters=b"\xff\0"), at, NO, "0", ENCODING)
    zone(REFUSED, "a name of 256 letters, then NUL", zone_file(letters=256 * b"A" + b"\0"), at, NO, "0", LENGTH)
    zone(REFUSED, "a UT indicator of 1, no standard indicators", zone_file(uts=b"\1"), at, NO, "0", UT)
    zone(REFUSED, "a UT indicator of 1, its standard indicator 0", zone_file(stds=b"\0", uts=b"\1"), at, NO, "0", UT)
    zone(REFUSED, "offsets 0, then 3600 from 0 on; footer `AAA0`", offsets_file([0, 3600], [0], b"AAA0"), at, NO, "0", AGREES)
    zone(REFUSED, "a transition at 0 to a daylight type of offset 0; footer `AAA0`",
         zone_file(((0, 1, 0),), [(0, 0)], b"AAA0"), at, NO, "0", AGREES)
    zone(REFUSED, "a transition at 0 to a type named AAA; footer `BBB0`", zone_file(changes=[(0, 0)], footer=b"BBB0"),
         at, NO, "0", AGREES)
    zone(REFUSED, f"offsets 0, then 7200 from {LATE} on (2038); footer `AAA0BBB,1,2`",
         offsets_file([0, 7200], [LATE], b"AAA0BBB,1,2"), at, NO, "0", AGREES)
    footed(REFUSED, 256 * "A" + "0", at, NO, "0", POSIX, "footer of 256 letters A and `0`")
    footed(REFUSED, "AAA-2<+01>-1,0/0,J365/23", at, NO, "3600", ALL_YEAR)


def footer_answers():
    footed(OTHER, "AAA0BBB,0/0,0/1", f"offset {YEAR}", "0", "3600", TIE)
    footed(OTHER, "AAA3EDT4,0/0,J365/23", f"offset {YEAR}", "-10800", "-14400", ALL_YEAR)
    footed(OTHER, "AAA-1BBB,0/0,1/0", f"offset {YEAR - 3600}", "3600", "7200", LATEST)
    footed(OTHER, "AAA-1BBB,0/0,1/0", f"change {YEAR - 7200}", str(YEAR), str(YEAR - 3600), LATEST)
    footed(OTHER, "AAA0BBB,1/0,365/0", f"offset {YEAR - 1}", "3600", "0", LATEST)
    footed(OTHER, "AAA0BBB,1,365", "local 2026 1 1 0", f"{YEAR} 0", f"{YEAR - 3600} 0", LATEST)
    footed(OTHER, "AAA0BBB,J60,60", f"offset {LEAP_YEAR}", "3600", "0", LATEST)
    footed(OTHER, "AAA0BBB,1,1", "local 2026 7 1 0", f"{JULY} 0", f"{JULY - 3600} 0", EARLIEST)
    footed(OTHER, "AAA24:59:59BBB,365/24:59:59,365/24:59:58", f"offset {YEAR}", "-89999", "-86399", LATEST)
    in_three(OTHER, "AAA0BBB,0/25,1", f"offset {YEAR}", "0", "3600", TIE)
    in_three(OTHER, "AAA0BBB,0/-1,1", f"offset {YEAR - 3600}", "0", "3600", LATEST)
    in_three(OTHER, "AAA0BBB,0/-167:59:59,1", f"offset {WEEK_BEFORE}", "0", "3600", LATEST)
    in_three(OTHER, "AAA0BBB,0/-167:59:59,1", f"change {WEEK_BEFORE - 1}", str(YEAR), str(WEEK_BEFORE), LATEST)
    in_three(OTHER, "AAA0BBB,0/-167,1", "local 2025 12 28 0", "1766880000 0", "1766876400 0", LATEST)
    in_three(OTHER, "AAA0BBB,365/167:59:59,1", f"offset {WEEK_BEHIND}", "0", "3600", LATEST)
    in_three(OTHER, "AAA0BBB,365/167:59:59,1", f"change {WEEK_BEHIND - 1}", "1798761599", str(WEEK_BEHIND), LATEST)
    in_three(OTHER, "AAA0BBB,365/167:59:59,365/167", f"offset {YEAR}", "0", "3600", LATEST)
    in_three(OTHER, "AAA0BBB,365/-1,300", f"offset {YEAR - 3600}", "0", "3600", LATEST)
    file = zone_file(((3600, 0, 0),), footer=b"AAA0BBB,364/0,365/0")
    what = "type of offset 3600, footer `AAA0BBB,364/0,365/0`"
    zone(OTHER, what, file, f"offset {FIRST_S}", "3600", "0", THROUGHOUT)
    zone(OTHER, what, file, "local -9999 6 1 0", "-377692074000 0", "-377692070400 0", THROUGHOUT)


def last_answers():
    file = offsets_file([0, 7200], [0], b"AAA0BBB,1,2")
    what = "offsets 0, then 7200 from 0 on; footer `AAA0BBB,1,2`"
    zone(OTHER, what, file, "offset 0", "7200", "0", FOOTER)
    zone(OTHER, what, file, "local 1970 1 1 43200", "36000 0", "43200 0", FOOTER)


def table_answers():
    monday = 1_767_571_200
    zone(OTHER, "offsets 0, then 2 from 0 on, then 0 from 1 on", offsets_file([0, 2, 0], [0, 1]), "local 1970 1 1 1",
         "-1 0", "1 0", EARLIEST)
    zone(OTHER, "offsets 2, then 1 from 0 on, then 0 from 1 on", offsets_file([2, 1, 0], [0, 1]), "local 1970 1 1 1",
         "0 0", "-1 0", EARLIEST)
    zone(OTHER, "offsets 7200, then 3600 from 2026-01-05T10:00Z on, then 0 from 10:45Z on",
         offsets_file([7200, 3600, 0], [monday + 36_000, monday + 38_700]), "local 2026 1 5 41400",
         "1767609000 0", "1767605400 0", EARLIEST)
    zone(OTHER, "offsets 0, then 7200 from 2026-01-05T10:00:00Z on, -3600 from 10:00:01Z on, 10800 from 10:30Z on",
         offsets_file([0, 7200, -3600, 10_800], [monday + 36_000, monday + 36_001, monday + 37_800]),
         "local 2026 1 5 39600", "1767614400 0", "1767610800 0", JUMPED)


def nanosecond_answers():
    half = "offset -1 500000000"
    zone(OTHER, "offsets 0, then 3600 from 0 on", offsets_file([0, 3600], [0]), half, "3600", "0", ROUNDED)
    zone(OTHER, "offsets 0, then 3600 from 0 on, then 0 from 3600 on", offsets_file([0, 3600, 0], [0, 3600]),
         "change -1 500000000", "3600", "0", ROUNDED)


def range_answers():
    file = offsets_file([0, 3600], [LAST_S + 1])
    what = "offsets 0, then 3600 from the second behind the last instant on"
    zone(OTHER, what, file, f"offset {LAST_S}", "3600", "0", BEFORE)
    zone(OTHER, what, file, "local 9999 12 30 82800", f"{LAST_S} 0", f"{LAST_S} 999999999", PAST)
    zone(OTHER, "the same with the transition at 2^63-1", offsets_file([0, 3600], [2**63 - 1]), f"offset {LAST_S}",
         "3600", "0", BEFORE)
    zone(OTHER, "offsets 0, then 3600 from the second before the first instant on", offsets_file([0, 3600], [FIRST_S - 1]),
         "local -9999 1 2 10798", "-377705019602 0", f"{FIRST_S} 0", PAST)
    zone(OTHER, "offsets 7200, then 0 from the second before the first instant on", offsets_file([7200, 0], [FIRST_S - 1]),
         "local -9999 1 2 14398", f"{FIRST_S} 0", "-377705016002 0", PAST)


def change_answers():
    zone(OTHER, "no transitions, empty footer", offsets_file([0]), "change 0", str(FIRST_S), "none", CHANGES)
    zone(OTHER, "offsets 0, then 3600 from 0 on, empty footer", offsets_file([0, 3600], [0]), "change 5", "0", "none", CHANGES)
    zone(OTHER, "offsets 0, then 0 from 0 on, empty footer", offsets_file([0, 0], [0]), "change -1", "0", "none", CHANGES)
    footed(OTHER, "AAA0BBB0,1,2", "change 0", "93600", "none", CHANGES)
    zone(OTHER, "offsets 0, then 3600 from the second behind the last instant on", offsets_file([0, 3600], [LAST_S + 1]),
         "change 0", str(LAST_S), "none", CHANGES)


def alike():
    at = f"offset {YEAR}"
    for text in ("EST005", "EST5:3", "<A_A>0", "<AA>0", "AA0", ":AAA0", "AAA24:60", "AAA--1"):
        footed(ALIKE, text, at, NO, NO, POSIX)
    footed(ALIKE, "AAA0BBB", at, NO, NO, RULES)
    for text in ("AAA0BBB,0001,1", "AAA0BBB,0,366", "AAA0BBB,J0,1", "AAA0BBB,M1.01.0,1", "AAA0BBB,0/1:2,1"):
        footed(ALIKE, text, at, NO, NO, POSIX)
    footed(ALIKE, "AAA25", at, NO, NO, HOURS)
    for text in ("AAA0BBB25,0,1", "AAA0BBB-25,0,1"):
        footed(ALIKE, text, at, NO, NO, NARROW)
    for text in ("AAA0BBB,0/168,1", "AAA0BBB,0/-168,1", "AAA0BBB,0/+168,1"):
        footed(ALIKE, text, at, NO, NO, WIDE)
    footed(ALIKE, "AAA0BBB,0/167:60,1", at, NO, NO, POSIX)
    for text in ("AAA0BBB,0/0002,1", "AAA0BBB,0/-,1"):
        footed(ALIKE, text, at, NO, NO, DIGITS)
    for text in ("AAA0BBB,0/--1,1", "AAA0BBB,0/+-1,1"):
        footed(ALIKE, text, at, NO, NO, WIDE)
    for text, offset in (("<+01>-1", "3600"), ("<A-1>1", "-3600"), ("AAA+1", "-3600")):
        footed(ALIKE, text, at, offset, offset, POSIX)
    for text, offset in (("AAA24:59:59", "-89999"), ("AAA-24:59:59BBB,0,1", "93599"), ("AAA0BBB,0/24:59:59,1", "0")):
        footed(ALIKE, text, at, offset, offset, HOURS)
    alike_in_three()
    footed(ALIKE, "AAA3EDT4,0/0,J365/23", f"offset {JULY}", "-14400", "-14400", ALL_YEAR)
    permanent, letters = "AAA-2<+01>-1,0/0,J365/23", b"AAA\0+01\0"
    zone(ALIKE, f"a transition at {LATE} (2038) to a daylight type of offset 3600 named +01; footer `{permanent}`",
         zone_file(((0, 0, 0), (3600, 1, 4)), [(LATE, 1)], permanent.encode(), letters=letters),
         f"offset {EVE}", "3600", "3600", ALL_YEAR)
    bounds = quote("offsets from -93,599 to 93,599 s")
    for offset in (93_599, -93_599):
        zone(ALIKE, f"offset {offset}", offsets_file([offset]), at, str(offset), str(offset), bounds)
    for offset in (93_600, -93_600):
        zone(ALIKE, f"offset {offset}", offsets_file([offset]), at, NO, NO, bounds)
    zone(ALIKE, "a UT indicator of 0, no standard indicators", zone_file(uts=b"\0"), at, "0", "0",
         quote("indicator counts 0 or the type count"))
    zone(ALIKE, "footer `BBB1` without transitions, a type named AAA", zone_file(footer=b"BBB1"), at, "-3600", "-3600", THROUGHOUT)


def alike_in_three():
    """Rule times that version 3 alone has, with changes that stay in their year."""
    changes = [(NUUK, 1_774_746_000), (GAZA, 1_774_656_000), (JERUSALEM, 1_774_569_600)]
    changes += [("AAA0BBB,100/167:59:59,200", YEAR + 100 * DAY + 604_799), ("AAA0BBB,100/-167:59:59,200", YEAR + 100 * DAY - 604_799)]
    changes += [("AAA0BBB,100/-0:30,200", YEAR + 100 * DAY - 1800), ("AAA0BBB,100/+1,200", YEAR + 100 * DAY + 3600)]
    for text, at in changes:
        in_three(ALIKE, text, f"change {YEAR}", str(at), str(at), WIDE)
    for text, at in (("AAA0BBB,100/002,200", 7200), ("AAA0BBB,100/-002,200", -7200)):
        at += YEAR + 100 * DAY
        in_three(ALIKE, text, f"change {YEAR}", str(at), str(at), DIGITS)
    in_three(ALIKE, "AAA0BBB,0/167:59:59,1", f"offset {WEEK_BEHIND - 1}", "0", "0", WIDE)
    in_three(ALIKE, "AAA0BBB,0/167:59:59,1", f"offset {WEEK_BEHIND}", "3600", "3600", WIDE)


def books():
    """Rows about names: the office's work record with a zone's name."""
    line = "next 1768039200 0"  # Saturday 2026-01-10T10:00Z
    utc, west = "ok 1768208400 0 1768237200 0", "ok 1768204800 0 1768233600 0"
    ahead = generate.pack_record(b"UTC", offsets_file([3600]))
    rows = [("UTC", [], "no 4 12"), ("utc", [], "no 4 12"), ("Etc/Unknown", [], "no 4 12"), ("UTC", [ahead], west)]
    for name, pack, ours in rows:
        told = "a file of offset 3600 under that name" if pack else "nothing"
        book = generate.join([generate.shift(1, name.encode(), 0x1F, (32_400, 0), (61_200, 0))])
        what = f'office hours in "{name}", the pack has {told}'
        ROWS.append(Row(NAMES, what, (book, generate.join(pack)), line, utc, ours, FIRST_MATCH if pack else PACK))
    for name in ("Etc/UTC", "Not/There"):
        book = generate.join([generate.shift(1, name.encode(), 0x1F, (32_400, 0), (61_200, 0))])
        what = f'office hours in "{name}", the pack has nothing'
        ROWS.append(Row(NAMES, what, (book, generate.join([])), line, "no 4 12", "no 4 12", PACK))


def instants():
    """Rows about instants beyond the range: profile, the word of `beyond` and
    the second; the line that asks for the same here."""
    late, early = LAST_S + 1, FIRST_S - 1
    rows = [("checked", "make", late, STOPS, f"next {late} 0"), ("release", "make", late, f"ok {late}", f"next {late} 0")]
    rows += [("release", "next", late, "no", f"next {late} 0"), ("release", "add", late, "no", f"add {late} 0 1 0")]
    rows += [("release", "previous", late, "ok 253402160400 253402189200", f"previous {late} 0")]
    rows += [("release", "between", late, ENDLESS, f"between {LAST_S} 999999999 {late} 0")]
    rows += [("release", "next", early, "ok -377704998000 -377704969200", f"next {early} 0")]
    for profile, word, second, theirs, line in rows:
        call = f"`Timestamp::from_nanosecond` of {second} s"
        what = f"{call}, {TITLES[profile]}" + ("" if word == "make" else f", then `{word}`")
        ROWS.append(Row(INSTANTS, what, (profile, word, second), line, theirs, "no 8 0", RANGE))


for fill in (taken_footers, taken_files, refused_files, footer_answers, last_answers):
    fill()
for fill in (table_answers, nanosecond_answers, range_answers, change_answers):
    fill()
for fill in (alike, books, instants):
    fill()
