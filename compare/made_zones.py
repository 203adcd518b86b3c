"""Zone files for the comparison with jiff: put together part by part, or made
from a seed so that jiff takes most of them.

jiff asks more of a file than document 01 does: a type and a name in the first
data block, names that end in NUL, and a footer that agrees with the last
transition's type (docs/DIFFERENCES.md). The files of `make` keep to that.
"""

import re
import struct
import sys

sys.dont_write_bytecode = True  # no cache beside the sources

import generate
import second
from second import DAY
from zone_ask import FIRST_S, LAST_S

WHOLE = ((0, 0, 0, 0, 1, 4), bytes(6) + b"AAA\0")  # a first block of one type
NAMES = re.compile(rb"([A-Za-z]+|<[^>]+>)[-+:0-9]+(?:([A-Za-z]+|<[^>]+>))?")
YEARS = [2026, 2026, 2024, 2025, 2037, 2038, 2000, 1970, 1900, 2100, 0, 1, -1, -4, -9998, 5000, 9998]
DISAGREES = 0.2  # how often a footer disagrees with the last type
FAR = [-(2**63), FIRST_S - 100_000, FIRST_S - 1, LAST_S + 1, LAST_S + 100_000, 2**63 - 1]


def header_at(file, at):
    return struct.unpack(">6I", file[at + 20 : at + 44])


def table_of(file):
    """The second data block's transitions as a zone, of any TZif file with a
    second block: without its footer, leap records and checks."""
    uts, stds, leaps, times, types, letters = header_at(file, 0)
    at = 44 + 5 * times + 6 * types + letters + 8 * leaps + stds + uts
    _, _, _, times, types, _ = header_at(file, at)
    at += 44
    seconds = struct.unpack(f">{times}q", file[at : at + 8 * times])
    numbers = list(file[at + 8 * times : at + 9 * times])
    at += 9 * times
    offsets = [struct.unpack(">i", file[at + 6 * i : at + 6 * i + 4])[0] for i in range(types)]
    return second.Zone(offsets, seconds, numbers)


def zone_file(types=((0, 0, 0),), changes=(), footer=b"", versions=b"22", letters=b"AAA\0BBB\0",
              stds=b"", uts=b"", leaps=b"", first=WHOLE, behind=b""):
    """A TZif file. A type is (offset, daylight flag, place of its name), a
    change (second, type number); `first` is the first block's counts and bytes."""
    counts = (len(uts), len(stds), len(leaps) // 12, len(changes), len(types), len(letters))
    data = b"".join(struct.pack(">q", at) for at, _ in changes) + bytes(kind for _, kind in changes)
    data += b"".join(struct.pack(">iBB", *kind) for kind in types) + letters + leaps + stds + uts
    headers = [b"TZif" + versions[i : i + 1] + bytes(15) for i in (0, 1)]
    head = headers[0] + struct.pack(">6I", *first[0]) + first[1]
    return head + headers[1] + struct.pack(">6I", *counts) + data + b"\n" + footer + b"\n" + behind


def offsets_file(offsets, seconds=(), footer=b"", versions=b"22"):
    """A file of offsets alone: the first one up to the first change, then one
    for each change."""
    types = tuple((offset, 0, 0) for offset in offsets)
    changes = [(at, place + 1) for place, at in enumerate(seconds)]
    return zone_file(types, changes, footer, versions)


# -------------------------------------------------------------------- by a seed


def about(rng):
    year = rng.choice(YEARS)
    start = second.new_year(year) * DAY
    return max(FIRST_S, min(LAST_S, start + rng.choice([0, rng.randrange(365 * DAY)])))


def span_of(at):
    """Two years about an instant, inside the range."""
    return max(FIRST_S, at - 366 * DAY), min(LAST_S, at + 366 * DAY)


def steps(rng, at, spaces, most=9):
    """Seconds that rise from `at` by some of `spaces`."""
    found = [at]
    for _ in range(rng.randrange(most)):
        found.append(found[-1] + rng.choice(spaces))
    return found


def near(rng):
    """Changes seconds to days apart."""
    spaces = [1, 2, 600, 3600, 7200, DAY - 1, DAY, 2 * DAY, rng.randint(1, 3 * DAY)]
    seconds = steps(rng, about(rng), spaces)
    return offsets_file([generate.offset(rng) for _ in [0, *seconds]], seconds), []


def apart(rng):
    """Changes so far apart that no two touch the same local times."""
    seconds = steps(rng, about(rng), [3 * DAY, 9 * DAY, 200 * DAY, 9_000 * DAY])
    return offsets_file([generate.offset(rng) for _ in [0, *seconds]], seconds), []


def none(rng):
    return offsets_file([generate.offset(rng)]), []


def ends(rng):
    """Changes about an end of the range, and beyond it."""
    seconds = set(rng.sample(FAR, rng.randint(0, 2)))
    end = rng.choice([FIRST_S, LAST_S])
    seconds.update(end + rng.randint(-DAY, DAY) for _ in range(rng.randint(1, 3)))
    seconds = sorted(seconds)
    return offsets_file([generate.offset(rng) for _ in [0, *seconds]], seconds), []


def footer(rng):
    """A footer alone, often with ties or changes at a year's end."""
    spans = [span_of(about(rng)) for _ in range(3)]
    return zone_file(footer=generate.footer_text(rng), versions=rng.choice([b"22", b"33"])), spans


def summer(rng):
    """A footer whose changes lie well inside the year and apart."""
    months = rng.sample([2, 4, 6, 8, 10], 2)
    standard = generate.offset(rng, 50_000)
    daylight = standard + rng.choice([3600, 1800, 7200, -3600])
    rules = [f"M{month}.{rng.randint(1, 5)}.{rng.randrange(7)}/{rng.randrange(25)}" for month in months]
    text = f"AAA{generate.west(standard)}BBB{generate.west(daylight)},{rules[0]},{rules[1]}"
    return zone_file(footer=text.encode()), [span_of(about(rng)) for _ in range(3)]


def both(rng):
    """A table and a footer that mostly agrees with its last type."""
    text = generate.footer_text(rng)
    if rng.random() < 0.5:
        text = summer(rng)[0].rpartition(b"\n")[0].rpartition(b"\n")[2]
    return with_table(rng, text, b"22")


def with_table(rng, text, versions):
    """A table before a footer, which mostly agrees with its last type."""
    rules = second.read_footer(text, versions[:1])
    spaces = rng.choice([[1, 600, 3600, DAY], [3 * DAY, 90 * DAY, 400 * DAY]])
    seconds = [at for at in steps(rng, about(rng), spaces, 4) if FIRST_S < at < LAST_S] or [0]
    names = [(name or b"AAA").strip(b"<>") for name in NAMES.match(text).groups()]
    offset = rules.offset(seconds[-1])
    daylight = rules.daylight is not None and is_daylight(rules, seconds[-1])
    types = [(generate.offset(rng), 0, 0) for _ in seconds]
    if rng.random() < DISAGREES:
        offset = generate.offset(rng)
    types.append((offset, int(daylight), len(names[0]) + 1 if daylight else 0))
    changes = [(at, place + 1) for place, at in enumerate(seconds)]
    file = zone_file(tuple(types), changes, text, versions, letters=names[0] + b"\0" + names[1] + b"\0")
    return file, [span_of(seconds[-1]), span_of(about(rng))]


def is_daylight(rules, at):
    """Whether daylight time holds, also where both offsets are the same."""
    year = second.year_of(at // DAY)
    return max(change for change in rules.around(year) if change[0] <= at)[1]


def wide(rng):
    """A footer with rule times that version 3 alone has, with a table before it or
    without: inside the year and apart, or at its ends."""
    text = generate.wide_text(rng)
    if rng.random() < 0.4:
        standard = generate.offset(rng, 50_000)
        times = [generate.wide_clock(rng, rng.choice([1, -1]) * rng.randint(90_000, generate.WIDEST)) for _ in range(2)]
        rules = [f"M{month}.{rng.randint(1, 5)}.{rng.randrange(7)}/{time}" for month, time in zip(rng.sample([2, 5, 8, 11], 2), times)]
        text = f"AAA{generate.west(standard)}BBB,{rules[0]},{rules[1]}".encode()
    if rng.random() < 0.4:
        return with_table(rng, text, b"33")
    return zone_file(footer=text, versions=b"33"), [span_of(about(rng)) for _ in range(3)]


FAMILIES = [near, apart, none, ends, footer, footer, summer, both, both]
APART = [wide]  # made by name alone: in FAMILIES it would change the files of every seed


def family_of(title):
    """The family of a title, and None for none."""
    return {family.__name__: family for family in FAMILIES + APART}.get(title)


def make(rng, family=None):
    """A family's title, a file, and spans to ask the footer's changes in."""
    family = family or rng.choice(FAMILIES)
    return (family.__name__, *family(rng))
