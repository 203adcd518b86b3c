#!/usr/bin/env python3
"""Makes the zone pack and the stored answers of the program test_zones.

usage: tools/zone_answers.py ZONEINFO OUT

ZONEINFO is a folder of compiled zone files (Debian's package tzdata installs one), OUT the folder to write to. zones.bin is a zone pack in
document 01's layout with the zones named below and two made here: one whose offsets lie at both limits, and America/Nuuk's file with version 2 in both
headers, which is refused, since its footer has a rule time of -1 hours. answers-KKK.bin belongs to record KKK of the
pack: pairs of signed 64-bit numbers, a local second (counted as if it were UTC) and the second that it is, big-endian; then pairs of a second with
656,384,508,000 added, which is beyond the local times, and the second of the next change of the offset after it. A zone that is refused has an empty
file of answers.

The answers for real zones come from Python's zoneinfo, which reads the same files with code of its own: fold=0 gives the earlier of two repeated
times, and for a skipped time the offset before the change. zoneinfo takes no offset of 24 hours or more, so those for the made zone come from a
search over every offset of it, written here from RFC 8536 and document 01. Changes of the offset are looked for from 1900 to 2100 between the table's
transitions and the first days of all months. America/Nuuk is also asked for the local times about the changes that its footer makes up to 2100.
"""
import bisect, datetime, os, struct, sys
from zoneinfo import ZoneInfo

REAL = ["Europe/Berlin", "America/New_York", "Asia/Kolkata", "Pacific/Apia", "Australia/Lord_Howe", "Africa/Casablanca", "America/Nuuk",
        "Europe/Dublin", "Antarctica/Troll", "Asia/Kathmandu"]
EPOCH = datetime.datetime(1970, 1, 1)
YEARS = range(1900, 2101)
BEYOND = 656384508000   # added to a second whose next change is stored
WIDE = "America/Nuuk"   # its footer has a rule time of -1 hours


def parse(f):
    """transitions and offsets of the second data block"""
    def header(at):
        return struct.unpack(">6I", f[at + 20:at + 44])
    ut, std, leap, time, typ, char = header(0)
    at = 44 + time * 5 + typ * 6 + char + leap * 8 + std + ut
    ut, std, leap, time, typ, char = header(at)
    at += 44
    times = struct.unpack(f">{time}q", f[at:at + 8 * time])
    kinds = f[at + 8 * time:at + 9 * time]
    types = [struct.unpack(">iBB", f[at + 9 * time + 6 * i:at + 9 * time + 6 * i + 6])[0] for i in range(typ)]
    return times, [types[k] for k in kinds], types[0]


def by_zoneinfo(zone, local):
    wall = EPOCH + datetime.timedelta(seconds=local)
    return local - int(wall.replace(tzinfo=zone, fold=0).utcoffset().total_seconds())


def in_table(times, offs, initial):
    def off(u):
        i = bisect.bisect_right(times, u)
        return offs[i - 1] if i else initial
    return off


def in_zone(zone):
    utc = EPOCH.replace(tzinfo=datetime.timezone.utc)
    return lambda u: int((utc + datetime.timedelta(seconds=u)).astimezone(zone).utcoffset().total_seconds())


def by_search(times, offs, initial, local):
    off = in_table(times, offs, initial)
    reads = [local - o for o in set(offs) | {initial} if off(local - o) == o]
    if reads:
        return min(reads)
    for t, p in zip(times, offs):
        if t + off(t - 1) <= local < t + p:
            return local - off(t - 1)
    raise AssertionError(local)


def around(times, offs, initial):
    """local seconds about each change"""
    before = initial
    for t, o in zip(times, offs):
        for x in (before, o):
            for d in (-3600, -1, 0, 1, 1800):
                yield t + x + d
        yield t + (before + o) // 2
        before = o


def locals_of(times, offs, initial):
    out = set(around([t for t in times if t > -2 ** 40], offs, initial))
    for y in YEARS:
        for m, d, s in ((1, 1, 0), (3, 28, 9000), (7, 1, 43200), (10, 26, 9000)):
            out.add(int((datetime.datetime(y, m, d) - EPOCH).total_seconds()) + s)
    return sorted(out)


def changes_of(off, times, years=YEARS):
    """the seconds of some years, up to 1 December of the last, at which the offset is another than a second before"""
    firsts = [int((datetime.datetime(y, m, 1) - EPOCH).total_seconds()) for y in years for m in range(1, 13)]
    inside = [t for t in times if firsts[0] < t < firsts[-1]]
    points = sorted(set(firsts) | set(inside) | {t - 1 for t in inside})
    out = []
    for a, b in zip(points, points[1:]):
        before = off(a)
        if before != off(b):
            while b - a > 1:
                middle = (a + b) // 2
                a, b = (middle, b) if off(middle) == before else (a, middle)
            out.append(b)
    return out


def next_pairs(off, times):
    """about each change, and every tenth year, a second and the next change after it"""
    changes = changes_of(off, times)
    first = int((datetime.datetime(YEARS[0], 1, 1) - EPOCH).total_seconds())
    asked = {first + 315576000 * k for k in range(20)} | {u for c in changes for u in (c - 1, c)}
    return [(u + BEYOND, changes[bisect.bisect_right(changes, u)]) for u in sorted(asked) if changes and u < changes[-1]]


def footer_locals(off, times):
    """local seconds about the changes that the footer makes"""
    changes = [t for t in changes_of(off, times) if t > times[-1]]
    return sorted(set(around(changes, [off(t) for t in changes], off(changes[0] - 1))))


def in_version(f, version):
    """a file with another version in both its headers"""
    return f.replace(b"TZif" + f[4:5], b"TZif" + version)


def made():
    """a zone without footer whose offsets lie at both limits"""
    times = [-10 ** 9, 0, 10 ** 8, 10 ** 9, 10 ** 9 + 100000]
    kinds = [1, 2, 1, 0, 2]
    types = [0, 93599, -93599]
    def head(time, typ, char):
        return b"TZif2" + bytes(15) + struct.pack(">6I", 0, 0, 0, time, typ, char)
    body = b"".join(struct.pack(">q", t) for t in times) + bytes(kinds)
    body += b"".join(struct.pack(">iBB", o, 0, 0) for o in types) + b"ABC\0"
    return head(0, 1, 4) + struct.pack(">iBB", 0, 0, 0) + b"ABC\0" + head(len(times), len(types), 4) + body + b"\n\n"


def main(folder, out):
    files = [(n, open(os.path.join(folder, n), "rb").read()) for n in REAL] + [("Made/Limits", made())]
    files.append(("Made/Version-2", in_version(dict(files)[WIDE], b"2")))
    records = [bytes([len(n)]) + n.encode() + f for n, f in files]
    at = 4 + 8 * len(records)
    pack = struct.pack(">I", len(records))
    for r in records:
        pack += struct.pack(">II", at, len(r))
        at += len(r)
    open(os.path.join(out, "zones.bin"), "wb").write(pack + b"".join(records))
    for k, (name, f) in enumerate(files):
        times, offs, initial = parse(f)
        pairs = []
        if name == "Made/Limits":
            pairs = [(x, by_search(times, offs, initial, x)) for x in locals_of(times, offs, initial)]
            pairs += next_pairs(in_table(times, offs, initial), times)
        elif name in REAL:
            zone = ZoneInfo.from_file(open(os.path.join(folder, name), "rb"))
            asked = locals_of(times, offs, initial)
            if name == WIDE:
                asked = sorted({*asked, *footer_locals(in_zone(zone), times)})
            pairs = [(x, by_zoneinfo(zone, x)) for x in asked] + next_pairs(in_zone(zone), times)
        open(os.path.join(out, f"answers-{k:03}.bin"), "wb").write(b"".join(struct.pack(">qq", *p) for p in pairs))
        print(name, len(f), "bytes,", len(times), "changes,", len(pairs), "answers")


if __name__ == "__main__":
    if len(sys.argv) != 3 or sys.argv[1].startswith("-"):
        sys.exit(__doc__)
    main(sys.argv[1], sys.argv[2])
