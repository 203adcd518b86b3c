#!/usr/bin/env python3
"""Says of every file of a zone database whether document 01 calls it usable, and holds the program test_zones to that.

usage: tools/zone_survey.py ZONEINFO [PROGRAM [DAMAGED]]

ZONEINFO is a folder of compiled zone files (Debian's package tzdata installs one). Every file below it is a record of a zone pack, under its path
in the folder; a pack has at most 1,024 records and 65,536 bytes, so there are many. The judgement below is written from document 01 and RFC 8536
and shares nothing with the crates. PROGRAM is test_zones as `rt run` in crates/test_zones builds it (out/test_zones there): it is run on each pack, and what
it calls usable is compared. Beside a pack lie answers of Python's zoneinfo for local times about every change and four times a year, and in a second
run for the next change of the offset (made as zone_answers.py makes them), which the program compares. Each different file whose footer has a rule time
that version 3 alone has is asked about more: about every change from the year 2 to 9999, the last ones by the footer, and about random seconds from a fixed
seed, each with the local time that it reads and the next change. DAMAGED is a number of files more, made from those that are usable by changing, dropping
or adding a byte, from a fixed seed, and as many files in each version whose footers are put together at random from good and bad parts, the same ones in
both: they are judged and compared too, without answers.

It prints the number of files, of usable ones and of each reason to refuse one with the files' names, and ends with status 1 where the program
differs.
"""
import bisect, collections, io, os, random, re, struct, subprocess, sys, tempfile
from zoneinfo import ZoneInfo
sys.dont_write_bytecode = True
from zone_answers import BEYOND, by_zoneinfo, changes_of, in_version, in_zone, locals_of, next_pairs, parse

NAME = rb"(?:[A-Za-z]{3,}|<[A-Za-z0-9+-]{3,}>)"
CLOCK = rb"[0-9]{1,2}(?::[0-9]{2}(?::[0-9]{2})?)?"
DAY = rb"(?:J[0-9]{1,3}|[0-9]{1,3}|M[0-9]{1,2}\.[0-9]\.[0-9])"
TIMES = {b"2": CLOCK, b"3": rb"[+-]?[0-9]{1,3}(?::[0-9]{2}(?::[0-9]{2})?)?"}   # of rules, by version
MOST_HOURS = {b"2": 24, b"3": 167}   # of rule times
LINES = {v: re.compile(rb"(%s)([+-]?)(%s)(?:(%s)(?:([+-]?)(%s))?,(%s)(?:/(%s))?,(%s)(?:/(%s))?)?"
                       % (NAME, CLOCK, NAME, CLOCK, DAY, TIMES[v], DAY, TIMES[v])) for v in TIMES}
VERSION_3_ALONE = "rule time of version 3 in version 2"


def clock(text, most):
    """hours from 0 to most, minutes and seconds from 0 to 59"""
    parts = [int(x) for x in text.lstrip(b"+-").split(b":")]
    return parts[0] <= most and all(x <= 59 for x in parts[1:])


def day(text):
    if text[:1] == b"J":
        return 1 <= int(text[1:]) <= 365
    if text[:1] == b"M":
        m, w, d = (int(x) for x in text[1:].split(b"."))
        return 1 <= m <= 12 and 1 <= w <= 5 and 0 <= d <= 6
    return int(text) <= 365


def is_tz_string(line, version):
    m = LINES[version].fullmatch(line)
    if m is None:
        return False
    offsets, times, days = ([m.group(i) for i in places if m.group(i) is not None] for places in ((3, 6), (8, 10), (7, 9)))
    return all(clock(c, 24) for c in offsets) and all(clock(c, MOST_HOURS[version]) for c in times) and all(day(d) for d in days)


def footer(line, version):
    if line == b"" or is_tz_string(line, version):
        return None
    return VERSION_3_ALONE if is_tz_string(line, b"3") else "footer is no POSIX TZ string"


def header(f, at):
    if len(f) < at + 44 or f[at:at + 4] != b"TZif" or f[at + 4:at + 5] not in (b"2", b"3"):
        return None
    return f[at + 4], struct.unpack(">6I", f[at + 20:at + 44])


def block(f, at, counts):
    """the reason to refuse the second data block, or None, and where it ends"""
    uts, stds, leaps, times, types, chars = counts
    if leaps != 0:
        return "leap-second records", 0
    if not 1 <= types <= 256 or times > 2048 or chars < 1 or stds not in (0, types) or uts not in (0, types):
        return "counts outside their limits", 0
    end = at + times * 9 + types * 6 + chars + stds + uts
    if len(f) < end:
        return "cut short", 0
    moments = struct.unpack(f">{times}q", f[at:at + 8 * times])
    if any(a >= b for a, b in zip(moments, moments[1:])):
        return "transitions do not rise", 0
    at += 8 * times
    if any(k >= types for k in f[at:at + times]):
        return "type number out of bounds", 0
    at += times
    for i in range(types):
        offset, dst, index = struct.unpack(">iBB", f[at + 6 * i:at + 6 * i + 6])
        if not -93599 <= offset <= 93599:
            return "offset out of bounds", 0
        if dst > 1:
            return "flag above 1", 0
        if index >= chars:
            return "abbreviation index out of bounds", 0
    if any(x > 1 for x in f[end - stds - uts:end]):
        return "flag above 1", 0
    return None, end


def judge(f):
    """the reason to refuse a file, or None"""
    first = header(f, 0)
    if first is None:
        return "no TZif file of version 2 or 3"
    version, (uts, stds, leaps, times, types, chars) = first
    at = 44 + times * 5 + types * 6 + chars + leaps * 8 + stds + uts
    second = header(f, at)
    if second is None or second[0] != version:
        return "no second header of the same version"
    reason, end = block(f, at + 44, second[1])
    if reason is not None:
        return reason
    tail = f[end:]
    if len(tail) < 2 or tail[:1] != b"\n" or tail[-1:] != b"\n" or b"\n" in tail[1:-1]:
        return "no line of a footer at the end"
    return footer(tail[1:-1], f[4:5])


def files_of(folder):
    out = []
    for path, _, names in os.walk(folder, followlinks=True):
        for n in names:
            full = os.path.join(path, n)
            if os.path.isfile(full):
                out.append((os.path.relpath(full, folder), open(full, "rb").read()))
    return sorted(out)


def damaged(files, n):
    rng = random.Random(1)
    good = [f for _, f in files if judge(f) is None]
    for k in range(n):
        f = bytearray(rng.choice(good))
        body = len(f) - 100 if k % 4 == 0 and len(f) > 100 else 0   # every fourth near the end, where the footer stands
        i = rng.randrange(max(body, 0), len(f))
        if k % 10 == 8:
            del f[i]
        elif k % 10 == 9:
            f.insert(i, rng.randrange(256))
        else:
            f[i] = rng.randrange(256) if k % 2 else (f[i] + rng.choice((1, 255))) % 256
        yield f"damaged/{k}", bytes(f)


NAMES = b"CET CEST ABC AB A <+03> <-02> <03> <AB> <> <+0-3> <ABC ABC> A1C abcdefghijklmnop <a.b> <A_B>".split() + [b"", b"<a b>"]
SIGNS = [b"", b"", b"", b"-", b"+", b"--", b"+-"]
CLOCKS = b"0 1 5 24 24:59:59 24:00 25 00 01 001 3:30 3:5 3:60 3:59:60 3:59:59 3: :30 3:30: 12:00:00:00 167 2a".split() + [b""]
WIDE = (b"-1 +2 26 50 -0:30 002 25 100 167 -167 167:59:59 -167:59:59 +167:59:59 -24 099 -000 +0:00:01 168 -168 +168 168:00:00 167:60 -167:59:60 0002 "
        b"-0002 +0000 200 999 1000 - + --1 +-1 -+1 -1:5 -1: -:30 1- -2a").split()
DAYS = (b"M3.5.0 M10.5.0 M1.1.1 M12.5.6 M13.1.1 M0.1.1 M3.0.1 M3.6.1 M3.5.7 M03.5.0 M3.05.0 M3.5.00 M003.1.1 M3.5 M3.5. M3..0 M J1 J365 J366 J0 "
        b"J060 J60 J0060 J 0 365 366 00 059 0059 59 X1").split() + [b""]


def a_footer(rng):
    def part(parts, good):
        return rng.choice(parts[:good]) if rng.random() < 0.6 else rng.choice(parts)
    line = part(NAMES, 3) + part(SIGNS, 5) + part(CLOCKS, 6)
    if rng.random() < 0.15:
        return line
    line += part(NAMES, 3)
    if rng.random() < 0.5:
        line += part(SIGNS, 5) + part(CLOCKS, 6)
    for _ in range(2 if rng.random() < 0.95 else rng.randrange(4)):
        line += (b"," if rng.random() < 0.97 else b"") + part(DAYS, 4)
        if rng.random() < 0.6:
            line += b"/" + (part(WIDE, 17) if rng.random() < 0.4 else (part(SIGNS, 3) if rng.random() < 0.3 else b"") + part(CLOCKS, 6))
    return line + (rng.choice([b" ", b",", b"/", b"x", b"\0"]) if rng.random() < 0.02 else b"")


def footed(n, version="2"):
    """files without a table, whose footers are good or bad: the same ones in every version"""
    rng = random.Random(2)
    head = b"TZif" + version.encode() + bytes(15) + struct.pack(">6I", 0, 0, 0, 0, 1, 4) + struct.pack(">iBB", 0, 0, 0) + b"ABC\0"
    for k in range(n):
        yield f"footer of version {version}/{k}", head + head + b"\n" + a_footer(rng) + b"\n"


def packs_of(files):
    now, size = [], 4
    for name, f in files:
        n = 8 + 1 + len(name.encode()) + len(f)
        if now and (size + n > 65536 or len(now) == 1000):   # three digits number a file of answers
            yield now
            now, size = [], 4
        now.append((name, f))
        size += n
    if now:
        yield now


def pack(files):
    records = [bytes([len(n.encode())]) + n.encode() + f for n, f in files]
    at = 4 + 8 * len(records)
    out = struct.pack(">I", len(records))
    for r in records:
        out += struct.pack(">II", at, len(r))
        at += len(r)
    return out + b"".join(records)


def answers(f, known={}):
    """pairs of a local second and its second"""
    if f not in known:
        zone = ZoneInfo.from_file(io.BytesIO(f))
        known[f] = b"".join(struct.pack(">qq", x, by_zoneinfo(zone, x)) for x in locals_of(*parse(f)))
    return known[f]


def next_answers(f, known={}):
    """pairs of a second and the next change after it"""
    if f not in known:
        zone = ZoneInfo.from_file(io.BytesIO(f))
        known[f] = b"".join(struct.pack(">qq", *p) for p in next_pairs(in_zone(zone), parse(f)[0]))
    return known[f]


ALL_YEARS = range(2, 10000)   # that zoneinfo can tell: its local times are in the years 1 to 9999
RANDOM = 5000   # seconds of a file
OLD, NEW = -2208988800, 4133980800   # 1900 and 2101: every other random second lies between them, where most tables have their transitions
MOST_PAIRS = 65536 // 16   # that the program reads of a file


def is_wide(f):
    """is it usable, though not with version 2 in its headers?"""
    return judge(f) is None and judge(in_version(f, b"2")) == VERSION_3_ALONE


def wide_pairs(f):
    """the number of changes, and pairs as answers and next_answers have them, about every change of a file and about random seconds"""
    zone, rng = ZoneInfo.from_file(io.BytesIO(f)), random.Random(3)
    off = in_zone(zone)
    changes = changes_of(off, parse(f)[0], ALL_YEARS)
    local, seconds = set(), set()
    for c in changes:
        before, after = off(c - 1), off(c)
        local |= {c + o + d for o in (before, after) for d in (-1, 0, 1)} | {c + (before + after) // 2}
        seconds |= {c - 1, c}
    for k in range(RANDOM):
        u = rng.randrange(changes[0], changes[-1]) if k % 2 else rng.randrange(max(OLD, changes[0]), NEW)
        seconds.add(u)
        local.add(u + off(u))
    pairs = [(x, by_zoneinfo(zone, x)) for x in sorted(local)]
    return len(changes), pairs + [(u + BEYOND, changes[bisect.bisect_right(changes, u)]) for u in sorted(seconds) if u < changes[-1]]


def report_wide(files, program):
    """compares the files that are usable by rule times of version 3: how many differ"""
    names = collections.defaultdict(list)
    for n, f in files:
        if is_wide(f):
            names[f].append(n)
    print(f"  usable by a rule time that version 3 alone has: {sum(map(len, names.values()))} files, {len(names)} of them different")
    wrong = 0
    for f, found in names.items():
        print("    " + " ".join(found))
        if program is None:
            continue
        changes, pairs = wide_pairs(f)
        parts = [pairs[i:i + MOST_PAIRS] for i in range(0, len(pairs), MOST_PAIRS)]
        texts = {f"{k}": b"".join(struct.pack(">qq", *p) for p in part) for k, part in enumerate(parts)}
        said = run(program, [(n, f) for n in texts], texts).values()
        equal, different = sum(x[1] for x in said), sum(x[2] for x in said)
        print(f"      {changes} changes, {RANDOM} random seconds: {equal} answers equal, {different} different")
        wrong += different != 0 or equal + different != len(pairs)
    return wrong


def run(program, files, asked):
    """what the program says of each file: whether it is usable, and how many of the answers asked for, by name, are equal and how many are not"""
    said = {}
    for part in packs_of(files):
        with tempfile.TemporaryDirectory() as d:
            open(os.path.join(d, "zones.bin"), "wb").write(pack(part))
            for k, (name, f) in enumerate(part):
                if name in asked:
                    open(os.path.join(d, f"answers-{k:03}.bin"), "wb").write(asked[name])
            out = subprocess.run([program], cwd=d, capture_output=True, check=True).stdout.decode()
        lines = out.splitlines()
        if len(lines) != len(part):
            sys.exit(f"{len(part)} files, {len(lines)} lines: {out[:200]}")
        for (name, f), line in zip(part, lines):
            m = re.fullmatch(re.escape(name) + r": (?:(refused)|usable(?:, (\d+) equal, (\d+) different)?)", line)
            if name in asked and m.group(1) is None and int(m.group(2)) + int(m.group(3)) != len(asked[name]) // 16:
                sys.exit(f"{name}: not all answers were compared")
            said[name] = m.group(1) is None, int(m.group(2) or 0), int(m.group(3) or 0)
    return said


def report(title, files, program, whole):
    judged = {n: judge(f) for n, f in files}
    reasons = collections.Counter(r for r in judged.values() if r is not None)
    print(f"{title}: {len(files)} files, {sum(r is None for r in judged.values())} usable")
    for r, n in sorted(reasons.items()):
        print(f"  refused, {r}: {n}")
        if whole:
            print("    " + " ".join(x for x in judged if judged[x] == r))
    wide = report_wide(files, program) if whole else 0
    if program is None:
        return 0
    asked = [(n, f) for n, f in files if whole and judged[n] is None]
    said = run(program, files, {n: answers(f) for n, f in asked})
    differ = [n for n in judged if said[n][0] != (judged[n] is None)]
    print(f"  the program judges {len(differ)} otherwise: {' '.join(differ)}")
    wrong = [n for n in judged if said[n][2] != 0]
    if whole:
        print(f"  answers: {sum(x[1] for x in said.values())} equal, {sum(x[2] for x in said.values())} different: {' '.join(wrong)}")
        said = run(program, files, {n: next_answers(f) for n, f in asked})
        late = [n for n in judged if said[n][2] != 0]
        print(f"  next changes: {sum(x[1] for x in said.values())} equal, {sum(x[2] for x in said.values())} different: {' '.join(late)}")
        wrong += late
    return len(differ) + len(wrong) + wide


def main(folder, program=None, more=0):
    found = files_of(folder)
    fit = [(n, f) for n, f in found if 4 + 8 + 1 + len(n.encode()) + len(f) <= 65536 and len(n.encode()) <= 64]
    for n, f in found:
        if (n, f) not in fit:
            print(f"left out, no record of a pack of 65,536 bytes: {n} ({len(f)} bytes)")
    program = program and os.path.abspath(program)
    differ = report(folder, fit, program, True)
    if more:
        differ += report("damaged", list(damaged(fit, more)), program, False)
        for version in ("2", "3"):
            differ += report(f"footers in version {version}", list(footed(more, version)), program, False)
    sys.exit(1 if differ else 0)


if __name__ == "__main__":
    if not 2 <= len(sys.argv) <= 4 or sys.argv[1].startswith("-"):
        sys.exit(__doc__)
    main(sys.argv[1], sys.argv[2] if len(sys.argv) > 2 else None, int(sys.argv[3]) if len(sys.argv) > 3 else 0)
