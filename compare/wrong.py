#!/usr/bin/env python3
"""Tries the cases' sharpness: wrong second implementations must differ.

Usage: wrong.py SEED COUNT [--family NAME] [NAME..]

Each entry of WRONG changes one place of second.py into a mistake that is easy
to make. COUNT cases from SEED, of a mix or of one family of generate.py, are
answered by second.py and by each wrong one, or by those that are named. Printed
is the first case whose lines, with the bounds of their window counts, tell them
apart. A mistake that no case shows is one that the comparison with these cases
would not find.
"""

import os
import re
import signal
import sys
import tempfile

sys.dont_write_bytecode = True

PATIENCE = 20  # seconds for a line
HERE = os.path.dirname(os.path.abspath(__file__))

# name: (what stands in second.py, what the wrong one has)
WRONG = {
    "gap equal to the limit refused, add": ("if start - worked > self.limit", "if start - worked >= self.limit"),
    "gap equal to the limit refused, next": ("if pieces[0][0] - origin > self.limit", "if pieces[0][0] - origin >= self.limit"),
    "gap to the window's end, add": ("if high - worked > self.limit", "if high - worked >= self.limit"),
    "gap to the window's end, next": ("if found is None and high - origin > self.limit", "if found is None and high - origin >= self.limit"),
    "no date after the window": ("if last + 1 <= LAST_DATE:", "if False:"),
    "one date back": ("            first -= 2", "            first -= 1"),
    "two dates back by one": ("        if first - 2 >= FIRST_DATE:\n            first -= 2", "        first = max(FIRST_DATE, first - 2)"),
    "start instead of end for the last date": ("last = self.date_at(high)", "last = self.date_at(high - 1)"),
    "changes of two years back not seen": ("range(year - 3, year + 3)", "range(year - 1, year + 3)"),
    "changes of the next year not seen": ("range(year - 3, year + 3)", "range(year - 3, year + 1)"),
    "standard time on a tie": ("latest = changes[bisect_right(changes, (second, True)) - 1]",
                               "latest = [c for c in changes if c[0] <= second]; latest = min(c for c in latest if c[0] == latest[-1][0])"),
    "later of repeated times": ("sorted(known, reverse=True)", "sorted(known)"),
    "latest jump": ("for change in self.changes(local - FARTHEST - 1, local + FARTHEST):",
                    "for change in reversed(self.changes(local - FARTHEST - 1, local + FARTHEST)):"),
    "offset after a jump": ("                return local - before", "                return local - after"),
    "last transition's own type": ("if place == len(self.times):", "if place == len(self.times) and second not in self.times[-1:]:"),
    "footer before the table": ("return self.types[self.numbers[place - 1] if place else 0]",
                                "return self.types[self.numbers[place - 1]] if place else (self.footer.offset(second) if self.footer else self.types[0])"),
    "repeated dates counted": ("sum(len(rule.dates) for rule in holidays)", "sum(len(r[3]) for r in records if r[0] == 3)"),
    "same date in two records counted once": ("sum(len(rule.dates) for rule in holidays)", "len({d for rule in holidays for d in rule.dates})"),
    "period cut from the instant given": ("min(found[1], found[0] + self.limit)", "min(found[1], origin + self.limit)"),
    "period not cut": ("min(found[1], found[0] + self.limit)", "found[1]"),
    "pieces at a border not joined": ("elif found and pieces and pieces[0][0] == found[1]:", "elif False:"),
    "listing's pieces not joined": ("if found and found[-1][1] == start:", "if False:"),
    "holidays count in build": ("        self.holidays = []\n        if not", "        self.holidays = holidays\n        if not"),
    "build looks at 7 days": ("BUILD_START + 2 * WINDOW", "BUILD_START + WINDOW"),
    "first default wins": ("for kind, place, name, _ in reversed(records):", "for kind, place, name, _ in records:"),
    "rules looked up before the default": ("                default = zones.zone(name, place)\n",
                                           "                [zones.zone(r[2], r[1]) for r in records if r[0] and r[2]]\n                default = zones.zone(name, place)\n"),
    "J60 without the leap day": ("numbers[0] >= 60", "numbers[0] > 60"),
    "day 365 kept in the year": ("day = new_year(year) + numbers[0]\n", "day = min(new_year(year) + numbers[0], new_year(year + 1) - 1)\n"),
    "folding by | 32": ("c + 32 if 65 <= c <= 90 else c", "c | 32 if c < 128 else c"),
    "one window for between": ("high = min(low + WINDOW, b)\n            whole", "high = b\n            whole"),
    "test span of 10 days": ("REACH = 11 *", "REACH = 10 *"),
    "change at the span's start counts": ("found = self.changes(low, far)\n            self.calm = (low,", "found = self.changes(low - 1, far)\n            self.calm = (low - 1,"),
    "change at the span's end doesn't count": ("return high <= self.calm[1]", "return high - 1 <= self.calm[1]"),
    "holiday zones' changes count": ("for rule in self.work + self.breaks))", "for rule in self.work + self.breaks + holidays))"),
    "break zones' changes don't count": ("for rule in self.work + self.breaks))", "for rule in self.work))"),
    "lower border for sub": ("self.skippable(sign, sign * low)", "self.skippable(sign, min(sign * low, sign * high))"),
    "skip with as much left": ("(left - 1) // known[0]", "left // known[0]"),
    "add lands on the next start": ("if left <= end - start:", "if left < end - start:"),
    "negating -2^63 s": ("if numbers[2] == -(2**63):", "if False:"),
    "clamps to the last instant": ("return FIRST if date < new_year(0) else LAST", "return LAST"),
    "second reading inside the range": ("        instant = self.reading(local // NANO) * NANO + local % NANO\n",
                                        "        seconds = [local // NANO - o for o in self.descending if self.offset(local // NANO - o) == o]\n"
                                        "        inside = [s * NANO + local % NANO for s in seconds if FIRST <= s * NANO + local % NANO <= LAST]\n"
                                        "        instant = inside[0] if inside else self.reading(local // NANO) * NANO + local % NANO\n"),
    "equal times make none": ("ending = date + 1 if self.end <= self.start else date", "ending = date + 1 if self.end < self.start else date"),
    "holiday of 24 hours": ("end = self.zone.resolve(date + 1, 0) if date < LAST_DATE else LAST", "end = min(start + DAY * NANO, LAST)"),
    "limit before layout": ("        records = [read_record(*record) for record in directory(data)]",
                            "        records = directory(data)\n        if len(records) > 64:\n            raise Refusal(2)\n        records = [read_record(*record) for record in records]"),
    "pack's layout not checked": ("        raise Refusal(3) from None", "        return []"),
    "duration before instant": ("    first = read_instant(*numbers[:2])\n", "    if word in ('add', 'sub'):\n        read_duration(*numbers[2:])\n    first = read_instant(*numbers[:2])\n"),
    "sign on a rule's time in version 2": ("            return self.clock(2, 24)\n", "            self.take(rb'[+]?')\n            return self.clock(2, 24)\n"),
    "wide rule times in version 2": ('if self.version != b"3":', "if False:"),
    "no wide rule times in version 3": ('if self.version != b"3":', "if True:"),
    "three digits of hours in version 2": ("            return self.clock(2, 24)\n", "            return self.clock(3, 24)\n"),
    "sign of a rule's time for the hours alone": ("return -time if sign == b\"-\" else time",
                                                  "return time - 2 * (time // 3600 * 3600) if sign == b\"-\" else time"),
    "no plus on a rule's time": ("        sign = self.take(rb\"[+-]?\").group()\n        time", "        sign = self.take(rb\"-?\").group()\n        time"),
    "minus on a rule's time not counted": ("return -time if sign == b\"-\" else time", "return time"),
    "rule times up to 168 hours": ("time = self.clock(3, 167)", "time = self.clock(3, 168)"),
    "rule times up to 166 hours": ("time = self.clock(3, 167)", "time = self.clock(3, 166)"),
    "rule times of two digits": ("time = self.clock(3, 167)", "time = self.clock(2, 167)"),
    "rule times of four digits": ("time = self.clock(3, 167)", "time = self.clock(4, 167)"),
    "wide offsets in version 3": ("return self.clock(2, 24) if sign == b\"-\" else -self.clock(2, 24)",
                                  "most = (3, 167) if self.version == b\"3\" else (2, 24); return self.clock(*most) if sign == b\"-\" else -self.clock(*most)"),
    "changes kept in their year": ("    return day * DAY + time\n", "    return min(max(day * DAY + time, new_year(year) * DAY), new_year(year + 1) * DAY)\n"),
    "leap records of 12 bytes in the first block": ("read_header(data, 0, None, 4, 8)", "read_header(data, 0, None, 4, 12)"),
    "indicators not checked": ("if any(flag > 1 for flag in data[at:end]):", "if False:"),
    "versions may differ": ("if version is not None and data[at + 4] != version:", "if False:"),
    "bad line after a book's refusal": ("            if query is None:\n", "            if query is None and not refused:\n"),
    "leading zeros refused": ('NUMBER = re.compile(rb"-?[0-9]+', 'NUMBER = re.compile(rb"-?(?:0|[1-9][0-9]*)'),
}


def load(source):
    module = {"__name__": "second"}
    exec(compile(source, "second.py", "exec"), module)
    return module


def answers(module, case):
    """All lines of a case, the listing's too."""
    def read(name):
        return module["read_file"](os.path.join(case, name))

    refused = schedule = None
    try:
        schedule = module["Schedule"](read("book.bin"), read("zones.bin"))
    except module["Refusal"] as refusal:
        refused = refusal
    out = []
    for name in ("queries.txt", "listing.txt"):
        for line in read(name).split(b"\n"):
            query = module["read_line"](line, name == "listing.txt")
            try:
                signal.setitimer(signal.ITIMER_VIRTUAL, PATIENCE)
                if query is None and not (refused and module["wrong"]):
                    out.append("bad")
                elif refused:
                    raise refused
                else:
                    out.append(module["answer"](schedule, *query, True))
            except module["Refusal"] as refusal:
                out.append(f"no {refusal.number} {refusal.place}")
            except Exception as other:  # a wrong one may also fall over
                out.append(f"failed: {other!r}")
    signal.setitimer(signal.ITIMER_VIRTUAL, 0)
    return out


def too_long(*_):
    raise TimeoutError("too long")


def main(seed, count, title, wanted):
    sys.path.insert(0, HERE)
    import generate

    family = generate.family_of(title)
    if title and not family:
        sys.exit(f"{title}: no family of generate.py")
    signal.signal(signal.SIGVTALRM, too_long)

    with open(os.path.join(HERE, "second.py"), encoding="utf-8") as file:
        source = file.read()
    right = load(source)
    right["wrong"] = False
    missed = 0
    with tempfile.TemporaryDirectory() as folder:
        for place in range(count):
            generate.write_case(seed, place, folder, "/usr/share/zoneinfo", family)
        cases = [os.path.join(folder, name) for name in sorted(os.listdir(folder))]
        told = [answers(right, case) for case in cases]
        for name, (stands, has) in WRONG.items():
            if wanted and name not in wanted:
                continue
            if source.count(stands) != 1:
                sys.exit(f"{name}: {stands!r} stands {source.count(stands)} times in second.py")
            module = load(source.replace(stands, has))
            module["wrong"] = "not refused" in has
            for case, expected in zip(cases, told):
                lines = sum(a != b for a, b in zip(expected, answers(module, case)))
                if lines:
                    print(f"{name}: {lines} lines of {os.path.basename(case)}", flush=True)
                    break
            else:
                missed += 1
                print(f"{name}: NOT SEEN", flush=True)
    print(f"{sum(map(len, told))} lines; {missed} mistakes not seen")


if __name__ == "__main__":
    if len(sys.argv) < 3 or not re.fullmatch("[0-9]+", sys.argv[2]):
        sys.exit("usage: wrong.py SEED COUNT [--family NAME] [NAME..]")
    names, title = sys.argv[3:], None
    if names[:1] == ["--family"]:
        title, names = names[1], names[2:]
    main(sys.argv[1], int(sys.argv[2]), title, names)
