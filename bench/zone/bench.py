#!/usr/bin/env python3
"""Makes the local times, times Python's zoneinfo on them, and prints the table.

usage: bench.py locals ZONEINFO NAME FROM TO COUNT     local seconds in the years FROM to TO, one to a line
       bench.py zoneinfo ZONEINFO NAME LOCALS BATCHES  "second NS SUM" and "offset NS SUM", as bench.c writes them
"""
import datetime, os, random, sys, time
from zoneinfo import ZoneInfo

EPOCH = datetime.datetime(1970, 1, 1)


def zone_of(folder, name):
    return ZoneInfo.from_file(open(os.path.join(folder, name), "rb"))


def locals_of(folder, name, first, last, count):
    """times at random, without those that repeat or are skipped: there each library has a rule of its own"""
    rng = random.Random(1)
    zone = zone_of(folder, name)
    lo = int((datetime.datetime(first, 1, 1) - EPOCH).total_seconds())
    hi = int((datetime.datetime(last + 1, 1, 1) - EPOCH).total_seconds())
    while count:
        x = rng.randrange(lo, hi)
        wall = EPOCH + datetime.timedelta(seconds=x)
        if wall.replace(tzinfo=zone, fold=0).utcoffset() == wall.replace(tzinfo=zone, fold=1).utcoffset():
            print(x)
            count -= 1


def total(numbers):
    s = 0
    for x in numbers:
        s = s * 31 + x
        s = s % 1000000007 if s >= 0 else -(-s % 1000000007)   # as C takes remainders
    return s


def zoneinfo(folder, name, path, batches):
    zone = zone_of(folder, name)
    walls = [(EPOCH + datetime.timedelta(seconds=int(x))).replace(tzinfo=zone) for x in open(path)]
    utc = datetime.timezone.utc
    instants = [w.astimezone(utc).replace(tzinfo=zone) for w in walls]
    best = [float("inf")] * 2
    for _ in range(batches):
        t = time.thread_time()
        offs = [w.utcoffset() for w in walls]
        best[0] = min(best[0], time.thread_time() - t)
        t = time.thread_time()
        back = [zone.fromutc(i) for i in instants]
        best[1] = min(best[1], time.thread_time() - t)
    seconds = [int((w.replace(tzinfo=None) - o - EPOCH).total_seconds()) for w, o in zip(walls, offs)]
    offsets = [int((b.replace(tzinfo=None) - i.replace(tzinfo=None)).total_seconds()) for b, i in zip(back, instants)]
    print(f"second {best[0] / len(walls) * 1e9:.1f} {total(seconds)}")
    print(f"offset {best[1] / len(walls) * 1e9:.1f} {total(offsets)}")


if __name__ == "__main__":
    if sys.argv[1] == "locals":
        locals_of(sys.argv[2], sys.argv[3], *(int(x) for x in sys.argv[4:7]))
    else:
        zoneinfo(sys.argv[2], sys.argv[3], sys.argv[4], int(sys.argv[5]))
