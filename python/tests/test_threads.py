"""Eight threads at once give the answers of one; Python's lock is released during a call."""

import threading
import time
import unittest
from concurrent.futures import ThreadPoolExecutor
from datetime import timedelta

from hirgwamo import Clock, Duration, Zone, numbers

from .stored import BERLIN_FILE, HOUR, MONDAY, NO_PACK, OFFICE, SAMPLE, at

THREADS = 8
ROUNDS = 40
LONG = 10  # queries over the whole range, which make a call of about half a second
DAY = timedelta(days=1)


def asked(clock, zone, seed):
    """Some answers of all calls, which another seed changes."""
    t = at(MONDAY + seed * 97 * HOUR, seed)
    d = Duration(hours=seed, nanoseconds=seed)
    log = [(timedelta(hours=k * 7), timedelta(hours=5)) for k in range(seed % 9)]
    told = [clock.between(t, t + 40 * DAY), clock.add(t, d), clock.sub(t, d), clock.next_period(t), clock.previous_period(t)]
    told += [clock.next_period_marked(t), clock.previous_period_marked(t)]
    told += [clock.list(t, t + 300 * DAY), clock.hardest(t, log, DAY), zone.offset(t), zone.next_change(t)]
    return told + [zone.resolve(t.replace(tzinfo=None, **({"nanosecond": 0} if seed % 1000 else {})), seed)]


class Threads(unittest.TestCase):
    def test_eight_threads(self):
        clocks = [Clock((SAMPLE / "book.bin").read_bytes(), (SAMPLE / "zones.bin").read_bytes()), Clock(OFFICE, NO_PACK)]
        zone, barrier = Zone(BERLIN_FILE), threading.Barrier(THREADS)
        expected = {(k, seed): asked(clocks[k], zone, seed) for k in range(2) for seed in range(ROUNDS)}
        self.assertGreater(len({repr(told) for told in expected.values()}), ROUNDS)

        def work(thread):
            barrier.wait()
            order = [(k, (seed + 5 * thread) % ROUNDS) for seed in range(ROUNDS) for k in range(2)]
            return [key for key in order if asked(clocks[key[0]], zone, key[1]) != expected[key]]

        with ThreadPoolExecutor(THREADS) as pool:
            self.assertEqual([*pool.map(work, range(THREADS))], [[]] * THREADS)

    def test_the_lock_is_released(self):
        """While a long call runs in another thread this one goes on: its longest pause is short against the call."""
        book, pack, lengths = (SAMPLE / "book.bin").read_bytes(), (SAMPLE / "zones.bin").read_bytes(), []
        queries = [(numbers.BETWEEN, *numbers.FIRST, *numbers.LAST)] * LONG

        def call():
            started = time.monotonic()
            numbers.answers(book, pack, queries)
            lengths.append(time.monotonic() - started)

        thread, longest, seen = threading.Thread(target=call), 0.0, time.monotonic()
        thread.start()
        while thread.is_alive():
            now = time.monotonic()
            longest, seen = max(longest, now - seen), now
            time.sleep(0.001)
        thread.join()
        self.assertGreater(lengths[0], 0.05)
        self.assertLess(longest, lengths[0] / 2)
