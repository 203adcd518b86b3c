"""The class that a difference between jiff and document 01 belongs to.

A class says what in the zone file makes the two differ, not which is right:
docs/DIFFERENCES.md has an input for each, with the sentence that decides. A
difference that has none of these causes near it belongs to no class.
"""

import functools
import os
import sys

sys.dont_write_bytecode = True  # no cache beside the sources
sys.path.insert(0, os.path.join(os.path.dirname(os.path.abspath(__file__)), "..", "tools"))

import second
import zone_survey
from second import DAY, FARTHEST
from zone_ask import FIRST_S, LAST_S, REFUSED, local_of

NO_CLASS = "no class"
STRAYS = "a footer's change lies outside its year"
LEAP_DAY = "a footer's day 365 in a common year, with its change inside that year"
TIE = "a footer's two changes at one instant"
ORDER = "a footer's two changes come in another order in the years beside"
WALL = "a footer's two changes come in another order by local time than by UTC"
CLOSE = "two changes so close that local times of both overlap"
BEYOND = "a transition beyond the range"
EARLY = "a footer without transitions, before its first change of the year -9999"
LASTING = "a footer that disagrees with the last transition, up to its first change"
REACH = 2 * FARTHEST + 2  # how far from a local time its changes may lie


@functools.lru_cache(maxsize=1)
def zone_of(file):
    return second.read_zone(file)


@functools.lru_cache(maxsize=1)
def judged(file):
    return zone_survey.judge(file)


def class_of(file, line, their, our, reason):
    """The class of a line that jiff and document 01 answer differently."""
    word = line.split()[0]
    if our == REFUSED:
        return f"{word}: taken by jiff, refused by document 01: {judged(file)}"
    zone = zone_of(file)
    if their == REFUSED:
        return f"{word}: refused by jiff: {refused_for(zone, reason)}"
    if word == "local":
        return f"local: {of_local(zone, local_of(line))}"
    at = int(line.split()[1])
    if word == "change":
        return f"change: {of_change(zone, at, int(their) if their != 'none' else None)}"
    return f"offset: {of_instant(zone, at)}"


def refused_for(zone, reason):
    """jiff checks the footer against the last transition, and against those
    that it works out itself up to 2037, at most 301 of them."""
    if "inconsistency" not in reason:
        return f"{NO_CLASS}: {reason}"
    if not zone.times:
        return "footer without transitions that disagrees with the changes worked out from it"
    return "footer that disagrees with the last transition"


def of_instant(zone, at):
    if is_ruled(zone) and at < footer_change(zone):
        if not zone.times:
            return EARLY
        if at >= zone.times[-1] and zone.types[zone.numbers[-1]] != zone.footer.offset(zone.times[-1]):
            return LASTING
    if at == LAST_S and any(time > LAST_S for time in zone.times):
        return BEYOND
    if is_ruled(zone) and (not zone.times or at >= zone.times[-1]):
        return of_years(zone.footer, second.year_of(at // DAY))
    return NO_CLASS


def of_change(zone, at, told):
    if told is not None and told <= at:
        return "one that is past: no footer, and no transition is left"
    if told == LAST_S and any(time > LAST_S for time in zone.times):
        return BEYOND
    if told is not None and zone.offset(told - 1) == zone.offset(told):
        known = told in zone.times or told in (zone.footer.instants(told - 1, told) if zone.footer else ())
        return "one that leaves the offset as it was" if known else of_instant(zone, told)
    return of_instant(zone, at)


@functools.lru_cache(maxsize=1)
def footer_change(zone):
    """The footer's first change behind the table, or behind the first instant."""
    low = zone.times[-1] if zone.times else FIRST_S
    found = zone.footer.instants(low, low + 800 * DAY) if low <= LAST_S else ()
    return min(found, default=LAST_S + 1)


def of_local(zone, local):
    if is_ruled(zone) and local < footer_change(zone) + FARTHEST:
        title = of_instant(zone, max([*zone.times[-1:], FIRST_S]))
        if title in (EARLY, LASTING) and local >= max([*zone.times[-1:], FIRST_S]) - FARTHEST:
            return title
    found = [time for time in zone.times if abs(time - local) <= REACH]
    found = sorted(set(found + zone.changes(local - REACH, local + REACH)))
    if any(overlap(zone, *pair) for pair in zip(found, found[1:])):
        return CLOSE
    if any(time > LAST_S or time < FIRST_S for time in zone.times):
        return BEYOND
    title = of_years(zone.footer, second.year_of(local // DAY)) if is_ruled(zone) else NO_CLASS
    return CLOSE if title == NO_CLASS and is_overtaken(zone, local) else title


def is_overtaken(zone, local):
    """Whether a change that the footer has before the last transition, where it
    does not rule yet, reads or jumps over a local time: jiff asks the footer about
    all local times behind that transition."""
    if not is_ruled(zone) or not zone.times:
        return False
    least, greatest = min(zone.footer.offsets()), max(zone.footer.offsets())
    last = min(max(zone.times[-1], FIRST_S), LAST_S)
    return any(at + least <= local < at + greatest for at in zone.footer.instants(last - REACH, last))


def overlap(zone, one, two):
    """Whether a local time is read or jumped over by both of two changes."""
    return two + min(zone.offset(two - 1), zone.offset(two)) < one + max(zone.offset(one - 1), zone.offset(one))


def is_ruled(zone):
    return zone.footer is not None and zone.footer.daylight is not None


@functools.lru_cache(maxsize=10_000)
def of_years(footer, year):
    """What is odd about a footer's changes near a year, told in UTC (offsets,
    and the changes that jiff works out up to 2037) and in local time."""
    years = range(year - 2, year + 2)
    instants = [at for near in years for at, _ in footer.of_year(near)]
    if len(set(instants)) < len(instants):
        return TIE
    if any(second.year_of(at // DAY) != near for near in years for at in seconds_told(footer, near)):
        return STRAYS
    if any(lacks_day(rule, near) for near in years for rule in footer.rules):
        return LEAP_DAY
    orders = {order(footer, near) for near in years}
    if len({by_utc for by_utc, _ in orders}) > 1:
        return ORDER
    return WALL if any(by_utc != by_clock for by_utc, by_clock in orders) else NO_CLASS


def lacks_day(rule, year):
    """Whether a rule's day is no day of a year: 365 in a common one. jiff then
    takes the year's last moment, whatever the rule's time."""
    form, numbers, _ = rule
    return form == "n" and numbers[0] == 365 and not second.is_leap(year)


def order(footer, year):
    """Whether daylight time starts before it ends in a year: by UTC, and by the
    local times that the rules tell, where jiff takes equal ones in this order."""
    start, end = (at for at, _ in footer.of_year(year))
    return start < end, start + footer.standard <= end + footer.daylight


def seconds_told(footer, year):
    """A year's changes, as instants and as local times by either offset."""
    found = [at for at, _ in footer.of_year(year)]
    return found + [at + offset for at in found for offset in footer.offsets()]
