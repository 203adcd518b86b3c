#!/usr/bin/env python3
"""Tries the sharpness of stored tickets: wrong tickets must differ.

Usage: wrong_tickets.py FILE [NAME..]

FILE is a tickets.bin. Each entry of WRONG changes one place of second.py, or some that
belong together, into a mistake that is easy to make; second.py with it, or with each of
those that are named, is given the commands of FILE, case by case. Printed is the first
command to which the answer is not the stored one, and how many there are. Ends with 1
if second.py itself differs, or if a mistake is not seen.
"""

import os
import sys

sys.dont_write_bytecode = True  # no cache beside the sources

import second
from tickets import NEW, WORDS, answer, built, is_yearly, read_cases
from wrong import HERE, load
from wrong_hardest import joined

TOO_LONG = 40 * 365 * second.DAY * second.NANO

# What stands in second.py
COMMANDS = "        self.commands = []  # word, name, instant\n"
PLACES = 'places = [place for place in range(end) if self.commands[place][:2] == ("mark", name)]'
LATEST = "return places[-1] if places else -1"
BEFORE = 'return self.latest_mark(name, place) if word == "back" else place - 1'
STATES = 'states = [HELD if word == "hold" else RUNNING for word in words if word not in ("mark", "back")]'
WORDS_LEFT = "words = [self.commands[place][0] for place in self.remaining()]"
STARTS = "return self.state() == NEW"
HOLDS = "return self.state() == RUNNING"
RESUMES = "return self.state() == HELD"
MARKS = "return self.state() != NEW and 0 <= name < NAMES"
BACKS = "return self.latest_mark(name, len(self.commands)) in self.remaining()"
EARLIER = "        if self.commands and instant < self.commands[-1][2]:\n            raise Refusal(13)\n"
ALLOWED = "        if not self.allows(word, name):\n            raise Refusal(14)\n"
SPELLS_OF = "for place in self.remaining():\n            word, _, instant"
BEGUN = '            if word in ("start", "resume"):\n                since = instant\n'
ENDED = "                found.append((since, instant))\n                since = None\n"
SET_BACK = '            elif word == "back" and since is not None:\n                found.append((since, at))\n                since = instant\n'
ALL_SPELLS = "return found if since is None else found + [(since, at)]"
REFUSED = "    if refused:\n        raise refused\n    name = "
NAME = 'name = numbers[0] if word in ("mark", "back") else None'
INSTANT = "ticket.take(word, name, read_instant(*numbers[-2:]))"
TIME = "sum(schedule.between(*spell)[0] for spell in ticket.spells())"
# Parts of mistakes
MARK_SPLITS = '            elif word == "mark" and since is not None:\n                found.append((since, instant))\n                since = instant\n'
RESTORED = '            elif word == "back":\n                found += [] if since is None else [(since, at)]\n                since = '
HOLD_TWICE = "                found += [] if since is None else [(since, instant)]\n                since = None\n"
LAST_TOLD = 'instant < getattr(self, "last", self.commands[-1][2])'

# name: (what stands in second.py, what the wrong one has; and so on)
WRONG = {
    # spells
    "marking splits the spell": (SET_BACK, MARK_SPLITS + SET_BACK),
    "a spell that a set-back begins is split by marking": (SET_BACK, MARK_SPLITS.replace("is not None", "is not None and found") + SET_BACK),
    "a spell that ended at a mark is split by marks before it": (SET_BACK, SET_BACK.replace("found.append((since, at))", "found += parts(self, since, at)")),
    "a spell that a hold ended is split by marks before it": (ENDED, ENDED.replace("found.append((since, instant))", "found += parts(self, since, instant)")),
    "one spell where a set-back has the mark's instant": (SET_BACK, SET_BACK.replace("is not None", "is not None and instant != at")),
    "one spell where a resumption has the hold's instant": (BEGUN, BEGUN + "                since = found.pop()[0] if found and found[-1][1] == instant else since\n"),
    "spells that touch joined": (ALL_SPELLS, "return joined(found if since is None else found + [(since, at)])"),
    "counts on from the mark's instant in one spell": (SET_BACK, ""),
    "counts on from the mark's instant in another spell": (SET_BACK, SET_BACK.replace("since = instant", "since = at")),
    "a spell that ran at the mark goes on to the set-back": (SET_BACK, SET_BACK.replace("(since, at)", "(since, instant)")),
    "a spell that ran at the mark is lost": (SET_BACK, SET_BACK.replace("                found.append((since, at))\n", "")),
    "a spell that ran at the mark is kept from its beginning alone": (SET_BACK, SET_BACK.replace("(since, at)", "(since, since)")),
    "counts on at the next command after a set-back": (SET_BACK, SET_BACK.replace("since = instant", "since = None")),
    "the spell that runs is not counted": (ALL_SPELLS, "return found"),
    "the spell that runs is not counted at a mark": (ALL_SPELLS, 'return found if since is None or word == "mark" else found + [(since, at)]'),
    "the last spell alone": (ALL_SPELLS, "return (found if since is None else found + [(since, at)])[-1:]"),
    "holds counted": (ALL_SPELLS, "return [(self.commands[0][2], at)]"),
    "the time up to the mark counted without its holds": (SET_BACK, SET_BACK.replace("found.append((since, at))", "found = [(self.commands[0][2], at)]")),
    "what was dropped counted": (SPELLS_OF, SPELLS_OF.replace("self.remaining()", "range(len(self.commands))")),
    "what was dropped counted at the set-back itself": (SPELLS_OF, SPELLS_OF.replace("self.remaining()", "undropped(self)")),
    "time of any kind": (TIME, "sum(end - start for start, end in ticket.spells())"),
    "whole seconds of each spell": (TIME, "sum(schedule.between(*spell)[0] // NANO * NANO for spell in ticket.spells())"),
    # states
    "running after every set-back": (STATES, STATES.replace('not in ("mark", "back")', '!= "mark"'), SET_BACK, RESTORED + "instant\n"),
    "held after every set-back": (STATES, 'states = [HELD if word in ("hold", "back") else RUNNING for word in words if word != "mark"]', SET_BACK, RESTORED + "None\n"),
    "state not restored": (WORDS_LEFT, "words = [command[0] for command in self.commands]", SET_BACK, RESTORED + "instant if runs_before(self, place) else None\n"),
    "start allowed twice": (STARTS, "return True"),
    "start allowed on a running ticket": (STARTS, "return self.state() != HELD"),
    "start allowed on a held ticket": (STARTS, "return self.state() != RUNNING"),
    "start allowed again after a set-back": (STARTS, 'return self.state() == NEW or self.commands[-1][0] == "back"'),
    "resume allowed on a new ticket": (RESUMES, "return self.state() != RUNNING"),
    "resume allowed on a running ticket": (RESUMES, "return self.state() != NEW"),
    "resume allowed on a running ticket, which runs on": (RESUMES, "return self.state() != NEW", BEGUN, BEGUN.replace("since = instant", "since = instant if since is None else since")),
    "hold allowed on a held ticket": (HOLDS, "return self.state() != NEW", ENDED, HOLD_TWICE),
    "hold allowed on a new ticket": (HOLDS, "return self.state() != HELD", ENDED, HOLD_TWICE),
    "hold refused at the instant of the command before": (ALLOWED, ALLOWED.replace("name):", 'name) or word == "hold" and instant == self.commands[-1][2]:')),
    "marking allowed on a new ticket": (MARKS, "return 0 <= name < NAMES"),
    "marking refused on a held ticket": (MARKS, MARKS.replace("!= NEW", "== RUNNING")),
    "marking refused on a running ticket": (MARKS, MARKS.replace("!= NEW", "== HELD")),
    "set-back refused on a held ticket": (BACKS, BACKS + " and self.state() == RUNNING"),
    "set-back refused on a running ticket": (BACKS, BACKS + " and self.state() == HELD"),
    "set-back refused to a mark of the other state": (BACKS, BACKS + " and self.state() == state_at(self, self.latest_mark(name, len(self.commands)))"),
    "set-back refused right after a set-back": (BACKS, BACKS + ' and self.commands[-1][0] != "back"'),
    # marks
    "a set-back keeps later marks": (BACKS, "return self.latest_mark(name, len(self.commands)) >= 0"),
    "a set-back keeps later marks of its instant": (BACKS, "return name in table(self, lambda mark, gone: mark[1] > gone[1])"),
    "a set-back drops earlier marks of its instant": (BACKS, "return name in table(self, lambda mark, gone: mark[1] >= gone[1] and mark != gone)"),
    "a set-back drops its own mark": (BACKS, "return name in table(self, lambda mark, gone: mark[0] >= gone[0])"),
    "a set-back drops all other marks": (BACKS, "return name in table(self, lambda mark, gone: mark != gone)"),
    "a set-back drops no mark but one set right after its own": (BACKS, "return name in table(self, lambda mark, gone: gone[0] < mark[0] <= gone[0] + 1)"),
    "a set-back drops the marks of greater names": (BACKS, "return name in table(self, lambda mark, gone: mark[2] > gone[2])"),
    "a set-back to the latest mark, whatever its name": (BEFORE, 'return max(self.latest_mark(other, place) for other in range(NAMES)) if word == "back" else place - 1'),
    "an earlier place comes back": (PLACES, PLACES.replace("range(end)", "left_before(self, end)")),
    "a mark set again does not move": (PLACES, PLACES.replace("range(end)", "left_before(self, end)"), LATEST, "return places[0] if places else -1"),
    "a name's first place for good": (LATEST, "return places[0] if places else -1"),
    "a mark set again keeps its order": (BACKS, "return name in table(self, lambda mark, gone: mark[0] > gone[0], lambda mark, instant: True)"),
    "a mark set again at its own instant keeps its order": (BACKS, "return name in table(self, lambda mark, gone: mark[0] > gone[0], lambda mark, instant: mark[1] == instant)"),
    "a mark set again drops those set between": (BACKS, "return name in table(self, lambda mark, gone: mark[0] > gone[0], clears=True)"),
    "a mark set again refused": (MARKS, MARKS + " and self.latest_mark(name, len(self.commands)) not in self.remaining()"),
    "name 0 refused": (MARKS, MARKS.replace("0 <= name", "0 < name")),
    "name 7 refused": (MARKS, MARKS.replace("< NAMES", "< NAMES - 1")),
    "name 8 allowed": (MARKS, MARKS.replace("< NAMES", "<= NAMES")),
    "any name allowed": (MARKS, "return self.state() != NEW"),
    "any name allowed in marking, which sets none": (MARKS, "return self.state() != NEW", PLACES, PLACES.replace('("mark", name)', '("mark", name) and name < NAMES')),
    "names modulo 8": (NAME, NAME.replace("numbers[0]", "numbers[0] % NAMES")),
    "names of 8 bits": (NAME, NAME.replace("numbers[0]", "numbers[0] % 2**8")),
    "names of 32 bits": (NAME, NAME.replace("numbers[0]", "numbers[0] % 2**32")),
    # instants
    "an equal instant refused": (EARLIER, EARLIER.replace("instant < ", "instant <= ")),
    "an equal instant refused for a set-back": (EARLIER, EARLIER.replace("instant < self.commands[-1][2]", 'instant < self.commands[-1][2] + (word == "back")')),
    "nanoseconds not compared": (EARLIER, EARLIER.replace("instant < self.commands[-1][2]", "instant // NANO < self.commands[-1][2] // NANO")),
    "the last instant set back": (EARLIER, EARLIER.replace("self.commands[-1][2]", "self.commands[mark_of_last(self)][2]")),
    "the last instant that of the last hold, resumption or start": (EARLIER, EARLIER.replace("self.commands[-1][2]", "last_but_marks(self)")),
    "the last instant not moved by a mark": (EARLIER, EARLIER.replace("self.commands[-1][2]", '([c[2] for c in self.commands if c[0] != "mark"][-1])')),
    "instants compared with the start's": (EARLIER, EARLIER.replace("self.commands[-1][2]", "self.commands[0][2]")),
    "instants not compared": (EARLIER, ""),
    "a set-back's instant not compared": (EARLIER, EARLIER.replace("if self.commands", 'if word != "back" and self.commands')),
    "a set-back's instant compared with its mark's": (EARLIER, EARLIER.replace("self.commands[-1][2]", "compared(self, word, name)")),
    "the first instant refused": (INSTANT, INSTANT.replace("read_instant(*numbers[-2:])", "read_instant(*numbers[-2:]) if numbers[-2:] != [FIRST // NANO, 0] else read_instant(0, -1)")),
    "the last instant of the range refused": (INSTANT, INSTANT.replace("read_instant(*numbers[-2:])", "read_instant(*numbers[-2:]) if numbers[-2] * NANO + numbers[-1] != LAST else read_instant(0, -1)")),
    # the order of refusals
    "14 before 13": (EARLIER + ALLOWED, ALLOWED + EARLIER),
    "14 before 8": (INSTANT, "not ticket.allows(word, name) and ticket.take(word, name, LAST)\n    " + INSTANT),
    "13 before 8": (INSTANT, "ticket.commands and numbers[-2] * NANO + numbers[-1] < FIRST and ticket.take(word, name, FIRST - 1)\n    " + INSTANT),
    "8 before the book's": (REFUSED, "    read_instant(*numbers[-2:])\n" + REFUSED),
    "14 before the book's": (REFUSED, '    if refused and word != "start":\n        raise Refusal(14)\n' + REFUSED),
    # refused commands
    "a command refused with 14 moves the last instant": (EARLIER, EARLIER.replace("instant < self.commands[-1][2]", LAST_TOLD) + "        self.last = instant\n"),
    "a command refused with 13 moves the last instant": (EARLIER, EARLIER.replace("instant < self.commands[-1][2]", LAST_TOLD).replace("            raise", "            self.last = instant\n            raise") + "        self.last = instant\n"),
    "a refused start begins a spell": (ALLOWED, ALLOWED.replace("            raise", '            word == "start" and self.commands.append((word, name, instant))\n            raise')),
    "a refused resumption begins a spell": (ALLOWED, ALLOWED.replace("            raise", '            word == "resume" and self.commands and self.commands.append((word, name, instant))\n            raise')),
    "a refused hold holds": (ALLOWED, ALLOWED.replace("            raise", '            word == "hold" and self.commands and self.commands.append((word, name, instant))\n            raise'), ENDED, HOLD_TWICE),
    "a refused mark sets the mark 0": (ALLOWED, ALLOWED.replace("            raise", '            word == "mark" and self.commands and self.commands.append((word, 0, instant))\n            raise')),
    "a set-back refused with 13 sets back": (EARLIER, EARLIER.replace("            raise", '            word == "back" and self.allows(word, name) and self.commands.append((word, name, self.commands[-1][2]))\n            raise')),
    "a mark refused with 13 moves": (EARLIER, EARLIER.replace("            raise", '            word == "mark" and self.allows(word, name) and self.commands.append((word, name, self.commands[-1][2]))\n            raise')),
    # a new ticket
    "a new ticket goes on with the one before": (COMMANDS, "        self.commands = kept_commands\n"),
    "a new ticket keeps the last instant": (EARLIER, EARLIER.replace("self.commands and instant < self.commands[-1][2]", "instant < kept_last[0]") + "        kept_last[0] = instant\n"),
}  # fmt: skip


# ----------------------------------------------------------- what the mistakes use


def parts(ticket, since, at):
    """A spell split by the marks that remain."""
    marks = [ticket.commands[place][2] for place in ticket.remaining() if ticket.commands[place][0] == "mark"]
    ends = [since] + sorted(mark for mark in marks if since < mark < at) + [at]
    return list(zip(ends, ends[1:]))


def table(ticket, drops, orders=lambda mark, instant: False, clears=False):
    """The marks that are set, by name, each as its order, its instant and its name, if a
    set-back drops those that `drops` tells by them and by the mark that was gone back to.
    A mark set again keeps its order where `orders` tells it by the mark and the instant;
    with `clears` it drops those set since."""
    marks = {}
    for place, (word, name, instant) in enumerate(ticket.commands):
        if word == "mark":
            earlier = marks.get(name, (place, None, name))
            if clears:
                marks = {other: mark for other, mark in marks.items() if mark[0] < earlier[0]}
            marks[name] = (earlier[0] if orders(earlier, instant) else place, instant, name)
        elif word == "back":
            marks = {other: mark for other, mark in marks.items() if not drops(mark, marks[name])}
    return marks


def before(ticket, end):
    """The ticket as it was before the command at a place."""
    other = type(ticket)()
    other.commands = ticket.commands[:end]
    return other


def left_before(ticket, end):
    """What remained before the command at a place. It is kept, since a mistake asks for
    it again for each set-back."""
    key = tuple(ticket.commands[:end])
    if key not in LEFT:
        LEFT[key] = before(ticket, end).remaining()
    return LEFT[key]


LEFT = {}


def undropped(ticket):
    """What remains, or, where the last command sets back, what remained before it, and
    that command."""
    last = len(ticket.commands) - 1
    return before(ticket, last).remaining() + [last] if ticket.commands[last][0] == "back" else ticket.remaining()


def runs_before(ticket, place):
    """Whether the last start, hold or resumption before a command was no hold."""
    return [word for word, _, _ in ticket.commands[:place] if word not in ("mark", "back")][-1] != "hold"


def state_at(ticket, place):
    """The state after the command at a place."""
    return before(ticket, place + 1).state()


def mark_of_last(ticket):
    """The place of the last command, or of the mark that it goes back to."""
    last = len(ticket.commands) - 1
    return ticket.before(last) if ticket.commands[last][0] == "back" else last


def last_but_marks(ticket):
    return [instant for word, _, instant in ticket.commands if word not in ("mark", "back")][-1]


def compared(ticket, word, name):
    """The instant of the last command, or of the mark that a command goes back to."""
    if word == "back" and ticket.allows(word, name):
        return ticket.commands[ticket.latest_mark(name, len(ticket.commands))][2]
    return ticket.commands[-1][2]


USED = (joined, parts, table, left_before, undropped, runs_before, state_at, mark_of_last, last_but_marks, compared)


# ------------------------------------------------------------------------- running


def changed(source, name):
    """second.py with a mistake."""
    parts = WRONG[name]
    for stands, has in zip(parts[::2], parts[1::2]):
        if source.count(stands) != 1:
            sys.exit(f"{name}: {stands!r} stands {source.count(stands)} times in second.py")
        source = source.replace(stands, has)
    return source


def loaded(source):
    module = load(source)
    module |= {function.__name__: function for function in USED}
    module |= {"Refusal": second.Refusal, "kept_commands": [], "kept_last": [second.FIRST]}
    return module


def bounded(schedule):
    """A schedule whose `between` gives up on a span that would take it minutes, which
    no spell is, but what a mistake takes for one may be."""
    between = schedule.between

    def tried(start, end):
        if end - start > TOO_LONG and is_yearly(schedule):
            raise TimeoutError("too long")
        return between(start, end)

    schedule.between = tried
    return schedule


def read(book, pack, commands, answers):
    """A case: schedule, refusal, commands, answers."""
    schedule, refused = built(book, pack)
    return schedule and bounded(schedule), refused, commands, answers


def differing(module, cases):
    """The first command, with the number of its case, that is answered otherwise than
    stored, and how many there are."""
    first, count = None, 0
    for place, (schedule, refused, commands, answers) in enumerate(cases):
        for command, told in zip(commands, answers):
            if command[0] == NEW:
                ticket = module["Ticket"]()
                continue
            try:
                found = answer(module, schedule, refused, ticket, command)
            except Exception:  # a wrong one may also fall over
                found = None
            if found != told:
                first = first or (place, command)
                count += 1
    return first, count


def main(path, wanted):
    with open(path, "rb") as file:
        cases = [read(*case) for case in read_cases(file.read())]
    with open(os.path.join(HERE, "second.py"), encoding="utf-8") as file:
        source = file.read()
    if differing(loaded(source), cases)[0]:
        sys.exit(f"second.py answers otherwise: {differing(loaded(source), cases)}")
    missed = 0
    names = [name for name in WRONG if not wanted or name in wanted]
    for name in names:
        first, count = differing(loaded(changed(source, name)), cases)
        missed += not first
        shown = f"case {first[0]}, {WORDS[first[1][0]]} {' '.join(map(str, first[1][1:]))}; {count} differ" if first else "NOT SEEN"
        print(f"{name}: {shown}", flush=True)
    asked = sum(command[0] != NEW for case in cases for command in case[2])
    print(f"{asked} commands; {missed} of {len(names)} mistakes not seen")
    sys.exit(1 if missed else 0)


if __name__ == "__main__":
    if len(sys.argv) < 2 or sys.argv[1].startswith("-"):
        sys.exit("usage: wrong_tickets.py FILE [NAME..]")
    main(sys.argv[1], sys.argv[2:])
