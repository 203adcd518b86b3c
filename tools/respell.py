#!/usr/bin/env python3
"""Turns the names of definitions and lemmas from camel case to snake case, once, in every crate and in the pages.

usage: python3 tools/respell.py        at the top of the repository, after the toolchain's own script

A word of a proof file, a specification, a clause or a must-fail edit that begins with a small letter and has capitals inside, as
dayNumber, becomes day_number; parts that a dash joins are turned one by one. Types and modules keep their names, and so does all that
the code itself names, which has no such words. A lemma that would fall together with its function gets the ending _lem. The pages get
the new names where they name one of the words.
"""

import glob
import os
import re

WORD = re.compile(r"(?<![\w'·◌])[a-z_][\w']*(?:-[\w']+)*")
CAMEL = re.compile(r"^[a-z][a-z0-9_]*[A-Z]")

# Lemmas, fields and locals that have the very name that a definition gets.
LEMMAS = {
    "first_two": "first_two_lem",
    "end_by": "end_by_lem",
    "end_mark": "end_mark_lem",
    "record_of": "own_record",
    "at_front": "at_front_lem",
    "none_yet": "none_yet_lem",
    "too_short": "too_short_lem",
    "second_from": "second_from_lem",
    "holds_at": "holds_at_lem",
    "one_number": "one_number_lem",
    "going_on": "going_on_lem",
    "set_back": "set_back_lem",
    "step_after": "step_after_lem",
    "step_is": "step_is_lem",
    "parts_from": "parts_from_lem",
    "offset_at": "offset_at_lem",
}

# Where those names are lemmas: other crates' functions and fields of the same spelling keep theirs.
LEMMA_FILES = {
    "first_two": ["laws_marks"],
    "end_by": ["laws_marks"],
    "end_mark": ["laws_marks", "window_marks"],
    "record_of": ["book"],
    "at_front": ["block_union"],
    "none_yet": ["zone_changes"],
    "too_short": ["hirgwamo"],
    "second_from": ["laws_demand3"],
    "holds_at": ["laws_demand3"],
    "one_number": ["book_dates"],
    "going_on": ["query_stream", "walk_hardest"],
    "set_back": ["laws_ticket"],
    "step_after": ["laws_ticket"],
    "step_is": ["directory"],
    "parts_from": ["directory"],
    "offset_at": ["zone_tzif"],
}

# Words whose own spelling would be that of a field or a parameter of the code, or hard to read.
GIVEN = {
    "endMark": "mark_by_end",
    "startSec": "start_sec_place",
    "startNs": "start_ns_place",
    "durationSec": "duration_sec_place",
    "durationNs": "duration_ns_place",
    "worksIn2001": "works_in_2001",
    "isBelow0": "is_below_0",
}


def turned(word):
    if word in GIVEN:
        return GIVEN[word]
    return "-".join(part_turned(p) for p in word.split("-"))


def part_turned(part):
    if part in GIVEN:
        return GIVEN[part]
    if not CAMEL.match(part):
        return part
    return re.sub(r"(?<=[a-z0-9])([A-Z])", lambda m: "_" + m.group(1).lower(), part)


def with_lemmas(text, path):
    crate = path.split("/")[1]
    for old, new in LEMMAS.items():
        if crate in LEMMA_FILES[old]:
            text = re.sub(r"(?<![\w'·◌.-])" + old + r"(?![\w'-])(?!\.)", new, text)
            if old == "end_by":
                text = text.replace(".end_by", "." + new)
    return text


def files():
    for path in sorted(glob.glob("crates/**/*", recursive=True)):
        if "/out/" not in path and path.endswith((".antt", ".rt", ".edit")):
            yield path


def pages():
    return sorted(glob.glob("docs/*.md")) + ["README.md", "compare/README.md"]


def rewrite(path, text, new):
    if text != new:
        with open(path, "w", encoding="utf-8") as f:
            f.write(new)


def main():
    seen = {}
    for path in files():
        with open(path, encoding="utf-8") as f:
            text = f.read()
        new = with_lemmas(text, path) if path.endswith(".antt") else text
        for word in WORD.findall(new):
            if turned(word) != word:
                seen[word] = turned(word)
        rewrite(path, text, WORD.sub(lambda m: turned(m.group(0)), new))
    for path in pages():
        if os.path.exists(path):
            with open(path, encoding="utf-8") as f:
                text = f.read()
            rewrite(path, text, WORD.sub(lambda m: seen.get(m.group(0), m.group(0)), text))
    for old, new in sorted(seen.items()):
        print(old, new)


if __name__ == "__main__":
    main()
