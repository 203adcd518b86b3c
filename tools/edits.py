#!/usr/bin/env python3
"""Lists the must-fail edits that stand for no wrong program of document 01 and for no public call.

usage: tools/edits.py

Prints the last table of "Wrong programs" in docs/ARCHITECTURE.md: for each crate, in the order of crates.txt, the edits that the tables before it do
not name, each with its first line, the rule that it breaks. Ends with status 1 where an edit has no such line, where the document names an edit
that is not there, or where its last table is another than the one printed.
"""
import re
import sys
from pathlib import Path

ROOT = Path(__file__).resolve().parent.parent
HEAD = "| Crate | The edits, each with the rule that it breaks |"
NAMED = re.compile(r"`([a-z_0-9]+/)?([a-z_0-9]+)`")


def edits():
    """The rule that each edit breaks, by crate and name."""
    found = {}
    for path in sorted(ROOT.glob("crates/*/must-fail/*.edit")):
        first = path.read_text().split("\n", 1)[0]
        found[path.parts[-3], path.stem] = first[2:] if first.startswith("# ") else ""
    return found


def named_in(text):
    """The edits that the rows of tables name, `crate/edit` or an `edit` of the crate named before it."""
    names = []
    for row in text.split("\n"):
        crate = None
        for prefix, name in NAMED.findall(row) if row.startswith("|") else []:
            crate = prefix[:-1] or crate
            if crate:
                names.append((crate, name))
    return names


def table(found, named):
    lines = [HEAD, "|---|---|"]
    for line in (ROOT / "crates.txt").read_text().split("\n"):
        crate = (line.split(":")[0].split() or [""])[0]  # a static library has a word behind its name
        rest = [f"`{name}`: {rule}" for (owner, name), rule in found.items() if owner == crate and (owner, name) not in named]
        if rest:
            lines.append(f"| `{crate}` | {'; '.join(rest)} |")
    return "\n".join(lines)


def main():
    found = edits()
    section = (ROOT / "docs/ARCHITECTURE.md").read_text().split("\n## Wrong programs\n")[1].split("\n## ")[0]
    named = named_in(section.split(HEAD)[0])
    made = table(found, named)
    print(made)
    faults = [f"no rule in its first line: {crate}/{name}" for (crate, name), rule in found.items() if not rule]
    faults += [f"not there: {crate}/{name}" for crate, name in named if (crate, name) not in found]
    if made not in section:
        faults.append("docs/ARCHITECTURE.md has another table")
    print(f"{len(found)} edits, {len(set(named))} named before the table", *faults, sep="\n", file=sys.stderr)
    return 1 if faults else 0


if __name__ == "__main__":
    sys.exit(main())
