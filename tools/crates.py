#!/usr/bin/env python3
"""Draws the crates and what they rest on.

usage: tools/crates.py

Reads crates.txt and writes docs/crates.svg: a box for each crate, in a band for each wing, from the definitions at the top to the programs and tests
below. A line leads from a crate to one that it rests on; lines to the same crate join. Only those are drawn that do not follow from others: where A
rests on B and B on C, there is no line from A to C.

A crate's wing is its name's first word, or what WING says. Ends with a message and status 1, and writes nothing, where crates.txt names a crate
that is not there, or a folder of crates/ has code and is not in crates.txt, or crates rest on each other.
"""
import sys
from pathlib import Path

ROOT = Path(__file__).resolve().parent.parent
KIT = {"anyhow"}  # libraries of the toolchain, beside std, which no line names
WINGS = [
    "meaning", "laws", "base", "block", "zone", "book", "window", "walk", "build", "schedule", "part", "query", "clock", "test", "bench",
]  # fmt: skip
WING = {
    "model": "meaning", "mark": "base", "refusal": "base", "big_endian": "base", "instant": "base", "instant_signed": "base", "civil": "base",
    "directory": "base", "run_log": "base", "rule": "book", "answer_line": "query", "pieces": "base",
    "laws_answers": "part", "answer_numbers": "part", "query_numbers": "part", "query_numbers_c": "part", "hirgwamo": "part",
    "model_ticket": "meaning", "ticket": "block", "ticket_marks": "block",
}  # fmt: skip
COLOURS = ["#4e79a7", "#b07aa1", "#59a14f", "#d37222", "#9c755f", "#2f8f8b", "#c23b52", "#6b6ecf", "#8c8c1a"]

# sizes, in pixels
LETTER, BOX, ROW, GAP, LINE = 7.3, 26, 66, 14, 10  # a letter's width; a box's height; from row to row; between boxes; a line's room
LEFT, TOP, MARGIN = 110, 84, 24
SWEEPS = 120


def read_crates():
    """Each crate's dependencies, as crates.txt lists them."""
    listed = {}
    for line in (ROOT / "crates.txt").read_text(encoding="utf-8").splitlines():
        line = line.split("#", 1)[0].strip()
        if line:
            head, _, needs = line.partition(":")
            listed[head.split()[0]] = [need for need in needs.split() if need not in KIT]  # behind a static library's name stands a word
    return listed


def check(listed):
    """Stops where crates.txt and the folders do not agree."""
    folders = {path.name for path in (ROOT / "crates").iterdir() if any(path.glob("src/**/*.rt"))}
    wrong = [f"{name}: in crates.txt, and no folder" for name in listed if name not in folders]
    wrong += [f"{name}: a folder, and not in crates.txt" for name in sorted(folders) if name not in listed]
    wrong += [f"{name} rests on {need}, which crates.txt does not list" for name, needs in listed.items() for need in needs if need not in listed]
    if wrong:
        sys.exit("\n".join(wrong))


def all_below(listed):
    """All that each crate rests on, by steps of any number."""
    below = {}

    def visit(name, path):
        if name in path:
            sys.exit("crates rest on each other: " + " ".join(path + [name]))
        if name not in below:
            below[name] = set(listed[name]).union(*(visit(need, path + [name]) for need in listed[name]))
        return below[name]

    for name in listed:
        visit(name, [])
    return below


def direct(listed):
    """The dependencies that do not follow from others."""
    below = all_below(listed)
    return {name: [need for need in needs if not any(need in below[other] for other in needs)] for name, needs in listed.items()}


def wing_of(name):
    return WING.get(name, name.split("_", 1)[0])


def rows_of(needs):
    """The rows of boxes, with their wings: a crate stands below those of its wing that it rests on."""
    found = {wing_of(name) for name in needs}
    wings = [wing for wing in WINGS if wing in found] + sorted(found - set(WINGS))
    rows = []
    for wing in wings:
        depth = {}

        def level(name):
            if name not in depth:
                depth[name] = max((level(need) + 1 for need in needs[name] if wing_of(need) == wing), default=0)
            return depth[name]

        members = [name for name in needs if wing_of(name) == wing]
        for at in range(max(map(level, members)) + 1):
            rows.append((wing, [name for name in members if level(name) == at]))
    return rows


def lay_lines(needs, rows):
    """Adds to the rows a place for each line that passes through, and answers the joints: pairs of a node and the one nearer to the line's end.

    A node is (crate, None), a box, or (crate, row), where the lines to that crate pass a row."""
    row_at = {name: at for at, (_, names) in enumerate(rows) for name in names}
    nodes = [[(name, None) for name in names] for _, names in rows]
    joints = {}  # a set that keeps its order, so that the same crates give the same picture
    for user, targets in needs.items():
        for target in targets:
            step = 1 if row_at[user] > row_at[target] else -1
            near = (target, None)
            for at in range(row_at[target] + step, row_at[user], step):
                node = (target, at)
                if node not in nodes[at]:
                    nodes[at].append(node)
                joints[node, near] = None
                near = node
            joints[(user, None), near] = None
    return nodes, joints


def neighbours(nodes, joints):
    """The nodes that each node is joined to, with a weight: what pulls most is the line itself, so that long lines are straight."""
    near = {node: [] for row in nodes for node in row}
    for one, other in joints:
        weight = 1 if one[1] is None and other[1] is None else 8 if one[1] is not None and other[1] is not None else 2
        near[one].append((other, weight))
        near[other].append((one, weight))
    return near


def width(node):
    return LETTER * len(node[0]) + 18 if node[1] is None else LINE


def fit(row, wanted):
    """Places for a row's nodes in their order, as near to the wanted ones as their widths allow (least squares, by joining what collides)."""
    offsets, at = [], 0.0
    for before, node in zip([None] + row, row):
        if before is not None:
            gap = GAP if before[1] is None or node[1] is None else 4
            at += width(before) / 2 + gap + width(node) / 2
        offsets.append(at)
    groups = []
    for node, offset in zip(row, offsets):
        groups.append((wanted[node] - offset, 1 if node[1] is None else 6, 1))
        while len(groups) > 1 and groups[-2][0] > groups[-1][0]:
            (a, m, i), (b, n, j) = groups[-2:]
            groups[-2:] = [((a * m + b * n) / (m + n), m + n, i + j)]
    places = [mean for mean, _, count in groups for _ in range(count)]
    return {node: place + offset for node, place, offset in zip(row, places, offsets)}


def pulled(place, places):
    """The mean of places with weights; a node that is joined to none stays."""
    return sum(at * weight for at, weight in places) / sum(weight for _, weight in places) if places else place


def arrange(nodes, joints):
    """Orders the rows so that few lines cross, and places their nodes from left to right."""
    near = neighbours(nodes, joints)
    x = {}
    for row in nodes:
        x.update(fit(row, {node: 0.0 for node in row}))
    for sweep in range(SWEEPS):
        for at in range(len(nodes)) if sweep % 2 == 0 else reversed(range(len(nodes))):
            row = nodes[at]
            wanted = {node: pulled(x[node], [(x[other], weight) for other, weight in near[node]]) for node in row}
            if sweep < SWEEPS // 2:
                row.sort(key=lambda node: wanted[node])
            x.update(fit(row, wanted))
    return x


def picture(rows, nodes, joints, x):
    """The text of the picture."""
    names = sorted({node[0] for row in nodes for node in row})
    colour = {name: COLOURS[at % len(COLOURS)] for at, name in enumerate(names)}
    row_at = {node: at for at, row in enumerate(nodes) for node in row}
    first = min(x[node] - width(node) / 2 for node in x)
    right = max(x[node] + width(node) / 2 for node in x) - first + LEFT + MARGIN
    x = {node: place - first + LEFT for node, place in x.items()}
    y = [TOP + ROW * at + ROW / 2 for at in range(len(rows))]
    total_width, total_height = right + MARGIN, TOP + ROW * len(rows) + MARGIN
    out = [
        f'<svg xmlns="http://www.w3.org/2000/svg" width="{total_width:.0f}" height="{total_height:.0f}" font-family="monospace" font-size="12">',
        '<rect width="100%" height="100%" fill="white"/>',
        f'<text x="{MARGIN}" y="34" font-family="sans-serif" font-size="20">The crates and what they rest on</text>',
        f'<text x="{MARGIN}" y="58" font-family="sans-serif" font-size="13">A line leads from a crate to one that it rests on, where it has its arrow;'
        " lines to the same crate join. What follows from other lines is not drawn.</text>",
    ]
    starts = [at for at in range(len(rows)) if at == 0 or rows[at][0] != rows[at - 1][0]]
    for number, (start, end) in enumerate(zip(starts, starts[1:] + [len(rows)])):
        top, height = y[start] - ROW / 2, ROW * (end - start)
        shade = "#f3f5f8" if number % 2 == 0 else "#ffffff"
        out.append(f'<rect x="0" y="{top:.0f}" width="{total_width:.0f}" height="{height:.0f}" fill="{shade}"/>')
        out.append(f'<text x="{MARGIN}" y="{top + 22:.0f}" font-family="sans-serif" font-size="15" font-weight="bold" fill="#555">{rows[start][0]}</text>')
    for one, other in sorted(joints, key=str):
        up = row_at[one] > row_at[other]
        half = BOX / 2 if up else -BOX / 2
        x1, y1 = x[one], y[row_at[one]] - half
        x2, y2 = x[other], y[row_at[other]] + half
        middle = (y1 + y2) / 2
        pen = f'fill="none" stroke="{colour[other[0]]}" stroke-width="1.4"'
        out.append(f'<path d="M{x1:.1f} {y1:.1f} C{x1:.1f} {middle:.1f} {x2:.1f} {middle:.1f} {x2:.1f} {y2:.1f}" {pen}/>')
        if one[1] is not None:
            out.append(f'<path d="M{x1:.1f} {y1:.1f} V{y1 + 2 * half:.1f}" {pen}/>')
        if other[1] is None:
            tip = 6 if up else -6
            out.append(f'<path d="M{x2:.1f} {y2:.1f} l-4 {tip} h8 z" fill="{colour[other[0]]}"/>')
    for row, middle in zip(nodes, y):
        for node in row:
            if node[1] is None:
                left, wide = x[node] - width(node) / 2, width(node)
                pen = f'rx="5" fill="#fffdf5" stroke="{colour[node[0]]}" stroke-width="1.6"'
                out.append(f'<rect x="{left:.1f}" y="{middle - BOX / 2:.1f}" width="{wide:.1f}" height="{BOX}" {pen}/>')
                out.append(f'<text x="{x[node]:.1f}" y="{middle + 4:.1f}" text-anchor="middle">{node[0]}</text>')
    return "\n".join(out + ["</svg>"]) + "\n"


def main():
    listed = read_crates()
    check(listed)
    needs = direct(listed)
    rows = rows_of(needs)
    nodes, joints = lay_lines(needs, rows)
    x = arrange(nodes, joints)
    (ROOT / "docs" / "crates.svg").write_text(picture(rows, nodes, joints, x), encoding="utf-8")
    print(f"docs/crates.svg: {len(needs)} crates, {sum(map(len, needs.values()))} lines, {len(rows)} rows")


if __name__ == "__main__":
    main()
