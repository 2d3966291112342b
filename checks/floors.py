#!/usr/bin/env python3
"""Draws the floors of the crates, docs/floors.svg, from crates.txt.

    checks/floors.py [--write]

A crate stands one floor above the highest of those that it is built with. A line leads down to each of these that is not reached by
another one, so that no line repeats what others say. The colours are the headings of crates.txt. It says whether the picture is that of
crates.txt, and with --write it writes it; the exit status is 1 where it is stale. checks/documents.py looks too. It needs Python 3 alone.
"""
import os
import sys
from xml.sax.saxutils import escape

from common import TOP

PICTURE = os.path.join(TOP, "docs", "floors.svg")
COLOURS = ["#dbeafe", "#dcfce7", "#fef9c3", "#fee2e2", "#ede9fe", "#ffedd5", "#cffafe", "#e2e8f0", "#fce7f3", "#f1f5f9"]
# A box, the space between boxes and between floors, the margin, and the height of a line of the legend.
WIDE, HIGH, BESIDE, BETWEEN, MARGIN, LINE = 118, 24, 10, 34, 12, 18


def read():
    """The headings of crates.txt with their crates, and what each crate is built with, of this repository alone."""
    listed, below = [], {}
    with open(os.path.join(TOP, "crates.txt"), encoding="utf-8") as text:
        for line in text.read().splitlines():
            if line.startswith("## "):
                listed.append((line[3:], []))
            elif line.strip() and not line.startswith("#"):
                head, _, others = line.partition(":")
                listed[-1][1].append(head.split()[0])
                below[head.split()[0]] = others.split()
    return listed, {name: [it for it in others if it in below] for name, others in below.items()}


def floors(below):
    """The crates, floor by floor, and all that each stands on. A crate stands only on crates above it in crates.txt."""
    level, under, rows = {}, {}, []
    for name, others in below.items():
        level[name] = 1 + max((level[it] for it in others), default=-1)
        under[name] = set(others).union(*(under[it] for it in others))
        while len(rows) <= level[name]:
            rows.append([])
        rows[level[name]].append(name)
    return rows, under


def picture():
    """The text of the picture."""
    listed, below = read()
    rows, under = floors(below)
    near = {name: [it for it in others if not any(it in under[other] for other in others)] for name, others in below.items()}
    width = 2 * MARGIN + max(map(len, rows)) * (WIDE + BESIDE) - BESIDE
    legend = [(heading, colour) for (heading, _), colour in zip(listed, COLOURS)]
    height = 2 * MARGIN + len(rows) * (HIGH + BETWEEN) - BETWEEN + LINE * (len(legend) + 1)
    bottom = MARGIN + len(rows) * (HIGH + BETWEEN) - BETWEEN
    at = {}
    for floor, row in enumerate(rows):
        # A crate stands as near as it can above the middle of what it stands on.
        row.sort(key=lambda it: sum(at[other][0] for other in near[it]) / max(len(near[it]), 1) if floor else 0)
        left = (width - len(row) * (WIDE + BESIDE) + BESIDE) // 2
        for place, name in enumerate(row):
            at[name] = (left + place * (WIDE + BESIDE), bottom - HIGH - floor * (HIGH + BETWEEN))
    colour = {name: shade for (_, names), shade in zip(listed, COLOURS) for name in names}
    lines = [f'<svg xmlns="http://www.w3.org/2000/svg" viewBox="0 0 {width} {height}" width="{width}" height="{height}">']
    lines.append('<style>text { font: 12px sans-serif; fill: #111 } path { stroke: #94a3b8; fill: none }</style>')
    lines.append(f'<rect width="{width}" height="{height}" fill="#fff"/>')
    for name, others in near.items():
        x, y = at[name]
        for other in others:
            to_x, to_y = at[other]
            lines.append(f'<path d="M{x + WIDE // 2} {y + HIGH}L{to_x + WIDE // 2} {to_y}"/>')
    for name, (x, y) in at.items():
        lines.append(f'<rect x="{x}" y="{y}" width="{WIDE}" height="{HIGH}" rx="4" fill="{colour[name]}" stroke="#475569"/>')
        lines.append(f'<text x="{x + WIDE // 2}" y="{y + 16}" text-anchor="middle">{name}</text>')
    for place, (heading, shade) in enumerate(legend, 1):
        y = bottom + place * LINE
        lines.append(f'<rect x="{MARGIN}" y="{y}" width="14" height="14" fill="{shade}" stroke="#475569"/>')
        lines.append(f'<text x="{MARGIN + 22}" y="{y + 12}">{escape(heading)}</text>')
    return "\n".join([*lines, "</svg>", ""])


def is_stale():
    """Whether the picture is not that of crates.txt."""
    if not os.path.exists(PICTURE):
        return True
    with open(PICTURE, encoding="utf-8") as there:
        return there.read() != picture()


def main():
    if sys.argv[1:] == ["--write"]:
        with open(PICTURE, "w", encoding="utf-8") as out:
            out.write(picture())
    elif sys.argv[1:]:
        print(__doc__.strip())
        sys.exit(0 if sys.argv[1:] in (["-h"], ["--help"]) else 2)
    print("docs/floors.svg is stale: checks/floors.py --write" if is_stale() else "docs/floors.svg is that of crates.txt")
    sys.exit(1 if is_stale() else 0)


if __name__ == "__main__":
    main()
