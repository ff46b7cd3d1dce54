#!/usr/bin/env python3
"""Draws docs/layers.svg from the headings of crates.txt: a row for each, the foundations at the bottom.

Usage: tests/layers.py [--check]     (--check: fails if the picture is another one)
"""
import re
import sys
from pathlib import Path

ROOT = Path(__file__).resolve().parent.parent
PICTURE = ROOT / "docs" / "layers.svg"
WIDTH, LEFT, ROW, BOX = 960, 150, 60, 38
CODE, STATEMENTS, PROGRAM = ("code, proved", "#dbe9f8"), ("definitions and theorems only", "#e6f4e1"), ("programs", "#fbe9d4")


def headings():
    """(heading, its crates) in the order of crates.txt."""
    found = []
    for line in (ROOT / "crates.txt").read_text().splitlines():
        if m := re.fullmatch(r"# == (.*) ==", line):
            found.append((m.group(1), []))
        elif line and not line.startswith("#"):
            found[-1][1].append(line.split(":")[0].split()[0])
    return found


def kind(crate):
    src = ROOT / "crates" / crate / "src"
    if (src / "main.rt").exists():
        return PROGRAM
    return CODE if any("fn " in path.read_text() for path in src.glob("*.rt")) else STATEMENTS


def lines_of(crates):
    """The crates in rows of boxes, each as (crate, x, width)."""
    rows, x = [[]], LEFT
    for crate in crates:
        width = 24 + 8 * len(crate)
        if x + width > WIDTH - 20:
            rows.append([])
            x = LEFT
        rows[-1].append((crate, x, width))
        x += width + 10
    return rows


def picture():
    body, y = [], 50
    for heading, crates in reversed(headings()):
        body.append(f'<line x1="20" y1="{y}" x2="{WIDTH - 20}" y2="{y}" stroke="#ddd"/>')
        body.append(f'<text x="20" y="{y + 34}" fill="#555">{heading}</text>')
        for row in lines_of(crates):
            for crate, x, width in row:
                body.append(f'<rect x="{x}" y="{y + 10}" width="{width}" height="{BOX}" rx="6" fill="{kind(crate)[1]}" stroke="#888"/>')
                body.append(f'<text x="{x + width / 2}" y="{y + 34}" text-anchor="middle">{crate}</text>')
            y += ROW - 10
        y += 10
    x = 20
    for words, colour in (CODE, STATEMENTS, PROGRAM):
        body.append(f'<rect x="{x}" y="{y + 8}" width="18" height="18" rx="3" fill="{colour}" stroke="#888"/>')
        body.append(f'<text x="{x + 26}" y="{y + 22}" fill="#555">{words}</text>')
        x += 60 + 8 * len(words)
    head = [
        f'<svg xmlns="http://www.w3.org/2000/svg" viewBox="0 0 {WIDTH} {y + 40}" font-family="sans-serif" font-size="14">',
        f'<rect width="{WIDTH}" height="{y + 40}" fill="white"/>',
        '<text x="20" y="30" font-size="17">The crates: each knows only some of those below it or to its left</text>',
    ]
    return "\n".join(head + body + ["</svg>"]) + "\n"


def main():
    if "--check" in sys.argv[1:]:
        if PICTURE.read_text() != picture():
            sys.exit("docs/layers.svg is not what crates.txt says: tests/layers.py draws it")
    else:
        PICTURE.write_text(picture())


if __name__ == "__main__":
    main()
