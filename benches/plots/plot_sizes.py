#!/usr/bin/env python3
"""Draws docs/sizes.svg from benches/plots/sizes.csv, which benches/measure/measure_sizes.py writes: the seconds that it takes to make and to
check a table, by the size of its file. Both axes are logarithmic; times below a tenth of a second are left out.

    benches/plots/plot_sizes.py
"""

import csv
import math
import pathlib

WIDTH, HEIGHT, LEFT, RIGHT, TOP, BOTTOM = 720, 420, 80, 170, 40, 60
SERIES = {
    "make": ("to make", "#767676"),
    "check_by_1": ("to check, 1 worker", "#1b6ca8"),
    "check_by_4": ("to check, 4 workers", "#d1731b"),
}
LEAST_SECONDS = 0.1


def across(megabytes):
    """The place of a file's size: from 10 to 10,000 MB."""
    return LEFT + (WIDTH - LEFT - RIGHT) * (math.log10(megabytes) - 1) / 3


def down(seconds):
    """The place of a time: from 0.1 to 100 s."""
    return HEIGHT - BOTTOM - (HEIGHT - TOP - BOTTOM) * (math.log10(seconds) + 1) / 3


def text(x, y, words, anchor="middle"):
    return f'<text x="{x:.1f}" y="{y:.1f}" text-anchor="{anchor}">{words}</text>'


def line(x, y, to_x, to_y, colour):
    return f'<line x1="{x:.1f}" y1="{y:.1f}" x2="{to_x:.1f}" y2="{to_y:.1f}" stroke="{colour}"/>'


def mark(x, y, side, colour):
    """A disc for a table of side 4, a square for one of side 5."""
    if side == "4":
        return f'<circle cx="{x:.1f}" cy="{y:.1f}" r="5" fill="{colour}"/>'
    return f'<rect x="{x - 5:.1f}" y="{y - 5:.1f}" width="10" height="10" fill="{colour}"/>'


def grid():
    for power in range(4):
        x, y = across(10 ** (power + 1)), down(10.0 ** (power - 1))
        yield line(x, TOP, x, HEIGHT - BOTTOM, "#dddddd")
        yield text(x, HEIGHT - BOTTOM + 20, f"{10 ** (power + 1):,} MB")
        yield line(LEFT, y, WIDTH - RIGHT, y, "#dddddd")
        yield text(LEFT - 8, y + 4, f"{10.0 ** (power - 1):g} s", "end")
    yield text((LEFT + WIDTH - RIGHT) / 2, HEIGHT - 12, "size of the table's file")


def times(rows):
    for row in rows:
        for name, (_, colour) in SERIES.items():
            if float(row[name]) >= LEAST_SECONDS and float(row["megabytes"]) >= 10:
                yield mark(across(float(row["megabytes"])), down(float(row[name])), row["side"], colour)


def legend():
    for at, (words, colour) in enumerate(SERIES.values()):
        yield mark(WIDTH - RIGHT + 20, TOP + 10 + 22 * at, "4", colour)
        yield text(WIDTH - RIGHT + 34, TOP + 14 + 22 * at, words, "start")
    for at, (side, words) in enumerate((("4", "15-puzzle"), ("5", "24-puzzle"))):
        yield mark(WIDTH - RIGHT + 20, TOP + 90 + 22 * at, side, "black")
        yield text(WIDTH - RIGHT + 34, TOP + 94 + 22 * at, words, "start")


def main():
    folder = pathlib.Path(__file__).resolve().parent
    with (folder / "sizes.csv").open() as file:
        rows = list(csv.DictReader(file))
    drawn = [
        f'<svg xmlns="http://www.w3.org/2000/svg" width="{WIDTH}" height="{HEIGHT}" viewBox="0 0 {WIDTH} {HEIGHT}"'
        ' font-family="sans-serif" font-size="12">',
        f'<rect width="{WIDTH}" height="{HEIGHT}" fill="white"/>',
        *grid(),
        *times(rows),
        *legend(),
        "</svg>",
    ]
    (folder.parents[1] / "docs" / "sizes.svg").write_text("\n".join(drawn) + "\n")


main()
