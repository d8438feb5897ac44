#!/usr/bin/env python3
"""Draws docs/logs.svg from benches/plots/logs.csv, which benches/measure/measure_boards.py writes: how many times the most bytes that one
worker checks of a log of many lemmas go into those of the tree, by the size of the tree. Both axes are logarithmic; trees of
less than 64 KiB, whose logs have one lemma, are left out.

    benches/plots/plot_logs.py
"""

import csv
import math
import pathlib

WIDTH, HEIGHT, LEFT, RIGHT, TOP, BOTTOM = 720, 420, 80, 170, 40, 60
SERIES = {
    "share_of_1": ("1 worker", "#1b6ca8"),
    "share_of_2": ("2 workers", "#767676"),
    "share_of_4": ("4 workers", "#d1731b"),
}
LEAST_TREE = 1 << 16
TIMES = (1, 2, 4, 8)


def across(tree):
    """The place of a tree's size: from 0.1 to 10 MB."""
    return LEFT + (WIDTH - LEFT - RIGHT) * (math.log10(tree / 1e6) + 1) / 2


def down(times):
    """The place of a ratio: from 1 to 8."""
    return HEIGHT - BOTTOM - (HEIGHT - TOP - BOTTOM) * math.log2(times) / 3


def text(x, y, words, anchor="middle"):
    return f'<text x="{x:.1f}" y="{y:.1f}" text-anchor="{anchor}">{words}</text>'


def line(x, y, to_x, to_y, colour):
    return f'<line x1="{x:.1f}" y1="{y:.1f}" x2="{to_x:.1f}" y2="{to_y:.1f}" stroke="{colour}"/>'


def mark(x, y, side, colour):
    """A disc for a board of side 4, a square for one of side 5."""
    if side == "4":
        return f'<circle cx="{x:.1f}" cy="{y:.1f}" r="5" fill="{colour}"/>'
    return f'<rect x="{x - 5:.1f}" y="{y - 5:.1f}" width="10" height="10" fill="{colour}"/>'


def grid():
    for power in range(3):
        x = across(1e5 * 10**power)
        yield line(x, TOP, x, HEIGHT - BOTTOM, "#dddddd")
        yield text(x, HEIGHT - BOTTOM + 20, f"{10.0 ** (power - 1):g} MB")
    for times in TIMES:
        yield line(LEFT, down(times), WIDTH - RIGHT, down(times), "#dddddd")
        yield text(LEFT - 8, down(times) + 4, f"{times} times", "end")
    yield text((LEFT + WIDTH - RIGHT) / 2, HEIGHT - 12, "size of the tree")


def ratios(rows):
    for row in rows:
        tree = int(row["tree"])
        for name, (_, colour) in SERIES.items():
            if tree >= LEAST_TREE:
                yield mark(across(tree), down(tree / int(row[name])), row["side"], colour)


def legend():
    for at, (words, colour) in enumerate(SERIES.values()):
        yield mark(WIDTH - RIGHT + 20, TOP + 10 + 22 * at, "4", colour)
        yield text(WIDTH - RIGHT + 34, TOP + 14 + 22 * at, words, "start")
    for at, (side, words) in enumerate((("4", "15-puzzle"), ("5", "24-puzzle"))):
        yield mark(WIDTH - RIGHT + 20, TOP + 90 + 22 * at, side, "black")
        yield text(WIDTH - RIGHT + 34, TOP + 94 + 22 * at, words, "start")


def main():
    folder = pathlib.Path(__file__).resolve().parent
    with (folder / "logs.csv").open() as file:
        rows = list(csv.DictReader(file))
    drawn = [
        f'<svg xmlns="http://www.w3.org/2000/svg" width="{WIDTH}" height="{HEIGHT}" viewBox="0 0 {WIDTH} {HEIGHT}"'
        ' font-family="sans-serif" font-size="12">',
        f'<rect width="{WIDTH}" height="{HEIGHT}" fill="white"/>',
        *grid(),
        *ratios(rows),
        *legend(),
        "</svg>",
    ]
    (folder.parents[1] / "docs" / "logs.svg").write_text("\n".join(drawn) + "\n")


main()
