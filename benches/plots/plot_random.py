#!/usr/bin/env python3
"""Draws docs/random.svg: how many boards it takes to prove that a known solution of a random board of the 24-puzzle is shortest, by
share of the boards that docs/results has of Korf and Felner's fifty: those that are proved, over the tables of docs/RESULTS.md or over
chosen ones, as they were counted, and those that are open, as tools/choose_tables.py expects them. Times of one core are at 85 ns a board. The axes of boards and times are logarithmic.

    benches/plots/plot_random.py
"""

import csv
import math
import pathlib

WIDTH, HEIGHT, LEFT, RIGHT, TOP, BOTTOM = 720, 420, 90, 90, 40, 60
LEAST, MOST = 1e6, 1e12
NANOSECONDS = 85
KNOWN, ESTIMATED = "#1b6ca8", "#d1731b"


def across(share):
    return LEFT + (WIDTH - LEFT - RIGHT) * share


def down(boards):
    return HEIGHT - BOTTOM - (HEIGHT - TOP - BOTTOM) * math.log(boards / LEAST) / math.log(MOST / LEAST)


def text(x, y, words, anchor="middle"):
    return f'<text x="{x:.1f}" y="{y:.1f}" text-anchor="{anchor}">{words}</text>'


def line(x, y, to_x, to_y):
    return f'<line x1="{x:.1f}" y1="{y:.1f}" x2="{to_x:.1f}" y2="{to_y:.1f}" stroke="#dddddd"/>'


def disc(x, y, colour):
    return f'<circle cx="{x:.1f}" cy="{y:.1f}" r="5" fill="{colour}"/>'


def ring(x, y, colour):
    return f'<circle cx="{x:.1f}" cy="{y:.1f}" r="4.25" fill="none" stroke="{colour}" stroke-width="1.5"/>'


def square(x, y, colour):
    return f'<rect x="{x - 5:.1f}" y="{y - 5:.1f}" width="10" height="10" fill="{colour}"/>'


def time_of(boards):
    seconds = boards * NANOSECONDS / 1e9
    return f"{seconds:.2g} s" if seconds < 60 else f"{seconds / 60:.2g} min" if seconds < 3600 else f"{seconds / 3600:.2g} h"


def grid():
    for power in range(6, 13):
        yield line(LEFT, down(10.0**power), WIDTH - RIGHT, down(10.0**power))
        yield text(LEFT - 8, down(10.0**power) + 4, f"1e{power} boards", "end")
        yield text(WIDTH - RIGHT + 8, down(10.0**power) + 4, time_of(10.0**power), "start")
    for tenth in range(0, 11, 2):
        yield line(across(tenth / 10), TOP, across(tenth / 10), HEIGHT - BOTTOM)
        yield text(across(tenth / 10), HEIGHT - BOTTOM + 20, f"{10 * tenth} percent")
    yield text((LEFT + WIDTH - RIGHT) / 2, HEIGHT - 12, "share of the boards that take at most so many")
    yield text(WIDTH - RIGHT + 8, TOP - 14, "of one core", "start")


def legend():
    yield disc(LEFT + 20, TOP + 14, KNOWN)
    yield text(LEFT + 34, TOP + 18, "proved, of the boards of Korf and Felner (2002)", "start")
    yield ring(LEFT + 20, TOP + 36, KNOWN)
    yield text(LEFT + 34, TOP + 40, "proved over chosen tables", "start")
    yield square(LEFT + 20, TOP + 58, ESTIMATED)
    yield text(LEFT + 34, TOP + 62, "expected of those that are open", "start")


def main():
    folder = pathlib.Path(__file__).resolve().parents[2] / "docs"
    marks = []
    for name, mark, colour in ("", disc, KNOWN), ("_chosen", ring, KNOWN), ("_open", square, ESTIMATED):
        with (folder / f"results/korf_felner_2002{name}.csv").open() as file:
            marks += [(float(row["boards"]), mark, colour) for row in csv.DictReader(file)]
    marks.sort(key=lambda it: it[0])
    drawn = [
        f'<svg xmlns="http://www.w3.org/2000/svg" width="{WIDTH}" height="{HEIGHT}" viewBox="0 0 {WIDTH} {HEIGHT}"'
        ' font-family="sans-serif" font-size="12">',
        f'<rect width="{WIDTH}" height="{HEIGHT}" fill="white"/>',
        *grid(),
        *(mark(across(place / len(marks)), down(boards), colour) for place, (boards, mark, colour) in enumerate(marks, 1)),
        *legend(),
        "</svg>",
    ]
    (folder / "random.svg").write_text("\n".join(drawn) + "\n")


main()
