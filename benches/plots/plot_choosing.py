#!/usr/bin/env python3
"""Draws docs/choosing.svg from benches/plots/choosing.csv, which benches/measure/measure_fifty.py writes: how many times fewer boards
are expected over chosen tables than over those of docs/RESULTS.md with their transposed set, by the boards that these leave. Both axes
are logarithmic.

    benches/plots/plot_choosing.py
"""

import csv
import math
import pathlib

WIDTH, HEIGHT, LEFT, RIGHT, TOP, BOTTOM = 720, 420, 70, 30, 40, 60
LEAST, MOST = 1e6, 1e12
POWERS = range(-2, 6)
COLOUR = "#1b6ca8"


def across(boards):
    return LEFT + (WIDTH - LEFT - RIGHT) * math.log(boards / LEAST) / math.log(MOST / LEAST)


def down(times):
    return HEIGHT - BOTTOM - (HEIGHT - TOP - BOTTOM) * (math.log2(times) - POWERS[0]) / (POWERS[-1] - POWERS[0])


def text(x, y, words, anchor="middle"):
    return f'<text x="{x:.1f}" y="{y:.1f}" text-anchor="{anchor}">{words}</text>'


def line(x, y, to_x, to_y, colour="#dddddd"):
    return f'<line x1="{x:.1f}" y1="{y:.1f}" x2="{to_x:.1f}" y2="{to_y:.1f}" stroke="{colour}"/>'


def disc(known, chosen):
    return f'<circle cx="{across(known):.1f}" cy="{down(known / chosen):.1f}" r="5" fill="{COLOUR}"/>'


def grid():
    for power in range(6, 13):
        x = across(10.0**power)
        yield line(x, TOP, x, HEIGHT - BOTTOM)
        yield text(x, HEIGHT - BOTTOM + 20, f"1e{power}")
    for power in POWERS:
        yield line(LEFT, down(2.0**power), WIDTH - RIGHT, down(2.0**power), "#767676" if power == 0 else "#dddddd")
        yield text(LEFT - 8, down(2.0**power) + 4, f"{2.0**power:g}", "end")
    yield text((LEFT + WIDTH - RIGHT) / 2, HEIGHT - 12, "boards expected over the tables of RESULTS, with their transposed set")
    yield text(LEFT, TOP - 14, "times fewer over chosen tables", "start")


def main():
    plots = pathlib.Path(__file__).resolve().parent
    with (plots / "choosing.csv").open() as file:
        rows = [(float(row["known"]), float(row["chosen"])) for row in csv.DictReader(file)]
    drawn = [
        f'<svg xmlns="http://www.w3.org/2000/svg" width="{WIDTH}" height="{HEIGHT}" viewBox="0 0 {WIDTH} {HEIGHT}"'
        ' font-family="sans-serif" font-size="12">',
        f'<rect width="{WIDTH}" height="{HEIGHT}" fill="white"/>',
        *grid(),
        *(disc(known, chosen) for known, chosen in rows),
        "</svg>",
    ]
    (plots.parents[1] / "docs/choosing.svg").write_text("\n".join(drawn) + "\n")


main()
