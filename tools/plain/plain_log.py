#!/usr/bin/env python3
"""Checks a log as plainly as can be, read off docs/FORMATS.md. Nothing of the program is used.

    tools/plain/plain_log.py [--fold] BOARD SETS LOG TABLES..

The files are those of `bound`. What is written is the bound that the log proves for the board and the number of its lemmas, or
why the log is refused.
"""

import argparse
import pathlib

from plain_answers import Refused, read_board, read_lemmas, read_log, read_sets, read_tables


def main():
    words = argparse.ArgumentParser()
    words.add_argument("--fold", action="store_true")
    for name in ("board", "sets", "log"):
        words.add_argument(name, type=pathlib.Path)
    words.add_argument("tables", nargs="+", type=pathlib.Path)
    named = words.parse_args()
    board, log = read_board(named.board.read_bytes()), named.log.read_bytes()
    tables = read_tables([table.read_bytes() for table in named.tables], named.fold)
    try:
        bound = read_log(log, board, tables, read_sets(named.sets.read_bytes(), tables))
        print(bound, len(read_lemmas(log)))
    except Refused as refused:
        print("refused", *refused.args)


main()
