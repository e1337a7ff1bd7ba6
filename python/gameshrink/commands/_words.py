"""What several commands share: their arguments, the files that these name, and rows of tables."""

from __future__ import annotations

import argparse
import csv
import sys
from collections.abc import Iterable, Sequence
from pathlib import Path

from ..game import Game
from ..layout import LARGEST_TOTAL
from ..program import Program
from ..rules import COLUMNS
from ..strategy import Strategy


def add_strategy(parser: argparse.ArgumentParser) -> None:
    """Adds the argument STRATEGY; stdin without one."""
    parser.add_argument("strategy", nargs="?", default="-", metavar="STRATEGY", help="a strategy file; - or nothing is stdin")


def add_total(parser: argparse.ArgumentParser | argparse._ArgumentGroup) -> None:
    """Adds the option --total N."""
    parser.add_argument("--total", type=_total, default=LARGEST_TOTAL, metavar="N", help="the total of the weights, 2^36 by default")


def _total(text: str) -> int:
    if not text.isdigit() or not 1 <= int(text) <= LARGEST_TOTAL:
        raise argparse.ArgumentTypeError("%s is not from 1 to 2^36" % text)
    return int(text)


def text_at(path: str) -> str:
    """Returns the text of a file, or of stdin for `-`."""
    return sys.stdin.buffer.read().decode("utf-8-sig") if path == "-" else Path(path).read_text(encoding="utf-8-sig")


def game_at(path: str) -> Game:
    """Returns the game of a game file, or of stdin for `-`; the program says what is wrong with one."""
    text = text_at(path)
    Program().run("check --summary", text)
    return Game.parse(text)


def strategy_at(path: str) -> Strategy:
    """Returns the strategy of a file, or of stdin for `-`."""
    return Strategy.parse(text_at(path), "stdin" if path == "-" else path)


def print_rows(rows: Iterable[Sequence[object]]) -> None:
    """Prints the rows of a table of moves, behind its first row."""
    out = csv.writer(sys.stdout, lineterminator="\n")
    out.writerow(COLUMNS)
    out.writerows(rows)
