"""prints the probability of each move, for each line of the betting and each hand

The rows are in CSV, with exact fractions; `pack` reads them.
"""

from __future__ import annotations

import argparse

from ._words import add_strategy, print_rows, strategy_at

add_words = add_strategy


def run(asked: argparse.Namespace) -> None:
    print_rows(strategy_at(asked.strategy).rows())
