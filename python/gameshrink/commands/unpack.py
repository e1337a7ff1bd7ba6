"""prints the whole numbers of a strategy file, one hand for each class

The rows are in CSV; `pack` reads them.
"""

from __future__ import annotations

import argparse

from ._words import add_strategy, print_rows, strategy_at

add_words = add_strategy


def run(asked: argparse.Namespace) -> None:
    print_rows(strategy_at(asked.strategy).weight_rows())
