"""prints a strategy file with a player's first best response in place of the player's plan

It is a best response to the other plan of the same file, at each place the first move of the greatest worth. Value and gaps of the file are
those of `gameshrink judge`: the player's gap is 0, and the player is paid more by exactly the old gap.
"""

from __future__ import annotations

import argparse
import sys

from ._words import add_strategy, strategy_at


def add_words(parser: argparse.ArgumentParser) -> None:
    """Adds the words of this command."""
    add_strategy(parser)
    parser.add_argument("--player", type=int, choices=(1, 2), required=True)


def run(asked: argparse.Namespace) -> None:
    """Runs this command."""
    strategy = strategy_at(asked.strategy)
    found = strategy.best(asked.player)
    before, after = strategy.judge(), found.judge()
    wanted, paid, gap = before.paid(asked.player) + before.gap(asked.player), after.paid(asked.player), after.gap(asked.player)
    if paid != wanted or gap:
        raise AssertionError("the best response should be paid %s, and the program says %s with gap %s" % (wanted, paid, gap))
    sys.stdout.write(found.filled())
