"""writes a page that shows a strategy: what it is worth, what each player does, and where each loses

OUT.html is one page for a browser, without a script and without anything from the network. With --perfect it says too how far each plan can be
exploited, and in small games how to mend it, as `exploit` does.
"""

from __future__ import annotations

import argparse
from pathlib import Path

from ..report import write_report
from ._leaks import habit_of
from ._words import add_strategy, strategy_at


def add_words(parser: argparse.ArgumentParser) -> None:
    """Adds the words of this command."""
    add_strategy(parser)
    parser.add_argument("out", metavar="OUT.html")
    parser.add_argument("--perfect", metavar="FILE", help="a strategy near an equilibrium, such as `near` prints")
    parser.add_argument("--table", metavar="TABLE.csv", help="the table from which the strategy was packed")


def run(asked: argparse.Namespace) -> None:
    """Runs this command."""
    strategy = strategy_at(asked.strategy)
    perfect = strategy_at(asked.perfect) if asked.perfect else None
    write_report(strategy, asked.out, Path(asked.strategy).name, perfect, {player: habit_of(strategy, player, asked.table) for player in (1, 2)})
