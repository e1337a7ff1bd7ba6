"""prints the strategy file that a table describes, over the classes of a template

TEMPLATE is any strategy file of the game: its game and classes are taken, and the plan of a player of whom no row speaks. A template in which each
hand is a class by itself:

  gameshrink play --turns 0 --classes raw < GAME.toml > template.json

The table stands on stdin. It is CSV with the columns player, line, hand, move and probability, in any order; other columns, empty lines and lines
that begin with # are skipped. Lines and hands are written as `query` takes them: /kb, Qs, Js/+Qs. Numbers are fractions (1/3), decimals (0.25),
which must add up to 1, or counts (12), which are divided by their sum.

Rows with the same player, line and hand are one rule. In these three columns * stands for any text and ? for any one letter: the rule 2,*b,K?
speaks of each point of player 2 behind a bet, with any king in round 1. At each point and hand the first rule of the table that gives a number
above 0 to a move of the point decides, and of this rule only the moves that the point has count. So special rules stand above general ones; one
that never decides is refused. A class takes the rule of its members; they must agree.

A strategy file holds weights: what a player's last move has is shared among the moves of the next point. They are rounded to whole numbers of a
total: down, and what is left goes to the largest remainders. Value and gaps of what is printed are 0/1: `fill` writes the true ones.

A refusal is one line. It names the row, counted over all lines of the table, or the player, the line and the hand.
"""

from __future__ import annotations

import argparse
import sys

from ..strategy import Strategy
from ._words import add_total, text_at


def add_words(parser: argparse.ArgumentParser) -> None:
    parser.add_argument("template", metavar="TEMPLATE", help="a strategy file of the game")
    size = parser.add_mutually_exclusive_group()
    add_total(size)
    size.add_argument("--exact", action="store_true", help="the least total at which nothing is rounded, of at most 2^36")


def run(asked: argparse.Namespace) -> None:
    table = text_at("-")
    sys.stdout.write(Strategy.read(asked.template).packed(table, None if asked.exact else asked.total).text())
