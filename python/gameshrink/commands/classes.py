"""prints classes of a game's hands by readable rules, as `shrink` and `check` print theirs

A RULE is a list of features, `own,made`; two hands share a class if they agree in all of them. `2:own,made` is a rule for round 2. A rule holds
until the next round that has one.

  all         nothing: one class                own         the ranks of the own cards
  raw         each hand by itself               board       the ranks of the public cards, round by round
  iso         the classes of `shrink`           suits       which cards are of one suit
  lossless    the classes of `check`            made        what the cards make: a pair, a flush, ..
  strength=K  K equal parts of the deals by expected hand strength; hands of equal strength stay together
  nested=K    the same, within each class of the round before
  like=P|Q    which pattern fits first: * any text, ? any letter, [QK] one of these letters
  csv=FILE    the class that a table with the columns hand,class has; a hand may be a pattern, and the first row that fits decides

For short: suit-blind is own,board; rank-only is own,made; board-blind is own.

Classes must remember: hands of one class must come from hands of one class in the round before. Classes that forget are refused by two hands of
each kind; --recall splits them until they remember.
"""

from __future__ import annotations

import argparse
import sys

from ..classes import by_rules, class_text
from ._words import game_at


def add_words(parser: argparse.ArgumentParser) -> None:
    parser.add_argument("game", metavar="GAME.toml")
    parser.add_argument("rules", nargs="+", metavar="RULE")
    parser.add_argument("--recall", action="store_true", help="split the classes until they remember")


def run(asked: argparse.Namespace) -> None:
    game = game_at(asked.game)
    sys.stdout.write(class_text(game, by_rules(game, asked.rules, asked.recall)))
