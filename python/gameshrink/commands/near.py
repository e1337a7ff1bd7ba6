"""prints a strategy file near an equilibrium of a game, made by an outside solver

The solver works on the game's linear program in sequence form: Clp (Debian package coinor-clp) in floating point, QSopt_ex (qsopt-ex) exactly
and more slowly. Its plans are rounded to whole numbers; then `gameshrink judge` finds the value and both gaps of these, which are written into
the file. So they are exact whatever the solver did, and `evaluate` confirms the file. stderr says where the game's value lies by these gaps.
"""

from __future__ import annotations

import argparse
import sys

from ..linear import near
from ..solvers import SOLVERS
from ..texts import outwards
from ._words import add_total, game_at


def add_words(parser: argparse.ArgumentParser) -> None:
    parser.add_argument("game", metavar="GAME.toml", help="a game file")
    parser.add_argument("--solver", choices=list(SOLVERS), help="Clp by default, where it is installed")
    parser.add_argument("--classes", choices=["split", "raw"], default="split", help="the coarsest lossless classes (by default), or each hand by itself")
    add_total(parser)


def run(asked: argparse.Namespace) -> None:
    strategy = near(game_at(asked.game), asked.solver, asked.classes, asked.total)
    sys.stdout.write(strategy.filled())
    verdict = strategy.judge()
    least, most = outwards(verdict.sure(1))[0], outwards(-verdict.sure(2))[1]
    print("gameshrink-tools: the game is worth at least %s and at most %s to player 1" % (least, most), file=sys.stderr)
