"""prints what classes of hands cost each player: the game's value less the most that a plan over the classes secures

The opponent sees every card. CLASSES is what `gameshrink-tools classes`, `gameshrink shrink` or `gameshrink check` prints. For each player it
prints, in chips per deal, between which numbers the most lies that the best plan over the classes secures, and the cost of that: the price of the
classes. With --abstract also what an equilibrium secures of the game in which both players see the classes: as the solver happens to find it, and
the kindest, which secures most of all that are optimal there up to 10^-9 chips.

The plans are an outside solver's, rounded to whole numbers: Clp's (Debian package coinor-clp), or exactly and more slowly QSopt_ex's (qsopt-ex).
What is secured at least is what `gameshrink judge` says of them; --write keeps them as best.json, abstract.json and kindest.json. What is secured
at most is the best response within the classes to a plan of the opponent, in whole numbers; it is exact, and nothing proves it.
"""

from __future__ import annotations

import argparse
from fractions import Fraction
from pathlib import Path

from ..classes import checked_classes, counts
from ..price import SEATS, Abstraction, price, value_of
from ..progress import Progress
from ..solvers import SOLVERS
from ..texts import outwards
from ._leaks import aligned
from ._words import game_at, text_at

HEAD = ["plan", "player", "secures at least", "at most", "costs at least", "at most"]


def add_words(parser: argparse.ArgumentParser) -> None:
    parser.add_argument("game", metavar="GAME.toml")
    parser.add_argument("classes", nargs="?", default="-", metavar="CLASSES", help="a file of classes; - or nothing is stdin")
    parser.add_argument("--abstract", action="store_true", help="also what equilibria of the abstract game secure")
    parser.add_argument("--solver", choices=SOLVERS, help="Clp by default, where it is installed")
    parser.add_argument("--write", metavar="FOLDER", help="keep the plans as strategy files")


def ends(bracket: tuple[Fraction, Fraction]) -> list[str]:
    """Returns a bracket's ends with ten digits, rounded outwards."""
    return [outwards(bracket[0], 10)[0], outwards(bracket[1], 10)[1]]


def run(asked: argparse.Namespace) -> None:
    game = game_at(asked.game)
    classes = checked_classes(game, text_at(asked.classes), asked.classes)
    value = value_of(game, asked.solver)
    with Progress("price", 5 if asked.abstract else 2) as progress:
        abstraction = Abstraction(game, classes, asked.solver, tell=progress.begin)
        found = {"best": abstraction.best}
        if asked.abstract:
            found |= {"abstract": abstraction.abstract, "kindest": abstraction.kindest}
    print("%s: %s classes" % (game.name, ", ".join(map(str, counts(abstraction.classes)))))
    print("the game is worth %s .. %s to player 1" % tuple(ends(value[1])))
    if asked.abstract:
        print("and %s .. %s where both see the classes alone" % tuple(ends(abstraction.abstract_value)))
    rows = [[name, str(seat), *ends(it.secured[seat]), *ends(price(value[seat], it.secured[seat]))] for name, it in found.items() for seat in SEATS]
    print("\n".join(aligned(HEAD, rows, 2)))
    for name, it in found.items():
        for seat, exact in it.exact.items():
            print("%s, player %d: exactly %s by QSopt_ex" % (name, seat, exact))
    if asked.write:
        Path(asked.write).mkdir(parents=True, exist_ok=True)
        for name, it in found.items():
            Path(asked.write, name + ".json").write_text(it.strategy.filled(), encoding="ascii")
