"""prints value and gaps of a strategy as decimals beside fractions, and what each player is sure of

The numbers are those of `gameshrink judge`. Decimals are rounded the safe way: what is at least so much down, what is at most so much, up; the
value to the nearest. They have 6 digits, and more where the gaps are small. Whatever the strategy, the game's value lies between what player 1 is
sure of and what player 2 loses at most.
"""

from __future__ import annotations

import argparse
from fractions import Fraction

from ..program import Verdict
from ..texts import decimal, fraction_text, outwards
from ._leaks import aligned, name_of
from ._words import add_strategy, strategy_at


def add_words(parser: argparse.ArgumentParser) -> None:
    """Adds the words of this command."""
    add_strategy(parser)


def digits_for(verdict: Verdict) -> int:
    """Returns how many digits tell the two ends of the bracket apart: 6, or one more than the gaps' first digit that is not 0."""
    digits, width = 6, verdict.gap1 + verdict.gap2
    while width and width * Fraction(10) ** (digits - 1) < 1:
        digits += 1
    return digits


def lines_of(verdict: Verdict) -> list[str]:
    """Returns what is said of two plans."""
    digits = digits_for(verdict)
    least, most = verdict.sure(1), -verdict.sure(2)
    at_least, at_most = outwards(least, digits)[0], outwards(most, digits)[1]
    rows = [
        ("value", decimal(verdict.value, digits), verdict.value, "what player 1 is paid per deal"),
        ("gap1", outwards(verdict.gap1, digits)[1], verdict.gap1, "what player 1 could still gain"),
        ("gap2", outwards(verdict.gap2, digits)[1], verdict.gap2, "what player 2 could still gain"),
        ("player 1 wins at least", at_least, least, "value - gap2"),
        ("player 2 loses at most", at_most, most, "value + gap1"),
    ]
    wide = max(len(shown) for _, shown, _, _ in rows)
    texts = [[name, shown.rjust(wide), said, fraction_text(number)] for name, shown, number, said in rows]
    lines = aligned(["", "chips".rjust(wide), "what it is", "fraction"], texts, 4)
    if least == most:
        return [*lines, "So the game is worth exactly %s to player 1." % fraction_text(least)]
    return [*lines, "So the game is worth at least %s and at most %s to player 1." % (at_least, at_most)]


def run(asked: argparse.Namespace) -> None:
    """Runs this command."""
    strategy = strategy_at(asked.strategy)
    print("%s: %s" % (name_of(asked.strategy), strategy.game.name))
    print("\n".join(lines_of(strategy.judge())))
