"""ranks the places where a player loses against the other plan, in chips per deal

A place is a line of the betting with some hands that play alike. The other plan is that of the same file; of another FILE of the same game, as
`duel` plays it; or the exact best response to the player. What is lost at all places adds up exactly to the player's gap, as `judge` or `duel`
prints it; each run compares the two.

  plays   how often each move is made        each    the chips lost each time, with best play behind the choice
  best    the moves that are best here       chips   often times each: the chips lost per deal
  often   how often per deal one comes here  sum     the shares of the gap, added up

A leak is measured against one opponent, with best play behind the choice. The list is no list of repairs: `exploit` looks for these.
"""

from __future__ import annotations

import argparse

from ..leaks import Leaks
from ..program import Verdict
from ..strategy import Strategy, duel
from ._leaks import add_players, add_top, checked, chips, mistakes_of, name_of, table_of, with_fraction
from ._words import add_strategy, strategy_at


def add_words(parser: argparse.ArgumentParser) -> None:
    """Adds the words of this command."""
    add_strategy(parser)
    add_players(parser)
    parser.add_argument("--against", metavar="FILE", help="a strategy file of the same game, or the word best")
    add_top(parser)


def meeting(strategy: Strategy, player: int, against: str | None) -> tuple[Strategy, Verdict, str]:
    """Returns the strategy whose other plan a player meets, what the program says of the two plans, and the opponent's name."""
    if against == "best":
        other = strategy.best(3 - player)
        return other, other.judge(), "the best response of player %d" % (3 - player)
    if against:
        other = strategy_at(against)
        return other, duel(*((strategy, other) if player == 1 else (other, strategy))), "player %d of %s" % (3 - player, against)
    return strategy, strategy.judge(), "player %d of the same file" % (3 - player)


def run(asked: argparse.Namespace) -> None:
    """Runs this command."""
    strategy = strategy_at(asked.strategy)
    for place, player in enumerate(asked.player or (1, 2)):
        other, verdict, name = meeting(strategy, player, asked.against)
        leaks = Leaks(strategy.plans[player], other.plans[3 - player])
        checked(leaks, verdict)
        never, came = leaks.never_met()
        print("\n" * (place > 0) + "%s: player %d of %s against %s" % (strategy.game.name, player, name_of(asked.strategy), name))
        print("is paid %s chips per deal; best play would be paid %s" % (chips(leaks.value), chips(leaks.response.value)))
        print("loses %s = gap%d of `%s`" % (with_fraction(leaks.gap), player, "duel" if asked.against not in (None, "best") else "judge"))
        print("\n".join(table_of(leaks, asked.top)))
        if leaks.gap:
            print("by kind: %s" % mistakes_of(leaks))
        if never:
            print("unseen: the opponent never leads to %d of the %d places (a line with one hand) that the plan comes to" % (never, came))
