"""Exact answers about small two-player card games: strategies, their gaps, and where they lose. The numbers come from the program `gameshrink`.

>>> bot = Strategy.of(Game.leduc(3, 2, 2), lambda player, line, hand, moves: {"c": 1} if "c" in moves else {"k": 1})
>>> verdict = bot.judge()
>>> print(verdict.value, verdict.gap1, verdict.gap2)
0 22/15 22/15
"""

from .errors import BadInput
from .game import Game, limit_betting
from .leaks import Exploit, Leak, Leaks, Response
from .linear import near
from .program import NoProgram, Program, Refused, Verdict
from .strategy import Answer, Plan, Strategy, duel, play, solve, verify

__all__ = [
    "Answer", "BadInput", "Exploit", "Game", "Leak", "Leaks", "NoProgram", "Plan", "Program", "Refused", "Response", "Strategy", "Verdict",
    "duel", "limit_betting", "near", "play", "solve", "verify",
]  # fmt: skip
