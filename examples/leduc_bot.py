#!/usr/bin/env python3
"""The bot of leduc_bot.csv as a function, and the function as a table, for `gameshrink-tools pack`. Run it with python/ on PYTHONPATH."""

from pathlib import Path

from gameshrink import Game


def bot(line: str, hand: str, moves: str) -> dict[str, float]:
    """Returns how often the bot makes each move, at a line of the betting with a hand such as Ks or Js/+Qs."""
    card, board = hand[0], hand[4:5]
    if card == (board or "K"):  # a pair, or a king before there is a board: raise, else bet, else call
        return {next(move for move in "rbc" if move in moves): 1}
    if not board and card == "Q":
        return {"k": 1} if "k" in moves else {"c": 1}
    if not board:
        return {"k": 0.75, "b": 0.25} if "k" in moves else {"f": 1}
    if card == "K":
        return {"k": 0.5, "b": 0.5} if "k" in moves else {"c": 1} if line.endswith("b") else {"f": 1}
    return {"k": 1} if "k" in moves else {"f": 1}


game = Game.read(Path(__file__).with_name("leduc.toml"))
print("player,line,hand,move,probability")
for point in game.points:
    for hand in game.texts[point.round]:
        for move, share in bot(point.line, hand, point.moves).items():
            print(point.player, point.line, hand, move, share, sep=",")
