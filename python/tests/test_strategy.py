"""Tests of games, strategies and runs of the program. Expected numbers were worked by hand, or come from the program."""

import random
import unittest
from fractions import Fraction as F

from gameshrink import BadInput, Game, Refused, Strategy, duel, verify

from .cases import BLIND, GAMES, LOOSE, PROGRAM, drawn


class TestStrategy(unittest.TestCase):
    def test_made_games(self):
        for kind, ranks, suits, cap in (("kuhn", 3, 1, 1), ("leduc", 5, 2, 4), ("rhode", 4, 3, 0), ("rhode", 13, 4, 8)):
            words = "make --kind %s --ranks %d --suits %d --cap %d" % (kind, ranks, suits, cap)
            self.assertEqual(Game.parse(PROGRAM.run(words)).stated, Game.made(kind, ranks, suits, cap).stated)
        self.assertEqual(Game.leduc().name, "Leduc hold'em, 3 ranks, 2 suits, cap 2")
        self.assertEqual(PROGRAM.run("check --summary", Game.leduc().text()).splitlines()[0], "deals 120 weight 120")

    def test_round_trips(self):
        for game in GAMES.values():
            strategy = drawn(random.Random(9), game)
            self.assertEqual(Strategy.parse(strategy.text()).text(), strategy.text())
            table = "player,line,hand,move,probability\n" + "".join("%s,%s,%s,%s,%s\n" % row for row in strategy.rows())
            again = Strategy.of(game, table, total=None, program=PROGRAM)
            self.assertEqual(again.judge(), strategy.judge())
            self.assertEqual(Strategy.parse(strategy.filled()).text(strategy.judge()), strategy.filled())

    def test_functions(self):
        fold = Strategy.of(Game.kuhn(), lambda player, line, hand, moves: {"k": 1} if "k" in moves else {"f": 1}, program=PROGRAM)
        self.assertEqual(fold.judge(), duel(fold, fold))
        self.assertEqual((fold.shares(2, "/b", "As"), fold.judge().value), ({"f": 1, "c": 0}, 0))
        with self.assertRaisesRegex(BadInput, "no shares of the moves kb"):
            Strategy.of(Game.kuhn(), lambda *_: [1, -1], program=PROGRAM)
        with self.assertRaisesRegex(BadInput, "the hands of class 1 play differently"):
            Strategy.of(Game.kuhn(3, 2, 1), lambda player, line, hand, moves: [1, 0] if "s" in hand else [0, 1], classes="split", program=PROGRAM)

    def test_refusals(self):
        with self.assertRaises(Refused) as found:
            PROGRAM.run("shrink", "version = 1\n")
        self.assertEqual((found.exception.status, found.exception.line), (7, "bad game: missing key ranks"))
        with self.assertRaises(Refused) as found:
            Strategy.parse(BLIND).certified()
        self.assertEqual((found.exception.status, found.exception.line), (8, "unlike: round 1 Js Qs"))
        with self.assertRaisesRegex(BadInput, "is no strategy file"):
            Strategy.parse("{}")

    def test_certificates(self):
        certified = Strategy.parse(LOOSE).certified()
        self.assertEqual(verify(certified), {"value": F(1, 12), "player1": F(7, 6), "player2": F(13, 12)})
        with self.assertRaises(Refused):
            verify(certified.replace('"7/6"', '"8/6"'))
