"""Tests of classes by rules. Expected classes were worked by hand or come from the program; its refusals are compared hand by hand."""

import random
import re
import tempfile
import unittest
from pathlib import Path

from gameshrink import BadInput, Game, Refused, Strategy
from gameshrink.classes import by_rules, checked_classes, class_text, counts, forgotten, numbered, refines, remembering
from gameshrink.layout import Layout

from .cases import EXAMPLES, GAMES, PROGRAM, called, example

LEDUC = GAMES["leduc"]


def groups(game, at, numbers):
    """Returns the hands of each class, as texts."""
    members = {}
    for text, number in zip(game.texts[at], numbers):
        members.setdefault(number, []).append(text)
    return list(members.values())


class TestRules(unittest.TestCase):
    def test_worked_by_hand(self):
        for rules, expected in (
            (["all"], [1, 1]),
            (["raw"], [6, 30]),
            (["suit-blind"], [3, 9]),
            (["rank-only"], [3, 6]),
            (["board-blind"], [3, 3]),
            (["own", "2:own,suits"], [3, 6]),  # two cards of two suits are of one suit or not
            (["own", "2:own,like=*+Q?"], [3, 6]),
            (["like=Q?|[KA]?", "2:own,like=*+A?|*+?s"], [2, 9]),  # a queen on the left and a king, an ace; an ace on the board, else a spade, else a heart
        ):
            with self.subTest(rules):
                self.assertEqual(counts(by_rules(LEDUC, rules)), expected)
        rhode = Game.rhode(3, 2, 1)
        made = by_rules(rhode, ["all", "3:made"], recall=True)[2]
        self.assertEqual(max(made), 3)  # of three ranks in a row and two suits: a pair, a straight, a straight flush
        self.assertEqual(by_rules(rhode, ["raw"]), rhode.raw_classes())

    def test_equal_parts_by_strength(self):
        kuhn = Game.kuhn()
        # a jack wins never, a queen half of the time, a king always; the middle of the queen's third is in the upper half
        self.assertEqual(by_rules(kuhn, ["strength=3"]), [[1, 2, 3]])
        self.assertEqual(by_rules(kuhn, ["strength=2"]), [[1, 2, 2]])
        # Leduc, below each own rank: a pair wins always. A queen without it ties with one of four cards. A king beats two of four with an ace on the
        # board and none with a queen; an ace beats two of four with either. The middle of what is of one strength decides for all of it
        classes = by_rules(LEDUC, ["own", "2:nested=2"])
        self.assertEqual(counts(classes), [3, 6])
        upper = [{hand[0] + hand[4] for hand in found} for found in groups(LEDUC, 1, classes[1])]
        for part in ({"QQ"}, {"QK", "QA"}, {"KQ"}, {"KK", "KA"}, {"AA"}, {"AQ", "AK"}):
            self.assertIn(part, upper)

    def test_classes_of_the_program(self):
        for game in GAMES.values():
            for name, command in (("iso", "shrink"), ("lossless", "check")):
                self.assertEqual(class_text(game, by_rules(game, [name], program=PROGRAM)), PROGRAM.run(command, game.text()))

    def test_table_of_hands(self):
        with tempfile.TemporaryDirectory() as folder:
            path = Path(folder, "buckets.csv")
            path.write_text("hand,class\nQs,low\nQh,low\n??,high\nQ?/*,weak\n*,strong\n", encoding="utf-8")
            classes = by_rules(LEDUC, ["csv=%s" % path])
            self.assertEqual([len(hands) for at in (0, 1) for hands in groups(LEDUC, at, classes[at])], [2, 4, 10, 20])
            for text, line in (
                ("hand,class\nQ?,low\n*/*,x\n", "buckets.csv has no class for Ks of round 1"),
                ("hand,class\n*,x\nJ?,y\n", "buckets.csv, row 3: no hand is J[?]"),
                ("hands,class\n*,x\n", "the first row must name the columns hand,class"),
            ):
                path.write_text(text, encoding="utf-8")
                with self.assertRaisesRegex(BadInput, line):
                    by_rules(LEDUC, ["csv=%s" % path])

    def test_refusals(self):
        for rules, line in (
            (["own", "2:made"], "Qs/[+]Ks and Ks/[+]Qs share a class in round 2, Qs and Ks do not in round 1: classes must remember"),
            (["owns"], "no feature is named owns"),
            (["3:own"], "the game has no round 3"),
            (["2:own"], "there is no rule for round 1"),
            (["own", "1:made"], "round 1 has a rule already"),
            (["csv=no.csv"], "no.csv: No such file"),
            (["strength=0"], "no feature is named strength=0"),
        ):
            with self.subTest(rules), self.assertRaisesRegex(BadInput, line):
                by_rules(LEDUC, rules)

    def test_command(self):
        leduc = str(EXAMPLES / "leduc.toml")
        self.assertEqual(called("classes", leduc, "iso"), (0, PROGRAM.run("shrink", example("leduc.toml")), ""))
        line = "Js/+Qs and Qs/+Js share a class in round 2, Js and Qs do not in round 1: classes must remember"
        self.assertEqual(called("classes", leduc, "own", "2:made"), (1, "", "gameshrink-tools: %s; --recall splits them\n" % line))
        self.assertEqual(called("classes", leduc, "own", "2:made", "--recall"), called("classes", leduc, "own", "2:own,made"))

    def test_text_of_classes(self):
        text = PROGRAM.run("shrink", LEDUC.text())
        self.assertEqual(class_text(LEDUC, checked_classes(LEDUC, text)), text)
        for wrong, line in (
            (text.replace("Qs Qh\n", "Qs\n", 1), "round 1: Qh has no class"),
            (text.replace("Qs Qh\n", "Qs Qh Js\n", 1), "round 1: Js is no hand of the game"),
            (text.split("round 2")[0], "has classes of 1 rounds, and the game has 2"),
            ("hello", "is no list of classes"),
        ):
            with self.assertRaisesRegex(BadInput, line):
                checked_classes(LEDUC, wrong)


class TestRecall(unittest.TestCase):
    def test_refusals_are_those_of_judge(self):
        rng, refused = random.Random(7), 0
        for game in GAMES.values():
            for _ in range(20):
                parts = rng.choice((1, 2, 3))
                classes = [numbered(rng.randrange(parts) for _ in hands) for hands in game.texts]
                breach = forgotten(game, classes)
                layout = Layout(game, classes if breach is None else remembering(game, classes))
                plans = [layout.shared(player, 1, lambda number, of: [1] * len(game.points[number].moves)) for player in (1, 2)]
                text = Strategy(layout, plans).text().replace(str(layout.classes).replace(" ", ""), str(classes).replace(" ", ""))
                if breach is None:
                    PROGRAM.run("judge", text)
                    continue
                with self.assertRaises(Refused) as found:
                    PROGRAM.run("judge", text)
                at, one, two = map(int, re.fullmatch(r"bad strategy: classes: parents apart in round (\d) at (\d+) and (\d+)", found.exception.line).groups())
                self.assertTrue(breach.startswith("%s and %s share a class in round %d" % (game.texts[at - 1][one], game.texts[at - 1][two], at)), breach)
                refused += 1
        self.assertGreaterEqual(refused, 36)

    def test_coarsest_that_remember(self):
        rng = random.Random(8)
        for game in GAMES.values():
            forgetful = [numbered(rng.randrange(2) for _ in hands) for hands in game.texts]
            found = remembering(game, forgetful)
            self.assertIsNone(forgotten(game, found))
            self.assertTrue(refines(found, forgetful))
            # two hands share a class exactly if they agree in the given classes of all rounds so far
            pasts = [[(of,) for of in forgetful[0]]]
            for at in range(1, len(forgetful)):
                pasts.append([(*pasts[-1][parent], of) for parent, of in zip(game.parents[at], forgetful[at])])
            self.assertEqual(found, [numbered(past) for past in pasts])


if __name__ == "__main__":
    unittest.main()
