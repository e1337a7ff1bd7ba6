"""Tests of prices. Lower ends are those of `judge`; best responses, of which the upper ends consist, are compared with `judge`, which shares no code
with them; the prices of Kuhn's game without a look at the cards were worked by hand."""

import random
import tempfile
import unittest
from fractions import Fraction as F
from pathlib import Path

from gameshrink import Game, Strategy
from gameshrink.classes import by_rules, counts, refines
from gameshrink.linear import SequenceForm
from gameshrink.price import SEATS, Abstraction, opponent_classes, price, value_of
from gameshrink.solvers import has_exact, has_floating

from .cases import EXAMPLES, GAMES, PROGRAM, called, drawn, drawn_classes, example

CLOSE = F(1, 10**9)
WORTH = F(-1454920850547486749701863871533, 16995463438839962469905132501930)  # Leduc, by QSopt_ex


class TestBestResponses(unittest.TestCase):
    def test_240_best_responses_are_those_of_judge(self):
        rng, tried = random.Random(9), 0
        for name, times in {"kuhn": 14, "leduc": 4, "rhode": 1, "copies": 15, "trees": 12, "empty": 14}.items():
            game = GAMES[name]
            for _ in range(times):
                classes = drawn_classes(rng, game)
                strategy = drawn(rng, game, classes)
                enough = opponent_classes(game, classes)
                for seat in SEATS:
                    for sight in (game.raw_classes(), enough):
                        form = SequenceForm(game, sight, 3 - seat, classes)
                        plan = strategy.plans[seat]
                        self.assertEqual(F(-form.most(form.paid(plan.weights)), form.weight * plan.total), strategy.verdict.sure(seat))
                        tried += 1
        self.assertEqual(tried, 240)

    def test_opponents_need_no_finer_classes(self):
        leduc = GAMES["leduc"]
        raw, one, lossless = leduc.raw_classes(), by_rules(leduc, ["all"]), by_rules(leduc, ["lossless"], program=PROGRAM)
        self.assertEqual(opponent_classes(leduc, raw), raw)
        self.assertEqual(counts(opponent_classes(leduc, lossless)), [3, 9])
        self.assertTrue(refines(lossless, opponent_classes(leduc, one)))


@unittest.skipUnless(has_floating(), "Clp is not installed")
class TestPrices(unittest.TestCase):
    def test_brackets(self):
        rng, tried = random.Random(11), 0
        for name, times in {"kuhn": 7, "copies": 7, "trees": 4, "leduc": 1, "empty": 1}.items():
            game = GAMES[name]
            for _ in range(times):
                classes = drawn_classes(rng, game)
                best, plan = Abstraction(game, classes, "clp", PROGRAM).best, drawn(rng, game, classes)
                for seat in SEATS:
                    least, most = best.secured[seat]
                    self.assertEqual(least, best.strategy.verdict.sure(seat))
                    self.assertTrue(least <= most <= least + CLOSE, (least, most))
                    self.assertLessEqual(plan.verdict.sure(seat), most)
                    tried += 1
        self.assertEqual(tried, 40)

    def test_kuhn_without_a_look_at_the_cards(self):
        # Player 1 bets, or checks and calls: an opponent with a king gains 2, with a queen 0, with a jack loses 1. So -1/3 is secured, and -1/18 is
        # the value. Player 2 who calls each bet loses 2 to a king and wins 1 of a jack that checks: -1/3 of 1/18.
        game = Game.kuhn()
        best, value = Abstraction(game, by_rules(game, ["all"]), "clp", PROGRAM).best, value_of(game, "clp", PROGRAM)
        for seat, worth, cost in ((1, F(-1, 18), F(5, 18)), (2, F(1, 18), F(7, 18))):
            self.assertTrue(value[seat][0] <= worth <= value[seat][1])
            self.assertTrue(best.secured[seat][0] <= F(-1, 3) <= best.secured[seat][1])
            low, high = price(value[seat], best.secured[seat])
            self.assertTrue(low <= cost <= high <= low + CLOSE)

    def test_lossless_classes_cost_nothing_and_others_may(self):
        for game, rules, lossless in ((GAMES["leduc"], "lossless", True), (Game.leduc(3, 3, 1), "iso", False)):
            classes = by_rules(game, [rules], program=PROGRAM)
            best, value = Abstraction(game, classes, "clp", PROGRAM).best, value_of(game, "clp", PROGRAM)
            self.assertEqual(classes == by_rules(game, ["lossless"], program=PROGRAM), lossless)
            for seat in SEATS:
                low, high = price(value[seat], best.secured[seat])
                self.assertTrue(low <= 0 <= high <= low + CLOSE, (low, high))

    def test_prices_do_not_rise_and_equilibria_lose_more(self):
        game, last = GAMES["leduc"], None
        for rules in (["all"], ["board-blind"], ["rank-only"], ["suit-blind"]):
            found = Abstraction(game, by_rules(game, rules), "clp", PROGRAM)
            best, abstract, kindest = found.best, found.abstract, found.kindest
            for seat in SEATS:
                self.assertLessEqual(abstract.secured[seat][0], kindest.secured[seat][1])
                self.assertLessEqual(kindest.secured[seat][0], best.secured[seat][1])
                self.assertLessEqual(kindest.secured[seat][0], kindest.secured[seat][1])
                if last:
                    self.assertLessEqual(last.secured[seat][0], best.secured[seat][1])
            last = best

    def test_command(self):
        leduc, classes = str(EXAMPLES / "leduc.toml"), PROGRAM.run("shrink", example("leduc.toml"))
        with tempfile.TemporaryDirectory() as folder:
            status, out, err = called("price", leduc, "-", "--solver", "clp", "--abstract", "--write", folder, text=classes)
            self.assertEqual((status, err), (0, ""))
            rows = [line.split() for line in out.splitlines() if line.split()[1] in ("1", "2")]
            self.assertEqual([row[:2] for row in rows], [[name, seat] for name in ("best", "abstract", "kindest") for seat in "12"])
            for name, seat, least, most, low, high in rows:
                # the file says what is secured at least, the two brackets add up to Leduc's value
                sure = Strategy.read(Path(folder, name + ".json"), PROGRAM).judge().sure(int(seat))
                self.assertTrue(0 <= sure - F(least) < F(1, 10**10))
                worth = WORTH if seat == "1" else -WORTH
                self.assertTrue(F(least) + F(low) <= worth <= F(most) + F(high))
                self.assertTrue(F(high) - F(low) < F(1, 10**6))
            self.assertEqual([row[5] for row in rows[:2]], ["0.0404231873", "0.0428690851"])  # QSopt_ex: 0.04042318729.., 0.04286908500..
        refused = called("price", leduc, "-", text=classes.replace("2: Qs Qh\n3: Ks Kh", "2: Qs Ks\n3: Qh Kh"))
        self.assertIn("share a class in round 2", str(refused))

    @unittest.skipUnless(has_exact(), "QSopt_ex is not installed")
    def test_exact(self):
        game = GAMES["leduc"]
        classes = by_rules(game, ["board-blind"])
        near, exact = Abstraction(game, classes, "clp", PROGRAM), Abstraction(game, classes, "qsopt_ex", PROGRAM)
        best, kindest = exact.best, exact.kindest
        for seat in SEATS:
            least, most = near.best.secured[seat]
            self.assertTrue(least <= best.exact[seat] <= most)
            self.assertLessEqual(kindest.exact[seat], near.kindest.secured[seat][1])
            self.assertLessEqual(kindest.exact[seat], best.exact[seat])
            self.assertTrue(exact.abstract_value[0] == exact.abstract_value[1])


if __name__ == "__main__":
    unittest.main()
