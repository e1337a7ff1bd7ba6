"""Tests of leaks, best responses and mending, and of the commands that show them.

Expected numbers were worked by hand, or come from `judge`, `duel` and `certify`.
"""

import json
import os
import random
import tempfile
import unittest
from fractions import Fraction as F
from pathlib import Path
from unittest import mock

from gameshrink import Exploit, Game, Program, Strategy, duel, play, solve
from gameshrink.leaks import HandPlan, Leaks, Response, alike, own_points, pattern, percent, up_to_suits
from gameshrink.rules import Chooser, read_rules

from .cases import BLIND, EXAMPLES, GAMES, LOOSE, PROGRAM, called, drawn, drawn_classes, example

BOT, NEAR = EXAMPLES / "leduc_bot.csv", EXAMPLES / "leduc_near_optimal.json"
NOISE = F(1, 10**9)  # the near-optimal file is known up to less than 10^-10


def bot() -> Strategy:
    """Returns the rule-based bot of the examples."""
    return Strategy.of(Game.read(EXAMPLES / "leduc.toml"), BOT.read_text(encoding="ascii"), program=PROGRAM)


def exploited(player: int) -> Exploit:
    """Returns how far the bot of the examples can be exploited."""
    packed = bot()
    habit = Chooser(packed.layout, read_rules(BOT.read_text(encoding="ascii").splitlines()), player).at_hand
    return Exploit(packed.plans[player], Strategy.read(NEAR), habit)


class TestLeaks(unittest.TestCase):
    def test_worked_by_hand(self):
        leaks = Strategy.parse(LOOSE).leaks(1)
        found = [(leak.point.line, leak.label, leak.advice(), leak.often, leak.each, leak.chips) for leak in leaks.lossy]
        self.assertEqual(found[:2], [("/kb", "Ks", "c", F(1, 6), 3, F(1, 2)), ("/", "Js", "b", F(1, 3), 1, F(1, 3))])
        self.assertCountEqual(found[2:], [("/kb", "Qs", "c", F(1, 24), 3, F(1, 8)), ("/", "Qs", "b", F(1, 3), F(3, 8), F(1, 8))])
        self.assertEqual(leaks.by_mistake(), [(("fold", "call"), F(5, 8)), (("check", "bet"), F(11, 24))])

    def test_sums_are_the_gaps_of_judge_and_duel(self):
        rng = random.Random(7)
        for name, game in GAMES.items():
            for classes in (None, drawn_classes(rng, game)):
                one, two = drawn(rng, game, classes), drawn(rng, game)
                for player in (1, 2):
                    with self.subTest(name, player=player):
                        leaks, verdict = one.leaks(player), one.judge()
                        self.assertEqual((leaks.value, leaks.gap), (verdict.paid(player), verdict.gap(player)))
                        self.assertEqual(sum(leak.chips for leak in leaks.rows), leaks.gap)
                        self.assertGreaterEqual(min(leak.chips for leak in leaks.rows), 0)
                        met = duel(*((one, two) if player == 1 else (two, one)))
                        leaks = one.leaks(player, two)
                        self.assertEqual((leaks.value, leaks.gap), (met.paid(player), met.gap(player)))

    def test_best_gains_the_gap(self):
        rng = random.Random(8)
        for name, game in GAMES.items():
            for classes in (None, drawn_classes(rng, game)):
                one = drawn(rng, game, classes)
                for player in (1, 2):
                    with self.subTest(name, player=player):
                        before, after = one.judge(), one.best(player).judge()
                        self.assertEqual((after.paid(player), after.gap(player)), (before.paid(player) + before.gap(player), 0))

    def test_certificate_has_the_same_best_values(self):
        strategy = play(GAMES["leduc"], 20, program=PROGRAM)
        stated = json.loads(strategy.certified().splitlines()[1])
        for player in (1, 2):
            response, layout = Response(strategy.plans[3 - player]), strategy.layout
            slots = [(point, of) for point in strategy.game.points for of in layout.members[point.round]]
            for (point, of), number in zip(slots, stated["player%d" % player]["values"], strict=True):
                if point.player == player:
                    self.assertEqual(response.best[point.number][layout.members[point.round][of][0]], int(number))

    def test_alike(self):
        game = Game.rhode(3, 4, 1)
        # by patterns of suits: 3 pairs and 6 times 2; 3 times 1 of one rank, 18 times 3 of two ranks, 6 times 5 of three ranks
        self.assertEqual([len(set(up_to_suits(game.key, at))) for at in range(3)], [3, 15, 87])
        self.assertEqual(len(set(up_to_suits(GAMES["copies"].key, 0))), 4)  # the suits differ: two copies of one card
        leaks = play(GAMES["leduc"], 5, program=PROGRAM).leaks(1)
        self.assertTrue(all("?" in leak.label for leak in leaks.rows))
        self.assertEqual([percent(F(n, 10**6)) for n in (0, 1, 5000, 500000, 995000, 999999)], ["0%", "<0.1%", "0.5%", "50%", "99.5%", ">99.9%"])

    def test_many_suits(self):
        """Twelve suits have 479,001,600 orders."""
        game = Game.parse(example("one_rank.toml").replace('"shdc"', '"abcdefghijkl"'))
        self.assertEqual(len(set(up_to_suits(game.key, len(game.signals) - 1))), 1)
        hands = dict.fromkeys(range(len(game.signals[0])), 1)
        self.assertEqual([len(members) for _, members in alike(game, 0, hands)], [12])


class TestMending(unittest.TestCase):
    def test_exploitability(self):
        strategy, perfect = Strategy.parse(LOOSE), solve(Game.parse(Strategy.parse(LOOSE).game.text()), program=PROGRAM)
        for player, worth in ((1, F(-1, 18)), (2, F(1, 18))):
            exploit = Exploit(strategy.plans[player], perfect)
            self.assertEqual(exploit.total, worth - strategy.judge().sure(player))
            left = [left for _, left in exploit.path(9)]
            self.assertEqual(left, sorted(left, reverse=True))
            self.assertLess(left[0], exploit.total)

    def test_value_after_changes(self):
        """What is found by looking at the changes alone is what a whole response finds."""
        rng = random.Random(11)
        for name, game in GAMES.items():
            plan = HandPlan.of(drawn(rng, game).plans[1])
            response, moved = Response(plan), {}
            for point in rng.sample(own_points(game, 1), min(3, len(own_points(game, 1)))):
                for choice in range(len(point.moves)):
                    signals = rng.sample(range(len(game.signals[point.round])), 2)
                    moved[point.number, choice] = {signal: rng.randint(1, 9) for signal in signals}
            with self.subTest(name):
                self.assertEqual(response.after(moved), Response(plan.moved(moved)).value)
                self.assertNotEqual(plan.moved(moved).made, plan.made)

    def test_no_list_of_leaks_is_a_list_of_repairs(self):
        """Of the 144 places of the bot's seat 1 only 7 single changes to perfect play help, and 8 harm."""
        exploit = exploited(1)
        hands = [{"".join(it for it in text if it not in "sh") for text in texts} for texts in exploit.game.texts]
        self.assertEqual(sum(len(hands[point.round]) for point in own_points(exploit.game, 1)), 144)
        worth = [exploit.left(exploit.mended(exploit.start, [change])) - exploit.total for change in exploit.places()]
        self.assertEqual((sum(it < -NOISE for it in worth), sum(it > NOISE for it in worth)), (7, 8))

    def test_ten_rules_do_what_was_said(self):
        """The rules on top of the bot's table, packed and judged, leave the exploitability that was said: less than 0.4348 and 0.6285."""
        near = Strategy.read(NEAR).judge()
        for player, bound in ((1, F(4348, 10000)), (2, F(6285, 10000))):
            exploit = exploited(player)
            way = list(exploit.path(10))
            left = way[-1][1]
            self.assertLess(left, bound)
            words = ["exploit", "--perfect", str(NEAR), "--table", str(BOT), "--player", str(player), "--mended"]
            table = called(*words, text=bot().text())[1]
            rules = {"%d,%s,%s,%s,%s" % row for changes, _ in way for row in exploit.rules(changes)}
            self.assertEqual(set(table.splitlines()) - set(BOT.read_text(encoding="ascii").splitlines()), rules)
            mended = Strategy.of(exploit.game, table, program=PROGRAM)
            self.assertLess(abs(near.paid(player) - mended.judge().sure(player) - left), NOISE)

    def test_a_mended_table_leaves_out_what_no_longer_decides(self):
        """A table with a row for each hand, its columns in another order, and a comment."""
        packed = bot()
        rows = ["%s,%s,%s,%s,%s" % (row[3], row[2], row[0], row[1], row[4]) for row in packed.rows()]
        with tempfile.TemporaryDirectory() as folder:
            path = Path(folder, "bot.csv")
            path.write_text("\n".join(["# a comment", "move,hand,player,line,probability", *rows, ""]), encoding="ascii")
            words = ["exploit", "--perfect", str(NEAR), "--table", str(path), "--player", "2", "--steps", "2"]
            table = called(*words, "--mended", text=packed.text())[1]
            new = [row.split(",") for row in called(*words, "--rules", text=packed.text())[1].splitlines()[1:]]
            self.assertEqual(called("exploit", "--mended", text=packed.text())[::2], (1, "gameshrink-tools: --mended wants the table: --table TABLE.csv\n"))
        gone = [row for row in packed.rows() if any(row[1] == rule[1] and rule[2] in (row[2], pattern(row[2])) for rule in new)]
        self.assertEqual(len(table.splitlines()), 2 + len(new) + len(rows) - len(gone))
        self.assertGreater(len(gone), len(new))
        found = Strategy.of(packed.game, table, program=PROGRAM)
        self.assertEqual(found.plans[1].weights, packed.plans[1].weights)
        self.assertLess(packed.judge().sure(2) + F(2, 5), found.judge().sure(2))

    def test_rules_of_a_mended_table(self):
        table = "player,line,hand,move,probability\n*,*,A?,b,1\n*,*,A?,c,1\n*,*,*,k,1\n*,*,*,f,1\n"
        packed, perfect = Strategy.of(Game.kuhn(), table, program=PROGRAM), solve(Game.kuhn(), program=PROGRAM)
        for player, worth in ((1, F(-1, 18)), (2, F(1, 18))):
            exploit = Exploit(packed.plans[player], perfect, Chooser(packed.layout, read_rules(table.splitlines()), player).at_hand)
            way = list(exploit.path(2))
            head, rest = table.split("\n", 1)
            rules = "".join("%d,%s,%s,%s,%s\n" % rule for changes, _ in way for rule in exploit.rules(changes))
            mended = Strategy.of(Game.kuhn(), "\n".join([head, rules + rest]), program=PROGRAM)
            self.assertLess(way[-1][1], worth - packed.judge().sure(player))
            self.assertLess(abs(worth - mended.judge().sure(player) - way[-1][1]), NOISE)

    def test_a_rule_names_its_hands_where_others_fit_too(self):
        """A rule may say `J?` where all jacks change, not where one does."""
        exploit = exploited(1)
        change = next(change for change in exploit.places() if change.label == "Q?")
        texts = exploit.game.texts[0]
        self.assertEqual({row[2] for row in exploit.rules([change])}, {"Q?"})
        one = type(change)(change.point, change.signals[:1], change.label, change.shares, change.wanted)
        self.assertEqual({row[2] for row in exploit.rules([one])}, {texts[change.signals[0]]})


class TestCommands(unittest.TestCase):
    def printed(self, *words, text=""):
        status, out, err = called(*words, text=text)
        self.assertEqual((status, err), (0, ""), words)
        return out

    def test_read_rounds_the_safe_way(self):
        out = self.printed("read", text=bot().text())
        numbers = [line.split("  ") for line in out.splitlines()]
        shown = {row[0]: (row[1:][0].strip() or [it for it in row[1:] if it][0].strip(), row[-1].strip()) for row in numbers[2:7]}
        # -29/15 = -1.9333.. is a lower bound, 53/30 = 1.7666.. an upper one, and so are 439/240 = 1.829166.. and 449/240 = 1.870833..
        wanted = {
            "value": ("-0.062500", "-1/16"), "gap1": ("1.829167", "439/240"), "gap2": ("1.870834", "449/240"),
            "player 1 wins at least": ("-1.933334", "-29/15"), "player 2 loses at most": ("1.766667", "53/30"),
        }  # fmt: skip
        self.assertEqual(shown, wanted)
        self.assertEqual(out.splitlines()[-1], "So the game is worth at least -1.933334 and at most 1.766667 to player 1.")

    def test_read_has_digits_for_small_gaps(self):
        least, most = self.printed("read", str(NEAR)).splitlines()[-1].split(" to player")[0].split("at least ")[1].split(" and at most ")
        verdict = Strategy.read(NEAR).judge()
        self.assertTrue(F(least) <= verdict.sure(1) < -verdict.sure(2) <= F(most))
        self.assertLess(F(most) - F(least), 10 * (verdict.gap1 + verdict.gap2))
        # the value of Leduc by the literature, and by an exact solver
        self.assertTrue(F(least) <= F(-1454920850547486749701863871533, 16995463438839962469905132501930) <= F(most))
        self.assertIn("exactly -1/18", self.printed("read", text=solve(Game.kuhn(), program=PROGRAM).text()))

    def test_leaks_add_up_to_the_gap(self):
        out = self.printed("leaks", "--player", "1", "--top", "100", text=bot().text())
        self.assertIn("loses 1.829167 = 439/240 = gap1 of `judge`\n", out)
        shown = [line.split() for line in out.splitlines() if line.split() and line.split()[0].isdigit()]
        self.assertEqual(len(shown), 15)
        self.assertEqual(shown[-1][-1], "100.0%")
        self.assertLess(abs(sum(F(row[-3]) for row in shown) - F(439, 240)), 15 * F(1, 10**6))
        few = self.printed("leaks", "--player", "1", "--top", "2", text=bot().text())
        self.assertIn("and 13 more places, together 1.212500\n", few)
        for against, name, command in ((str(NEAR), "player 2 of %s" % NEAR, "duel"), ("best", "the best response of player 2", "judge")):
            out = self.printed("leaks", "--against", against, "--player", "1", text=bot().text())
            self.assertIn("player 1 of stdin against %s\n" % name, out)
            self.assertIn("gap1 of `%s`\n" % command, out)
        self.assertIn("nothing is lost", self.printed("leaks", text=solve(Game.kuhn(), program=PROGRAM).text()))

    def test_a_sum_that_differs_is_an_error(self):
        """A program that says another gap than the leaks add up to."""
        with tempfile.TemporaryDirectory() as folder:
            other = Path(folder, "gameshrink")
            other.write_text("#!/bin/sh\nprintf 'value -1/16\\ngap1 1/2\\ngap2 449/240\\n'\n", encoding="ascii")
            other.chmod(0o755)
            strategy = Strategy.parse(bot().text(), program=Program(str(other)))
            path = Path(folder, "bot.json")
            path.write_text(strategy.text(), encoding="ascii")
            for words in (["leaks", str(path)], ["report", str(path), str(Path(folder, "out.html"))], ["best", str(path), "--player", "1"]):
                with self.subTest(words[0]), mock.patch.dict(os.environ), self.assertRaisesRegex(AssertionError, "the program says"):
                    called(*words, "--program", str(other))

    def test_best(self):
        for text in (LOOSE, BLIND):
            for player in (1, 2):
                before = Strategy.parse(text).judge()
                after = Strategy.parse(self.printed("best", "--player", str(player), text=text)).judge()
                self.assertEqual((after.paid(player), after.gap(player)), (before.paid(player) + before.gap(player), 0))

    def test_exploit(self):
        out = self.printed("exploit", "--perfect", str(NEAR), "--table", str(BOT), "--player", "1", "--steps", "3", text=bot().text())
        self.assertIn("exploitability: 1.847727, or at most 6.5e-11 less\n", out)
        self.assertEqual([line.split()[-1] for line in out.splitlines()[-4:]], ["1.847727", "1.604153", "1.332138", "1.103441"])
        status, _, err = called("exploit", text=bot().text())
        self.assertEqual(status, 1)
        self.assertIn("solve refuses the game (status 9, overflow: ", err)
        self.assertIn("exploitability: ", self.printed("exploit", text=LOOSE))

    def test_leaks_of_random_opponents_are_those_of_duel(self):
        rng = random.Random(12)
        one, two = drawn(rng, GAMES["rhode"], drawn_classes(rng, GAMES["rhode"])), drawn(rng, GAMES["rhode"])
        leaks = Leaks(one.plans[2], two.plans[1])
        self.assertEqual(leaks.gap, duel(two, one).gap2)


if __name__ == "__main__":
    unittest.main()
