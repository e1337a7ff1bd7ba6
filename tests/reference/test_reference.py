"""Compares the reference with brute force on small games, and with values that were published or worked by hand.

  python3 -m unittest discover -s tests/reference -t tests
"""

import doctest
import importlib
import itertools
import random
import re
import sys
import unittest
from collections import Counter
from collections.abc import Iterator
from fractions import Fraction
from math import comb, gcd, prod
from pathlib import Path as FilePath

sys.dont_write_bytecode = True

from . import random_inputs
from .answers import Answers, fictitious_play
from .betting import LETTERS, limit_tree, parse_tree, tree_text
from .cards import Deck, groups
from .classes import Classes, coarsest_lossless, first_unlike, numbered, single_classes
from .command import run
from .game import Game
from .game_file import read_game
from .isomorphism import Isomorphism, node_numbers, signal_classes
from .json_text import Float, read_json
from .plans import Plan, SequenceForm, best_raw_answer, check_plan, raw_payoff, verdict
from .ranking import three_strength
from .refusals import Fault, Refusal
from .signals import Signals
from .simplex import Path, Program, Rows, Wide, primitive, rows_after, rows_of
from .solution import GameProgram, path_of, solve
from .strategy_file import Strategy, read_strategy, strategy_line
from .toml_text import in_older_spelling, read_toml

EXAMPLES = FilePath(__file__).parents[2] / "examples"
BELL = [1, 1, 2, 5, 15, 52, 203, 877, 4140, 21147]


def games(name: str, count: int, **limits: int) -> Iterator[tuple[random.Random, Game]]:
    """Yields random games."""
    for at in range(count):
        rng = random.Random(f"{name} {at}")
        yield rng, read_game(random_inputs.random_game(rng, **limits))


def example(name: str) -> Game:
    """Returns a game of examples/."""
    return read_game((EXAMPLES / f"{name}.toml").read_bytes())


def random_form(rng: random.Random, game: Game) -> SequenceForm:
    """Returns a game over random classes."""
    signals = Signals(game)
    return SequenceForm(signals, random_inputs.random_classes(rng, signals))


class Cards(unittest.TestCase):
    """Groups, deals and strengths."""

    def test_groups_are_all_combinations_of_physical_cards(self) -> None:
        for left in ([1, 2, 0, 3], [1, 1, 1], [0, 0]):
            cards = [kind for kind, have in enumerate(left) for _ in range(have)]
            for size in range(4):
                self.assertEqual(list(groups(left, size)), sorted(set(itertools.combinations(cards, size))))

    def test_weights_count_the_ways_to_draw_physical_cards(self) -> None:
        """All ways to draw the groups of a deal from physical cards, counted deal by deal."""
        tried = 0
        for _, game in games("deals", 120, deals=40):
            cards = [kind for kind, have in enumerate(game.deck.copies) for _ in range(have)]
            sizes = game.deal_sizes()
            if game.weight > 2500:
                continue
            tried += 1
            drawn: Counter[tuple[tuple[int, ...], ...]] = Counter()

            def draw(taken: list[tuple[int, ...]], free: frozenset[int]) -> None:
                if len(taken) == len(sizes):
                    drawn[tuple(tuple(sorted(cards[one] for one in group)) for group in taken)] += 1
                    return
                for group in itertools.combinations(sorted(free), sizes[len(taken)]):
                    draw([*taken, group], free - set(group))

            draw([], frozenset(range(len(cards))))
            self.assertEqual((sum(drawn.values()), len(drawn)), (game.weight, game.deal_count))
            due = {}
            seen: list[set[tuple[tuple[int, ...], ...]]] = [set() for _ in range(game.last_round + 1)]
            for deal, weight in drawn.items():
                one: tuple[tuple[int, ...], ...] = ()
                two: tuple[tuple[int, ...], ...] = ()
                for number in range(game.last_round):
                    board, mine, other = deal[3 * number : 3 * number + 3]
                    one, two = (*one, mine, board), (*two, other, board)
                    seen[number + 1].add(one)
                due[one, two] = weight
            signals = Signals(game)
            shown = signals.shown[-1]
            deals = [(one, two, weight) for one in range(len(shown)) for two, weight, _ in signals.pairs(game.last_round, one)]
            self.assertEqual({(shown[one], shown[two]): weight for one, two, weight in deals}, due)
            for number in range(1, game.last_round + 1):
                self.assertEqual(signals.shown[number], sorted(seen[number]))
        self.assertGreater(tried, 20)

    def test_a_weight_is_the_product_of_the_edges_on_its_way(self) -> None:
        for _, game in games("edges", 20, deals=200):
            signals = Signals(game)
            for signal in range(signals.count(game.last_round)):
                edges, at = 1, signal
                for number in range(game.last_round, 0, -1):
                    edges, at = edges * signals.edges[number][at], signals.parents[number][at]
                weights = [(weight, outcome) for _, weight, outcome in signals.pairs(game.last_round, signal)]
                self.assertEqual(weights, [(edges * leaf, outcome) for leaf, outcome in signals.leaves(signal)])

    def test_pairs_by_ways_are_the_pairs_added_up(self) -> None:
        for _, game in games("pairs", 30):
            signals = Signals(game)
            for number in range(1, game.last_round):
                for signal in range(signals.count(number)):
                    self.assertEqual(signals.pairs(number, signal), signals.pairs_by_ways(number, signal))

    def test_three_cards_rank_as_in_poker(self) -> None:
        """The categories by their counts in the 52-card deck, worked by hand, and their order."""
        deck = Deck("23456789TJQKA", "shdc", "")
        strengths = [three_strength(deck, cards) for cards in itertools.combinations(range(52), 3)]
        counts = Counter(strong // 262144 for strong in strengths)
        straight_flushes, threes = 11 * 4, 13 * 4
        straights, flushes, pairs = 11 * 64 - 44, 4 * comb(13, 3) - 44, 13 * 6 * 48
        self.assertEqual([counts[kind] for kind in (5, 4, 3, 2, 1)], [straight_flushes, threes, straights, flushes, pairs])

        def strong(text: str) -> int:
            return three_strength(deck, [4 * deck.ranks.index(card[0]) + deck.suits.index(card[1]) for card in text.split()])

        down = ["Qs Ks As", "2s 3s 4s", "As Ah Ad", "Qs Kh As", "As Ks Js", "As Ah Ks", "As Ah 2s", "2s 2h As", "As Kh Js", "As 3h 2s"]
        self.assertEqual(sorted(down, key=strong, reverse=True), down)


class Texts(unittest.TestCase):
    """Trees, TOML, JSON, lines and signals."""

    def test_limit_betting(self) -> None:
        self.assertEqual(tree_text(limit_tree(2, 2)), "1[k:2[k:=,b2:1[f:!,c2:=,r4:2[f:!,c2:=]]],b2:2[f:!,c2:=,r4:1[f:!,c2:=]]]")
        self.assertEqual(tree_text(limit_tree(1, 0)), "1[k:2[k:=]]")

    def test_a_fault_of_a_tree_is_at_the_longest_prefix_that_can_be_completed(self) -> None:
        begins = ["", "[", ":=", "=", "!", "1:=", "9:=", "[a:=", *(f"{letter}:=" for letter in LETTERS)]
        endings = [begin + "]" * deep for begin in begins for deep in range(17)]

        def is_tree(text: str) -> bool:
            try:
                return tree_text(parse_tree(text)) == text
            except Fault:
                return False

        rng, tried = random.Random("trees"), 0
        while tried < 60:
            for text in random_inputs.broken_trees(rng):
                if is_tree(text) or not text.isascii() or len(text) > 90:
                    continue
                tried += 1
                with self.assertRaises(Fault) as caught:
                    parse_tree(text)
                at = int(str(caught.exception).split()[-1])
                self.assertTrue(any(is_tree(text[:at] + ending) for ending in endings), text)
                self.assertFalse(at < len(text) and any(is_tree(text[: at + 1] + ending) for ending in endings), text)

    def test_lines_and_signals_differ(self) -> None:
        self.assertEqual(example("kuhn").points[2].line, "/kb")
        for _, game in games("lines", 20):
            everything = [one.line for one in (*game.points, *game.ends)]
            self.assertEqual(len(set(everything)), len(everything))
            signals = Signals(game)
            texts = [signals.text(number, signal) for number in range(1, game.last_round + 1) for signal in range(signals.count(number))]
            self.assertEqual(len(set(texts)), len(texts))

    def test_json(self) -> None:
        bad = ["", "NaN", "[Infinity]", "-", "01", "1.", ".5", "1e", "+1", "[1,]", '{"a":1,}', '["\\ud800"]', '{"a":["\\udc00"]}', '{"\\ud800":1}',
               '{"a":"\\ud800","a":1}', '"\x01"', "'a'", "[1] 2", "1e999", "9" * 400, "\ufeff1", "nul", "[" * 128 + "]" * 128, '"\\x41"', "\x0b1", "/**/1"]
        for text in [*(one.encode() for one in bad), b'"\xff"', b"\xed\xa0\x80"]:
            with self.assertRaises(Fault, msg=text):
                read_json(text)
        for text in ("0", "-1", "1e5", "1e-999", '"\\ud83d\\ude00"', " [ ] \r\n\t", "[" * 127 + "]" * 127, '"' + "[" * 200 + '"'):
            read_json(text.encode())
        self.assertEqual([read_json(text) for text in (b"18446744073709551615", b"-9223372036854775808")], [2**64 - 1, -(2**63)])
        for text in ("18446744073709551616", "-9223372036854775809", "-0", "1.0", "1e0"):
            self.assertEqual(read_json(text.encode()), Float(text))
        self.assertEqual(read_json(b'{"a":1,"a":2}'), {"a": 2})

    def test_toml(self) -> None:
        for text in ("a = 1", 'a = "x#y"\n# z\nb = [1, 2,\n 3,]\n', "a = {b = 1, c = '}'}", 'a = """x\n{y"""\nb = 1', "[[a]]\nb = 1\n[[a]]\n"):
            self.assertEqual(in_older_spelling(text), text)
        for text, due in [("a = {\n b = 1, # c\n\n c = 2,\n}\n", {"a": {"b": 1, "c": 2}}), ("a = [{\n b = {c = 1,\n},}]", {"a": [{"b": {"c": 1}}]}),
                          ('a = "\\e\\x41\\\\x41"', {"a": "\x1bA\\x41"}), ("\ufeffa = 1", {"a": 1})]:
            self.assertEqual(read_toml(text.encode()), due)
        self.assertEqual(str(read_toml(b"a = 07:32\nb = 1979-05-27T07:32-07:00\nc = 1979-05-27 07:32Z\n")["a"]), "07:32:00")
        bad = ["a = {,}", "a = {b = 1,,}", "a = {b\n= 1}", "a = {b =\n1}", "a = 9223372036854775808", "a = '\\e", "a = 1 b = 2", "a = 1\na = 2", "a",
               "a = ", "= 1", "[a", "[[a]", 'a = "\\x4"', "a = {b = 1 c = 2}", "a = {\nb = 1\nc = 2}", "a = 1e999", "a = " + "[" * 81 + "]" * 81]
        for text in bad:
            with self.assertRaises(Fault, msg=text):
                read_toml(text.encode())

    def test_strategies_are_read_back(self) -> None:
        for rng, game in games("files", 15):
            form = random_form(rng, game)
            one, two = (random_inputs.random_plan(rng, form, player) for player in (1, 2))
            strategy = Strategy(form, one, two, verdict(form, one, form, two))
            for version in [1, 2] if set(game.bonus) == {1} else [2]:
                text = strategy_line(strategy, version)
                again = read_strategy(text)
                self.assertEqual((again.form.classes.lists, again.one, again.two, again.numbers), (form.classes.lists, one, two, strategy.numbers))
                self.assertEqual(strategy_line(again, version), text)


class Groupings(unittest.TestCase):
    """Isomorphism, losslessness and refinements."""

    def test_node_numbers_are_isomorphism(self) -> None:
        for _, game in games("iso", 25, deals=150, signals=25):
            signals = Signals(game)
            numbers, literal = node_numbers(signals), Isomorphism(signals)
            for number in range(1, game.last_round + 1):
                for one, two in itertools.combinations(range(signals.count(number)), 2):
                    self.assertEqual(numbers[number][one] == numbers[number][two], literal.isomorphic(number, one, two))

    def test_first_unlike_word_by_word(self) -> None:
        """Losslessness as it is stated: weights added up deal by deal, children counted one by one."""
        for rng, game in games("unlike", 25, deals=100):
            signals, last = Signals(game), game.last_round
            classes = random_inputs.random_classes(rng, signals)
            deals = [(one, *pair) for one in range(signals.count(last)) for pair in signals.pairs(last, one)]

            def sums(number: int, signal: int) -> tuple[Counter[tuple[int, int]], Counter[int]]:
                up, weights = signals.ancestors(last, number), Counter[tuple[int, int]]()
                for one, two, weight, outcome in deals:
                    if up[one] == signal:
                        weights[classes.lists[number][up[two]], outcome if number == last else 0] += weight
                parents = signals.parents[number + 1] if number < last else []
                return weights, Counter(classes.lists[number + 1][child] for child, parent in enumerate(parents) if parent == signal)

            everything = ((number, signal) for number in range(1, last + 1) for signal in range(signals.count(number)))
            unlike = (
                (number, first, signal)
                for number, signal in everything
                if sums(number, signal) != sums(number, first := classes.first(number, classes.lists[number][signal]))
            )
            self.assertEqual(first_unlike(signals, classes), next(unlike, None))

    def test_coarsest_lossless_among_all_refinements(self) -> None:
        tried = 0
        for rng, game in games("coarsest", 300, deals=60, signals=8):
            signals = Signals(game)
            start = signal_classes(signals) if rng.random() < 0.5 else random_inputs.random_classes(rng, signals)
            if not 1 < prod(BELL[len(members)] for of_round in start.members for members in of_round) <= 300:
                continue
            tried += 1
            lossless = [lists for lists in refinements(signals, start) if first_unlike(signals, Classes(signals.parents, lists)) is None]
            coarsest = [lists for lists in lossless if all(refines(other, lists) for other in lossless)]
            self.assertEqual([coarsest_lossless(signals, start).lists[1:]], coarsest)
        self.assertGreater(tried, 20)

    def test_leduc(self) -> None:
        """Jacks with a queen and with a king on the board are isomorphic (docs/THEORY.md)."""
        signals = Signals(example("leduc"))
        literal = Isomorphism(signals)

        def are_isomorphic(one: str, two: str) -> bool:
            number = 2 if "+" in one else 1
            places = [signals.place_of(number, text) for text in (one, two)]
            return literal.isomorphic(number, places[0] or 0, places[1] or 0)

        self.assertTrue(are_isomorphic("Js/+Qs", "Js/+Ks"))
        self.assertTrue(are_isomorphic("Js/+Jh", "Qs/+Qh"))
        self.assertFalse(are_isomorphic("Js", "Qs"))


def partitions(items: list[int]) -> Iterator[list[list[int]]]:
    """Yields all partitions of a list."""
    if not items:
        yield []
        return
    for parts in partitions(items[1:]):
        yield [[items[0]], *parts]
        for at, part in enumerate(parts):
            yield [*parts[:at], [items[0], *part], *parts[at + 1 :]]


def refinements(signals: Signals, classes: Classes) -> Iterator[list[list[int]]]:
    """Yields all class lists that refine classes and have, for members of one class, parents of one class."""

    def from_round(number: int, above: list[int]) -> Iterator[list[list[int]]]:
        if number > signals.rounds:
            yield []
            return
        blocks: dict[tuple[int, int], list[int]] = {}
        for signal, one in enumerate(classes.lists[number]):
            blocks.setdefault((one, above[signals.parents[number][signal]] if above else 0), []).append(signal)
        for parts in itertools.product(*(partitions(block) for block in blocks.values())):
            first = {signal: part[0] for of_block in parts for part in of_block for signal in part}
            here = numbered(first[signal] for signal in range(signals.count(number)))
            yield from ([here, *rest] for rest in from_round(number + 1, here))

    return from_round(1, [])


def refines(fine: list[list[int]], coarse: list[list[int]]) -> bool:
    """Whether signals of one class of the finer lists are of one class of the coarser ones."""
    return all(len(set(zip(a, b))) == len(set(a)) for a, b in zip(fine, coarse))


class Plans(unittest.TestCase):
    """Payoffs, gaps and best answers."""

    def test_payoff_deal_by_deal(self) -> None:
        for rng, game in games("payoff", 25, deals=100):
            form = random_form(rng, game)
            plans = [random_inputs.random_plan(rng, form, player) for player in (1, 2)]
            signals, last, due = form.signals, game.last_round, 0
            for one in range(signals.count(last)):
                for two, weight, outcome in signals.pairs(last, one):
                    for end in game.ends:
                        numbers = []
                        for plan, signal, step in zip(plans, (one, two), end.steps):
                            number = game.points[step[0]].round if step else last
                            at = form.classes.lists[number][signals.ancestors(last, number)[signal]]
                            numbers.append(plan.weights[form.slot(step, at)] if step else plan.total)
                        due += weight * end.payoff(outcome) * prod(numbers)
            self.assertEqual(raw_payoff(form, plans[0], form, plans[1]), due)

    def test_gaps_among_all_pure_raw_plans(self) -> None:
        tried = 0
        for rng, game in games("gaps", 300, deals=30, signals=8, ends=20):
            signals = Signals(game)
            raw = SequenceForm(signals, single_classes(signals))
            if not 8 <= prod(len(point.moves) ** signals.count(point.round) for point in game.points) <= 300:
                continue
            tried += 1
            form = SequenceForm(signals, random_inputs.random_classes(rng, signals))
            one, two = (random_inputs.random_plan(rng, form, player) for player in (1, 2))
            best_of_one = max(raw_payoff(raw, plan, form, two) for plan in pure_plans(raw, 1))
            best_of_two = max(-raw_payoff(form, one, raw, plan) for plan in pure_plans(raw, 2))
            self.assertEqual((best_raw_answer(form, two), best_raw_answer(form, one)), (best_of_one, best_of_two))
            value, gap_of_one, gap_of_two = verdict(form, one, form, two)
            self.assertEqual(value + gap_of_one, Fraction(best_of_one, game.weight * two.total))
            self.assertEqual(gap_of_two - value, Fraction(best_of_two, game.weight * one.total))
        self.assertGreater(tried, 10)

    def test_best_answers_over_lossless_classes_are_best_among_raw_plans(self) -> None:
        for rng, game in games("best", 40):
            signals = Signals(game)
            form = SequenceForm(signals, coarsest_lossless(signals, random_inputs.random_classes(rng, signals)))
            one, two = (random_inputs.random_plan(rng, form, player) for player in (1, 2))
            for player, other in ((1, two), (2, one)):
                answers = Answers(form, player)
                total, best = answers.best_values(other)[1], answers.first_best_plan(other)
                self.assertEqual(total, best_raw_answer(form, other))
                self.assertEqual(total, raw_payoff(form, best, form, two) if player == 1 else -raw_payoff(form, one, form, best))

    def test_worked_strategies_of_kuhn(self) -> None:
        """Payoffs, values and gaps worked by hand."""
        signals = Signals(example("kuhn"))
        form = SequenceForm(signals, single_classes(signals))
        for one, two, payoff, due in [
            (Plan(1, 2, [1, 1, 1, 1, 2, 0, 1, 0, 1, 0, 2, 0]), Plan(2, 2, [1, 1, 1, 1, 2, 0, 2, 0, 2, 0, 2, 0]), 2, "1/12 13/12 7/6"),
            (Plan(1, 1, [0, 1, 0, 1, 0, 1, 0, 0, 0, 0, 0, 0]), Plan(2, 1, [1, 0, 1, 0, 1, 0, 1, 0, 1, 0, 1, 0]), 6, "1/1 0/1 4/3"),
            (Plan(1, 3, [3, 0, 3, 0, 3, 0, 3, 0, 2, 1, 0, 3]), Plan(2, 3, [2, 1, 3, 0, 0, 3, 3, 0, 2, 1, 0, 3]), -3, "-1/18 0/1 0/1"),
        ]:
            self.assertEqual(raw_payoff(form, one, form, two), payoff)
            self.assertEqual(verdict(form, one, form, two), tuple(map(Fraction, due.split())))
        self.assertEqual(verdict(form, fictitious_play(form, 0)[0], form, fictitious_play(form, 0)[1]), (0, 1, 1))
        self.assertEqual(form.cells(), 30)


def pure_plans(form: SequenceForm, player: int) -> Iterator[Plan]:
    """Yields every plan of total 1 that takes one move at each point and class."""
    sets = form.sets(player)
    for moves in itertools.product(*(range(len(form.game.points[point].moves)) for point, _ in sets)):
        plan = Plan(player, 1, [0] * form.slots[player])
        for (point, one), move in zip(sets, moves):
            plan.weights[form.slot((point, move), one)] = form.number_before(plan, point, one)
        yield plan


class Programs(unittest.TestCase):
    """Linear programs, rows, paths and solutions."""

    def test_worked_paths(self) -> None:
        """Paths worked by hand."""

        def program(rows: list[list[int]], aim: list[int]) -> Program:
            return Program([False] * len(aim), rows, aim)

        wide = Path(program([[2305843009213693951, 3, 1], [2305843009213693950, 5, 1]], [0, 0]), [(0, 0), (1, 1)], 9)
        self.assertEqual(wide.stop, Wide(1, 2, 2, 4611686018427387905))
        self.assertEqual(Path(program([[1, -1, 0]], [0, 1]), [(0, 0)], 9).stop, "unbounded")
        self.assertEqual(Path(program([[1, 1, 1]], [0, 1]), [(0, 0)], 0).stop, "pivots")
        path = Path(program([[1, 1, 1]], [0, 1]), [(0, 0)], 1)
        self.assertEqual((path.stop, len(path.pivots), path.values()[1]), (None, 1, 1))

    def test_rows_keep_every_sentence_of_their_definition(self) -> None:
        """Random programs, and lists taken pair by pair: solved anew, changed, and by the definition."""
        rng, done = random.Random("rows"), 0
        while done < 120:
            size = rng.randint(1, 5)
            columns = max(size, rng.randint(1, 7))
            numbers = [[rng.choice([0, 0, 1, -1, 2, -3, 4, 6]) for _ in range(columns + 1)] for _ in range(size)]
            program = Program([False] * columns, numbers, [rng.choice([0, 1, -1, 2, 3]) for _ in range(columns)])
            pairs: list[tuple[int, int]] = []
            rows = Rows([primitive(row) for row in numbers], primitive([*program.aim, 0, 1]))
            while True:
                free = [(row, column) for row in range(size) for column in range(columns) if rows.rows[row][column]]
                free = [(row, column) for row, column in free if all(row != one and column != two for one, two in pairs)]
                if not free:
                    break
                pairs.append(rng.choice(free))
                rows = rows_after(rows, pairs[-1])
                self.assertEqual(rows, rows_of(program, pairs))
                self.check_rows(program, pairs, rows)
                done += 1

    def check_rows(self, program: Program, pairs: list[tuple[int, int]], rows: Rows) -> None:
        """The definition of the rows of a list, with no use of how they were found."""
        own, listed = dict(pairs), {column for _, column in pairs}
        among = [program.rows[row] for row in sorted(own)]
        for at, line in enumerate(rows.rows):
            self.assertIn(gcd(*line), (0, 1))
            self.assertFalse(any(line[column] for column in listed - {own.get(at)}))
            if at in own:
                self.assertIsNotNone(multipliers(among, line))
                self.assertGreater(line[own[at]], 0)
            elif multipliers(among, program.rows[at]) is None:
                found = multipliers([*among, program.rows[at]], line)
                self.assertTrue(found and found[-1] > 0)
        *aim, last, multiple = rows.aim
        self.assertTrue(multiple > 0 and gcd(*rows.aim) == 1 and not any(aim[column] for column in listed))
        self.assertIsNotNone(multipliers(among, [*(multiple * a - b for a, b in zip(program.aim, aim)), last]))

    def test_paths_of_games_both_ways(self) -> None:
        """Solved anew at each step and changed from step to step a path is the same; its end is best, and no basis comes twice."""
        done = 0
        for _, game in games("paths", 120, deals=60, signals=8, ends=10):
            signals = Signals(game)
            form = SequenceForm(signals, coarsest_lossless(signals, signal_classes(signals)))
            if GameProgram(form).table_numbers() > 1000:
                continue
            program, opening = GameProgram(form).program(), GameProgram(form).opening()
            anew, changed = Path(program, opening, 8192, anew=True), Path(program, opening, 8192, anew=False)
            self.assertEqual((anew.stop, anew.pivots, anew.bases, anew.rows), (changed.stop, changed.pivots, changed.bases, changed.rows))
            self.assertEqual(len(set(map(tuple, anew.bases))), len(anew.bases))
            if anew.stop is None:
                values = anew.values()
                self.assertTrue(changed.fits())
                self.assertTrue(all(price >= 0 for price in anew.prices()))
                self.assertTrue(all(value >= 0 or is_free for value, is_free in zip(values, program.free)))
                for row in program.rows:
                    self.assertEqual(sum(a * b for a, b in zip(row, values)), row[-1])
            done += 1
        self.assertGreater(done, 30)

    def test_solutions_leave_no_gap(self) -> None:
        solved = 0
        for _, game in games("solve", 40, deals=150, signals=20, slots=80):
            signals = Signals(game)
            for classes in (coarsest_lossless(signals, signal_classes(signals)), single_classes(signals)):
                form = SequenceForm(signals, classes)
                if GameProgram(form).table_numbers() > 2500:
                    continue
                try:
                    one, two = solve(form)
                except Refusal:
                    continue
                value, *gaps = verdict(form, one, form, two)
                self.assertEqual((gaps, value), ([0, 0], path_of(form).aim_value() / game.weight))
                check_plan(form, one)
                check_plan(form, two)
                solved += 1
        self.assertGreater(solved, 20)

    def test_published_values(self) -> None:
        """Kuhn (1950) has the value -1/18."""
        status, out, _ = run(["solve"], (EXAMPLES / "kuhn.toml").read_bytes)
        self.assertEqual((status, b'"value":"-1/18"' in out), (0, True))


def multipliers(rows: list[list[int]], line: list[int]) -> list[Fraction] | None:
    """Returns fractions that make a line of some rows, 0 for each row that hangs on those before it; None if there are none."""
    reduced: list[tuple[int, list[Fraction], list[Fraction]]] = []

    def reduce(rest: list[Fraction], made: list[Fraction], sign: int) -> None:
        for pivot, row, parts in reduced:
            factor = rest[pivot] / row[pivot]
            rest[:] = [a - factor * b for a, b in zip(rest, row)]
            made[:] = [a - sign * factor * b for a, b in zip(made, parts)]

    for at, numbers in enumerate(rows):
        rest, made = [Fraction(number) for number in numbers], [Fraction(int(at == other)) for other in range(len(rows))]
        reduce(rest, made, 1)
        pivot = next((place for place, number in enumerate(rest) if number), None)
        if pivot is not None:
            reduced.append((pivot, rest, made))
    rest, made = [Fraction(number) for number in line], [Fraction(0)] * len(rows)
    reduce(rest, made, -1)
    return None if any(rest) else made


class Docstrings(unittest.TestCase):
    """The examples, and the definitions that are named."""

    def test_definitions_stand_in_their_document(self) -> None:
        document = (EXAMPLES.parent / "docs" / "DEFINITIONS.md").read_text(encoding="utf-8")
        defined = set(re.findall(r"^\| `(.+?)` \|", document, re.M))
        for path in FilePath(__file__).parent.glob("[a-z]*.py"):
            named = set(re.findall(r'"""`(\w+)`', path.read_text(encoding="utf-8")))
            self.assertEqual(named - defined, set(), path)

    def test_examples(self) -> None:
        for path in FilePath(__file__).parent.glob("[a-z]*.py"):
            if path != FilePath(__file__):
                self.assertEqual(doctest.testmod(importlib.import_module(f"reference.{path.stem}"), verbose=False).failed, 0, path)


if __name__ == "__main__":
    unittest.main()
