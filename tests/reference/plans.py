"""Plans over classes in whole numbers, what two of them pay, and their verdict.

Plans are read at raw signals through their lifts, so nothing here asks whether the classes are lossless.
"""

from dataclasses import dataclass
from fractions import Fraction

from .classes import Classes, single_classes
from .game import Step
from .refusals import Fault, Refusal
from .signals import Signals

MOST_SEQUENCES = 262144
MOST_CELLS = 4194304
MOST_TOTAL = 2**36


@dataclass
class Plan:
    """A plan of a player: a total, and the weights in slot order."""

    player: int
    total: int
    weights: list[int]


class SequenceForm:
    """A game with classes of its signals: what a plan's weights stand for.

    `slot` numbers a player's weights: points in order, at each the classes of its round, and for each class the moves.
    """

    def __init__(self, signals: Signals, classes: Classes) -> None:
        self.signals, self.classes, self.game = signals, classes, signals.game
        self.slots = {1: 0, 2: 0}
        self.first_slot = []
        for point in self.game.points:
            self.first_slot.append(self.slots[point.player])
            self.slots[point.player] += classes.count(point.round) * len(point.moves)

    def slot(self, step: Step, one: int) -> int:
        """`slot_of`: returns the slot of a step at a class of its point's round."""
        point, choice = step
        return self.first_slot[point] + (one - 1) * len(self.game.points[point].moves) + choice

    def slot_before(self, step: Step, number: int, one: int) -> int:
        """Returns the slot of a step, at the class from which a class of the same or a later round descends."""
        return self.slot(step, self.classes.ancestor(number, one, self.game.points[step[0]].round))

    def slots_at(self, point: int, one: int) -> range:
        """Returns the slots of the moves at a point and a class."""
        first = self.slot((point, 0), one)
        return range(first, first + len(self.game.points[point].moves))

    def sets(self, player: int) -> list[tuple[int, int]]:
        """`information_sets`: returns a player's points in order, each with the classes of its round."""
        return [(at, one) for at in self.game.own_points(player) for one in self.classes.numbers(self.game.points[at].round)]

    def sequences(self, player: int) -> int:
        """`sequence_count`: returns the number of a player's slots and the empty sequence."""
        return 1 + self.slots[player]

    def number_before(self, plan: Plan, point: int, one: int) -> int:
        """`number_before`: returns what comes to a point and a class, the number of the player's last step or the total."""
        here = self.game.points[point]
        return plan.total if here.own is None else plan.weights[self.slot_before(here.own, here.round, one)]

    def lift(self, plan: Plan, step: Step | None, number: int) -> list[int]:
        """`lift`: returns, for each raw signal of a round, the plan's number of a step at the class of the signal's ancestor; the total without a step."""
        signals = self.signals
        if step is None:
            return [plan.total] * signals.count(number)
        of_step = self.game.points[step[0]].round
        lists = self.classes.lists[of_step]
        return [plan.weights[self.slot(step, lists[ancestor])] for ancestor in signals.ancestors(number, of_step)]

    def cells(self) -> int:
        """`cell_count`: returns the number of pairs of classes that meet in some deal, over all ends."""
        total = 0
        for number in range(1, self.signals.rounds + 1):
            ends = sum(end.round == number for end in self.game.ends)
            if ends:
                lists = self.classes.lists[number]
                met = ({lists[pair[0]] for signal in members for pair in self.signals.pairs(number, signal)} for members in self.classes.members[number])
                total += ends * sum(map(len, met))
        return total

    def check_limits(self) -> None:
        """Refuses a game over classes that is too large."""
        for player in (1, 2):
            if self.sequences(player) > MOST_SEQUENCES:
                raise Refusal(11, f"too large: sequences of player {player}: {self.sequences(player)}")
        cells = self.cells()
        if cells > MOST_CELLS:
            raise Refusal(11, f"too large: cells: {cells}")


def check_plan(form: SequenceForm, plan: Plan) -> None:
    """`IsPlan`: refuses a total and weights that form no plan, for the first rule that is broken."""
    if len(plan.weights) != form.slots[plan.player]:
        raise Fault("length")
    if not 1 <= plan.total <= MOST_TOTAL:
        raise Fault("total")
    for point, one in form.sets(plan.player):
        if sum(plan.weights[slot] for slot in form.slots_at(point, one)) != form.number_before(plan, point, one):
            raise Fault(f"flow at point {point} class {one}")


def plan_of_moves(form: SequenceForm, player: int, moves: dict[tuple[int, int], int]) -> Plan:
    """Returns the plan of total 1 that puts all that comes to a point and a class on one move (`PutsAllOn`)."""
    plan = Plan(player, 1, [0] * form.slots[player])
    for point, one in form.sets(player):
        plan.weights[form.slot((point, moves[point, one]), one)] = form.number_before(plan, point, one)
    return plan


def first_moves(form: SequenceForm, player: int) -> Plan:
    """`IsFirstMoves`: returns the plan of total 1 that takes the first move everywhere."""
    return plan_of_moves(form, player, dict.fromkeys(form.sets(player), 0))


def raw_payoff(of_one: SequenceForm, one: Plan, of_two: SequenceForm, two: Plan, hand: int | None = None) -> int:
    """`raw_payoff`: returns the sum over deals and ends of the weight, what the end pays player 1, and both plans' numbers there.

    Each plan is over classes of its own. Deals with the same signals in the end's round are added up first. With `hand` only the deals
    count in which player 1's signal of round 1 is that one (`hand_payoff`).
    """
    signals, total = of_one.signals, 0
    for end in of_one.game.ends:
        ones = of_one.lift(one, end.steps[0], end.round)
        twos = of_two.lift(two, end.steps[1], end.round)
        hands = signals.ancestors(end.round, 1)
        for signal, number in enumerate(ones):
            if number and hand in (None, hands[signal]):
                total += number * sum(weight * end.payoff(outcome) * twos[other] for other, weight, outcome in signals.pairs(end.round, signal))
    return total


def best_raw_answer(form: SequenceForm, plan: Plan) -> int:
    """Returns the greatest gain of a raw plan of total 1 against a plan of the other player.

    It is found by backward induction over all raw signals of the deviating player: at the own points the best move, at the other's points all moves.
    """
    signals, game = form.signals, form.game
    player = 3 - plan.player
    sign = 1 if player == 1 else -1
    at_ends = []
    for end in game.ends:
        others = form.lift(plan, end.steps[plan.player - 1], end.round)
        at_ends.append([
            sum(sign * weight * end.payoff(sign * outcome) * others[other] for other, weight, outcome in signals.pairs(end.round, signal))
            for signal in range(signals.count(end.round))
        ])
    at_points: list[list[int]] = [[] for _ in game.points]
    values = {"point": at_points, "end": at_ends}
    for at in reversed(range(len(game.points))):
        point = game.points[at]
        chosen = max if point.player == player else sum
        for signal in range(signals.count(point.round)):
            worths = [
                sum(values[kind][to][below] for below in signals.descendants(point.round, signal, game.round_of((kind, to)))) for _, (kind, to) in point.moves
            ]
            at_points[at].append(chosen(worths))
    kind, at = game.start
    return sum(values[kind][at])


Verdict = tuple[Fraction, Fraction, Fraction]


def verdict(of_one: SequenceForm, one: Plan, of_two: SequenceForm, two: Plan) -> Verdict:
    """`IsJudgedVerdict`: returns the value of two plans, and what each player could still gain by any raw plan."""
    weight = of_one.game.weight
    value = Fraction(raw_payoff(of_one, one, of_two, two), weight * one.total * two.total)
    best_of_one = Fraction(best_raw_answer(of_two, two), weight * two.total)
    best_of_two = Fraction(best_raw_answer(of_one, one), weight * one.total)
    return value, best_of_one - value, best_of_two + value


def hand_value(of_one: SequenceForm, one: Plan, of_two: SequenceForm, two: Plan, hand: int) -> Fraction:
    """`IsHandValue`: returns what the deals with a hand of player 1 in round 1 pay player 1, over their weight and both totals."""
    weight = sum(pair[1] for pair in of_one.signals.pairs(1, hand))
    return Fraction(raw_payoff(of_one, one, of_two, two, hand), one.total * two.total * weight)


def raw_cells(signals: Signals) -> int:
    """`raw_cell_count`: returns the number of pairs of raw signals that some deal has, over all ends."""
    return SequenceForm(signals, single_classes(signals)).cells()


def mixture(form: SequenceForm, plan: Plan, point: int, signal: int) -> list[tuple[str, Fraction]]:
    """`IsMixture`: returns the letter and the share of each move of a point at a raw signal."""
    here = form.game.points[point]
    weights = [plan.weights[slot] for slot in form.slots_at(point, form.classes.lists[here.round][signal])]
    if not any(weights):
        weights[0] = 1
    return [(letter, Fraction(weight, sum(weights))) for (letter, _), weight in zip(here.moves, weights)]
