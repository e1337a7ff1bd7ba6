"""Best answers over lossless classes, turns of fictitious play, and certificates as tables of numbers."""

from dataclasses import dataclass
from fractions import Fraction

from .plans import Plan, SequenceForm, first_moves, plan_of_moves
from .refusals import Fault

Table = list[list[int]]
"""A number for each point and class; the classes of a point count from 1, and the first entry is not used."""


class Answers:
    """What a player can do against plans of the other one, by backward induction over classes. Each class is read at its first member.

    The sums over deals do not depend on the plan, so they are made once: for each end and class the other's slots with what they bring, and for each
    move and class the counts of descendants.
    """

    def __init__(self, form: SequenceForm, player: int) -> None:
        self.form, self.player, self.game = form, player, form.game
        classes = form.classes
        self.brought = [[{}, *(self.brought_at(at, one) for one in classes.numbers(end.round))] for at, end in enumerate(self.game.ends)]
        self.below = [
            [[], *([self.counts_below(point.round, one, target) for _, target in point.moves] for one in classes.numbers(point.round))]
            for point in self.game.points
        ]
        number = self.game.round_of(self.game.start)
        self.at_start = {one: len(classes.members[number][one]) for one in classes.numbers(number)}

    def brought_at(self, at: int, one: int) -> dict[int | None, int]:
        """Returns, for each slot of the other player, the sum of weight times what an end pays the player; None is the empty sequence."""
        form, end = self.form, self.game.ends[at]
        step, sign = end.steps[2 - self.player], 1 if self.player == 1 else -1
        sums: dict[int | None, int] = {}
        for other, weight, outcome in form.signals.pairs(end.round, form.classes.first(end.round, one)):
            slot = None if step is None else form.slot_before(step, end.round, form.classes.lists[end.round][other])
            sums[slot] = sums.get(slot, 0) + sign * weight * end.payoff(sign * outcome)
        return sums

    def counts_below(self, number: int, one: int, target: tuple[str, int]) -> dict[int, int]:
        """Returns how many descendants of a class's first member are in each class of the round that a move leads to."""
        form, later = self.form, self.game.round_of(target)
        counts: dict[int, int] = {}
        for signal in form.signals.descendants(number, form.classes.first(number, one), later):
            below = form.classes.lists[later][signal]
            counts[below] = counts.get(below, 0) + 1
        return counts

    def end_worths(self, plan: Plan) -> Table:
        """`end_worth`: returns what each end is worth to the player at each class, against a plan of the other."""
        return [
            [sum(number * (plan.total if slot is None else plan.weights[slot]) for slot, number in sums.items()) for sums in of_classes]
            for of_classes in self.brought
        ]

    def move_worths(self, point: int, one: int, at_points: Table, at_ends: Table) -> list[int]:
        """`class_worth`: returns what each move of a point is worth at a class, by tables over classes."""
        found = []
        for (_, (kind, to)), counts in zip(self.game.points[point].moves, self.below[point][one]):
            values = (at_points if kind == "point" else at_ends)[to]
            found.append(sum(count * values[below] for below, count in counts.items()))
        return found

    def start_sum(self, at_points: Table, at_ends: Table) -> int:
        """`start_sum`: returns the sum of a table at the start, over all raw signals."""
        kind, at = self.game.start
        values = (at_points if kind == "point" else at_ends)[at]
        return sum(count * values[one] for one, count in self.at_start.items())

    def best_values(self, plan: Plan) -> tuple[Table, int, dict[tuple[int, int], int]]:
        """`IsBestValues`: returns the best values at points, the best total, and the first best move at each own point and class."""
        at_ends = self.end_worths(plan)
        at_points: Table = [[0] for _ in self.game.points]
        moves = {}
        for at in reversed(range(len(self.game.points))):
            point = self.game.points[at]
            for one in self.form.classes.numbers(point.round):
                worths = self.move_worths(at, one, at_points, at_ends)
                if point.player == self.player:
                    moves[at, one] = worths.index(max(worths))
                    at_points[at].append(max(worths))
                else:
                    at_points[at].append(sum(worths))
        return at_points, self.start_sum(at_points, at_ends), moves

    def first_best_plan(self, plan: Plan) -> Plan:
        """`IsFirstBestPlan`: returns the plan of total 1 that takes the first move of greatest worth everywhere."""
        return plan_of_moves(self.form, self.player, self.best_values(plan)[2])


def fictitious_play(form: SequenceForm, turns: int) -> tuple[Plan, Plan]:
    """`IsFictitiousPlay`: returns both plans after some turns; each turn adds to each the first best plan against the other's."""
    one, two = first_moves(form, 1), first_moves(form, 2)
    if turns:
        of_one, of_two = Answers(form, 1), Answers(form, 2)
    for _ in range(turns):
        one, two = plan_sum(one, of_one.first_best_plan(two)), plan_sum(two, of_two.first_best_plan(one))
    return one, two


def plan_sum(one: Plan, more: Plan) -> Plan:
    """`IsPlanSum`: returns the sum of two plans of a player."""
    return Plan(one.player, one.total + more.total, [a + b for a, b in zip(one.weights, more.weights)])


@dataclass
class Certificate:
    """For each player the bound, and the numbers by point and class."""

    bounds: list[Fraction]
    numbers: list[list[int]]


def certify(form: SequenceForm, one: Plan, two: Plan) -> Certificate:
    """Returns the certificate of the best values: its bounds are what best answers gain."""
    bounds, numbers = [], []
    for player, other in ((1, two), (2, one)):
        at_points, total, _ = Answers(form, player).best_values(other)
        bounds.append(Fraction(total, form.game.weight * other.total))
        numbers.append([number for of_classes in at_points for number in of_classes[1:]])
    return Certificate(bounds, numbers)


def check_certificate(form: SequenceForm, one: Plan, two: Plan, certificate: Certificate) -> None:
    """`IsCertificate` for both players: refuses a certificate that does not hold, for its first fault."""
    sizes = [form.classes.count(point.round) for point in form.game.points]
    for player, other in ((1, two), (2, one)):
        numbers = certificate.numbers[player - 1]
        if len(numbers) != sum(sizes):
            raise Fault(f"player {player} length")
        left = iter(numbers)
        table = [[0, *(next(left) for _ in range(size))] for size in sizes]
        answers = Answers(form, player)
        at_ends = answers.end_worths(other)
        for at, point in enumerate(form.game.points):
            for number in form.classes.numbers(point.round):
                worths = answers.move_worths(at, number, table, at_ends)
                if table[at][number] < (max(worths) if point.player == player else sum(worths)):
                    raise Fault(f"player {player} low at point {at} class {number}")
        found = Fraction(answers.start_sum(table, at_ends), form.game.weight * other.total)
        if found != certificate.bounds[player - 1]:
            raise Fault(f"player {player} bound found {found.numerator}/{found.denominator}")
