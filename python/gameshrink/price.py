"""What classes of hands cost: the most that plans over them secure against an opponent who sees every card, for both seats, in exact brackets.

A linear program of an outside solver finds the plans. The lower ends are what `judge` says of the finished strategy file; the upper ends are the
best response within the classes to a plan of the opponent, in whole numbers. Floating-point numbers occur inside the solver alone.
"""

from __future__ import annotations

from collections import defaultdict
from collections.abc import Callable
from dataclasses import dataclass
from fractions import Fraction
from functools import cached_property

from . import solvers
from .classes import numbered
from .game import Game
from .layout import LARGEST_TOTAL, Classes
from .linear import SequenceForm, dealt, floor_row, near
from .program import Program
from .solvers import Optimum
from .strategy import Strategy

SEATS = (1, 2)
SLACK = Fraction(1, 10**9)  # chips by which a plan may miss the best one in the abstract game and count as an equilibrium plan
Bracket = tuple[Fraction, Fraction]  # at least and at most


@dataclass(frozen=True)
class Found:
    """A plan of each player over classes, and what is secured in each seat: of an equilibrium by this plan, of the others by any such plan.

    `exact` has an exact solver's numbers, and is empty without one."""

    strategy: Strategy
    secured: dict[int, Bracket]
    exact: dict[int, Fraction]


def price(value: Bracket, secured: Bracket) -> Bracket:
    """Returns what classes cost a seat: the game's value to it less what is secured.

    >>> price((Fraction(1), Fraction(1)), (Fraction(1, 3), Fraction(1, 2)))
    (Fraction(1, 2), Fraction(2, 3))
    """
    return value[0] - secured[1], value[1] - secured[0]


def value_of(game: Game, solver: str | None = None, program: Program | None = None) -> dict[int, Bracket]:
    """Returns what the game is worth to each seat, between what near-optimal plans over lossless classes are sure of."""
    verdict = near(game, solver, program=program).verdict
    return {1: (verdict.sure(1), -verdict.sure(2)), 2: (verdict.sure(2), -verdict.sure(1))}


def opponent_classes(game: Game, classes: Classes) -> Classes:
    """Returns the coarsest classes over which a player loses nothing against an opponent whose plans are over `classes`.

    Members of a class meet each of these with the same weight and outcome, have parents of one class, and have equally many children in each class.

    >>> opponent_classes(Game.kuhn(), [[1, 1, 2]])
    [[1, 2, 3]]
    """
    hands = [len(signals) for signals in game.signals]
    met: list[dict[tuple[int, int], int]] = [defaultdict(int) for _ in range(hands[-1])]
    for one, two, weight, won in dealt(game):
        met[one][classes[-1][two], won // weight] += weight
    last = numbered(tuple(sorted(sums.items())) for sums in met)
    found = [[1] * count for count in hands]
    while True:
        keys = [numbered(zip(found[-1], last))]
        for at in range(len(hands) - 1, 0, -1):
            children: list[list[int]] = [[] for _ in range(hands[at - 1])]
            for parent, key in zip(game.parents[at], keys[0]):
                children[parent].append(key)
            keys.insert(0, numbered((of, tuple(sorted(below))) for of, below in zip(found[at - 1], children)))
        for at in range(1, len(hands)):
            keys[at] = numbered((keys[at - 1][parent], key) for parent, key in zip(game.parents[at], keys[at]))
        if [max(numbers) for numbers in keys] == [max(numbers) for numbers in found]:
            return found
        found = keys


class Abstraction:
    """A game with classes of its hands. `solver` is `clp` or `qsopt_ex`; `tell` is called with each long step before it begins."""

    def __init__(
        self, game: Game, classes: Classes, solver: str | None = None, program: Program | None = None, tell: Callable[[str], None] = lambda step: None
    ):
        self.game, self.classes, self.tell = game, classes, tell
        self.solver, self.program = solvers.installed(solver), program or Program()
        self.is_exact = self.solver == "qsopt_ex"
        self.total = None if self.is_exact else LARGEST_TOTAL
        self._forms: dict[tuple[int, bool], SequenceForm] = {}

    @cached_property
    def opponents(self) -> Classes:
        """The classes of an opponent who sees every card, as far as these help against plans over the classes."""
        return opponent_classes(self.game, self.classes)

    def _form(self, seat: int, sees_all: bool) -> SequenceForm:
        """Returns the sequence form of a player over the classes, against an opponent who sees every card or the classes alone."""
        if (seat, sees_all) not in self._forms:
            self._forms[seat, sees_all] = SequenceForm(self.game, self.classes, seat, self.opponents if sees_all else None)
        return self._forms[seat, sees_all]

    def _solved(self, step: str, program: str) -> Optimum:
        self.tell(step)
        return solvers.solved(program, self.solver)

    def _most(self, form: SequenceForm, against: list[int]) -> Fraction:
        """Returns the most that plans over the classes are paid against a plan of the opponent, in chips per deal."""
        return Fraction(form.most(form.paid(against)), form.weight * against[0])

    def _found(self, plans: list[list[int]], most: dict[int, Fraction], exact: dict[int, Fraction]) -> Found:
        strategy = Strategy(self._form(1, True).layout, plans, self.program)
        return Found(strategy, {seat: (strategy.verdict.sure(seat), most[seat]) for seat in SEATS}, exact if self.is_exact else {})

    @cached_property
    def best(self) -> Found:
        """For each seat the plan over the classes that secures most."""
        plans, most, exact = [], {}, {}
        for seat in SEATS:
            form = self._form(seat, True)
            optimum = self._solved("the best plan of player %d" % seat, form.program())
            mine, other = form.rounded_plans(optimum.columns, optimum.prices, self.total)
            most[seat], exact[seat] = self._most(form, other), form.value(optimum)
            plans.append(mine)
        return self._found(plans, most, exact)

    @cached_property
    def _equilibrium(self) -> tuple[Found, Bracket]:
        """An equilibrium of the abstract game, and what that game is worth to player 1."""
        form = self._form(1, False)
        optimum = self._solved("the abstract game", form.program())
        strategy = form.strategy(optimum, self.total, self.program)
        value = (form.value(optimum),) * 2
        if not self.is_exact:
            value = -self._most(self._form(2, False), strategy.plans[1].weights), self._most(form, strategy.plans[2].weights)
        return Found(strategy, {seat: (strategy.verdict.sure(seat),) * 2 for seat in SEATS}, {}), value

    @property
    def abstract(self) -> Found:
        """An equilibrium of the game in which both players see the classes alone, as the solver finds it."""
        return self._equilibrium[0]

    @property
    def abstract_value(self) -> Bracket:
        """What the game is worth to player 1 if both players see the classes alone."""
        return self._equilibrium[1]

    @cached_property
    def kindest(self) -> Found:
        """For each seat the plan that secures most of those that are optimal in the abstract game: up to 10^-9 chips, and exactly by an exact solver."""
        plans, most, exact = [], {}, {}
        for seat in SEATS:
            form, inner = self._form(seat, True), self._form(seat, False)
            worth = self.abstract_value[0] if seat == 1 else -self.abstract_value[1]
            floor = worth * form.weight if self.is_exact else Fraction(round((worth - SLACK) * form.weight * 10**9), 10**9)
            optimum = self._solved("the kindest equilibrium of player %d" % seat, form.program(inner, floor))
            mine, other = form.rounded_plans(optimum.columns, optimum.prices, self.total)
            _, beside = inner.rounded_plans(optimum.columns, optimum.prices, self.total, "z")
            times = abs(optimum.prices.get("floor", Fraction(0))) * floor_row(floor)[0]
            # a plan that is paid the floor or more against `beside` is paid no more than this against `other`
            paid = {one: Fraction(amount, other[0]) for one, amount in form.paid(other).items()}
            for one, amount in inner.paid(beside).items():
                paid[one] = paid.get(one, Fraction(0)) + times * amount / beside[0]
            most[seat], exact[seat] = (form.most(paid) - times * floor) / form.weight, form.value(optimum)
            plans.append(mine)
        return self._found(plans, most, exact)
