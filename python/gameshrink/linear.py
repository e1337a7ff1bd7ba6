"""The linear program of a game in sequence form (docs/FORMATS.md, "The program of a game"), and strategies near an equilibrium by outside solvers.

It reads a game and classes, and shares no code with the program. It lists every deal: a second for each 100,000.
"""

from __future__ import annotations

import json
from collections import defaultdict
from collections.abc import Mapping, Sequence
from fractions import Fraction
from functools import cached_property, lru_cache

from . import solvers
from .errors import BadInput
from .game import Game
from .layout import LARGEST_TOTAL, Classes, Layout
from .program import Program
from .progress import Progress
from .solvers import Optimum
from .strategy import Strategy, classes_of, packed
from .texts import decimal

Row = dict[int, int]  # numbers of sequences or constraints with their factors
Pairs = dict[tuple[int, int], int]  # weights by the classes of both players


class SequenceForm:
    """Sequences, constraints and payoffs of a game over classes: those of `player`, and of the opponent the same or others.

    >>> form = SequenceForm(Game.kuhn(), Game.kuhn().raw_classes())
    >>> len(form.constraints(1)), form.weight
    (7, 6)
    """

    def __init__(self, game: Game, classes: Classes, player: int = 1, others: Classes | None = None):
        self.game, self.player, self.layout = game, player, Layout(game, classes)
        other = self.layout if others is None else Layout(game, others)
        self.layouts = {player: self.layout, 3 - player: other}
        self.slots = {it: layout.slots[it] for it, layout in self.layouts.items()}
        self.sets = {it: layout.sets[it] for it, layout in self.layouts.items()}
        self._add_deals()

    def _add_deals(self) -> None:
        """Adds up, by pairs of classes, each round's weight, and in the last round the outcomes of `player` times the winner's bonus."""
        self.weights: list[Pairs] = [defaultdict(int) for _ in self.game.sizes]
        self.outcomes: Pairs = defaultdict(int)
        self.weight = 0
        mine, other = (self._upward(self.layouts[it].classes) for it in (self.player, 3 - self.player))
        for one, two, weight, won in dealt(self.game):
            self.weight += weight
            for at, sums in enumerate(self.weights):
                sums[mine[at][one], other[at][two]] += weight
            if won:
                self.outcomes[mine[-1][one], other[-1][two]] += won

    def _upward(self, classes: Classes) -> Classes:
        """Returns for each round the class in which a signal of the last round was then."""
        found, above = [classes[-1]], list(range(len(classes[-1])))
        for at in range(len(classes) - 1, 0, -1):
            above = [self.game.parents[at][signal] for signal in above]
            found.insert(0, [classes[at - 1][signal] for signal in above])
        return found

    @cached_property
    def payoffs(self) -> dict[int, Row]:
        """What two sequences pay `player` over all deals, by the number of the opponent's."""
        table: dict[int, Row] = {}
        for end in self.game.ends:
            if end.folded:
                sums, chips = self.weights[end.round], end.put if end.folded != self.player else -end.put
            else:
                sums, chips = self.outcomes, end.put
            for (c, d), amount in sums.items():
                one = self.layout.sequence(self.player, end.steps, c, end.round)
                two = self.layouts[3 - self.player].sequence(3 - self.player, end.steps, d, end.round)
                row = table.setdefault(two, {})
                row[one] = row.get(one, 0) + chips * amount
        return table

    def constraints(self, player: int) -> list[Row]:
        """Returns the rows that say what a plan is: sequence numbers with their factors."""
        rows, layout = [{0: 1}], self.layouts[player]
        for number, of in self.sets[player]:
            row = dict.fromkeys(layout.moves_at(player, number, of), 1)
            row[layout.before(player, number, of)] = -1
            rows.append(row)
        return rows

    def program(self, beside: SequenceForm | None = None, floor: Fraction = Fraction(0)) -> str:
        """Returns in the LP format the program for `player`: the greatest q0, with its sign turned.

        With `beside`, a form over the same classes of `player`, the plan must also secure the floor, a sum over all deals, against that opponent."""
        lines = ["Minimize", " aim: - q0", "Subject To"]
        for at, row in enumerate(self.constraints(self.player)):
            lines.append(" e%d: %s = %d" % (at, terms(row, "x"), at == 0))
        lines += self._bounds("y", "q", "s")
        free = ["q%d" % at for at in range(len(self.sets[3 - self.player]) + 1)]
        if beside:
            lines += [*beside._bounds("z", "r", "t"), " floor: %d r0 >= %s" % floor_row(floor)]
            free += ["r%d" % at for at in range(len(beside.sets[3 - self.player]) + 1)]
        return "\n".join([*lines, "Bounds", *(" %s free" % name for name in free), "End", ""])

    def _bounds(self, name: str, free: str, slack: str) -> list[str]:
        """Returns a row for each sequence of the opponent, by which no plan of theirs holds `player` below number 0 of the letter `free`."""
        bounds: dict[int, Row] = {}
        for at, row in enumerate(self.constraints(3 - self.player)):
            for sequence, factor in row.items():
                bounds.setdefault(sequence, {})[at] = factor
        lines = []
        for two in range(len(self.slots[3 - self.player]) + 1):
            paid = {one: -amount for one, amount in self.payoffs.get(two, {}).items()}
            lines.append(" %s%d: %s %s + 1 %s%d = 0" % (name, two, terms(bounds[two], free), terms(paid, "x"), slack, two))
        return lines

    def paid(self, weights: Sequence[int]) -> Row:
        """Returns what each sequence of `player` is paid over all deals against a plan of the opponent, times its total."""
        sums: Row = defaultdict(int)
        for two, row in self.payoffs.items():
            if weights[two]:
                for one, amount in row.items():
                    sums[one] += amount * weights[two]
        return sums

    def most(self, paid: Mapping[int, Fraction | int]) -> Fraction | int:
        """Returns the most that a plan of `player` gets where each sequence is paid so much: a best response over the classes.

        >>> form = SequenceForm(Game.kuhn(), [[1, 1, 1]])
        >>> form.most(form.paid([1, 1, 0, 1, 0])) / form.weight  # each bet of player 1 wins a chip
        1.0
        """
        sums = [paid.get(slot, 0) for slot in range(len(self.slots[self.player]) + 1)]
        for number, of in reversed(self.sets[self.player]):
            sums[self.layout.before(self.player, number, of)] += max(sums[slot] for slot in self.layout.moves_at(self.player, number, of))
        return sums[0]

    def value(self, optimum: Optimum) -> Fraction:
        """Returns what the game is worth to `player` by an optimum of `program`."""
        return -optimum.aim / self.weight

    def rounded_plans(
        self, columns: Mapping[str, Fraction], prices: Mapping[str, Fraction], total: int | None = LARGEST_TOTAL, row: str = "y"
    ) -> list[list[int]]:
        """Returns whole weights of `player` and of the opponent near a solution: `columns` by the names of `program`, and the dual values of its rows
        whose names begin with `row`. Without a total nothing is rounded, where a total of 2^36 or less has the plan."""

        def plan(player: int, letter: str, numbers: Mapping[str, Fraction]) -> list[int]:
            layout = self.layouts[player]

            def shares(number: int, of: int) -> list[Fraction]:
                found = (numbers.get("%s%d" % (letter, slot), Fraction(0)) for slot in layout.moves_at(player, number, of))
                parts = [max(share, Fraction(0)) if letter == "x" else abs(share) for share in found]
                return parts if any(parts) else [Fraction(choice == 0) for choice in range(len(parts))]

            try:
                return packed(layout, player, shares, total)
            except BadInput:
                return packed(layout, player, shares, LARGEST_TOTAL)

        return [plan(self.player, "x", columns), plan(3 - self.player, row, prices)]

    def strategy(self, optimum: Optimum, total: int | None = LARGEST_TOTAL, program: Program | None = None) -> Strategy:
        """Returns the strategy nearest to an optimum with whole weights of a total, where both players see the same classes."""
        return Strategy(self.layout, self.rounded_plans(optimum.columns, optimum.prices, total), program)


@lru_cache(maxsize=4)
def _dealt(stated: str) -> list[tuple[int, int, int, int]]:
    game = Game(json.loads(stated))
    numbers = {signal: number for number, signal in enumerate(game.signals[-1])}
    strengths, found = [game.strength(signal) for signal in game.signals[-1]], []
    for signals, weight in game.deals():
        one, two = (numbers[signal] for signal in signals)
        mine, other = strengths[one], strengths[two]
        found.append((one, two, weight, weight * ((mine > other) - (mine < other)) * game.bonus[max(mine, other)[0]]))
    return found


def dealt(game: Game) -> list[tuple[int, int, int, int]]:
    """Returns each deal: the numbers of both players' signals of the last round, its weight, and that times player 1's outcome and the winner's bonus.

    >>> dealt(Game.kuhn())[:2]
    [(0, 1, 1, -1), (0, 2, 1, -1)]
    """
    return _dealt(game.key)


def floor_row(floor: Fraction) -> tuple[int, str]:
    """Returns the factor and the right side of a floor's row; nine decimals serve a solver in floating point better than large whole numbers."""
    return (1, decimal(floor, 9)) if (floor * 10**9).denominator == 1 else (floor.denominator, str(floor.numerator))


def terms(row: Row, letter: str) -> str:
    """Returns a sum of the LP format, broken into lines."""
    parts = ["%s %d %s%d" % ("-" if factor < 0 else "+", abs(factor), letter, at) for at, factor in sorted(row.items()) if factor]
    lines = [" ".join(parts[at : at + 12]) for at in range(0, len(parts), 12)]
    return "\n  ".join(lines)


def near(game: Game, solver: str | None = None, classes: str = "split", total: int = LARGEST_TOTAL, program: Program | None = None) -> Strategy:
    """Returns a strategy near an equilibrium by Clp (`clp`) or QSopt_ex (`qsopt_ex`); its gaps are exact whatever the solver did.

    >>> from gameshrink import solvers
    >>> verdict = near(Game.kuhn()).judge() if solvers.has_floating() else solve(Game.kuhn()).judge()
    >>> verdict.gap1 + verdict.gap2 < Fraction(1, 10**9)
    True
    """
    chosen = solvers.installed(solver)
    with Progress("near", 3) as progress:
        progress.begin("classes")
        numbers = classes_of(game, classes, program)
        progress.begin("deals and the linear program")
        form = SequenceForm(game, numbers)
        text = form.program()
        progress.begin(chosen)
        return form.strategy(solvers.solved(text, chosen), total, program)
