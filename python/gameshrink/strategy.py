"""Strategies: both players' plans over classes of the raw hands, read, written, made and judged."""

from __future__ import annotations

import json
from collections.abc import Callable, Iterable, Iterator, Mapping, Sequence
from dataclasses import dataclass
from fractions import Fraction
from functools import cached_property
from math import lcm
from pathlib import Path
from typing import TYPE_CHECKING

from . import rules
from .errors import BadInput
from .game import Game, Point, Step
from .layout import LARGEST_TOTAL, Classes, Layout, Share, classes_in
from .program import Program, Verdict
from .texts import json_line

if TYPE_CHECKING:
    from .leaks import Leaks

Shares = Mapping[str, Share] | Sequence[Share]
Chooses = Callable[[int, str, str, str], Shares]  # player, line, hand and moves to the shares of the moves


class Reaches:
    """A player's plan by raw signals: with what weight the player's own moves come to each."""

    def __init__(self, game: Game, player: int, total: int):
        self.game, self.player, self.total = game, player, total
        self._reached: dict[tuple[Step, int], list[int]] = {}

    def made_by(self, point: int, choice: int) -> list[int]:
        """Returns the weight of an own move for each raw signal of its round."""
        raise NotImplementedError

    def reach(self, step: Step, at: int) -> list[int]:
        """Returns for each raw signal of a round the weight of the player's last move before, `step`."""
        if (step, at) not in self._reached:
            if step is None:
                found = [self.total] * len(self.game.signals[at])
            elif self.game.points[step[0]].round < at:
                above = self.reach(step, at - 1)
                found = [above[parent] for parent in self.game.parents[at]]
            else:
                found = self.made_by(*step)
            self._reached[step, at] = found
        return self._reached[step, at]


class Plan(Reaches):
    """A player's plan: whole weights out of a total, slot by slot, over classes.

    >>> plan = solve(Game.kuhn()).plans[2]
    >>> plan.game.points[1].line, plan.total, plan.weights_at(1, 1)
    ('/k', 3, [2, 1])
    """

    def __init__(self, layout: Layout, player: int, weights: list[int]):
        super().__init__(layout.game, player, weights[0])
        self.layout, self.weights = layout, weights

    def weights_at(self, number: int, of: int) -> list[int]:
        """Returns the weights of the moves at an information set."""
        return [self.weights[slot] for slot in self.layout.moves_at(self.player, number, of)]

    def made_by(self, point: int, choice: int) -> list[int]:
        """Returns the weight of an own move for each raw signal of its round."""
        at = self.game.points[point].round
        of_class = {of: self.weights[self.layout.slots[self.player][(point, of, choice)]] for of in self.layout.members[at]}
        return [of_class[of] for of in self.layout.classes[at]]

    def over(self, layout: Layout) -> Plan:
        """Returns the same plan over classes that are at least as fine."""
        weights = [self.total]
        for number, of in layout.sets[self.player]:
            at = self.game.points[number].round
            weights += self.weights_at(number, self.layout.classes[at][layout.members[at][of][0]])
        return Plan(layout, self.player, weights)


def shares_of(weights: Sequence[int]) -> list[Fraction]:
    """Returns the shares of a point's moves; where nothing comes, the first move's is 1."""
    whole = sum(weights)
    return [Fraction(weight, whole) if whole else Fraction(choice == 0) for choice, weight in enumerate(weights)]


@dataclass(frozen=True)
class Answer:
    """What `query` prints: the share of each move at a point with a hand, and the player's gap.

    >>> solve(Game.kuhn()).query(2, "/k", "Qs").moves
    {'k': Fraction(2, 3), 'b': Fraction(1, 3)}
    """

    moves: dict[str, Fraction]
    gap: Fraction


class Strategy:
    """A strategy file: a game, classes, and a plan of each player over them.

    >>> def bold(player, line, hand, moves):
    ...     return {"b": 1, "c": 1} if hand[0] in "KA" else {"k": 1, "f": 1}
    >>> bot = Strategy.of(Game.kuhn(), bold)
    >>> bot.shares(1, "/", "Qs")
    {'k': Fraction(1, 1), 'b': Fraction(0, 1)}
    >>> bot.judge()
    Verdict(value=Fraction(0, 1), gap1=Fraction(1, 6), gap2=Fraction(1, 6))
    """

    def __init__(self, layout: Layout, weights: Sequence[list[int]], program: Program | None = None):
        self.layout, self.game, self.classes = layout, layout.game, layout.classes
        self.plans = {player: Plan(layout, player, list(numbers)) for player, numbers in enumerate(weights, 1)}
        self._program = program

    @property
    def program(self) -> Program:
        """The program that judges the strategy."""
        self._program = self._program or Program()
        return self._program

    # ---- ways to make one

    @classmethod
    def parse(cls, text: str, name: str = "the text", program: Program | None = None) -> Strategy:
        """Reads the text of a strategy file; `judge` looks closer at it.

        >>> text = solve(Game.kuhn()).text()
        >>> Strategy.parse(text).text() == text
        True
        """
        try:
            file = json.loads(text)
            layout = Layout(Game(file["game"]), file["classes"])
            plans = [[file[key]["total"], *file[key]["weights"]] for key in ("player1", "player2")]
            sizes = [len(layout.slots[player]) + 1 for player in (1, 2)]
        except (ValueError, KeyError, IndexError, TypeError, AttributeError, RecursionError):
            raise BadInput("%s is no strategy file; `gameshrink play --turns 0 --classes raw < GAME.toml` prints one" % name) from None
        if [len(plan) for plan in plans] != sizes:
            numbers = (len(plans[0]) - 1, len(plans[1]) - 1, sizes[0] - 1, sizes[1] - 1)
            raise BadInput("%s has %d and %d weights, and its game and classes want %d and %d" % (name, *numbers))
        return cls(layout, plans, program)

    @classmethod
    def read(cls, path: str | Path, program: Program | None = None) -> Strategy:
        """Reads a strategy file."""
        return cls.parse(Path(path).read_text(encoding="utf-8"), str(path), program)

    @classmethod
    def of(
        cls, game: Game, source: str | Chooses, classes: str | Classes = "raw", total: int | None = LARGEST_TOTAL, program: Program | None = None
    ) -> Strategy:
        """Makes a strategy from a table's text, or from a function of player, line, hand and moves that returns the shares of the moves.

        Shares come by move or in the order of the moves; they need not add up to 1. `classes` are `raw` (each hand by itself), `split` (the
        coarsest lossless ones), `ogi`, or numbers. Shares are rounded to weights of the total; without a total nothing is rounded.

        >>> table = "player,line,hand,move,probability\\n*,*,A?,b,1\\n*,*,A?,c,1\\n*,*,*,k,1\\n*,*,*,f,1\\n"
        >>> one = Strategy.of(Game.kuhn(), table, total=None)
        >>> two = Strategy.of(Game.kuhn(), lambda player, line, hand, moves: [hand[0] != "A", hand[0] == "A"], total=None)
        >>> one.text() == two.text()
        True
        """
        layout = Layout(game, classes if isinstance(classes, list) else classes_of(game, classes, program))
        first = [layout.shared(player, 1, lambda number, of: _first(game.points[number])) for player in (1, 2)]
        template = cls(layout, first, program)
        if isinstance(source, str):
            return template.packed(source, total)
        return template._with_shares({player: _asking(layout, player, source) for player in (1, 2)}, total)

    def packed(self, table: str, total: int | None = LARGEST_TOTAL) -> Strategy:
        """Returns the strategy that a table describes over the same classes; a player whom no rule speaks of keeps the plan.

        >>> bot = Strategy.of(Game.kuhn(), lambda *_: [1, 0], total=None).packed("player,line,hand,move,probability\\n1,*,*,b,1\\n1,*,*,c,1\\n")
        >>> bot.shares(1, "/", "Qs")["b"], bot.shares(2, "/b", "Qs")["f"]
        (Fraction(1, 1), Fraction(1, 1))
        """
        found = rules.read_rules(table.splitlines())
        rules.look_over(found, self.game)
        choosers = {player: rules.Chooser(self.layout, found, player) for player in (1, 2)}
        rules.look_behind(list(choosers.values()))
        return self._with_shares({player: chooser.shares for player, chooser in choosers.items() if chooser.says}, total)

    def _with_shares(self, asked: Mapping[int, Callable[[int, int], Iterable[Share]]], total: int | None) -> Strategy:
        weights = {player: packed(self.layout, player, asked[player], total) if player in asked else plan.weights for player, plan in self.plans.items()}
        return Strategy(self.layout, [weights[1], weights[2]], self._program)

    def with_plan(self, player: int, plan: Plan) -> Strategy:
        """Returns a strategy with another plan of one player; over each hand by itself where the classes of the two differ."""
        mine, other = plan, self.plans[3 - player]
        layout = self.layout if plan.layout.classes == self.classes else Layout(self.game, self.game.raw_classes())
        plans = {player: mine.over(layout), 3 - player: other.over(layout)}
        return Strategy(layout, [plans[1].weights, plans[2].weights], self._program)

    # ---- what it is

    def shares(self, player: int, line: str, hand: str) -> dict[str, Fraction]:
        """Returns the share of each move at a line with a hand."""
        point = next((p for p in self.game.points if p.line == line and p.player == player), None)
        if point is None or hand not in self.game.texts[point.round]:
            raise BadInput("player %d does not act at %s with %s" % (player, line, hand))
        of = self.classes[point.round][self.game.texts[point.round].index(hand)]
        return dict(zip(point.moves, shares_of(self.plans[player].weights_at(point.number, of))))

    def text(self, verdict: Verdict | None = None) -> str:
        """Returns the strategy file; its value and gaps are 0/1 where no verdict is handed in."""
        numbers = verdict.texts if verdict else ("0/1",) * 3
        plans = {"player%d" % player: {"total": plan.total, "weights": plan.weights[1:]} for player, plan in self.plans.items()}
        stated = dict(zip(("value", "gap1", "gap2"), numbers))
        file = {"classes": self.classes, "game": self.game.stated, "version": self.game.stated["version"], **plans, **stated}
        return json_line(file)

    def filled(self) -> str:
        """Returns the strategy file with its true value and gaps, which `evaluate` confirms where its classes are lossless."""
        return self.text(self.verdict)

    def rows(self) -> Iterator[tuple[int, str, str, str, Fraction]]:
        """Yields the table's rows: player, line, hand, move and probability."""
        for player, plan in self.plans.items():
            for number, of in self.layout.sets[player]:
                point = self.game.points[number]
                shares = shares_of(plan.weights_at(number, of))
                for hand in self.layout.members[point.round][of]:
                    for letter, share in zip(point.moves, shares):
                        yield player, point.line, self.game.texts[point.round][hand], letter, share

    def weight_rows(self) -> Iterator[tuple[int, str, str, str, int]]:
        """Yields the file's whole numbers as rows, one hand for each class: player, line, hand, move and weight."""
        for player, plan in self.plans.items():
            for number, of in self.layout.sets[player]:
                point = self.game.points[number]
                hand = self.game.texts[point.round][self.layout.members[point.round][of][0]]
                for letter, weight in zip(point.moves, plan.weights_at(number, of)):
                    yield player, point.line, hand, letter, weight

    # ---- what the program says of it

    @cached_property
    def verdict(self) -> Verdict:
        """The value and both gaps, by `gameshrink judge`."""
        return self.program.verdict("judge", self.text())

    def judge(self) -> Verdict:
        """Returns the value and both gaps, by `gameshrink judge`: what each player could still gain with every raw hand.

        >>> solve(Game.kuhn()).judge()
        Verdict(value=Fraction(-1, 18), gap1=Fraction(0, 1), gap2=Fraction(0, 1))
        """
        return self.verdict

    def query(self, player: int, line: str, hand: str) -> Answer:
        """Returns what a player does at a line with a hand, by `gameshrink query`; raises `Refused` where the classes are not lossless.

        >>> solve(Game.kuhn()).query(2, "/b", "As")
        Answer(moves={'f': Fraction(0, 1), 'c': Fraction(1, 1)}, gap=Fraction(0, 1))
        """
        words = ["query", "--player", str(player), "--line", line, "--signal", hand]
        *moves, (_, gap) = (row.split() for row in self.program.run(words, self.filled()).splitlines())
        return Answer({move: Fraction(share) for move, share in moves}, Fraction(gap))

    def certified(self) -> str:
        """Returns the strategy file with a certificate of its bounds, by `gameshrink certify`; raises `Refused` where its classes are not lossless."""
        return self.program.run("certify", self.filled())

    # ---- where it loses

    def leaks(self, player: int, against: Strategy | Plan | str | None = None) -> Leaks:
        """Returns where a player loses against the other's plan: of this strategy, of another one, or the exact `best` response."""
        from .leaks import Leaks

        return Leaks(self.plans[player], self.opponent(player, against))

    def opponent(self, player: int, against: Strategy | Plan | str | None) -> Plan:
        """Returns the plan that a player meets; a text asks for the best response."""
        if isinstance(against, Plan):
            return against
        if isinstance(against, str):
            return self.best(3 - player).plans[3 - player]
        return (against or self).plans[3 - player]

    def report(self, path: str | Path, name: str = "strategy", perfect: Strategy | None = None) -> None:
        """Writes a page that shows the strategy; `perfect` is one near an equilibrium."""
        from .report import write_report

        write_report(self, str(path), name, perfect)

    def best(self, player: int) -> Strategy:
        """Returns this strategy with the player's first best response to the other's plan in place of the player's own."""
        from .leaks import best_response

        return self.with_plan(player, best_response(self.plans[3 - player], self.layout))


def classes_of(game: Game, kind: str, program: Program | None = None) -> Classes:
    """Returns the classes of a kind that `check` prints: `raw`, `split` or `ogi`.

    >>> classes_of(Game.leduc(3, 2, 2), "split")[0]
    [1, 1, 2, 2, 3, 3]
    """
    if kind == "raw":
        return game.raw_classes()
    return classes_in(game, (program or Program()).run("check --classes %s" % kind, game.text()))


def packed(layout: Layout, player: int, shares: Callable[[int, int], Iterable[Share]], total: int | None) -> list[int]:
    """Returns a plan's weights; without a total, of the least one at which nothing is rounded."""
    if total is not None:
        return layout.shared(player, total, shares)
    exact = layout.exact(player, shares)
    least = lcm(*(weight.denominator for weight in exact))
    if least > LARGEST_TOTAL:
        raise BadInput("player %d: nothing is rounded from total %d on, which is above 2^36; leave --exact out" % (player, least))
    return [int(weight * least) for weight in exact]


def _first(point: Point) -> list[int]:
    return [int(choice == 0) for choice in range(len(point.moves))]


def _asking(layout: Layout, player: int, chooses: Chooses) -> Callable[[int, int], list[Fraction]]:
    """Returns the shares at an information set as a function of player, line, hand and moves gives them; members of a class must agree."""

    def shares(number: int, of: int) -> list[Fraction]:
        point: Point = layout.game.points[number]
        said = []
        for hand in layout.members[point.round][of]:
            text = layout.game.texts[point.round][hand]
            found = chooses(player, point.line, text, point.moves)
            numbers = [Fraction(found.get(move, 0)) for move in point.moves] if isinstance(found, Mapping) else [Fraction(share) for share in found]
            if len(numbers) != len(point.moves) or min(numbers) < 0 or sum(numbers) == 0:
                raise BadInput("player %d at %s with %s: %s are no shares of the moves %s" % (player, point.line, text, found, point.moves))
            said.append([share / sum(numbers) for share in numbers])
        if any(other != said[0] for other in said):
            raise BadInput("player %d at %s: the hands of class %d play differently" % (player, point.line, of))
        return said[0]

    return shares


def duel(one: Strategy, two: Strategy) -> Verdict:
    """Returns the value and gaps of player 1 of one strategy against player 2 of another, by `gameshrink duel`.

    >>> call = Strategy.of(Game.kuhn(), lambda player, line, hand, moves: {"c": 1} if "c" in moves else {"k": 1})
    >>> duel(solve(Game.kuhn()), call).value
    Fraction(0, 1)
    """
    return one.program.verdict("duel", one.text() + two.text())


def play(game: Game, turns: int, classes: str = "split", program: Program | None = None) -> Strategy:
    """Returns both plans after a number of turns of fictitious play, by `gameshrink play`.

    >>> verdict = play(Game.leduc(3, 2, 2), 100).judge()
    >>> verdict.sure(1) < Fraction("-0.0856064") < -verdict.sure(2)
    True
    """
    program = program or Program()
    return Strategy.parse(program.run("play --turns %d --classes %s" % (turns, classes), game.text()), "what play prints", program)


def solve(game: Game, classes: str = "split", program: Program | None = None) -> Strategy:
    """Returns exact optimal plans, by `gameshrink solve`; raises `Refused` where the game is too large.

    >>> solve(Game.kuhn()).judge().value
    Fraction(-1, 18)
    """
    program = program or Program()
    return Strategy.parse(program.run("solve --classes %s" % classes, game.text()), "what solve prints", program)


def verify(certified: str, program: Program | None = None) -> dict[str, Fraction]:
    """Returns the value, and what each player gets at most, of what `certify` printed; raises `Refused` where the certificate does not hold.

    >>> verify(solve(Game.kuhn()).certified())
    {'value': Fraction(-1, 18), 'player1': Fraction(-1, 18), 'player2': Fraction(1, 18)}
    """
    lines = (program or Program()).run("verify", certified).splitlines()
    return {line.split()[0]: Fraction(line.split()[-1]) for line in lines}
