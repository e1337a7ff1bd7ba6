"""Where a player loses against a plan: best values by a backward pass, and the chips that each information set gives away.

Against a fixed plan of the other player let V(I) be the best value of an information set, and Q(I, a) that of a move with best play behind it. Both
are weighted with how often cards and opponent lead there. Let x(I) be the weight with which the player's own moves come there. The leak of I is
x(I) * (V(I) - sum of share(a) * Q(I, a)). All leaks are at least 0, and they add up to the player's gap.
"""

from __future__ import annotations

import json
import re
from collections import Counter, defaultdict
from collections.abc import Callable, Iterable, Iterator, Mapping, Sequence
from dataclasses import dataclass
from fractions import Fraction
from functools import cached_property, lru_cache
from math import gcd, lcm
from operator import itemgetter, mul, sub
from typing import Any, NamedTuple

from .game import End, Game, Point, Signal, Step
from .layout import LARGEST_TOTAL, Layout
from .strategy import Plan, Reaches, Strategy, shares_of

Vector = list[int]  # a whole number for each raw signal of a round
Moved = Mapping[tuple[int, int], Mapping[int, int]]  # by point and move, and then by raw signal, what is added to a weight
Habit = Callable[[Point, str], Sequence[Fraction] | None]  # what is done at a point with a hand, where a plan never comes


class Rows:
    """A square matrix of whole numbers, most of them 0. Exchanging rows and columns keeps it, or with `sign` -1 negates it.

    >>> rows = Rows({(0, 1): 2, (1, 0): -2}, 2, -1)
    >>> rows.times([1, 10]), list(rows.column(1))
    ([20, -2], [(0, 2)])
    """

    def __init__(self, entries: Mapping[tuple[int, int], int], size: int, sign: int = 1):
        self.sign = sign
        self.rows: list[tuple[list[int], list[int]]] = [([], []) for _ in range(size)]
        for (one, two), number in entries.items():
            self.rows[one][0].append(two)
            self.rows[one][1].append(number)
        # the first column twice, so that itemgetter returns a tuple; `map` leaves the second one out
        self._getters = [itemgetter(*columns, *columns[:1]) if columns else None for columns, _ in self.rows]

    def times(self, vector: Vector) -> Vector:
        """Returns the product with a vector."""
        if not any(vector):
            return [0] * len(self.rows)
        return [sum(map(mul, numbers, get(vector))) if get else 0 for get, (_, numbers) in zip(self._getters, self.rows)]

    def column(self, place: int) -> Iterator[tuple[int, int]]:
        """Yields the numbers of a column that are not 0, each behind its row."""
        for row, number in zip(*self.rows[place]):
            yield row, self.sign * number


class Meetings:
    """The deals of a game: how often each raw signal meets each one of the opponent, and which one wins.

    Both players have equally many cards, so one table serves both."""

    def __init__(self, game: Game):
        numbers = {signal: number for number, signal in enumerate(game.signals[-1])}
        strengths = [game.strength(signal) for signal in game.signals[-1]]
        pairs: Mapping[tuple[int, int], int] = {(numbers[one], numbers[two]): weight for (one, two), weight in game.deals()}
        self.pairs, self.weight = len(pairs), sum(pairs.values())
        self.wins = Rows(self._won(pairs, strengths, game.bonus), len(strengths), -1)
        self.rounds = [Rows(pairs, len(strengths))]
        for at in range(len(game.signals) - 1, 0, -1):
            folded: Counter[tuple[int, int]] = Counter()
            for (one, two), weight in pairs.items():
                folded[game.parents[at][one], game.parents[at][two]] += weight
            pairs = folded
            self.rounds.insert(0, Rows(pairs, len(game.signals[at - 1])))

    @staticmethod
    def _won(pairs: Mapping[tuple[int, int], int], strengths: list[tuple[int, ...]], bonus: list[int]) -> dict[tuple[int, int], int]:
        won = {}
        for (one, two), weight in pairs.items():
            mine, other = strengths[one], strengths[two]
            if mine != other:
                won[one, two] = weight * bonus[max(mine, other)[0]] * (1 if mine > other else -1)
        return won


@lru_cache(maxsize=4)
def meetings(stated: str) -> Meetings:
    """Returns the deals of a game, given as the text of its statement."""
    return Meetings(Game(json.loads(stated)))


# ---- plans hand by hand


class HandPlan(Reaches):
    """A plan hand by hand: for each own move the weight that comes to it, by raw signal. It knows no classes, and its total has no bound."""

    def __init__(self, game: Game, player: int, total: int, made: dict[tuple[int, int], Vector]):
        super().__init__(game, player, total)
        self.made = made

    @classmethod
    def of(cls, plan: Plan, least: int = 1) -> HandPlan:
        """Returns a plan hand by hand, with its total times a whole number, so that it is at least `least`."""
        times = -(-least // plan.total)
        made = {}
        for point in own_points(plan.game, plan.player):
            for choice in range(len(point.moves)):
                made[point.number, choice] = [times * weight for weight in plan.reach((point.number, choice), point.round)]
        return cls(plan.game, plan.player, times * plan.total, made)

    def made_by(self, point: int, choice: int) -> Vector:
        """Returns the weight of an own move for each raw signal of its round."""
        return self.made[point, choice]

    def comes(self, point: Point) -> Vector:
        """Returns for each raw signal what comes to an own point."""
        return self.reach(point.steps[self.player - 1], point.round)

    def weights(self, point: Point, signal: int) -> Vector:
        """Returns the weights of the moves of an own point with a signal."""
        return [self.made[point.number, choice][signal] for choice in range(len(point.moves))]

    def moved(self, moved: Moved) -> HandPlan:
        """Returns the plan after some weights have moved."""
        made = dict(self.made)
        for step, numbers in moved.items():
            made[step] = list(made[step])
            for signal, number in numbers.items():
                made[step][signal] += number
        return HandPlan(self.game, self.player, self.total, made)

    def over(self, layout: Layout) -> Plan | None:
        """Returns the plan over classes; nothing where it tells hands of a class apart."""
        for point in own_points(self.game, self.player):
            for members in layout.members[point.round].values():
                if any(self.weights(point, it) != self.weights(point, members[0]) for it in members[1:]):
                    return None
        weights = [self.total]
        for number, of in layout.sets[self.player]:
            point = self.game.points[number]
            weights += self.weights(point, layout.members[point.round][of][0])
        return Plan(layout, self.player, weights)


def behind(game: Game, numbers: Mapping[int, int], at: int, to: int) -> Mapping[int, int]:
    """Returns numbers of some signals of round `at` for the signals of round `to` that go on from them."""
    for later in range(at + 1, to + 1):
        below = children(game.key, later)
        numbers = {signal: number for parent, number in numbers.items() for signal in below[parent]}
    return numbers


@lru_cache(maxsize=16)
def children(stated: str, at: int) -> list[list[int]]:
    """Returns for each signal of the round before `at` the signals that go on from it."""
    game = Game(json.loads(stated))
    found: list[list[int]] = [[] for _ in game.signals[at - 1]]
    for signal, parent in enumerate(game.parents[at]):
        found[parent].append(signal)
    return found


def own_points(game: Game, player: int) -> list[Point]:
    """Returns a player's points in the order of play."""
    return [point for point in game.points if point.player == player]


# ---- best responses


class Response:
    """The best values of a player against the other's plan, times the weight of all deals and that plan's total.

    >>> passes = Strategy.of(Game.kuhn(), lambda player, line, hand, moves: {"f": 1} if "f" in moves else {"k": 1})
    >>> Response(passes.plans[2]).value  # each bet of player 1 wins a chip
    Fraction(1, 1)
    """

    def __init__(self, against: Reaches):
        self.game, self.against, self.player = against.game, against, 3 - against.player
        self.tables = meetings(self.game.key)
        self.scale = self.tables.weight * against.total
        self.best: dict[int, Vector] = {}
        self.worth: dict[int, list[Vector]] = {}
        self._met: dict[tuple[Step, int, bool], Vector] = {}
        self.value = Fraction(sum(self._below(self.game.start, 0)), self.scale)

    def visits(self, point: Point) -> Vector:
        """Returns for each signal how often cards and opponent lead to a point."""
        return self._meeting(point.steps[2 - self.player], point.round, False)

    def end(self, end: End) -> Vector:
        """Returns for each signal of an end's round what the end pays."""
        chips = self._chips(end)
        return [chips * weight for weight in self._meeting(end.steps[2 - self.player], end.round, not end.folded)]

    def _chips(self, end: End) -> int:
        return -end.put if end.folded == self.player else end.put

    def _meeting(self, step: Step, at: int, shown: bool) -> Vector:
        """Returns for each signal how often it meets the opponent's weight at a step; where the cards are `shown`, what it wins of that."""
        key = step, at, shown
        if key not in self._met:
            self._met[key] = (self.tables.wins if shown else self.tables.rounds[at]).times(self.against.reach(step, at))
        return self._met[key]

    def _below(self, place: int, at: int) -> Vector:
        """Returns the best values of a point or an end, for each signal of a round that is not behind it."""
        if place < 0:
            deep, found = self.game.ends[~place].round, self.end(self.game.ends[~place])
        else:
            deep, found = self.game.points[place].round, self._at(self.game.points[place])
        for back in range(deep, at, -1):
            above = [0] * len(self.game.signals[back - 1])
            for parent, number in zip(self.game.parents[back], found):
                above[parent] += number
            found = above
        return found

    def _at(self, point: Point) -> Vector:
        worth = [self._below(place, point.round) for place in point.after]
        best = [max(numbers) for numbers in zip(*worth)] if point.player == self.player else [sum(numbers) for numbers in zip(*worth)]
        self.worth[point.number], self.best[point.number] = worth, best
        return best

    def first(self) -> HandPlan:
        """Returns the player's first best response: at each point with each hand the first move of the greatest worth."""
        plan = HandPlan(self.game, self.player, 1, {})
        for point in own_points(self.game, self.player):
            chosen = [values.index(max(values)) for values in zip(*self.worth[point.number])]
            comes = plan.comes(point)
            for choice in range(len(point.moves)):
                plan.made[point.number, choice] = [weight if it == choice else 0 for weight, it in zip(comes, chosen)]
        return plan

    def after(self, moved: Moved) -> Fraction:
        """Returns the value after some weights of the opponent's plan have moved. It looks at what changes by that alone."""
        return self.value + Fraction(sum(self._change(self.game.start, 0, moved).values()), self.scale)

    def _change(self, place: int, at: int, moved: Moved) -> dict[int, int]:
        """Returns by how much the best values of a point or an end change, for the signals of a round that is not behind it."""
        found: dict[int, int] = defaultdict(int)
        if place < 0:
            end, deep = self.game.ends[~place], self.game.ends[~place].round
            step, table, chips = end.steps[2 - self.player], self.tables.rounds[deep] if end.folded else self.tables.wins, self._chips(end)
            if step is not None and step in moved:
                for signal, number in behind(self.game, moved[step], self.game.points[step[0]].round, deep).items():
                    for row, entry in table.column(signal):
                        found[row] += chips * entry * number
        else:
            point, deep = self.game.points[place], self.game.points[place].round
            changes = [self._change(below, deep, moved) for below in point.after]
            if point.player != self.player:
                for change in changes:
                    for signal, number in change.items():
                        found[signal] += number
            else:
                worth, best = self.worth[place], self.best[place]
                for signal in set().union(*changes):
                    found[signal] = max(vector[signal] + change.get(signal, 0) for vector, change in zip(worth, changes)) - best[signal]
        for back in range(deep, at, -1):
            above: dict[int, int] = defaultdict(int)
            for signal, number in found.items():
                above[self.game.parents[back][signal]] += number
            found = above
        return found


def best_response(against: Plan, layout: Layout) -> Plan:
    """Returns the first best response to a plan, over the layout's classes where it needs no finer ones, else over each hand by itself."""
    first = Response(against).first()
    found = first.over(layout) or first.over(Layout(against.game, against.game.raw_classes()))
    assert found is not None
    return found


# ---- leaks


@dataclass(frozen=True)
class Leak:
    """What a player gives away at a point with some hands that play alike and have the same best moves. Numbers are chips per deal.

    >>> passes = Strategy.of(Game.kuhn(), lambda player, line, hand, moves: {"f": 1} if "f" in moves else {"k": 1})
    >>> leak = passes.leaks(1).rows[0]
    >>> leak.point.line, leak.label, leak.plays(), leak.advice(), leak.often, leak.each, leak.chips
    ('/', 'Qs', 'k 100%', 'b', Fraction(1, 3), Fraction(2, 1), Fraction(2, 3))
    """

    point: Point
    hands: tuple[str, ...]
    label: str
    shares: tuple[Fraction, ...]
    best: tuple[int, ...]
    worth: tuple[Fraction, ...]  # of each move, each time that the player comes here
    often: Fraction  # how often per deal the player comes here
    chips: Fraction
    by_move: tuple[Fraction, ...]

    @property
    def each(self) -> Fraction:
        """The chips lost each time that the player comes here."""
        return self.chips / self.often

    def plays(self) -> str:
        """Returns the moves that are made, with their shares."""
        return mixture(self.point, self.shares)

    def advice(self) -> str:
        """Returns the best moves."""
        return "/".join(self.point.moves[choice] for choice in self.best)


class _Found(NamedTuple):
    """What is known of a player's point, by raw signal: the weights of the moves, what each loses, their sum, and how often one comes there."""

    weights: list[Vector]
    moves: list[Vector]
    lost: Vector
    visits: Vector


class Leaks:
    """All that a plan gives away against another player's plan. `gap` is the sum, `value` what the two plans pay the player.

    >>> passes = Strategy.of(Game.kuhn(), lambda player, line, hand, moves: {"f": 1} if "f" in moves else {"k": 1})
    >>> leaks = passes.leaks(1)  # against player 2 of the same strategy, who folds to each bet
    >>> leaks.value, leaks.gap, [(leak.label, leak.chips) for leak in leaks.lossy]
    (Fraction(0, 1), Fraction(1, 1), [('Qs', Fraction(2, 3)), ('Ks', Fraction(1, 3))])
    """

    def __init__(self, plan: Reaches, against: Reaches):
        self.plan, self.against, self.game, self.player = plan, against, plan.game, plan.player
        self.response = Response(against)
        self.scale = self.response.scale * plan.total
        self.value = Fraction(self._value(), self.scale)
        self.found = {point.number: self._found(point) for point in own_points(self.game, self.player)}
        self.gap = Fraction(sum(sum(found.lost) for found in self.found.values()), self.scale)
        if self.value + self.gap != self.response.value:
            raise AssertionError("the leaks add up to %s, and the gap is %s" % (self.gap, self.response.value - self.value))

    def _value(self) -> int:
        """Returns what the two plans pay the player, end by end."""
        found = 0
        for end in self.game.ends:
            found += sum(map(mul, self.plan.reach(end.steps[self.player - 1], end.round), self.response.end(end)))
        return found

    def _found(self, point: Point) -> _Found:
        worth, best = self.response.worth[point.number], self.response.best[point.number]
        weights = [self.plan.reach((point.number, choice), point.round) for choice in range(len(point.moves))]
        moves = [list(map(mul, weight, map(sub, best, vector))) for weight, vector in zip(weights, worth)]
        visits = list(map(mul, self.own(point), self.response.visits(point)))
        return _Found(weights, moves, list(map(sum, zip(*moves))), visits)

    def own(self, point: Point) -> Vector:
        """Returns for each signal what the plan brings to an own point."""
        return self.plan.reach(point.steps[self.player - 1], point.round)

    @cached_property
    def rows(self) -> list[Leak]:
        """All places with hands that come there, the greatest leaks first."""
        rows = [leak for number in self.found for leak in self._rows_at(self.game.points[number])]
        return sorted(rows, key=lambda leak: -leak.chips)

    def _rows_at(self, point: Point) -> Iterator[Leak]:
        found, best, worth = self.found[point.number], self.response.best[point.number], self.response.worth[point.number]
        kinds: dict[int, tuple[Sequence[int], tuple[int, ...]]] = {}
        for signal, often in enumerate(found.visits):
            if often:
                ties = tuple(choice for choice, vector in enumerate(worth) if vector[signal] == best[signal])
                kinds[signal] = reduced([weight[signal] for weight in found.weights]), ties
        for label, members in alike(self.game, point.round, kinds):
            yield self._row(point, label, members, *kinds[members[0]])

    def _row(self, point: Point, label: str, members: list[int], weights: Sequence[int], best: tuple[int, ...]) -> Leak:
        found, own = self.found[point.number], self.own(point)
        often = sum(found.visits[it] for it in members)
        worth = tuple(Fraction(sum(own[it] * vector[it] for it in members), often) for vector in self.response.worth[point.number])
        by_move = tuple(Fraction(sum(vector[it] for it in members), self.scale) for vector in found.moves)
        chips = Fraction(sum(found.lost[it] for it in members), self.scale)
        hands = tuple(self.game.texts[point.round][it] for it in members)
        return Leak(point, hands, label, tuple(shares_of(weights)), best, worth, Fraction(often, self.scale), chips, by_move)

    @property
    def lossy(self) -> list[Leak]:
        """The rows that lose something."""
        return [leak for leak in self.rows if leak.chips]

    def never_met(self) -> tuple[int, int]:
        """Returns to how many places (a point and a raw hand) the plan comes and the opponent never leads, and to how many the plan comes."""
        came = met = 0
        for number, found in self.found.items():
            came += sum(map(bool, self.own(self.game.points[number])))
            met += sum(map(bool, found.visits))
        return came - met, came

    def by_mistake(self) -> list[tuple[tuple[str, str], Fraction]]:
        """Returns the chips lost by what was done and what would have been best, as kinds of moves."""
        sums: dict[tuple[str, str], Fraction] = defaultdict(Fraction)
        for leak in self.rows:
            for choice, chips in enumerate(leak.by_move):
                if chips:
                    sums[leak.point.kinds[choice], leak.point.kinds[leak.best[0]]] += chips
        return sorted(sums.items(), key=lambda pair: -pair[1])


# ---- how far a plan can be exploited


@dataclass(frozen=True)
class Change:
    """A point and some hands at which a plan is to play as a perfect one does."""

    point: Point
    signals: tuple[int, ...]
    label: str
    shares: tuple[Fraction, ...]
    wanted: tuple[Fraction, ...]

    def plays(self) -> str:
        """Returns the moves that are made so far, with their shares."""
        return mixture(self.point, self.shares)

    def advice(self) -> str:
        """Returns the moves to be made, with their shares."""
        return mixture(self.point, self.wanted)


@dataclass
class Mended:
    """A plan with some places changed, and the opponent's best values against it."""

    plan: HandPlan
    response: Response
    changed: frozenset[tuple[int, int]] = frozenset()


def places_of(changes: Iterable[Change]) -> frozenset[tuple[int, int]]:
    """Returns the points and signals of some changes."""
    return frozenset((change.point.number, signal) for change in changes for signal in change.signals)


class Exploit:
    """How far a player's plan falls short of perfect play, with a strategy `perfect` near an equilibrium in hand.

    `given` are the plan's leaks against the perfect opponent: chips lost to anybody who plays well. `taken` are the perfect opponent's own leaks
    against the plan: what an opponent gains who adapts to it, and how. Both sums together are what the perfect opponent's plan lets anybody
    have at most, minus what the plan is sure of: the exploitability, up to the gaps of `perfect`.

    `habit` says what is done where the plan never comes, as a function of point and hand; a file does not tell. Without it the perfect plan's
    play is taken. `tells` hears of each plan that is tried on the way to a mended one: how many are done and how many there are, for one rule.

    >>> passes = Strategy.of(Game.kuhn(), lambda player, line, hand, moves: {"f": 1} if "f" in moves else {"k": 1})
    >>> exploit = Exploit(passes.plans[2], solve(Game.kuhn()))
    >>> exploit.total, exploit.given.gap, exploit.taken.gap
    (Fraction(19, 18), Fraction(1, 18), Fraction(1, 1))
    >>> [(change.point.line, change.label, change.advice(), left) for (change,), left in exploit.path(1)]
    [('/b', 'As', 'c 100%', Fraction(2, 9))]
    """

    def __init__(self, plan: Plan, perfect: Strategy, habit: Habit | None = None, tells: Callable[[int, int], None] | None = None):
        self.plan, self.player, self.game = plan, plan.player, plan.game
        self.habit, self.tells = habit or (lambda point, hand: None), tells or (lambda done, left: None)
        self.given = Leaks(plan, perfect.plans[3 - plan.player])
        self.taken = Leaks(perfect.plans[3 - plan.player], plan)
        self.sure = -self.taken.response.value
        self.total = self.given.gap + self.taken.gap
        self.perfect = HandPlan.of(perfect.plans[plan.player])
        self._habits: dict[tuple[int, int], Sequence[int]] = {}

    @cached_property
    def start(self) -> Mended:
        """The plan as it is. Its total is that of a file at least, so that shares of it are as fine."""
        plan = HandPlan.of(self.plan, LARGEST_TOTAL)
        return Mended(plan, Response(plan))

    def left(self, mended: Mended) -> Fraction:
        """Returns the exploitability of a mended plan, by the same measure."""
        return self.total + self.sure + mended.response.value

    def places(self) -> list[Change]:
        """Returns each place at which the perfect plan plays otherwise, whether anybody comes there or not."""
        found: list[Change] = []
        for point in own_points(self.game, self.player):
            found += self._changes(self.start, point, range(len(self.game.signals[point.round])))
        return found

    def path(self, steps: int) -> Iterator[tuple[list[Change], Fraction]]:
        """Yields a way to mend the plan: at each step one more place, to be played as the perfect plan does, and the exploitability that is left.

        It is the place that helps most; of equal ones the one that is met most often. Only places to which the worst opponent leads can help:
        elsewhere that opponent would not notice. Where no single place helps, it is the shortest of the runs of 2, 4, 8, .. places that does, with
        those first that harm least by themselves. The way ends where no run helps."""
        now = self.start
        for _ in range(steps):
            new = next((new for new in self._runs(self._ranked(now)) if self.value(now, new) < now.response.value), None)
            if not new:
                return
            now = self.mended(now, new)
            yield new, self.left(now)

    def _ranked(self, now: Mended) -> list[Change]:
        """Returns the places at which a change may help, the one that helps most first."""
        worst = Response(now.response.first())
        changes = []
        for point in own_points(self.game, self.player):
            met = list(map(mul, now.plan.comes(point), worst.visits(point)))
            for change in self._changes(now, point, [signal for signal, often in enumerate(met) if often]):
                changes.append((change, sum(met[signal] for signal in change.signals)))
        found = []
        for done, (change, often) in enumerate(changes):
            self.tells(done, len(changes))
            found.append((self.value(now, [change]), -often, done))
        return [changes[place][0] for _, _, place in sorted(found)]

    @staticmethod
    def _runs(ranked: list[Change]) -> Iterator[list[Change]]:
        """Yields the first, the first 2, 4, 8, .. of some places, and all."""
        size = 1
        while ranked and size < 2 * len(ranked):
            yield ranked[:size]
            size *= 2

    def _changes(self, now: Mended, point: Point, signals: Iterable[int]) -> Iterator[Change]:
        """Yields the places of a point, of some signals, at which the perfect plan plays otherwise."""
        kinds = {}
        for signal in signals:
            own, wanted = self._plays(now.changed, point, signal), self._perfect(point, signal)
            if own != wanted:
                kinds[signal] = own, wanted
        for label, members in alike(self.game, point.round, kinds):
            own, wanted = kinds[members[0]]
            yield Change(point, tuple(members), label, tuple(shares_of(own)), tuple(shares_of(wanted)))

    def value(self, now: Mended, changes: Sequence[Change]) -> Fraction:
        """Returns what the worst opponent is paid once some more places are played as the perfect plan does."""
        return now.response.after(self._moved(now, changes))

    def mended(self, now: Mended, changes: Sequence[Change]) -> Mended:
        """Returns a plan with some more places played as the perfect plan does."""
        plan = now.plan.moved(self._moved(now, changes))
        return Mended(plan, Response(plan), now.changed | places_of(changes))

    def _moved(self, now: Mended, changes: Sequence[Change]) -> Moved:
        """Returns which weights move by that, and by how much."""
        new = places_of(changes)
        changed = now.changed | new
        moved: dict[tuple[int, int], dict[int, int]] = {}
        for point in own_points(self.game, self.player):
            step = point.steps[self.player - 1]
            more = behind(self.game, moved[step], self.game.points[step[0]].round, point.round) if step is not None and step in moved else {}
            comes = now.plan.comes(point)
            for signal in more.keys() | {signal for number, signal in new if number == point.number}:
                weights = parted(comes[signal] + more.get(signal, 0), self._plays(changed, point, signal))
                for choice, weight in enumerate(weights):
                    if added := weight - now.plan.made[point.number, choice][signal]:
                        moved.setdefault((point.number, choice), {})[signal] = added
        return moved

    def _plays(self, changed: frozenset[tuple[int, int]], point: Point, signal: int) -> Sequence[int]:
        """Returns how a point is played with a signal: as the perfect plan does, where it is changed; else as the plan does, or by habit."""
        key = point.number, signal
        if key in changed:
            return self._perfect(point, signal)
        if key not in self._habits:
            own = self.start.plan.weights(point, signal)
            said = None if any(own) else self.habit(point, self.game.texts[point.round][signal])
            self._habits[key] = reduced(own) if any(own) else whole(said) if said else self._perfect(point, signal)
        return self._habits[key]

    def _perfect(self, point: Point, signal: int) -> Sequence[int]:
        return reduced(self.perfect.weights(point, signal))

    def rules(self, changes: Iterable[Change]) -> Iterator[tuple[int, str, str, str, Fraction]]:
        """Yields changes as rows of a table."""
        for change in changes:
            texts = self.game.texts[change.point.round]
            fits = sum(pattern(text) == change.label for text in texts)
            for hand in [change.label] if fits == len(change.signals) else [texts[signal] for signal in change.signals]:
                yield from ((self.player, change.point.line, hand, letter, share) for letter, share in zip(change.point.moves, change.wanted))


def reduced(weights: Sequence[int]) -> tuple[int, ...]:
    """Returns weights without a common divisor; where nothing comes, all goes to the first move."""
    divisor = gcd(*weights)
    return tuple(weight // divisor for weight in weights) if divisor else (1, *(0 for _ in weights[1:]))


def whole(shares: Sequence[Fraction]) -> tuple[int, ...]:
    """Returns shares as whole numbers without a common divisor."""
    least = lcm(*(share.denominator for share in shares))
    return reduced([int(share * least) for share in shares])


def parted(weight: int, shares: Sequence[int]) -> Vector:
    """Returns a weight in parts, rounded down; what is left goes to the largest remainders.

    >>> parted(10, (1, 2, 3))
    [2, 3, 5]
    """
    parts = [divmod(weight * share, sum(shares)) for share in shares]
    found = [part for part, _ in parts]
    largest = sorted(range(len(parts)), key=lambda it: -parts[it][1])
    for it in largest[: weight - sum(found)]:
        found[it] += 1
    return found


# ---- hands that are alike


def pattern(text: str) -> str:
    """Returns a hand with its suits as `?`, as the rules of a table have it.

    >>> pattern("Js/+QsKh")
    'J?/+Q?K?'
    """
    return re.sub(r"(\w)\w", r"\1?", text)


@lru_cache(maxsize=32)
def up_to_suits(stated: str, at: int) -> list[tuple[Any, ...]]:
    """Returns for each signal of a round what stays of it when suits are exchanged that the deck has alike: two signals have the same if and
    only if such an exchange turns one into the other. It lists for each suit where a signal has cards of it, without the suits' order."""
    game = Game(json.loads(stated))
    suits = len(game.stated["suits"])
    deck = [tuple(game.copies[suit::suits]) for suit in range(suits)]

    def kept(signal: Signal) -> tuple[Any, ...]:
        held: list[list[tuple[int, int, int]]] = [[] for _ in range(suits)]
        for part, groups in enumerate(signal):
            for side, group in enumerate(groups):
                for card in group:
                    held[card % suits].append((part, side, card // suits))
        return tuple(sorted((deck[suit], tuple(sorted(cards))) for suit, cards in enumerate(held)))

    return [kept(signal) for signal in game.signals[at]]


def alike(game: Game, at: int, kinds: Mapping[int, object]) -> list[tuple[str, list[int]]]:
    """Returns the signals of `kinds` in groups of one kind, with a label: all hands of the same ranks as a rule's text (`J?/+Q?`), else those that
    differ by an exchange of suits, by the first one."""
    texts = game.texts[at]
    by_ranks: dict[str, list[int]] = defaultdict(list)
    for signal in kinds:
        by_ranks[pattern(texts[signal])].append(signal)
    groups = []
    for ranks, members in by_ranks.items():
        if len({kinds[it] for it in members}) == 1:
            groups.append((ranks if len(members) > 1 else texts[members[0]], members))
            continue
        apart: dict[tuple[Any, ...], list[int]] = defaultdict(list)
        for it in members:
            apart[up_to_suits(game.key, at)[it], kinds[it]].append(it)
        groups += [(texts[group[0]] + " (%d alike)" % len(group) * (len(group) > 1), group) for group in apart.values()]
    return groups


# ---- shares as texts


def percent(share: Fraction) -> str:
    """Returns a share in whole percents; below 1 and above 99 with a digit behind the point, so that only 0 and 1 look like them.

    >>> percent(Fraction(1, 3)), percent(Fraction(1, 200)), percent(Fraction(9999, 10000))
    ('33%', '0.5%', '>99.9%')
    """
    number = share * 100
    if share in (0, 1) or 1 <= number <= 99:
        return "%d%%" % round(number)
    return "<0.1%" if number < Fraction(1, 10) else ">99.9%" if number > Fraction(999, 10) else "%.1f%%" % float(number)


def mixture(point: Point, shares: Sequence[Fraction]) -> str:
    """Returns the moves of a point that have a share, with their shares."""
    return " ".join("%s %s" % (letter, percent(share)) for letter, share in zip(point.moves, shares) if share)
