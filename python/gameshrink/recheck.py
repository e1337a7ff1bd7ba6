#!/usr/bin/env python3
"""Works out the value, both gaps and the certificate of a strategy once more, by brute force over all deals of raw cards.

  gameshrink-tools recheck < STRATEGY.json    prints what `gameshrink judge` prints
  gameshrink-tools recheck < CERTIFIED        prints that of the two lines of `gameshrink certify`, and then the bounds that `gameshrink verify` prints

It is written from docs/FORMATS.md alone, imports nothing of the package and shares no code with it on purpose. It draws all physical cards, lists
the deals, and lets each player look for the best answer with every raw hand. All numbers are whole or exact fractions. It does not ask whether
classes are lossless, nor whether the strategy file's text is the one that the program would write. A certificate that does not hold is refused with
status 1 and the line of `verify`. It takes some 4 s of processor time for each million pairs of a deal and an end: Leduc 0.1 s, Rhode Island of 3
ranks and 4 suits 2.4 s.
"""

import json
import sys
from collections import Counter, defaultdict
from collections.abc import Iterable, Iterator
from dataclasses import dataclass, field
from fractions import Fraction
from itertools import combinations
from typing import Any

Signal = tuple[tuple[tuple[int, ...], tuple[int, ...]], ...]  # own and public cards of each round
Deal = tuple[Signal, Signal]
Card = tuple[int, int]  # a kind, and which of its copies
Strength = tuple[int, list[int]]


@dataclass
class Node:
    """A position of the betting: a point with moves, a fold (`!`) or a showdown (`=`)."""

    kind: str
    round: int
    put: list[int]
    last: dict[int, tuple[int, int]]
    actor: int = 0
    number: int = -1
    moves: list["Node"] = field(default_factory=list)


class Betting:
    """The points and ends of the rounds' tree texts, read letter by letter."""

    def __init__(self, trees: list[str], ante: int):
        self.trees = trees
        self.points: list[Node] = []
        self.start, _ = self.read(0, 0, [ante, ante], {}, 0)

    def read(self, round_: int, at: int, put: list[int], last: dict[int, tuple[int, int]], mover: int) -> tuple[Node, int]:
        """Returns the position whose text begins at a place of a round's tree, and the place behind it."""
        text = self.trees[round_]
        if text[at] == "=" and round_ + 1 < len(self.trees):
            return self.read(round_ + 1, 0, put, last, 0)[0], at + 1
        if text[at] in "!=":
            return Node(text[at], round_, put, last, mover), at + 1
        node = Node("point", round_, put, last, int(text[at]), len(self.points))
        self.points.append(node)
        at += 1
        while text[at] != "]":
            colon = text.index(":", at)
            paid = list(put)
            paid[node.actor - 1] += int(text[at + 2 : colon] or "0")
            made = {**last, node.actor: (node.number, len(node.moves))}
            following, at = self.read(round_, colon + 1, paid, made, node.actor)
            node.moves.append(following)
        return node, at + 1


class Table:
    """The cards of a game: its deals, its raw signals in order, and who wins."""

    def __init__(self, game: dict[str, Any]):
        self.suits, self.ranking = len(game["suits"]), game["ranking"]
        self.bonus = game.get("bonus") or [1] * 6
        self.sizes = [(r["private"], r["public"]) for r in game["rounds"]]
        physical = tuple((kind, copy) for kind, copies in enumerate(game["copies"]) for copy in range(int(copies)))
        self.deals: Counter[Deal] = Counter()
        self.draw(0, (), (), physical)
        self.weight = sum(self.deals.values())
        rounds = range(len(self.sizes))
        self.signals = [sorted({signal[: at + 1] for deal in self.deals for signal in deal}) for at in rounds]
        self.number = [{signal: number for number, signal in enumerate(signals)} for signals in self.signals]
        self.won = {deal: self.outcome(*deal) for deal in self.deals}

    def draw(self, round_: int, one: Signal, two: Signal, left: tuple[Card, ...]) -> None:
        """Counts the deals that go on from what both players have seen."""
        if round_ == len(self.sizes):
            self.deals[one, two] += 1
            return
        private, public = self.sizes[round_]
        for mine in combinations(left, private):
            after = tuple(card for card in left if card not in mine)
            for other in combinations(after, private):
                rest = tuple(card for card in after if card not in other)
                for board in combinations(rest, public):
                    groups = [tuple(sorted(kind for kind, _ in group)) for group in (mine, other, board)]
                    gone = tuple(card for card in rest if card not in board)
                    self.draw(round_ + 1, one + ((groups[0], groups[2]),), two + ((groups[1], groups[2]),), gone)

    def strength(self, signal: Signal) -> Strength:
        """Returns the category of a hand, from 0, and what decides between two hands of it."""
        own = [card for part in signal for card in part[0]]
        shown = [card for part in signal for card in part[1]]
        rank = own[0] // self.suits
        if self.ranking == "high":
            return 0, [rank]
        if self.ranking == "pair":
            return int(any(card // self.suits == rank for card in shown)), [rank]
        ranks = sorted((card // self.suits for card in own + shown), reverse=True)
        flush = len({card % self.suits for card in own + shown}) == 1
        straight = ranks == [ranks[0], ranks[0] - 1, ranks[0] - 2]
        if len(set(ranks)) == 1:
            return 4, ranks
        if straight or flush:
            return 5 if straight and flush else 3 if straight else 2, ranks
        return int(len(set(ranks)) == 2), sorted(ranks, key=lambda r: (-ranks.count(r), -r))

    def outcome(self, one: Signal, two: Signal) -> tuple[int, int]:
        """Returns the winner, 0 if nobody, and the winner's bonus."""
        mine, other = self.strength(one), self.strength(two)
        return (0, 0) if mine == other else (1, self.bonus[mine[0]]) if mine > other else (2, self.bonus[other[0]])


class Strategy:
    """A strategy file: its betting, its cards, its classes, and both plans."""

    def __init__(self, file: dict[str, Any]):
        game = file["game"]
        self.betting, self.table = Betting([r["tree"] for r in game["rounds"]], game["ante"]), Table(game)
        self.classes: list[list[int]] = file["classes"]
        if [len(numbers) for numbers in self.classes] != [len(signals) for signals in self.table.signals]:
            raise ValueError("the classes are not those of the game's raw signals")
        self.total: dict[int, int] = {player: file["player%d" % player]["total"] for player in (1, 2)}
        self.weights = {player: self.plan(player, iter(file["player%d" % player]["weights"])) for player in (1, 2)}

    def plan(self, player: int, flat: Iterator[int]) -> dict[tuple[int, int, int], int]:
        """Returns a player's weights by point, class and move."""
        found = {}
        for point in self.betting.points:
            if point.actor == player:
                for of in range(1, max(self.classes[point.round]) + 1):
                    for move in range(len(point.moves)):
                        found[point.number, of, move] = next(flat)
        if next(flat, None) is not None:
            raise ValueError("player %d has more weights than slots" % player)
        return found

    def class_of(self, signal: Signal) -> int:
        return self.classes[len(signal) - 1][self.table.number[len(signal) - 1][signal]]

    def weight_of(self, player: int, deal: Deal, node: Node) -> int:
        """Returns the weight that a player's plan gives to a position in a deal."""
        if player not in node.last:
            return self.total[player]
        number, move = node.last[player]
        seen = deal[player - 1][: self.betting.points[number].round + 1]
        return self.weights[player][number, self.class_of(seen), move]

    def paid(self, player: int, deal: Deal, end: Node) -> int:
        """Returns what an end pays a player."""
        if end.kind == "!":
            loser, chips = end.actor, end.put[end.actor - 1]
        else:
            winner, bonus = self.table.won[deal]
            if not winner:
                return 0
            loser = 3 - winner
            chips = end.put[loser - 1] * bonus
        return -chips if loser == player else chips

    def against(self, player: int, deals: Iterable[Deal], end: Node) -> int:
        """Returns what an end pays a player over some deals, against the other's plan and times its total."""
        return sum(self.table.deals[deal] * self.paid(player, deal, end) * self.weight_of(3 - player, deal, end) for deal in deals)

    def best(self, player: int, node: Node, deals: Iterable[Deal]) -> int:
        """Returns the most that a player gets below a position over some deals, against the other's plan and times its total."""
        if node.kind != "point":
            return self.against(player, deals, node)
        if node.actor != player:
            return sum(self.best(player, move, deals) for move in node.moves)
        by_hand: dict[Signal, list[Deal]] = defaultdict(list)
        for deal in deals:
            by_hand[deal[player - 1][: node.round + 1]].append(deal)
        return sum(max(self.best(player, move, hand) for move in node.moves) for hand in by_hand.values())

    def value(self, node: Node) -> int:
        """Returns what both plans pay player 1 below a position, times both totals."""
        if node.kind == "point":
            return sum(map(self.value, node.moves))
        weight = self.weight_of
        return sum(n * self.paid(1, deal, node) * weight(1, deal, node) * weight(2, deal, node) for deal, n in self.table.deals.items())

    def verdict(self) -> tuple[Fraction, Fraction, Fraction]:
        """Returns the value and both gaps."""
        value = Fraction(self.value(self.betting.start), self.table.weight * self.total[1] * self.total[2])
        most = [Fraction(self.best(player, self.betting.start, self.table.deals), self.table.weight * self.total[3 - player]) for player in (1, 2)]
        return value, most[0] - value, most[1] + value

    # ---- certificates

    def bound(self, player: int, stated: list[str]) -> Fraction:
        """Returns the bound that a certificate's numbers prove; raises the reason where they do not hold."""
        numbers: dict[tuple[int, int], int] = {}
        flat = iter(map(int, stated))
        points, table = self.betting.points, self.table
        slots = [(point, of) for point in points for of in range(1, max(self.classes[point.round]) + 1)]
        if len(slots) != len(stated):
            raise ValueError("player %d length" % player)
        numbers.update(((point.number, of), next(flat)) for point, of in slots)

        def worth(node: Node, signal: Signal) -> int:
            if node.kind != "point":
                return self.against(player, holding[signal], node)
            below = (s for s in table.signals[node.round] if s[: len(signal)] == signal)
            return sum(numbers[node.number, self.class_of(s)] for s in below)

        holding: dict[Signal, list[Deal]] = defaultdict(list)
        for deal in table.deals:
            for at in range(len(self.classes) + 1):
                holding[deal[player - 1][:at]].append(deal)
        for point, of in slots:
            first = table.signals[point.round][self.classes[point.round].index(of)]
            worths = [worth(move, first) for move in point.moves]
            if numbers[point.number, of] < (max(worths) if point.actor == player else sum(worths)):
                raise ValueError("player %d low at point %d class %d" % (player, point.number, of))
        return Fraction(worth(self.betting.start, ()), table.weight * self.total[3 - player])


def text(fraction: Fraction) -> str:
    return "%d/%d" % (fraction.numerator, fraction.denominator)


def main() -> None:
    """Prints the numbers of what stands on stdin."""
    lines = sys.stdin.read().splitlines()
    strategy = Strategy(json.loads(lines[0]))
    for name, number in zip(("value", "gap1", "gap2"), strategy.verdict()):
        print(name, text(number))
    certificate = json.loads(lines[1]) if len(lines) > 1 else {}
    for player in (1, 2) if certificate else ():
        stated = certificate["player%d" % player]
        found = strategy.bound(player, stated["values"])
        if text(found) != stated["bound"]:
            raise ValueError("player %d bound found %s" % (player, text(found)))
        print("player%d at most %s" % (player, text(found)))


def run() -> None:
    """Does the same, and ends with status 1 and a line where what stands there is refused."""
    try:
        main()
    except (ValueError, KeyError, IndexError, TypeError, StopIteration, RecursionError) as fault:
        sys.exit("recheck: refused: %s" % (fault or type(fault).__name__))


if __name__ == "__main__":
    run()
