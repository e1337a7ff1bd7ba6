"""The information sets and slots of a strategy file: which weight stands where (docs/FORMATS.md, "Strategy file")."""

from __future__ import annotations

from collections.abc import Callable, Iterable
from fractions import Fraction
from typing import NamedTuple, TypeVar

from .game import Game, Step

Share = int | str | float | Fraction  # what `Fraction` takes
Weight = TypeVar("Weight", int, Fraction)

LARGEST_TOTAL = 2**36
Classes = list[list[int]]  # for each round the class number of each raw signal


def read_classes(text: str) -> list[dict[str, int]]:
    """Returns for each round the class number of each signal's text, from what `check` or `shrink` prints."""
    rounds: list[dict[str, int]] = []
    for line in text.splitlines():
        if line.startswith("round "):
            rounds.append({})
        else:
            number, members = line.split(":")
            rounds[-1].update({member: int(number) for member in members.split()})
    return rounds


class Summary(NamedTuple):
    """What `make`, `check` or `shrink` counts with `--summary`: the deals, and for each round its signals and classes."""

    deals: int
    signals: list[int]
    classes: list[int]


def read_summary(text: str) -> Summary:
    """Returns the counts of a summary.

    >>> read_summary(Program().run("shrink --summary", Game.leduc(3, 2, 2).text()))
    Summary(deals=120, signals=[6, 30], classes=[3, 7])
    """
    lines = [line.split() for line in text.splitlines()]
    return Summary(int(lines[0][1]), [int(line[5]) for line in lines[1:]], [int(line[3]) for line in lines[1:]])


def classes_in(game: Game, text: str) -> Classes:
    """Returns the class number of each raw signal, from what `check` or `shrink` prints."""
    return [[numbers[signal] for signal in texts] for numbers, texts in zip(read_classes(text), game.texts)]


class Layout:
    """The information sets and slots of both players over classes.

    >>> game = Game.kuhn()
    >>> layout = Layout(game, game.raw_classes())
    >>> layout.sets[1][:2], layout.moves_at(1, 0, 2)
    ([(0, 1), (0, 2)], [3, 4])
    """

    def __init__(self, game: Game, classes: Classes):
        self.game, self.classes = game, classes
        self.members: list[dict[int, list[int]]] = []
        self.above: list[dict[int, int]] = []
        for at, numbers in enumerate(classes):
            members: dict[int, list[int]] = {}
            above: dict[int, int] = {}
            for signal, number in enumerate(numbers):
                members.setdefault(number, []).append(signal)
                above.setdefault(number, classes[at - 1][game.parents[at][signal]] if at else 0)
            self.members.append({number: members[number] for number in sorted(members)})
            self.above.append(above)
        self.sets = {player: self._sets(player) for player in (1, 2)}
        self.slots = {player: self._slots(player) for player in (1, 2)}

    def _sets(self, player: int) -> list[tuple[int, int]]:
        """Lists a player's information sets in the order of a plan: the number of a point, and a class of its round."""
        return [(point.number, of) for point in self.game.points if point.player == player for of in self.members[point.round]]

    def _slots(self, player: int) -> dict[tuple[int, int, int], int]:
        """Numbers the moves of a player's information sets from 1; 0 is the empty sequence."""
        moves = ((number, of, choice) for number, of in self.sets[player] for choice in range(len(self.game.points[number].moves)))
        return {move: slot for slot, move in enumerate(moves, 1)}

    def sequence(self, player: int, steps: tuple[Step, ...], of: int, at: int) -> int:
        """Returns the slot of a player's last move before a position of round `at`, seen from a class of that round."""
        step = steps[player - 1]
        if step is None:
            return 0
        for back in range(at, self.game.points[step[0]].round, -1):
            of = self.above[back][of]
        return self.slots[player][(step[0], of, step[1])]

    def before(self, player: int, number: int, of: int) -> int:
        """Returns the slot whose weight comes to an information set."""
        point = self.game.points[number]
        return self.sequence(player, point.steps, of, point.round)

    def moves_at(self, player: int, number: int, of: int) -> list[int]:
        """Returns the slots of an information set."""
        return [self.slots[player][(number, of, choice)] for choice in range(len(self.game.points[number].moves))]

    def shared(self, player: int, total: int, shares: Callable[[int, int], Iterable[Share]]) -> list[int]:
        """Returns a plan's weights, slot by slot behind the total. What comes to an information set is shared among its moves in proportion
        to `shares(number, of)` and rounded down; what is left goes to the largest remainders. Where nothing comes, `shares` is not asked."""
        return self._flowing(player, total, shares, rounded_down)

    def exact(self, player: int, shares: Callable[[int, int], Iterable[Share]]) -> list[Fraction]:
        """Returns a plan's weights as `shared` does, of total 1 and with nothing rounded."""
        return self._flowing(player, Fraction(1), shares, lambda parts, _comes: parts)

    def _flowing(
        self, player: int, total: Weight, shares: Callable[[int, int], Iterable[Share]], rounded: Callable[[list[Fraction], Weight], list[Weight]]
    ) -> list[Weight]:
        weights = [total] + [total * 0] * len(self.slots[player])
        for number, of in self.sets[player]:
            comes = weights[self.before(player, number, of)]
            if comes == 0:
                continue
            wanted = [Fraction(share) for share in shares(number, of)]
            whole = sum(wanted)
            parts = rounded([comes * share / whole for share in wanted], comes)
            for slot, weight in zip(self.moves_at(player, number, of), parts):
                weights[slot] = weight
        return weights


def rounded_down(parts: list[Fraction], whole: int) -> list[int]:
    """Returns parts that add up to a whole, rounded down; what is left goes to the largest remainders.

    >>> rounded_down([Fraction(10, 3), Fraction(10, 3), Fraction(10, 3)], 10)
    [4, 3, 3]
    """
    numbers = [int(part) for part in parts]
    largest = sorted(range(len(parts)), key=lambda choice: (numbers[choice] - parts[choice], choice))
    for choice in largest[: whole - sum(numbers)]:
        numbers[choice] += 1
    return numbers
