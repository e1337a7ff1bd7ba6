"""Ordered game isomorphism of nodes of the view tree, and the signal classes."""

from collections import Counter
from collections.abc import Callable, Sequence

from .classes import Classes, numbered
from .signals import Signals


def node_numbers(signals: Signals) -> list[list[int]]:
    """Returns a number for each signal of each round: signals of one round have equal numbers exactly where they are isomorphic.

    From the leaves up, a node is told by what it has as often as it has it: pairs of an edge weight and a child's number, or leaves.
    """
    numbers: list[list[int]] = [[] for _ in range(signals.rounds + 1)]
    numbers[-1] = numbered(frozenset(Counter(signals.leaves(signal)).items()) for signal in range(signals.count(signals.rounds)))
    for number in range(signals.rounds - 1, 0, -1):
        edges, below = signals.edges[number + 1], numbers[number + 1]
        numbers[number] = numbered(frozenset(Counter((edges[child], below[child]) for child in children).items()) for children in signals.children[number])
    return numbers


def signal_classes(signals: Signals) -> Classes:
    """`IsSignalClasses`: returns the classes of isomorphic signals whose parents are in one class."""
    lists: list[list[int]] = [[]]
    for number, nodes in enumerate(node_numbers(signals)[1:], 1):
        above = [lists[-1][parent] for parent in signals.parents[number]] if number > 1 else [0] * len(nodes)
        lists.append(numbered(zip(above, nodes)))
    return Classes(signals.parents, lists[1:])


class Isomorphism:
    """`Isomorphic` word by word: a search for a bijection of children. Only the tests use it, on small games."""

    def __init__(self, signals: Signals) -> None:
        self.signals = signals
        self.known: dict[tuple[int, int, int], bool] = {}

    def isomorphic(self, number: int, one: int, two: int) -> bool:
        """Whether two signals of a round are isomorphic."""
        key = (number, one, two)
        if key not in self.known:
            self.known[key] = matched(self.parts(number, one), self.parts(number, two), lambda a, b: self.related(number, a, b))
        return self.known[key]

    def parts(self, number: int, signal: int) -> list[tuple[int, int]]:
        """The leaves, or the children with the weights of their edges."""
        if number == self.signals.rounds:
            return list(self.signals.leaves(signal))
        return [(self.signals.edges[number + 1][child], child) for child in self.signals.children[number][signal]]

    def related(self, number: int, a: tuple[int, int], b: tuple[int, int]) -> bool:
        """Whether two parts of nodes of a round may be mapped to each other."""
        return a == b if number == self.signals.rounds else a[0] == b[0] and self.isomorphic(number + 1, a[1], b[1])


def matched(left: Sequence[tuple[int, int]], right: Sequence[tuple[int, int]], related: Callable[[tuple[int, int], tuple[int, int]], bool]) -> bool:
    """`Matched`: whether some bijection relates each member of a list to one of the other list. Equal members of the other list are tried once."""
    if not left or not right:
        return not left and not right
    places = (right.index(b) for b in dict.fromkeys(right) if related(left[0], b))
    return any(matched(left[1:], [*right[:at], *right[at + 1 :]], related) for at in places)
