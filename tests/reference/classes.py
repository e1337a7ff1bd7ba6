"""Classes of raw signals: losslessness, the first unlike pair, and the coarsest lossless refinement."""

from collections.abc import Hashable, Iterable

from .refusals import Fault
from .signals import Signals


class Classes:
    """`IsClasses`: for each round the class of each signal, numbered from 1 by first member. `lists[r][s]` is the class of signal s of round r.

    Members of one class have parents of one class. `stated` has no entry for a round 0; a list that breaks a rule is a fault.
    """

    def __init__(self, parents: list[list[int]], stated: list[list[int]]) -> None:
        self.parents = parents
        self.lists = [[], *stated]
        for number in range(1, max(len(parents), len(self.lists))):
            if number >= len(parents) or number >= len(self.lists) or len(parents[number]) != len(self.lists[number]):
                raise Fault(f"length in round {number}")
        for number, numbers in enumerate(self.lists):
            greatest = 0
            for place, one in enumerate(numbers):
                if not 1 <= one <= greatest + 1:
                    raise Fault(f"number in round {number} at {place}")
                greatest = max(greatest, one)
        self.members: list[list[list[int]]] = []
        for numbers in self.lists:
            members: list[list[int]] = [[] for _ in range(max(numbers, default=0) + 1)]
            for signal, one in enumerate(numbers):
                members[one].append(signal)
            self.members.append(members)
        for number in range(2, len(self.lists)):
            for signal, one in enumerate(self.lists[number]):
                if self.class_above(number, signal) != self.class_above(number, self.first(number, one)):
                    raise Fault(f"parents apart in round {number} at {self.first(number, one)} and {signal}")

    def class_above(self, number: int, signal: int) -> int:
        """Returns the class of a signal's parent."""
        return self.lists[number - 1][self.parents[number][signal]]

    def count(self, number: int) -> int:
        """`class_count`: returns how many classes a round has."""
        return len(self.members[number]) - 1

    def numbers(self, number: int) -> range:
        """`classes_in`: returns the numbers of a round's classes."""
        return range(1, self.count(number) + 1)

    def first(self, number: int, one: int) -> int:
        """`first_member`: returns the first member of a class."""
        return self.members[number][one][0]

    def ancestor(self, number: int, one: int, to: int) -> int:
        """`IsClassAbove`: returns the class of an earlier round, or of the same one, from which a class descends."""
        for later in range(number, to, -1):
            one = self.class_above(later, self.first(later, one))
        return one


def single_classes(signals: Signals) -> Classes:
    """Returns the classes of one signal each."""
    return Classes(signals.parents, [list(range(1, signals.count(number) + 1)) for number in range(1, signals.rounds + 1)])


def numbered(keys: Iterable[Hashable]) -> list[int]:
    """`IsClassesOf`: returns a number for each key, equal keys having equal numbers, counted from 1 by first member.

    >>> numbered("abca")
    [1, 2, 3, 1]
    """
    seen: dict[Hashable, int] = {}
    return [seen.setdefault(key, len(seen) + 1) for key in keys]


def sums_of(signals: Signals, lists: list[list[int]], number: int, signal: int) -> dict[Hashable, int]:
    """Returns the numbers that `Alike` compares, with no entry where one is 0.

    They are the weight against each class, in the last round for each outcome by itself, and before it the count of children in each class.
    """
    sums: dict[Hashable, int] = {}
    for other, weight, outcome in signals.pairs(number, signal):
        key = (lists[number][other], outcome)
        sums[key] = sums.get(key, 0) + weight
    if number < signals.rounds:
        for child in signals.children[number][signal]:
            one = lists[number + 1][child]
            sums[one] = sums.get(one, 0) + 1
    return sums


def first_unlike(signals: Signals, classes: Classes) -> tuple[int, int, int] | None:
    """`IsFirstUnlike`: returns the round, the first member of a class, and the first signal that is unlike it; None if the classes are lossless."""
    for number in range(1, signals.rounds + 1):
        of_first: dict[int, dict[Hashable, int]] = {}
        for signal, one in enumerate(classes.lists[number]):
            if len(classes.members[number][one]) > 1:
                sums = sums_of(signals, classes.lists, number, signal)
                if of_first.setdefault(one, sums) != sums:
                    return number, classes.first(number, one), signal
    return None


def coarsest_lossless(signals: Signals, classes: Classes) -> Classes:
    """`IsCoarsestLossless`: returns the coarsest lossless refinement. Classes are split by what must agree until nothing changes."""
    lists = classes.lists
    while True:
        after: list[list[int]] = [[]]
        for number in range(1, signals.rounds + 1):
            above = [lists[number - 1][parent] for parent in signals.parents[number]] if number > 1 else [0] * signals.count(number)
            sums = (frozenset(sums_of(signals, lists, number, signal).items()) for signal in range(signals.count(number)))
            after.append(numbered(zip(lists[number], above, sums)))
        if after == lists:
            return Classes(signals.parents, lists[1:])
        lists = after
