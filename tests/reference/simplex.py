"""A linear program in whole numbers, the rows that a list of basic pairs determines, and the path by Bland's rule.

Rows, columns and steps count from 0 here and from 1 in what is printed.
"""

from collections.abc import Sequence
from dataclasses import dataclass
from fractions import Fraction
from math import gcd

WIDE = 2**62
SMALL_TABLE = 3000
"""Tables of up to this many numbers are solved anew from the program at each step."""

Pair = tuple[int, int]
"""A row, and the column that is listed with it."""


@dataclass
class Program:
    """Which columns are free (others are at least 0), the rows, each with its right side behind the numbers, and the aim, which is maximised."""

    free: list[bool]
    rows: list[list[int]]
    aim: list[int]


@dataclass
class Rows:
    """`IsRowsOf`: the row of each program row, and the aim's row with the last number and the multiple behind the columns."""

    rows: list[list[int]]
    aim: list[int]


@dataclass
class Wide:
    """A step, a row, a column and a number of 2^62 or more there, the first three counted from 1."""

    step: int
    row: int
    column: int
    number: int


def primitive(row: Sequence[int]) -> list[int]:
    """`IsPrimitive`: returns a row without a common divisor.

    >>> primitive([4, 0, -6])
    [2, 0, -3]
    """
    divisor = gcd(*row) or 1
    return [number // divisor for number in row]


def combined(scale: int, row: Sequence[int], factor: int, top: Sequence[int]) -> list[int]:
    """Returns scale times a row minus factor times another."""
    if not factor:
        return [scale * a for a in row]
    return [scale * a - factor * b for a, b in zip(row, top)]


def rows_of(program: Program, pairs: Sequence[Pair]) -> Rows:
    """`IsRowsOf`: returns the rows that a list of pairs determines, solved from the program alone.

    The listed rows are solved for the listed columns by elimination in whole numbers: each division is exact. Then `scale` stands in the column of each
    pair, and 0 in the other listed columns.
    """
    work = [[*(program.rows[row][column] for _, column in pairs), *program.rows[row]] for row, _ in pairs]
    scale = 1
    for at in range(len(pairs)):
        found = next(place for place in range(at, len(pairs)) if work[place][at])
        work[at], work[found] = work[found], work[at]
        top, before, scale = work[at], scale, work[at][at]
        work = [line if place == at else [number // before for number in combined(scale, line, line[at], top)] for place, line in enumerate(work)]
    sign = -1 if scale < 0 else 1
    scale *= sign
    solved = [[sign * number for number in line[len(pairs) :]] for line in work]
    own = {row: line for (row, _), line in zip(pairs, solved)}
    rows = []
    for at, line in enumerate(program.rows):
        if at in own:
            rows.append(primitive(own[at]))
            continue
        rest = [scale * number for number in line]
        for (_, column), top in zip(pairs, solved):
            if line[column]:
                rest = combined(1, rest, line[column], top)
        rows.append(primitive(rest))
    aim, last = [scale * number for number in program.aim], 0
    for (_, column), top in zip(pairs, solved):
        if program.aim[column]:
            aim, last = combined(1, aim, program.aim[column], top), last + program.aim[column] * top[-1]
    return Rows(rows, primitive([*aim, last, scale]))


def rows_after(before: Rows, pair: Pair) -> Rows:
    """Returns the rows once a pair is taken, by changing the former ones. A row without a number in the pair's column stays the same list."""
    at, column = pair
    top = before.rows[at]
    top = primitive(top if top[column] > 0 else [-number for number in top])
    pivot = top[column]
    rows = [
        top if place == at else primitive(combined(pivot, line, line[column], top)) if line[column] else line for place, line in enumerate(before.rows)
    ]
    aim = before.aim
    if aim[column]:
        numbers = combined(pivot, aim[:-2], aim[column], top[:-1])
        aim = primitive([*numbers, pivot * aim[-2] + aim[column] * top[-1], pivot * aim[-1]])
    return Rows(rows, aim)


class Path:
    """`IsPath`: the path of a program from an opening, with at most `most` pivots.

    `stop` is None where the path ends at its best, else a `Wide`, "pivots" or "unbounded". `anew` solves the rows from the program at each step, as they
    are defined; otherwise the former rows are changed.
    """

    def __init__(self, program: Program, opening: Sequence[Pair], most: int, anew: bool | None = None) -> None:
        size = (len(program.rows) + 1) * (len(program.aim) + 1)
        self.program, self.anew = program, size <= SMALL_TABLE if anew is None else anew
        self.pairs: list[Pair] = []
        self.rows = Rows([primitive(row) for row in program.rows], primitive([*program.aim, 0, 1]))
        self.steps = 0
        self.pivots: list[tuple[int, int]] = []
        self.bases: list[list[int]] = []
        self.stop: Wide | str | None = None
        for pair in opening:
            self.take(pair, len(self.pairs))
            if self.stop:
                return
        self.start = self.aim_value()
        self.bases.append(self.basis())
        while not self.stop and (entering := self.entering()) is not None:
            self.pivot(entering, most)

    def listed(self) -> set[int]:
        """Returns the listed columns."""
        return {column for _, column in self.pairs}

    def basis(self) -> list[int]:
        """`IsBasis`: returns the listed columns in rising order."""
        return sorted(self.listed())

    def take(self, pair: Pair, place: int) -> None:
        """Lists a pair at a place, makes the rows of the list, and looks for a wide number."""
        assert self.rows.rows[pair[0]][pair[1]], "the pair cannot be taken"
        self.pairs[place : place + 1] = [pair]
        before, self.steps = self.rows, self.steps + 1
        self.rows = rows_of(self.program, self.pairs) if self.anew else rows_after(before, pair)
        old = [*before.rows, before.aim] if self.steps > 1 else []
        for at, line in enumerate([*self.rows.rows, self.rows.aim]):
            if old and line is old[at]:
                continue
            for column, number in enumerate(line):
                if abs(number) >= WIDE:
                    self.stop = Wide(self.steps, at + 1, column + 1, number)
                    return

    def entering(self) -> int | None:
        """`Enters`: returns the unlisted column of least index that the aim gains by, or None."""
        listed = self.listed()
        return next((column for column in range(len(self.program.aim)) if column not in listed and self.rows.aim[column] > 0), None)

    def pivot(self, entering: int, most: int) -> None:
        """`Leaves`: the row of least ratio leaves; among equal ratios the one whose listed column has the least index."""
        ratios = []
        for place, (row, column) in enumerate(self.pairs):
            line = self.rows.rows[row]
            if not self.program.free[column] and line[entering] > 0:
                ratios.append((Fraction(line[-1], line[entering]), column, place))
        if not ratios:
            self.stop = "unbounded"
        elif len(self.pivots) == most:
            self.stop = "pivots"
        else:
            _, column, place = min(ratios)
            self.pivots.append((entering, column))
            self.take((self.pairs[place][0], entering), place)
            if not self.stop:
                self.bases.append(self.basis())

    def aim_value(self) -> Fraction:
        """`IsAimValue`: returns the aim's value where the unlisted columns are 0."""
        return Fraction(self.rows.aim[-2], self.rows.aim[-1])

    def values(self) -> list[Fraction]:
        """`IsBestAt`: returns the value of each column at the path's end."""
        found = [Fraction(0)] * len(self.program.aim)
        for row, column in self.pairs:
            found[column] = Fraction(self.rows.rows[row][-1], self.rows.rows[row][column])
        return found

    def prices(self) -> list[Fraction]:
        """`IsBestAt`: returns the price of each column at the path's end."""
        listed, aim = self.listed(), self.rows.aim
        return [Fraction(0 if column in listed else -aim[column], aim[-1]) for column in range(len(self.program.aim))]

    def fits(self, prime: int = 2**127 - 1) -> bool:
        """Whether the rows are those of the list, without solving them. The list has to name every row.

        Each listed row is primitive, above 0 in its own column and 0 in the other listed ones. Each program row, and the aim, is the sum of its numbers
        in the listed columns times the rows of these columns over their own numbers. The sums are compared modulo a prime.
        """
        shares, listed = {}, self.listed()
        for row, column in self.pairs:
            line = self.rows.rows[row]
            if line[column] <= 0 or gcd(*line) != 1 or any(line[other] for other in listed - {column}):
                return False
            shares[column] = [number * pow(line[column], -1, prime) % prime for number in line]

        def added_up(line: Sequence[int]) -> list[int]:
            parts = [[line[column] * share for share in shares[column]] for column in listed if line[column]]
            return [sum(part) for part in zip(*parts)] or [0] * (len(self.program.aim) + 1)

        *aim, last, multiple = self.rows.aim
        if multiple <= 0 or gcd(*self.rows.aim) != 1 or any(aim[column] for column in listed):
            return False
        if any((a - b) % prime for line in self.program.rows for a, b in zip(added_up(line), line)):
            return False
        of_aim = added_up(self.program.aim)
        gains = (multiple * (own - found) - number for own, found, number in zip(self.program.aim, of_aim, aim))
        return not (of_aim[-1] * multiple - last) % prime and not any(gain % prime for gain in gains)


