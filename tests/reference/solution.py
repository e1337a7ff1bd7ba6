"""The linear program of a game in sequence form, its opening, and the exact solution at the end of its path."""

from fractions import Fraction
from math import lcm

from .answers import Answers
from .plans import MOST_TOTAL, Plan, SequenceForm, check_plan, first_moves
from .refusals import Refusal
from .simplex import Pair, Path, Program, Wide

MOST_TABLE = 1048576
MOST_PIVOTS = 8192


class GameProgram:
    """`IsGameProgram`: the linear program of a game, for player 1, with its opening (`IsGameOpening`).

    The columns are player 1's sequences, the free numbers of player 2, and a slack for each sequence of player 2. The rows are the constraint of player 1's
    empty sequence, those of player 1's information sets, and one for each sequence of player 2.
    """

    def __init__(self, form: SequenceForm) -> None:
        self.form = form
        self.sets_of_one, self.sets_of_two = form.sets(1), form.sets(2)
        self.first_free = form.sequences(1)
        self.first_slack = self.first_free + 1 + len(self.sets_of_two)
        self.columns = self.first_slack + form.sequences(2)
        self.first_answer = 1 + len(self.sets_of_one)

    def table_numbers(self) -> int:
        """`table_numbers`: returns the number of entries of the table."""
        return (self.first_answer + self.form.sequences(2) + 1) * (self.columns + 1)

    def sequence_before(self, point: int, one: int) -> int:
        """`sequence_by`: returns the sequence before an information set: 0 for the empty one, else its slot plus 1."""
        here = self.form.game.points[point]
        return 0 if here.own is None else 1 + self.form.slot_before(here.own, here.round, one)

    def sequences_at(self, point: int, one: int) -> list[int]:
        """`sequence_of`: returns the sequences that end with the moves at an information set."""
        return [1 + slot for slot in self.form.slots_at(point, one)]

    def payoffs(self) -> dict[tuple[int, int], int]:
        """`payoffs`: returns the payoff of each sequence of player 1 and of player 2, summed over the ends and deals to which both lead."""
        form, signals = self.form, self.form.signals
        sums: dict[tuple[int, int], int] = {}
        for end in form.game.ends:
            lists = form.classes.lists[end.round]
            one, two = (
                [0, *(0 if step is None else 1 + form.slot_before(step, end.round, number) for number in form.classes.numbers(end.round))] for step in end.steps
            )
            for signal in range(signals.count(end.round)):
                for other, weight, outcome in signals.pairs(end.round, signal):
                    key = (one[lists[signal]], two[lists[other]])
                    sums[key] = sums.get(key, 0) + weight * end.payoff(outcome)
        return sums

    def program(self) -> Program:
        """`IsSequenceProgram`: returns the program."""
        rows = [[0] * (self.columns + 1) for _ in range(self.first_answer + self.form.sequences(2))]
        rows[0][0] = rows[0][-1] = 1
        for row, one_set in zip(rows[1:], self.sets_of_one):
            row[self.sequence_before(*one_set)] -= 1
            for sequence in self.sequences_at(*one_set):
                row[sequence] += 1
        answers = rows[self.first_answer :]
        answers[0][self.first_free] += 1
        for column, one_set in enumerate(self.sets_of_two, self.first_free + 1):
            answers[self.sequence_before(*one_set)][column] -= 1
            for sequence in self.sequences_at(*one_set):
                answers[sequence][column] += 1
        for (one, two), payoff in self.payoffs().items():
            answers[two][one] -= payoff
        for column, row in enumerate(answers, self.first_slack):
            row[column] += 1
        free = [self.first_free <= column < self.first_slack for column in range(self.columns)]
        return Program(free, rows, [int(column == self.first_free) for column in range(self.columns)])

    def opening(self) -> list[Pair]:
        """`IsGameOpening`: player 1's first moves, player 2's first best moves against them, and the slacks of the other sequences, by column."""
        best = Answers(self.form, 2).best_values(first_moves(self.form, 1))[2]
        pairs = [(0, 0), (self.first_answer, self.first_free)]
        pairs += [(row, self.sequences_at(*one_set)[0]) for row, one_set in enumerate(self.sets_of_one, 1)]
        chosen = [self.sequences_at(*one_set)[best[one_set]] for one_set in self.sets_of_two]
        pairs += [(self.first_answer + sequence, column) for column, sequence in enumerate(chosen, self.first_free + 1)]
        pairs += [(self.first_answer + other, self.first_slack + other) for other in range(1, self.form.sequences(2)) if other not in chosen]
        return sorted(pairs, key=lambda pair: pair[1])


def path_of(form: SequenceForm) -> Path:
    """`IsGamePath`: returns the path of a game's program, or refuses the game if the path does not come to its end."""
    game = GameProgram(form)
    if game.table_numbers() > MOST_TABLE:
        raise Refusal(11, f"too large: table numbers: {game.table_numbers()}")
    path = Path(game.program(), game.opening(), MOST_PIVOTS)
    stop = path.stop
    if isinstance(stop, Wide):
        raise Refusal(9, f"overflow: step {stop.step} row {stop.row} column {stop.column} number {stop.number}")
    if stop == "pivots":
        raise Refusal(10, f"more than {MOST_PIVOTS} pivots")
    assert stop is None, "the program of a game is bounded"
    assert path.anew or path.fits(), "the rows are not those of the list"
    return path


def least_plan(player: int, numbers: list[Fraction]) -> Plan:
    """`IsLeastPlan`: returns the plan of least total whose weights over it are these numbers; the first is that of the empty sequence."""
    total = 1
    for number in numbers:
        total = lcm(total, number.denominator)
        if total > MOST_TOTAL:
            raise Refusal(9, f"overflow: player {player} total {total}")
    return Plan(player, total, [int(number * total) for number in numbers[1:]])


def solve(form: SequenceForm) -> tuple[Plan, Plan]:
    """`IsGameSolution`: returns the plans at the end of the path: player 1's values, and the prices of player 2's slacks."""
    path = path_of(form)
    game = GameProgram(form)
    one = least_plan(1, path.values()[: game.first_free])
    two = least_plan(2, path.prices()[game.first_slack :])
    for plan in (one, two):
        check_plan(form, plan)
    return one, two
