"""A game, the rules that it keeps, and the numbered points and ends of its betting.

Rounds and players count from 1, points and ends from 0.
"""

from collections.abc import Iterator
from dataclasses import dataclass, field

from .betting import EVEN, FOLD, Leaf, Tree, leaves, tree_text
from .cards import Deck, count_of_lists, draws
from .ranking import can_rank
from .refusals import Fault

MOST_ROUNDS = 4
MOST_PUT = 4096
MOST_ENDS = 8192
MOST_WEIGHT = 67108864
MOST_SIGNALS = 200000
MOST_DEALS = 8000000

Step = tuple[int, int]
"""A choice made at a point: the point, and the place of the move among its moves."""

Target = tuple[str, int]
"""Where play goes on: ("point", number) or ("end", number)."""


@dataclass
class Round:
    """How many private and public cards a round gives, and its betting."""

    private: int
    public: int
    tree: Tree


@dataclass
class Point:
    """A point: who chooses, in which round, both players' last steps before it, its line, and its moves with where each leads."""

    player: int
    round: int
    steps: tuple[Step | None, Step | None]
    line: str
    moves: list[tuple[str, Target]] = field(default_factory=list)

    @property
    def own(self) -> Step | None:
        """The last step of the player who chooses."""
        return self.steps[self.player - 1]


@dataclass
class End:
    """An end: its round, who folded (0 at a showdown), what the folder or each player has put, both players' last steps, its line."""

    round: int
    folded: int
    put: int
    steps: tuple[Step | None, Step | None]
    line: str

    def payoff(self, outcome: int) -> int:
        """`end_payoff`: returns the chips that the end pays player 1 if player 1's outcome is this."""
        if self.folded:
            return -self.put if self.folded == 1 else self.put
        return outcome * self.put


class Game:
    """A game that keeps the rules; a broken one is a fault. Attributes: as in a game file, and `weight`, `deal_count`, `points`, `ends`, `start`."""

    def __init__(self, deck: Deck, ranking: str, bonus: list[int], ante: int, rounds: list[Round]) -> None:
        self.deck, self.ranking, self.bonus, self.ante, self.rounds = deck, ranking, bonus, ante, rounds
        self.check_cards()
        self.check_betting()
        self.weight = draws(sum(deck.copies), self.deal_sizes())
        if self.weight > MOST_WEIGHT:
            raise Fault(f"too heavy: {self.weight}")
        for number in range(1, len(rounds) + 1):
            if count_of_lists(deck.copies, self.signal_sizes(number)) > MOST_SIGNALS:
                raise Fault(f"too many signals: round {number}")
        self.deal_count = count_of_lists(deck.copies, self.deal_sizes())
        if self.deal_count > MOST_DEALS:
            raise Fault("too many deals")
        self.points: list[Point] = []
        self.ends: list[End] = []
        self.start = self.walk(rounds[0].tree, 1, (None, None), (ante, ante), 0, "/")

    @property
    def last_round(self) -> int:
        """The number of the last round."""
        return len(self.rounds)

    def signal_sizes(self, number: int) -> list[int]:
        """Returns the sizes of the groups that a player has seen after a round."""
        return [size for one in self.rounds[:number] for size in (one.private, one.public)]

    def deal_sizes(self, after: int = 0) -> list[int]:
        """Returns the sizes of all groups that are dealt after a round."""
        return [size for one in self.rounds[after:] for size in (one.public, one.private, one.private)]

    def check_cards(self) -> None:
        """`card_refusal`: the rules on rounds and cards."""
        rounds = self.rounds
        if not 1 <= len(rounds) <= MOST_ROUNDS:
            raise Fault(f"rounds: {len(rounds)}")
        if rounds[0].private == 0:
            raise Fault("no private card in round 1")
        own, public = sum(one.private for one in rounds), sum(one.public for one in rounds)
        if not can_rank(self.ranking, own, public):
            raise Fault(f"cards for ranking: own {own} all {own + public}")
        need, have = 2 * own + public, sum(self.deck.copies)
        if need > have:
            raise Fault(f"not enough cards: need {need} have {have}")

    def check_betting(self) -> None:
        """`betting_refusal`: the rules on betting."""
        found = [list(leaves(one.tree)) for one in self.rounds]
        evens = [[leaf for leaf in some if leaf.kind == EVEN] for some in found]
        for number, some in enumerate(evens[:-1], 1):
            if not some:
                raise Fault(f"no even leaf: round {number}")
        for number, some in enumerate(evens, 1):
            for leaf in some:
                if leaf.puts[0] != leaf.puts[1]:
                    raise Fault(f"uneven: round {number} path {leaf.path}")
        put = self.most_put(found) * max(self.bonus)
        if put > MOST_PUT:
            raise Fault(f"put too large: {put}")
        ends = 1
        for some, even in zip(reversed(found), reversed(evens)):
            ends = len(some) - len(even) + len(even) * ends
        if ends > MOST_ENDS:
            raise Fault(f"too many lines: {min(ends, 2**128 - 1)}")

    def most_put(self, found: list[list[Leaf]]) -> int:
        """`most_put`: returns the most that one player has put at any end."""
        most, before = 0, self.ante
        for number, some in enumerate(found, 1):
            over = [leaf for leaf in some if leaf.kind == FOLD or number == len(found)]
            most = max([most, *(before + max(leaf.puts) for leaf in over)])
            before += max((leaf.puts[0] for leaf in some if leaf.kind == EVEN), default=0)
        return most

    def walk(self, tree: Tree, number: int, steps: tuple[Step | None, Step | None], puts: tuple[int, int], last: int, line: str) -> Target:
        """`walk`: numbers the points and ends of a tree, each with its line (`lines`).

        An act comes before its moves; an even leaf goes on with the next round.
        """
        if tree == EVEN and number < self.last_round:
            return self.walk(self.rounds[number].tree, number + 1, steps, puts, last, line + "/")
        if isinstance(tree, str):
            folded = last if tree == FOLD else 0
            self.ends.append(End(number, folded, puts[folded - 1] if folded else puts[0], steps, line))
            return ("end", len(self.ends) - 1)
        here = len(self.points)
        point = Point(tree.player, number, steps, line)
        self.points.append(point)
        for choice, move in enumerate(tree.moves):
            step = (here, choice)
            after = (step, steps[1]) if tree.player == 1 else (steps[0], step)
            put = (puts[0] + move.chips, puts[1]) if tree.player == 1 else (puts[0], puts[1] + move.chips)
            point.moves.append((move.letter, self.walk(move.then, number, after, put, tree.player, line + move.letter)))
        return ("point", here)

    def round_of(self, target: Target) -> int:
        """`round_of`: returns the round of a position."""
        kind, at = target
        return (self.points if kind == "point" else self.ends)[at].round

    def own_points(self, player: int) -> Iterator[int]:
        """Yields a player's points, in order."""
        return (at for at, point in enumerate(self.points) if point.player == player)

    def stated(self, version: int) -> dict[str, object]:
        """Returns the game as a strategy file of a version states it."""
        deck = self.deck
        rounds = [{"private": one.private, "public": one.public, "tree": tree_text(one.tree)} for one in self.rounds]
        value: dict[str, object] = {"ante": self.ante, "ranking": self.ranking, "rounds": rounds, "version": version}
        value |= {"ranks": deck.ranks, "suits": deck.suits, "copies": deck.copies_text()}
        return value | {"bonus": self.bonus} if version == 2 else value
