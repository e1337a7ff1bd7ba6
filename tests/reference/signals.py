"""Raw signals, the deals, and the edges of the view tree.

A signal is named by its place in the order of its round. `shown[r][s]` is what its player has seen, as one flat tuple of groups: the own and the
public ones of round 1, then those of round 2, and so on. Lists by round have a first entry that is not used, so that rounds count from 1.
"""

from collections.abc import Iterator

from .cards import Group, draws, groups, left_after, ways, ways_in_turn
from .game import Game
from .ranking import outcome, strength

Pair = tuple[int, int, int]
"""A signal of the other player, the weight of the deals with both, and the viewer's outcome."""

MOST_LISTED = 300000
"""Up to this many deals the pairs of an earlier round are added up from them."""


class Signals:
    """The raw signals of a game."""

    def __init__(self, game: Game) -> None:
        self.game = game
        self.rounds = game.last_round
        self.is_single = max(game.deck.copies) <= 1
        self.shown: list[list[tuple[Group, ...]]] = [[()]]
        self.parents: list[list[int]] = [[]]
        self.edges: list[list[int]] = [[]]
        self.children: list[list[range]] = []
        for one in game.rounds:
            self.add_round(one.private, one.public)
        self.rivals: list[dict[tuple[Group, ...], list[int]]] = [{}]
        self.own: list[list[Group]] = [[]]
        for shown in self.shown[1:]:
            by_public: dict[tuple[Group, ...], list[int]] = {}
            for signal, seen in enumerate(shown):
                by_public.setdefault(seen[1::2], []).append(signal)
            self.rivals.append(by_public)
            self.own.append([sum(seen[0::2], ()) for seen in shown])
        self.strengths = [strength(game.deck, game.ranking, sum(seen[0::2], ()), sum(seen[1::2], ())) for seen in self.shown[-1]]
        self.listed: dict[int, list[list[Pair]]] = {}
        self.above: dict[tuple[int, int], list[int]] = {}

    def add_round(self, private: int, public: int) -> None:
        """`children`: lists the signals of the next round, with the weight of the edge to each (`edge`)."""
        shown, parents, edges, children = [], [], [], []
        for parent, seen in enumerate(self.shown[-1]):
            first, left = len(shown), self.game.deck.copies
            for group in seen:
                left = left_after(left, group)
            for own in groups(left, private):
                after = left_after(left, own)
                for board in groups(after, public):
                    shown.append((*seen, own, board))
                    parents.append(parent)
                    edges.append(1 if self.is_single else ways(left, own) * ways(after, board))
            children.append(range(first, len(shown)))
        self.shown.append(shown)
        self.parents.append(parents)
        self.edges.append(edges)
        self.children.append(children)

    def count(self, number: int) -> int:
        """`signal_count`: returns how many signals a round has."""
        return len(self.shown[number])

    def text(self, number: int, signal: int) -> str:
        """Returns a signal's text."""
        seen, text = self.shown[number][signal], self.game.deck.group_text
        return "/".join(text(own) + ("+" + text(board) if board else "") for own, board in zip(seen[0::2], seen[1::2]))

    def place_of(self, number: int, text: str) -> int | None:
        """Returns the signal of a round that has a text, or None."""
        return next((signal for signal in range(self.count(number)) if self.text(number, signal) == text), None)

    def ancestors(self, number: int, to: int) -> list[int]:
        """`ancestor`: returns, for each signal of a round, its ancestor in an earlier round or in the same one."""
        if (number, to) not in self.above:
            found = list(range(self.count(number)))
            for later in range(number, to, -1):
                found = [self.parents[later][signal] for signal in found]
            self.above[number, to] = found
        return self.above[number, to]

    def descendants(self, number: int, signal: int, to: int) -> range:
        """Returns the signals of a later round, or of the same one, that descend from a signal."""
        found = range(signal, signal + 1)
        for earlier in range(number, to):
            children = self.children[earlier]
            found = range(children[found[0]].start, children[found[-1]].stop) if found else found
        return found

    def facing(self, number: int, signal: int) -> list[int]:
        """`facing`: returns the signals that the other player may have in the round, in order."""
        own, board = self.own[number][signal], self.shown[number][signal][1::2]
        rivals = self.rivals[number][board]
        if self.is_single:
            return [other for other in rivals if not set(own) & set(self.own[number][other])]
        taken = own + sum(board, ())
        copies = self.game.deck.copies
        return [other for other in rivals if all((taken + self.own[number][other]).count(card) <= copies[card] for card in self.own[number][other])]

    def outcome(self, one: int, two: int) -> int:
        """`signal_outcome`: returns the outcome of one last-round signal against another."""
        return outcome(self.game.bonus, self.game.ranking, self.strengths[one], self.strengths[two])

    def pair_ways(self, number: int, one: int, two: int) -> int:
        """Returns the number of ways to deal the groups of two signals of a round, from the full deck."""
        if self.is_single:
            return 1
        return ways_in_turn(self.game.deck.copies, self.shown[number][one] + self.shown[number][two][0::2])

    def leaves(self, signal: int) -> Iterator[tuple[int, int]]:
        """`leaves`: yields, for each leaf under a last-round signal, the ways to take the opponent's groups from what is left, and the outcome."""
        left = self.game.deck.copies
        for group in self.shown[-1][signal]:
            left = left_after(left, group)
        for other in self.facing(self.rounds, signal):
            yield 1 if self.is_single else ways_in_turn(left, self.shown[-1][other][0::2]), self.outcome(signal, other)

    def deals_with(self, signal: int) -> Iterator[Pair]:
        """`deals`: yields the deals with a last-round signal: the other's signal, the weight of the deal, the outcome."""
        for other in self.facing(self.rounds, signal):
            yield other, self.pair_ways(self.rounds, signal, other), self.outcome(signal, other)

    def pairs(self, number: int, signal: int) -> list[Pair]:
        """Returns, for each signal of the other player that some deal has with a signal of a round, the weight of these deals and the outcome.

        Before the last round the outcome is not one number, and 0 stands for it.
        """
        if self.game.deal_count > MOST_LISTED:
            return list(self.deals_with(signal)) if number == self.rounds else self.pairs_by_ways(number, signal)
        if number not in self.listed:
            self.listed[number] = self.all_pairs(number)
        return self.listed[number][signal]

    def all_pairs(self, number: int) -> list[list[Pair]]:
        """Returns the pairs of each signal of a round, added up deal by deal."""
        if number == self.rounds:
            return [list(self.deals_with(signal)) for signal in range(self.count(number))]
        up = self.ancestors(self.rounds, number)
        sums: list[dict[int, int]] = [{} for _ in range(self.count(number))]
        for signal in range(self.count(self.rounds)):
            mine = sums[up[signal]]
            for other, weight, _ in self.pairs(self.rounds, signal):
                mine[up[other]] = mine.get(up[other], 0) + weight
        return [[(other, weight, 0) for other, weight in sorted(mine.items())] for mine in sums]

    def pairs_by_ways(self, number: int, signal: int) -> list[Pair]:
        """Returns the pairs of a signal of an earlier round: the ways to deal both, times the ways to deal the rest (`ways_on`)."""
        dealt = self.game.deal_sizes()
        rest = self.game.deal_sizes(number)
        on = draws(sum(self.game.deck.copies) - sum(dealt) + sum(rest), rest)
        return [(other, on * self.pair_ways(number, signal, other), 0) for other in self.facing(number, signal)]
