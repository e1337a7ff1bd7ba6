"""Decks, groups of cards, and the ways to draw them.

A card is the number of its kind; kinds are numbered rank by rank, and within a rank suit by suit. A group is an ascending tuple of cards.
"""

from collections.abc import Iterable, Iterator, Sequence
from itertools import product
from math import comb, prod

from .refusals import Fault

Group = tuple[int, ...]

MOST_KINDS = 52


class Deck:
    """The letters of the ranks and suits, and how many cards of each kind there are.

    >>> Deck("JQK", "sh", "").card_text(5)
    'Kh'
    """

    def __init__(self, ranks: str, suits: str, copies: str) -> None:
        if not ranks or not suits:
            raise Fault("no cards")
        if not all(letter.isascii() and letter.isalnum() for letter in ranks + suits):
            raise Fault("bad letter")
        if len(set(ranks)) < len(ranks) or len(set(suits)) < len(suits):
            raise Fault("repeated letter")
        kinds = len(ranks) * len(suits)
        if kinds > MOST_KINDS:
            raise Fault("too many kinds")
        copies = copies or "1" * kinds
        if len(copies) != kinds or not all(digit in "0123456789" for digit in copies):
            raise Fault("bad copies")
        self.ranks, self.suits = ranks, suits
        self.copies = [int(digit) for digit in copies]

    def rank(self, card: int) -> int:
        """`rank_of`: the rank of a card, 0 for the lowest."""
        return card // len(self.suits)

    def suit(self, card: int) -> int:
        """`suit_of`: the suit of a card, from 0."""
        return card % len(self.suits)

    def card_text(self, card: int) -> str:
        """Returns the letter of the card's rank and that of its suit."""
        return self.ranks[self.rank(card)] + self.suits[self.suit(card)]

    def group_text(self, group: Group) -> str:
        """Returns the texts of a group's cards, one after the other."""
        return "".join(map(self.card_text, group))

    def copies_text(self) -> str:
        """Returns a digit for each kind."""
        return "".join(map(str, self.copies))


def groups(left: Sequence[int], size: int, least: int = 0) -> Iterator[Group]:
    """`groups`: yields all groups of a size that the copies left allow, in lexicographic order.

    >>> list(groups([1, 2], 2))
    [(0, 1), (1, 1)]
    """
    if size == 0:
        yield ()
        return
    for card in range(least, len(left)):
        if left[card]:
            for others in groups(left_after(left, (card,)), size - 1, card):
                yield (card, *others)


def left_after(left: Sequence[int], group: Group) -> list[int]:
    """`left_after`: returns the copies left of each kind once a group is taken."""
    after = list(left)
    for card in group:
        after[card] -= 1
    return after


def ways(left: Sequence[int], group: Group) -> int:
    """`ways`: returns the number of ways to take a group from the physical copies left.

    >>> ways([3, 2], (0, 0, 1))
    6
    """
    return prod(comb(left[card], group.count(card)) for card in set(group))


def ways_in_turn(left: Sequence[int], taken: Iterable[Group]) -> int:
    """Returns the number of ways to take some groups one after the other; 0 where they cannot all be taken."""
    product_so_far = 1
    for group in taken:
        product_so_far *= ways(left, group)
        if not product_so_far:
            return 0
        left = left_after(left, group)
    return product_so_far


def draws(cards: int, sizes: Iterable[int]) -> int:
    """`draws`: returns the number of ways to draw groups of these sizes in turn from physical cards.

    With the sizes of all groups of a deal this is the weight of all deals together.

    >>> draws(3, [0, 1, 1])
    6
    """
    found = 1
    for size in sizes:
        found *= comb(cards, size)
        cards -= size
    return found


def count_of_lists(copies: Iterable[int], sizes: Sequence[int]) -> int:
    """Returns how many lists of groups of these sizes the copies allow, with no regard to which copy of a kind is taken.

    The kinds are gone through in turn. What counts of the kinds so far is only how much room they leave in each group.

    >>> count_of_lists([2, 1], [1, 1])
    3
    """
    reached = {tuple(sizes): 1}
    for have in copies:
        after: dict[tuple[int, ...], int] = {}
        for room, number in reached.items():
            for taken in product(*(range(min(size, have) + 1) for size in room)):
                if sum(taken) <= have:
                    rest = tuple(size - part for size, part in zip(room, taken))
                    after[rest] = after.get(rest, 0) + number
        reached = after
    return reached.get((0,) * len(sizes), 0)
