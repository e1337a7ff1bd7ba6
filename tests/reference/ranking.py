"""Who wins a showdown, and how many times the put."""

from collections.abc import Sequence

from .cards import Deck

CATEGORIES = {"high": 1, "pair": 2, "three": 6}
PAIR = 64
CATEGORY_OF_THREE = 262144


def can_rank(ranking: str, own: int, public: int) -> bool:
    """`ranks`: whether a ranking can rank hands of so many own and public cards."""
    return own + public == 3 if ranking == "three" else own == 1


def strength(deck: Deck, ranking: str, own: Sequence[int], public: Sequence[int]) -> int:
    """`strength`: returns the strength of a hand of own and public cards; the greater strength wins."""
    if ranking == "three":
        return three_strength(deck, [*own, *public])
    rank = deck.rank(own[0])
    paired = ranking == "pair" and rank in map(deck.rank, public)
    return rank + PAIR * paired


def three_strength(deck: Deck, cards: Sequence[int]) -> int:
    """`three_strength`: returns the strength of three cards: the category, and then the ranks that decide within it."""
    high, middle, low = sorted(map(deck.rank, cards), reverse=True)
    flush = len(set(map(deck.suit, cards))) == 1
    straight = high == middle + 1 == low + 2
    if straight and flush:
        decides = (5, high, 0, 0)
    elif high == low:
        decides = (4, high, 0, 0)
    elif straight:
        decides = (3, high, 0, 0)
    elif flush:
        decides = (2, high, middle, low)
    elif high == middle:
        decides = (1, high, low, 0)
    elif middle == low:
        decides = (1, middle, high, 0)
    else:
        decides = (0, high, middle, low)
    kind, first, second, third = decides
    return kind * CATEGORY_OF_THREE + first * 4096 + second * 64 + third


def category(ranking: str, strong: int) -> int:
    """`category`: returns the category of a strength, 0 for the lowest."""
    return {"high": 0, "pair": strong // PAIR, "three": strong // CATEGORY_OF_THREE}[ranking]


def outcome(bonus: Sequence[int], ranking: str, mine: int, other: int) -> int:
    """`outcome`: returns the outcome of one strength against another: the winner's bonus, with a minus where the other wins."""
    if mine > other:
        return bonus[category(ranking, mine)]
    if mine < other:
        return -bonus[category(ranking, other)]
    return 0
