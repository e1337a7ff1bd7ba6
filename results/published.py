#!/usr/bin/env python3
"""Counts the classes of the full Rhode Island deck twice: as the program plays it, and with A-2-3 as the lowest straight.

  results/published.py

With that straight the signal classes, as docs/THEORY.md defines them, are as many as were published for the game: 13, 205 and 1,774. The code
is its own and shares nothing with the program or the other scripts; it goes through all 132,600 signals of the last round by brute force, and for
the coarsest lossless classes through one signal of each pattern of suits. Some 10 s in all.
"""

from bisect import bisect_left, bisect_right
from collections import defaultdict

RANKS, SUITS = 13, 4
DECK = [(rank, suit) for rank in range(RANKS) for suit in range(SUITS)]
PUBLISHED = [13, 205, 1774]


def straight_to(ranks, low_ace):
    """Returns the highest rank of a straight of three ranks in order, or nothing."""
    low, middle, high = ranks
    if high == middle + 1 == low + 2:
        return high
    return 1 if low_ace and ranks == [0, 1, RANKS - 1] else None


def strength(cards, low_ace):
    """Returns the strength of three cards: high card, pair, flush, straight, three of one rank, straight flush."""
    ranks = sorted(rank for rank, _ in cards)
    low, middle, high = ranks
    flush, top = len({suit for _, suit in cards}) == 1, straight_to(ranks, low_ace)
    if flush and top is not None:
        return 5, top
    if low == high:
        return 4, low
    if top is not None:
        return 3, top
    if flush:
        return 2, high, middle, low
    if middle in (low, high):
        return 1, middle, low if middle == high else high
    return 0, high, middle, low


def numbered(marks):
    """Returns for each key the number of its mark, by first occurrence."""
    numbers = {}
    return {key: numbers.setdefault(mark, len(numbers)) for key, mark in marks.items()}


def leaves(low_ace):
    """Returns for each signal of the last round how many hands of the opponent it beats, and how many it ties."""
    found = {}
    for first in DECK:
        for second in DECK:
            if first == second:
                continue
            hands = {own: strength((own, first, second), low_ace) for own in DECK if own not in (first, second)}
            order = sorted(hands.values())
            for own, hand in hands.items():
                below, above = bisect_left(order, hand), bisect_right(order, hand)
                found[own, first, second] = below, above - below - 1
    return found


def signal_classes(low_ace):
    """Returns the class of each signal, round by round: isomorphic signals whose parents are of one class."""
    kinds = [numbered(leaves(low_ace))]
    for _ in range(2):
        children = defaultdict(list)
        for signal, kind in kinds[0].items():
            children[signal[:-1]].append(kind)
        kinds.insert(0, numbered({signal: tuple(sorted(below)) for signal, below in children.items()}))
    classes = []
    for kind in kinds:
        above = classes[-1] if classes else {(): 0}
        classes.append(numbered({signal: (kind[signal], above[signal[:-1]]) for signal in kind}))
    return classes


def pattern(signal):
    """Returns a signal with its suits numbered by first occurrence: strengths do not ask which suit is which."""
    suits = []
    for _, suit in signal:
        if suit not in suits:
            suits.append(suit)
    return tuple((rank, suits.index(suit)) for rank, suit in signal)


def showdowns(signal, low_ace):
    """Returns the hands that the opponent may hold against a signal of the last round, as patterns, each with the outcome."""
    board, mine, found = signal[1:], strength(signal, low_ace), []
    for other in DECK:
        if other not in signal:
            his = strength((other, *board), low_ace)
            found.append((pattern((other, *board)), (mine > his) - (mine < his)))
    return found


def lossless_counts(classes, low_ace):
    """Returns how many classes the coarsest lossless refinement of the signal classes has, round by round."""
    first, second, third = ({s: of for s, of in numbers.items() if pattern(s) == s} for numbers in classes)
    met = {signal: showdowns(signal, low_ace) for signal in third}
    below = {s: [pattern((*s, card)) for card in DECK if card not in s] for s in (*first, *second)}

    def children(of, signal):
        return tuple(sorted(of[child] for child in below[signal]))

    counts, found = None, [0, 0, 0]
    while counts != found:
        counts = found
        third = numbered({s: (of, second[s[:2]], tuple(sorted((third[other], won) for other, won in met[s]))) for s, of in third.items()})
        second = numbered({s: (of, first[s[:1]], children(third, s)) for s, of in second.items()})
        first = numbered({s: (of, children(second, s)) for s, of in first.items()})
        found = [len(set(numbers.values())) for numbers in (first, second, third)]
    return found


def rows(classes):
    """Returns how many rows the linear program of docs/FORMATS.md has at cap 3, over so many classes in each round. A class of round 1 has four
    information sets of player 1 and ten moves of player 2; seven lines lead from each round into the next."""
    return 2 + 14 * classes[0] + 98 * classes[1] + 686 * classes[2]


def counted(low_ace):
    """Returns the counts by isomorphism, and of the coarsest lossless classes."""
    classes = signal_classes(low_ace)
    return [len(set(numbers.values())) for numbers in classes], lossless_counts(classes, low_ace)


def main():
    for name, low_ace in (("the top rank is never low", False), ("A-2-3 is the lowest straight", True)):
        for kind, classes in zip(("by isomorphism", "coarsest lossless"), counted(low_ace)):
            print("%s, %s: classes %s, rows %d" % (name, kind, ", ".join(map(str, classes)), rows(classes)), flush=True)
    print("unabstracted: signals 52, 2652, 132600, rows %d" % rows([52, 2652, 132600]))


if __name__ == "__main__":
    main()
