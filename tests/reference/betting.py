"""The betting tree of one round, its text, and limit betting.

A tree is an `Act`, or one of the leaves `FOLD` and `EVEN`. Its text is described in docs/FORMATS.md.
"""

from collections.abc import Iterator
from dataclasses import dataclass
from typing import Union

from .refusals import Fault

FOLD, EVEN = "!", "="
LETTERS = "abcdefghijklmnopqrstuvwxyz"
DEEPEST = 16
MOST_CHIPS = 4096

Tree = Union["Act", str]


@dataclass
class Move:
    """A move: its letter, the chips that it puts, and the tree that follows."""

    letter: str
    chips: int
    then: Tree


@dataclass
class Act:
    """A player's choice among moves."""

    player: int
    moves: list[Move]


@dataclass
class Leaf:
    """A leaf: its kind, the letters on the way to it, what each player put on that way, and who moved last."""

    kind: str
    path: str
    puts: tuple[int, int]
    last: int


def tree_text(tree: Tree) -> str:
    """Returns the one text of a tree.

    >>> tree_text(Act(1, [Move("k", 0, EVEN), Move("b", 2, FOLD)]))
    '1[k:=,b2:!]'
    """
    if isinstance(tree, str):
        return tree
    return f"{tree.player}[{','.join(f'{move.letter}{move.chips or str()}:{tree_text(move.then)}' for move in tree.moves)}]"


def parse_tree(text: str) -> Tree:
    """Returns the tree that a text states. A fault names the length of the longest prefix that begins some tree's text.

    The reader goes on a letter only where some tree's text does. So the place where it stops is that length.
    """
    reader = _TreeReader(text)
    tree = reader.tree(0)
    if reader.at < len(text):
        raise reader.fault("syntax")
    return tree


class _TreeReader:
    """A place in a text: all before it begins some tree's text."""

    def __init__(self, text: str) -> None:
        self.text, self.at = text, 0

    def next(self) -> str:
        return self.text[self.at : self.at + 1]

    def fault(self, kind: str) -> Fault:
        return Fault(f"{kind} at {self.at}")

    def pass_over(self, letter: str) -> None:
        if self.next() != letter:
            raise self.fault("syntax")
        self.at += 1

    def tree(self, depth: int) -> Tree:
        """Reads a tree inside so many acts."""
        first = self.next()
        if first == EVEN or first == FOLD and depth > 0:
            self.at += 1
            return first
        if first not in ("1", "2"):
            raise self.fault("syntax")
        if depth == DEEPEST:
            raise self.fault("too deep")
        self.at += 1
        self.pass_over("[")
        moves = [self.move([], depth)]
        while self.next() == "," and len(moves) < len(LETTERS):
            self.at += 1
            moves.append(self.move(moves, depth))
        self.pass_over("]")
        return Act(int(first), moves)

    def move(self, before: list[Move], depth: int) -> Move:
        letter = self.next()
        if letter == "" or letter not in LETTERS:
            raise self.fault("syntax")
        if any(move.letter == letter for move in before):
            raise self.fault("repeated letter")
        self.at += 1
        chips = self.chips()
        self.pass_over(":")
        return Move(letter, chips, self.tree(depth + 1))

    def chips(self) -> int:
        digits = ""
        while self.next() and self.next() in "0123456789":
            digits += self.next()
            if digits[0] == "0" or int(digits) > MOST_CHIPS:
                raise self.fault("syntax")
            self.at += 1
        return int(digits or "0")


def limit_tree(bet: int, cap: int) -> Tree:
    """Returns the tree of limit betting: one size of bet, and at most `cap` bets and raises.

    >>> tree_text(limit_tree(1, 1))
    '1[k:2[k:=,b1:1[f:!,c1:=]],b1:2[f:!,c1:=]]'
    """

    def unbet(player: int, then: Tree) -> Tree:
        return Act(player, [Move("k", 0, then)] + ([Move("b", bet, facing(3 - player, 1))] if cap else []))

    def facing(player: int, made: int) -> Tree:
        raised = [Move("r", 2 * bet, facing(3 - player, made + 1))] if made < cap else []
        return Act(player, [Move("f", 0, FOLD), Move("c", bet, EVEN), *raised])

    return unbet(1, unbet(2, EVEN))


def leaves(tree: Tree, path: str = "", puts: tuple[int, int] = (0, 0), last: int = 0) -> Iterator[Leaf]:
    """Yields the leaves of a tree, in tree order."""
    if isinstance(tree, str):
        yield Leaf(tree, path, puts, last)
        return
    for move in tree.moves:
        one, two = puts
        after = (one + move.chips, two) if tree.player == 1 else (one, two + move.chips)
        yield from leaves(move.then, path + move.letter, after, tree.player)
