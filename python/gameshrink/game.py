"""A game: its cards, its betting and its raw signals, in the orders of docs/FORMATS.md.

Written from docs/FORMATS.md alone. It takes every game that the program accepts and shares no code with the program.
"""

from __future__ import annotations

import itertools
import json
import tomllib
from collections.abc import Iterator, Sequence
from dataclasses import dataclass, field
from functools import cached_property
from math import comb, prod
from pathlib import Path
from typing import Any

from .errors import BadInput

CATEGORIES = {"high": 1, "pair": 2, "three": 6}
SHAPES = {  # ranking, ante, and private cards, public cards and bet of each round
    "kuhn": ("high", 1, [(1, 0, 1)]),
    "leduc": ("pair", 1, [(1, 0, 2), (0, 1, 4)]),
    "rhode": ("three", 5, [(1, 0, 10), (0, 1, 20), (0, 1, 20)]),
}
NAMES = {"kuhn": "Kuhn poker", "leduc": "Leduc hold'em", "rhode": "Rhode Island hold'em"}

Step = tuple[int, int] | None  # the number of a point and of its move; nothing before a player's first move
Cards = tuple[int, ...]  # numbers of cards, in order
Signal = tuple[tuple[Cards, Cards], ...]  # a pair of own and public cards for each round
Stated = dict[str, Any]  # a game as a strategy file states it


@dataclass
class Act:
    """A choice of a player: moves of a letter, the chips that it puts, and what follows: an act, `!` or `=`."""

    player: int
    moves: list[tuple[str, int, Any]]


def limit_tree(bet: int, cap: int) -> Act:
    """Returns limit betting as nested acts."""

    def facing(player: int, made: int) -> Act:
        raises = [("r", 2 * bet, facing(3 - player, made + 1))] if made < cap else []
        return Act(player, [("f", 0, "!"), ("c", bet, "="), *raises])

    def opening(player: int, even: Any) -> Act:
        return Act(player, [("k", 0, even)] + ([("b", bet, facing(3 - player, 1))] if cap else []))

    return opening(1, opening(2, "="))


def read_tree(text: str) -> Any:
    """Returns the nested acts of a tree's text."""

    def subtree(at: int) -> tuple[Any, int]:
        if text[at] in "!=":
            return text[at], at + 1
        player, moves, at = int(text[at]), [], at + 1
        while text[at] != "]":
            letter, colon = text[at + 1], text.index(":", at)
            following, end = subtree(colon + 1)
            moves.append((letter, int(text[at + 2 : colon] or 0), following))
            at = end
        return Act(player, moves), at + 1

    return subtree(0)[0]


def tree_text(tree: Any) -> str:
    """Returns the text of nested acts."""
    if isinstance(tree, str):
        return tree
    moves = ("%s%s:%s" % (letter, chips or "", tree_text(following)) for letter, chips, following in tree.moves)
    return "%d[%s]" % (tree.player, ",".join(moves))


def limit_betting(bet: int, cap: int) -> str:
    """Returns the tree of limit betting, where a round has at most `cap` bets and raises.

    >>> limit_betting(2, 1)
    '1[k:2[k:=,b2:1[f:!,c2:=]],b2:2[f:!,c2:=]]'
    """
    return tree_text(limit_tree(bet, cap))


def stated_in(text: str) -> Stated:
    """Returns a game file's game as a strategy file in version 2 states it."""
    file = tomllib.loads(text)
    kinds = len(file["ranks"]) * len(file["suits"])
    trees = [r["tree"] if "tree" in r else tree_text(limit_tree(r["bet"], r["cap"])) for r in file["round"]]
    return {
        **{key: file[key] for key in ("ante", "ranking", "ranks", "suits")},
        "bonus": file.get("bonus", [1] * CATEGORIES[file["ranking"]]),
        "copies": file.get("copies") or "1" * kinds,
        "rounds": [{"private": r["private"], "public": r["public"], "tree": t} for r, t in zip(file["round"], trees)],
        "version": 2,
    }


@dataclass
class Point:
    """A betting point. Rounds count from 0. A move leads to the point or, as ~N, to the end whose number `after` has."""

    number: int
    line: str
    player: int
    round: int
    moves: str
    steps: tuple[Step, ...]
    put: tuple[int, ...]
    kinds: list[str] = field(default_factory=list)  # fold, check, call, bet or raise
    after: list[int] = field(default_factory=list)


@dataclass
class End:
    """An end: its round, who folded (0 at a showdown), what the loser pays, and the last own move of each player."""

    round: int
    folded: int
    put: int
    steps: tuple[Step, ...]


class Game:
    """The cards, the betting and the raw signals of a game, given as a strategy file states it.

    >>> game = Game.leduc(3, 2, 2)
    >>> game.name
    "Leduc hold'em, 3 ranks, 2 suits, cap 2"
    >>> game.texts[0]
    ['Qs', 'Qh', 'Ks', 'Kh', 'As', 'Ah']
    >>> [(point.line, point.player, point.moves) for point in game.points[:3]]
    [('/', 1, 'kb'), ('/k', 2, 'kb'), ('/kk/', 1, 'kb')]
    """

    def __init__(self, stated: Stated):
        self.stated = stated
        self.cards = [rank + suit for rank in stated["ranks"] for suit in stated["suits"]]
        self.copies = [int(digit) for digit in stated["copies"]]
        self.sizes = [(r["private"], r["public"]) for r in stated["rounds"]]
        self.trees = [read_tree(r["tree"]) for r in stated["rounds"]]
        self.points: list[Point] = []
        self.ends: list[End] = []
        self.start = self._walk(0, self.trees[0], "/", (stated["ante"],) * 2, (None, None), 0)

    # ---- ways to make one

    @classmethod
    def parse(cls, text: str) -> Game:
        """Reads the text of a game file. Of a text that is none, `gameshrink check` says what is wrong.

        >>> Game.parse(Game.kuhn().text()).same_rules(Game.kuhn())
        True
        """
        try:
            return cls(stated_in(text))
        except (ValueError, KeyError, IndexError, TypeError, AttributeError, RecursionError):
            raise BadInput("this is no game file; `gameshrink check` says what is wrong with it") from None

    @classmethod
    def read(cls, path: str | Path) -> Game:
        """Reads a game file."""
        return cls.parse(Path(path).read_text(encoding="utf-8"))

    @classmethod
    def of(
        cls, *, ranks: str, suits: str, rounds: Sequence[tuple[int, int, str]], ranking: str, ante: int = 1, copies: str = "", bonus: Sequence[int] = ()
    ) -> Game:
        """Returns a game of one's own. A round is its private cards, its public cards and its betting tree, as docs/FORMATS.md has it.

        Without `copies` the deck has one of each card, without `bonus` no hand is paid more than another.

        >>> game = Game.of(ranks="JQK", suits="s", ranking="high", rounds=[(1, 0, "1[k:=,b1:2[f:!,c1:=]]")])
        >>> solve(game).judge().value
        Fraction(1, 18)
        """
        if ranking not in CATEGORIES:
            raise BadInput("the ranking is one of %s" % ", ".join(CATEGORIES))
        stated: Stated = {"ante": ante, "ranking": ranking, "ranks": ranks, "suits": suits, "version": 2}
        stated |= {"bonus": list(bonus) or [1] * CATEGORIES[ranking], "copies": copies or "1" * (len(ranks) * len(suits))}
        stated["rounds"] = [{"private": private, "public": public, "tree": tree} for private, public, tree in rounds]
        try:
            return cls(stated)
        except (ValueError, IndexError, TypeError, RecursionError):
            raise BadInput("a betting tree is no tree; docs/FORMATS.md says how it is written") from None

    @classmethod
    def made(cls, kind: str, ranks: int, suits: int, cap: int) -> Game:
        """Returns the game that `gameshrink make` prints. `cap` counts the bet."""
        ranking, ante, rounds = SHAPES[kind]
        trees = [(own, public, limit_betting(bet, cap)) for own, public, bet in rounds]
        return cls.of(ranks="23456789TJQKA"[-ranks:], suits="shdc"[:suits], ranking=ranking, ante=ante, rounds=trees)

    @classmethod
    def kuhn(cls, ranks: int = 3, suits: int = 1, cap: int = 1) -> Game:
        """Returns Kuhn poker, with other decks and caps too."""
        return cls.made("kuhn", ranks, suits, cap)

    @classmethod
    def leduc(cls, ranks: int = 3, suits: int = 2, cap: int = 2) -> Game:
        """Returns Leduc hold'em, with other decks and caps too."""
        return cls.made("leduc", ranks, suits, cap)

    @classmethod
    def rhode(cls, ranks: int, suits: int = 4, cap: int = 1) -> Game:
        """Returns Rhode Island hold'em of a deck and a cap."""
        return cls.made("rhode", ranks, suits, cap)

    def text(self) -> str:
        """Returns a game file, for the commands that read one."""
        lines = ["version = 2"] + ['%s = "%s"' % (key, self.stated[key]) for key in ("ranks", "suits", "copies", "ranking")]
        lines += ["bonus = %s" % self.bonus, "ante = %d" % self.stated["ante"]]
        for one in self.stated["rounds"]:
            lines += ["", "[[round]]", "private = %(private)d" % one, "public = %(public)d" % one, 'tree = "%(tree)s"' % one]
        return "\n".join(lines) + "\n"

    def same_rules(self, other: Game) -> bool:
        """Whether two games differ in the version of their statement alone."""
        return self.text() == other.text()

    @cached_property
    def key(self) -> str:
        """Returns the game's statement as a text, by which tables of it are kept."""
        return json.dumps(self.stated, sort_keys=True)

    @cached_property
    def name(self) -> str:
        """Returns what people call the game."""
        ranks, suits = len(self.stated["ranks"]), len(self.stated["suits"])
        cards = "%d rank%s, %d suit%s" % (ranks, "s" * (ranks > 1), suits, "s" * (suits > 1))
        for kind, called in NAMES.items():
            for cap in range(9):
                like = self.made(kind, ranks, suits, cap)
                like.stated["ranks"], like.stated["suits"] = self.stated["ranks"], self.stated["suits"]
                if self.same_rules(like):
                    return "%s, %s, cap %d" % (called, cards, cap)
        return "A game of %d round%s, ranking `%s`, %s" % (len(self.sizes), "s" * (len(self.sizes) > 1), self.stated["ranking"], cards)

    # ---- betting

    def _walk(self, at: int, tree: Any, line: str, put: tuple[int, ...], steps: tuple[Step, ...], mover: int) -> int:
        """Numbers the points and ends in the order of play; returns the number of a point, or ~ that of an end."""
        last = at + 1 == len(self.sizes)
        if tree == "=" and not last:
            return self._walk(at + 1, self.trees[at + 1], line + "/", put, steps, 0)
        if isinstance(tree, str):
            folded = mover if tree == "!" else 0
            self.ends.append(End(at, folded, put[folded - 1], steps))
            return ~(len(self.ends) - 1)
        number, mine = len(self.points), tree.player - 1
        point = Point(number, line, tree.player, at, "".join(move[0] for move in tree.moves), steps, put)
        self.points.append(point)
        for choice, (letter, chips, following) in enumerate(tree.moves):
            after = tuple(p + chips * (i == mine) for i, p in enumerate(put))
            made = tuple((number, choice) if i == mine else s for i, s in enumerate(steps))
            raised = "raise" if put[mine] < put[1 - mine] else "bet"
            point.kinds.append("fold" if following == "!" else "check" if chips == 0 else "call" if after[mine] <= after[1 - mine] else raised)
            point.after.append(self._walk(at, following, line + letter, after, made, tree.player))
        return number

    # ---- cards

    @property
    def bonus(self) -> list[int]:
        """The bonus of each category of hands."""
        return self.stated.get("bonus") or [1] * CATEGORIES[self.stated["ranking"]]

    def groups(self, size: int, used: Cards) -> list[Cards]:
        """Returns the groups of so many cards, in order, that the deck still has when the cards `used` are gone."""
        left = [copies - used.count(kind) for kind, copies in enumerate(self.copies)]
        found = itertools.combinations_with_replacement([kind for kind, n in enumerate(left) if n > 0], size)
        return [group for group in found if all(group.count(kind) <= left[kind] for kind in group)]

    @cached_property
    def _raw(self) -> tuple[list[list[Signal]], list[list[int]]]:
        signals: list[list[Signal]] = []
        parents: list[list[int]] = []
        for private, public in self.sizes:
            new: list[Signal] = []
            above: list[int] = []
            for parent, before in enumerate(signals[-1] if signals else [()]):
                used = tuple(card for part in before for group in part for card in group)
                for own in self.groups(private, used):
                    for board in self.groups(public, used + own):
                        new.append((*before, (own, board)))
                        above.append(parent)
            signals.append(new)
            parents.append(above)
        return signals, parents

    @property
    def signals(self) -> list[list[Signal]]:
        """The raw signals of each round, in order."""
        return self._raw[0]

    @property
    def parents(self) -> list[list[int]]:
        """For each raw signal the number of the signal of the round before that it goes on from."""
        return self._raw[1]

    @cached_property
    def texts(self) -> list[list[str]]:
        """The text of each raw signal."""
        return [[signal_text(self.cards, signal) for signal in signals] for signals in self.signals]

    def raw_classes(self) -> list[list[int]]:
        """Returns classes in which each hand is by itself."""
        return [list(range(1, len(signals) + 1)) for signals in self.signals]

    def deals(self) -> Iterator[tuple[tuple[Signal, Signal], int]]:
        """Yields each deal as the signals of both players and its weight, the ways to draw it."""

        def dealt(at: int, signals: tuple[Signal, Signal], used: Cards, weight: int) -> Iterator[tuple[tuple[Signal, Signal], int]]:
            if at == len(self.sizes):
                yield signals, weight
                return
            private, public = self.sizes[at]
            for one in self.groups(private, used):
                for two in self.groups(private, used + one):
                    for board in self.groups(public, used + one + two):
                        gone, ways = used, weight
                        for group in (one, two, board):
                            ways *= prod(comb(self.copies[kind] - gone.count(kind), group.count(kind)) for kind in set(group))
                            gone += group
                        yield from dealt(at + 1, ((*signals[0], (one, board)), (*signals[1], (two, board))), gone, ways)

        return dealt(0, ((), ()), (), 1)

    def strength(self, signal: Signal) -> tuple[int, ...]:
        """Returns the strength of a signal of the last round; its first number is the category from 0."""
        own, board = ([card for part in signal for card in part[side]] for side in (0, 1))
        suits, ranking = len(self.stated["suits"]), self.stated["ranking"]
        if ranking == "three":
            return three_cards(own + board, suits)
        return int(ranking == "pair" and own[0] // suits in [card // suits for card in board]), own[0] // suits


def signal_text(cards: Sequence[str], signal: Signal) -> str:
    """Returns a raw signal's text: a part for each round, own cards and then the board's.

    >>> signal_text(["Js", "Jh", "Qs"], (((2,), ()), ((), (0,))))
    'Qs/+Js'
    """
    parts = (["".join(cards[card] for card in group) for group in part] for part in signal)
    return "/".join(own + ("+" + board if board else "") for own, board in parts)


def three_cards(cards: list[int], suits: int) -> tuple[int, ...]:
    """Returns the strength of three cards: the category from 0, and what decides within it."""
    flush = len({card % suits for card in cards}) == 1
    high, middle, low = sorted((card // suits for card in cards), reverse=True)
    straight = high == middle + 1 == low + 2
    if flush and straight:
        return 5, high
    if high == low:
        return 4, high
    if straight:
        return 3, high
    if flush:
        return 2, high, middle, low
    if middle in (high, low):
        return 1, middle, low if middle == high else high
    return 0, high, middle, low
