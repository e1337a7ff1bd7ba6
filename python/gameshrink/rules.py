"""The rules of a table: what they say at a betting point with a hand, as `gameshrink-tools pack --help` describes it."""

from __future__ import annotations

import csv
import re
from collections.abc import Callable, Iterable, Sequence
from fractions import Fraction
from functools import lru_cache

from .errors import BadInput
from .game import Game, Point
from .layout import Layout

COLUMNS = ["player", "line", "hand", "move", "probability"]
NUMBER = re.compile(r"\d{1,30}(/\d{1,30}|\.\d{1,30}([eE][-+]?\d{1,2})?|[eE]-?\d{1,2})?|\.\d{1,30}([eE][-+]?\d{1,2})?")

Key = tuple[str, str, str]  # player, line and hand, as texts or as patterns


@lru_cache(maxsize=1000)
def fitting(pattern: str) -> Callable[[str], bool]:
    """Returns whether a text fits a pattern, in which * is any text and ? any letter.

    >>> list(map(fitting("K?/*"), ["Ks/+Jh", "Ks", "Qs/+Jh"]))
    [True, False, False]
    """
    if not any(letter in pattern for letter in "*?"):
        return pattern.__eq__
    compiled = re.compile(re.escape(pattern).replace(r"\*", ".*").replace(r"\?", "."))
    return lambda text: compiled.fullmatch(text) is not None


@lru_cache(maxsize=10000)
def read_number(text: str) -> Fraction | None:
    """Returns a fraction, decimal or count; nothing where a text is none of these."""
    return Fraction(text) if NUMBER.fullmatch(text) and not re.search(r"/0+$", text) else None


class Rule:
    """Numbers of moves for the points and hands that three patterns fit."""

    def __init__(self, key: Key):
        self.key = key
        self.numbers: dict[str, Fraction] = {}
        self.rows: dict[str, int] = {}
        self.is_exact = not any(c in text for text in key for c in "*?")
        self.parts = [fitting(text) for text in key]

    def fits(self, spot: Key) -> bool:
        """Returns whether the patterns fit a player, a line and a hand."""
        return all(part(text) for part, text in zip(self.parts, spot))

    def add(self, row: int, move: str, text: str) -> None:
        """Takes in a row of the table."""
        if move in self.numbers:
            raise BadInput("row %d: player %s at %s with %s has move %s in row %d already" % (row, *self.key, move, self.rows[move]))
        number = read_number(text)
        if number is None:
            raise BadInput("row %d: player %s at %s with %s, move %s: %s is no fraction, decimal or count" % (row, *self.key, move, text or "an empty text"))
        self.numbers[move], self.rows[move] = number, row

    def gives(self, moves: str) -> bool:
        """Returns whether one of a point's moves has a number above 0."""
        return any(self.numbers.get(move) for move in moves)

    def shares(self, spot: Key, moves: str) -> list[Fraction]:
        """Returns the shares of a point's moves."""
        numbers = [self.numbers.get(move, Fraction(0)) for move in moves]
        whole = sum(numbers, Fraction(0))
        if any(n.denominator != 1 for n in numbers) and abs(whole - 1) > Fraction(1, 1000):
            raise BadInput("player %s at %s with %s: the numbers of %s add up to %s, which is not 1" % (*spot, ", ".join(moves), whole))
        return numbers if whole == 1 else [n / whole for n in numbers]


def read_rules(lines: Iterable[str]) -> list[Rule]:
    """Returns the rules of a table in order, by their patterns."""
    kept = [(row, line) for row, line in enumerate(lines, 1) if line.strip() and not line.startswith("#")]
    table = [(row, [cell.strip() for cell in next(csv.reader([line]))]) for row, line in kept]
    rules: dict[Key, Rule] = {}
    head = table[0][1] if table else []
    if not set(COLUMNS) <= set(head):
        raise BadInput("the first row of the table must name the columns %s" % ",".join(COLUMNS))
    for row, cells in table[1:]:
        if len(cells) < len(head):
            raise BadInput("row %d has %d cells, and the first row has %d" % (row, len(cells), len(head)))
        named = dict(zip(head, cells))
        key = named["player"], named["line"], named["hand"]
        if key not in rules:
            rules[key] = Rule(key)
        rules[key].add(row, named["move"], named["probability"])
    return list(rules.values())


def look_over(rules: Sequence[Rule], game: Game) -> None:
    """Refuses a rule or a row that no point and hand fits."""
    hands = [set(texts) for texts in game.texts]
    by_line = {point.line: [point] for point in game.points}
    for rule in rules:
        row = min(rule.rows.values())
        player, line, hand = rule.parts
        points = by_line.get(rule.key[1], []) if rule.is_exact else [point for point in game.points if line(point.line)]
        mine = [point for point in points if player(str(point.player))]
        met = [point for point in mine if rule.key[2] in hands[point.round] or not rule.is_exact and any(map(hand, hands[point.round]))]
        if not points:
            raise BadInput("row %d: nobody acts at the line %s" % (row, rule.key[1]))
        if not mine:
            raise BadInput("row %d: player %s does not act at the line %s; player %d does" % (row, *rule.key[:2], points[0].player))
        if not met:
            raise BadInput("row %d: no hand at the line %s is %s" % (row, *rule.key[1:]))
        for move, at in rule.rows.items():
            if not any(move in point.moves and move for point in met):
                has = ", ".join(sorted(set("".join(point.moves for point in met))))
                raise BadInput("row %d: player %s at %s with %s has no move %s; the moves are %s" % (at, *rule.key, move or "without a letter", has))


class Chooser:
    """What a table says at each information set of a player."""

    def __init__(self, layout: Layout, rules: Sequence[Rule], player: int):
        self.layout, self.player = layout, player
        self.exact = {rule.key: at for at, rule in enumerate(rules) if rule.is_exact}
        self.loose = [at for at, rule in enumerate(rules) if not rule.is_exact and rule.parts[0](str(player))]
        self.rules = rules
        self.says = bool(self.loose) or any(key[0] == str(player) for key in self.exact)

    def giving(self, point: Point, hand: str) -> list[int]:
        """Returns in order the numbers of the rules that fit a hand and give something to a move of the point; the first one decides."""
        spot = str(self.player), point.line, hand
        fitting = [at for at in self.loose if self.rules[at].fits(spot)] + ([self.exact[spot]] if spot in self.exact else [])
        return [at for at in sorted(fitting) if self.rules[at].gives(point.moves)]

    def at_hand(self, point: Point, hand: str) -> list[Fraction] | None:
        """Returns what the deciding rule says of a hand, or nothing."""
        giving = self.giving(point, hand)
        return self.rules[giving[0]].shares((str(self.player), point.line, hand), point.moves) if giving else None

    def shares(self, number: int, of: int) -> list[Fraction]:
        """Returns what the deciding rules say of the hands of a class, which must agree."""
        point = self.layout.game.points[number]
        hands = [self.layout.game.texts[point.round][hand] for hand in self.layout.members[point.round][of]]
        said = [(hand, found) for hand in hands if (found := self.at_hand(point, hand))]
        where = "player %d at %s" % (self.player, point.line)
        if not said:
            raise BadInput("%s with %s: no row gives a number above 0 to one of the moves %s" % (where, hands[0], ", ".join(point.moves)))
        for hand, found in said:
            if found != said[0][1]:
                apart = "%s and %s are one class of the template and play differently" % (said[0][0], hand)
                raise BadInput("%s: %s; with --classes raw each hand is a class by itself" % (where, apart))
        return said[0][1]


def unused(choosers: Iterable[Chooser]) -> list[Rule]:
    """Returns the rules that fit somewhere and never decide, because earlier ones do."""
    some: set[int] = set()
    first: set[int] = set()
    rules: Sequence[Rule] = ()
    for chooser in choosers:
        game, rules = chooser.layout.game, chooser.rules
        for point in game.points:
            for hand in game.texts[point.round] if point.player == chooser.player else ():
                giving = chooser.giving(point, hand)
                some.update(giving)
                first.update(giving[:1])
    return [rules[at] for at in sorted(some - first)]


def look_behind(choosers: Iterable[Chooser]) -> None:
    """Refuses a rule that never decides."""
    for rule in unused(choosers):
        raise BadInput("row %d: earlier rows decide wherever it fits; it must stand above them" % min(rule.rows.values()))
