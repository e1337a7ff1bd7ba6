"""Reads a game: the file in TOML, or the object inside a strategy file. The checks come in the order of docs/FORMATS.md."""

from collections.abc import Callable
from typing import Any

from .betting import limit_tree, parse_tree
from .cards import Deck
from .game import MOST_ROUNDS, Game, Round
from .json_text import is_signed_64
from .ranking import CATEGORIES
from .refusals import Fault, named
from .toml_text import read_toml

GREATEST_BONUS = 9
ROUND_RANGES = {"private": (0, 2), "public": (0, 3), "bet": (1, 2048), "cap": (0, 8)}


def read_game(data: bytes) -> Game:
    """Returns the game that a game file states.

    >>> read_game(b"version = 3")
    Traceback (most recent call last):
    reference.refusals.Fault: version 3
    """
    return _Reader(read_toml(data), (1, 2), is_toml=True).game()


def game_of_value(value: object, version: int) -> Game:
    """Returns the game that a strategy file of a version holds."""
    if not isinstance(value, dict):
        raise Fault("wrong type version")
    return _Reader(value, (version,), is_toml=False).game()


def is_toml_integer(value: object) -> bool:
    """Whether a value of TOML is an integer."""
    return isinstance(value, int) and not isinstance(value, bool)


class _Reader:
    """A table of TOML, or an object of JSON, that may state a game."""

    def __init__(self, table: dict[str, Any], versions: tuple[int, ...], is_toml: bool) -> None:
        self.table, self.versions, self.is_toml = table, versions, is_toml
        self.is_integer: Callable[[object], bool] = is_toml_integer if is_toml else is_signed_64
        self.rounds_key = "round" if is_toml else "rounds"

    def game(self) -> Game:
        self.check_version()
        self.check_top()
        rounds = self.table[self.rounds_key]
        if not 1 <= len(rounds) <= MOST_ROUNDS:
            raise Fault(f"rounds: {len(rounds)}")
        for number, one in enumerate(rounds, 1):
            self.check_round(one, f" in round {number}")
        bonus = self.check_ranges()
        with named("deck: "):
            deck = Deck(self.table["ranks"], self.table["suits"], self.table.get("copies", ""))
        made = []
        for number, one in enumerate(rounds, 1):
            with named(f"tree of round {number}: "):
                tree = parse_tree(one["tree"]) if "tree" in one else limit_tree(one["bet"], one["cap"])
            made.append(Round(one["private"], one["public"], tree))
        return Game(deck, self.table["ranking"], bonus, self.table["ante"], made)

    def check_version(self) -> None:
        if "version" not in self.table:
            raise Fault("missing key version")
        version = self.table["version"]
        if not self.is_integer(version):
            raise Fault("wrong type version")
        if version not in self.versions:
            raise Fault(f"version {version}")
        self.has_bonus = version == 2

    def check_top(self) -> None:
        """The keys at the top, and then their types. A fault calls the rounds `round` in both forms."""
        order = ["ranks", "suits", "copies", "ranking", "bonus", "ante", self.rounds_key]
        if not self.has_bonus:
            order.remove("bonus")
        told = {key: "round" if key == self.rounds_key else key for key in order}
        if not set(self.table) <= {"version", *order}:
            raise Fault("unknown key")
        for key in order:
            if key not in self.table and not (key == "copies" and self.is_toml):
                raise Fault(f"missing key {told[key]}")
        for key in order:
            if key in self.table and not self.has_type(key, self.table[key]):
                raise Fault(f"wrong type {told[key]}")

    def has_type(self, key: str, value: object) -> bool:
        if key == "ante":
            return self.is_integer(value)
        if key == "bonus":
            return isinstance(value, list) and all(map(self.is_integer, value))
        if key == self.rounds_key:
            return isinstance(value, list) and all(isinstance(one, dict) for one in value)
        return isinstance(value, str)

    def check_round(self, one: dict[str, Any], where: str) -> None:
        needed = ["private", "public", "tree"] if "tree" in one or not self.is_toml else ["private", "public", "bet", "cap"]
        if not set(one) <= {*needed, "tree"}:
            raise Fault(f"unknown key{where}")
        for key in needed:
            if key not in one:
                raise Fault(f"missing key {key}{where}")
        for key in needed:
            if not (isinstance(one[key], str) if key == "tree" else self.is_integer(one[key])):
                raise Fault(f"wrong type {key}{where}")

    def check_ranges(self) -> list[int]:
        """The values that have ranges. Returns the bonuses."""
        if self.table["ranking"] not in CATEGORIES:
            raise Fault("out of range ranking")
        categories = CATEGORIES[self.table["ranking"]]
        bonus = list(self.table["bonus"]) if self.has_bonus else [1] * categories
        if len(bonus) != categories or not all(1 <= one <= GREATEST_BONUS for one in bonus):
            raise Fault("out of range bonus")
        if not 1 <= self.table["ante"] <= 4096:
            raise Fault("out of range ante")
        for number, one in enumerate(self.table[self.rounds_key], 1):
            for key, (least, most) in ROUND_RANGES.items():
                if key in one and not least <= one[key] <= most:
                    raise Fault(f"out of range {key} in round {number}")
        return bonus
