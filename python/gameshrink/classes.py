"""Classes of a game's hands by readable rules, and the check that they remember.

>>> from gameshrink import Game
>>> from gameshrink.classes import by_rules, counts
>>> counts(by_rules(Game.leduc(), ["1:own", "2:own,made"]))
[3, 6]
"""

from __future__ import annotations

import csv
import io
from collections import defaultdict
from collections.abc import Hashable, Iterable, Sequence
from fnmatch import fnmatchcase
from fractions import Fraction
from functools import cached_property
from pathlib import Path

from .errors import BadInput
from .game import Game
from .layout import Classes, classes_in, read_classes
from .linear import dealt
from .program import Program

SHORT = {"suit-blind": "own,board", "rank-only": "own,made", "board-blind": "own"}  # names for several features
FEATURES = ("all", "board", "csv=FILE", "iso", "like=P|Q", "lossless", "made", "nested=K", "own", "raw", "strength=K", "suits")


def numbered(keys: Iterable[Hashable]) -> list[int]:
    """Returns class numbers from 1 in order of first occurrence: hands of equal keys share a class."""
    numbers: dict[Hashable, int] = {}
    return [numbers.setdefault(key, len(numbers) + 1) for key in keys]


def counts(classes: Classes) -> list[int]:
    """Returns the number of classes of each round."""
    return [len(set(numbers)) for numbers in classes]


def forgotten(game: Game, classes: Classes) -> str | None:
    """Returns the first two hands of one class whose parents are in two classes, as a line, or None where the classes remember."""
    for at in range(1, len(classes)):
        first: dict[int, int] = {}
        for hand, of in enumerate(classes[at]):
            other = first.setdefault(of, hand)
            one, two = game.parents[at][other], game.parents[at][hand]
            if classes[at - 1][one] != classes[at - 1][two]:
                share = "%s and %s share a class in round %d" % (game.texts[at][other], game.texts[at][hand], at + 1)
                apart = "%s and %s do not in round %d" % (game.texts[at - 1][one], game.texts[at - 1][two], at)
                return "%s, %s: classes must remember" % (share, apart)
    return None


def remembering(game: Game, classes: Classes) -> Classes:
    """Returns the coarsest classes that remember and split the classes given."""
    found = [numbered(classes[0])]
    for at in range(1, len(classes)):
        found.append(numbered((found[-1][parent], of) for parent, of in zip(game.parents[at], classes[at])))
    return found


def refines(fine: Classes, coarse: Classes) -> bool:
    """Whether each class of `fine` lies within one of `coarse`."""
    return all(len(set(zip(one, two))) == len(set(one)) for one, two in zip(fine, coarse))


def class_text(game: Game, classes: Classes) -> str:
    """Returns classes as `shrink` and `check` print them."""
    lines = []
    for at, numbers in enumerate(classes):
        members: dict[int, list[str]] = defaultdict(list)
        for text, number in zip(game.texts[at], numbers):
            members[number].append(text)
        lines.append("round %d classes %d signals %d" % (at + 1, len(members), len(numbers)))
        lines += ["%d: %s" % (number, " ".join(texts)) for number, texts in members.items()]
    return "\n".join(lines) + "\n"


def checked_classes(game: Game, text: str, name: str = "the text") -> Classes:
    """Returns the classes of a text such as `class_text` returns; refuses classes that forget."""
    try:
        rounds = read_classes(text)
    except (ValueError, IndexError):
        raise BadInput("%s is no list of classes; `gameshrink shrink` and `gameshrink-tools classes` print one" % name) from None
    if len(rounds) != len(game.texts):
        raise BadInput("%s has classes of %d rounds, and the game has %d" % (name, len(rounds), len(game.texts)))
    for at, (numbers, texts) in enumerate(zip(rounds, game.texts)):
        wrong = [hand for hand in texts if hand not in numbers] + [hand for hand in numbers if hand not in set(texts)]
        if wrong:
            raise BadInput("%s: round %d: %s %s" % (name, at + 1, wrong[0], "has no class" if wrong[0] in texts else "is no hand of the game"))
    classes = [numbered(numbers) for numbers in classes_in(game, text)]
    if breach := forgotten(game, classes):
        raise BadInput(breach)
    return classes


def by_rules(game: Game, rules: Sequence[str], recall: bool = False, program: Program | None = None) -> Classes:
    """Returns classes by rules, `FEATURE,FEATURE..` or `ROUND:FEATURE,FEATURE..`. Two hands share a class if they agree in all features of their
    round. A rule without a round holds from the first one on, the others from their round on, until the next one.

    With `recall` the classes are split until they remember; else classes that forget are refused."""
    found: Classes = []
    maker, by_round, rule = _Maker(game, program), _by_round(rules, len(game.sizes)), ""
    for at in range(len(game.sizes)):
        rule = by_round.get(at, rule)
        keys = list(zip(*(maker.feature(at, name, found) for name in rule.split(","))))
        if recall and at:
            keys = [(found[-1][parent], key) for parent, key in zip(game.parents[at], keys)]
        found.append(numbered(keys))
    if breach := forgotten(game, found):
        raise BadInput("%s; --recall splits them" % breach)
    return found


def _by_round(rules: Sequence[str], rounds: int) -> dict[int, str]:
    """Returns the features of rules by the round from which they hold, counted from 0."""
    found: dict[int, str] = {}
    for rule in rules:
        head, colon, rest = rule.partition(":")
        of_round = bool(colon) and head.isdigit()
        at = int(head) - 1 if of_round else 0
        if not 0 <= at < rounds:
            raise BadInput("%s: the game has no round %s" % (rule, head))
        if at in found:
            raise BadInput("%s: round %d has a rule already" % (rule, at + 1))
        features = rest if of_round else rule
        found[at] = ",".join(SHORT.get(name, name) for name in features.split(","))
    if 0 not in found:
        raise BadInput("there is no rule for round 1")
    return found


class _Maker:
    """Features of the hands of a game: a key for each hand of a round."""

    def __init__(self, game: Game, program: Program | None = None):
        self.game, self.program, self.suits = game, program, len(game.stated["suits"])
        self.printed: dict[str, Classes] = {}

    def feature(self, at: int, name: str, above: Classes) -> list[Hashable]:
        """Returns the keys of a feature in a round; `above` are the classes of the rounds before."""
        hands, texts = self.game.signals[at], self.game.texts[at]
        head, equals, rest = name.partition("=")
        if name == "all":
            return [0] * len(hands)
        if name == "raw":
            return list(range(len(hands)))
        if name == "own":
            return [tuple(sorted(card // self.suits for own, _ in hand for card in own)) for hand in hands]
        if name == "board":
            return [tuple(tuple(sorted(card // self.suits for card in board)) for _, board in hand) for hand in hands]
        if name == "suits":
            return [tuple(numbered(card % self.suits for part in hand for group in part for card in group)) for hand in hands]
        if name == "made":
            return self._made(at)
        if name in ("iso", "lossless"):
            return list(self._printed("shrink" if name == "iso" else "check")[at])
        if head in ("strength", "nested") and rest.isdigit() and int(rest):
            groups = [above[-1][parent] for parent in self.game.parents[at]] if head == "nested" and above else [0] * len(hands)
            return list(zip(groups, self._parts(at, int(rest), groups)))
        if head == "like" and equals:
            patterns = rest.split("|")
            return [next((place for place, pattern in enumerate(patterns) if fnmatchcase(text, pattern)), -1) for text in texts]
        if head == "csv" and equals:
            return self._listed(at, rest)
        raise BadInput("no feature is named %s; there are %s, and for short %s" % (name or "nothing", ", ".join(FEATURES), ", ".join(SHORT)))

    def _printed(self, command: str) -> Classes:
        if command not in self.printed:
            self.printed[command] = classes_in(self.game, (self.program or Program()).run(command, self.game.text()))
        return self.printed[command]

    def _made(self, at: int) -> list[Hashable]:
        """Returns what the cards make: in the last round the category of the hand, before it how many cards show a rank that is there already."""
        if at == len(self.game.sizes) - 1:
            return [self.game.strength(hand)[0] for hand in self.game.signals[at]]
        ranks = [[card // self.suits for part in hand for group in part for card in group] for hand in self.game.signals[at]]
        return [len(found) - len(set(found)) for found in ranks]

    @cached_property
    def _strengths(self) -> list[list[tuple[int, int]]]:
        """For each hand of each round twice its wins and once its ties, over the deals by weight, and twice that weight."""
        game = self.game
        found = [[0, 0] for _ in game.signals[-1]]
        for one, _, weight, won in dealt(game):
            found[one][0] += weight * (1 + (won > 0) - (won < 0))
            found[one][1] += weight * 2
        rounds = [found]
        for at in range(len(game.signals) - 1, 0, -1):
            above = [[0, 0] for _ in game.signals[at - 1]]
            for parent, (won, ways) in zip(game.parents[at], rounds[0]):
                above[parent][0] += won
                above[parent][1] += ways
            rounds.insert(0, above)
        return [[(won, ways) for won, ways in found] for found in rounds]

    def _parts(self, at: int, parts: int, groups: Sequence[int]) -> list[int]:
        """Cuts each group of hands by expected strength into so many parts of nearly equal weight; hands of equal strength stay together."""
        numbers = self._strengths[at]
        strengths = [Fraction(won, ways) for won, ways in numbers]
        members: dict[int, list[int]] = defaultdict(list)
        for hand, group in enumerate(groups):
            members[group].append(hand)
        out = [0] * len(groups)
        for hands in members.values():
            whole, before = sum(numbers[hand][1] for hand in hands), 0
            ties: dict[Fraction, list[int]] = defaultdict(list)
            for hand in hands:
                ties[strengths[hand]].append(hand)
            for strength in sorted(ties):
                weight = sum(numbers[hand][1] for hand in ties[strength])
                for hand in ties[strength]:
                    out[hand] = (2 * before + weight) * parts // (2 * whole)
                before += weight
        return out

    def _listed(self, at: int, path: str) -> list[Hashable]:
        """Returns the classes that a table with the columns hand and class has; a hand may be a pattern, and the first row that fits decides."""
        try:
            rows = list(csv.DictReader(io.StringIO(Path(path).read_text(encoding="utf-8-sig"))))
        except OSError as fault:
            raise BadInput("%s: %s" % (path, fault.strerror)) from None
        if not rows or not {"hand", "class"} <= set(rows[0]):
            raise BadInput("%s: the first row must name the columns hand,class" % path)
        rules = [((row["hand"] or "").strip(), (row["class"] or "").strip()) for row in rows]
        every = [text for texts in self.game.texts for text in texts]
        for number, (pattern, _) in enumerate(rules, 2):
            if not any(fnmatchcase(text, pattern) for text in every):
                raise BadInput("%s, row %d: no hand is %s" % (path, number, pattern))
        found = [next((of for pattern, of in rules if fnmatchcase(text, pattern)), None) for text in self.game.texts[at]]
        if None in found:
            raise BadInput("%s has no class for %s of round %d" % (path, self.game.texts[at][found.index(None)], at + 1))
        return list(found)
