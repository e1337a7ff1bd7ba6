"""Fractions, strategy files and certificates as texts. Each value has one text, and only this text is read."""

import re
from dataclasses import dataclass
from fractions import Fraction
from math import gcd
from typing import Any

from .answers import Certificate
from .classes import Classes
from .game_file import game_of_value
from .json_text import check_canonical, is_between, is_unsigned_64, json_line, read_json
from .plans import Plan, SequenceForm, Verdict, check_plan
from .refusals import Fault, named
from .signals import Signals

KEYS = {"classes", "game", "gap1", "gap2", "player1", "player2", "value", "version"}
NUMBERS = ("value", "gap1", "gap2")
MOST_OF_CERTIFICATE = 2**90


@dataclass
class Strategy:
    """A game over classes, a plan of each player, and the three numbers that the file states."""

    form: SequenceForm
    one: Plan
    two: Plan
    numbers: Verdict


def fraction_text(number: Fraction) -> str:
    """Returns a fraction's text.

    >>> fraction_text(Fraction(-2, 4))
    '-1/2'
    """
    return f"{number.numerator}/{number.denominator}"


def parse_fraction(text: str) -> Fraction:
    """Returns the fraction that a text states."""
    match = re.fullmatch(r"(-?)(0|[1-9][0-9]*)/(0|[1-9][0-9]*)", text)
    if not match or text.startswith("-0"):
        raise Fault("not a fraction")
    sign, num, den = match.groups()
    if max(len(num), len(den)) > 39 or max(int(num), int(den)) >= 2**127:
        raise Fault("too wide")
    if int(den) == 0 or gcd(int(num), int(den)) != 1:
        raise Fault("not reduced")
    return Fraction(int(sign + num), int(den))


def strategy_line(strategy: Strategy, version: int = 2) -> bytes:
    """`IsStrategyFile`: returns the one text of a strategy in a version."""
    plans = {f"player{plan.player}": {"total": plan.total, "weights": plan.weights} for plan in (strategy.one, strategy.two)}
    numbers = dict(zip(NUMBERS, map(fraction_text, strategy.numbers)))
    form = strategy.form
    return json_line({"classes": form.classes.lists[1:], "game": form.game.stated(version), "version": version, **plans, **numbers})


def read_strategy(data: bytes) -> Strategy:
    """Returns the strategy that a file states. The checks come in the order of docs/FORMATS.md."""
    value = read_json(data)
    if not isinstance(value, dict) or not is_unsigned_64(value.get("version")):
        raise Fault("shape of version")
    version = value["version"]
    if version not in (1, 2):
        raise Fault(f"version {version}")
    if set(value) != KEYS:
        raise Fault("shape of file")
    with named("game: "):
        game = game_of_value(value["game"], version)
    lists = value["classes"]
    if not isinstance(lists, list) or not all(isinstance(one, list) and all(is_between(number, 0, 2**32 - 1) for number in one) for one in lists):
        raise Fault("shape of classes")
    signals = Signals(game)
    with named("classes: "):
        form = SequenceForm(signals, Classes(signals.parents, lists))
    one, two = (read_plan(form, player, value[f"player{player}"]) for player in (1, 2))
    strategy = Strategy(form, one, two, tuple(read_number(name, value[name]) for name in NUMBERS))
    check_canonical(data, strategy_line(strategy, version))
    return strategy


def read_plan(form: SequenceForm, player: int, value: Any) -> Plan:
    """Returns the plan that an object of a strategy file states."""
    is_plan = isinstance(value, dict) and set(value) == {"total", "weights"} and is_unsigned_64(value["total"])
    if not is_plan or not isinstance(value["weights"], list) or not all(map(is_unsigned_64, value["weights"])):
        raise Fault(f"shape of player{player}")
    plan = Plan(player, value["total"], value["weights"])
    with named(f"player {player} "):
        check_plan(form, plan)
    return plan


def read_number(name: str, value: object) -> Fraction:
    """Returns a number that a strategy file states."""
    if not isinstance(value, str):
        raise Fault(f"shape of {name}")
    with named(f"{name} "):
        return parse_fraction(value)


def certificate_line(certificate: Certificate) -> bytes:
    """Returns the one text of a certificate."""
    players = {
        f"player{player}": {"bound": fraction_text(bound), "values": list(map(str, numbers))}
        for player, bound, numbers in zip((1, 2), certificate.bounds, certificate.numbers)
    }
    return json_line({"version": 1, **players})


def read_certificate(data: bytes) -> Certificate:
    """Returns the certificate that a line states, whether it holds or not."""
    value = read_json(data)
    if not isinstance(value, dict) or set(value) != {"player1", "player2", "version"} or not is_unsigned_64(value["version"]):
        raise Fault("shape")
    players = [value["player1"], value["player2"]]
    if not all(map(is_side, players)):
        raise Fault("shape")
    if value["version"] != 1:
        raise Fault(f"version {value['version']}")
    certificate = Certificate([], [])
    for player, side in enumerate(players, 1):
        certificate.numbers.append([certificate_number(text, f"value of player {player} at {at}") for at, text in enumerate(side["values"])])
        with named(f"bound of player {player} "):
            certificate.bounds.append(parse_fraction(side["bound"]))
    check_canonical(data, certificate_line(certificate))
    return certificate


def is_side(side: Any) -> bool:
    """Whether a value has the form of a player's bound and numbers."""
    if not isinstance(side, dict) or set(side) != {"bound", "values"}:
        return False
    return isinstance(side["bound"], str) and isinstance(side["values"], list) and all(isinstance(text, str) for text in side["values"])


def certificate_number(text: str, place: str) -> int:
    """Returns the whole number that a text of a certificate states; `place` is the fault if it is none."""
    if text == "-0" or len(text) > 40 or not re.fullmatch(r"-?(0|[1-9][0-9]*)", text) or abs(int(text)) >= MOST_OF_CERTIFICATE:
        raise Fault(place)
    return int(text)
