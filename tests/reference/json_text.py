"""Reads and writes JSON as `serde_json` does.

A number without a point and an exponent is whole if it has 64 bits without a sign, or with one if it is negative. Every other number, and `-0`, is a
`Float`. Refused are floats that are not finite, halves of surrogate pairs, and a nesting of 128 or more. Of two equal keys the last one stands.
"""

import json
import math
import re
from dataclasses import dataclass
from typing import Any

from .refusals import Fault

DEEPEST = 127


@dataclass
class Float:
    """A number that is not whole, as it is written."""

    text: str


def read_json(data: bytes) -> Any:
    """Returns the value that a text states.

    >>> read_json(b'{"a":[1,1.0]}')
    {'a': [1, Float(text='1.0')]}
    """
    try:
        text = data.decode("utf-8")
        if depth_of(text) > DEEPEST:
            raise ValueError("too deep")
        value = json.loads(text, parse_int=number_of, parse_float=float_of, parse_constant=float_of, object_pairs_hook=object_of)
        check_texts(value)
        return value
    except (ValueError, RecursionError):
        raise Fault("not JSON") from None


def number_of(text: str) -> int | Float:
    """Returns the number of a text without a point and an exponent."""
    if text != "-0" and len(text) <= 20 and -(2**63) <= int(text) < 2**64:
        return int(text)
    return float_of(text)


def float_of(text: str) -> Float:
    """Returns any other number. One that is not finite is refused."""
    if not math.isfinite(float(text)):
        raise ValueError("not finite")
    return Float(text)


def object_of(pairs: list[tuple[str, Any]]) -> dict[str, Any]:
    """Returns the object of some keys and values; also a value that a later key replaces is checked."""
    for key, value in pairs:
        check_texts(key)
        check_texts(value)
    return dict(pairs)


def check_texts(value: object) -> None:
    """Refuses halves of surrogate pairs in a text or in the texts of a list; objects were checked when they were made."""
    if isinstance(value, str) and any("\ud800" <= letter <= "\udfff" for letter in value):
        raise ValueError("half of a surrogate pair")
    if isinstance(value, list):
        for part in value:
            check_texts(part)


OUTSIDE = re.compile(r'"(?:[^"\\]|\\.)*"?|[\[{]|[\]}]', re.S)


def depth_of(text: str) -> int:
    """Returns how many brackets outside texts stand inside one another."""
    depth = deepest = 0
    for match in OUTSIDE.finditer(text):
        depth += {"[": 1, "{": 1, "]": -1, "}": -1}.get(match.group(), 0)
        deepest = max(deepest, depth)
    return deepest


def is_between(value: object, least: int, most: int) -> bool:
    """Whether a value is a whole number in a range."""
    return isinstance(value, int) and not isinstance(value, bool) and least <= value <= most


def is_unsigned_64(value: object) -> bool:
    """Whether a value is a whole number of 64 bits without a sign."""
    return is_between(value, 0, 2**64 - 1)


def is_signed_64(value: object) -> bool:
    """Whether a value is a whole number of 64 bits with a sign."""
    return is_between(value, -(2**63), 2**63 - 1)


def json_line(value: object) -> bytes:
    r"""Returns the one line of a value: compact, keys in byte order.

    >>> json_line({"b": 1, "a": [2]})
    b'{"a":[2],"b":1}\n'
    """
    return (json.dumps(value, separators=(",", ":"), sort_keys=True) + "\n").encode("ascii")


def first_difference(data: bytes, text: bytes) -> int | None:
    """Returns the first place where two texts differ, or the shorter length; None if they are equal.

    >>> first_difference(b"ab", b"abc")
    2
    """
    if data == text:
        return None
    return next((at for at, (one, two) in enumerate(zip(data, text)) if one != two), min(len(data), len(text)))


def check_canonical(data: bytes, text: bytes) -> None:
    """Refuses bytes that are not the one text of what was read."""
    at = first_difference(data, text)
    if at is not None:
        raise Fault(f"not canonical at {at}")
