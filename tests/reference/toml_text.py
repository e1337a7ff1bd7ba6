r"""Reads TOML 1.1 with the standard library's reader of TOML 1.0.

A text that `tomllib` refuses is rewritten once, and tried again, from the forms that only TOML 1.1 has:

  - line ends, comments and a last comma inside an inline table,
  - the escapes \e and \xHH in basic strings,
  - times without seconds.

Three more rules are those of the `toml` crate: an integer has 64 bits and a sign; a float that is not written as infinite is finite; and lists and inline
tables are nested at most 80 deep, and a dotted key has at most 80 parts.
"""

import math
import re
import tomllib
from typing import Any

from .json_text import is_signed_64
from .refusals import Fault

DEEPEST = 80


def read_toml(data: bytes) -> dict[str, Any]:
    r"""Returns the table that a text states.

    >>> read_toml(b"a = {\n  b = 1,\n}")
    {'a': {'b': 1}}
    """
    try:
        text = data.decode("utf-8").removeprefix("\ufeff")
    except UnicodeDecodeError:
        raise Fault("not UTF-8") from None
    try:
        try:
            table = tomllib.loads(text, parse_float=float_of)
        except tomllib.TOMLDecodeError:
            table = tomllib.loads(in_older_spelling(text), parse_float=float_of)
    except (ValueError, RecursionError, OverflowError):
        raise Fault("not TOML") from None
    if is_too_deep(text) or not all(map(is_small, table.values())):
        raise Fault("not TOML")
    return table


def float_of(text: str) -> float:
    """Returns a float. Digits that give an infinite one are refused."""
    if math.isinf(float(text)) and "inf" not in text:
        raise ValueError("not finite")
    return float(text)


def parts_of(value: object) -> list[object]:
    """Returns the values inside a value."""
    return list(value.values()) if isinstance(value, dict) else value if isinstance(value, list) else []


def is_too_deep(text: str) -> bool:
    """Whether brackets are nested too deep in a text of TOML, or a key has too many parts. Nothing but a key has many dots between two marks."""
    depth = dots = 0
    for match in TOKEN.finditer(text):
        if match.lastgroup in ("mark", "newline"):
            depth += {"[": 1, "{": 1, "]": -1, "}": -1}.get(match.group(), 0)
            if depth > DEEPEST or dots >= DEEPEST:
                return True
            dots = 0
        dots += match.group() == "."
    return False


def is_small(value: object) -> bool:
    """Whether all integers of a value have 64 bits and a sign."""
    waiting = [value]
    while waiting:
        value = waiting.pop()
        waiting += parts_of(value)
        if isinstance(value, int) and not isinstance(value, bool) and not is_signed_64(value):
            return False
    return True


TOKEN = re.compile(
    r'(?P<long_basic>"""(?:[^"\\]|\\[\s\S]|"(?!""))*"{3,5})'
    r"|(?P<long_literal>'''(?:[^']|'(?!''))*'{3,5})"
    r'|(?P<basic>"(?:[^"\\\n]|\\.)*")'
    r"|(?P<literal>'[^'\n]*')"
    r"|(?P<comment>#[^\n]*)"
    r"|(?P<newline>\r?\n)"
    r"|(?P<blank>[ \t]+)"
    r"|(?P<time>(?<![0-9+])\d\d:\d\d(?![:0-9]))"
    r"|(?P<mark>[{}\[\],=])"
    r"|(?P<other>[\s\S])"
)
SPACES = ("blank", "newline", "comment")


def older_escapes(token: str) -> str:
    r"""Returns a basic string with the escapes \e and \xHH in the spelling of TOML 1.0."""

    def older(match: re.Match[str]) -> str:
        escape = match.group()
        return r"\u001B" if escape == r"\e" else r"\u00" + escape[2:] if re.fullmatch(r"\\x[0-9A-Fa-f]{2}", escape) else escape

    return re.sub(r"\\(?:x[0-9A-Fa-f]{2}|[\s\S])", older, token)


def in_older_spelling(text: str) -> str:
    """Returns the text with the forms that only TOML 1.1 has in the spelling of TOML 1.0."""
    tokens = []
    for match in TOKEN.finditer(text):
        kind, token = match.lastgroup, match.group()
        if kind in ("basic", "long_basic"):
            token = older_escapes(token)
        elif kind == "time" and not re.search(r"\d:\d\d(\.\d+)?-$", text[max(0, match.start() - 40) : match.start()]):
            token += ":00"
        tokens.append((kind, token))

    def beside(at: int, step: int) -> str:
        """The next token that is no space, before or after a place."""
        at += step
        while 0 <= at < len(tokens) and tokens[at][0] in SPACES:
            at += step
        return tokens[at][1] if 0 <= at < len(tokens) else ""

    opened: list[str] = []
    kept = []
    for at, (kind, token) in enumerate(tokens):
        inline = opened[-1:] == ["{"]
        if kind == "mark" and token in "{[":
            opened.append(token)
        elif kind == "mark" and token in "}]" and opened:
            opened.pop()
        if inline and kind in ("newline", "comment") and (beside(at, -1) in ("{", ",") or beside(at, 1) in ("}", ",")):
            continue
        if inline and token == "," and beside(at, 1) == "}" and beside(at, -1) not in ("{", ","):
            continue
        kept.append(token)
    return "".join(kept)
