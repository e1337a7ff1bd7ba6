"""Reads the sources of the manual pages; `manual` and `completions` use it."""

from __future__ import annotations

import gzip
import os
import re

TOP = os.path.dirname(os.path.dirname(os.path.abspath(__file__)))
# values that an option takes
GOOD = {
    "classes": ["ogi", "split", "raw"],
    "turns": ["0", "1000000"],
    "player": ["1", "2"],
    "line": ["/", "/b"],
    "signal": ["Qs"],
    "kind": ["kuhn", "leduc", "rhode"],
    "ranks": ["1", "13"],
    "suits": ["1", "4"],
    "cap": ["0", "8"],
}


def page(section: str) -> str:
    """Returns the source of gameshrink(1) or gameshrink(5), which an installed package has packed."""
    path = os.path.join(TOP, "man", f"gameshrink.{section}")
    with open(path, encoding="ascii") if os.path.exists(path) else gzip.open(f"{path}.gz", "rt", encoding="ascii") as file:
        return file.read()


def part(text: str, title: str) -> str:
    """Returns the lines of a section or subsection.

    >>> part(".Sh NAME\\n.Nm x\\n.Sh AUTHORS\\n", "NAME")
    '.Nm x\\n'
    """
    return re.search(rf"^\.S[hs] {re.escape(title)}\n(.*?)(?=^\.S[hs] |\Z)", text, re.M | re.S)[1]


def synopsis(text: str) -> dict[str, tuple[dict[str, bool], dict[str, bool]]]:
    """Returns for each command its needed and its other options, with whether each takes a value."""
    found: dict[str, tuple[dict[str, bool], dict[str, bool]]] = {}
    name = ""
    for line in part(text, "SYNOPSIS").splitlines():
        if line.startswith(".Cm "):
            name = line[4:]
            found[name] = ({}, {})
        elif "Fl -" in line:
            option, value = re.search(r"Fl -(\w+)( Ar \w+)?", line).groups()
            found[name][line.startswith(".Op")][option] = value is not None
    return found
