"""Numbers and tables as texts."""

from __future__ import annotations

import csv
import json
import math
import os
from collections.abc import Iterable, Sequence
from fractions import Fraction
from typing import Any


def json_line(value: object) -> str:
    """Returns a value as strategy files and certificates have it: one line of JSON, compact, with its keys in order.

    >>> json_line({"b": [1, 2], "a": "1/2"})
    '{"a":"1/2","b":[1,2]}\\n'
    """
    return json.dumps(value, sort_keys=True, separators=(",", ":")) + "\n"


def fraction_text(number: Fraction) -> str:
    """Returns a fraction as the program prints it.

    >>> fraction_text(Fraction(3))
    '3/1'
    """
    return "%d/%d" % (number.numerator, number.denominator)


def number(n: int) -> str:
    """Returns a whole number with commas."""
    return format(n, ",")


def listed(numbers: Iterable[int]) -> str:
    """Returns whole numbers in a row."""
    return ", ".join(number(n) for n in numbers)


def decimal(x: Fraction, digits: int) -> str:
    """Returns a fraction's decimals with a number of digits behind the point, rounded to the nearest.

    >>> decimal(Fraction(-1, 18), 4)
    '-0.0556'
    """
    scaled = round(x * 10**digits)
    text = str(abs(scaled)).rjust(digits + 1, "0")
    return ("-" if scaled < 0 else "") + text[:-digits] + "." + text[-digits:]


def outwards(x: Fraction, digits: int = 14) -> tuple[str, str]:
    """Returns a fraction's decimals rounded down, and rounded up.

    >>> outwards(Fraction(-1, 18), 4)
    ('-0.0556', '-0.0555')
    """
    scaled = x * 10**digits
    low, high = math.floor(scaled), math.ceil(scaled)
    return decimal(Fraction(low, 10**digits), digits), decimal(Fraction(high, 10**digits), digits)


def with_decimals(x: Fraction, digits: int = 6) -> str:
    """Returns a fraction and, where it is not whole, its decimals in brackets, rounded to the nearest."""
    return str(x) if x.denominator == 1 else "%s (%s)" % (x, decimal(x, digits))


def small(x: Fraction) -> str:
    """Returns a fraction of at least 0 as digits and a negative power of ten, rounded up."""
    if x == 0:
        return "0"
    power = math.floor(math.log10(x))
    digits = math.ceil(x / Fraction(10) ** power * 100)
    return "%d.%02d in 10^%d" % (digits // 100, digits % 100, -power)


def table(head: Sequence[str], rows: Iterable[Sequence[object]]) -> list[str]:
    """Returns the lines of a table in Markdown."""
    lines = ["| " + " | ".join(head) + " |", "| " + " | ".join("---" for _ in head) + " |"]
    return lines + ["| " + " | ".join(str(cell) for cell in row) + " |" for row in rows]


def span(numbers: Iterable[int]) -> str:
    """Returns numbers as a text, runs of them by their ends.

    >>> span([1, 2, 3, 7])
    '1 to 3, 7'
    """
    parts: list[list[int]] = []
    for n in numbers:
        if parts and n == parts[-1][1] + 1:
            parts[-1][1] = n
        else:
            parts.append([n, n])
    return ", ".join("%d" % a if a == b else "%d to %d" % (a, b) for a, b in parts)


def write_csv(path: str | os.PathLike[str], head: Sequence[str], rows: Iterable[Sequence[Any]]) -> None:
    """Writes rows to a file. A fraction under a name that ends in `*` takes three cells: itself, and its decimals rounded down and up."""
    names = [cell for name in head for cell in ([name[:-1] + end for end in ("", "_at_least", "_at_most")] if name.endswith("*") else [name])]
    with open(path, "w", encoding="ascii", newline="") as file:
        out = csv.writer(file, lineterminator="\n")
        out.writerow(names)
        for row in rows:
            out.writerow([cell for name, it in zip(head, row) for cell in (three_cells(it) if name.endswith("*") else [it])])


def three_cells(x: Fraction | None) -> tuple[object, str, str]:
    """Returns the three cells of a fraction; empty ones where there is none."""
    return ("", "", "") if x is None else (x, *outwards(x))
