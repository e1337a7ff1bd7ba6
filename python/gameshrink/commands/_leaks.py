"""What `read`, `leaks`, `exploit` and `report` share: numbers as texts, the ranked table of leaks, the check of its sums, and habits."""

from __future__ import annotations

import argparse
from collections.abc import Sequence
from fractions import Fraction
from pathlib import Path

from ..leaks import Habit, Leaks
from ..program import Verdict
from ..rules import Chooser, read_rules
from ..strategy import Strategy
from ..texts import decimal, fraction_text

HEAD = ["", "line", "hand", "plays", "best", "often", "each", "chips", "share", "sum"]
LEAST = Fraction(1, 2000)  # of the gap: smaller leaks, which would be 0.0% of it, are added up in one line


def add_players(parser: argparse.ArgumentParser) -> None:
    """Adds the option --player P; both players without it."""
    parser.add_argument("--player", type=int, choices=(1, 2), action="append", help="both players by default")


def add_top(parser: argparse.ArgumentParser) -> None:
    """Adds the option --top N."""
    parser.add_argument("--top", type=int, default=20, metavar="N", help="how many places a table shows, 20 by default")


def name_of(path: str) -> str:
    """Returns what a file is called."""
    return "stdin" if path == "-" else path


def chips(number: Fraction) -> str:
    """Returns decimals, rounded to the nearest; of a number that is near 0 and not 0, its size.

    >>> chips(Fraction(1, 3)), chips(Fraction(1, 10**9)), chips(Fraction(0))
    ('0.333333', '1.0e-09', '0.000000')
    """
    return "%.1e" % float(number) if 0 < abs(number) < Fraction(1, 2 * 10**6) else decimal(number, 6)


def with_fraction(number: Fraction) -> str:
    """Returns a number as decimals, and as a fraction where that is short."""
    text = fraction_text(number)
    return "%s = %s" % (chips(number), text) if len(text) <= 24 else chips(number)


def aligned(head: Sequence[str], rows: Sequence[Sequence[str]], left: int) -> list[str]:
    """Returns a table as lines; its first columns stand on the left."""
    widths = [max(len(row[column]) for row in [head, *rows]) for column in range(len(head))]
    lines = []
    for row in [head, *rows]:
        cells = [text.ljust(width) if column < left else text.rjust(width) for column, (text, width) in enumerate(zip(row, widths))]
        lines.append("  ".join(cells).rstrip())
    return lines


def table_of(leaks: Leaks, top: int) -> list[str]:
    """Returns the ranked table of leaks as lines."""
    if not leaks.gap:
        return ["nothing is lost"]
    rows, so_far = [], Fraction(0)
    shown = [leak for leak in leaks.lossy[:top] if leak.chips >= LEAST * leaks.gap]
    for place, leak in enumerate(shown, 1):
        so_far += leak.chips
        shares = (decimal(100 * part / leaks.gap, 1) + "%" for part in (leak.chips, so_far))
        texts = [str(place), leak.point.line, leak.label, leak.plays(), leak.advice()]
        rows.append([*texts, decimal(leak.often, 4), decimal(leak.each, 4), chips(leak.chips), *shares])
    left = len(leaks.lossy) - len(shown)
    more = ["and %d more place%s, together %s" % (left, "s" * (left > 1), chips(leaks.gap - so_far))] if left else []
    return aligned(HEAD, rows, 5) + more


def mistakes_of(leaks: Leaks) -> str:
    """Returns the chips lost by kinds of moves, in one line."""
    return "; ".join("%s where %s is best %s" % (done, right, chips(lost)) for (done, right), lost in leaks.by_mistake()[:3])


def checked(leaks: Leaks, verdict: Verdict) -> None:
    """Compares value and gap with what the program prints."""
    found, stated = (leaks.value, leaks.gap), (verdict.paid(leaks.player), verdict.gap(leaks.player))
    if found != stated:
        raise AssertionError("value and gap are %s and %s, and the program says %s and %s" % (*found, *stated))


def habit_of(strategy: Strategy, player: int, path: str | None) -> Habit | None:
    """Returns what a table says at a point with a hand, if there is one."""
    if not path:
        return None
    rules = read_rules(Path(path).read_text(encoding="utf-8-sig").splitlines())
    return Chooser(strategy.layout, rules, player).at_hand
