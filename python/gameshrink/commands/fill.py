"""prints a strategy file with its true value and gaps, as `judge` finds them"""

from __future__ import annotations

import argparse
import sys

from ..program import Program
from ..strategy import Strategy
from ._words import add_strategy, text_at

add_words = add_strategy


def run(asked: argparse.Namespace) -> None:
    text = text_at(asked.strategy)
    verdict = Program().verdict("judge", text)  # says what is wrong with a strategy file
    sys.stdout.write(Strategy.parse(text).text(verdict))
