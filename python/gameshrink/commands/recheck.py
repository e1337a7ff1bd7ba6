"""prints what `gameshrink judge` prints of stdin, by brute force and without the program

Of the two lines of `gameshrink certify` it prints that, and the bounds that `gameshrink verify` prints.
"""

from __future__ import annotations

import argparse

from .. import recheck


def add_words(_parser: argparse.ArgumentParser) -> None:
    pass


def run(_asked: argparse.Namespace) -> None:
    recheck.run()
