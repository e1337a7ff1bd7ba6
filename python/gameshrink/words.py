"""The words of a command or a script, and the option that each has: `--program FILE`."""

from __future__ import annotations

import argparse
from typing import NoReturn


class Words(argparse.ArgumentParser):
    """Reads words. A refusal is one line."""

    def error(self, message: str) -> NoReturn:
        self.exit(2, "%s: %s; --help says more\n" % (self.prog, message))


def add_program(parser: argparse.ArgumentParser) -> None:
    """Adds the option --program FILE."""
    parser.add_argument("--program", metavar="FILE", help="the built program; else $GAMESHRINK, ./gameshrink of the checkout, or one on the PATH")


def script_words(about: str | None) -> Words:
    """Returns the words of a script: its docstring is the help text, and it takes --program.

    >>> script_words("Counts.").parse_args(["--program", "a/file"]).program
    'a/file'
    """
    words = Words(description=about, formatter_class=argparse.RawDescriptionHelpFormatter, usage=argparse.SUPPRESS)
    add_program(words)
    return words
