"""The command gameshrink-tools: its words, and what it says when something is wrong. Its commands are the modules of `commands`."""

from __future__ import annotations

import argparse
import csv
import os
import signal
import sys
from collections.abc import Sequence

from .commands import all_commands
from .errors import BadInput
from .program import NoProgram, Program, Refused
from .words import Words, add_program

NAME = "gameshrink-tools"
ABOUT = """Strategies of small two-player card games as tables, where they lose, and what they look like. The numbers come from the program
gameshrink: that of --program FILE, of $GAMESHRINK, of the checkout that this package stands in, or the one on the PATH."""


def words() -> Words:
    """Returns the words of all commands."""
    found = Words(prog=NAME, description=ABOUT)
    commands = found.add_subparsers(dest="command", required=True, metavar="COMMAND", parser_class=Words)
    for name, module in all_commands().items():
        about = module.__doc__ or ""
        form = argparse.RawDescriptionHelpFormatter
        parser = commands.add_parser(name, help=about.splitlines()[0], description=about, formatter_class=form)
        module.add_words(parser)
        add_program(parser)
        parser.set_defaults(run=module.run)
    return found


def run(arguments: Sequence[str] | None = None) -> None:
    """Runs a command; ends the process with status 1 and a line where something is wrong with its input, with 2 where with its words."""
    asked = words().parse_args(arguments)
    try:
        if asked.program:
            os.environ["GAMESHRINK"] = Program(asked.program).path
        asked.run(asked)
    except OSError as fault:
        sys.exit("%s: %s: %s" % (NAME, fault.filename, fault.strerror))
    except Refused as fault:
        sys.exit(str(fault))
    except (BadInput, NoProgram, UnicodeDecodeError, csv.Error) as fault:
        sys.exit("%s: %s" % (NAME, fault))


def main() -> None:
    """Runs the command of the process's words."""
    signal.signal(signal.SIGPIPE, signal.SIG_DFL)
    run()
