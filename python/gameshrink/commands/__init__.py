"""The commands of gameshrink-tools: a module of this folder for each.

Each module has a docstring, which `--help` prints, whose first line says in a few words what the command prints; `add_words(parser)`, which adds
its arguments; and `run(asked)`, which does it. A module whose name begins with `_` is no command. There is no list to keep.
"""

from __future__ import annotations

import importlib
import pkgutil
from types import ModuleType


def all_commands() -> dict[str, ModuleType]:
    """Returns the module of each command by its name."""
    names = sorted(found.name for found in pkgutil.iter_modules(__path__) if not found.name.startswith("_"))
    return {name: importlib.import_module("%s.%s" % (__name__, name)) for name in names}
