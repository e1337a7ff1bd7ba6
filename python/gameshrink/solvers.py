"""Outside solvers of linear programs, where they are installed: Clp in floating point (Debian package coinor-clp), QSopt_ex exactly (qsopt-ex)."""

from __future__ import annotations

import re
import resource
import shutil
import struct
import subprocess
import tempfile
from dataclasses import dataclass
from fractions import Fraction
from pathlib import Path

from .errors import BadInput

PACKAGES = {"clp": "coinor-clp", "qsopt_ex": "qsopt-ex"}
COMMANDS = {"clp": "clp", "qsopt_ex": "esolver"}
SOLVERS = tuple(PACKAGES)
MEMORY = 6 * 2**30  # bytes that a solver may take where its time is limited


class Failure(BadInput):
    """Why a solver gave no optimum, in one line."""


@dataclass(frozen=True)
class Optimum:
    """An optimum: its objective, its columns and the dual values of its rows by name, and the processor seconds that the solver took."""

    aim: Fraction
    columns: dict[str, Fraction]
    prices: dict[str, Fraction]
    seconds: float


def has_exact() -> bool:
    """Whether QSopt_ex is installed."""
    return shutil.which(COMMANDS["qsopt_ex"]) is not None


def has_floating() -> bool:
    """Whether Clp is installed."""
    return shutil.which(COMMANDS["clp"]) is not None


def _version(words: list[str], pattern: str) -> str:
    done = subprocess.run(words, stdout=subprocess.PIPE, stderr=subprocess.STDOUT, text=True, check=False)
    found = re.search(pattern, done.stdout)
    return found[1] if found else "of an unknown version"


def exact_name() -> str:
    """Returns the name and version of QSopt_ex."""
    return "QSopt_ex " + _version(["esolver"], r"QSopt_ex (\S+)")


def floating_name() -> str:
    """Returns the name and version of Clp."""
    return "Clp " + _version(["clp", "-stop"], r"Coin LP version (\S+),")


class Work:
    """A folder with a linear program, at which the solvers work. With `seconds` each run may take that many of the processor, and 6 GiB."""

    def __init__(self, folder: str | Path, program: str, seconds: int | None = None):
        self.folder, self.seconds = Path(folder), seconds
        self._path("game.lp").write_text(program, encoding="ascii")

    def _path(self, name: str) -> Path:
        return self.folder / name

    def _run(self, words: list[str], written: str) -> tuple[str, float]:
        """Runs a solver; returns the text that it wrote to a file, and the seconds that it took."""

        def limit() -> None:
            if self.seconds:
                resource.setrlimit(resource.RLIMIT_CPU, (self.seconds, self.seconds))
                resource.setrlimit(resource.RLIMIT_AS, (MEMORY, MEMORY))

        before = resource.getrusage(resource.RUSAGE_CHILDREN)
        done = subprocess.run(words, cwd=self.folder, stdout=subprocess.PIPE, stderr=subprocess.STDOUT, preexec_fn=limit, check=False)
        after = resource.getrusage(resource.RUSAGE_CHILDREN)
        took = after.ru_utime + after.ru_stime - before.ru_utime - before.ru_stime
        if self.seconds and done.returncode < 0 and took >= self.seconds - 1:
            raise Failure("%s did not end within %d processor seconds" % (words[0], self.seconds))
        if not self._path(written).exists():
            ended = " (ended by signal %d)" % -done.returncode if done.returncode < 0 else ""
            raise Failure("%s wrote no solution: %s%s" % (words[0], done.stdout.decode(errors="replace")[-200:].replace("\n", " "), ended))
        return self._path(written).read_text(encoding="ascii"), took

    def by_clp(self, method: str = "dualSimplex") -> Optimum:
        """Returns numbers near an optimum, and leaves the basis in game.bas. `method` is the name of one of Clp's options."""
        words = "clp game.lp -primalTolerance 1e-9 -dualTolerance 1e-9 -%s -printingOptions all -solution game.txt -saveSolution game.sol -basisOut game.bas"
        text, took = self._run((words % method).split(), "game.txt")
        if not text.lower().startswith("optimal"):
            raise Failure("clp: %s" % text.split("\n", 1)[0])
        # the text has the names in their order, the other file their numbers in 64 bits
        stored = self._path("game.sol").read_bytes()
        rows, columns, aim = struct.unpack("=iid", stored[:16])
        numbers = struct.unpack("=%dd" % (2 * rows + 2 * columns), stored[16:])
        names = [line.lstrip("* ").split()[1] for line in text.splitlines()[1:] if len(line.split()) > 3]
        if len(names) != rows + columns:
            raise Failure("clp wrote %d names for %d rows and columns" % (len(names), rows + columns))
        prices = dict(zip(names[:rows], map(Fraction, numbers[rows : 2 * rows])))
        return Optimum(Fraction(aim), dict(zip(names[rows:], map(Fraction, numbers[2 * rows : 2 * rows + columns]))), prices, took)

    def by_qsopt_ex(self, from_basis: bool = False) -> Optimum:
        """Returns an exact optimum; with `from_basis` the solver begins at the basis that Clp left, so that it seldom has a step to make."""
        if from_basis:
            self._mend_basis()
        words = ["esolver", "-O", "exact.sol", *(["-B", "game.bas"] if from_basis else []), "-L", "game.lp"]
        text, took = self._run(words, "exact.sol")
        value = re.search(r"Value = (\S+)", text)
        if not re.search(r"status (= )?OPTIMAL", text) or not value:
            raise Failure("esolver: %s" % text.split("\n", 1)[0])
        return Optimum(Fraction(value[1]), _section(text, "VARS"), _section(text, "PI"), took)

    def _mend_basis(self) -> None:
        """Leaves out of game.bas the columns that Clp's crossover left without a row, which QSopt_ex does not read."""
        lines = [line for line in self._path("game.bas").read_text(encoding="ascii").splitlines() if not line.startswith(" BS ")]
        self._path("game.bas").write_text("\n".join(lines) + "\n", encoding="ascii")


def _section(text: str, name: str) -> dict[str, Fraction]:
    """Returns the numbers of a section of QSopt_ex's file by name."""
    found = re.search(r"^%s:\n(.*?)(?=^[A-Z ]+:\n|\Z)" % name, text, re.S | re.M)
    pairs = (line.split(" = ") for line in (found[1] if found else "").splitlines() if " = " in line)
    return {key.strip(): Fraction(value.strip()) for key, value in pairs}


def installed(name: str | None = None) -> str:
    """Returns the name of a solver that is installed: the one named, else `clp`, else `qsopt_ex`."""
    names = [name] if name else list(SOLVERS)
    for it in names:
        if shutil.which(COMMANDS[it]):
            return it
    raise BadInput("not installed: %s" % " or ".join("%s (Debian package %s)" % (it, PACKAGES[it]) for it in names))


def solved(program: str, solver: str | None = None) -> Optimum:
    """Returns the optimum of a linear program in the LP format, by a solver that is installed."""
    chosen = installed(solver)
    with tempfile.TemporaryDirectory() as folder:
        work = Work(folder, program)
        return work.by_clp() if chosen == "clp" else work.by_qsopt_ex()
