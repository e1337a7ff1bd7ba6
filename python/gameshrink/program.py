"""The built program: how it is found and run, and what it refuses."""

from __future__ import annotations

import hashlib
import os
import shutil
import subprocess
from collections.abc import Callable, Mapping, Sequence
from fractions import Fraction
from pathlib import Path
from typing import IO, NamedTuple

from .texts import fraction_text

CHECKOUT = Path(__file__).resolve().parents[2]  # of the project, where the package was not installed


def machine() -> str:
    """Returns the processors, memory and system of this machine in one line, for a document with figures of time.

    >>> " GiB, Linux " in machine()
    True
    """
    lines = Path("/proc/cpuinfo").read_text(encoding="utf-8").splitlines()
    model = next((line.split(":", 1)[1].strip() for line in lines if line.startswith("model name")), "unknown processor")
    memory = os.sysconf("SC_PAGE_SIZE") * os.sysconf("SC_PHYS_PAGES") / 2**30
    return "%d processors %s, %d GiB, Linux %s" % (os.cpu_count() or 1, model, memory, os.uname().release)


class Refused(Exception):
    """A refusal by the program: its status and its line, as docs/FORMATS.md lists them.

    >>> try:
    ...     Program().run("check", "version = 1")
    ... except Refused as refusal:
    ...     print(refusal.status, refusal.line)
    7 bad game: missing key ranks
    """

    def __init__(self, command: str, status: int, line: str):
        super().__init__("gameshrink %s: status %d, %s" % (command, status, line))
        self.command, self.status, self.line = command, status, line


class NoProgram(Exception):
    """There is no built program where it was looked for.

    >>> Program("no/such/file")
    Traceback (most recent call last):
    gameshrink.program.NoProgram: there is no program no/such/file
    """


class Verdict(NamedTuple):
    """What two plans pay player 1, and what each player could still gain against the other's plan, in chips per deal.

    >>> verdict = Verdict(Fraction(1, 12), Fraction(13, 12), Fraction(7, 6))
    >>> print(verdict.paid(2), verdict.gap(2), verdict.sure(2))
    -1/12 7/6 -7/6
    """

    value: Fraction
    gap1: Fraction
    gap2: Fraction

    def gap(self, player: int) -> Fraction:
        """Returns what a player could still gain against the other's plan: the gap that `judge` prints."""
        return self.gap1 if player == 1 else self.gap2

    def paid(self, player: int) -> Fraction:
        """Returns what the two plans pay a player."""
        return self.value if player == 1 else -self.value

    def sure(self, player: int) -> Fraction:
        """Returns what a player's plan gets at least, whatever the opponent does. Some opponent holds it to that."""
        return self.paid(player) - self.gap(3 - player)

    @property
    def texts(self) -> tuple[str, str, str]:
        """The value and both gaps as strategy files state them."""
        return fraction_text(self.value), fraction_text(self.gap1), fraction_text(self.gap2)


def find(path: str | None = None) -> str:
    """Returns the program's path: the one given, $GAMESHRINK, ./gameshrink of the checkout that the package stands in, or one on the PATH."""
    named = path or os.environ.get("GAMESHRINK")
    for place in [named] if named else [str(CHECKOUT / "gameshrink"), shutil.which("gameshrink") or ""]:
        if os.path.isfile(place) and os.access(place, os.X_OK):
            return os.path.abspath(place)
    if named:
        raise NoProgram("there is no program %s" % named)
    raise NoProgram("there is no program gameshrink: name it by --program FILE or GAMESHRINK=FILE, or put it on the PATH")


class Program:
    """The program at a path; without one, that which `find` finds.

    >>> print(Program().run("check", Game.kuhn().text()), end="")
    round 1 classes 3 signals 3
    1: Qs
    2: Ks
    3: As
    """

    def __init__(self, path: str | None = None):
        self.path = find(path)

    @property
    def binary(self) -> str:
        """The path of the program's own file: where `path` is the launcher of a checkout, that of the program which it starts."""
        folder = Path(self.path).resolve().parent
        if not (folder / "crates.txt").exists():
            return self.path
        self.ended("")  # the launcher makes the program first, where it has to
        return str(folder / "crates" / "shrink_cli" / "out" / "shrink_cli")

    @property
    def identity(self) -> str:
        """What names the program in a document: its checksum, and the version and commit where it is the one that the checkout ships."""
        checksum = hashlib.sha256(Path(self.binary).read_bytes()).hexdigest()
        path = CHECKOUT / "dist" / "record"
        lines = path.read_text(encoding="utf-8").splitlines() if path.exists() else []
        record = {name: text for name, _, text in (line.partition(" ") for line in lines)}
        shipped = "version %s, commit `%s`, " % (record["version"], record["commit"][:8]) if record.get("program") == checksum else ""
        return "%sSHA-256 `%s`" % (shipped, checksum[:16])

    def ended(
        self,
        words: str | Sequence[str],
        data: bytes = b"",
        stdin: IO[bytes] | None = None,
        env: Mapping[str, str] | None = None,
        timeout: float | None = None,
        preexec_fn: Callable[[], None] | None = None,
    ) -> subprocess.CompletedProcess[bytes]:
        """Returns how a run on some bytes, or on an open file, ended. The other arguments are those of `subprocess.run`."""
        call = [self.path, *(words.split() if isinstance(words, str) else words)]
        if stdin is not None:
            return subprocess.run(call, stdin=stdin, capture_output=True, check=False, env=env, timeout=timeout, preexec_fn=preexec_fn)
        return subprocess.run(call, input=data, capture_output=True, check=False, env=env, timeout=timeout, preexec_fn=preexec_fn)

    def run(self, words: str | Sequence[str], text: str = "") -> str:
        """Returns what a run prints; raises `Refused` where it is refused."""
        done = self.ended(words, text.encode())
        if done.returncode:
            line = done.stderr.decode(errors="replace").strip("\n")
            ended = "ended by signal %d" % -done.returncode if done.returncode < 0 else ""
            raise Refused(words if isinstance(words, str) else " ".join(words), done.returncode, line or ended)
        return done.stdout.decode()

    def verdict(self, command: str, text: str) -> Verdict:
        """Returns the numbers that `judge`, `evaluate` or `duel` prints."""
        return stated(self.run(command, text))

    def make(self, kind: str, ranks: int, suits: int, cap: int) -> str:
        """Returns the game file of a well-known game."""
        return self.run("make --kind %s --ranks %d --suits %d --cap %d" % (kind, ranks, suits, cap))


def stated(lines: str) -> Verdict:
    """Returns the numbers of the lines `value`, `gap1` and `gap2`, which stand first."""
    found = dict(line.split()[:2] for line in lines.splitlines()[:3])
    return Verdict(*(Fraction(found[name]) for name in ("value", "gap1", "gap2")))
