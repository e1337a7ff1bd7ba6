"""Runs the built program, measures the run and names what is wrong with its end; `ends`, `storm` and `compare` use it.

A run costs about half a millisecond beside the program's own time: the three ends are files in memory, and `posix_spawn` starts the program.
"""

import os
import re
import signal
from importlib.machinery import SourceFileLoader
from importlib.util import module_from_spec, spec_from_loader
from typing import NamedTuple

# the statuses that a command may end with, beside 0, and 2 for its words
KNOWN = {
    "shrink": [6, 7], "check": [6, 7, 8], "play": [6, 7, 8, 11], "solve": [6, 7, 8, 9, 10, 11], "path": [6, 7, 8, 9, 10, 11], "make": [7],
    "evaluate": [6, 8, 11, 12, 13], "query": [6, 8, 11, 12, 13, 14], "upgrade": [6, 8, 11, 12, 13], "certify": [6, 8, 11, 12, 13],
    "judge": [6, 11, 12], "duel": [6, 11, 12, 16], "verify": [6, 8, 11, 12, 17],
}

# the line of each status
NAME = rb"[0-9A-Za-z+/]+"
LINES = {
    2: rb"usage: gameshrink shrink, check, solve, play, evaluate, query, make, upgrade, judge, duel, certify, verify or path",
    3: rb"read fault",
    4: rb"write fault",
    5: rb"out of memory",
    6: rb"input longer than 16777216 bytes",
    7: rb"bad game: [ -~]+",
    8: rb"unlike: round [1-4] " + NAME + rb" " + NAME,
    9: rb"overflow: (step \d+ row \d+ column \d+ number -?\d+|player [12] total \d+)",
    10: rb"more than 8192 pivots",
    11: rb"too large: (sequences of player [12]|cells|table numbers|raw cells): \d+",
    12: rb"bad strategy: (first: |second: )?[ -~]+",
    13: rb"wrong numbers: (value|gap1|gap2) -?\d+/\d+ found -?\d+/\d+",
    14: rb"bad query: (line|player|signal|round)",
    16: rb"other game",
    17: rb"bad certificate: [ -~]+",
}


# seconds between two looks at a run that has not ended
TICK = 10


class Ended(NamedTuple):
    """How a run ended: a status below 0 is the signal that ended it."""

    status: int
    out: bytes
    err: bytes
    seconds: float
    memory: int


def module_at(path):
    """Returns the Python file at a path, a script too, as a module."""
    loader = SourceFileLoader(os.path.basename(path).removesuffix(".py"), path)
    module = module_from_spec(spec_from_loader(loader.name, loader))
    loader.exec_module(module)
    return module


def as_bytes(words):
    return [it if isinstance(it, bytes) else it.encode() for it in words]


def fault(words, ended, outside=()):
    """Returns what is wrong with the end of a run, or None. `outside` are the statuses that the run's surroundings allow beside those of the input."""
    status, out, err = ended[:3]
    if status == 0:
        return "status 0 without a line" if not out.endswith(b"\n") else "status 0 and a line on stderr" if err else None
    command = words[0].decode("ascii", "replace") if words else ""
    if status < 0:
        return f"ended by signal {signal.Signals(-status).name}"
    if status != 2 and status not in outside and status not in KNOWN.get(command, []):
        return "an unknown status"
    if out and status != 4:
        return "a refusal and something on stdout"
    if not re.fullmatch(LINES[status] + rb"\n", err):
        return "another line on stderr"
    return None


class Runner:
    """Runs one program again and again."""

    def __init__(self, program, waited=120):
        self.program, self.waited = os.fsencode(program), waited
        self.ends = [os.memfd_create(it) for it in ("in", "out", "err")]
        self.actions = [(os.POSIX_SPAWN_DUP2, end, number) for number, end in enumerate(self.ends)]
        self.late = False

    def run(self, words, data, environment=None):
        """Runs the program on the words, which are bytes, with `data` on stdin, and ends it after `waited` seconds."""
        for end in self.ends:
            os.ftruncate(end, 0)
            os.lseek(end, 0, os.SEEK_SET)
        given = self.ends[0]
        at = 0
        while at < len(data):
            at += os.pwrite(given, data[at:], at)
        pid = os.posix_spawn(self.program, [self.program, *words], environment or {}, file_actions=self.actions, setsigdef=[signal.SIGPIPE, signal.SIGXFSZ])
        status, used = self.wait(pid)
        return Ended(status, self.taken(1), self.taken(2), used.ru_utime + used.ru_stime, used.ru_maxrss)

    def close(self):
        """Closes the files that stand for the ends."""
        for end in self.ends:
            os.close(end)

    def wait(self, pid):
        """Returns the status and the use of a run. The time is counted in ticks, so that a pause of this process itself counts as one."""
        self.late, left = False, self.waited // TICK

        def tick(_number, _frame):
            nonlocal left
            left -= 1
            if left <= 0:
                self.late = True
                os.kill(pid, signal.SIGKILL)

        signal.signal(signal.SIGALRM, tick)
        signal.setitimer(signal.ITIMER_REAL, TICK, TICK)
        _, status, used = os.wait4(pid, 0)
        signal.setitimer(signal.ITIMER_REAL, 0)
        return os.waitstatus_to_exitcode(status), used

    def taken(self, number):
        size = os.fstat(self.ends[number]).st_size
        return os.pread(self.ends[number], size, 0) if size else b""
