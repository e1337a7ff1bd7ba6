"""How far long work is, on a terminal's stderr: what is done, what is left, and how long it took. Where stderr is no terminal nothing is told."""

from __future__ import annotations

import sys
import threading
import time
from collections.abc import Iterable, Iterator, Sized
from types import TracebackType
from typing import TextIO, TypeVar

Item = TypeVar("Item")
TICK = 1.0  # the most seconds between two lines
LEAST = 0.1  # the least


def clock_text(seconds: float) -> str:
    """Returns a time as people read it.

    >>> clock_text(7.4), clock_text(83), clock_text(7260)
    ('7 s', '1 min 23 s', '2 h 1 min')
    """
    whole = round(seconds)
    if whole < 60:
        return "%d s" % whole
    return "%d min %d s" % divmod(whole, 60) if whole < 3600 else "%d h %d min" % divmod(whole // 60, 60)


class Progress:
    """One line about long work, written over again and again. `whole` is the number of its steps, where that is known.

    >>> with Progress("near", 2) as progress:
    ...     for step in ("the linear program", "Clp"):
    ...         progress.begin(step)
    """

    def __init__(self, name: str, whole: int | None = None, stream: TextIO | None = None):
        self.name, self.whole, self.stream = name, whole, stream or sys.stderr
        self.is_shown = self.stream.isatty()
        self.started, self.done, self.doing, self.begun = time.monotonic(), 0, "", 0
        self._shown = 0.0
        self._ended = threading.Event()
        self._lock = threading.Lock()

    def begin(self, doing: str) -> None:
        """Says which step begins; with it the one before is done."""
        self.done, self.begun, self.doing = self.begun, self.begun + 1, doing
        self._show()

    def step(self, done: int | None = None, doing: str = "") -> None:
        """Says that one more step is done, or how many are."""
        self.done, self.doing = self.done + 1 if done is None else done, doing or self.doing
        self._show()

    def text(self, seconds: float) -> str:
        """Returns the line after a number of seconds."""
        parts = [self.doing] * bool(self.doing)
        if self.whole:
            parts.append("%d of %d done" % (self.done, self.whole))
        elif self.done:
            parts.append("%d done" % self.done)
        parts.append(clock_text(seconds))
        if self.whole and 0 < self.done < self.whole:
            parts.append("about %s left" % clock_text(seconds * (self.whole - self.done) / self.done))
        return "%s: %s" % (self.name, ", ".join(parts))

    def _show(self) -> None:
        now = time.monotonic()
        if self.is_shown and now >= self._shown + LEAST:
            with self._lock:
                if not self._ended.is_set():
                    self._shown = now
                    self.stream.write("\r%s\x1b[K" % self.text(now - self.started)[:119])
                    self.stream.flush()

    def _tick(self) -> None:
        while not self._ended.wait(TICK):
            self._show()

    def __enter__(self) -> Progress:
        if self.is_shown:
            threading.Thread(target=self._tick, daemon=True).start()
        return self

    def __exit__(self, _kind: type[BaseException] | None, _fault: BaseException | None, _trace: TracebackType | None) -> None:
        self._ended.set()
        if self.is_shown:
            with self._lock:
                self.stream.write("\r\x1b[K")
                self.stream.flush()


def told(name: str, items: Iterable[Item], whole: int | None = None) -> Iterator[Item]:
    """Yields items, and tells how many are done.

    >>> [item * item for item in told("squares", range(4))]
    [0, 1, 4, 9]
    """
    if whole is None and isinstance(items, Sized):
        whole = len(items)
    with Progress(name, whole) as progress:
        for item in items:
            yield item
            progress.step()
