"""How a run is refused: a status and one line, or a text that the reader above completes."""

from collections.abc import Iterator
from contextlib import contextmanager


class Refusal(Exception):
    """The run ends with this status, and this line goes to stderr."""

    def __init__(self, status: int, line: str) -> None:
        super().__init__(line)
        self.status, self.line = status, line


class Fault(Exception):
    """A rule that is broken, in the words of docs/FORMATS.md without what stands in front of them there."""


@contextmanager
def named(front: str) -> Iterator[None]:
    """Puts a text in front of each fault that is raised inside.

    >>> with named("deck: "):
    ...     raise Fault("no cards")
    Traceback (most recent call last):
    reference.refusals.Fault: deck: no cards
    """
    try:
        yield
    except Fault as fault:
        raise Fault(f"{front}{fault}") from None


@contextmanager
def refused(status: int, front: str) -> Iterator[None]:
    """Makes a refusal of each fault that is raised inside."""
    try:
        yield
    except Fault as fault:
        raise Refusal(status, f"{front}{fault}") from None
