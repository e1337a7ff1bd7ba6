"""Tests of the line that long work writes on a terminal."""

import io
import unittest
from unittest import mock

from gameshrink import progress
from gameshrink.progress import Progress, told


class Terminal(io.StringIO):
    """A stream that says it is a terminal."""

    def isatty(self):
        return True

    @property
    def lines(self):
        """The lines that were shown, one over another."""
        return [line.removesuffix("\x1b[K") for line in self.getvalue().split("\r")[1:]]


class TestProgress(unittest.TestCase):
    def test_what_is_done_and_left(self):
        line = Progress("near", 4)
        for step in ("classes", "deals", "clp"):
            line.begin(step)
        self.assertEqual(line.text(30), "near: clp, 2 of 4 done, 30 s, about 30 s left")
        line.step(4)
        self.assertEqual(line.text(61), "near: clp, 4 of 4 done, 1 min 1 s")
        self.assertEqual(Progress("x").text(0), "x: 0 s")

    def test_on_a_terminal(self):
        with mock.patch.object(progress, "LEAST", 0), mock.patch.object(progress, "TICK", 60), Progress("work", 2, Terminal()) as line:
            line.begin("one")
            line.begin("two")
        self.assertEqual(line.stream.lines, ["work: one, 0 of 2 done, 0 s", "work: two, 1 of 2 done, 0 s, about 0 s left", ""])

    def test_quiet_in_a_pipe(self):
        pipe = io.StringIO()
        with Progress("work", 2, pipe) as line:
            line.begin("one")
            line.step()
        self.assertEqual(pipe.getvalue(), "")

    def test_items(self):
        with mock.patch("sys.stderr", Terminal()) as terminal, mock.patch.object(progress, "LEAST", 0):
            self.assertEqual(list(told("work", iter("ab"), 2)), ["a", "b"])
        self.assertIn("work: 2 of 2 done, 0 s", terminal.lines)
        self.assertEqual(terminal.lines[-1], "")


if __name__ == "__main__":
    unittest.main()
