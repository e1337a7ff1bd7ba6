"""Runs the examples in the package's docstrings."""

import doctest
import importlib
import pkgutil
import unittest
from fractions import Fraction

import gameshrink


def load_tests(_loader, tests, _pattern):
    """Adds the examples of each module. They see what the package offers, and `Fraction`."""
    shown = {name: getattr(gameshrink, name) for name in gameshrink.__all__} | {"Fraction": Fraction}
    names = [found.name for found in pkgutil.walk_packages(gameshrink.__path__, "gameshrink.") if not found.name.endswith("__main__")]
    for name in ["gameshrink", *names]:
        tests.addTests(doctest.DocTestSuite(importlib.import_module(name), extraglobs=shown))
    return tests


class TestExamples(unittest.TestCase):
    def test_public_names_have_one(self):
        """Each public class and function of the package has an example, in its docstring or in that of a method."""
        finder = doctest.DocTestFinder()
        without = [name for name in gameshrink.__all__ if not any(it.examples for it in finder.find(getattr(gameshrink, name), name))]
        self.assertEqual(without, [])
