"""Tests of the pages that `report` writes."""

import random
import tempfile
import unittest
from html.parser import HTMLParser
from pathlib import Path

from gameshrink import Strategy, solve

from .cases import BLIND, GAMES, LOOSE, PROGRAM, drawn


class Page(HTMLParser):
    """Keeps what is open, and what a page has."""

    def __init__(self, text):
        super().__init__()
        self.open, self.tags, self.scopes = [], [], []
        self.feed(text)

    def handle_starttag(self, tag, attrs):
        self.tags.append(tag)
        if tag == "th":
            self.scopes.append(dict(attrs).get("scope"))
        if tag not in ("meta", "wbr"):
            self.open.append(tag)

    def handle_endtag(self, tag):
        assert self.open.pop() == tag, tag


class TestReport(unittest.TestCase):
    def test_page(self):
        perfect = solve(Strategy.parse(LOOSE).game, program=PROGRAM)
        rng = random.Random(10)
        some = [drawn(rng, GAMES[name]) for name in ("leduc", "rhode", "trees")]
        for strategy, other in [(Strategy.parse(LOOSE), perfect), (Strategy.parse(BLIND), None), *((it, None) for it in some)]:
            with tempfile.TemporaryDirectory() as folder:
                path = Path(folder, "page.html")
                strategy.report(path, "a <b> & c", other)
                text = path.read_text(encoding="utf-8")
            page = Page(text)
            self.assertEqual(page.open, [])
            self.assertEqual(page.tags.count("table"), page.tags.count("caption"))
            self.assertLessEqual(set(page.scopes), {"col", "row"})
            self.assertIn("a &lt;b&gt; &amp; c", text)
            for outside in ("<script", "http:", "https:", "src=", "url(", "@import"):
                self.assertNotIn(outside, text)
