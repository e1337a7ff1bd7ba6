"""The parts of an HTML page: elements, tables with header cells, bars, and the style sheet. No script, nothing from the network."""

from __future__ import annotations

import re
from collections.abc import Iterable, Sequence
from html import escape, unescape
from importlib.resources import files

HEAD = """<!doctype html>
<html lang="en"><head><meta charset="utf-8"><meta name="viewport" content="width=device-width, initial-scale=1">
<meta name="color-scheme" content="light dark"><title>%s</title><style>
%s</style></head>
<body>
%s
</body></html>
"""


class Html(str):
    """A text that is HTML already."""


def el(tag: str, *inside: object, **attributes: object) -> Html:
    """Returns an element. What is no `Html` is escaped. In an attribute's name `_` becomes `-`, and is dropped at the end.

    >>> el("p", "1 < 2", class_="soft")
    '<p class="soft">1 &lt; 2</p>'
    """
    names = {name: name.rstrip("_").replace("_", "-") for name, value in attributes.items() if value}
    written = "".join(' %s="%s"' % (names[name], escape(str(attributes[name]))) for name in names)
    return Html("<%s%s>%s</%s>" % (tag, written, joined(inside), tag))


def joined(parts: Iterable[object]) -> Html:
    """Returns parts one after the other; what is no `Html` is escaped."""
    return Html("".join(part if isinstance(part, Html) else escape(str(part)) for part in parts))


def table(caption: object, head: Sequence[object], rows: Iterable[Sequence[object]], kind: str = "", header: int = 0) -> Html:
    """Returns a table; the column `header` of each row is its header cell. A cell, of the head too, may be a pair of content and class. A column
    whose head is empty has a plain cell there."""

    def cell(tag: str, content: object, scope: str = "") -> Html:
        inside, of = content if isinstance(content, tuple) else (content, "")
        return el(tag, inside, scope=scope, class_=of)

    body = [el("tr", *(cell("th", it, "row") if column == header else cell("td", it) for column, it in enumerate(row))) for row in rows]
    heads = el("tr", *(cell("td", it) if it == ("", "") else cell("th", it, "col") for it in head))
    whole = el("table", el("caption", el("span", caption, class_="whole")), el("thead", heads), el("tbody", *body), class_=kind)
    name = unescape(re.sub("<[^>]*>", "", caption if isinstance(caption, Html) else escape(str(caption))))
    return el("div", whole, class_="wide", tabindex="0", role="region", aria_label=name)


def bar(parts: Sequence[tuple[str, str, float]]) -> Html:
    """Returns a stacked bar of letters, kinds of moves, and shares. It is hidden from readers that speak: the numbers stand beside it."""
    cells = (el("i", letter if share >= 0.2 else "", class_=kind, style="width:%.2f%%" % (100 * share)) for letter, kind, share in parts if share)
    return el("span", *cells, class_="bar", aria_hidden="true")


def meter(share: float, kind: str = "") -> Html:
    """Returns a bar of one part."""
    return el("span", el("i", style="width:%.1f%%" % (100 * min(max(share, 0), 1))), class_=("meter " + kind).strip(), aria_hidden="true")


def page(title: str, *inside: Html) -> str:
    """Returns a whole page."""
    style = files(__package__).joinpath("page.css").read_text(encoding="ascii")
    return HEAD % (escape(title), style, "\n".join(inside))
