"""A page that shows a strategy: what it is worth seat by seat, what it does with each hand, and where it loses."""

from __future__ import annotations

import re
from collections import defaultdict
from collections.abc import Callable, Iterator, Mapping, Sequence
from fractions import Fraction
from pathlib import Path

from .game import Point
from .leaks import Change, Exploit, Habit, Leak, Leaks, Vector, alike, pattern, percent
from .page import Html, bar, el, joined, meter, page, table
from .strategy import Strategy, shares_of
from .texts import decimal, fraction_text, outwards

MOST_HANDS, MOST_LINES, MOST_ROWS, WIDE = 64, 48, 25, 16
MOST_MENDED = 500_000  # deals times ends, above which no way to mend a plan is looked for
LEAST = Fraction(1, 2 * 10**6)  # chips per deal: smaller leaks are added up in one line
TAKEN = ("perfect play", "better here", "gained each time")
KINDS = ("fold", "check", "call", "bet", "raise")
CATEGORIES = {"high": ["any hand"], "pair": ["no pair", "pair"], "three": ["high card", "pair", "flush", "straight", "three alike", "straight flush"]}


def write_report(strategy: Strategy, path: str, name: str, perfect: Strategy | None = None, habits: Mapping[int, Habit | None] | None = None) -> None:
    """Writes the page of a strategy. `perfect` is one near an equilibrium of the same game, with which to say how far it can be exploited, and
    `habits` say by player what is done where a plan never comes."""
    Path(path).write_text(Report(strategy, name, perfect, habits or {}).html(), encoding="utf-8")


def number(x: Fraction, digits: int = 4) -> str:
    """Returns decimals, rounded to the nearest; of a number that is near 0 and not 0, its size."""
    text = decimal(x, digits) if not x or abs(x) >= Fraction(1, 2 * 10**digits) else "%.0e" % float(x)
    return text.replace("-", "\u2212")


def broken(text: str) -> Html:
    """Returns a line or a hand that may be broken behind each round, and whose count of alike hands is small."""
    where, count = text.split(" ", 1) if " (" in text else (text, "")
    parts = (joined([part]) for part in re.split(r"(?<=/)(?=.)", where))
    return joined([Html("<wbr>".join(parts)), el("small", " " + count) if count else ""])


def stated(x: Fraction) -> Html:
    """Returns a number as decimals and, where it is short, as a fraction."""
    text = fraction_text(x).replace("-", "\u2212")
    return joined([number(x, 6), el("span", " = %s" % text, class_="soft") if len(text) <= 15 else ""])


class Report:
    """The page of a strategy."""

    def __init__(self, strategy: Strategy, name: str, perfect: Strategy | None, habits: Mapping[int, Habit | None]):
        self.strategy, self.name, self.game, self.verdict = strategy, name, strategy.game, strategy.judge()
        self.leaks = {player: strategy.leaks(player) for player in (1, 2)}
        self.exploits = {player: Exploit(strategy.plans[player], perfect, habits.get(player)) for player in (1, 2)} if perfect else {}
        self.slack = perfect.judge().gap1 + perfect.judge().gap2 if perfect else Fraction(0)
        for player, leaks in self.leaks.items():
            if (leaks.value, leaks.gap) != (self.verdict.paid(player), self.verdict.gap(player)):
                raise AssertionError("value and gap are %s and %s, and the program says %s" % (leaks.value, leaks.gap, self.verdict))

    def html(self) -> str:
        """Returns the page."""
        title = "%s: %s" % (self.name, self.game.name)
        players = [self.player(player) for player in (1, 2)]
        return page(title, self.head(), el("main", self.numbers(), self.legend(), *players, self.words()), self.foot())

    # ---- the head

    def head(self) -> Html:
        """Returns what the page is of, and its parts."""
        links = {"numbers": "What it is worth", "plays": "How it plays", "player1": "Player 1", "player2": "Player 2", "words": "What the numbers mean"}
        deck = "%d cards: ranks %s, suits %s" % (sum(self.game.copies), " ".join(self.game.stated["ranks"]), " ".join(self.game.stated["suits"]))
        facts = "%s. Ante %d. %d betting points, %d ends." % (deck, self.game.stated["ante"], len(self.game.points), len(self.game.ends))
        nav = el("nav", *(el("a", text, href="#" + to) for to, text in links.items()), aria_label="Parts of this page")
        return el("header", el("h1", "The strategy ", el("span", self.name, class_="mono")), el("p", self.game.name, ". ", facts, class_="soft"), nav)

    def numbers(self) -> Html:
        """Returns value and gaps, and what they say of each seat."""
        said = [
            ("value", self.verdict.value, "what player 1 is paid per deal when the two plans meet"),
            ("gap1", self.verdict.gap1, "what player 1 could still gain against player 2's plan"),
            ("gap2", self.verdict.gap2, "what player 2 could still gain against player 1's plan"),
        ]
        rows = [(el("code", name), stated(it), text) for name, it, text in said]
        exact = [(el("code", name), (fraction_text(it), "left mono")) for name, it, _ in said]
        details: object = ""
        if any(len(fraction_text(it)) > 15 for _, it, _ in said):
            details = el("details", el("summary", "as exact fractions"), table("The same numbers, exact", ("number", "fraction"), exact, "text"))
        head = el("h2", "What it is worth, in chips per deal", id="numbers")
        numbers = table("By gameshrink judge", ("number", "chips per deal", "what it is"), rows, "text")
        return el("section", head, numbers, details, el("div", self.seat(1), self.seat(2), class_="seats"))

    def seat(self, player: int) -> Html:
        """Returns in plain words what a player's plan is worth. What is at least so much is rounded down, what is at most so much up."""
        sure, paid, gap = self.verdict.sure(player), self.verdict.paid(player), self.verdict.gap(player)
        wins = sure >= 0
        big = el("span", outwards(sure, 4)[0] if wins else outwards(-sure, 4)[1], class_="big " + ("good" if wins else "loss"))
        says = [
            el("p", "Whatever the opponent does, it ", "wins at least " if wins else "loses at most ", big, " a deal. Some opponent holds it to that."),
            el(
                "p",
                "Against the plan of seat %d in this file it %s %s." % (3 - player, "wins" if paid >= 0 else "loses", number(abs(paid))),
                " The best answer to that plan would get %s more." % number(gap) if gap else " No answer to that plan gets more.",
            ),
        ]
        if player in self.exploits:
            exploit = self.exploits[player]
            parts = number(exploit.given.gap), number(exploit.taken.gap)
            split = ": %s is given away to perfect play, and %s more is taken by an opponent who adapts to it." % parts
            known = " (Perfect play is known up to %.0e.)" % float(self.slack) if self.slack else ""
            total = el("b", number(exploit.total), class_="loss")
            says.append(el("p", "Perfect play is sure of %s. So this plan's exploitability is " % number(sure + exploit.total), total, split, known))
        return el("section", el("h3", "In seat %d, as player %d" % (player, player)), *says, class_="seat", aria_label="Seat %d" % player)

    def legend(self) -> Html:
        """Returns what the colours of the bars mean."""
        found = defaultdict(set)
        for point in self.game.points:
            for kind, letter in zip(point.kinds, point.moves):
                found[kind].add(letter)
        items = [el("li", el("i", class_=kind), "%s (%s)" % (kind, ", ".join(sorted(found[kind])))) for kind in KINDS if kind in found]
        text = (
            "Each bar shows how often each move is made at a line of the betting with a hand. Red numbers are leaks: the chips per deal that the choice "
            "gives away against the other plan of this file. A pale bar stands where the other plan never leads; a dot, where this plan never comes."
        )
        return el("section", el("h2", "How it plays", id="plays"), el("p", text), el("ul", *items, class_="legend"))

    # ---- a player

    def player(self, player: int) -> Html:
        """Returns all about a player: the matrix of each round, and the ranked leaks."""
        leaks = self.leaks[player]
        parts = [el("h2", "Player %d" % player, id="player%d" % player)]
        parts += [self.round(player, at) for at in range(len(self.game.sizes)) if any(p.player == player and p.round == at for p in self.game.points)]
        parts.append(el("h3", "Where player %d loses against the other plan of this file" % player))
        parts.append(self.summary(leaks))
        if leaks.gap:
            parts.append(self.ranked(leaks, joined(["The places, the greatest leak first. All together are gap%d = " % player, stated(leaks.gap)])))
        parts += self.exploited(player) if player in self.exploits else []
        return el("section", *parts)

    def summary(self, leaks: Leaks) -> Html:
        """Returns how much is lost by kinds of mistakes, and how much the other plan leaves unseen."""
        never, came = leaks.never_met()
        if not leaks.gap:
            return el("p", "Nothing: this plan is a best answer to the other one.")
        if leaks.gap < LEAST:
            return Html("")
        kinds = [(done, (right, "left"), (number(chips, 6), "num"), meter(float(chips / leaks.gap))) for (done, right), chips in leaks.by_mistake()[:8]]
        unseen = "The plan comes to %s places (a line with one hand). " % format(came, ",")
        blind = "To %s of them the other plan never leads, so nothing is lost there." % format(never, ",")
        unseen += blind if never else "The other plan leads to each of them."
        return joined([el("p", unseen), table("By kind of mistake", ("plays", "where this is best", "chips per deal", "share"), kinds, "text")])

    def ranked(self, leaks: Leaks, caption: object, named: tuple[str, str, str] = ("plays", "best", "lost each time")) -> Html:
        """Returns the ranked table of leaks."""
        rows: list[Sequence[object]] = []
        so_far = Fraction(0)
        shown = [leak for leak in leaks.lossy[:MOST_ROWS] if leak.chips >= LEAST]
        for place, leak in enumerate(shown, 1):
            so_far += leak.chips
            share = leak.chips / leaks.gap
            numbers = number(leak.often), number(leak.each), (number(leak.chips, 6), "loss")
            rows.append((str(place), *self.place(leak), *numbers, meter(float(share)), percent(share), percent(so_far / leaks.gap)))
        if not rows:
            return el("p", "Nothing." if not leaks.gap else "Less than 0.0000005 chips per deal at each place.")
        left = len(leaks.lossy) - len(shown)
        note: object = el("p", "%d more place%s: %s together." % (left, "s" * (left > 1), number(leaks.gap - so_far, 6)), class_="soft") if left else ""
        left_head = [(text, "left") for text in ("line", "hands", *named[:2])]
        head = (("", ""), *left_head, "how often", named[2], "chips per deal", ("share", "left"), ("", ""), "so far")
        return joined([table(caption, head, rows), note])

    @staticmethod
    def place(row: Leak | Change) -> list[tuple[object, str]]:
        """Returns the cells of a place's line, hands, play, and what would be right."""
        return [(el("code", row.point.line), "left"), (row.label, "left mono"), (row.plays(), "left"), (row.advice(), "left")]

    def exploited(self, player: int) -> list[Html]:
        """Returns how far a player can be exploited: the two parts, and a way to mend the plan."""
        exploit = self.exploits[player]
        parts = [
            el("h3", "How far player %d can be exploited: %s" % (player, number(exploit.total, 6))),
            el("h4", "1. Given away to perfect play: ", number(exploit.given.gap, 6)),
            self.ranked(exploit.given, "In the plan's own places: lost to anybody who plays well"),
            el("h4", "2. Taken by an opponent who adapts: ", number(exploit.taken.gap, 6)),
            self.ranked(exploit.taken, "In the opponent's places: how an opponent departs from perfect play to exploit this plan", TAKEN),
            el("h4", "3. A way to mend it, one rule at a time"),
        ]
        small = len(self.game.ends) * exploit.given.response.tables.pairs <= MOST_MENDED
        return [*parts, self.mended(exploit) if small else el("p", "This game is large: gameshrink-tools exploit looks for a way.")]

    def mended(self, exploit: Exploit) -> Html:
        """Returns a way to mend a plan."""
        rows: list[Sequence[object]] = [("0", ("as it is", "left"), "", "", "", number(exploit.total), meter(1.0, "left-over"))]
        for step, (new, left) in enumerate(exploit.path(10), 1):
            then = number(left), meter(float(left / exploit.total), "left-over")
            rows += [(str(step), *self.place(change), *(then if change is new[-1] else ("", ""))) for change in new]
        if len(rows) == 1:
            return el("p", "None was found.")
        head = ("step", ("line", "left"), ("hands", "left"), ("plays", "left"), ("play this", "left"), "exploitability then", ("", ""))
        return table("Each step plays one more place as perfect play does: the one that helps most", head, rows)

    # ---- the matrix of a round

    def round(self, player: int, at: int) -> Html:
        """Returns a bar for each line and each group of hands of a round, and what was left out. Few hands stand above, else the lines do."""
        points = [point for point in self.game.points if point.player == player and point.round == at]
        shown = self.most_visited(player, [point for point in points if any(map(any, self.leaks[player].found[point.number].weights))])
        hands, averaged = self.hands(player, at, shown)
        labels, wide = [label for label, _ in hands], [shown[first : first + WIDE] for first in range(0, len(shown), WIDE)]
        tables: list[Html] = []
        for part in [shown] if len(hands) <= WIDE else wide:
            cells = [[self.cell(player, point, members) for _, members in hands] for point in part]
            lines = [el("code", point.line if len(hands) <= WIDE else broken(point.line)) for point in part]
            caption = "Player %d in round %d, at each line with each hand" % (player, at + 1)
            caption += ": averages over the hands of a label, by how often they come there" if averaged else ""
            caption += " (continued)" if tables else ""
            if len(hands) <= WIDE:
                tables.append(table(caption, ["line", *map(broken, labels)], [[line, *row] for line, row in zip(lines, cells)], "matrix"))
            else:
                tables.append(table(caption, ["hand", *lines], [[label, *row] for label, row in zip(labels, zip(*cells))], "matrix"))
        out = [point.line for point in points if point not in shown]
        more = " and %d more" % (len(out) - 12) if len(out) > 12 else ""
        left = el("p", "Left out, since the plan comes there never or least often: ", el("code", ", ".join(out[:12])), more, class_="soft") if out else ""
        return joined([el("h3", "Round %d" % (at + 1)), *tables, left])

    def most_visited(self, player: int, points: list[Point]) -> list[Point]:
        """Returns the points of a matrix, those that are met most often if there are too many."""
        often = {point.number: sum(self.leaks[player].found[point.number].visits) for point in points}
        kept = set(sorted(often, key=lambda it: -often[it])[:MOST_LINES])
        return [point for point in points if point.number in kept]

    def hands(self, player: int, at: int, points: list[Point]) -> tuple[list[tuple[str, list[int]]], bool]:
        """Returns the hands of a round's matrix in groups with labels, the finest that fit, and whether hands of a group play apart."""
        found = [list(zip(*self.leaks[player].found[point.number].weights)) for point in points]
        signals = range(len(self.game.signals[at]))
        kinds = {it: tuple(tuple(shares_of(weights[it])) if any(weights[it]) else None for weights in found) for it in signals}
        exact = alike(self.game, at, kinds)
        if len(exact) <= MOST_HANDS:
            return exact, False
        groups: dict[str, list[int]] = {}
        for key in self.coarser(at):
            groups = defaultdict(list)
            for it in signals:
                groups[key(it)].append(it)
            if len(groups) <= MOST_HANDS:
                break
        return list(groups.items()), True

    def coarser(self, at: int) -> Iterator[Callable[[int], str]]:
        """Yields ever coarser labels of a round's signals: the ranks, in the last round the category, the ranks of the first round."""
        texts, game = self.game.texts[at], self.game
        yield lambda signal: pattern(texts[signal])
        if at + 1 == len(game.sizes):
            names = CATEGORIES[game.stated["ranking"]]
            yield lambda signal: names[game.strength(game.signals[at][signal])[0]]
        yield lambda signal: pattern(texts[signal].split("/")[0]) + ".."

    def cell(self, player: int, point: Point, members: list[int]) -> object:
        """Returns what a player does at a line with some hands, and what is lost there."""
        leaks = self.leaks[player]
        weights, _, lost, visits = leaks.found[point.number]
        own = [sum(weight[it] for it in members) for weight in weights]
        if not any(own):
            return el("span", "\u00b7", title="the plan never comes here"), "never"
        often = sum(visits[it] for it in members)
        shares = self.met(point, weights, visits, members) if often else shares_of(own)
        parts = [(letter, kind, float(share)) for letter, kind, share in zip(point.moves, point.kinds, shares)]
        text = " ".join("%s\u00a0%s" % (letter, percent(share)) for letter, share in zip(point.moves, shares) if share)
        chips = Fraction(sum(lost[it] for it in members), leaks.scale)
        leak = el("small", "\u2212" + decimal(chips, 4), class_="lost") if chips >= Fraction(1, 20000) else ""
        return joined([bar(parts), el("small", text), leak]), "" if often else "unmet"

    @staticmethod
    def met(point: Point, weights: list[Vector], visits: Vector, members: list[int]) -> list[Fraction]:
        """Returns the shares of the moves over some hands, by how often these come to a point."""
        shares = [Fraction(0)] * len(point.moves)
        for it in members:
            if visits[it]:
                shares = [share + visits[it] * own for share, own in zip(shares, shares_of([weight[it] for weight in weights]))]
        return [share / sum(shares) for share in shares]

    # ---- the end

    def words(self) -> Html:
        """Returns what the numbers mean."""
        rows = [
            ("line", "the moves so far, with a / for each round that has begun"),
            ("hands", "a hand has a part for each round, public cards after +; ? is any suit; N alike: N hands that an exchange of suits makes of one"),
            ("how often", "how often per deal the line is reached with these hands, both plans and the cards counted"),
            ("lost each time", "the best worth of a move here, with best play behind it, minus what the plan's mixture of moves is worth in the same way"),
            ("chips per deal", "how often times lost each time: the leak. All leaks of a player add up exactly to the player's gap"),
            ("exploitability", "what perfect play is sure of per deal, minus what this plan is sure of"),
        ]
        warn = (
            "A leak is measured against one opponent, with best play behind the choice. The list is no list of repairs: changing one place alone may "
            "harm against others. What a changed plan is worth, judge tells."
        )
        return el("section", el("h2", "What the numbers mean", id="words"), table("Words", ("word", "meaning"), rows, "text prose"), el("p", warn))

    def foot(self) -> Html:
        """Returns where the numbers come from."""
        checked = "; that the leaks add up to them was checked. The page itself is not proved. All numbers are exact fractions, rounded here."
        return el("footer", el("p", "Made by gameshrink-tools report. Value and gaps are those of ", el("code", "gameshrink judge"), checked))
