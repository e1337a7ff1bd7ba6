"""Looks whether what the program printed is true, by brute force over all deals of raw cards, with recheck of the package; `storm` uses it.

It shares no code with the program. Games of more than a set number of deals times ends, or of more than 5,000 ways to deal, are left out and counted.
"""

import json
import re
from collections import Counter
from fractions import Fraction
from math import comb

from gameshrink.game import signal_text
from gameshrink.texts import fraction_text

NAMES = ("value", "gap1", "gap2")
MOST_WAYS = 5000
# the refusals of a certificate that speak of its numbers
OF_NUMBERS = re.compile(rb"bad certificate: player [12] (low|bound found) ")


def ways(stored):
    """Returns in how many ways the physical cards of a stored game can be dealt."""
    left, found = sum(map(int, stored["copies"])), 1
    for one in stored["rounds"]:
        for size in (one["private"], one["private"], one["public"]):
            found *= comb(left, size)
            left -= size
    return found


def cards_of(game):
    """Returns the texts of a game's cards in their order."""
    return [rank + suit for rank in game["ranks"] for suit in game["suits"]]


def first_unlike(game, table, classes):
    """Returns the round and the texts of the first member of a class and of the first signal that is unlike it, or None."""
    last = len(table.signals) - 1
    for at, signals in enumerate(table.signals):
        met = {signal: Counter() for signal in signals}
        for (one, two), weight in table.deals.items():
            winner, bonus = table.won[one, two]
            outcome = 0 if at < last or not winner else bonus if winner == 1 else -bonus
            met[one[: at + 1]][classes[at][table.number[at][two[: at + 1]]], outcome] += weight
        children = {signal: Counter() for signal in signals}
        for child in table.signals[at + 1] if at < last else ():
            children[child[: at + 1]][classes[at + 1][table.number[at + 1][child]]] += 1
        first = {}
        for signal in signals:
            member = first.setdefault(classes[at][table.number[at][signal]], signal)
            if met[signal] != met[member] or children[signal] != children[member]:
                return f"round {at + 1} {signal_text(cards_of(game), member)} {signal_text(cards_of(game), signal)}"
    return None


class Truth:
    """Checks printed texts. `most` is the greatest number of deals times ends of a game that is looked at."""

    def __init__(self, recheck, most):
        self.recheck, self.most = recheck, most
        self.looked, self.left = Counter(), Counter()
        self.tables, self.verdicts = {}, {}
        self.new_table = recheck.Table
        # each strategy of a game takes the same table, which nothing changes
        recheck.Table = self.table

    def table(self, game):
        """Returns the deals and signals of a stored game, made once."""
        key = json.dumps(game, sort_keys=True)
        if key not in self.tables:
            if len(self.tables) > 200:
                self.tables.clear()
            self.tables[key] = self.new_table(game)
        return self.tables[key]

    def fits(self, game):
        """Whether a stored game is small enough to be looked at."""
        if ways(game) > MOST_WAYS:
            return False
        ends = sum(it.kind != "point" for it in self.positions(game))
        return len(self.table(game).deals) * ends <= self.most

    def positions(self, game):
        """Returns all points and ends of a stored game's betting."""
        found = [self.betting(game).start]
        for it in found:
            found.extend(it.moves)
        return found

    def betting(self, game):
        return self.recheck.Betting([it["tree"] for it in game["rounds"]], game["ante"])

    def strategy_of(self, one, two=None):
        """Returns the strategy of a file, or player 1's plan of one file against player 2's of another, each over its own classes."""
        pair = self.recheck.Strategy(one)
        if two:
            sides = {1: self.recheck.Strategy(one), 2: self.recheck.Strategy(two)}
            pair.total = {player: side.total[player] for player, side in sides.items()}
            pair.weight_of = lambda player, deal, node: sides[player].weight_of(player, deal, node)
        return pair

    def verdict(self, one, two=None):
        """Returns the value and both gaps of the two plans."""
        key = json.dumps([one["game"], one["classes"], one["player1"], (two or one)["classes"], (two or one)["player2"]], sort_keys=True)
        if key not in self.verdicts:
            if len(self.verdicts) > 2000:
                self.verdicts.clear()
            self.verdicts[key] = self.strategy_of(one, two).verdict()
        return self.verdicts[key]

    def unlike(self, file):
        """Returns the first unlike pair of a file's classes as the program tells it, or None."""
        return first_unlike(file["game"], self.table(file["game"]), file["classes"])

    def count(self, name, file):
        """Says whether the game of a file is small enough, and counts the look."""
        fits = self.fits(file["game"])
        (self.looked if fits else self.left)[name] += 1
        return fits

    # ---- what is wrong with a text, or None

    def strategy(self, name, data):
        """Looks at a strategy file that the program printed or confirmed: lossless classes, and its three numbers."""
        file = json.loads(data)
        if not self.count(name, file):
            return None
        for it, number in zip(NAMES, self.verdict(file)):
            if file[it] != fraction_text(number):
                return f"{it} {file[it]} is {fraction_text(number)} by brute force"
        unlike = self.unlike(file)
        return f"classes are unlike: {unlike}" if unlike else None

    def solved(self, data):
        """Looks at what `solve` printed: nobody gains anything."""
        wrong = self.strategy("solve", data)
        file = json.loads(data)
        return wrong or (None if file["gap1"] == file["gap2"] == "0/1" else "gaps of a solution are not 0")

    def lines(self, name, data, out):
        """Looks at the lines that `evaluate`, `judge` or `duel` printed of one or two files."""
        files = [json.loads(it) for it in (data.split(b"\n")[:2] if name == "duel" else [data])]
        if not self.count(name, files[0]):
            return None
        wanted = [f"{it} {fraction_text(number)}" for it, number in zip(NAMES, self.verdict(*files))]
        if name == "duel":
            wanted += self.hands(*files)
        return None if out.decode().splitlines() == wanted else f"printed {out[:200]!r}, by brute force {wanted}"

    def hands(self, one, two):
        """Returns the lines of what each raw signal of round 1 is worth to player 1."""
        pair, game = self.strategy_of(one, two), one["game"]
        ends = [it for it in self.positions(game) if it.kind != "point"]
        worth, weights = Counter(), Counter()
        for deal, weight in pair.table.deals.items():
            hand = deal[0][:1]
            weights[hand] += weight
            worth[hand] += weight * sum(pair.paid(1, deal, it) * pair.weight_of(1, deal, it) * pair.weight_of(2, deal, it) for it in ends)
        totals = pair.total[1] * pair.total[2]
        cards = cards_of(game)
        return [f"hand {signal_text(cards, it)} {fraction_text(Fraction(worth[it], weights[it] * totals))}" for it in pair.table.signals[0]]

    def fault_of(self, strategy, certificate):
        """Returns the first fault of a certificate with as many numbers as it should have, or None."""
        for player in (1, 2):
            stated = certificate[f"player{player}"]
            try:
                found = strategy.bound(player, stated["values"])
            except ValueError as fault:
                return str(fault)
            if fraction_text(found) != stated["bound"]:
                return f"player {player} bound found {fraction_text(found)}"
        return None

    def certified(self, name, data, tight):
        """Looks at a strategy and a certificate that is said to hold; a tight one has the bounds that a plan reaches."""
        file, certificate = (json.loads(it) for it in data.split(b"\n")[:2])
        if not self.count(name, file):
            return None
        wrong = self.fault_of(self.strategy_of(file), certificate)
        if wrong:
            return wrong
        value, gap1, gap2 = self.verdict(file)
        for player, reached in (("player1", value + gap1), ("player2", gap2 - value)):
            bound = Fraction(certificate[player]["bound"])
            if bound < reached or tight and bound != reached:
                return f"the bound of {player} is {bound}, and a plan reaches {reached}"
        return None

    def verified(self, data, out):
        """Looks at what `verify` printed of two lines."""
        wrong = self.certified("verify", data, False)
        file, certificate = (json.loads(it) for it in data.split(b"\n")[:2])
        if wrong or not self.fits(file["game"]):
            return wrong
        wanted = [f"value {fraction_text(self.verdict(file)[0])}"] + [f"player{it} at most {certificate[f'player{it}']['bound']}" for it in (1, 2)]
        return None if out.decode().splitlines() == wanted else f"printed {out[:200]!r}, by brute force {wanted}"

    def refused(self, status, data, err):
        """Looks at what a refusal says of a strategy that was read: an unlike pair, a wrong number, a number of a table that is too low, a bound."""
        told = err.decode().rstrip("\n")
        lines = data.split(b"\n")
        file = json.loads(lines[0])
        if not self.count(f"refused with {status}", file):
            return None
        if status == 8:
            found = f"unlike: {self.unlike(file)}"
        elif status == 13:
            found = next((f"wrong numbers: {it} {file[it]} found {fraction_text(number)}" for it, number in zip(NAMES, self.verdict(file)) if file[it] != fraction_text(number)), None)
        else:
            found = f"bad certificate: {self.fault_of(self.strategy_of(file), json.loads(lines[1]))}"
        return None if told == found else f"told {told!r}, by brute force {found!r}"
