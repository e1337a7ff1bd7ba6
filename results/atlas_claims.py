"""What the atlas shows: sentences, each with the rows that carry it. Every number in them is worked out from the rows."""

from fractions import Fraction

import abstraction_pages
from atlas_games import PLAYED, name_of
from gameshrink.texts import decimal, outwards, span

NAMES = {"kuhn": "Kuhn", "leduc": "Leduc", "rhode": "Rhode Island"}


def low(row):
    return row.value - row.gap2


def high(row):
    return row.value + row.gap1


def named(deck):
    return "%s %d/%d/%d" % (NAMES[deck[0]], *deck[1:])


def grouped(decks):
    """Returns decks as a text, the caps of one deck together."""
    groups = {}
    for deck in decks:
        groups.setdefault(deck[:3], []).append(deck[3])
    return ", ".join("%s %d/%d/%s" % (NAMES[kind], ranks, suits, span(caps).replace(", ", " and ")) for (kind, ranks, suits), caps in groups.items())


def ends(rows):
    """Returns the least and the greatest value of rows, rounded outwards, with the decks that have them."""
    least, most = min(rows, key=lambda deck: low(rows[deck])), max(rows, key=lambda deck: high(rows[deck]))
    return rows[least].lower(5), named(least), rows[most].upper(5), named(most)


def favoured(rows):
    """Who is favoured."""
    even = [deck for deck, row in rows.items() if row.is_exact() and row.value == 0]
    below = [deck for deck, row in rows.items() if high(row) < 0]
    above = [deck for deck, row in rows.items() if low(row) > 0]
    left = [deck for deck in rows if deck not in even + below + above]
    yield "Player 2, who acts second, is favoured in %d of the %d games besides Kuhn's: the upper bound is below 0." % (len(below), len(rows)), "all rows below but those of the next lines"
    if above:
        yield "Player 1 is favoured in %d: the lower bound is above 0." % len(above), grouped(above)
    else:
        yield "Player 1 is favoured in none: no lower bound is above 0.", "all rows below"
    yield "%d games are even: value and both gaps are exactly 0." % len(even), grouped(even)
    if left:
        known = ", and the exact solver finds 0" if all(rows[deck].exact() == "0" for deck in left) else ""
        yield "In %d game%s a bracket wider than 0 contains 0%s." % (len(left), "s" * (len(left) > 1), known), grouped(left)


def of(rows, kind, test):
    return {deck: row for deck, row in rows.items() if deck[0] == kind and test(*deck[1:])}


def ranges(rows):
    """Between which numbers the values lie."""
    for kind, text, test in (
        ("leduc", "Leduc of three or more ranks and two or more suits", lambda r, s, c: r >= 3 and s >= 2),
        ("leduc", "Leduc of eight or more ranks and two or more suits", lambda r, s, c: r >= 8 and s >= 2),
        ("leduc", "Leduc of one suit, where nobody can pair, and four or more ranks", lambda r, s, c: r >= 4 and s == 1),
        ("rhode", "Rhode Island of three or more ranks", lambda r, s, c: r >= 3),
    ):
        chosen = of(rows, kind, test)
        if chosen:
            least, a, most, b = ends(chosen)
            yield "%s is worth from %s to %s chips a deal, rounded outwards." % (text, least, most), "%d rows; the least is that of %s, the greatest that of %s" % (len(chosen), a, b)


def change(rows, kind, at, now):
    """Returns what happens to the value of a kind's decks of three or more ranks when number `at` of the deck grows by one to `now`."""
    moved = lambda deck: (*deck[:at], now - 1, *deck[at + 1 :])  # noqa: E731
    decks = [deck for deck in rows if deck[0] == kind and deck[1] >= 3 and deck[at] == now and moved(deck) in rows]
    pairs = {deck: (rows[moved(deck)], rows[deck]) for deck in decks}
    fall = [deck for deck, (before, after) in pairs.items() if high(after) < low(before)]
    rise = [deck for deck, (before, after) in pairs.items() if low(after) > high(before)]
    same = [deck for deck, (before, after) in pairs.items() if deck not in fall + rise and before.exact() and before.exact() == after.exact()]
    size = {deck: abs(after.value - before.value) for deck, (before, after) in pairs.items()}
    return decks, fall, rise, same, max(decks, key=size.get) if decks else None, size


def by_suits(decks):
    """Returns decks of one kind and one cap as a text, the ranks of as many suits together."""
    groups = {}
    for deck in decks:
        groups.setdefault(deck[2], []).append(deck[1])
    return ", ".join("%d suit%s with %s ranks" % (suit, "s" * (suit > 1), span(found).replace(", ", " and ")) for suit, found in sorted(groups.items()))


def rarer(fall, rise, same, at):
    """Returns which decks move as fewer decks do, and which do not move, as the beginning of a text; `at` is the number that has changed."""
    few, word = min((rise, "rises"), (fall, "falls"), key=lambda pair: len(pair[0]))
    listed = by_suits if at == 3 else grouped
    parts = ["it %s in %s" % (word, listed(few))] if few else []
    parts += ["it stays in %s" % listed(same)] if same else []
    return "".join(part + "; " for part in parts)


def changes(rows, kind, at, name, steps):
    """Returns a sentence for each step of suits or of the cap."""
    for now in steps:
        decks, fall, rise, same, most, size = change(rows, kind, at, now)
        if decks:
            left = len(decks) - len(fall) - len(rise) - len(same)
            text = "From %s the value of %s falls in %d of %d decks of three or more ranks and rises in %d"
            text %= name % (now - 1, now), NAMES[kind], len(fall), len(decks), len(rise)
            text += "; in %d the brackets overlap and the exact values are equal" % len(same) if same else ""
            text += "; in %d the brackets overlap" % left if left else ""
            yield text + ".", "%sthe largest change, %s chips, is that of %s" % (rarer(fall, rise, same, at), decimal(size[most], 4), named(most))


def suits(rows):
    """How the value moves with one suit more."""
    yield from changes(rows, "leduc", 2, "%d to %d suits", (2, 3, 4))
    yield from changes(rows, "rhode", 2, "%d to %d suits", (3, 4))


def caps(rows):
    """How the value moves with one raise more."""
    yield from changes(rows, "leduc", 3, "cap %d to cap %d", (2, 3, 4))
    yield from changes(rows, "rhode", 3, "cap %d to cap %d", (2, 3))


def ranks(rows):
    """How the value moves with the ranks."""
    mixed, whole = [], []
    for suit in range(1, 5):
        for cap in range(1, 5):
            line = sorted(of(rows, "leduc", lambda r, s, c: r >= 3 and (s, c) == (suit, cap)))
            pairs = [(rows[a], rows[b]) for a, b in zip(line, line[1:])]
            fall, rise = any(high(b) < low(a) for a, b in pairs), any(low(b) > high(a) for a, b in pairs)
            whole += [(suit, cap)] if pairs else []
            mixed += [(suit, cap)] if fall and rise else []
    if whole:
        others = ", ".join("%d suit%s with cap %d" % (suit, "s" * (suit > 1), cap) for suit, cap in whole if (suit, cap) not in mixed)
        text = "As ranks are added one by one, the value of Leduc rises at some steps and falls at others for %d of %d pairs of suits and cap."
        yield text % (len(mixed), len(whole)), "all but %s" % others if others else "Leduc's rows of three or more ranks"


def isomorphism():
    """What the isomorphism classes cost, by docs/abstraction, and what the equilibrium of docs/atlas/isomorphism.csv loses."""
    costs, secured, games = abstraction_pages.costs(), abstraction_pages.example_losses(), abstraction_pages.lossy_games()
    alike = [deck for deck, is_lossy in games.items() if not is_lossy and deck in secured]
    lossy = [deck for deck, is_lossy in games.items() if is_lossy]
    assert all(-sum(secured[deck].values()) < Fraction(1, 10**9) for deck in alike), "lossless classes lose"
    yield "Isomorphism costs nothing where its classes are lossless: both gaps on raw cards are below 10^-9 in the %d such games of isomorphism.csv." % len(alike), grouped(alike)
    prices = {deck: [costs[deck].row.most("price", seat) for seat in "12"] for deck in lossy if deck in costs}
    free = [deck for deck in prices if max(prices[deck]) < abstraction_pages.NOTHING]
    cost = [deck for deck in prices if deck not in free]
    yield "In %d games the classes are lossy. In %d of these they cost neither seat anything all the same." % (len(lossy), len(free)), "%s; [ABSTRACTION.md](ABSTRACTION.md) has plans with gaps of 0" % grouped(free)
    least, most = min(cost, key=lambda deck: min(prices[deck])), max(cost, key=lambda deck: max(prices[deck]))
    text = "In the other %d that are priced a seat pays from %s to %s chips a deal, rounded outwards."
    yield text % (len(cost), outwards(min(prices[least]), 4)[0], outwards(max(prices[most]), 4)[1]), "%s has the least, %s the most" % (named(least), named(most))
    times = {deck: sum(costs[deck].loses(seat) for seat in "12") / sum(prices[deck]) for deck in cost}
    least, most = min(cost, key=times.get), max(cost, key=times.get)
    text = "One equilibrium over these classes, taken as the solver found it, loses %s to %s times the price, both seats together."
    yield text % (outwards(times[least], 1)[0], outwards(times[most], 1)[1]), "%s has the least, %s the most; others may lose more or less" % (named(least), named(most))
    for suit in (2, 4):
        line = sorted(deck for deck in cost if deck[0] == "leduc" and deck[2:] == (suit, 2))
        if line:
            shown = {deck: " and ".join(outwards(price, 4)[1] for price in prices[deck]) for deck in (line[0], line[-1])}
            text = "For Leduc of %d suits and cap 2 the seats pay %s at %d ranks and %s at %d."
            yield text % (suit, shown[line[0]], line[0][1], shown[line[-1]], line[-1][1]), "%s and %s" % (named(line[0]), named(line[-1]))


def play(cache):
    """How fast the gaps fall with turns of play."""
    records = {deck: cache.record("play_" + name_of(deck)) or {} for deck in PLAYED}
    both = {deck: {int(n): Fraction(one) + Fraction(two) for n, (_, one, two) in record["turns"].items()} for deck, record in records.items() if "turns" in record}
    if both:
        factors = [found[10**k] / found[10 ** (k + 1)] for found in both.values() for k in (3, 4, 5)]
        text = "From 1,000 turns of `play` on, ten times as many turns divide the sum of both gaps by %s to %s."
        yield text % (outwards(min(factors), 1)[0], outwards(max(factors), 1)[1]), "%s, up to 1,000,000 turns; [gaps_by_turns.csv](atlas/gaps_by_turns.csv)" % ", ".join(map(named, both))


def items(found):
    """Returns sentences as the lines of a list."""
    return ["- %s *(%s)*" % sentence for sentence in found]


def claims(rows, cache):
    """Returns the lines of the section; `rows` are those of Leduc and Rhode Island."""
    before = items([*favoured(rows), *ranges(rows), *ranks(rows), *suits(rows), *caps(rows)])
    return [*before, "", *abstraction_pages.block("isomorphism", items(isomorphism())), "", *items(play(cache))]
