"""The tables, findings and pictures of docs/ABSTRACTION.md, from the CSV files of docs/abstraction.

The document has a pair of lines for each block, `<!-- NAME -->` and `<!-- end -->`; what stands between them is written here, the rest by hand. The
blocks of docs/ATLAS.md about prices have such lines too.
"""

import csv
import re
import subprocess
from dataclasses import dataclass
from fractions import Fraction
from itertools import combinations
from pathlib import Path

from gameshrink import Game, Program
from gameshrink.classes import by_rules, refines
from gameshrink.program import CHECKOUT
from gameshrink.texts import decimal, number, outwards, small, span, table

FOLDER = CHECKOUT / "docs" / "abstraction"
ATLAS = CHECKOUT / "docs" / "atlas"
NAMES = {"leduc": "Leduc", "rhode": "Rhode Island"}
SEATS = ("1", "2")
NOTHING = Fraction(1, 10**8)  # below this a price is shown as 0
CLEAR = Fraction(1, 10**6)  # by so much a number must fall to be counted
WIDEST = Fraction(1, 10**9)


class Row:
    """A row of a CSV file: its cells by name, numbers as fractions, nothing where a cell is empty."""

    def __init__(self, cells):
        self.cells = cells
        self.deck = (cells["kind"], *(int(cells[key]) for key in ("ranks", "suits", "cap")))
        self.rules, self.classes = cells["rules"].split(" / "), [int(count) for count in cells["classes"].split()]

    def __getitem__(self, name):
        return Fraction(self.cells[name]) if self.cells[name] else None

    @property
    def name(self):
        return "%s %d/%d/%d" % (NAMES[self.deck[0]], *self.deck[1:])

    def least(self, name, seat):
        return self["%s%s_at_least" % (name, seat)]

    def most(self, name, seat):
        return self["%s%s_at_most" % (name, seat)]

    def worth(self, seat):
        """Returns the middle of what the game is worth to a seat, which is known to a few units in 10^11."""
        middle = (self["value_at_least"] + self["value_at_most"]) / 2
        return middle if seat == "1" else -middle


def rows_of(name):
    path = FOLDER / (name + ".csv")
    if not path.exists():
        return []
    with open(path, encoding="ascii", newline="") as file:
        return [Row(cells) for cells in csv.DictReader(file)]


def atlas_rows(name):
    """Returns the rows of a CSV file of docs/atlas by game."""
    with open(ATLAS / name, encoding="ascii", newline="") as file:
        return {(row["kind"], *(int(row[key]) for key in ("ranks", "suits", "cap"))): row for row in csv.DictReader(file)}


def lossy_games():
    """Returns whether the isomorphism classes are lossy, for each game of the atlas that has a value, without Kuhn's."""
    rows = {deck: row for deck, row in atlas_rows("games.csv").items() if deck[0] != "kuhn" and row["value"]}
    return {deck: row["isomorphic_classes"] != row["lossless_classes"] for deck, row in rows.items()}


# ---- cells


def up(x):
    """Returns a cost of at least 0 with seven digits, rounded up."""
    return "" if x is None else "0" if abs(x) < NOTHING else outwards(x, 7)[1]


def down(x):
    """Returns a cost of at least 0 with seven digits, rounded down."""
    return "" if x is None else "0" if abs(x) < NOTHING else outwards(x, 7)[0]


def rules_text(rules):
    """Returns the rules of a row; those that differ in the last number alone share a text."""
    groups = {}
    for rule in rules:
        head, last = re.fullmatch(r"(.*?)(\d*)", rule).groups() if "=" in rule and rule[-1].isdigit() else (rule, "")
        groups.setdefault(head, []).append(last)
    return ", ".join("`%s%s`" % (head.replace("|", "\\|"), span(map(int, found)) if found[0] else "") for head, found in groups.items())


def lost(row, name, seat):
    """Returns how much less than the value of the game is secured: by an equilibrium as it was found, and by each equilibrium at least."""
    secured = row["abstract" + seat] if name == "abstract" else row.most("kindest", seat)
    return None if secured is None else row.worth(seat) - secured


# ---- blocks


def price_table(rows, deck):
    rows = sorted((row for row in rows if row.deck == deck), key=lambda row: -sum(row.most("price", seat) for seat in SEATS))
    head = ["rules", "classes", "price 1", "price 2", "equilibrium 1", "equilibrium 2", "kindest 1", "kindest 2"]
    cells = []
    for row in rows:
        found = [up(row.most("price", seat)) for seat in SEATS]
        found += [down(lost(row, name, seat)) for name in ("abstract", "kindest") for seat in SEATS]
        cells.append([rules_text(row.rules), ", ".join(map(str, row.classes)), *found])
    return table(head, cells)


def isomorphism_table(rows):
    head = ["game", "classes", "price 1", "price 2", "kindest 1", "kindest 2"]
    cells = []
    for row in sorted(rows, key=lambda row: row.deck):
        found = [up(row.most("price", seat)) for seat in SEATS] + [down(lost(row, "kindest", seat)) for seat in SEATS]
        cells.append([row.name, ", ".join(map(str, row.classes)), *found])
    return table(head, cells)


def exact_table(rows):
    head = ["game", "rules", "seat", "the best plan secures", "the kindest equilibrium secures"]
    cells = []
    for row in rows:
        for seat in SEATS:
            cells.append([row.name, rules_text(row.rules), seat, *(fraction(row[name + seat]) for name in ("best", "kindest"))])
    return table(head, cells)


def fraction(x):
    """Returns a fraction with its decimals; one of more than 40 characters as decimals alone."""
    text = decimal(x, 10)
    return text if x and len(str(x)) > 40 else str(x) if x.denominator == 1 else "%s = %s" % (x, text)


def groups(row):
    """Returns the two partitions of a row of the lattice as sets of sets."""
    return [frozenset(frozenset(group.split(",")) for group in text.split("|")) for text in row.cells["rules"].split()]


def within(fine, coarse):
    return all(any(group <= other for other in coarse) for group in fine)


def merges(row):
    """Yields the abstractions that merge two classes of a row: of round 2 below one class of round 1, or of round 1."""
    first, second = groups(row)
    for one, two in combinations(second, 2):
        if len({group for group in first for pair in one | two if pair[0] in group}) == 1:
            yield first, second - {one, two} | {one | two}
    for one, two in combinations(first, 2):
        yield first - {one, two} | {one | two}, second


def rises(pairs, seat):
    """Returns how often the price rises from a coarser to a finer abstraction, by the brackets."""
    return sum(fine.most("best", seat) < coarse.least("best", seat) for coarse, fine in pairs)


def falls(pairs, seat, before, after):
    """Returns the pairs in which each equilibrium of the finer abstraction secures less than one of the coarser; `before` tells which."""
    return [pair for pair in pairs if before(pair[0], seat) - after(pair[1], seat) > CLEAR]


def kindest(row, seat):
    return row.least("kindest", seat)


def found(row, seat):
    return row["abstract" + seat]


def most_kind(row, seat):
    return row.most("kindest", seat)


def refinements(rows):
    """Returns the pairs of a coarser and a finer abstraction among the rows of each game of the tables."""
    pairs = []
    for deck in {row.deck for row in rows}:
        game = Game.read(CHECKOUT / "examples" / "leduc.toml") if deck == ("leduc", 3, 2, 2) else Game.made(*deck)
        made = [(row, by_rules(game, row.rules[0].split(), True, Program())) for row in rows if row.deck == deck]
        pairs += [(one, two) for one, coarse in made for two, fine in made if one is not two and refines(fine, coarse)]
    return pairs


def both(pairs, before):
    """Returns the pairs in which that holds in both seats, the clearest first."""
    some = [pair for pair in pairs if all(falls([pair], seat, before, most_kind) for seat in SEATS)]
    return sorted(some, key=lambda pair: -min(before(pair[0], seat) - most_kind(pair[1], seat) for seat in SEATS))


def monotone(prices, lattice):
    """Returns the sentences about refinements; there is no pair in which a price rises."""
    kept = [(row, groups(row)) for row in lattice if row["kindest1_at_least"] is not None]
    pairs = [(one, two) for one, coarse in kept for two, fine in kept if one is not two and all(map(within, fine, coarse))]
    by_groups = {tuple(groups(row)): row for row in lattice}
    merged = [(by_groups[key], row) for row in lattice for key in merges(row) if key in by_groups]
    tables = refinements(prices)
    for some in (pairs, merged, tables):
        assert not any(rises(some, seat) for seat in SEATS), "a price rises"
    splits = [pair for pair in pairs if pair[1].classes[1] == pair[0].classes[1] + 1]
    worst = both(splits, found)[0] if both(splits, found) else None
    counts = number(len(pairs) + len(tables)), number(len(pairs)), len(kept), len(tables), number(len(merged)), number(len(lattice))
    falling = [len(falls(pairs, seat, kindest, most_kind)) for seat in SEATS]
    lines = [
        "- The price rises in none of %s refinements: %s among the %d abstractions of Leduc 3/2/2 below, and %d in the four tables. "
        "Nor does it rise in %s splits of one class among %s abstractions of Leduc 3/2/2." % counts,
        "- The kindest equilibrium secures less after the refinement in %d (seat 1) and %d (seat 2) of the %s." % (*falling, number(len(pairs))),
        "- The equilibrium that the solver finds secures less in %s and %s of the %s splits."
        % (*(number(fallen(merged, seat)) for seat in SEATS), number(len(merged))),
        "- Of %d splits of one class that keep the ranks apart, there are %d in which, in both seats, **every** equilibrium of the finer abstraction "
        "secures less than the kindest of the coarser; in %d, less than the one that the solver found for the coarser."
        % (len(splits), len(both(splits, kindest)), len(both(splits, found))),
    ]
    if worst:
        names = [row.cells["rules"].split()[1] for row in worst]
        before, after = ([outwards(of(row, seat), 7)[end] for seat in SEATS] for row, of, end in zip(worst, (found, most_kind), (0, 1)))
        text = "- The clearest of these splits is from `%s` to `%s`: an equilibrium of the coarser secures %s and %s, and no equilibrium of the finer "
        lines.append((text + "more than %s and %s.") % (*names, *before, *after))
    return lines


def fallen(pairs, seat):
    """Returns how often the equilibrium that was found secures less in the finer abstraction."""
    return sum(found(coarse, seat) - found(fine, seat) > CLEAR for coarse, fine in pairs)


def example_losses():
    """Returns what the plans of docs/atlas/isomorphism.csv secure, for each game and seat."""
    found = {}
    for deck, row in atlas_rows("isomorphism.csv").items():
        value, gap1, gap2 = (Fraction(row[key]) for key in ("value", "gap1", "gap2"))
        found[deck] = {"1": value - gap2, "2": -value - gap1}
    return found


@dataclass(frozen=True)
class Cost:
    """What the isomorphism classes of a game cost each seat, and what the equilibrium of docs/atlas/isomorphism.csv loses."""

    row: Row
    secured: dict

    def loses(self, seat):
        return self.row.worth(seat) - self.secured[seat]

    @property
    def texts(self):
        """Both prices, rounded up, and what the equilibrium loses, as decimals."""
        return [*(up(self.row.most("price", seat)) for seat in SEATS), *(down(self.loses(seat)) for seat in SEATS)]

    @property
    def csv(self):
        """The brackets of both prices, and what the equilibrium loses, as decimals with twelve digits."""
        ends = [self.row.cells["price%s_at_%s" % (seat, end)] for seat in SEATS for end in ("least", "most")]
        return [*ends, *(decimal(self.loses(seat), 12) for seat in SEATS)]


def costs():
    """Returns what the isomorphism classes cost, by game."""
    secured = example_losses()
    return {row.deck: Cost(row, secured[row.deck]) for row in rows_of("isomorphism") if row.deck in secured}


def isomorphism_lines(rows):
    """Returns the sentences about the isomorphism classes."""
    free = sorted((row for row in rows if all(row.most("price", seat) < NOTHING for seat in SEATS)), key=lambda row: row.deck)
    some, secured = [row for row in rows if row not in free], example_losses()
    price = {row: sum(row.most("price", seat) for seat in SEATS) for row in some}

    def ratios(lost_by):
        times = sorted(lost_by(row) / price[row] for row in some if lost_by(row) is not None)
        return len(times), decimal(times[0], 1), decimal(times[-1], 1), decimal(times[len(times) // 2], 1)

    example = ratios(lambda row: sum(row.worth(seat) - secured[row.deck][seat] for seat in SEATS) if row.deck in secured else None)
    kind = ratios(lambda row: sum(lost(row, "kindest", seat) for seat in SEATS) if row["kindest1_at_least"] is not None else None)
    prices = [(row.most("price", seat), row.name, seat) for row in some for seat in SEATS]
    ends, names = [min(prices), max(prices)], ", ".join(row.name for row in free)
    games, priced = atlas_rows("games.csv"), {row.deck for row in rows}
    left = [int(games[deck]["sequences1"]) for deck, is_lossy in lossy_games().items() if is_lossy and deck not in priced]
    return [
        "- %d games whose isomorphism classes are lossy have been priced. In %d of them the classes cost nothing: %s." % (len(rows), len(free), names),
        "- In the others a seat pays from %s (%s, seat %s) to %s (%s, seat %s)." % (up(ends[0][0]), *ends[0][1:], up(ends[1][0]), *ends[1][1:]),
        "- The atlas has one equilibrium over these classes for each game. It loses, both seats together, %s to %s times the price (median %s, %d games)."
        % (*example[1:], example[0]),
        "- Even the kindest equilibrium loses %s to %s times the price (median %s, %d games)." % (*kind[1:], kind[0]),
        "- %d more games of the atlas have lossy isomorphism classes and are not priced. The smallest of them has %s sequences; docs/ATLAS.md names them."
        % (len(left), number(min(left))),
    ]


def widest(rows):
    """Returns the widest bracket of a price, and refuses one above 10^-9."""
    width = max(row.most("price", seat) - row.least("price", seat) for row in rows for seat in SEATS)
    assert width <= WIDEST, width
    return width


def value_line(rows, deck):
    row = next(row for row in rows if row.deck == deck)
    return "The game is worth %s to player 1." % decimal(row.worth("1"), 7)


def blocks():
    """Returns the lines of each block by its name."""
    prices, lattice, isomorphism, exact = map(rows_of, ("prices", "lattice", "isomorphism", "exact"))
    made = {}
    for deck in {row.deck: None for row in prices}:
        made["prices %s_%d_%d_%d" % deck] = [value_line(prices, deck), "", *price_table(prices, deck)]
    every = [*prices, *lattice, *isomorphism]
    made["widest"] = ["The widest bracket of a price among the %s rows of the CSV files is %s chips." % (number(len(every)), small(widest(every)))]
    made["refinements"] = monotone(prices, lattice)
    made["isomorphism"] = isomorphism_lines(isomorphism)
    made["isomorphism table"] = isomorphism_table(isomorphism)
    made["exact"] = exact_table(exact)
    return made


# ---- pictures


def draw(name, size, script):
    script = 'set terminal svg size %d,%d font "sans,13" background "white"\nset grid\n' % size + script
    done = subprocess.run(["gnuplot"], input=script, capture_output=True, text=True, check=True)
    Path(FOLDER, name + ".svg").write_text(done.stdout, encoding="ascii")


def data(name, columns):
    return "$%s << EOD\n%s\nEOD\n" % (name, "\n".join(" ".join(map(str, row)) for row in columns))


def points(title, name, columns):
    """Returns the plot command of two sets of points, full ones and rings."""
    kinds = ("pointtype 7 pointsize 0.5", "pointtype 6 pointsize 0.7")
    plots = ('$%s using %s with points %s title "%s"' % (name, using, kind, text) for (using, text), kind in zip(columns, kinds))
    return 'set title "%s"\nplot %s\n' % (title, ", ".join(plots))


def decimals(x):
    return decimal(max(x, Fraction(0)), 9)


def price_picture(rows):
    """Draws the prices of the four games by the number of classes of the last round."""
    script = 'set multiplot layout 2,2\nset logscale x\nset xlabel "classes of the last round"\nset ylabel "price, chips"\nset key top right\n'
    for at, deck in enumerate({row.deck: None for row in rows}):
        some = sorted((row for row in rows if row.deck == deck), key=lambda row: row.classes[-1])
        script += data("of%d" % at, [(row.classes[-1], *(decimals(row.most("price", seat)) for seat in SEATS)) for row in some])
        script += points(some[0].name, "of%d" % at, [("1:2", "seat 1"), ("1:3", "seat 2")])
    draw("price_by_classes", (1000, 760), script)


def lattice_picture(rows):
    """Draws for the abstractions of Leduc that keep the ranks the price, and what each equilibrium loses at least."""
    some = [row for row in rows if row["kindest1_at_least"] is not None]
    script = 'set multiplot layout 1,2\nset xlabel "classes of round 2"\nset ylabel "chips below the value"\n'
    script += "set yrange [0:]\nset xrange [2.5:9.5]\nset key top right\n"
    for seat in SEATS:
        script += data("of" + seat, [(row.classes[1], decimals(row.most("price", seat)), decimals(lost(row, "kindest", seat))) for row in some])
        script += points("Leduc 3/2/2, seat %s" % seat, "of" + seat, [("($1-0.1):2", "price"), ("($1+0.1):3", "kindest equilibrium")])
    draw("leduc_lattice", (1000, 420), script)


def block(name, lines):
    """Returns the lines of a block with its pair of lines."""
    return ["<!-- %s -->" % name, "", *lines, "", "<!-- end -->"]


def fill(document, made):
    """Writes blocks of a document anew; the rest of it stays."""
    path = CHECKOUT / "docs" / document
    text = path.read_text(encoding="ascii")
    for name, lines in made.items():
        pattern = r"<!-- %s -->\n.*?<!-- end -->" % re.escape(name)
        assert re.search(pattern, text, re.S), name
        text = re.sub(pattern, lambda _, name=name, lines=lines: "\n".join(block(name, lines)), text, count=1, flags=re.S)
    path.write_text(text, encoding="ascii")


def write():
    """Writes the blocks of the document and the pictures."""
    fill("ABSTRACTION.md", blocks())
    price_picture(rows_of("prices"))
    lattice_picture(rows_of("lattice"))
