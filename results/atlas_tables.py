"""docs/ATLAS.md and docs/atlas/: the tables of the atlas, its CSV, its stored strategies and its pictures, from the records of the cache."""

import gzip
import os
from dataclasses import dataclass
from fractions import Fraction

import abstraction_pages
import atlas_pictures
import atlas_runs
import sections
from atlas_claims import NAMES, claims, grouped, isomorphism, items
from atlas_games import KUHN, LEDUC, NUMBERS, PLAYED, RANKS, RHODE, name_of, reason
from gameshrink.program import CHECKOUT
from gameshrink.texts import decimal, listed, number, outwards, small, table, write_csv

FOLDER = CHECKOUT / "docs" / "atlas"
DOCUMENT = CHECKOUT / "docs" / "ATLAS.md"
# the sections that results/run makes
KEPT = ["## Small Leduc and Rhode Island decks", "## Strategies near an equilibrium, with exact gaps"]
DIGITS, LONGEST = 12, 1500
STORED = [("kuhn", 3, 1, 1), ("kuhn", 13, 4, 2)]
STORED += [("leduc", *deck) for deck in [(3, 2, 1), (3, 2, 2), (3, 2, 3), (3, 2, 4), (3, 3, 1), (3, 3, 2), (3, 4, 2), (4, 2, 2), (5, 1, 2), (5, 2, 2), (5, 4, 2)]]
STORED += [("leduc", *deck) for deck in [(6, 2, 2), (8, 2, 2), (10, 2, 2), (13, 1, 1), (13, 2, 1), (13, 2, 2), (13, 4, 1), (13, 4, 2), (13, 4, 4)]]
STORED += [("rhode", *deck) for deck in [(2, 3, 1), (2, 4, 2), (3, 2, 1), (3, 4, 1), (3, 4, 2), (4, 2, 1), (4, 4, 1), (5, 4, 1), (6, 4, 1)]]


@dataclass
class Row:
    """A solved game: its deck, its record, and value and gaps by the program."""

    deck: tuple
    record: dict
    value: Fraction
    gap1: Fraction
    gap2: Fraction

    def lower(self, digits=DIGITS):
        return outwards(self.value - self.gap2, digits)[0]

    def upper(self, digits=DIGITS):
        return outwards(self.value + self.gap1, digits)[1]

    def agreed(self):
        """Returns the value with as many digits, 12 at most, as both bounds have when they are rounded to the nearest."""
        low, high = self.value - self.gap2, self.value + self.gap1
        digits = next(n for n in range(DIGITS, 0, -1) if n == 1 or decimal(low, n) == decimal(high, n))
        return decimal(low, digits)

    def is_exact(self):
        return self.gap1 == self.gap2 == 0

    def exact(self):
        """Returns the exact value: the program's own where both gaps are 0, else the exact solver's, else nothing."""
        return str(self.value) if self.is_exact() else self.record.get("exact")


def rows_of(cache, decks):
    """Returns the rows of the games that were solved, and the decks and records of the others."""
    rows, others = {}, []
    for deck in decks:
        record = cache.record(name_of(deck))
        if record and "sha256" in record and "failed" not in record:
            rows[deck] = Row(deck, record, *(Fraction(record[key]) for key in NUMBERS))
        else:
            others.append((deck, record or {"failed": "not tried"}))
    return rows, others


# ---- CSV


HEAD = ["kind", "ranks", "suits", "cap", "deals", "signals", "isomorphic_classes", "lossless_classes", "sequences1", "sequences2"]
HEAD += ["value", "gap1", "gap2", "lower", "upper", "agreed", "exact", "exact_by", "solve", "solvers", "seconds", "sha256", "bytes", "note"]


def spaced(numbers):
    return " ".join(map(str, numbers))


def csv_row(cache, deck, row, record):
    """Returns the CSV row of a game, solved or not."""
    sizes = [record.get("deals", ""), *(spaced(record.get(key, [])) for key in ("signals", "isomorphic", "classes"))]
    sizes += record.get("sequences", ["", ""])
    own = cache.record("solve_" + name_of(deck)) or {}
    found = own.get("value") or own.get("refused", "")
    note = reason(record) or ""
    if row is None:
        return [*deck, *sizes, *[""] * 8, found, *[""] * 4, note]
    exact = row.exact() or ""
    by = "" if not exact else "gaps 0" if row.is_exact() else "QSopt_ex"
    if len(exact) > LONGEST:
        exact, note = "", "an exact value of %d characters, left out" % len(exact)
    kept = [" + ".join(record["solvers"]), spaced(record["seconds"]), record["sha256"], record["bytes"], note]
    return [*deck, *sizes, *(record[key] for key in NUMBERS), row.lower(), row.upper(), row.agreed(), exact, by, found, *kept]


def write_games(cache, decks, rows):
    whole = [csv_row(cache, deck, rows.get(deck), cache.record(name_of(deck)) or {"failed": "not tried"}) for deck in decks]
    write_csv(os.path.join(FOLDER, "games.csv"), HEAD, whole)


def write_losses(cache):
    """Writes value and gaps on raw cards of plans over the isomorphism classes."""
    whole = []
    for deck in LEDUC + RHODE:
        record = cache.record("isomorphic_" + name_of(deck)) or {}
        if "gap1" in record:
            whole.append([*deck, *(record[key] for key in NUMBERS), record["sha256"]])
    write_csv(os.path.join(FOLDER, "isomorphism.csv"), ["kind", "ranks", "suits", "cap", *NUMBERS, "sha256"], whole)


# ---- stored strategies


def write_stored(cache, program, rows):
    """Writes the stored strategies, each with its certificate; returns those that there are with their sizes."""
    folder, sizes = os.path.join(FOLDER, "strategies"), {}
    os.makedirs(folder, exist_ok=True)
    for name in os.listdir(folder):
        os.remove(os.path.join(folder, name))
    for deck in STORED:
        if deck in rows:
            text = program.run("certify", cache.strategy(name_of(deck)))
            packed = gzip.compress(text.encode(), 9, mtime=0)
            with open(os.path.join(folder, name_of(deck) + ".jsonl.gz"), "wb") as file:
                file.write(packed)
            sizes[deck] = len(packed)
    return sizes


# ---- pictures


def by_ranks(rows, kind, suits, cap):
    return {deck[1]: row.value for deck, row in rows.items() if (deck[0], *deck[2:]) == (kind, suits, cap)}


def prices_by_ranks(costs, kind, suits, cap):
    """Returns both prices of the isomorphism classes by ranks."""
    decks = {ranks: (kind, ranks, suits, cap) for ranks in RANKS}
    return [("seat %s" % seat, {ranks: costs[deck].row.most("price", seat) for ranks, deck in decks.items() if deck in costs}) for seat in "12"]


def classes_by_signals(cache, kind, suits, key):
    records = (cache.record("classes_%s_%d_%d_1" % (kind, ranks, suits)) or {} for ranks in RANKS)
    return {record["signals"][-1]: record[key][-1] for record in records if key in record}


def title(kind, suits):
    return "%s, %d suit%s" % (NAMES[kind], suits, "s" * (suits > 1))


def draw_prices():
    """Draws the prices of the isomorphism classes by ranks."""
    costs = abstraction_pages.costs()
    lossy = [("leduc", 2, 2), ("leduc", 4, 2), ("rhode", 4, 1)]
    atlas_pictures.prices(FOLDER, [("%s, cap %d" % (title(*p[:2]), p[2]), prices_by_ranks(costs, *p)) for p in lossy])


def write_pictures(cache, rows):
    panels = [("leduc", suits) for suits in (1, 2, 4)] + [("rhode", 4)]
    atlas_pictures.values(FOLDER, [(title(*p), [("cap %d" % cap, by_ranks(rows, *p, cap)) for cap in range(1, 5)]) for p in panels])
    draw_prices()
    kinds = [("isomorphic", "by isomorphism"), ("classes", "lossless")]
    columns = [("%s, %s" % (title(*p), text), classes_by_signals(cache, *p, key)) for p in [("leduc", 4), ("rhode", 2), ("rhode", 4)] for key, text in kinds]
    atlas_pictures.classes(FOLDER, columns)
    games = [(deck, cache.record("play_" + name_of(deck)) or {}) for deck in PLAYED]
    found = [("%s %d/%d/%d" % (NAMES[deck[0]], *deck[1:]), record["turns"]) for deck, record in games if "turns" in record]
    atlas_pictures.turns(FOLDER, [(name, {int(n): [Fraction(x) for x in numbers] for n, numbers in turns.items()}) for name, turns in found])


# ---- the document


def exact_text(row):
    exact = row.exact()
    if exact is None:
        return ""
    return exact if len(exact) <= 40 else "%d characters" % len(exact)


def game_table(rows):
    head = ["ranks", "suits", "cap", "classes", "sequences", "value at least", "value at most", "agreed", "gap 1", "gap 2", "exact value", "seconds"]
    cells = []
    for (_, *deck), row in rows.items():
        record = row.record
        sequences = number(record["sequences"][0]) if len(set(record["sequences"])) == 1 else listed(record["sequences"])
        gaps = [small(row.gap1), small(row.gap2)]
        seconds = " + ".join("%.1f" % s for s in record["seconds"])
        cells.append([*deck, listed(record["classes"]), sequences, row.lower(), row.upper(), row.agreed(), *gaps, exact_text(row), seconds])
    return table(head, cells)


def of_kind(rows, kind):
    return {deck: row for deck, row in rows.items() if deck[0] == kind}


def failed_lines(others):
    """Returns what has no numbers, by reason."""
    reasons = {}
    for deck, record in others:
        reasons.setdefault(reason(record), []).append(deck)
    return ["- `%s`: %s." % (why, grouped(decks)) for why, decks in reasons.items()]


def stored_table(rows, sizes):
    cells = []
    for deck, size in sizes.items():
        kind, *numbers = deck
        cells.append([NAMES[kind], *numbers, "[%s](atlas/strategies/%s.jsonl.gz)" % (name_of(deck), name_of(deck)), number(size), rows[deck].agreed()])
    return table(["game", "ranks", "suits", "cap", "file", "bytes", "value"], cells)


def cost_table(costs):
    cells = [[NAMES[deck[0]], *deck[1:], *costs[deck].texts] for deck in sorted(costs)]
    return table(["game", "ranks", "suits", "cap", "price, seat 1", "price, seat 2", "an equilibrium, seat 1", "an equilibrium, seat 2"], cells)


def seconds_of(rows):
    return sum(sum(row.record["seconds"]) for row in rows.values()) / 3600


def head_lines(rows, kuhn):
    both = {**rows, **kuhn}
    widest = max(both.values(), key=lambda row: row.gap1 + row.gap2)
    named = sum("exact" in row.record for row in both.values())
    proved = {deck: row for deck, row in both.items() if row.is_exact()}
    return [
        "# Atlas",
        "",
        "What is a game worth, within 10^-9, and which plans prove it? For whoever cites a value of Leduc, Rhode Island or Kuhn, or tests a solver by it.",
        "",
        "The atlas has %d games: %d Leduc decks, %d Rhode Island decks and %d Kuhn decks, as `./gameshrink make` prints them." % (len(both), len(of_kind(rows, "leduc")), len(of_kind(rows, "rhode")), len(kuhn)),
        "Each has plans of both players whose value and gaps the program computed exactly. The widest bracket is %s." % small(widest.gap1 + widest.gap2),
        "For %s of them QSopt_ex, an exact solver, gives the value as a fraction too; each fraction lies in its bracket." % ("all" if named == len(both) else named),
        "In %d games both gaps are 0, so the program alone proves the fraction; among them are %d of Kuhn's %d." % (len(proved), len(of_kind(proved, "kuhn")), len(kuhn)),
        "[Runs](#runs) says when all this was made, how long it took, and on what.",
        "",
        "The value is what player 1, who acts first, gets on average a deal, in chips. The ante is 1 in Kuhn and Leduc and 5 in Rhode Island; a bet is 1 in Kuhn, 2 and then 4 in Leduc, 10 and then 20 and 20 in Rhode Island. A deck is named by ranks, suits and cap: "
        "Leduc 3/2/2 has three ranks and two suits, and at most one bet and one raise a round.",
        "",
        "**How a row is made.** Clp solves the linear program of the game in sequence form over the coarsest lossless classes. QSopt_ex begins at Clp's basis and solves it exactly. "
        "The plans are rounded to whole numbers of total 2^36, or kept where a total of 2^36 or less has them. `judge` computes value and gaps on raw cards, and `evaluate` confirms the file. "
        "Where a game has too many pairs of raw signals for `judge`, `evaluate` alone does both. "
        "So no number of the bracket rests on a solver: the value lies between the plans' value less gap 2 and their value plus gap 1. The exact fractions rest on QSopt_ex where a gap is not 0.",
        "",
        "**How to check a row.** A [stored strategy](#stored-strategies) needs the program alone. `results/atlas CACHE --only leduc_3_2_2` makes that row again in the folder CACHE; with the same solvers the strategy has the checksum of games.csv. "
        "`results/atlas CACHE --confirm` has the program judge all strategies of a run again. "
        "`python/gameshrink-tools recheck` computes value and gaps a second time, without the program.",
        "",
        "**Columns.** Classes are the coarsest lossless ones, round by round. Sequences include the empty one; one number stands for both players. Bounds are rounded outwards and gaps up. "
        "\"agreed\" is the value with as many digits, 12 at most, as both bounds have when they are rounded to the nearest. Exact values of more than 40 characters stand in the CSV alone; of one of more than 1,500 the CSV has the length, under `note`. "
        "Seconds are processor seconds of Clp and of QSopt_ex on the machine that [Runs](#runs) names.",
        "",
        "**CSV.** [games.csv](atlas/games.csv) has every game with its numbers as fractions, what `solve` finds, and the checksum of its strategy; its bounds are decimals rounded outwards. "
        "Counts for each round stand in one cell, in the order of the rounds. A game without numbers has the reason under `note`. "
        "[isomorphism.csv](atlas/isomorphism.csv) has value and gaps on raw cards of one equilibrium over the isomorphism classes. The class counts of all decks stand in [results/csv/classes.csv](../results/csv/classes.csv).",
        "",
    ]


def picture_lines():
    return [
        "## Pictures",
        "",
        "![The value of Leduc and Rhode Island by ranks, a line for each cap](atlas/value_by_ranks.svg)",
        "",
        "The value to player 1 by ranks, a line for each cap. Data: [value_by_ranks.csv](atlas/value_by_ranks.csv).",
        "",
        "![What the isomorphism classes cost, by ranks](atlas/isomorphism_price.svg)",
        "",
        "The price of the isomorphism classes for each seat. Data: [isomorphism_price.csv](atlas/isomorphism_price.csv).",
        "",
        "![Classes of the last round against its signals](atlas/class_counts.svg)",
        "",
        "Classes of the last round against its signals. Data: [class_counts.csv](atlas/class_counts.csv).",
        "",
        "![Both gaps by turns of play](atlas/gaps_by_turns.svg)",
        "",
        "Both gaps together after so many turns of `play`, on five games. Data: [gaps_by_turns.csv](atlas/gaps_by_turns.csv).",
        "",
    ]


def stored_lines(rows, sizes):
    return [
        "## Stored strategies",
        "",
        "Each file has two lines: the strategy, and a certificate of how much an opponent could gain. `verify` reads both, `evaluate` the first. `tests/atlas` does both for every file, "
        "and compares what they print with games.csv.",
        "",
        "```sh",
        "zcat docs/atlas/strategies/leduc_3_2_2.jsonl.gz | head -n 1 | ./gameshrink evaluate",
        "zcat docs/atlas/strategies/leduc_3_2_2.jsonl.gz | ./gameshrink verify",
        "```",
        "",
        *stored_table(rows, sizes),
        "",
    ]


def cost_blocks():
    """Returns the lines of the blocks about prices by their names, from the CSV files of docs/abstraction and docs/atlas."""
    costs = abstraction_pages.costs()
    missing = [deck for deck, is_lossy in abstraction_pages.lossy_games().items() if is_lossy and deck not in costs]
    left = ["", "Not priced: %s." % grouped(missing)] if missing else []
    return {"isomorphism": items(isomorphism()), "isomorphism table": [*cost_table(costs), *left]}


def cost_lines():
    """Returns the section on isomorphism."""
    return [
        "## What the isomorphism classes cost",
        "",
        "The price of classes for a seat is the game's value to it, less the most that a plan over the classes secures against an opponent who sees every card. "
        "The table has it for the classes of `shrink` where they are lossy, rounded up; 0 stands for less than 10^-8. [ABSTRACTION.md](ABSTRACTION.md) has the brackets, and what is proved of them.",
        "",
        "Beside it stands what one equilibrium loses, as an example: the plans of isomorphism.csv, which are optimal where both players see these classes alone. "
        "Other equilibria over the same classes lose more or less, and none loses less than the price. RESULTS.md has the same numbers for three games. `results/abstraction --only isomorphism` makes the prices again.",
        "",
        *abstraction_pages.block("isomorphism table", cost_blocks()["isomorphism table"]),
        "",
    ]


def write_prices():
    """Writes what docs/ATLAS.md and docs/atlas say of prices anew; this takes no cache."""
    abstraction_pages.fill("ATLAS.md", cost_blocks())
    draw_prices()


def write(cache, program):
    """Writes docs/ATLAS.md, but for the sections of results/run, and all of docs/atlas/."""
    os.makedirs(FOLDER, exist_ok=True)
    rows, others = rows_of(cache, LEDUC + RHODE)
    kuhn, left = rows_of(cache, KUHN)
    write_games(cache, KUHN + LEDUC + RHODE, {**rows, **kuhn})
    write_losses(cache)
    sizes = write_stored(cache, program, {**rows, **kuhn})
    write_pictures(cache, rows)
    lines = head_lines(rows, kuhn) + ["## What it shows", "", *claims(rows, cache), ""]
    for kind in ("leduc", "rhode"):
        lines += ["## %s" % NAMES[kind], "", *game_table(of_kind(rows, kind)), ""]
    lines += cost_lines() + picture_lines() + stored_lines({**rows, **kuhn}, sizes)
    lines += [sections.parts_of(DOCUMENT.read_text(encoding="ascii"))[1][heading] for heading in KEPT]
    lines += ["## What is not here", "", "Decks without a bracket, by reason. The exact values of Kuhn's decks stand in games.csv and in [RESULTS.md](RESULTS.md).", "", *failed_lines(others + left), ""]
    lines += ["## Runs", "", "The solvers took %.2f processor hours for the games above. Runs of `results/atlas`; the first began with an empty folder, each later one took up what was left:" % seconds_of({**rows, **kuhn}), "", *atlas_runs.lines(cache)]
    DOCUMENT.write_text("\n".join(lines) + "\n", encoding="ascii")
