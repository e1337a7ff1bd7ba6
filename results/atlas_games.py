"""The games of the atlas, one at a time: what the program says of a deck, the solvers' plans, and the program's verdict on them.

A deck is a kind, ranks, suits and cap, as `make` takes them. Each piece of work on a deck is one record of the cache, a file of JSON; where
it made plans their strategy file stands beside it, compressed by xz.
"""

import hashlib
import json
import lzma
import math
import os
import resource
import signal
import tempfile
import time
from fractions import Fraction

from gameshrink import Game, Refused, Strategy, Verdict, solvers
from gameshrink.layout import LARGEST_TOTAL, classes_in, read_summary
from gameshrink.linear import SequenceForm

RANKS, SUITS = range(2, 14), range(1, 5)
KUHN = [("kuhn", ranks, suits, cap) for ranks in RANKS for suits in SUITS for cap in range(9)]
LEDUC = [("leduc", ranks, suits, cap) for ranks in RANKS for suits in SUITS for cap in range(1, 5)]
RHODE = [("rhode", ranks, suits, cap) for ranks in range(2, 7) for suits in range(2, 5) for cap in range(1, 4)]
LOSSY = [deck for deck in LEDUC + RHODE if deck[0] == "leduc" or deck[3] == 1]
PLAYED = [("kuhn", 3, 1, 1), ("kuhn", 13, 4, 2), ("leduc", 3, 2, 2), ("leduc", 13, 4, 1), ("rhode", 3, 4, 1)]
TURNS = sorted({n * 10**k for n in (1, 2, 3, 5, 7) for k in range(6)} | {10**6})
WIDEST = Fraction(1, 10**9)
NUMBERS = ["value", "gap1", "gap2"]
ROUNDS = {"kuhn": 1, "leduc": 2, "rhode": 3}
SOLVE_SECONDS, TRIES = 60, 12


class Stopped(Exception):
    """Why a piece of work did not end within the hours of its run."""


def own_classes(program, game):
    """Returns the game and the lossless classes of a game file, as the program states them in a strategy file."""
    file = json.loads(program.run("play --turns 0", game))
    return file["game"], file["classes"]


def checksum(program):
    """Returns the checksum of the program's file; of the one that ./gameshrink runs, where that is a script."""
    with open(program.binary, "rb") as file:
        return hashlib.sha256(file.read()).hexdigest()


def line_of(refusal):
    """Returns the line of a refusal by the program."""
    return refusal.line or "status %d" % refusal.status


def name_of(deck):
    return "%s_%d_%d_%d" % tuple(deck)


def reason(record):
    """Returns why a record has no numbers, or has numbers that do not serve; nothing where they do."""
    return record.get("refused") or record.get("failed") or record.get("stopped")


# ---- the cache


class Cache:
    """A folder with a record for each piece of work, and a strategy file for each that made plans."""

    def __init__(self, folder):
        self.folder = folder
        os.makedirs(folder, exist_ok=True)

    def path(self, name):
        return os.path.join(self.folder, name)

    def record(self, name):
        """Returns a record, or nothing where there is none."""
        if not os.path.exists(self.path(name + ".json")):
            return None
        with open(self.path(name + ".json"), encoding="ascii") as file:
            return json.load(file)

    def keep(self, name, record):
        """Writes a record whole, or, where the run is broken off, not at all."""
        with open(self.path(name + ".new"), "w", encoding="ascii") as file:
            json.dump(record, file, indent=1)
            file.write("\n")
        os.replace(self.path(name + ".new"), self.path(name + ".json"))

    def strategy(self, name):
        with lzma.open(self.path(name + ".strategy.xz"), "rt", encoding="ascii") as file:
            return file.read()

    def keep_strategy(self, name, text):
        with lzma.open(self.path(name + ".strategy.xz"), "wt", encoding="ascii") as file:
            file.write(text)


# ---- plans


def least_total(weights):
    """Returns the least total of which all weights are whole parts, or nothing where it is above 2^36."""
    least = 1
    for weight in weights:
        least = math.lcm(least, weight.denominator)
        if least > LARGEST_TOTAL:
            return None
    return least


def is_plan(form, player, weights):
    """Whether weights, from the empty sequence on, are at least 0 and flow from move to move."""
    rows = form.constraints(player)
    return min(weights) >= 0 and all(sum(factor * weights[at] for at, factor in row.items()) == (number == 0) for number, row in enumerate(rows))


def plans_of(form, found, total=LARGEST_TOTAL):
    """Returns both players' weights behind their totals. An exact plan stays as it is where a total of 2^36 or less has it; else it is rounded
    to the total given, from its first 80 binary digits."""
    short = ({name: Fraction(round(x * 2**80), 2**80) for name, x in numbers.items()} for numbers in (found.columns, found.prices))
    plans = form.rounded_plans(*short, total)
    for player, (names, numbers) in enumerate((("x%d", found.columns), ("y%d", found.prices)), 1):
        weights = [abs(numbers.get(names % slot, Fraction(0))) for slot in range(len(form.slots[player]) + 1)]
        least = least_total(weights)
        if least and is_plan(form, player, weights):
            plans[player - 1] = [int(weight * least) for weight in weights]
    return plans


def form_of(game, classes):
    """Returns the sequence form of a game file over classes as `check` or `shrink` prints them."""
    read = Game.parse(game)
    return SequenceForm(read, classes_in(read, classes))


def optimum(form, seconds):
    """Returns Clp's optimum of a game, and that of QSopt_ex, which begins at Clp's basis, or why there is none."""
    with tempfile.TemporaryDirectory() as folder:
        work = solvers.Work(folder, form.program(), seconds)
        near = work.by_clp("barrier")
        try:
            return near, work.by_qsopt_ex(from_basis=True)
        except solvers.Failure as failure:
            return near, str(failure)


def judged(program, form, plans):
    """Returns a strategy file with its value and gaps on raw cards. Where a game has too many pairs of raw signals for `judge`, the numbers are
    those that `evaluate` names in turn as it refuses wrong ones: it looks at classes alone."""
    strategy = Strategy(form.layout, plans, program)
    try:
        return strategy.filled()
    except Refused as refusal:
        if not refusal.line.startswith("too large"):
            raise
    numbers = [Fraction(0)] * 3
    for _ in range(4):
        try:
            program.run("evaluate", strategy.text(Verdict(*numbers)))
            break
        except Refused as refusal:
            words = refusal.line.split()
            if words[:2] != ["wrong", "numbers:"]:
                raise
            numbers[NUMBERS.index(words[2])] = Fraction(words[5])
    return strategy.text(Verdict(*numbers))


def numbers_of(text):
    """Returns the value and gaps that a strategy file states, as fractions."""
    file = json.loads(text)
    return Verdict(*(Fraction(file[key]) for key in NUMBERS))


def narrow(program, form, found):
    """Returns the strategy file of an optimum, rounded to total 2^36; where its bracket is too wide, the best of several totals just below."""
    best = None
    for total in range(LARGEST_TOTAL, LARGEST_TOTAL - TRIES, -1):
        text = judged(program, form, plans_of(form, found, total))
        width = sum(numbers_of(text)[1:])
        best = (width, text) if best is None or width < best[0] else best
        if width < WIDEST:
            break
    return best[1]


def kept(cache, name, text):
    """Keeps a strategy file; returns what its record says of it."""
    cache.keep_strategy(name, text)
    stated = {key: json.loads(text)[key] for key in NUMBERS}
    return {**stated, "sha256": hashlib.sha256(text.encode()).hexdigest(), "bytes": len(text)}


# ---- pieces of work


def classed(program, deck, _cache, _seconds):
    """Returns a deck's deals, signals and classes, round by round."""
    game = program.make(*deck)
    summary = read_summary(program.run("shrink --summary", game))
    classes = read_summary(program.run("check --summary", game)).classes
    return {"deals": summary.deals, "signals": summary.signals, "isomorphic": summary.classes, "classes": classes}


def solved(program, deck, cache, seconds):
    """Returns how near an outside solver's plans come to a game's value, by the program's verdict, and the exact solver's value."""
    record, game = classed(program, deck, cache, seconds), program.make(*deck)
    own_classes(program, game)
    form = form_of(game, program.run("check", game))
    record["sequences"] = [len(form.slots[player]) + 1 for player in (1, 2)]
    near, exact = optimum(form, seconds)
    record["solvers"], record["seconds"] = [solvers.floating_name()], [round(near.seconds, 2)]
    if isinstance(exact, str):
        record["exact_failed"] = exact
    else:
        record["exact"] = str(form.value(exact))
        record["solvers"].append(solvers.exact_name())
        record["seconds"].append(round(exact.seconds, 2))
    text = narrow(program, form, near if isinstance(exact, str) else exact)
    record.update(kept(cache, name_of(deck), text))
    fault = fault_of(program, deck, record, text)
    return {**record, "failed": fault} if fault else record


def fault_of(program, deck, record, text):
    """Returns what is wrong with a game's stored strategy by the program, or nothing."""
    stated = json.loads(text)
    if own_classes(program, program.make(*deck)) != (stated["game"], stated["classes"]):
        return "the strategy is of another game or other classes"
    if program.run("evaluate", text) != "".join("%s %s\n" % (key, record[key]) for key in NUMBERS):
        return "evaluate prints other numbers"
    value, gap1, gap2 = numbers_of(text)
    if gap1 + gap2 >= WIDEST:
        return "the bracket is %.2g wide" % (gap1 + gap2)
    if "exact" in record and not value - gap2 <= Fraction(record["exact"]) <= value + gap1:
        return "the exact solver's value lies outside the bracket"
    return None


def lost(program, deck, cache, seconds):
    """Returns what plans that are optimal over the isomorphism classes leave open on raw cards."""
    game = program.make(*deck)
    form = form_of(game, program.run("shrink", game))
    near, exact = optimum(form, seconds)
    text = Strategy(form.layout, plans_of(form, near if isinstance(exact, str) else exact), program).filled()
    return kept(cache, "isomorphic_" + name_of(deck), text)


def own_solution(program, deck, _cache, _seconds):
    """Returns the value that `solve` finds, or the line of its refusal."""

    def limit():
        resource.setrlimit(resource.RLIMIT_CPU, (SOLVE_SECONDS, SOLVE_SECONDS))

    done = program.ended("solve", program.make(*deck).encode(), preexec_fn=limit)
    if done.returncode < 0:
        return {"refused": "not ended within %d processor seconds" % SOLVE_SECONDS}
    return {"refused": done.stderr.decode().strip()} if done.returncode else {"value": json.loads(done.stdout)["value"]}


def played(program, deck, _cache, _seconds):
    """Returns the value and both gaps after so many turns of play."""
    game, found = program.make(*deck), {}
    for turns in TURNS:
        file = json.loads(program.run("play --turns %d" % turns, game))
        found[turns] = [file[key] for key in NUMBERS]
    return {"turns": found}


def size(deck):
    """Returns a number that grows with a game's sequences: last-round points times classes, roughly."""
    kind, ranks, suits, cap = deck
    classes = ranks ** ROUNDS[kind] * (1 + (kind == "rhode" and suits > 1))
    return (1 + 2 * cap) ** (ROUNDS[kind] - 1) * (2 + 2 * cap) * classes


def jobs():
    """Returns all work: the name of each record, what makes it, and its deck; what takes least time first."""
    decks = [(kind, ranks, suits, 1) for kind in ROUNDS for ranks in RANKS for suits in SUITS]
    small = [deck for deck in LEDUC + RHODE if deck[1] <= 5 and deck[3] <= 2]
    work = [("classes_", classed, decks), ("", solved, KUHN + LEDUC + RHODE), ("solve_", own_solution, KUHN + small)]
    work += [("isomorphic_", lost, LOSSY), ("play_", played, PLAYED)]
    named = [(prefix + name_of(deck), make, deck) for prefix, make, decks in work for deck in decks]
    return sorted(named, key=lambda job: size(job[2]))


def in_time(end, work):
    """Returns what work returns, or raises Stopped at a time of the clock; without one it waits for as long as the work takes."""
    if end is None:
        return work()
    left = end - time.time()
    if left <= 0:
        raise Stopped("not begun when the run ended")

    def stop(*_):
        raise Stopped("stopped after %d minutes, when the run ended" % (left // 60))

    signal.signal(signal.SIGALRM, stop)
    signal.setitimer(signal.ITIMER_REAL, left)
    try:
        return work()
    finally:
        signal.setitimer(signal.ITIMER_REAL, 0)


def done(cache, program, name, make, deck, seconds, end):
    """Makes a record and keeps it; a refusal, a failure and the end of the run are records too."""
    begun = time.time()
    try:
        record = in_time(end, lambda: make(program, deck, cache, seconds))
    except Stopped as stopped:
        record = {"stopped": str(stopped)}
    except Refused as refusal:
        record = {"refused": line_of(refusal)}
    except solvers.Failure as failure:
        record = {"failed": str(failure)}
    when = time.strftime("%Y-%m-%d %H:%M", time.gmtime(begun))
    cache.keep(name, {"deck": deck, **record, "when": when, "took": round(time.time() - begun, 1)})
    return record


def confirmed(cache, program, name, make, deck):
    """Has the program judge a record's strategy again, or solve its game again; returns what is wrong, an empty text where nothing is, and
    nothing where the record has neither."""
    record = cache.record(name)
    if record is None or "stopped" in record:
        return None
    if make is own_solution:
        again = own_solution(program, deck, cache, None)
        if "value" not in record:
            cache.keep(name, {**record, **again})
        return "" if again.get("value") == record.get("value") or "value" not in record else "%s: solve finds otherwise" % name
    if "sha256" not in record:
        return None
    text = cache.strategy(name)
    if hashlib.sha256(text.encode()).hexdigest() != record["sha256"]:
        return "%s: the strategy file is another" % name
    if make is lost:
        return "" if Strategy.parse(text, program=program).filled() == text else "%s: judge prints other numbers" % name
    fault = fault_of(program, deck, record, text)
    return "" if fault == record.get("failed") else "%s: %s" % (name, fault)
