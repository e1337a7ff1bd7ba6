"""Random small games, strategies over them, and changes of both that are refused.

Everything is drawn by the `random.Random` that is handed in, so a seed gives the same inputs again. `tests/drawing.py` breaks texts byte by byte; here
each refusal has a change that is made for it.
"""

import json
import random
from collections.abc import Iterator
from dataclasses import dataclass
from fractions import Fraction
from typing import Any

from .betting import EVEN, FOLD, LETTERS, Act, Move, Tree, leaves, limit_tree, tree_text
from .cards import count_of_lists, draws
from .classes import Classes, numbered, single_classes
from .json_text import json_line
from .plans import Plan, SequenceForm, verdict
from .ranking import CATEGORIES
from .signals import Signals
from .strategy_file import Strategy, strategy_line

RANKS = "23456789TJQKAabcdefghXYZ"
SUITS = "shdcSHDC"
Named = tuple[str, bytes]
"""What is wrong with an input, and the input."""


def random_tree(rng: random.Random, goes_on: bool) -> Tree:
    """Returns a tree at whose even leaves both players have put the same; with `goes_on` it has such a leaf.

    Shapes are odd on purpose: player 2 may act first, a player may act twice in turn, and acts differ in their moves.
    """

    def act(player: int, puts: tuple[int, int], left: int) -> Act:
        letters = rng.sample(LETTERS, rng.choice([1, 1, 2, 2, 2, 3, 3, 4]))
        return Act(player, [move(letter, player, puts, left) for letter in letters])

    def move(letter: str, player: int, puts: tuple[int, int], left: int) -> Move:
        mine, other = puts if player == 1 else puts[::-1]
        kind = rng.random()
        if kind < 0.2:
            return Move(letter, rng.choice([0, 0, 0, 1, 3]), FOLD)
        if kind >= 0.5 and left > 1:
            chips = rng.choice([0, 0, 1, 1, 2, 3, 5])
            after = (puts[0] + chips, puts[1]) if player == 1 else (puts[0], puts[1] + chips)
            return Move(letter, chips, act(3 - player if rng.random() < 0.8 else player, after, left - 1))
        return Move(letter, other - mine, EVEN) if mine <= other else Move(letter, 0, FOLD)

    if rng.random() < 0.08:
        return EVEN
    depth = rng.choice([1, 2, 2, 3, 3, 4])
    while True:
        tree = act(rng.choice([1, 1, 2]), (0, 0), depth)
        if not goes_on or any(leaf.kind == EVEN for leaf in leaves(tree)):
            return tree


@dataclass
class Draft:
    """A game file before it is written: keys and values at the top, and those of each round. A value is its text in TOML."""

    top: dict[str, str]
    rounds: list[dict[str, str]]

    def text(self, rng: random.Random) -> str:
        """Returns the file, with its keys in any order, and now and then a comment or an inline list of rounds."""

        def pairs(table: dict[str, str]) -> list[str]:
            return [f"{key} = {value}" for key, value in rng.sample(list(table.items()), len(table))]

        def block(table: dict[str, str]) -> str:
            return "".join(pair + ("  # x = 1" if rng.random() < 0.05 else "") + "\n" for pair in pairs(table))

        if rng.random() < 0.2:
            return block(self.top) + "round = [" + ", ".join("{ " + ", ".join(pairs(one)) + " }" for one in self.rounds) + "]\n"
        return block(self.top) + "".join("\n[[round]]\n" + block(one) for one in self.rounds)

    def with_top(self, **changes: Any) -> "Draft":
        """Returns the draft with keys set at the top, or, where a value is None, taken away."""
        return Draft(changed(self.top, changes), self.rounds)

    def with_round(self, at: int, **changes: Any) -> "Draft":
        """Returns the draft with keys of a round set or taken away."""
        return Draft(self.top, [changed(one, changes) if place == at else one for place, one in enumerate(self.rounds)])


def changed(table: dict[str, str], changes: dict[str, Any]) -> dict[str, str]:
    """Returns a table with keys set or, where a value is None, taken away."""
    return {key: str(value) for key, value in {**table, **changes}.items() if value is not None}


def quoted(text: str) -> str:
    """Returns a text in quotes."""
    return f'"{text}"'


def random_shape(rng: random.Random, ranking: str) -> list[list[int]]:
    """Returns the numbers of private and public cards of each round."""
    own = rng.choice([1, 1, 2, 2, 3]) if ranking == "three" else 1
    public = 3 - own if ranking == "three" else rng.choice([0, 0, 1, 1, 2])
    shape = [[0, 0] for _ in range(rng.choice([1, 1, 2, 2, 3, 4]))]
    shape[0][0] = 1
    for _ in range(own - 1):
        rng.choice([one for one in shape if one[0] < 2] or [[0, 0]])[0] += 1
    for _ in range(public):
        rng.choice(shape)[1] += 1
    return shape


def random_draft(rng: random.Random, deals: int = 1500, signals: int = 150, ends: int = 60, slots: int = 400) -> Draft:
    """Returns a valid game, small enough for the reference: with at most so many deals, signals in a round, ends, and slots."""
    while True:
        ranking = rng.choice(["high", "pair", "pair", "three", "three", "three"])
        ranks, suits = rng.randint(1, 6), rng.randint(1, 4)
        kinds = ranks * suits
        copies = [rng.choice([0, 1, 1, 1, 2, 2, 3]) for _ in range(kinds)] if rng.random() < 0.5 else [1] * kinds
        shape = random_shape(rng, ranking)
        own = sum(private for private, _ in shape)
        fits_ranking = own + sum(public for _, public in shape) == 3 or ranking != "three"
        sizes = [size for private, public in shape for size in (public, private, private)]
        if kinds > 12 or not fits_ranking or sum(sizes) > sum(copies) or draws(sum(copies), sizes) > 10**6 or count_of_lists(copies, sizes) > deals:
            continue
        counts = [count_of_lists(copies, [size for one in shape[:last] for size in one]) for last in range(1, len(shape) + 1)]
        if max(counts) > signals:
            continue
        rounds, trees = [], []
        for at, (private, public) in enumerate(shape):
            keys = {"private": str(private), "public": str(public)}
            if rng.random() < 0.35:
                bet, cap = rng.choice([1, 2, 3, 10]), rng.choice([0, 1, 1, 2])
                trees.append(limit_tree(bet, cap))
                keys |= {"bet": str(bet), "cap": str(cap)}
            else:
                trees.append(random_tree(rng, at < len(shape) - 1))
                keys["tree"] = quoted(tree_text(trees[-1]))
            rounds.append(keys)
        if not is_small(trees, counts, ends, slots):
            continue
        version = rng.choice([1, 1, 2])
        top = {"version": str(version), "ranks": quoted("".join(rng.sample(RANKS, ranks))), "suits": quoted("".join(rng.sample(SUITS, suits)))}
        if set(copies) != {1} or rng.random() < 0.1:
            top["copies"] = quoted("".join(map(str, copies)))
        top |= {"ranking": quoted(ranking), "ante": str(rng.choice([1, 1, 2, 5]))}
        if version == 2:
            top["bonus"] = str([rng.choice([1, 1, 1, 2, 3, 9]) for _ in range(CATEGORIES[ranking])])
        return Draft(top, rounds)


def is_small(trees: list[Tree], signals: list[int], most_ends: int, most_slots: int) -> bool:
    """Whether trees have few ends and slots, with so many signals in each round."""
    ends = slots = 0
    before = 1
    for at, tree in enumerate(trees):
        found = list(leaves(tree))
        evens = sum(leaf.kind == EVEN for leaf in found)
        ends += before * (len(found) - (evens if at < len(trees) - 1 else 0))
        slots += before * len(found) * signals[at]
        before *= evens
    return ends <= most_ends and slots <= most_slots


def random_game(rng: random.Random, **limits: int) -> bytes:
    """Returns a valid game file."""
    return random_draft(rng, **limits).text(rng).encode()


# ---- strategies


def random_classes(rng: random.Random, signals: Signals) -> Classes:
    """Returns classes whose members have parents of one class, and of which nothing else is asked."""
    lists: list[list[int]] = [[]]
    for number in range(1, signals.rounds + 1):
        most = rng.choice([1, 2, 3, 100])
        above = [lists[-1][parent] for parent in signals.parents[number]] if number > 1 else [0] * signals.count(number)
        lists.append(numbered((one, rng.randrange(most) if most < 100 else signal) for signal, one in enumerate(above)))
    return Classes(signals.parents, lists[1:])


def random_plan(rng: random.Random, form: SequenceForm, player: int) -> Plan:
    """Returns a plan over classes."""
    plan = Plan(player, rng.choice([1, 2, 3, 7, 12, 2**36]), [0] * form.slots[player])
    for point, one in form.sets(player):
        left = form.number_before(plan, point, one)
        *others, last = form.slots_at(point, one)
        for slot in others:
            plan.weights[slot] = rng.choice([0, left, rng.randint(0, left)])
            left -= plan.weights[slot]
        plan.weights[last] = left
    return plan


def random_strategies(rng: random.Random, signals: Signals) -> Iterator[bytes]:
    """Yields strategy files with random plans over single signals and over random classes. Some state a wrong number."""
    for classes in (single_classes(signals), random_classes(rng, signals), random_classes(rng, signals)):
        form = SequenceForm(signals, classes)
        if form.slots[1] + form.slots[2] > 3000:
            continue
        one, two = random_plan(rng, form, 1), random_plan(rng, form, 2)
        numbers = list(verdict(form, one, form, two))
        if rng.random() < 0.3:
            at = rng.randrange(3)
            numbers[at] = rng.choice([Fraction(0), numbers[at] + Fraction(1, 7), -numbers[at]])
        versions = [1, 2] if set(signals.game.bonus) == {1} else [2]
        yield strategy_line(Strategy(form, one, two, (numbers[0], numbers[1], numbers[2])), rng.choice(versions))


# ---- games that are refused


def broken_trees(rng: random.Random) -> list[str]:
    """Returns texts that are mostly no tree's."""
    good = tree_text(random_tree(rng, False))
    at = rng.randint(0, len(good))
    letter = rng.choice("1[]=!:,ak05 Z")
    all_letters = ",".join(f"{one}:=" for one in LETTERS)
    return [
        good[:at], good[:at] + letter + good[at:], good[:at] + letter + good[at + 1 :], good + rng.choice("=1! ]"),
        "!", "", "3[k:=]", "1[]", "1[k:=,k:=]", "1[k00:=]", "1[k5000:=]", "1[k40960:=]", "1[é:=]", " 1[k:=]", "1[K:=]",
        "1[k:" * 17, "1[k:" * 15 + "2[a:" + rng.choice(["1[", "2", "!", "=", "3"]),
        f"1[{all_letters},a:=]", f"1[{all_letters},", f"1[{all_letters}",
    ]


def broken_games(rng: random.Random) -> list[Named]:
    """Returns changes of a random game, one or more for each refusal of a game file."""
    base = random_draft(rng)
    while base.top["version"] != "1":
        base = random_draft(rng)
    found = [*broken_texts(rng, base.text(rng).encode())]
    for name, draft in [*broken_tops(rng, base), *broken_rounds(rng, base), *broken_rules(rng, base), *too_large(rng)]:
        found.append((name, draft.text(rng).encode()))
    return found


def broken_texts(rng: random.Random, text: bytes) -> Iterator[Named]:
    """Yields texts that are not UTF-8, not TOML, or lack what a cut took away."""
    at = rng.randrange(len(text))
    yield "not UTF-8", text[:at] + rng.choice([b"\xff", b"\xc0\x80", b"\xed\xa0\x80", b"\x80"]) + text[at:]
    yield "cut", text[:at]
    yield "one byte changed", text[:at] + bytes([rng.choice(b' ="[]{}#\n0aA-.,')]) + text[at + 1 :]
    yield "a key twice", text.replace(b"ranks", b"suits", 1)


def broken_tops(rng: random.Random, base: Draft) -> Iterator[tuple[str, Draft]]:
    """Yields games whose keys at the top are wrong."""
    categories = CATEGORIES[base.top["ranking"].strip('"')]
    yield "integer too wide", base.with_top(ante=2**63)
    for key in ("version", "ranks", "suits", "ranking", "ante"):
        others = ["1.0", "true", "[]", "{}", "1979-05-27", '"1"' if key in ("version", "ante") else "1"]
        yield f"no {key}", base.with_top(**{key: None})
        yield f"wrong type of {key}", base.with_top(**{key: rng.choice(others)})
    yield "wrong type of copies", base.with_top(copies=1)
    yield "wrong type of bonus", base.with_top(version=2, bonus=rng.choice(["1", '"1"', "[1.0]", '["1"]', "[[1]]"]))
    yield "no round", Draft(base.top, [])
    yield "five rounds", Draft(base.top, base.rounds[:1] * 5)
    for value in ("1", "{}", "[1]", "[[]]", "[{}, 1]", '"x"', "[]"):
        yield f"round = {value}", Draft({**base.top, "round": value}, [])
    yield "another version", base.with_top(version=rng.choice([0, 3, -1, 9, 2**63 - 1]))
    yield "unknown key", base.with_top(**{rng.choice(["x", "rounds", "tree", "Version", '"ran ks"']): 1})
    yield "bonus in version 1", base.with_top(bonus="[1]")
    yield "no bonus in version 2", base.with_top(version=2)
    for bonus in ([1] * (categories + 1), [1] * (categories - 1), [0] * categories, [10] * categories, [-1] * categories):
        yield f"bonus {bonus}", base.with_top(version=2, bonus=bonus)
    yield "ranking out of range", base.with_top(ranking=rng.choice(['"High"', '""', '"four"']))
    yield "ante out of range", base.with_top(ante=rng.choice([0, -1, 4097]))
    for key in ("ranks", "suits"):
        for name, value in (("empty", '""'), ("bad letter", rng.choice(['"A-"', '"é"', '"A B"', '"\\u00e9"', '"A\\n"'])), ("repeated letter", '"AA"')):
            yield f"{key}: {name}", base.with_top(**{key: value})
    yield "too many kinds", base.with_top(ranks='"23456789TJQKAB"', suits='"shdc"')
    for value in ("1", "12x", "1" * 60, "-1", "\\u0661", ""):
        yield f"copies {value}", base.with_top(copies=quoted(value))


def broken_rounds(rng: random.Random, base: Draft) -> Iterator[tuple[str, Draft]]:
    """Yields games of which one round is wrong."""
    at = rng.randrange(len(base.rounds))
    for key, over in (("private", "3"), ("public", "4")):
        yield f"no {key}", base.with_round(at, **{key: None})
        yield f"wrong type of {key}", base.with_round(at, **{key: rng.choice(["1.0", '"1"', "[]", "false"])})
        yield f"{key} out of range", base.with_round(at, **{key: rng.choice(["-1", over, "5"])})
    limit: dict[str, Any] = {"tree": None, "bet": 1, "cap": 1}
    for key in ("bet", "cap"):
        yield f"no {key}", base.with_round(at, **{**limit, key: None})
        yield f"wrong type of {key}", base.with_round(at, **{**limit, key: '"1"'})
        yield f"{key} out of range", base.with_round(at, **{**limit, key: rng.choice([-1, 2049, 9999])})
        yield f"{key} beside tree", base.with_round(at, **{"tree": '"1[k:=]"', "bet": None, "cap": None, key: 1})
    yield "no betting", base.with_round(at, tree=None, bet=None, cap=None)
    yield "wrong type of tree", base.with_round(at, tree=1, bet=None, cap=None)
    yield "unknown key in a round", base.with_round(at, x=1)
    yield "unknown and missing key in a round", base.with_round(at, x=1, private=None)
    for tree in broken_trees(rng):
        yield f"tree {tree}", base.with_round(at, tree=quoted(tree), bet=None, cap=None)


def broken_rules(rng: random.Random, base: Draft) -> Iterator[tuple[str, Draft]]:
    """Yields games that break a rule of games."""
    at, last = rng.randrange(len(base.rounds)), len(base.rounds) - 1
    categories = CATEGORIES[base.top["ranking"].strip('"')]
    no_limit: dict[str, Any] = {"bet": None, "cap": None}
    yield "no private card", base.with_round(0, private=0)
    yield "cards for ranking", base.with_round(at, private=2, public=2)
    yield "not enough cards", base.with_top(ranks='"A"', suits='"s"', copies='"1"')
    yield "no cards at all", base.with_top(ranks='"AB"', suits='"s"', copies='"00"')
    if last:
        yield "no even leaf", base.with_round(rng.randrange(last), tree='"2[f:!,g1:!]"', **no_limit)
    uneven = rng.choice(["1[b1:=]", "1[k:=,b2:2[f:!,c1:=]]", "2[a:1[b:=,c3:=]]", "1[b1:2[c1:=,r2:1[c1:=]]]"])
    yield "uneven", base.with_round(at, tree=quoted(uneven), **no_limit)
    yield "put too large by the ante", base.with_top(ante=4096).with_round(at, tree=None, bet=1, cap=1)
    yield "put too large by a fold", base.with_round(at, tree='"1[k:=,b4096:!]"', **no_limit)
    yield "put too large by the bonus", base.with_top(version=2, bonus=[9] * categories, ante=rng.choice([455, 456, 460]))


def too_large(rng: random.Random) -> Iterator[tuple[str, Draft]]:
    """Yields games over a limit on lines, weight, signals or deals."""

    def game(ranks: str, suits: str, *rounds: tuple[int, int, str], ranking: str = "high", **more: str) -> Draft:
        top = {"version": "1", "ranks": quoted(ranks), "suits": quoted(suits), "ranking": quoted(ranking), "ante": "1", **more}
        return Draft(top, [{"private": str(own), "public": str(board), "tree": quoted(tree)} for own, board, tree in rounds])

    wide = "1[" + ",".join(f"{letter}:=" for letter in LETTERS) + "]"
    widest = "1[" + ",".join(f"{letter}:2{wide[1:]}" for letter in LETTERS) + "]"
    full = "23456789TJQKA"
    yield "too many lines", game("JQK", "s", (1, 0, widest), (0, 0, rng.choice([wide, widest])))
    yield "too many lines in four rounds", game("JQK", "s", (1, 0, widest), *[(0, 0, widest)] * 3)
    yield "too heavy", game(full, "shdc", (1, 0, "="), (0, 2, "="), (0, rng.choice([1, 2, 3]), "="))
    yield "too heavy by copies", game(full, "shdc", (1, 0, "="), (0, 2, "="), copies=quoted("9" * 52))
    yield "too many signals in round 1", game(full, "shdc", (1, 3, "="))
    yield "too many signals in round 2", game(full[:10], "shdc", (1, 1, "="), (0, 2, "="))
    yield "too many deals", game(LETTERS[:17], "sh", (2, 1, "="), ranking="three")


# ---- strategy files and certificates that are refused


def with_value(text: bytes, path: tuple[Any, ...], new: object) -> bytes:
    """Returns a line of JSON with one value replaced or added."""
    whole = json.loads(text)
    node = whole
    for key in path[:-1]:
        node = node[key]
    node[path[-1]] = new
    return json_line(whole)


def without(text: bytes, path: tuple[Any, ...]) -> bytes:
    """Returns a line of JSON with one key taken away."""
    whole = json.loads(text)
    node = whole
    for key in path[:-1]:
        node = node[key]
    del node[path[-1]]
    return json_line(whole)


def broken_strategies(rng: random.Random, text: bytes) -> list[Named]:
    """Returns changes of a strategy file, one or more for each refusal, and some that only the numbers betray."""
    return [*broken_lines(rng, text), *broken_stored_games(rng, text), *broken_classes(rng, text), *broken_plans(rng, text), *broken_numbers(rng, text)]


ODD_FILES = (
    b"", b"1\n", b"null", b"[]", b"{}", b'"x"', b'{"version":1}', b'{"version":1.0}', b'{"version":1e0}', b'{"version":-0}', b'{"version":-1}',
    b'{"version":18446744073709551615}', b'{"version":18446744073709551616}', b'{"version":true}', b'{"version":"1"}', b'{"version":1e999}',
    b'{"version":1,"version":2}', b'{"version":01}', b'["\\ud800"]', b"[1,]", b"[NaN]", b"[" * 127 + b"]" * 127, b"[" * 128 + b"]" * 128, b"\x00",
    b'{"version":3}', b'{"version":0}',
)


def broken_lines(rng: random.Random, text: bytes) -> Iterator[Named]:
    """Yields texts that are not JSON, or not the one text, or whose keys at the top are wrong."""
    at = rng.randrange(len(text))
    yield "cut", text[:at]
    yield "one byte more", text[:at] + rng.choice([b" ", b"0", b",", b"\n", b"x", b"]", b"}", b'"', b"\xff"]) + text[at:]
    yield "one byte changed", text[:at] + bytes([rng.randint(32, 126)]) + text[at + 1 :]
    yield "no line feed", text[:-1]
    yield "two line feeds", text + b"\n"
    yield "a byte order mark", b"\xef\xbb\xbf" + text
    yield "a key twice", text[:1] + b'"value":"0/1",' + text[1:]
    for file in ODD_FILES:
        yield f"file {file[:40]!r}", file
    yield "a key missing", without(text, (rng.choice(["classes", "game", "gap1", "gap2", "player1", "player2", "value"]),))
    yield "a key more", with_value(text, ("x",), 1)
    yield "another version", with_value(text, ("version",), 3 - json.loads(text)["version"])


def broken_stored_games(rng: random.Random, text: bytes) -> Iterator[Named]:
    """Yields strategy files whose game is refused, or is another one."""
    stored = json.loads(text)
    game = stored["game"]
    yield "game of another version", with_value(text, ("game", "version"), 3 - stored["version"])
    yield "game is no object", with_value(text, ("game",), rng.choice([1, [], "x", None]))
    for key in game:
        yield f"game without {key}", without(text, ("game", key))
        yield f"wrong type of {key}", with_value(text, ("game", key), rng.choice([None, True, 1.5, {}]))
    changes = [("round", []), ("bonus", [0]), ("ante", 2**63), ("ante", rng.choice([0, 4097])), ("ante", 4096), ("rounds", []), ("rounds", [1])]
    changes += [("ranking", "four"), ("ranking", rng.choice(["high", "pair", "three"])), ("copies", "x"), ("copies", ""), ("ranks", "AA")]
    for key, new in changes:
        yield f"{key} {new}", with_value(text, ("game", key), new)
    at = rng.randrange(len(game["rounds"]))
    for key in ("private", "public", "tree"):
        yield f"round without {key}", without(text, ("game", "rounds", at, key))
        yield f"wrong type of {key}", with_value(text, ("game", "rounds", at, key), rng.choice([None, [], 0.5]))
    for key, new in (("bet", 1), ("tree", rng.choice(broken_trees(rng))), ("private", rng.choice([-1, 3])), ("public", rng.choice([-1, 4]))):
        yield f"round with {key} {new}", with_value(text, ("game", "rounds", at, key), new)


def broken_classes(rng: random.Random, text: bytes) -> Iterator[Named]:
    """Yields strategy files with other classes."""
    lists = json.loads(text)["classes"]
    for bad in (1, [1], [[1.0]], [["1"]], [[-1]], [[2**32]], {}, [None]):
        yield f"classes {bad}", with_value(text, ("classes",), bad)
    yield "a round less", with_value(text, ("classes",), lists[:-1])
    yield "a round more", with_value(text, ("classes",), [*lists, [1]])
    at = rng.randrange(len(lists))
    yield "a class changed", with_value(text, ("classes", at, rng.randrange(len(lists[at]))), rng.choice([0, 1, 2, 99, 2**32 - 1]))
    yield "a class more", with_value(text, ("classes", at), lists[at] + [1])
    yield "one class", with_value(text, ("classes",), [[1] * len(one) for one in lists])
    yield "parents apart", with_value(text, ("classes",), [list(range(1, len(lists[0]) + 1)), *([1] * len(one) for one in lists[1:])])


def broken_plans(rng: random.Random, text: bytes) -> Iterator[Named]:
    """Yields strategy files with other plans."""
    stored = json.loads(text)
    for player in ("player1", "player2"):
        total, weights = stored[player]["total"], stored[player]["weights"]
        yield f"{player} no object", with_value(text, (player,), rng.choice([1, [], None]))
        yield f"{player} without total", without(text, (player, "total"))
        yield f"{player} with a key more", with_value(text, (player, "x"), 1)
        for new in (rng.choice([-1, 1.5, "1", 2**64]), 0, 2**36 + 1, total + 1):
            yield f"{player} total {new}", with_value(text, (player, "total"), new)
        yield f"{player} weights no numbers", with_value(text, (player, "weights"), rng.choice([1, [-1], [0.5], ["1"], [2**64]]))
        yield f"{player} a weight more", with_value(text, (player, "weights"), weights + [0])
        yield f"{player} doubled", with_value(text, (player,), {"total": 2 * total, "weights": [2 * weight for weight in weights]})
        if weights:
            at = rng.randrange(len(weights))
            yield f"{player} a weight changed", with_value(text, (player, "weights", at), rng.choice([0, 1, weights[at] + 1, 2**64 - 1]))


ODD_FRACTIONS = ("", "0", "1/", "/1", "-0/1", "00/1", "0/01", "+1/2", "1/2 ", " 1/2", "1/-2", "2/4", "0/2", "1/0", "0/0", f"{2**127}/1", f"1/{2**127}",
                 f"{2**127 - 1}/1", "\u0661/2", "1/2/3")


def broken_numbers(rng: random.Random, text: bytes) -> Iterator[Named]:
    """Yields strategy files that state other numbers."""
    for name in ("value", "gap1", "gap2"):
        yield f"{name} no text", with_value(text, (name,), rng.choice([0, None, ["0/1"]]))
        for new in rng.sample(ODD_FRACTIONS, 6):
            yield f"{name} {new}", with_value(text, (name,), new)
        yield f"{name} wrong", with_value(text, (name,), rng.choice(["0/1", "1/1", "-7/3", "123456789/1000"]))


def broken_certificates(rng: random.Random, text: bytes) -> list[Named]:
    """Returns changes of the two lines that `certify` prints, in the second of them."""
    first, _, second = text.partition(b"\n")
    swapped = [("no first line", second), ("lines exchanged", second + first + b"\n")]
    return swapped + [(name, first + b"\n" + line) for name, line in broken_second_lines(rng, second)]


def broken_second_lines(rng: random.Random, line: bytes) -> Iterator[Named]:
    """Yields changes of a certificate."""
    yield "no certificate", b""
    yield "cut", line[: rng.randint(0, len(line) - 3)]
    yield "no line feed", line[:-1]
    yield "a space", b" " + line
    for shape in (b"[]\n", b"{}\n", b'{"version":1}\n'):
        yield f"shape {shape!r}", shape
    for version in (0, 2, -1, 1.5, "1", 2**64 - 1, 2**64):
        yield f"version {version}", with_value(line, ("version",), version)
    for player in ("player1", "player2"):
        values = json.loads(line)[player]["values"]
        for bad in (1, {}, {"bound": 1, "values": []}, {"bound": "0/1", "values": [1]}, {"bound": "0/1", "values": [], "x": 1}):
            yield f"{player} {bad}", with_value(line, (player,), bad)
        for bound in ("1", "2/4", f"{2**127}/1", "-0/1", "1/3", "1000/1"):
            yield f"{player} bound {bound}", with_value(line, (player, "bound"), bound)
        yield f"{player} a value more", with_value(line, (player, "values"), values + ["0"])
        if values:
            at = rng.randrange(len(values))
            steps = [str(int(values[at]) + step) for step in (-1, 1, 5)]
            for new in ("-0", "01", "", "x", "+1", str(2**90), str(2**90 - 1), str(-(2**90)), *steps):
                yield f"{player} value {new}", with_value(line, (player, "values", at), new)
