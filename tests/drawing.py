"""Draws games, strategy files, certificates and words, and breaks them: byte by byte, or field by field. `storm` and `compare` use it.

Everything is drawn by the `random.Random` that is handed in, so a seed gives the same inputs again.
"""

import json
import re

from gameshrink.game import CATEGORIES
from gameshrink.texts import json_line

COMMANDS = ("shrink", "check", "play", "solve", "path", "make", "evaluate", "query", "upgrade", "certify", "judge", "duel", "verify")
GAME_COMMANDS = ("shrink", "check", "solve", "play", "path")
FILE_COMMANDS = ("evaluate", "query", "upgrade", "judge", "certify")
LETTERS = "abcdefghijklmnopqrstuvwxyz"

# numbers at each limit, and one past it
LIMITS = [0, 1, 2, 3, 4, 5, 8, 9, 10, 13, 14, 16, 17, 26, 27, 52, 53, 127, 128, 255, 256, 1000000, 1000001, 2048, 2049, 4095, 4096, 4097, 8192, 8193,
          65535, 65536, 200000, 200001, 262144, 262145, 1048576, 4194304, 4194305, 8000000, 8000001, 16777216, 16777217, 67108864, 67108865,
          2**31, 2**32 - 1, 2**32, 2**36, 2**36 + 1, 2**53, 2**62, 2**63 - 1, 2**63, 2**64 - 1, 2**64, 2**90 - 1, 2**90, 2**127 - 1, 2**127, 10**40]

# for each ranking the private and public cards of each round
SHAPES = {
    "high": [[(1, 0)], [(1, 0)], [(1, 1)], [(1, 0), (0, 1)], [(1, 0), (0, 0)], [(1, 0), (0, 0), (0, 1)], [(1, 0), (0, 1), (0, 1)]],
    "pair": [[(1, 0)], [(1, 1)], [(1, 0), (0, 1)], [(1, 0), (0, 1)], [(1, 0), (0, 2)], [(1, 0), (0, 0), (0, 1)], [(1, 0), (0, 1), (0, 1)]],
    "three": [[(1, 2)], [(1, 0), (0, 2)], [(1, 0), (0, 1), (0, 1)], [(1, 0), (0, 1), (0, 1)], [(2, 0), (0, 1)], [(2, 1)], [(1, 0), (1, 0), (0, 1)], [(1, 1), (1, 0)]],
}


# ---- good games


def tree_of(rng, most_depth=2):
    """Returns a betting tree's text. At most even leaves both players have put the same."""
    def act(player, owed, depth):
        moves = []
        for letter in rng.sample(LETTERS, rng.choice([1, 2, 2, 3])):
            kind = rng.random()
            if owed and kind < 0.35 or not owed and kind < 0.08:
                moves.append(f"{letter}:!")
            elif owed:
                moves.append(f"{letter}{owed}:=")
            elif kind < 0.5 or depth > most_depth:
                moves.append(f"{letter}:=")
            else:
                chips = rng.choice([0, 1, 2, 5])
                after = 3 - player if chips or rng.random() < 0.8 else player
                moves.append(f"{letter}{chips or ''}:{act(after, chips, depth + 1)}")
        return f"{player}[{','.join(moves)}]"
    return rng.choice(["=", act(rng.choice([1, 2]), 0, 0), act(1, 0, 0), act(1, 0, 0), act(1, 0, 0)])


def game_of(rng):
    """Returns a game, which most often is accepted, as a list of its keys and values and a list of the same for each round.

    Long games have few kinds of cards and more copies of each, so that they have few deals.
    """
    ranking = rng.choice(["high", "pair", "three"])
    shape = rng.choice(SHAPES[ranking])
    ranks = "23456789TJQKA"[: rng.choice(([1, 2, 3, 3, 4, 5], [2, 2, 3, 3], [1, 2, 2, 3])[len(shape) - 1])]
    suits = "shdc"[: rng.choice(([1, 1, 2, 2, 3], [1, 1, 1, 2], [1, 1, 1, 1, 2])[len(shape) - 1])]
    kinds, needed = len(ranks) * len(suits), sum(2 * private + public for private, public in shape)
    version = rng.choice([1, 1, 2, 2])
    top = [("version", version), ("ranks", ranks), ("suits", suits), ("ranking", ranking), ("ante", rng.choice([1, 1, 5, 100]))]
    if rng.random() < 0.3 or kinds < needed and rng.random() < 0.9:
        copies = [rng.choice([0, 1, 1, 2, 2, 3]) for _ in range(kinds)]
        while sum(copies) < needed and rng.random() < 0.95:
            copies[rng.randrange(kinds)] += 1
        top.append(("copies", "".join(str(min(9, it)) for it in copies)))
    if version == 2:
        top.append(("bonus", [rng.choice([1, 1, 2, 3, 9]) for _ in range(CATEGORIES[ranking])]))
    rounds = []
    for private, public in shape:
        one = [("private", private), ("public", public)]
        if rng.random() < 0.5:
            one += [("bet", rng.choice([1, 2, 4])), ("cap", rng.choice([0, 1, 1, 2] if len(shape) < 3 else [0, 1, 1]))]
        else:
            one.append(("tree", tree_of(rng, 2 if len(shape) < 3 else 1)))
        rounds.append(one)
    return top, rounds


def toml_of(game):
    top, rounds = game
    lines = [f"{key} = {json.dumps(value)}" for key, value in top]
    for one in rounds:
        lines += ["", "[[round]]"] + [f"{key} = {json.dumps(value)}" for key, value in one]
    return ("\n".join(lines) + "\n").encode()


def game_file(rng):
    return toml_of(game_of(rng))


# ---- words


def classes_words(rng):
    return rng.choice([[], [], ["--classes", "split"], ["--classes", "raw"], ["--classes", "ogi"], ["--classes=raw"]])


def words_of(rng, command):
    """Returns words that a command takes."""
    if command == "shrink":
        return ["shrink"] + rng.choice([[], ["--summary"]])
    if command == "check":
        return ["check"] + classes_words(rng) + rng.choice([[], ["--summary"]])
    if command in ("solve", "path"):
        return [command] + classes_words(rng)
    if command == "play":
        return ["play", "--turns", str(rng.choice([0, 1, 2, 3, 10, 100]))] + classes_words(rng)
    if command == "make":
        kind = rng.choice(["kuhn", "leduc", "rhode"])
        ranks, suits = (rng.randint(1, 5), rng.randint(1, 2)) if kind == "rhode" else (rng.randint(1, 13), rng.randint(1, 4))
        return ["make", "--kind", kind, "--ranks", str(ranks), "--suits", str(suits), "--cap", str(rng.randint(0, 3))] + rng.choice([[], ["--summary"]])
    if command == "query":
        line = rng.choice(["/", "/", "/k", "/b", "/kb", "/kk/", "/a", "/kk", "", "//"])
        return ["query", "--player", rng.choice("12"), "--line", line, "--signal", rng.choice(["2s", "3s", "Js", "Qs/+Ks", "2s/+3s", "As", "2s3s"])]
    return [command]


def broken_words(rng, words):
    """Returns words of which some are changed; bytes, since not all are texts."""
    words = [it.encode() for it in words]
    for _ in range(rng.choice([1, 1, 2])):
        at = rng.randint(0, len(words))
        kind = rng.randrange(9)
        if kind == 0:
            words = words[:at] + words[at + 1:]
        elif kind == 1:
            words = words[:at] + words[at - 1:at] + words[at:]
        elif kind == 2:
            words.insert(at, rng.choice([b"", b"-", b"--", b"-h", b"--help", b"--version", b"help", b"--summary", b"--summary=1", b"--classes", b"--classes=", b"\xff", b"\xc3",
                                         "\u00e9".encode(), b"\n", b"x" * 100000, b"--turns=1", b"--player", b"-1", b"--line=/", b"=", b"--classes=raw"]))
        elif kind == 3 and words:
            at = rng.randrange(len(words))
            words[at] = str(rng.choice(LIMITS)).encode()
        elif kind == 4 and words:
            at = rng.randrange(len(words))
            words[at] = broken(rng, words[at]).replace(b"\x00", b"0")[:120000]
        elif kind == 5:
            rng.shuffle(words)
        elif kind == 6 and words:
            words[0] = rng.choice(COMMANDS).encode()
        elif kind == 7:
            words = words[:1] + [b"--turns", str(rng.choice([0, 1, 1000000, 1000001])).encode() if rng.random() < 0.5 else b"01"] + words[1:]
        else:
            words = [b"make", b"--kind", rng.choice([b"kuhn", b"leduc", b"rhode", b"Kuhn"]), b"--ranks", rng.choice([b"0", b"1", b"13", b"14"]), b"--suits",
                     rng.choice([b"0", b"1", b"4", b"5"]), b"--cap", rng.choice([b"0", b"8", b"9", b"-1"])]
    return words


# ---- inputs broken byte by byte


def place(rng, data):
    return rng.randint(0, len(data))


def flip(rng, data):
    at = rng.randrange(len(data) or 1)
    return data[:at] + bytes([(data[at] if data else 0) ^ (1 << rng.randrange(8))]) + data[at + 1:]


def set_byte(rng, data):
    at = place(rng, data)
    return data[:at] + bytes([rng.choice(b' ="[]{}#\n\r\t0129aAkbf!:,./+-\\\x00\x7f\xff')]) + data[at + 1:]


def cut(rng, data):
    return data[: place(rng, data)]


def cut_front(rng, data):
    return data[place(rng, data):]


def cut_middle(rng, data):
    a, b = sorted((place(rng, data), place(rng, data)))
    return data[:a] + data[b:]


def double(rng, data):
    a, b = sorted((place(rng, data), place(rng, data)))
    return data[:b] + data[a:b] + data[b:]


def swap_lines(rng, data):
    lines = data.split(b"\n")
    rng.shuffle(lines)
    return b"\n".join(lines)


def drop_line(rng, data):
    lines = data.split(b"\n")
    del lines[rng.randrange(len(lines))]
    return b"\n".join(lines)


def number(rng, data):
    """Puts a number at a limit, or one past it, in place of another."""
    found = list(re.finditer(rb"-?\d+", data))
    if not found:
        return data
    it = rng.choice(found)
    new = rng.choice(["", "", "", "-", "0", "+"]) + str(rng.choice(LIMITS)) + rng.choice(["", "", "", "", ".0", "e0", "e400"])
    return data[: it.start()] + new.encode() + data[it.end():]


def step_number(rng, data):
    found = list(re.finditer(rb"\d{1,40}", data))
    if not found:
        return data
    it = rng.choice(found)
    return data[: it.start()] + str(max(0, int(it.group()) + rng.choice([-1, 1]))).encode() + data[it.end():]


def inserted(rng, data):
    new = rng.choice([b"\x00", b"\xff", b"\xc0\x80", b"\xed\xa0\x80", b"\xf4\x90\x80\x80", b"\x80", b"\xef\xbb\xbf", b"\r", b"\n", b"\n\n", b"\xe2\x80\xa8", b'"', b"'''",
                      b'"""', b"\\u0000", b"\\ud800", b"#", b",", b"null", b"NaN", b"inf", b"1e999", b"true", b"1979-05-27T07:32:00Z", b"{}", b"[]"])
    at = place(rng, data)
    return data[:at] + new + data[at:]


def line_ends(rng, data):
    return data.replace(b"\n", rng.choice([b"\r\n", b"\r", b"\n\n", b"", b"\n\x00"]))


def marked(rng, data):
    return rng.choice([b"\xef\xbb\xbf", b"\xff\xfe", b"\x00", b"\n", b" "]) + data


def trailed(rng, data):
    return data + rng.choice([b"\n", b" ", b"\x00", b"\xff", b"{}", b"\r\n", b"#", data[:50]])


def long_text(rng, data):
    """Puts a long run of one letter into a text, or a long comment in front."""
    size = rng.choice([100, 1000, 10000, 100000])
    filler = rng.choice([b"a", b"A", b"1", b"\xc3\xa9", b" ", b"=", b"k:=,", b"\\\\"]) * size
    quotes = [it.start() for it in re.finditer(rb'"', data)]
    if quotes and rng.random() < 0.8:
        at = rng.choice(quotes) + 1
        return data[:at] + filler + data[at:]
    return b"#" + filler + b"\n" + data


def nested(rng, data):
    """Puts brackets deep inside one another, or acts."""
    deep = rng.choice([15, 16, 17, 100, 127, 128, 129, 1000, 20000])
    first, last = rng.choice([(b"[", b"]"), (b"{a=", b"}"), (b'{"a":', b"}"), (b"1[k:", b"]"), (b"[[", b"]]"), (b"a.", b"")])
    new = first * deep + rng.choice([b"", b"1", b"="]) + last * rng.choice([deep, deep, deep - 1, 0])
    quotes = [it.end() for it in re.finditer(rb'tree" ?[:=] ?"|tree = "', data)]
    if quotes and rng.random() < 0.5:
        at = rng.choice(quotes)
        return data[:at] + new + data[data.find(b'"', at):]
    ends = [it.end() for it in re.finditer(rb"[=:]", data)]
    if ends and rng.random() < 0.8:
        at = rng.choice(ends)
        return data[:at] + new + data[at + rng.randrange(5):]
    return rng.choice([b"", b"a = ", data]) + new + b"\n"


def spots_of(whole):
    """Returns each place of a JSON value that holds another one: the list or the object, and the key there."""
    spots = []

    def walk(node):
        for key in list(node) if isinstance(node, dict) else range(len(node)):
            spots.append((node, key))
            if isinstance(node[key], (dict, list)):
                walk(node[key])

    walk(whole)
    return spots


def swapped_value(rng, data):
    """Puts one value in place of another, anywhere in a text of JSON."""
    try:
        whole = json.loads(data)
    except (ValueError, RecursionError):
        return flip(rng, data)
    if not isinstance(whole, (dict, list)) or not whole:
        return flip(rng, data)
    spots = spots_of(whole)
    node, key = rng.choice(spots)
    if isinstance(node, dict) and rng.random() < 0.1:
        del node[key]
    elif isinstance(node, dict) and rng.random() < 0.1:
        node[rng.choice(["x", "", "a" * 300, "tree", "\u00e9"])] = 1
    else:
        other, at = rng.choice(spots)
        node[key] = rng.choice([None, True, 1.5, "", "0/1", "1/0", [], {}, rng.choice(LIMITS), -1, str(rng.choice(LIMITS)), json.loads(json.dumps(other[at]))])
    return json_line(whole).encode()


def stated(rng, data):
    """Puts another fraction, most often a reduced one, in place of one that is stated."""
    found = list(re.finditer(rb'"(value|gap1|gap2|bound)":"[^"]*"', data))
    if not found:
        return step_number(rng, data)
    it = rng.choice(found)
    new = rng.choice([b"0/1", b"1/1", b"-1/2", b"7/6", b"2/4", b"1/0", b"-0/1", str(2**127 - 1).encode() + b"/1", b"1/" + str(2**127).encode()])
    return data[: it.start()] + b'"' + it.group(1) + b'":"' + new + b'"' + data[it.end():]


BREAKS = [flip, flip, set_byte, set_byte, cut, cut_front, cut_middle, double, swap_lines, drop_line, number, number, number, step_number, step_number,
          inserted, inserted, line_ends, marked, trailed, long_text, nested, swapped_value, swapped_value, stated]


def broken(rng, data):
    for _ in range(rng.choice([1, 1, 1, 2, 3])):
        data = rng.choice(BREAKS)(rng, data)
    return data


def noise(rng):
    kind = rng.random()
    if kind < 0.4:
        return bytes(rng.randrange(256) for _ in range(rng.choice([0, 1, 2, 10, 100, 1000])))
    if kind < 0.7:
        return "".join(rng.choice('[]{}",:0123456789 \n=#abtrue.-') for _ in range(rng.choice([1, 5, 50, 500]))).encode()
    return nested(rng, b"")


# ---- games changed field by field


def changed_text(rng, text, letters):
    """Returns a text with one letter set, dropped, doubled, or two exchanged."""
    at, kind = rng.randint(0, len(text)), rng.random()
    if kind < 0.4:
        return text[:at] + rng.choice(letters) + text[at + 1:]
    if kind < 0.55:
        return text[:at] + text[at + 1:]
    if kind < 0.7:
        return text[:at] + rng.choice(letters) + text[at:]
    if len(text) < 2:
        return text
    a, b = sorted(rng.sample(range(len(text)), 2))
    return text[:a] + text[b] + text[a + 1:b] + text[a] + text[b + 1:]


def changed_field(rng, key, value):
    """Returns another value of a key of a game: most often a near one."""
    if key == "copies" and isinstance(value, str):
        at = rng.randrange(len(value) or 1)
        digit = value[at:at + 1]
        if digit.isdigit() and rng.random() < 0.7:
            return value[:at] + str((int(digit) + rng.choice([-1, 1])) % 10) + value[at + 1:]
        return changed_text(rng, value, "0123456789")
    if key == "tree" and isinstance(value, str):
        numbers = list(re.finditer(r"(?<=[a-z])\d+", value))
        if numbers and rng.random() < 0.4:
            it = rng.choice(numbers)
            return value[: it.start()] + str(int(it.group()) + rng.choice([-1, 1])) + value[it.end():]
        return changed_text(rng, value, "=![]:,12" + LETTERS)
    if key == "ranking":
        return rng.choice(["high", "pair", "three", "High", ""])
    if isinstance(value, str):
        return changed_text(rng, value, "23456789TJQKAshdc")
    if isinstance(value, list):
        value = list(value)
        at = rng.randrange(len(value) or 1)
        value[at:at + 1] = rng.choice([[max(0, (value + [1])[at] + rng.choice([-1, 1]))], [], [1, 1]])
        return value
    if isinstance(value, int):
        return value + rng.choice([-1, 1, 1]) if rng.random() < 0.8 else rng.choice(LIMITS)
    return value


def changed_pairs(rng, pairs):
    at, kind = rng.randrange(len(pairs)), rng.random()
    key, value = pairs[at]
    if kind < 0.85:
        return pairs[:at] + [(key, changed_field(rng, key, value))] + pairs[at + 1:]
    if kind < 0.9:
        return pairs[:at] + pairs[at + 1:]
    return pairs[:at] + [(rng.choice(["bet", "cap", "tree", "copies", "bonus", "round", "x"]), rng.choice([value, 1, "="]))] + pairs[at:]


def changed_game(rng, game):
    """Returns the game with one to three fields changed, or with a round more or less."""
    top, rounds = list(game[0]), [list(it) for it in game[1]]
    for _ in range(rng.choice([1, 1, 1, 2, 3])):
        kind = rng.random()
        if kind < 0.45:
            top = changed_pairs(rng, top)
        elif kind < 0.9 and rounds:
            at = rng.randrange(len(rounds))
            rounds[at] = changed_pairs(rng, rounds[at])
        elif kind < 0.95 and rounds:
            del rounds[rng.randrange(len(rounds))]
        else:
            rounds.insert(rng.randint(0, len(rounds)), [("private", rng.choice([0, 0, 1])), ("public", rng.choice([0, 0, 1])), ("bet", 1), ("cap", 1)])
        if not top:
            top = [("version", 1)]
    return top, rounds


# ---- strategy files changed field by field; each takes and changes a value that `json.loads` gave


def by_one(rng, file):
    """Changes one whole number by one, anywhere: a weight, a total, a class, an ante, a chip of a tree, a part of a fraction."""
    spots = [(node, key) for node, key in spots_of(file) if isinstance(node[key], (int, str))]
    for _ in range(20):
        node, key = rng.choice(spots)
        value = node[key]
        if isinstance(value, int):
            node[key] = max(0, value + rng.choice([-1, 1]))
            return
        numbers = list(re.finditer(r"\d+", value))
        if numbers:
            it = rng.choice(numbers)
            node[key] = value[: it.start()] + str(max(0, int(it.group()) + rng.choice([-1, 1]))) + value[it.end():]
            return


def weights_of(rng, file):
    return file[rng.choice(["player1", "player2"])]["weights"]


def exchanged_weights(rng, file):
    weights = weights_of(rng, file)
    if len(weights) > 1:
        a = rng.randrange(len(weights))
        b = min(len(weights) - 1, a + rng.choice([1, 1, 2])) if rng.random() < 0.7 else rng.randrange(len(weights))
        weights[a], weights[b] = weights[b], weights[a]


def moved_weight(rng, file):
    """Takes one from a weight and gives it to another one near it."""
    weights = weights_of(rng, file)
    held = [at for at, it in enumerate(weights) if it]
    if held and len(weights) > 1:
        a = rng.choice(held)
        b = (a + rng.choice([-1, 1, 1, 2])) % len(weights)
        part = rng.choice([1, 1, weights[a]])
        weights[a] -= part
        weights[b] += part


def scaled(rng, file):
    """The same plan over a greater total, which stays a plan."""
    player, by = file[rng.choice(["player1", "player2"])], rng.choice([2, 3, 7, 2**20])
    player["total"] *= by
    player["weights"] = [it * by for it in player["weights"]]


def exchanged_plans(_rng, file):
    file["player1"], file["player2"] = file["player2"], file["player1"]


def renamed_class(rng, file):
    """Gives one class another's number, exchanges two numbers, or moves one signal to another class."""
    classes = [it for it in file["classes"] if it]
    if not classes:
        return
    numbers = rng.choice(classes)
    a, b, kind = rng.choice(numbers), rng.choice(numbers + [max(numbers) + 1]), rng.random()
    if kind < 0.35:
        numbers[rng.randrange(len(numbers))] = b
    else:
        numbers[:] = [b if it == a else a if it == b and kind < 0.6 else it for it in numbers]
    if rng.random() < 0.5:
        seen = {}
        numbers[:] = [seen.setdefault(it, len(seen) + 1) for it in numbers]


def restated(rng, file):
    """Changes a stated number: its sign, another one's text, or one part by one."""
    name, kind = rng.choice(["value", "gap1", "gap2"]), rng.random()
    text = file[name]
    if kind < 0.3:
        file[name] = file[rng.choice(["value", "gap1", "gap2"])]
    elif kind < 0.5:
        file[name] = text[1:] if text.startswith("-") else "-" + text
    else:
        num, _, den = text.partition("/")
        if num.lstrip("-").isdigit() and den.isdigit():
            part = rng.random() < 0.5
            file[name] = f"{int(num) + rng.choice([-1, 1])}/{den}" if part else f"{num}/{max(1, int(den) + rng.choice([-1, 1]))}"


def changed_stored_game(rng, file):
    """Changes a field of the game that a strategy file holds."""
    game = file["game"]
    if rng.random() < 0.5 or not game["rounds"]:
        key = rng.choice(["ranks", "suits", "copies", "ranking", "ante"] + ["bonus"] * ("bonus" in game))
        game[key] = changed_field(rng, key, game[key])
    else:
        one = rng.choice(game["rounds"])
        key = rng.choice(["private", "public", "tree", "tree"])
        one[key] = changed_field(rng, key, one[key])


def renamed_cards(rng, file):
    """Another letter for a rank or a suit, which leaves everything else as it is."""
    key = rng.choice(["ranks", "suits"])
    text = file["game"][key]
    at, new = rng.randrange(len(text) or 1), rng.choice("XYZxyz")
    if new not in text:
        file["game"][key] = text[:at] + new + text[at + 1:]


def other_version(_rng, file):
    """The same strategy in the other version, where its bonuses are all 1."""
    game = file["game"]
    if file["version"] == 2 and all(it == 1 for it in game.get("bonus", [2])):
        del game["bonus"]
        file["version"] = game["version"] = 1
    elif file["version"] == 1 and game["ranking"] in CATEGORIES:
        game["bonus"] = [1] * CATEGORIES[game["ranking"]]
        file["version"] = game["version"] = 2


def without_round(rng, file):
    rounds = file["game"]["rounds"]
    if rounds:
        at = rng.randrange(len(rounds))
        del rounds[at]
        if rng.random() < 0.5:
            del file["classes"][at:at + 1]


FIELDS = [by_one, by_one, by_one, exchanged_weights, exchanged_weights, moved_weight, moved_weight, scaled, exchanged_plans, renamed_class, renamed_class,
          restated, restated, changed_stored_game, changed_stored_game, renamed_cards, other_version, without_round]


def changed_file(rng, data):
    """Returns a strategy file with one to three fields changed, in the one text of what it then holds."""
    file = json.loads(data)
    for _ in range(rng.choice([1, 1, 1, 2, 3])):
        rng.choice(FIELDS)(rng, file)
        if not isinstance(file.get("game"), dict):
            break
    return json_line(file).encode()


# ---- strategies drawn over any classes


def kinds_of(file):
    """Names what a strategy file has that a small one may lack."""
    game = file["game"]
    trees = [it["tree"] for it in game["rounds"]]
    return [name for name, is_so in (
        (f"of {len(trees)} round{'s' * (len(trees) > 1)}", True), ("with copies", any(it > "1" for it in game["copies"])), ("with bonuses", any(it > 1 for it in game.get("bonus", []))),
        ("with early ends", any("!" in it for it in trees[:-1])), ("of single signals", all(max(it) == len(it) for it in file["classes"]))) if is_so]



def classes_of(rng, signals):
    """Returns class numbers of the raw signals of each round: members of one class have parents of one class, and nothing else is asked."""
    colours, lists, before = rng.choice([1, 2, 2, 3, 50]), [], {(): 0}
    for round_signals in signals:
        seen, here = {}, {}
        for signal in round_signals:
            here[signal] = seen.setdefault((before[signal[:-1]], rng.randrange(colours)), len(seen) + 1)
        lists.append([here[it] for it in round_signals])
        before = here
    return lists


def plan_of(rng, points, signals, classes, player):
    """Returns a plan of a player over classes. A point has its `number`, `round` from 0, `actor`, `moves`, and the `last` step of each player before it."""
    total, held, weights = rng.choice([1, 2, 3, 12, 1000, 2**36]), {}, []
    class_of = [dict(zip(*it)) for it in zip(signals, classes)]
    for point in points:
        if point.actor != player:
            continue
        first = {}
        for signal in signals[point.round]:
            first.setdefault(class_of[point.round][signal], signal)
        step = point.last.get(player)
        for one in range(1, len(first) + 1):
            comes = total
            if step:
                before = points[step[0]].round
                comes = held[step[0], class_of[before][first[one][: before + 1]], step[1]]
            for move in range(len(point.moves)):
                part = comes if move + 1 == len(point.moves) else rng.choice([0, comes, rng.randint(0, comes)])
                comes -= part
                held[point.number, one, move] = part
                weights.append(part)
    return {"total": total, "weights": weights}


# ---- certificates changed field by field


def changed_bound(rng, text):
    num, _, den = text.partition("/")
    if not (num.lstrip("-").isdigit() and den.isdigit()):
        return "0/1"
    kind = rng.random()
    if kind < 0.4:
        return f"{int(num) + rng.choice([-1, 1])}/{den}"
    if kind < 0.6:
        return f"{num}/{int(den) + 1}"
    return text[1:] if text.startswith("-") else "-" + text


def changed_certificate(rng, lines):
    """Returns a strategy and its certificate, of which one field or two are changed: a number of the table too low by one, too high, exchanged, a bound, a player."""
    file, _, table = lines.partition(b"\n")
    try:
        certificate = json.loads(table)
    except ValueError:
        return lines
    for _ in range(rng.choice([1, 1, 1, 2])):
        player = certificate[rng.choice(["player1", "player2"])]
        values, kind = player["values"], rng.random()
        at = rng.randrange(len(values) or 1)
        is_whole = bool(values) and re.fullmatch(r"-?\d+", values[at]) is not None
        if kind < 0.35 and is_whole:
            values[at] = str(int(values[at]) - 1)
        elif kind < 0.5 and is_whole:
            values[at] = str(int(values[at]) + rng.choice([1, 1, 5, 10**9]))
        elif kind < 0.6 and values:
            other = rng.randrange(len(values))
            values[at], values[other] = values[other], values[at]
        elif kind < 0.7:
            player["bound"] = changed_bound(rng, player["bound"])
        elif kind < 0.78:
            certificate["player1"], certificate["player2"] = certificate["player2"], certificate["player1"]
        elif kind < 0.84 and values:
            values[at] = rng.choice(["-0", "", "00", "1.5", str(2**90), str(-(2**90)), str(2**90 - 1), str(1 - 2**90)])
        elif kind < 0.9:
            values[at:at + 1] = rng.choice([[], ["0", "0"]])
        else:
            file = changed_file(rng, file).rstrip(b"\n")
    return file + b"\n" + json_line(certificate).encode()
