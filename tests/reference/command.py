"""The words of the command line, and what each command prints or how it refuses."""

from collections.abc import Callable
from itertools import chain

from .answers import certify, check_certificate, fictitious_play
from .classes import Classes, coarsest_lossless, first_unlike, single_classes
from .game_file import read_game
from .isomorphism import signal_classes
from .plans import Plan, SequenceForm, Verdict, hand_value, mixture, raw_cells, verdict
from .refusals import Refusal, refused
from .signals import Signals
from .solution import path_of, solve
from .strategy_file import NUMBERS, Strategy, certificate_line, fraction_text, read_certificate, read_strategy, strategy_line

MOST_INPUT = 16777216
MOST_RAW_CELLS = 16777216

USAGE = "usage: gameshrink shrink, check, solve, play, evaluate, query, make, upgrade, judge, duel, certify, verify or path"
RANKS, SUITS = "23456789TJQKA", "shdc"

# for each kind of game the ranking, the ante, and for each round its private and public cards and its bet
MADE: dict[str, tuple[str, int, list[tuple[int, int, int]]]] = {
    "kuhn": ("high", 1, [(1, 0, 1)]),
    "leduc": ("pair", 1, [(1, 0, 2), (0, 1, 4)]),
    "rhode": ("three", 5, [(1, 0, 10), (0, 1, 20), (0, 1, 20)]),
}

Options = dict[str, str]


def number_in(least: int, most: int) -> Callable[[str], bool]:
    """`number_in`: returns the rule of numbers from `least` to `most`, without a sign or a leading zero."""
    return lambda text: text.isascii() and text.isdigit() and (text == "0" or text[0] != "0") and len(text) <= 9 and least <= int(text) <= most


def any_text(_text: str) -> bool:
    """The rule that every text obeys."""
    return True


CLASSES = {"--classes": ["ogi", "split", "raw"].__contains__}
# for each command the rules of its options; `--summary` is a flag, and `--classes` may be left out
COMMANDS: dict[str, dict[str, Callable[[str], bool]]] = {
    "shrink": {"--summary": any_text},
    "check": {**CLASSES, "--summary": any_text},
    "solve": CLASSES,
    "play": {**CLASSES, "--turns": number_in(0, 1000000)},
    "evaluate": {},
    "query": {"--player": number_in(1, 2), "--line": any_text, "--signal": any_text},
    "make": {"--kind": MADE.__contains__, "--ranks": number_in(1, 13), "--suits": number_in(1, 4), "--cap": number_in(0, 8), "--summary": any_text},
    "upgrade": {},
    "judge": {},
    "duel": {},
    "certify": {},
    "verify": {},
    "path": CLASSES,
}


def is_text(word: str) -> bool:
    """Whether a word was UTF-8: bytes that are not come as halves of surrogate pairs."""
    return not any("\ud800" <= letter <= "\udfff" for letter in word)


def read_words(words: list[str]) -> tuple[str, Options]:
    """`request_of`: returns the command and its options, as `clap` reads them.

    >>> read_words(["check", "--classes=raw"])
    ('check', {'--classes': 'raw'})
    """
    usage = Refusal(2, USAGE)
    if not words or words[0] not in COMMANDS or not all(map(is_text, words)):
        raise usage
    rules, rest = COMMANDS[words[0]], words[1:]
    given: Options = {}
    while rest:
        word, *rest = rest
        if word == "--" and not rest:
            break
        name, equals, value = word.partition("=")
        if not name.startswith("--") or name not in rules or name in given or equals and name == "--summary":
            raise usage
        if not equals and name != "--summary":
            if not rest or rest[0].startswith("-") and rest[0] != "-":
                raise usage
            value, *rest = rest
        if not rules[name](value):
            raise usage
        given[name] = value
    if not set(rules) - set(given) <= {"--summary", "--classes"}:
        raise usage
    if "--classes" in rules:
        given.setdefault("--classes", "split")
    return words[0], given


def lines(*texts: str) -> bytes:
    """Returns some lines."""
    return "".join(f"{text}\n" for text in texts).encode("ascii")


def two_lines(data: bytes) -> tuple[bytes, bytes]:
    """Returns the first line with its line feed, and all that follows."""
    end = data.find(b"\n") + 1 or len(data)
    return data[:end], data[end:]


def signals_of(data: bytes) -> Signals:
    """Returns the raw signals of a game file."""
    with refused(7, "bad game: "):
        return Signals(read_game(data))


def strategy_of(data: bytes, which: str = "") -> Strategy:
    """Returns a strategy; its classes may lose something, and its numbers may be wrong."""
    with refused(12, f"bad strategy: {which}"):
        return read_strategy(data)


def class_text(signals: Signals, classes: Classes, options: Options) -> bytes:
    """Returns the class text, or its summary."""
    summary = "--summary" in options
    out = [f"deals {signals.game.deal_count} weight {signals.game.weight}"] if summary else []
    for number in range(1, signals.rounds + 1):
        out.append(f"round {number} classes {classes.count(number)} signals {signals.count(number)}")
        if not summary:
            for one in classes.numbers(number):
                out.append(f"{one}: " + " ".join(signals.text(number, signal) for signal in classes.members[number][one]))
    return lines(*out)


def verdict_text(numbers: Verdict) -> bytes:
    """Returns the three lines of a verdict."""
    return lines(*(f"{name} {fraction_text(number)}" for name, number in zip(NUMBERS, numbers)))


def refuse_unlike(signals: Signals, classes: Classes) -> None:
    """Refuses classes that are not lossless."""
    found = first_unlike(signals, classes)
    if found:
        number, first, second = found
        raise Refusal(8, f"unlike: round {number} {signals.text(number, first)} {signals.text(number, second)}")


def form_of(data: bytes, options: Options) -> SequenceForm:
    """Returns a game over the classes that the options name, which are lossless."""
    signals = signals_of(data)
    grouping = options["--classes"]
    classes = single_classes(signals) if grouping == "raw" else signal_classes(signals)
    if grouping == "split":
        classes = coarsest_lossless(signals, classes)
    refuse_unlike(signals, classes)
    return SequenceForm(signals, classes)


def confirm(strategy: Strategy) -> Verdict:
    """Makes the checks of `evaluate`; returns the value and both gaps."""
    form = strategy.form
    refuse_unlike(form.signals, form.classes)
    form.check_limits()
    found = verdict(form, strategy.one, form, strategy.two)
    for name, stated, number in zip(NUMBERS, strategy.numbers, found):
        if stated != number:
            raise Refusal(13, f"wrong numbers: {name} {fraction_text(stated)} found {fraction_text(number)}")
    return found


def refuse_raw_cells(signals: Signals) -> None:
    """Refuses a game with too many raw cells."""
    cells = raw_cells(signals)
    if cells > MOST_RAW_CELLS:
        raise Refusal(11, f"too large: raw cells: {cells}")


def shrink(data: bytes, options: Options) -> bytes:
    """Prints the signal classes."""
    signals = signals_of(data)
    return class_text(signals, signal_classes(signals), options)


def check(data: bytes, options: Options) -> bytes:
    """Prints classes that are lossless."""
    form = form_of(data, options)
    return class_text(form.signals, form.classes, options)


def strategy_text(form: SequenceForm, one: Plan, two: Plan) -> bytes:
    """Returns the strategy file of two plans."""
    return strategy_line(Strategy(form, one, two, verdict(form, one, form, two)))


def play(data: bytes, options: Options) -> bytes:
    """Prints the plans after some turns of fictitious play."""
    form = form_of(data, options)
    form.check_limits()
    return strategy_text(form, *fictitious_play(form, int(options["--turns"])))


def solved(data: bytes, options: Options) -> bytes:
    """Prints an exact solution: both gaps are 0."""
    form = form_of(data, options)
    form.check_limits()
    one, two = solve(form)
    assert verdict(form, one, form, two)[1:] == (0, 0), "a solution leaves no gap"
    return strategy_text(form, one, two)


def path(data: bytes, options: Options) -> bytes:
    """Prints the path of `solve`."""
    form = form_of(data, options)
    form.check_limits()
    found = path_of(form)
    pivots = (f"{at} enters {entering + 1} leaves {leaving + 1}" for at, (entering, leaving) in enumerate(found.pivots, 1))
    return lines(f"opening {fraction_text(found.start)}", *pivots, f"aim {fraction_text(found.aim_value())}")


def evaluate(data: bytes, _options: Options) -> bytes:
    """Prints the numbers of a strategy that it confirms."""
    return verdict_text(confirm(strategy_of(data)))


def upgrade(data: bytes, _options: Options) -> bytes:
    """Prints a confirmed strategy in version 2."""
    strategy = strategy_of(data)
    confirm(strategy)
    return strategy_line(strategy)


def query(data: bytes, options: Options) -> bytes:
    """Prints what a player does at a point with a raw signal, and this player's gap."""
    strategy = strategy_of(data)
    numbers = confirm(strategy)
    form, player = strategy.form, int(options["--player"])
    point = next((at for at, point in enumerate(form.game.points) if point.line == options["--line"]), None)
    if point is None:
        raise Refusal(14, "bad query: line")
    here = form.game.points[point]
    if here.player != player:
        raise Refusal(14, "bad query: player")
    places = {number: form.signals.place_of(number, options["--signal"]) for number in range(1, form.signals.rounds + 1)}
    if all(place is None for place in places.values()):
        raise Refusal(14, "bad query: signal")
    signal = places[here.round]
    if signal is None:
        raise Refusal(14, "bad query: round")
    shares = mixture(form, strategy.one if player == 1 else strategy.two, point, signal)
    return lines(*(f"{letter} {fraction_text(share)}" for letter, share in shares), f"gap {fraction_text(numbers[player])}")


def judge(data: bytes, _options: Options) -> bytes:
    """Prints the verdict of a strategy on raw cards, over classes of any kind."""
    strategy = strategy_of(data)
    refuse_raw_cells(strategy.form.signals)
    return verdict_text(verdict(strategy.form, strategy.one, strategy.form, strategy.two))


def duel(data: bytes, _options: Options) -> bytes:
    """Prints the verdict of player 1 of one strategy against player 2 of another, and the value of each hand."""
    first, second = two_lines(data)
    one, two = strategy_of(first, "first: "), strategy_of(second, "second: ")
    if one.form.game.stated(2) != two.form.game.stated(2):
        raise Refusal(16, "other game")
    signals = one.form.signals
    refuse_raw_cells(signals)
    sides = (one.form, one.one, two.form, two.two)
    hands = (f"hand {signals.text(1, hand)} {fraction_text(hand_value(*sides, hand))}" for hand in range(signals.count(1)))
    return verdict_text(verdict(*sides)) + lines(*hands)


def certified(data: bytes, _options: Options) -> bytes:
    """Prints a confirmed strategy in version 2, and its certificate."""
    strategy = strategy_of(data)
    confirm(strategy)
    return strategy_line(strategy) + certificate_line(certify(strategy.form, strategy.one, strategy.two))


def verify(data: bytes, _options: Options) -> bytes:
    """Prints a strategy's value, and the bounds of a certificate that holds for it."""
    first, second = two_lines(data)
    strategy = strategy_of(first)
    with refused(17, "bad certificate: "):
        certificate = read_certificate(second)
    form = strategy.form
    refuse_unlike(form.signals, form.classes)
    form.check_limits()
    with refused(17, "bad certificate: "):
        check_certificate(form, strategy.one, strategy.two, certificate)
    value = verdict(form, strategy.one, form, strategy.two)[0]
    bounds = (f"player{player} at most {fraction_text(bound)}" for player, bound in enumerate(certificate.bounds, 1))
    return lines(f"value {fraction_text(value)}", *bounds)


def make(_data: bytes, options: Options) -> bytes:
    """Prints a made game file, or the summary of its signal classes."""
    ranking, ante, rounds = MADE[options["--kind"]]
    ranks, suits, cap = RANKS[-int(options["--ranks"]) :], SUITS[: int(options["--suits"])], options["--cap"]
    head = ["version = 1", f'ranks = "{ranks}"', f'suits = "{suits}"', f'ranking = "{ranking}"', f"ante = {ante}"]
    blocks = (["", "[[round]]", f"private = {own}", f"public = {board}", f"bet = {bet}", f"cap = {cap}"] for own, board, bet in rounds)
    text = lines(*head, *chain.from_iterable(blocks))
    return shrink(text, options) if "--summary" in options else text


CALLS: dict[str, Callable[[bytes, Options], bytes]] = {
    "shrink": shrink, "check": check, "solve": solved, "play": play, "path": path, "make": make, "evaluate": evaluate, "query": query,
    "upgrade": upgrade, "judge": judge, "duel": duel, "certify": certified, "verify": verify,
}


def run(words: list[str], read: Callable[[], bytes]) -> tuple[int, bytes, bytes]:
    """Returns the status of a run, and what goes to stdout and to stderr. `read` gives the whole input; `make` does not call it.

    >>> run(["make"], bytes)[0]
    2
    """
    try:
        command, options = read_words(words)
        data = b"" if command == "make" else read()
        if len(data) > MOST_INPUT:
            raise Refusal(6, f"input longer than {MOST_INPUT} bytes")
        return 0, CALLS[command](data, options), b""
    except Refusal as refusal:
        return refusal.status, b"", f"{refusal.line}\n".encode()
