"""Games and strategies that several tests of the package use, and drawn ones."""

import io
import sys
from contextlib import redirect_stderr, redirect_stdout
from pathlib import Path

from gameshrink import Game, Program, Strategy
from gameshrink.command import run
from gameshrink.layout import Layout
from gameshrink.program import CHECKOUT

PROGRAM = Program()
EXAMPLES = CHECKOUT / "examples"

KUHN = (
    '"game":{"ante":1,"bonus":[1],"copies":"111","ranking":"high","ranks":"JQK",'
    '"rounds":[{"private":1,"public":0,"tree":"1[k:2[k:=,b1:1[f:!,c1:=]],b1:2[f:!,c1:=]]"}],"suits":"s","version":2}'
)
# Plans of Kuhn poker: classes, both totals and weights, and the value and gaps as worked by hand. The last pair is optimal; Kuhn 1950 has -1/18.
WORKED = [
    ("[[1,2,3]]", (2, [1, 1, 1, 1, 2, 0, 1, 0, 1, 0, 2, 0]), (2, [1, 1, 1, 1, 2, 0, 2, 0, 2, 0, 2, 0]), "1/12 13/12 7/6"),
    ("[[1,2,3]]", (1, [0, 1, 0, 1, 0, 1, 0, 0, 0, 0, 0, 0]), (1, [1, 0, 1, 0, 1, 0, 1, 0, 1, 0, 1, 0]), "1/1 0/1 4/3"),
    ("[[1,1,2]]", (1, [1, 0, 1, 0, 1, 0, 1, 0]), (1, [1, 0, 1, 0, 1, 0, 0, 1]), "0/1 1/6 1/1"),
    ("[[1,2,3]]", (3, [3, 0, 3, 0, 3, 0, 3, 0, 2, 1, 0, 3]), (3, [2, 1, 3, 0, 0, 3, 3, 0, 2, 1, 0, 3]), "-1/18 0/1 0/1"),
]


def kuhn_file(classes, one, two, numbers):
    """Returns a strategy file of Kuhn poker."""
    value, gap1, gap2 = numbers.split()
    plans = ['"player%d":{"total":%d,"weights":%s}' % (p, total, str(weights).replace(" ", "")) for p, (total, weights) in enumerate((one, two), 1)]
    stated = classes, KUHN, gap1, gap2, ",".join(plans), value
    return '{"classes":%s,%s,"gap1":"%s","gap2":"%s",%s,"value":"%s","version":2}\n' % stated


# Player 2 folds to each bet and, after a check, bets a jack and a queen half of the time; player 1 bets so and folds to each bet.
LOOSE = kuhn_file(*WORKED[0])
# Neither player tells a jack from a queen.
BLIND = kuhn_file(*WORKED[2])


def game_file(head, *rounds):
    """Returns a game file: its head, and for each round how many private and public cards it deals, and its betting."""
    return "version = 2\n" + head + "".join("\n[[round]]\nprivate = %d\npublic = %d\n%s\n" % row for row in rounds)


LIMIT, NOTHING = "bet = 1\ncap = 1", 'tree = "="'
COPIES = game_file(
    'ranks = "23"\nsuits = "sh"\ncopies = "2111"\nranking = "three"\nbonus = [1, 3, 1, 1, 1, 2]\nante = 1\n',
    (1, 0, LIMIT),
    (1, 1, LIMIT),
)
TREES = game_file(
    'ranks = "234"\nsuits = "sh"\nranking = "three"\nbonus = [1, 2, 3, 1, 1, 5]\nante = 2\n',
    (1, 1, 'tree = "2[a1:1[x:!,y1:=],z:=]"'),
    (1, 0, LIMIT),
)
EMPTY = game_file(
    'ranks = "234"\nsuits = "sh"\nranking = "pair"\nbonus = [1, 2]\nante = 1\n',
    (1, 0, NOTHING),
    (0, 1, "bet = 1\ncap = 2"),
    (0, 0, NOTHING),
)
GAMES = {
    "kuhn": Game.kuhn(4, 2, 3),
    "leduc": Game.leduc(3, 2, 2),
    "rhode": Game.rhode(3, 2, 1),
    "copies": Game.parse(COPIES),
    "trees": Game.parse(TREES),
    "empty": Game.parse(EMPTY),
}


def drawn_classes(rng, game):
    """Returns classes of which members have parents of one class."""
    classes = []
    for at, signals in enumerate(game.signals):
        numbers = {}
        above = [classes[-1][parent] for parent in game.parents[at]] if at else [0] * len(signals)
        classes.append([numbers.setdefault((parent, rng.randrange(3)), len(numbers) + 1) for parent in above])
    return classes


def drawn(rng, game, classes=None):
    """Returns a strategy of which half of the choices are pure."""
    layout = Layout(game, classes or game.raw_classes())

    def shares(number, _of):
        moves = len(game.points[number].moves)
        chosen = rng.randrange(moves)
        return [int(it == chosen) for it in range(moves)] if rng.random() < 0.5 else [rng.randint(1, 5) for _ in range(moves)]

    return Strategy(layout, [layout.shared(player, rng.choice([1, 7, 2**36]), shares) for player in (1, 2)], PROGRAM)


def example(name: str) -> str:
    """Returns the text of an example file."""
    return Path(EXAMPLES, name).read_text(encoding="ascii")


def called(*words: str, text: str = "") -> tuple[object, str, str]:
    """Runs a command of gameshrink-tools in this process; returns its status, what it prints, and what it prints on stderr."""
    before, status = sys.stdin, 0
    sys.stdin = io.TextIOWrapper(io.BytesIO(text.encode()))
    with redirect_stdout(io.StringIO()) as out, redirect_stderr(io.StringIO()) as err:
        try:
            run(words)
        except SystemExit as end:
            status = end.code if isinstance(end.code, int) else 1
            err.write("" if isinstance(end.code, int) else "%s\n" % end.code)
        finally:
            sys.stdin = before
    return status, out.getvalue(), err.getvalue()
