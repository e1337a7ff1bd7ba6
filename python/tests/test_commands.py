"""Tests of gameshrink-tools from outside: what its commands print, beside values from elsewhere and what the program prints.

Where a solver is not installed its tests are skipped.
"""

import json
import os
import subprocess
import sys
import tempfile
import unittest
from fractions import Fraction
from pathlib import Path

from gameshrink import Program, solvers
from gameshrink.program import CHECKOUT, stated

from .cases import COPIES, EXAMPLES, PROGRAM, TREES, WORKED, called, example, kuhn_file

HEAD = "player,line,hand,move,probability\n"

# Certificates of the first of them, worked by hand: the first number and the bound of player 1, and what is said of them.
CERTIFICATE = (
    '{"player1":{"bound":"%s","values":["%s","4","6","-4","1","6","-1","2","4","4","4","4"]},'
    '"player2":{"bound":"13/12","values":["2","5","6","3","3","2","3","3","2","-1","2","4"]},"version":1}'
)
CERTIFIED = [
    ("7/6", "4", "player1 at most 7/6\nplayer2 at most 13/12\n"),
    ("5/4", "5", "player1 at most 5/4\nplayer2 at most 13/12\n"),
    ("7/6", "3", "player 1 low at point 0 class 1\n"),
    ("7/6", "5", "player 1 bound found 5/4\n"),
]
# The values of two games by exact solvers of linear programs: Kuhn's by hand, Leduc's by QSopt_ex.
WORTH = {"kuhn": Fraction(-1, 18), "leduc": Fraction(-1454920850547486749701863871533, 16995463438839962469905132501930)}

# What the rules of examples/leduc_bot.csv say at some points that they reach.
BOT = [
    (1, "/", "Ks", "k 0/1\nb 1/1\n"),
    (1, "/", "Js", "k 3/4\nb 1/4\n"),
    (2, "/b", "Jh", "f 1/1\nc 0/1\nr 0/1\n"),
    (2, "/b", "Kh", "f 0/1\nc 0/1\nr 1/1\n"),
    (2, "/kk/b", "Qs/+Qh", "f 0/1\nc 0/1\nr 1/1\n"),
    (1, "/bc/", "Ks/+Js", "k 1/2\nb 1/2\n"),
    (1, "/bc/kb", "Ks/+Js", "f 0/1\nc 1/1\nr 0/1\n"),
]

# Tables of Kuhn poker that are refused, and the line that says why.
REFUSED = [
    ("", "the first row of the table must name the columns player,line,hand,move,probability"),
    ("player,line,hand,move\n", "the first row of the table must name the columns player,line,hand,move,probability"),
    (HEAD + "\n# a comment\n1,/,Js,k\n", "row 4 has 4 cells, and the first row has 5"),
    (HEAD + "1,/,Js,k,half\n", "row 2: player 1 at / with Js, move k: half is no fraction, decimal or count"),
    (HEAD + "1,/,Js,k,\n", "row 2: player 1 at / with Js, move k: an empty text is no fraction, decimal or count"),
    (HEAD + "1,/,Js,k,-1\n", "row 2: player 1 at / with Js, move k: -1 is no fraction, decimal or count"),
    (HEAD + "1,/,Js,k,1/0\n", "row 2: player 1 at / with Js, move k: 1/0 is no fraction, decimal or count"),
    (HEAD + "1,/,Js,k,1e999999\n", "row 2: player 1 at / with Js, move k: 1e999999 is no fraction, decimal or count"),
    (HEAD + "1,/,Js,k,1\n1,/,Js,k,0\n", "row 3: player 1 at / with Js has move k in row 2 already"),
    (HEAD + "1,/x,Js,k,1\n", "row 2: nobody acts at the line /x"),
    (HEAD + "2,/,Js,k,1\n", "row 2: player 2 does not act at the line /; player 1 does"),
    (HEAD + "3,/,Js,k,1\n", "row 2: player 3 does not act at the line /; player 1 does"),
    (HEAD + "1,/,As,k,1\n", "row 2: no hand at the line / is As"),
    (HEAD + "1,*,Qs/*,k,1\n", "row 2: no hand at the line * is Qs/*"),
    (HEAD + "1,/,Js,f,1\n", "row 2: player 1 at / with Js has no move f; the moves are b, k"),
    (HEAD + "1,/,Js,,1\n", "row 2: player 1 at / with Js has no move without a letter; the moves are b, k"),
    (HEAD + "1,/,Js,k,0.5\n1,/,Js,b,0.4\n", "player 1 at / with Js: the numbers of k, b add up to 9/10, which is not 1"),
    (HEAD + "1,/,*,k,1\n1,/kb,*,f,1\n1,/,Js,b,1\n", "row 4: earlier rows decide wherever it fits; it must stand above them"),
    (HEAD + "1,/,Js,k,0\n1,/,?s,b,0\n", "player 1 at / with Js: no row gives a number above 0 to one of the moves k, b"),
    (HEAD + "1,/,?s,k,1\n1,/kb,Qs,c,1\n", "player 1 at /kb with Js: no row gives a number above 0 to one of the moves f, c"),
]

RAW = "with --classes raw each hand is a class by itself"
NO_FILE = "is no strategy file; `gameshrink play --turns 0 --classes raw < GAME.toml` prints one"


def lines(numbers):
    return "value %s\ngap1 %s\ngap2 %s\n" % tuple(numbers.split())


class Case(unittest.TestCase):
    """Calls of gameshrink-tools, and files in a folder of the test's own."""

    def setUp(self):
        folder = tempfile.TemporaryDirectory()
        self.addCleanup(folder.cleanup)
        self.folder = Path(folder.name)

    def printed(self, *words, text=""):
        """Returns what a call prints that must end well."""
        status, out, err = called(*words, text=text)
        self.assertEqual((status, err if status else ""), (0, ""), words)
        return out

    def file(self, name, text):
        path = self.folder / name
        path.write_text(text, encoding="ascii")
        return str(path)


class TestRecheck(Case):
    def test_worked(self):
        """Values, gaps and certificates worked by hand, by the program and by brute force."""
        for row in WORKED:
            with self.subTest(row[3]):
                self.assertEqual(PROGRAM.run("judge", kuhn_file(*row)), lines(row[3]))
                self.assertEqual(self.printed("recheck", text=kuhn_file(*row)), lines(row[3]))
        for bound, first, said in CERTIFIED:
            given = kuhn_file(*WORKED[0]) + CERTIFICATE % (bound, first) + "\n"
            holds = said.startswith("player1")
            with self.subTest(said):
                status, out, err = called("recheck", text=given)
                wanted = (0, lines(WORKED[0][3]) + said) if holds else (1, lines(WORKED[0][3]) + "recheck: refused: " + said)
                self.assertEqual((status, out + err), wanted)
                done = PROGRAM.ended("verify", given.encode())
                wanted = (0, "value 1/12\n" + said) if holds else (17, "bad certificate: " + said)
                self.assertEqual((done.returncode, (done.stdout + done.stderr).decode()), wanted)

    def test_beside_the_program(self):
        """Brute force and the program on other games: evaluate, judge, certify and verify."""
        copied = example("leduc.toml").replace('suits = "sh"', 'suits = "sh"\ncopies = "212111"')
        games = [
            ("Leduc", example("leduc.toml"), "--turns 50"),
            ("Leduc with copies", copied, "--turns 3 --classes raw"),
            ("own cards in two rounds", TREES, "--turns 2"),
            ("copies and bonuses", COPIES, "--turns 4"),
        ]
        for name, game, words in games:
            with self.subTest(name):
                file = PROGRAM.run("play " + words, game)
                certified = PROGRAM.run("certify", file)
                wanted = PROGRAM.run("evaluate", file) + PROGRAM.run("verify", certified).split("\n", 1)[1]
                self.assertEqual(self.printed("recheck", text=certified), wanted)
                packed = self.printed("pack", self.file("template.json", file), "--exact", text=self.printed("table", text=file))
                self.assertEqual(PROGRAM.run("judge", packed), PROGRAM.run("evaluate", file))

    def test_shares_nothing(self):
        """Its module runs alone, where nothing else of the package is."""
        copy = self.file("alone.py", Path(CHECKOUT, "python", "gameshrink", "recheck.py").read_text(encoding="ascii"))
        done = subprocess.run([sys.executable, "-I", copy], input=kuhn_file(*WORKED[0]), capture_output=True, text=True, cwd="/", check=False)
        self.assertEqual((done.stdout, done.stderr), (lines(WORKED[0][3]), ""))


class TestTables(Case):
    def test_round_trips(self):
        """A strategy file as a table and back is the same file, byte by byte."""
        sizes = [("kuhn_strategy", ["--exact"]), ("kuhn_lossy", ["--exact"]), ("kuhn_lossy", ["--total", "1"])]
        sizes += [("leduc_near_optimal", []), ("rhode_3_4_1_near_optimal", [])]
        for name, size in sizes:
            text = example(name + ".json")
            for command in ("table", "unpack") if not name.startswith("rhode") else ("unpack",):
                with self.subTest(name, command=command):
                    packed = self.printed("pack", str(EXAMPLES / (name + ".json")), *size, text=self.printed(command, text=text))
                    self.assertEqual(self.printed("fill", text=packed), text)

    def test_rounding(self):
        """What cannot be shared evenly goes to the largest remainders, and flow holds."""
        template = self.file("template.json", PROGRAM.run("play --turns 0", example("kuhn.toml")))
        table = HEAD + "1,/,*,k,2\n1,/,*,b,1\n1,/kb,*,f,3/4\n1,/kb,*,c,1/4\n"
        packed = json.loads(self.printed("pack", template, "--total", "10", text=table))
        self.assertEqual(packed["player1"], {"total": 10, "weights": [7, 3] * 3 + [5, 2] * 3})
        self.assertEqual(packed["player2"], {"total": 1, "weights": [1, 0] * 6}, "a player without a row keeps the template's plan")
        exact = json.loads(self.printed("pack", template, "--exact", text=table))
        self.assertEqual(exact["player1"], {"total": 6, "weights": [4, 2] * 3 + [3, 1] * 3}, "the least total at which nothing is rounded")
        alike = HEAD + "1,/,Js,k,2\n1,/,Js,b,1\n1,/,Qs,k,4\n1,/,Qs,b,2\n1,/,Ks,k,7\n1,/kb,*,f,1\n"
        lossy = json.loads(self.printed("pack", str(EXAMPLES / "kuhn_lossy.json"), "--exact", text=alike))
        self.assertEqual(lossy["player1"], {"total": 3, "weights": [2, 1, 3, 0, 2, 0, 3, 0]}, "members with counts in proportion agree")

    def test_bot(self):
        """The way of a newcomer: a bot as a table of rules, a template, and its exact gaps."""
        template = self.file("template.json", PROGRAM.run("play --turns 0 --classes raw", example("leduc.toml")))
        packed = self.printed("pack", template, text=example("leduc_bot.csv"))
        judged = PROGRAM.run("judge", packed)
        self.assertEqual(self.printed("recheck", text=packed), judged)
        filled = self.printed("fill", text=packed)
        self.assertEqual(PROGRAM.run("evaluate", filled), judged)
        for player, line, hand, wanted in BOT:
            asked = PROGRAM.run(["query", "--player", str(player), "--line", line, "--signal", hand], filled)
            self.assertEqual(asked.rsplit("gap", 1)[0], wanted, (line, hand))
        made = PROGRAM.make("leduc", 5, 2, 2)
        self.assertEqual(example("leduc_5.toml"), made)
        wide = self.file("wide.json", PROGRAM.run("play --turns 0 --classes raw", made))
        packed = self.printed("pack", wide, "--exact", text=HEAD + "*,*,A*,c,1\n*,*,*,k,1\n*,*r,*,f,1\n*,*b,*,f,0.4\n*,*b,*,r,0.6\n")
        self.assertEqual(PROGRAM.run("judge", packed), self.printed("recheck", text=packed))

    def test_refusals(self):
        """Each refusal is its line, with nothing printed."""
        template = self.file("template.json", PROGRAM.run("play --turns 0 --classes raw", example("kuhn.toml")))
        lossy, kuhn = str(EXAMPLES / "kuhn_lossy.json"), str(EXAMPLES / "kuhn.toml")
        short = self.file("short.json", kuhn_file(*WORKED[0]).replace("[1,1,1,1,2,0,1,0,1,0,2,0]", "[1,1,1,1,2,0,1,0,1,0,2]"))
        apart = HEAD + "1,/,*,k,1\n1,/kb,Js,f,1\n1,/kb,?s,c,1\n"
        fine = HEAD + "1,/,*,k,1/100000007\n1,/,*,b,100000006/100000007\n1,/kb,*,f,1/1009\n1,/kb,*,c,1008/1009\n"
        other = [
            (["pack", lossy], apart, "player 1 at /kb: Js and Qs are one class of the template and play differently; " + RAW),
            (["pack", template, "--exact"], fine, "player 1: nothing is rounded from total 100900007063 on, which is above 2^36; leave --exact out"),
            (["pack", template + ".x"], HEAD, template + ".x: No such file or directory"),
            (["pack", kuhn], HEAD, "%s %s" % (kuhn, NO_FILE)),
            (["pack", short], HEAD, "%s has 11 and 12 weights, and its game and classes want 12 and 12" % short),
            (["table"], "{}", "stdin " + NO_FILE),
            (["unpack"], "", "stdin " + NO_FILE),
        ]
        for words, table, line in [(["pack", template], table, line) for table, line in REFUSED] + other:
            with self.subTest(line):
                self.assertEqual(called(*words, text=table), (1, "", "gameshrink-tools: %s\n" % line))
        for words in (["pack"], ["pack", template, "--total", "0"], ["pack", template, "--total", "68719476737"], ["other"], []):
            with self.subTest(words):
                status, out, err = called(*words)
                self.assertEqual((status, out, err.count("\n"), err[:16]), (2, "", 1, "gameshrink-tools"))
        self.assertEqual(called("fill", text="{}"), (1, "", "gameshrink judge: status 12, bad strategy: shape of version\n"))


class TestNear(Case):
    def near(self, solver, names):
        """Looks at strategies near an equilibrium of games whose true values are known, or whose brackets must be narrow."""
        if not solver():
            self.skipTest("the solver is not installed")
        name = "clp" if solver is solvers.has_floating else "qsopt_ex"
        games = {it: str(EXAMPLES / (it + ".toml")) for it in ("kuhn", "leduc", "leduc_5")} | {"copies": self.file("copies.toml", COPIES)}
        for it in names:
            with self.subTest(it):
                found = stated(PROGRAM.run("evaluate", self.printed("near", games[it], "--solver", name)))
                self.assertLess(found.gap1 + found.gap2, Fraction(1, 10**8))
                self.assertTrue(found.sure(1) <= WORTH.get(it, found.value) <= -found.sure(2))

    def test_clp(self):
        self.near(solvers.has_floating, ["kuhn", "leduc", "leduc_5", "copies"])

    def test_qsopt_ex(self):
        self.near(solvers.has_exact, ["kuhn", "leduc", "copies"])

    def test_refusal(self):
        found = called("near", self.file("broken.toml", "version = 1\n"))
        self.assertEqual(found, (1, "", "gameshrink check --summary: status 7, bad game: missing key ranks\n"))


class TestProgram(Case):
    """The package runs from the checkout without installing it, from any folder, with the program that is named."""

    def run_from(self, folder, *words, text="", **environment):
        script = str(Path(CHECKOUT, "python", "gameshrink-tools"))
        env = {key: value for key, value in os.environ.items() if key != "GAMESHRINK"} | environment
        done = subprocess.run([sys.executable, script, *words], input=text, capture_output=True, text=True, cwd=folder, env=env, check=False)
        return done.returncode, done.stdout, done.stderr

    def test_ways_to_name_it(self):
        text, binary = kuhn_file(*WORKED[0]), Program(os.environ.get("GAMESHRINK")).path
        self.assertEqual(self.run_from(self.folder, "fill", "--program", binary, text=text), (0, text, ""))
        self.assertEqual(self.run_from(self.folder, "fill", text=text, GAMESHRINK=binary), (0, text, ""))
        wanted = (1, "", "gameshrink-tools: there is no program no/such\n")
        self.assertEqual(self.run_from(self.folder, "fill", "--program", "no/such", text=text), wanted)
        self.assertEqual(self.run_from(self.folder, "fill", text=text, GAMESHRINK="no/such"), wanted)

    def test_installed(self):
        """A copy outside a checkout takes the program on the PATH."""
        package = self.folder / "lib" / "site" / "gameshrink"
        package.parent.mkdir(parents=True)
        os.symlink(PROGRAM.path, self.folder / "gameshrink")
        subprocess.run(["cp", "-r", str(Path(CHECKOUT, "python", "gameshrink")), str(package)], check=True)
        script = "import sys; sys.path.insert(0, %r); import gameshrink; print(gameshrink.Program().path)" % str(package.parent)
        for path, wanted in ((str(self.folder), str(self.folder / "gameshrink")), ("", "NoProgram")):
            done = subprocess.run([sys.executable, "-I", "-c", script], capture_output=True, text=True, env={"PATH": path}, cwd="/", check=False)
            self.assertIn(wanted, done.stdout + done.stderr)


if __name__ == "__main__":
    unittest.main()
