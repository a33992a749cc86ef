#!/usr/bin/env python3
"""Tests of tools/show: python3 tools/test_show.py

Each game of `examples/` with each of its certificates is read aloud: NAME.cert and NAME.*.cert are
certificates of NAME.json.
"""
import contextlib
import importlib.machinery
import importlib.util
import io
import pathlib
import subprocess
import sys
import tempfile
import unittest
import xml.etree.ElementTree as ElementTree
from typing import Iterator, NamedTuple

TOP = pathlib.Path(__file__).resolve().parent.parent
EXAMPLES = TOP / "examples"
END = "\nAs the text says; nothing was checked here.\n"

PREMIUM = """
  1/2   50.0 %  ██████████░░░░░░░░░░  own = 3, premium = 3; followers: hired = 2
  1/2   50.0 %  ██████████░░░░░░░░░░  own = 3
  on average  own = 3, premium = 3/2; followers: hired = 1
  expected cost -6
"""
PRODUCERS = ("An equilibrium in mixed strategies: no player gains by choosing otherwise alone.\n"
             f"\nnorth{PREMIUM}\nsouth{PREMIUM}")

EXCHANGE = """An equilibrium in pure strategies: no player gains by choosing otherwise alone.

north
  plays output = 5, import = -2
  payoff -10; printed as the cost 10

south
  plays output = 1, import = 2
  payoff -7; printed as the cost 7
"""

BOXES = """No equilibrium in which each player makes one choice.
Shown box by box: all profiles are split into boxes, and in each box some player has a choice \
that costs it less, whatever the profile of the box.
  A: better off elsewhere in 2 boxes
  B: better off elsewhere in 2 boxes
"""

# two parts that differ in the follower's multiplier alone
PARTED = """zero-cert/1
kind mixed 1
verdict profile
player 0 total 3 parts 2
part 1 1 2 0 4 3
part 2 1 2 0 4 2
cost 0 4 1
leaf 1 0
end
"""

LONG = "Not decided: a number is too long for 128 bits, in "
CAUSES = {
    "budget 20\n": "Not decided: the budget of 20 is spent (status 7).",
    "wide\nquestion branch 1\npath split 0 1 low\naim 1 1\nbasis 2\nstep point 0\n"
    "numbers 1 2 3 4\n":
        LONG + "a question about what B can choose (status 8).",
    "wide\nquestion choices\npath on 0 1\naim 0 -1\nbasis 0 4\nstep ray 1 2\n"
    "numbers -1 0 3 4\n":
        LONG + "a question about all players' choices together (status 8).",
    "step -1 0 3 4\n": LONG + "the costs of strategies that were found (status 8).",
    "open 0 1 0 1\nnamed 1\npoint 1 0 0\nnamed 0\n":
        "Not decided: A's whole variable x2 may go on without end (status 9).",
    "large 327782408\n": "Not decided: the game is too large. Its system has 327782408 cells, and"
                         " may have 16777216 (status 10).",
    "long 67108865\n": "Not decided: the certificate that was found has 67108865 bytes, and may"
                       " have 67108864 (status 10).",
}

BEST = """zero-best/1
least 0 -1 5
split 0 0
leaf 1 0
leaf 1 0
below 1 2 1 -1 0 1
end
"""


def load():
    """The tool as a module; it has no ending in its name, and no copy of it is to be kept."""
    sys.dont_write_bytecode = True
    loader = importlib.machinery.SourceFileLoader("show", str(TOP / "tools" / "show"))
    spec = importlib.util.spec_from_loader("show", loader)
    sys.modules["show"] = importlib.util.module_from_spec(spec)
    loader.exec_module(sys.modules["show"])
    return sys.modules["show"]


TOOL = load()


class Done(NamedTuple):
    status: int
    out: str
    err: str


def show(*words, given="") -> Done:
    """What the tool prints and says for these words."""
    out, err = io.StringIO(), io.StringIO()
    before = sys.stdin
    sys.stdin = io.TextIOWrapper(io.BytesIO(given.encode()))
    try:
        with contextlib.redirect_stdout(out), contextlib.redirect_stderr(err):
            status = TOOL.main([str(word) for word in words])
    finally:
        sys.stdin = before
    return Done(status, out.getvalue(), err.getvalue())


def example(name):
    return EXAMPLES / f"{name}.json", EXAMPLES / f"{name}.cert"


def pairs() -> Iterator[tuple]:
    for cert in sorted(EXAMPLES.glob("*.cert")):
        yield EXAMPLES / f"{cert.name.split('.')[0]}.json", cert


class Answers(unittest.TestCase):
    maxDiff = None

    def printed(self, *words, given=""):
        done = show(*words, given=given)
        self.assertEqual((done.status, done.err), (0, ""), words)
        return done.out

    def test_every_example(self):
        found = list(pairs())
        self.assertGreater(len(found), 5)
        for game, cert in found:
            with self.subTest(cert=cert.name):
                text = self.printed(game, cert)
                lines = cert.read_text().split("\n")
                kind, verdict = lines[1].split()[1], lines[2]
                played = verdict == "verdict profile"
                start = f"An equilibrium in {kind}" if played else "No equilibrium"
                self.assertTrue(text.startswith(start))
                self.assertTrue(text.endswith(END))

    def test_mixed_with_followers(self):
        self.assertEqual(self.printed(*example("producers")), PRODUCERS + END)

    def test_pure_with_maximisers(self):
        self.assertEqual(self.printed(*example("exchange")), EXCHANGE + END)

    def test_fractions_have_decimals(self):
        text = self.printed(*example("knapsack"))
        self.assertIn("\n  7/9   77.8 %  " + "█" * 16 + "░" * 4 + "  x2 = 1\n", text)
        self.assertIn("\n  expected cost -1/5 = -0.2\n", text)
        self.assertIn("\n  expected cost -17/9 or about -1.889\n", text)

    def test_no_choice(self):
        self.assertIn("A has no choice at all", self.printed(*example("half")))

    def test_boxes(self):
        game = EXAMPLES / "matching_pennies.json"
        self.assertEqual(self.printed(game, EXAMPLES / "matching_pennies.boxes.cert"), BOXES + END)

    def test_cover(self):
        text = self.printed(*example("unreached"))
        self.assertIn("\n  A: 2 pieces\n  B: 1 piece\n", text)

    def test_multipliers_alone_make_no_choice(self):
        text = self.printed(EXAMPLES / "toll.json", "-", given=PARTED)
        self.assertIn("\ncity\n  1  100.0 %  " + "█" * 20 + "  toll = 2; followers: ring = 4\n"
                      "  expected cost 4\n", text)

    def test_reports(self):
        for cause, first in CAUSES.items():
            with self.subTest(cause=cause):
                report = f"zero-report/1\nstop {cause}end\n"
                text = self.printed(EXAMPLES / "knapsack.json", "-", given=report)
                self.assertEqual(text.split("\n")[0], first)

    def test_certificate_that_is_too_wide(self):
        inner = (EXAMPLES / "half.cert").read_text()
        text = self.printed(EXAMPLES / "half.json", "-",
                            given=f"zero-report/1\nstop certificate 4\n{inner}end\n")
        self.assertIn("in the check of line 4 of the certificate that was found (status 8)", text)
        self.assertIn("A has no choice at all", text)

    def test_best(self):
        text = self.printed(EXAMPLES / "knapsack.json", "-", given=BEST)
        self.assertIn("\n  A: cost -1/5 = -0.2\n  B: as little as it likes", text)
        self.assertIn("\n    from y1 = 1/2, y2 = -1/2\n    along y2 = 1\n", text)


class Drawings(unittest.TestCase):
    def test_every_profile(self):
        with tempfile.TemporaryDirectory() as folder:
            for game, cert in pairs():
                lines = cert.read_text().split("\n")
                if lines[2] != "verdict profile":
                    continue
                with self.subTest(cert=cert.name):
                    path = pathlib.Path(folder) / f"{cert.name}.svg"
                    self.assertEqual(show(game, cert, "--svg", path).status, 0)
                    self.check_bars(path, sum(line.startswith("part ") for line in lines))

    def check_bars(self, path, parts):
        """A ground, and for each part a bar on a bar of full length, within the picture."""
        root = ElementTree.parse(path).getroot()
        bars = root.findall("{http://www.w3.org/2000/svg}rect")[1:]
        self.assertEqual(len(bars), 2 * parts)
        for full, part in zip(bars[::2], bars[1::2]):
            self.assertLessEqual(float(part.get("width")), float(full.get("width")))
            self.assertLess(float(full.get("y")), float(root.get("height")))


class Command(unittest.TestCase):
    """The tool as it is called."""

    def called(self, *words):
        return subprocess.run([TOP / "tools" / "show", *words], capture_output=True, check=False)

    def test_status_and_streams(self):
        done = self.called(*example("producers"))
        self.assertEqual((done.returncode, done.stderr), (0, b""))
        self.assertEqual(done.stdout.decode(), PRODUCERS + END)
        done = self.called("nowhere", "-")
        self.assertEqual((done.returncode, done.stdout), (2, b""))
        self.assertEqual(done.stderr.count(b"\n"), 1)

    def test_help_says_what_is_proved(self):
        self.assertIn(b"outside what is proved", self.called("--help").stdout)


class Faults(unittest.TestCase):
    def refused(self, *words, given=""):
        done = show(*words, given=given)
        self.assertEqual((done.status, done.out), (2, ""), words)
        self.assertRegex(done.err, r"\Ashow: [^\n]+\n\Z")
        return done.err

    def test_words(self):
        self.refused()
        self.refused(EXAMPLES / "half.json")
        self.refused(*example("half"), "--pdf", "x")

    def test_files(self):
        self.assertIn("No such file", self.refused(EXAMPLES / "nowhere.json", "-"))
        game, cert = example("half")
        self.assertIn("no JSON", self.refused(cert, cert))
        self.assertIn("no game text", self.refused("-", cert, given='{"players":[]}'))
        self.assertIn("no certificate", self.refused(game, game))

    def test_nothing_to_draw(self):
        self.assertIn("no strategies", self.refused(*example("half"), "--svg", "x.svg"))

    def test_lines(self):
        right = (EXAMPLES / "toll.cert").read_text()
        changes = {
            "line 2": ("kind pure 1", "kind pure 2"),
            "line 3": ("verdict profile", "verdict nothing"),
            "line 4": ("total 1", "total 0"),
            "line 5": ("part 1 1 2 0 4 3", "part 1 1 2 0 4"),
            "line 6": ("cost 0 4 1", "cost 0 4.0 1"),
            "line 15": ("end\n", "end\nend\n"),
        }
        for line, (old, new) in changes.items():
            with self.subTest(new=new):
                self.assertIn(f" {line}: ", self.refused(
                    EXAMPLES / "toll.json", "-", given=right.replace(old, new)))

    def test_each_cut_of_a_text(self):
        lines = (EXAMPLES / "knapsack.cert").read_text().splitlines(keepends=True)
        for count in range(len(lines)):
            self.refused(EXAMPLES / "knapsack.json", "-", given="".join(lines[:count]))

    def test_another_game(self):
        self.refused(EXAMPLES / "half.json", EXAMPLES / "toll.cert")


if __name__ == "__main__":
    unittest.main()
