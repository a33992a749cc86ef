#!/usr/bin/env python3
"""Tests of the measuring scripts, without the program: python3 test_measure.py"""
import contextlib
import io
import json
import os
import sys
import tempfile
import unittest
from fractions import Fraction

HERE = os.path.dirname(os.path.abspath(__file__))
for folder in ("best", "boxes", "comp", "bimatrix"):
    sys.path.append(os.path.join(HERE, folder))
import best
import bimatrix
import boxes
import comp
from exact import dot, solve
from knapsacks import knapsack
from measure import Run, Solved, print_ratios, quotient, run, word_of


class Runs(unittest.TestCase):
    def test_answers(self):
        done = run(["sh", "-c", "echo out; echo err >&2; exit 7"], 10)
        self.assertEqual((done.status, done.out, done.err), (7, "out\n", "err\n"))
        self.assertEqual(word_of(done), "budget")

    def test_limit(self):
        done = run(["sh", "-c", "while :; do :; done"], 1)
        self.assertEqual(word_of(done), "late")
        self.assertGreater(done.seconds, 0.9)

    def test_words(self):
        words = [word_of(Run(status, 0, "", "")) for status in (0, 8, -6, 2)]
        self.assertEqual(words, ["", "wide", "memory", "status 2"])
        self.assertEqual([quotient(3, 2), quotient(None, 2), quotient(1, 0)], ["1.50", "-", "-"])

    def test_ratios(self):
        items = [("a", 1, 2.0, 1.0, ""), ("b", 1, 1.0, 1.0, ""), ("a", 1, 8.0, 2.0, ""),
                 ("a", 1, None, None, "late")]
        names = ("what", "size", "ours", "theirs", "word")
        printed = io.StringIO()
        with tempfile.NamedTemporaryFile("w") as out, contextlib.redirect_stdout(printed):
            out.write("".join(json.dumps(dict(zip(names, item))) + "\n" for item in items))
            out.flush()
            print_ratios(out.name)
        rows = [[cell.strip() for cell in line.split("|")[1:-1]]
                for line in printed.getvalue().split("\n")[2:-1]]
        self.assertEqual(rows[0], ["a", "1", "3", "5.0000", "1.5000", "3.00", "2.00 to 4.00",
                                   "1 late"])
        self.assertEqual(rows[1], ["b", "1", "1", "1.0000", "1.0000", "1.00", "", ""])


class Games(unittest.TestCase):
    def test_programs(self):
        """Each program has a least cost, which is below that of the zero point."""
        for seed in range(3):
            aim, rows, binary = best.program(20, 20, 4, seed)
            self.assertFalse(binary)
            lines = [row + [int(k == i) for k in range(20)] for i, (row, _) in enumerate(rows)]
            found = solve(aim + [0] * 20, lines, [le for _, le in rows])
            self.assertEqual(found[0], "at")
            self.assertLess(dot(aim, found[1][:20]), 0)

    def test_texts(self):
        text = best.lp_text([-3, 0, 2], [([1, -1, 0], 4)], True)
        self.assertEqual(text.split(), "Minimize cost: -3 x0 +2 x2 Subject To r0: +1 x0 -1 x1 <= 4 "
                                       "Binary x0 x1 x2 End".split())
        text = "zero-best/1\nleast 0 -7 2\nleaf 1 0\nend\n"
        self.assertEqual(best.least_of(text), Fraction(-7, 2))
        self.assertEqual(bimatrix.nash_text([[1, -2]], [[3, 4]]), "1 2\n\n-1 2\n\n-3 -4\n")
        found = bimatrix.equilibria_found("1 0\n*Number of equilibria found: 3\n")
        self.assertEqual(found, 3)

    def test_bimatrix(self):
        """The game's terms are the matrices' numbers, by own variable."""
        first, second = [[1, 2], [3, 4]], [[5, 6], [7, 0]]
        a, b = bimatrix.game_of(first, second)
        self.assertIn(["x0", "B", "x1", 2], a["cross"])
        self.assertIn(["x0", "A", "x1", 7], b["cross"])
        self.assertEqual(len(b["cross"]), 3)

    def test_counts(self):
        game = knapsack(2, 3, 0)
        for player in game["players"]:
            player["rows"] = [{"terms": [["x0", 1], ["x1", 1], ["x2", 1]], "le": 1}]
        self.assertEqual(boxes.count_profiles(game), 16)
        lines = ["zero-cert/1", "kind pure 2", "verdict none boxes", "split 0 0 0", "empty 0 1 2 3",
                 "deviate 1 1 0", "end"]
        self.assertEqual(boxes.leaves_of(Solved("none", 0, lines)), 2)
        self.assertEqual(boxes.leaves_of(Solved("late", 0, [])), "-")
        self.assertEqual(comp.parts_of(["part 1 1 0", "player 1 total 1 parts 1", "part 1 1 1"]), 2)


if __name__ == "__main__":
    unittest.main()
