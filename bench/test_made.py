#!/usr/bin/env python3
"""Tests of the verdicts of made games on games whose answers are known: python3 test_made.py"""
import json
import os
import unittest

from exact import Draws, generators
from made_games import verdicts
from made_players import verdict
from make_cert import Player
from regions import is_feasible, regions

EXAMPLES = os.path.join(os.path.dirname(os.path.abspath(__file__)), "..", "examples")


def one(variables, **members):
    return {"players": [{"name": "A", "vars": variables, **members}]}


def two(a, b):
    return {"players": [{"name": "A", **a}, {"name": "B", **b}]}


def example(name):
    with open(os.path.join(EXAMPLES, name + ".json")) as text:
        return json.load(text)


class Players(unittest.TestCase):
    def costs(self, text, *cost):
        self.assertEqual(verdict(text), {"verdict": "profile", "cost": list(cost)})

    def none(self, text, empty):
        self.assertEqual(verdict(text), {"verdict": "none", "cost": None, "empty": empty})

    def test_least(self):
        binary = {"name": "x", "int": True, "up": 1}
        self.costs(one([binary], cost=[["x", -1]]), -1, 1)
        whole = {"name": "x", "int": True}
        self.costs(one([whole], rows=[{"terms": [["x", 2]], "le": 5}], cost=[["x", -1]]), -2, 1)
        low = {"name": "x", "int": True, "low": -3}
        self.costs(one([low], rows=[{"terms": [["x", 2]], "ge": -5}], cost=[["x", 1]]), -2, 1)
        self.costs(one([{"name": "x", "up": 2}], aim="max", cost=[["x", 3]]), -6, 1)
        rows = [{"terms": [["x", 2], ["y", 3]], "le": 2}]
        pair = [{"name": "x"}, {"name": "y"}]
        self.costs(one(pair, rows=rows, cost=[["x", -1], ["y", -2]]), -4, 3)

    def test_no_least(self):
        self.none(one([{"name": "x"}], cost=[["x", -1]]), False)
        self.none(one([{"name": "x", "int": True}], cost=[["x", -1]]), False)
        self.none(one([{"name": "x", "low": None}], cost=[["x", 1]]), False)

    def test_no_point(self):
        halves = [{"terms": [["x", 2]], "le": 1}, {"terms": [["x", -2]], "le": -1}]
        self.none(one([{"name": "x", "int": True}], rows=halves), True)
        five = {"name": "x", "int": True, "low": 0, "up": 5}
        self.none(one([five], rows=[{"terms": [["x", 2]], "eq": 3}]), True)

    def test_follower(self):
        row = {"terms": [["f", 1], ["x", -1]], "le": 0}
        follower = {"vars": ["f"], "rows": [row], "cost": [["f", -1]]}
        text = one([{"name": "x", "up": 2}], followers=[follower], cost=[["x", 2], ["f", -3]])
        self.costs(text, -2, 1)
        leader = Player(text["players"][0])
        self.assertTrue(is_feasible(leader, [3, 3], 2))
        self.assertFalse(is_feasible(leader, [3, 2], 2))
        toll = Player(example("toll")["players"][0])
        found = regions(toll)
        self.assertTrue(all(is_feasible(toll, *p) for region in found for p in region.points))


class Games(unittest.TestCase):
    def both(self, text, pure, mixed):
        found = verdicts(text, 100, lone=True)
        self.assertEqual((found["pure"], found["mixed"]), (pure, mixed))

    def test_examples(self):
        self.both(example("matching_pennies"), "none", "profile")
        self.both(example("knapsack"), "profile", "profile")
        self.both(example("market"), "profile", "profile")
        self.both(example("half"), "none", "none")
        self.both(example("toll"), "profile", "profile")
        self.both(example("exchange"), "profile", "profile")
        self.both(example("producers"), "profile", "profile")

    def test_continuous_pennies(self):
        text = example("matching_pennies")
        for player in text["players"]:
            for variable in player["vars"]:
                variable["int"] = False
        self.both(text, "profile", "profile")

    def test_hull_alone(self):
        """The closed hulls have an equilibrium, and the sets have none."""
        a = {"vars": [{"name": "s"}, {"name": "t", "up": 1}],
             "pairs": [{"var": "s", "terms": [["t", -1]], "add": 1}],
             "cost": [["t", 1], ["s", -1]], "cross": [["s", "B", "u", 2]]}
        b = {"vars": [{"name": "u", "up": 1}], "cost": [["u", 1]], "cross": [["u", "A", "s", -1]]}
        self.both(two(a, b), "none", "none")

    def test_unbounded(self):
        a = {"vars": [{"name": "x"}], "cost": [["x", 1]], "cross": [["x", "B", "y", -1]]}
        b = {"vars": [{"name": "y"}], "cost": [["y", -1]], "cross": [["y", "A", "x", 1]]}
        self.both(two(a, b), "profile", "profile")
        a["cross"] = [["x", "B", "y", 1]]
        self.both(two(a, b), "none", "none")

    def test_unbounded_whole(self):
        a = {"vars": [{"name": "x", "int": True}], "cost": [["x", 1]],
             "cross": [["x", "B", "y", -2]]}
        b = {"vars": [{"name": "y", "int": True, "up": 1}], "cost": [["y", -1]],
             "cross": [["y", "A", "x", 2]]}
        self.both(two(a, b), None, "profile")


class Tools(unittest.TestCase):
    def test_generators(self):
        points, rays = generators([([-1, 0], 0), ([0, -1], 0), ([-1, 1], 1)], 2)
        self.assertEqual(sorted(points), [([0, 0], 1), ([0, 1], 1)])
        self.assertEqual(sorted(rays), [[1, 0], [1, 1]])
        self.assertEqual(generators([([1], -1), ([-1], 0)], 1), ([], []))

    def test_draws(self):
        draws = Draws(0)
        self.assertEqual(draws.below(2**31), 1442695040888963407 // 2**33)
        self.assertEqual(draws.below(2**31), 1876011003808476466 // 2**33)


if __name__ == "__main__":
    unittest.main()
