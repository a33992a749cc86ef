#!/usr/bin/env python3
"""Compares `best` with the least costs of the made players, which were found without the program.

    compare_best.py [PROGRAM] [--seconds N] [--seed N] [--tell]

PROGRAM is `zero` where missing. --seconds (60 where missing) is the longest time for a player; with
--seed only this player is tried, and --tell prints a line for each.

For each player of `made/players.json` that has a point a certificate is written whose strategy is
one of its points, found by regions.py, and `best` is asked. The least cost must be the list's, and
its tree must prove it: that is tested here, leaf by leaf, in whole numbers. Where costs have no
least, the answer must be a feasible point and a direction along which the cost falls and whose
whole multiples lead to feasible points, which is tried for some. Stops (7 to 9) are counted; an
open whole variable must lack a bound. Where something differs the line says what, and the exit
status is 1.
"""
import argparse
import json
import os
import shutil
import subprocess
import sys
import tempfile
from fractions import Fraction
from math import lcm

from compare_made import Differs, Program, test_stop
from make_cert import Player
from regions import is_feasible, regions

FOLDER = os.path.join(os.path.dirname(os.path.abspath(__file__)), "made")
COLUMNS = ["least", "below", "7", "8", "9", "late", "differ"]


def certificate_at(one, point, over):
    """A certificate whose head is right: the player plays this point of its base variables."""
    full = one.with_multipliers([Fraction(a, over) for a in point])
    by = lcm(*[value.denominator for value in full])
    lines = ["zero-cert/1", "kind mixed 1", "verdict profile", "player 0 total 1 parts 1",
             f"part 1 {by}" + "".join(f" {value * by}" for value in full),
             "cost 0 0 1", "leaf 1 0", "end"]
    return "\n".join(lines) + "\n"


def test_leaf(words, slots, columns, coef, le):
    """That the rows of a leaf, multiplied, prove coef * x <= le, or that it has no point."""
    scale, rows, mults = int(words[1]), words[3::2], words[4::2]
    present = {slot: (terms, right) for slot, terms, right in slots}
    left, total = [0] * columns, 0
    for row, mult in zip(map(int, rows), map(int, mults)):
        if row not in present or mult < 1:
            raise Differs(f"a leaf takes row {row} {mult} times")
        terms, right = present[row]
        for v, a in terms.items():
            left[v] += mult * a
        total += mult * right
    if len(rows) != int(words[2]) or left != [scale * a for a in coef] \
            or (total > scale * le if scale else total >= 0):
        raise Differs("a leaf proves something else: " + " ".join(words)[:60])


def test_tree(one, lines, low, up, sides, coef, le):
    """That the lines begin with a tree that is right for coef * x <= le; gives the lines left."""
    words = lines[0].split(" ")
    if words[0] == "leaf":
        test_leaf(words, one.slots(low, up, sides), len(one.vars), coef, le)
        return lines[1:]
    v = int(words[1])
    if words[0] == "split" and one.vars[v][1]:
        at = int(words[2])
        rest = test_tree(one, lines[1:], low, up[:v] + [at] + up[v + 1:], sides, coef, le)
        return test_tree(one, rest, low[:v] + [at + 1] + low[v + 1:], up, sides, coef, le)
    if words[0] == "choose" and sides[v] == 0:
        rest = test_tree(one, lines[1:], low, up, sides[:v] + [1] + sides[v + 1:], coef, le)
        return test_tree(one, rest, low, up, sides[:v] + [2] + sides[v + 1:], coef, le)
    raise Differs("no node of a tree: " + lines[0][:60])


def test_least(one, cost, lines):
    """That the least cost is the list's, and that the tree proves it."""
    if cost is None or lines[0] != f"least 0 {cost[0]} {cost[1]}":
        raise Differs(f"{lines[0][:60]} in place of {cost}")
    slope = [one.cost.get(v, 0) for v in range(len(one.vars))]
    coef = [-cost[1] * g for g in slope]
    low, up = [var[2] for var in one.vars], [var[3] for var in one.vars]
    if test_tree(one, lines[1:], low, up, [0] * len(one.pairs), coef, -cost[0]) != ["end", ""]:
        raise Differs("lines follow the tree")


def test_below(one, cost, lines):
    """That the point is feasible, that the cost falls along the direction, and that it leads on."""
    numbers = [int(word) for word in lines[0].split(" ")[2:]]
    over, count = numbers[0], len(one.vars)
    point, direction = numbers[1:1 + count], numbers[1 + count:]
    if cost is not None or len(direction) != count or lines[1:] != ["end", ""]:
        raise Differs(f"{lines[0][:60]} in place of {cost}")
    if sum(a * direction[v] for v, a in one.cost.items()) >= 0:
        raise Differs("the cost doesn't fall along the direction")
    for times in (0, 1, 2, 7):
        far = [p + times * over * d for p, d in zip(point, direction)]
        if not is_feasible(one, far, over):
            raise Differs(f"{times} times the direction leads to a point that isn't feasible")


def compare(program, item):
    """The column in which this player counts."""
    one = Player(item["game"]["players"][0])
    program.write("game.json", json.dumps(item["game"]))
    program.write("game.cert", certificate_at(one, *regions(one)[0].points[0]))
    try:
        status, out, err = program.run("best", "game.json", "game.cert")
    except subprocess.TimeoutExpired:
        return "late"
    if status in (7, 8, 9):
        test_stop([one], status, out, err)
        return str(status)
    lines = out.split("\n")
    if status or lines[0] != "zero-best/1":
        raise Differs(f"status {status} {err[:60]!r}")
    word = lines[1].split(" ")[0]
    if word not in ("least", "below"):
        raise Differs("no answer: " + lines[1][:60])
    (test_least if word == "least" else test_below)(one, item["cost"], lines[1:])
    return word


def counted(program, item, tell):
    """The column of `compare`; what differs is printed."""
    column, what = "differ", ""
    try:
        column = compare(program, item)
    except Differs as differs:
        what = str(differs)
    except (IndexError, ValueError) as error:
        what = f"a text can't be read: {error}"
    if tell or what:
        print("seed", item["seed"], item["plan"] + ":", column, what, flush=True)
    return column


def read_words():
    words = argparse.ArgumentParser(description="Compares `best` with the made players' costs.")
    words.add_argument("program", nargs="?", default="zero")
    words.add_argument("--seconds", type=float, default=60)
    words.add_argument("--seed", type=int)
    words.add_argument("--tell", action="store_true")
    return words.parse_args()


def main():
    words = read_words()
    path = shutil.which(words.program)
    if path is None:
        sys.exit(f"there is no program {words.program}")
    with open(os.path.join(FOLDER, "players.json")) as text:
        listed = [item for item in json.load(text) if not item.get("empty")]
    with tempfile.TemporaryDirectory() as place:
        program = Program(os.path.abspath(path), place, words.seconds, None)
        found = [counted(program, item, words.tell) for item in listed
                 if words.seed in (None, item["seed"])]
    print(", ".join(f"{found.count(column)} {column}" for column in COLUMNS if column in found))
    sys.exit("differ" in found)


if __name__ == "__main__":
    main()
