#!/usr/bin/env python3
"""Times `zero solve` of mixed equilibria over games of binary variables.

    comp.py [ZERO] [--seconds N] [--times N] [--seeds N] [--ratios FILE]

- `choose K`: two players with K binary variables, exactly one of which is 1, so that the game is
  a bimatrix game of K rows and columns; costs of pairs within 20.
- `free K`: two players with K binary variables and no row; own costs and costs of pairs within 20.
- `knapsack K` and `chase K`: two players, K items, by knapsacks.py.

There are ten games of each, by the numbers 0 to 9, each solved once. A certificate must be
accepted by `check`, and a profile must be an equilibrium by the definition, tried in fractions. The
table has the median and the greatest of the seconds, in which a run without an answer counts too,
and of the parts of all players' strategies.
"""
import os
import statistics
import sys

sys.path.insert(0, os.path.join(os.path.dirname(os.path.abspath(__file__)), ".."))
from compare_made import Differs, test_profile
from exact import Draws
from knapsacks import chase, knapsack
from make_cert import Player
from measure import Bench, Table, machine, shown, while_answered


def pairs(draws, own, other, name, size):
    """A cross term of each own variable with each of the other player's; none of number 0."""
    drawn = [[x, name, y, draws.between(-size, size)] for x in own for y in other]
    return [term for term in drawn if term[3]]


def bimatrix(count, number, choose):
    """Two players of `count` binary variables; where `choose`, exactly one is 1."""
    draws = Draws(number)
    names = ("A", "B")
    variables = [f"x{k}" for k in range(count)]
    players = []
    for k, name in enumerate(names):
        cost = [] if choose else [[x, draws.other_than_zero(20)] for x in variables]
        rows = [{"terms": [[x, 1] for x in variables], "eq": 1}] if choose else []
        players.append({
            "name": name, "vars": [{"name": x, "int": True, "up": 1} for x in variables],
            "rows": rows, "cost": cost,
            "cross": pairs(draws, variables, variables, names[1 - k], 20)})
    return {"format": "zero-game/2", "players": players}


FAMILIES = [("choose", (2, 3, 4), lambda count, number: bimatrix(count, number, True)),
            ("free", (2, 3, 4), lambda count, number: bimatrix(count, number, False)),
            ("knapsack", (2, 3, 4, 5), lambda items, number: knapsack(2, items, number)),
            ("chase", (2, 3, 4, 5), lambda items, number: chase(2, items, number))]


def parts_of(lines):
    return sum(line.startswith("part ") for line in lines)


def test(bench, game, lines, name):
    try:
        test_profile([Player(p) for p in game["players"]], lines, "mixed")
    except Differs as differs:
        bench.differs(f"{name}: {differs}")


def solve_all(bench, name, size, made):
    """What came of the games of a size."""
    found, name = [], f"{name} {size}"
    for number in range(bench.words.seeds):
        game = made(size, number)
        bench.write_game(game)
        solved = bench.solve("mixed", times=1)
        found.append(solved)
        if solved.lines:
            seconds = bench.check("mixed", solved, times=1)
            bench.ratio("solve beside check, mixed", name, solved.seconds, seconds)
            if solved.word == "profile":
                test(bench, game, solved.lines, f"{name}, number {number}")
            else:
                bench.differs(f"{name}, number {number}: a finite game has an equilibrium")
        else:
            bench.ratio("solve beside check, mixed", name, None, None, solved.word)
    return found


def counts(words):
    return ", ".join(f"{words.count(w)} {w}" for w in sorted(set(words)))


def measure(bench, table, name, size, made):
    """Measures the games of a size and prints their row; tells which have an answer."""
    found = solve_all(bench, name, size, made)
    seconds = [s.seconds for s in found]
    parts = [parts_of(s.lines) for s in found if s.lines] or [0]
    table.row(f"{name} {size}", shown(statistics.median(seconds)), shown(max(seconds)),
              f"{statistics.median(parts):g}", max(parts), counts([s.word for s in found]))
    return [bool(s.lines) for s in found]


def main():
    bench = Bench(__doc__, 10)
    print(machine())
    table = Table(family=12, median=9, greatest=9, parts=5, most_parts=10, ended=30)
    for name, sizes, made in FAMILIES:
        while_answered(sizes, lambda size: measure(bench, table, name, size, made))
    bench.finish()


if __name__ == "__main__":
    main()
