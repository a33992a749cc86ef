#!/usr/bin/env python3
"""Made games of one player with their least costs, found without the program.

    made_players.py                 writes bench/made/players.json
    made_players.py --tell          prints a line per game beside

The player's equilibrium is its optimum, so the verdict is `profile` with the least cost, or `none`
where there is no point or costs have no least. Costs are the least ones over all values of whole
variables and sides of pairs, each time over the points and rays of the polyhedron that is left
(regions.py). Beside that each case's linear program is solved by the simplex method, for all whole
values that bounds allow, or for those of a window where there are bounds missing; a difference
ends the script. A seed with too many cases is passed over.
"""
import json
import os
import sys
from fractions import Fraction
from itertools import product
from math import prod

import exact
from made_texts import game, plan, player
from make_cert import Player
from regions import TooMany, is_feasible, least, regions, rows_of

COUNT = 200
PLANS = [
    ("whole", plan(vars=(2, 5), whole=100, up=(1, 4), rows=(1, 4), senses=30)),
    ("continuous", plan(vars=(2, 4), whole=0, bounded=50, rows=(1, 5))),
    ("both", plan(vars=(3, 6), whole=50, bounded=80, up=(1, 4), rows=(2, 4))),
    ("pairs", plan(vars=(2, 4), whole=0, bounded=60, rows=(0, 3), pairs=(1, 3))),
    ("whole pairs", plan(vars=(3, 5), whole=60, up=(1, 4), rows=(0, 2), pairs=(1, 2))),
    ("free", plan(vars=(2, 5), whole=40, bounded=60, free=35, below=40, rows=(2, 5),
                  senses=50)),
    ("unbounded whole", plan(vars=(2, 4), whole=70, bounded=20, rows=(2, 4), size=3)),
    ("greatest", plan(vars=(2, 5), whole=50, bounded=70, below=40, rows=(1, 4), senses=40,
                      max=100)),
    ("followers", plan(vars=(2, 3), whole=30, up=(1, 4), rows=(0, 2), followers=(1, 2),
                       max=25)),
    ("great numbers", plan(vars=(2, 4), whole=50, up=(1, 3), rows=(1, 3), size=999999)),
]


def made(seed):
    """The game of a seed and its plan's name."""
    name, how = PLANS[seed % len(PLANS)]
    return name, game([player(exact.Draws(seed), "A", how)])


def windows(one, most=1500):
    """The whole variables with the values to be tried, and whether these are all values."""
    whole = [(v, var[2], var[3]) for v, var in enumerate(one.vars) if var[1]]
    ended = all(low is not None and up is not None for _, low, up in whole)
    width = 12
    while True:
        tried = []
        for v, low, up in whole:
            if low is None:
                low = -(width // 2) if up is None else up - width
            tried.append((v, range(low, (low + width if up is None else up) + 1)))
        if ended or prod(len(values) for _, values in tried) <= most:
            return tried, ended
        width -= 1


def by_simplex(one):
    """The least cost by a linear program per value tried and side, and whether all were tried."""
    tried, ended = windows(one)
    best, n = ("empty",), len(one.vars)
    split = lambda numbers: [s * a for a in numbers for s in (1, -1)]
    for sides in product((1, 2), repeat=len(one.pairs)):
        rows = rows_of(one, list(sides))
        aim = split([one.cost.get(v, 0) for v in range(n)]) + [0] * len(rows)
        table = [split(numbers) + [int(i == j) for j in range(len(rows))]
                 for i, (numbers, _) in enumerate(rows)]
        table += [split([int(v == k) for k in range(n)]) + [0] * len(rows) for v, _ in tried]
        for values in product(*[values for _, values in tried]):
            found = exact.solve(aim, table, [b for _, b in rows] + list(values))
            if found[0] == "below":
                return found, ended
            if found[0] == "at":
                value = Fraction(exact.dot(aim, found[1]), found[2])
                best = ("at", value if best[0] == "empty" else min(best[1], value))
    return best, ended


def compared(answer, value, beside, ended):
    """Whether the values tried by linear programs agree with the answer."""
    if ended:
        return beside[0] == answer and (answer != "at" or beside[1] == value)
    if answer == "at":
        return beside[0] == "empty" or beside[0] == "at" and beside[1] >= value
    return answer == "below" or beside[0] == "empty"


def verdict(text):
    """The verdict, the least cost and, where there is none, whether the player has no point."""
    one = Player(text["players"][0])
    answer = least(one, regions(one), [one.cost.get(v, 0) for v in range(one.base)])
    value = Fraction(answer[1], answer[2]) if answer[0] == "at" else None
    if not compared(answer[0], value, *by_simplex(one)):
        sys.exit(f"the two methods differ: {json.dumps(text)}")
    if value is None:
        return {"verdict": "none", "cost": None, "empty": answer[0] == "empty"}
    if not is_feasible(one, *answer[3]):
        sys.exit(f"the best point isn't feasible: {json.dumps(text)}")
    return {"verdict": "profile", "cost": [value.numerator, value.denominator]}


def write_list(name, listed):
    """One item per line, in the folder `made` beside this script."""
    folder = os.path.join(os.path.dirname(os.path.abspath(__file__)), "made")
    os.makedirs(folder, exist_ok=True)
    lines = [json.dumps(item, separators=(",", ":")) for item in listed]
    with open(os.path.join(folder, name), "w") as out:
        out.write("[\n" + ",\n".join(lines) + "\n]\n")


def main():
    listed, seed = [], 0
    while len(listed) < COUNT:
        seed += 1
        name, text = made(seed)
        try:
            item = {"seed": seed, "plan": name, "game": text, **verdict(text)}
        except TooMany:
            continue
        listed.append(item)
        if "--tell" in sys.argv:
            print(seed, name, item["verdict"], item["cost"], item.get("empty", ""), flush=True)
    write_list("players.json", listed)


if __name__ == "__main__":
    main()
