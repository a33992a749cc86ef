#!/usr/bin/env python3
"""Writes the games of this benchmark into a folder, as JSON texts `zero-game/1`.

    games.py FOLDER

- `line.json`: one player with one variable from 0 to 99,999 and the cost -x; only its last point
  is best.
- `square.json`: two players with one variable from 0 to 315 each. Each one's best
  value is 0 or 315 by the side on which the other's lies, and no profile is an equilibrium.
- `cube.json`: sixteen players with one binary variable each and a cross term with every other
  player's, with numbers from a fixed seed. The first two play matching pennies, so no profile is an
  equilibrium.

No trial ends early on the last two, and on the first only at the last profile.
"""
import json
import os
import random
import sys


def player(name, up, cost, cross):
    return {"name": name, "vars": [{"name": "x", "int": True, "up": up}], "cost": cost, "cross": cross}


def line():
    return [player("A", 99999, [["x", -1]], [])]


def square():
    # A's slope is 2y - 315 and B's is 315 - 2x, and neither is ever 0
    first = player("A", 315, [["x", -315]], [["x", "B", "x", 2]])
    second = player("B", 315, [["x", 315]], [["x", "A", "x", -2]])
    return [first, second]


def cube():
    rng = random.Random(20240611)
    names = [f"P{i:02}" for i in range(16)]
    players = []
    for i, name in enumerate(names):
        if i < 2:
            # -200x + 400xy against 200y - 400xy; the others' numbers sum to at most 140 in size
            sign = 1 if i == 0 else -1
            cost = -200 * sign
            cross = [["x", names[1 - i], "x", 400 * sign]]
            cross += [["x", names[k], "x", rng.randint(-10, 10) or 1] for k in range(2, 16)]
        else:
            cost = rng.randint(-50, 50) or 1
            cross = []
            for k, other in enumerate(names):
                if k != i:
                    cross.append(["x", other, "x", rng.randint(-20, 20) or 1])
        players.append(player(name, 1, [["x", cost]], cross))
    return players


def main():
    folder = sys.argv[1]
    os.makedirs(folder, exist_ok=True)
    for name, players in [("line", line()), ("square", square()), ("cube", cube())]:
        with open(os.path.join(folder, name + ".json"), "w") as out:
            json.dump({"format": "zero-game/1", "players": players}, out)


if __name__ == "__main__":
    main()
