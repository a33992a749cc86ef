#!/usr/bin/env python3
"""Writes the games that `gen` makes into a folder, as JSON texts, without the program.

    knapsacks.py FOLDER                        the family below
    knapsacks.py FOLDER knapsack P ITEMS N     one game of P players and ITEMS items, by number N
    knapsacks.py FOLDER leaders P N            one game of P leaders with a follower each
    knapsacks.py FOLDER chase P ITEMS N        one game that `gen` doesn't make, of P players

- knapsack: players `p0`, `p1` and so on with binary variables `x0`, `x1` and so on, one row on the
  weights, and a cross term of each item with each other player's.
- leaders: each has a continuous `x` and a follower with `f` below it; the followers' `f` cross.
- chase: the knapsack game with five times the numbers of the cross terms, the last player's
  negated, so that the last one seeks what the others avoid. A game of the family `knapsack` rarely
  lacks a pure equilibrium; one of these often does.

The numbers are drawn by state' = (6364136223846793005 * state + 1442695040888963407) mod 2^64 from
the game's number, a draw below m being (state div 2^33) mod m. In the family there are two and
three players with 2 to 6 items, and 2 to 5 leaders, five numbers of each. A file's name says the
sizes and the number: `knapsack_2_3_0.json`, `leaders_4_0.json`.
"""
import json
import os
import sys

from exact import Draws


def draw_crosses(draws, names, name, variables, below):
    """A cross term of each variable with each other player's same one; none of number 0."""
    listed = []
    for other in names:
        if other != name:
            for x in variables:
                number = draws.below(below)
                if number:
                    listed.append([x, other, x, number])
    return listed


def knapsack(players, items, number):
    draws = Draws(number)
    names = [f"p{i}" for i in range(players)]
    variables = [f"x{k}" for k in range(items)]
    texts = []
    for name in names:
        weights = [1 + draws.below(20) for _ in variables]
        costs = [-(1 + draws.below(30)) for _ in variables]
        row = {"terms": [list(t) for t in zip(variables, weights)], "le": sum(weights) // 2}
        texts.append({
            "name": name, "vars": [{"name": x, "int": True, "up": 1} for x in variables],
            "rows": [row],
            "cost": [list(t) for t in zip(variables, costs)],
            "cross": draw_crosses(draws, names, name, variables, 11)})
    return {"format": "zero-game/1", "players": texts}


def chase(players, items, number):
    game = knapsack(players, items, number)
    for player in game["players"]:
        times = -5 if player is game["players"][-1] else 5
        for term in player["cross"]:
            term[3] *= times
    return game


def leaders(players, number):
    draws = Draws(number)
    names = [f"p{i}" for i in range(players)]
    texts = []
    for name in names:
        up = 1 + draws.below(20)
        row = {"terms": [["f", 1], ["x", -1]], "le": draws.below(5)}
        follower = {"vars": ["f"], "rows": [row], "cost": [["f", -(1 + draws.below(3))]]}
        cost = [["x", 1 + draws.below(9)], ["f", -(1 + draws.below(9))]]
        texts.append({
            "name": name, "vars": [{"name": "x", "up": up}], "followers": [follower], "cost": cost,
            "cross": draw_crosses(draws, names, name, ["f"], 4)})
    return {"format": "zero-game/1", "players": texts}


def write(folder, game, kind, *sizes):
    name = "_".join([kind] + [str(size) for size in sizes]) + ".json"
    with open(os.path.join(folder, name), "w") as out:
        json.dump(game(*sizes), out, separators=(",", ":"))
        out.write("\n")


def main():
    folder, words = sys.argv[1], sys.argv[2:]
    makers = {"knapsack": knapsack, "leaders": leaders, "chase": chase}
    os.makedirs(folder, exist_ok=True)
    if words:
        write(folder, makers[words[0]], words[0], *[int(word) for word in words[1:]])
        return
    for number in range(5):
        for players in (2, 3):
            for items in range(2, 7):
                write(folder, knapsack, "knapsack", players, items, number)
        for players in range(2, 6):
            write(folder, leaders, "leaders", players, number)


if __name__ == "__main__":
    main()
