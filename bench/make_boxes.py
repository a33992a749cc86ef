#!/usr/bin/env python3
"""Writes a certificate that a game has no pure equilibrium, without the program: make_boxes.py GAME

GAME is a game text whose variables are all whole, with both bounds, and without pairs and followers.
Boxes of profiles are split until in each of them some player has a point that costs it less, whatever
the profile of the box, by the least value of the difference over the ranges of the variables, or some
player has no point. Only Python's standard library is used; all points of a player are tried.
"""
import json
import sys
from itertools import product

from make_cert import Player, leaf_line


def is_feasible(player, x):
    return all(sum(a * x[v] for v, a in t.items()) <= le for t, le in player.rows)


def gain(players, numbers, box, i, point):
    """The least value over the box of what the player pays more than at the point."""
    player, total = players[i], 0
    for v in range(len(player.vars)):
        terms = [(box[numbers[o]][players[numbers[o]].number[u]], a)
                 for own, o, u, a in player.cross if own == v]
        constant = player.cost.get(v, 0)
        least = constant + sum(min(a * r[0], a * r[1]) for r, a in terms)
        most = constant + sum(max(a * r[0], a * r[1]) for r, a in terms)
        moves = [end - point[v] for end in box[i][v]]
        total += min(m * g for m in moves for g in (least, most))
    return total


def boxes(players, numbers, points, box):
    """The lines of a box tree."""
    for i, player in enumerate(players):
        low, up = [r[0] for r in box[i]], [r[1] for r in box[i]]
        n = len(player.vars)
        line = leaf_line(player.slots(low, up, []), n, [0] * n, -1)
        if line:
            return ["empty {} {}".format(i, line.split(" ", 2)[2])]
    for i in range(len(players)):
        best = max(points[i], key=lambda p: gain(players, numbers, box, i, p))
        if gain(players, numbers, box, i, best) > 0:
            return [f"deviate {i} 1" + "".join(f" {x}" for x in best)]
    open_ends = [(r[1] - r[0], -i, -v) for i, b in enumerate(box) for v, r in enumerate(b) if r[0] < r[1]]
    if not open_ends:
        sys.exit("the game has a pure equilibrium")
    _, i, v = max(open_ends)
    i, v = -i, -v
    low, high = box[i][v]
    at = (low + high) // 2
    lines = [f"split {i} {v} {at}"]
    for part in ((low, at), (at + 1, high)):
        now = [list(b) for b in box]
        now[i][v] = part
        lines += boxes(players, numbers, points, now)
    return lines


def main():
    players = [Player(p) for p in json.load(open(sys.argv[1]))["players"]]
    if any(not v[1] or v[2] is None or v[3] is None for p in players for v in p.vars) \
            or any(p.pairs for p in players):
        sys.exit("not all variables are whole with both bounds, or there are pairs")
    numbers = {p.name: k for k, p in enumerate(players)}
    points = [[x for x in product(*[range(v[2], v[3] + 1) for v in p.vars]) if is_feasible(p, x)]
              for p in players]
    box = [[(v[2], v[3]) for v in p.vars] for p in players]
    lines = ["zero-cert/1", f"kind pure {len(players)}", "verdict none boxes"]
    print("\n".join(lines + boxes(players, numbers, points, box) + ["end"]))


if __name__ == "__main__":
    main()
