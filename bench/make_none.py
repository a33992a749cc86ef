#!/usr/bin/env python3
"""Writes a certificate that a game has no equilibrium, without the program: make_none.py GAME KIND

GAME is a game text whose whole variables have both bounds, KIND is pure or mixed. Each player's
points are split into leaves with one value per whole variable and one side per pair. Then the
system of an equilibrium over the convex hulls of the leaves is refuted, choice by choice, by
combinations of its rows, which a simplex method over fractions finds. Where the system has a
solution under some list of choices the script says so and writes nothing. Only Python's standard
library is used.
"""
import json
import sys
from fractions import Fraction as F
from math import gcd, lcm

from make_cert import Player, leaf_line, solve


def refute(columns, rows):
    """Multipliers of rows (numbers, right side, strict) that refute them, or a solution."""
    table = [[F(r[0].get(c, 0)) for r in rows] + [F(0)] for c in range(columns)]
    table.append([F(r[1]) for r in rows] + [F(1)])
    table.append([F(int(r[2])) for r in rows] + [F(1)])
    right = [F(0)] * (columns + 1) + [F(1)]
    n, m = len(rows) + 1, columns + 2
    basis = list(range(n, n + m))
    full = [r + [F(int(i == k)) for k in range(m)] + [b] for i, (r, b) in enumerate(zip(table, right))]
    price = [-sum(r[j] for r in full) for j in range(n)] + [F(0)] * m + [-sum(right)]
    while True:
        col = next((j for j in range(n) if price[j] < 0), None)
        if col is None:
            break
        ratio, _, row = min((full[i][-1] / full[i][col], basis[i], i)
                            for i in range(m) if full[i][col] > 0)
        p = full[row][col]
        full[row] = [v / p if v else v for v in full[row]]
        pivot = [(j, v) for j, v in enumerate(full[row]) if v]
        for other in full[:row] + full[row + 1:] + [price]:
            k = other[col]
            if k:
                for j, v in pivot:
                    other[j] -= k * v
        basis[row] = col
    if price[-1] == 0:
        found = [F(0)] * n
        for i in range(m):
            if basis[i] < n:
                found[basis[i]] = full[i][-1]
        by = lcm(*[v.denominator for v in found])
        whole = [int(v * by) for v in found[:-1]]
        common = gcd(*whole)
        return [v // common for v in whole], None
    duals = [1 - price[n + i] for i in range(m)]
    return None, [duals[c] / -duals[columns] for c in range(columns)]


def cover(player, low, up, sides, leaves):
    """The lines of a cover tree; its leaves are put to the list as (slots, point)."""
    slots = player.slots(low, up, sides)
    n = len(player.vars)
    line = leaf_line(slots, n, [0] * n, -1)
    if line:
        return [line]
    for v, (_, whole, _, _) in enumerate(player.vars):
        if whole and low[v] < up[v]:
            at = (low[v] + up[v]) // 2
            return ([f"split {v} {at}"]
                    + cover(player, low, up[:v] + [at] + up[v + 1:], sides, leaves)
                    + cover(player, low[:v] + [at + 1] + low[v + 1:], up, sides, leaves))
    if 0 in sides:
        k = sides.index(0)
        lines = [f"choose {k}"]
        for side in (1, 2):
            lines += cover(player, low, up, sides[:k] + [side] + sides[k + 1:], leaves)
        return lines
    rows = [[F(s * t.get(v, 0)) for v in range(n) for s in (1, -1)]
            + [F(int(i == j)) for j in range(len(slots))] for i, (_, t, _) in enumerate(slots)]
    _, y = solve([0] * (2 * n + len(slots)), rows, [b for _, _, b in slots])
    point = [y[2 * v] - y[2 * v + 1] for v in range(n)]
    by = lcm(*[v.denominator for v in point])
    leaves.append(slots)
    return [f"known {by}" + "".join(f" {v * by}" for v in point)]


class System:
    """The rows of the system of an equilibrium, and those of choices."""

    def __init__(self, players, leaves):
        self.players, self.leaves = players, leaves
        self.numbers = {p.name: k for k, p in enumerate(players)}
        self.columns = 0
        self.worth, self.share, self.weight, self.dual = [], [], [], []
        for player, own in zip(players, leaves):
            self.worth.append(self.next())
            self.share.append([])
            self.weight.append([])
            self.dual.append([])
            for slots in own:
                self.share[-1].append([self.next() for _ in player.vars])
                self.weight[-1].append(self.next())
                self.dual[-1].append({s: self.next() for s, _, _ in slots})
        self.rows = [row for i in range(len(players)) for row in self.rows_of(i)]

    def next(self):
        self.columns += 1
        return self.columns - 1

    def slope(self, i, v):
        """The slope in variable v without its constant."""
        row = {}
        for own, other, var, number in self.players[i].cross:
            if own == v:
                k = self.numbers[other]
                for z in self.share[k]:
                    column = z[self.players[k].number[var]]
                    row[column] = row.get(column, 0) + number
        return row

    def value_row(self, i, k, sign):
        """Sign times the worth plus the right sides times the multipliers."""
        row = {self.dual[i][k][s]: sign * b for s, _, b in self.leaves[i][k]}
        row[self.worth[i]] = sign
        return row, 0, False

    def slot_row(self, i, k, slot, sign):
        _, terms, right = next(s for s in self.leaves[i][k] if s[0] == slot)
        row = {self.share[i][k][v]: sign * a for v, a in terms.items()}
        row[self.weight[i][k]] = -sign * right
        return row, 0, False

    def rows_of(self, i):
        weights = self.weight[i]
        yield {d: 1 for d in weights}, 1, False
        yield {d: -1 for d in weights}, -1, False
        for k, slots in enumerate(self.leaves[i]):
            for s, _, _ in slots:
                yield self.slot_row(i, k, s, 1)
            yield {weights[k]: -1}, 0, False
            for s, _, _ in slots:
                yield {self.dual[i][k][s]: -1}, 0, False
            for v in range(len(self.players[i].vars)):
                row = self.slope(i, v)
                for s, terms, _ in slots:
                    row[self.dual[i][k][s]] = terms.get(v, 0)
                constant = self.players[i].cost.get(v, 0)
                yield row, -constant, False
                yield {c: -a for c, a in row.items()}, constant, False
            yield self.value_row(i, k, 1)

    def on(self, i, k):
        return [({self.weight[i][k]: -1}, 0, True), self.value_row(i, k, -1)]

    def off(self, i, k):
        rows = [({self.weight[i][k]: 1}, 0, False)]
        for z in self.share[i][k]:
            rows += [({z: 1}, 0, False), ({z: -1}, 0, False)]
        return rows

    def which(self, i, k):
        rows = [({self.weight[i][k]: -1}, -1, False), self.value_row(i, k, -1)]
        for other in range(len(self.leaves[i])):
            if other != k:
                rows += self.off(i, other)
        return rows

    def amount(self, row, x):
        return sum(a * x[c] for c, a in row[0].items())

    def open_slot(self, i, k, x, decided):
        """A slot whose multiplier and slack are both above zero."""
        for s, _, _ in self.leaves[i][k]:
            if (i, k, s) not in decided and x[self.dual[i][k][s]] > 0 \
                    and self.amount(self.slot_row(i, k, s, 1), x) < 0:
                return s
        return None

    def refutation(self, kind, path, decided, chosen):
        """The lines of a refutation of the rows with the path's."""
        rows = self.rows + path
        multipliers, x = refute(self.columns, rows)
        if multipliers:
            used = [(r, m) for r, m in enumerate(multipliers) if m]
            return [f"close {len(used)}" + "".join(f" {r} {m}" for r, m in used)]
        for i, k in chosen:
            s = self.open_slot(i, k, x, decided)
            if s is not None:
                now = decided | {(i, k, s)}
                zero = [({self.dual[i][k][s]: 1}, 0, False)]
                return ([f"row {i} {k} {s}"]
                        + self.refutation(kind, path + zero, now, chosen)
                        + self.refutation(kind, path + [self.slot_row(i, k, s, -1)], now, chosen))
        for i, own in enumerate(self.leaves):
            if kind == "pure" and (i, None) not in decided:
                lines = [f"which {i}"]
                for k in range(len(own)):
                    lines += self.refutation(kind, path + self.which(i, k), decided | {(i, None)},
                                             chosen + [(i, k)])
                return lines
            for k in range(len(own)):
                if kind == "mixed" and (i, k) not in decided:
                    now = decided | {(i, k)}
                    return ([f"onoff {i} {k}"]
                            + self.refutation(kind, path + self.on(i, k), now, chosen + [(i, k)])
                            + self.refutation(kind, path + self.off(i, k), now, chosen))
        sys.exit("the system has a solution")


def main():
    players = [Player(p) for p in json.load(open(sys.argv[1]))["players"]]
    kind = sys.argv[2]
    lines = ["zero-cert/1", f"kind {kind} {len(players)}", "verdict none cover"]
    leaves = []
    for player in players:
        leaves.append([])
        low = [v[2] for v in player.vars]
        up = [v[3] for v in player.vars]
        if any(v[1] and (v[2] is None or v[3] is None) for v in player.vars):
            sys.exit("a whole variable has no bound")
        lines += cover(player, low, up, [0] * len(player.pairs), leaves[-1]) + ["named 0"]
    lines += System(players, leaves).refutation(kind, [], frozenset(), [])
    print("\n".join(lines + ["end"]))


if __name__ == "__main__":
    main()
