#!/usr/bin/env python3
"""Writes a certificate for a profile of a game, without the program: make_cert.py GAME PROFILE

GAME is a game text. PROFILE is a JSON list with a list of parts per player; a part is
[weight, [numbers of the base variables], denominator]. Followers are replaced by the conditions of
their optimality, multipliers and the proofs of the bounds are found by a simplex method over
fractions. Only Python's standard library is used.
"""
import json
import sys
from fractions import Fraction as F
from math import lcm


def solve(cost, rows, right):
    """Least cost of y >= 0 with rows * y = right: (value, y). None where there is none."""
    n, m = len(cost), len(rows)
    table = []
    for r, b in zip(rows, right):
        sign = -1 if b < 0 else 1
        table.append([F(sign * v) for v in r] + [F(0)] * m + [F(sign * b)])
    for i in range(m):
        table[i][n + i] = F(1)
    basis = list(range(n, n + m))

    def pivot(row, col):
        p = table[row][col]
        table[row] = [v / p for v in table[row]]
        for i in range(m):
            if i != row and table[i][col] != 0:
                k = table[i][col]
                table[i] = [v - k * w for v, w in zip(table[i], table[row])]
        basis[row] = col

    def run(c, allowed):
        while True:
            price = [sum(c[basis[i]] * table[i][j] for i in range(m)) for j in range(n + m)]
            col = next((j for j in range(allowed) if c[j] - price[j] < 0), None)
            if col is None:
                return True
            ratios = [(table[i][-1] / table[i][col], basis[i], i) for i in range(m) if table[i][col] > 0]
            if not ratios:
                return False
            row = min(ratios)[2]
            pivot(row, col)

    run([F(0)] * n + [F(1)] * m, n + m)
    if sum(table[i][-1] for i in range(m) if basis[i] >= n) > 0:
        return None
    for i in range(m):
        if basis[i] >= n:
            col = next((j for j in range(n) if table[i][j] != 0), None)
            if col is not None:
                pivot(i, col)
    if not run([F(c) for c in cost] + [F(0)] * m, n):
        return None
    y = [F(0)] * n
    for i in range(m):
        if basis[i] < n:
            y[basis[i]] = table[i][-1]
    return sum(c * v for c, v in zip(cost, y)), y


class Player:
    """A player with its followers' conditions as pairs."""

    def __init__(self, text):
        self.name = text["name"]
        self.vars = [(v["name"], v.get("int", False), v.get("low", 0), v.get("up")) for v in text["vars"]]
        followers = text.get("followers", [])
        for f in followers:
            self.vars += [(name, False, 0, None) for name in f["vars"]]
        self.base = len(self.vars)
        self.number = {v[0]: k for k, v in enumerate(self.vars)}
        sign = -1 if text.get("aim") == "max" else 1
        self.rows = [r for row in text.get("rows", []) for r in self.read_row(row)]
        self.pairs = [(self.number[p["var"]], self.terms(p["terms"]), p["add"]) for p in text.get("pairs", [])]
        self.cost = {k: sign * a for k, a in self.terms(text.get("cost", [])).items()}
        self.cross = [(self.number[o], p, v, sign * a) for o, p, v, a in text.get("cross", [])]
        self.others = [(t[:-1], sign * t[-1]) for t in text.get("others", [])]
        self.followers = []
        for f in followers:
            self.add_follower(f)

    def terms(self, listed):
        return {self.number[name]: a for name, a in listed if a != 0}

    def read_row(self, row):
        t = self.terms(row["terms"])
        less = {k: -a for k, a in t.items()}
        if "le" in row:
            return [(t, row["le"])]
        if "ge" in row:
            return [(less, -row["ge"])]
        return [(t, row["eq"]), (less, -row["eq"])]

    def add_follower(self, f):
        sign = -1 if f.get("aim") == "max" else 1
        rows = [r for row in f.get("rows", []) for r in self.read_row(row)]
        cost = {k: sign * a for k, a in self.terms(f.get("cost", [])).items()}
        first = len(self.vars)
        own = [self.number[name] for name in f["vars"]]
        for j in own:
            t = {self.number[v]: sign * a for o, v, a in f.get("cross", []) if self.number[o] == j}
            t.update({first + k: r[0][j] for k, r in enumerate(rows) if r[0].get(j)})
            self.pairs.append((j, t, cost.get(j, 0)))
        for k, (t, le) in enumerate(rows):
            self.vars.append(("", False, 0, None))
            self.pairs.append((first + k, {v: -a for v, a in t.items()}, le))
        self.followers.append((own, rows, first))

    def slots(self, low, up, sides):
        """The rows of a leaf with their slot numbers."""
        found, r, n = [], len(self.rows), len(self.vars)
        for k, (t, le) in enumerate(self.rows):
            found.append((k, t, le))
        for v in range(n):
            if low[v] is not None:
                found.append((r + 2 * v, {v: -1}, -low[v]))
            if up[v] is not None:
                found.append((r + 2 * v + 1, {v: 1}, up[v]))
        for k, (var, t, add) in enumerate(self.pairs):
            found.append((r + 2 * n + 2 * k, {v: -a for v, a in t.items()}, add))
            if sides[k] == 1:
                found.append((r + 2 * n + 2 * k + 1, {var: 1}, 0))
            if sides[k] == 2:
                found.append((r + 2 * n + 2 * k + 1, t, -add))
        return found

    def with_multipliers(self, point):
        """The point with its followers' multipliers."""
        full = list(point)
        n = len(self.vars) - self.base
        if n == 0:
            return full
        rows, right, extra = [], [], []
        for var, t, add in self.pairs:
            value = add + sum(a * point[v] for v, a in t.items() if v < self.base)
            coef = [F(t.get(self.base + k, 0)) for k in range(n)]
            if var >= self.base:
                if value > 0:
                    rows.append([F(int(k == var - self.base)) for k in range(n)])
                    right.append(F(0))
                    extra.append(0)
            elif any(coef):
                rows.append(coef)
                right.append(-value)
                extra.append(0 if point[var] > 0 else -1)
        slack = [i for i, e in enumerate(extra) if e]
        wide = [r + [F(-int(i == s)) for s in slack] for i, r in enumerate(rows)]
        found = solve([1] * n + [0] * len(slack), wide, right)
        if found is None:
            sys.exit("a follower's answer isn't optimal")
        return full + found[1][:n]


def leaf_line(slots, columns, coef, le):
    """A `leaf` line that proves coef * x <= le by the rows, or that they have no point."""
    rows = [[F(t.get(v, 0)) for _, t, _ in slots] for v in range(columns)]
    right = [b for _, _, b in slots]
    found = solve(right, rows, [F(c) for c in coef])
    scale = None
    if found and found[0] <= le:
        scale, y = 1, found[1]
    else:
        empty = solve([0] * len(slots), rows + [[F(b) for b in right]], [F(0)] * columns + [F(-1)])
        if empty is None:
            return None
        scale, y = 0, empty[1]
    by = lcm(*[v.denominator for v in y])
    used = [(s[0], v * by) for s, v in zip(slots, y) if v]
    return f"leaf {scale * by} {len(used)}" + "".join(f" {s} {v}" for s, v in used)


def tree(player, low, up, sides, coef, le):
    """The lines of a bound tree."""
    line = leaf_line(player.slots(low, up, sides), len(player.vars), coef, le)
    if line:
        return [line]
    if 0 in sides:
        k = sides.index(0)
        lines = [f"choose {k}"]
        for side in (1, 2):
            lines += tree(player, low, up, sides[:k] + [side] + sides[k + 1:], coef, le)
        return lines
    for v, (_, whole, _, _) in enumerate(player.vars):
        if whole and low[v] is not None and up[v] is not None and low[v] < up[v]:
            at = (low[v] + up[v]) // 2
            return ([f"split {v} {at}"]
                    + tree(player, low, up[:v] + [at] + up[v + 1:], sides, coef, le)
                    + tree(player, low[:v] + [at + 1] + low[v + 1:], up, sides, coef, le))
    sys.exit("the claim isn't true")


def main():
    players = [Player(p) for p in json.load(open(sys.argv[1]))["players"]]
    profile = json.loads(sys.argv[2]) if sys.argv[2].startswith("[") else json.load(open(sys.argv[2]))
    numbers = {p.name: k for k, p in enumerate(players)}
    mixed = any(len(parts) > 1 for parts in profile)
    lines = ["zero-cert/1", f"kind {'mixed' if mixed else 'pure'} {len(players)}", "verdict profile"]
    means = []
    for i, (player, parts) in enumerate(zip(players, profile)):
        total = sum(w for w, _, _ in parts)
        lines.append(f"player {i} total {total} parts {len(parts)}")
        mean = [F(0)] * len(player.vars)
        for weight, nums, den in parts:
            point = player.with_multipliers([F(n, den) for n in nums])
            by = lcm(*[v.denominator for v in point])
            lines.append(f"part {weight} {by}" + "".join(f" {v * by}" for v in point))
            mean = [m + F(weight, total) * v for m, v in zip(mean, point)]
        means.append(mean)
    value_of = lambda k, name: means[k][players[k].number[name]]
    for i, player in enumerate(players):
        slope = [F(player.cost.get(v, 0)) for v in range(len(player.vars))]
        for own, other, var, a in player.cross:
            slope[own] += a * value_of(numbers[other], var)
        value = sum(g * m for g, m in zip(slope, means[i]))
        rest = F(0)
        for names, a in player.others:
            term = F(a)
            for k in range(0, len(names), 2):
                term *= value_of(numbers[names[k]], names[k + 1])
            rest += term
        by = lcm(value.denominator, *[g.denominator for g in slope])
        cost = value + rest
        lines.append(f"cost {i} {cost.numerator} {cost.denominator}")
        low = [v[2] for v in player.vars]
        up = [v[3] for v in player.vars]
        lines += tree(player, low, up, [0] * len(player.pairs), [int(-by * g) for g in slope], int(-by * value))
    print("\n".join(lines + ["end"]))


if __name__ == "__main__":
    main()
