#!/usr/bin/env python3
"""A complete search for an equilibrium over the points and rays of the players' regions.

Each player weighs points (and rays, in regions where a point has weight). What it pays at a point
is linear in the others' weights, so an equilibrium is a list of weights that meets linear
conditions and, for each point and ray, one of two: it has no weight, or nothing costs less. The
search branches on which of the two, with an exact linear program at each node (the conditions are
those of C. Lemke and J. Howson, 1964). Where it ends without a find there is no equilibrium.
"""
from fractions import Fraction
from math import lcm

from exact import dot, solve


class TooLong(Exception):
    """More nodes than the limit."""


class Conditions:
    """The linear conditions: columns are weights, values and slacks; all numbers are whole."""

    def __init__(self, players, optimal, allowed):
        self.players = players
        self.numbers = {p.name: i for i, p in enumerate(players)}
        self.columns = 0
        self.worth = [(self.column(), self.column()) for _ in players]
        self.weights = [[self.group(g) for g in groups] for groups in allowed]
        self.equations, self.right, self.either = [], [], []
        for i in range(len(players)):
            points = [p for g in self.weights[i] for p in g[0]]
            self.add({c: point[1] for c, point in points}, 1)
            self.add_optimal(i, optimal[i])

    def column(self):
        self.columns += 1
        return self.columns - 1

    def group(self, cell):
        return ([(self.column(), p) for p in cell.points], [(self.column(), r) for r in cell.rays])

    def add(self, equation, right):
        self.equations.append(equation)
        self.right.append(right)

    def gain(self, i, direction):
        """What i pays along the direction: numbers of columns, and the constant."""
        player, numbers = self.players[i], {}
        for own, other, var, number in player.cross:
            k = self.numbers[other]
            j = self.players[k].number[var]
            for points, rays in self.weights[k]:
                for column, x in [(c, p[0]) for c, p in points] + rays:
                    amount = number * direction[own] * x[j]
                    numbers[column] = numbers.get(column, 0) + amount
        return numbers, sum(a * direction[v] for v, a in player.cost.items())

    def add_optimal(self, i, cells):
        """Nothing is less: each point costs at least the value, each ray at least 0."""
        own = {}
        for points, rays in self.weights[i]:
            for column, point in points:
                own.setdefault((tuple(point[0]), point[1]), []).append(column)
            for column, ray in rays:
                own.setdefault((tuple(ray), 0), []).append(column)
        items = {(tuple(p), d) for cell in cells for p, d in cell.points}
        items |= {(tuple(r), 0) for cell in cells for r in cell.rays} | set(own)
        for direction, over in sorted(items):
            numbers, constant = self.gain(i, direction)
            slack = self.column()
            for column, sign in ((self.worth[i][0], -over), (self.worth[i][1], over), (slack, -1)):
                numbers[column] = numbers.get(column, 0) + sign
            self.add(numbers, -constant)
            self.either += [(column, slack) for column in own.get((direction, over), [])]

    def solution(self, banned, used):
        """Numbers of the columns, or None; banned columns are 0, used groups have weight."""
        free = [c for c in range(self.columns) if c not in banned]
        more = len(used) + 2
        table = [[e.get(c, 0) for c in free] + [0] * more for e in self.equations]
        right = list(self.right)
        if used:
            for k, (i, g) in enumerate(used):
                points = dict(self.weights[i][g][0])
                line = [points[c][1] if c in points else 0 for c in free]
                table.append(line + [-1, 0] + [-int(j == k) for j in range(len(used))])
                right.append(0)
            table.append([0] * len(free) + [1, 1] + [0] * len(used))
            right.append(1)
        aim = [0] * len(free) + [-1 if used else 0] + [0] * (more - 1)
        found = solve(aim, table, right)
        if found[0] != "at" or used and found[1][len(free)] == 0:
            return None
        return dict(zip(free, found[1])), found[2]


def search(conditions, most=4000):
    """Numbers of the columns and their denominator that meet all conditions, or None."""
    work = [(frozenset(), ())]
    nodes = 0
    while work:
        banned, used = work.pop()
        nodes += 1
        if nodes > most:
            raise TooLong
        found = conditions.solution(banned, used)
        if found is None:
            continue
        x = found[0]
        get = lambda c: x.get(c, 0)
        open_pair = max(conditions.either, key=lambda e: get(e[0]) * get(e[1]), default=None)
        if open_pair and get(open_pair[0]) * get(open_pair[1]) > 0:
            work += [(banned | {open_pair[0]}, used), (banned | {open_pair[1]}, used)]
            continue
        has_weight = lambda items: any(get(c) for c, _ in items)
        loose = next(((i, g) for i, groups in enumerate(conditions.weights)
                      for g, (points, rays) in enumerate(groups)
                      if has_weight(rays) and not has_weight(points)), None)
        if loose is None:
            return found
        rays = conditions.weights[loose[0]][loose[1]][1]
        work += [(banned | {c for c, _ in rays}, used), (banned, used + (loose,))]
    return None


def group_parts(points, rays, x, over):
    """Parts (weight, values) of one group: rays go by far points of a small weight."""
    parts = [[Fraction(x.get(c, 0) * p[1], over), [Fraction(a, p[1]) for a in p[0]]]
             for c, p in points if x.get(c, 0)]
    used = [(Fraction(x[c], over), r) for c, r in rays if x.get(c, 0)]
    if not used:
        return parts
    total = [sum(m * r[v] for m, r in used) for v in range(len(used[0][1]))]
    by = lcm(*[t.denominator for t in total])
    far = Fraction(1, by)
    while far >= parts[0][0]:
        far /= 2
    base = parts[0][1]
    parts[0][0] -= far
    parts.append([far, [b + t / far for b, t in zip(base, total)]])
    return parts


def profile_of(conditions, found):
    """For each player its parts (weight, values)."""
    x, over = found
    return [[part for points, rays in groups for part in group_parts(points, rays, x, over)]
            for groups in conditions.weights]


def point_profile(conditions, found):
    """For each player, who plays in one group, its mean as one part of weight 1."""
    x, over = found
    profile = []
    for player, groups in zip(conditions.players, conditions.weights):
        mean = [Fraction(0)] * player.base
        for points, rays in groups:
            for c, item in [(c, p[0]) for c, p in points] + rays:
                mean = [m + Fraction(x.get(c, 0) * a, over) for m, a in zip(mean, item)]
        profile.append([(Fraction(1), mean)])
    return profile


def whole(values):
    """The values as whole numbers over one denominator."""
    by = lcm(*[v.denominator for v in values])
    return [int(v * by) for v in values], by


def slope_of(players, i, means):
    """The player's slope at the others' means."""
    numbers = {p.name: k for k, p in enumerate(players)}
    slope = [Fraction(players[i].cost.get(v, 0)) for v in range(players[i].base)]
    for own, other, var, a in players[i].cross:
        k = numbers[other]
        slope[own] += a * means[k][players[k].number[var]]
    return slope


def means_of(profile):
    return [[sum(w * x[v] for w, x in parts) for v in range(len(parts[0][1]))]
            for parts in profile]
