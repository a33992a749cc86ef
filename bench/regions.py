#!/usr/bin/env python3
"""A player's feasible points as unions of polyhedra, given by points and rays, in whole numbers.

For each choice of a side per pair, the points with whole values are listed value by value; where
values have no bound, as far as is needed: a point of a rational polyhedron with whole values is
one near the polyhedron's own points, and a sum of whole multiples of its rays (R. Meyer, 1974).
Followers go by the conditions of their optimality, as pairs with multipliers; these are left out
of what is listed.
"""
from itertools import product
from math import prod

from exact import dot, generators, lowest


class TooMany(Exception):
    """More combinations of whole values than the limit."""


class Cell:
    """One value per whole variable and one side per pair: points (numbers, denominator), rays."""

    def __init__(self, points, rays, fixed=()):
        self.points, self.rays, self.fixed = points, rays, fixed


class Region(Cell):
    """One side per pair: all its points, with its cells."""

    def __init__(self, points, rays, cells, listed):
        super().__init__(points, rays)
        self.cells = cells
        self.listed = listed  # whether the cells are all there are


def rows_of(player, sides):
    """The player's rows for these sides of its pairs, as (numbers, right side)."""
    low, up = [v[2] for v in player.vars], [v[3] for v in player.vars]
    n = len(player.vars)
    return [([terms.get(v, 0) for v in range(n)], right)
            for _, terms, right in player.slots(low, up, sides)]


def without(values, base):
    """The points or rays over the base variables, each once."""
    found = []
    for value in values:
        if isinstance(value, tuple):
            numbers = lowest(value[0][:base] + [value[1]])
            value = (numbers[:-1], numbers[-1])
        else:
            value = lowest(value[:base])
        if value not in found and (isinstance(value, tuple) or any(value)):
            found.append(value)
    return found


def cell_at(player, rows, whole, values):
    """The cell where the whole variables have these values, or None where it has no point."""
    n = len(player.vars)
    rest = [v for v in range(n) if v not in whole]
    fixed = dict(zip(whole, values))
    left = []
    for numbers, right in rows:
        right -= sum(numbers[v] * x for v, x in fixed.items())
        numbers = [numbers[v] for v in rest]
        if any(numbers):
            left.append((numbers, right))
        elif right < 0:
            return None
    points, rays = generators(left, len(rest)) if rest else ([([], 1)], [])
    if not points:
        return None

    def lift(x, over):
        full = [over * fixed.get(v, 0) for v in range(n)]
        for v, a in zip(rest, x):
            full[v] = a
        return full

    points = [(lift(x, d), d) for x, d in points]
    rays = [lift(x, 0) for x in rays]
    return Cell(without(points, player.base), without(rays, player.base), values)


def near(points, rays, v):
    """The least and greatest whole value of v in a mean of points with at most once each ray."""
    less = sum(min(0, r[v]) for r in rays)
    more = sum(max(0, r[v]) for r in rays)
    return (min(-(-p[v] // d) for p, d in points) + less,
            max(p[v] // d for p, d in points) + more)


def region_of(player, sides, most):
    """The region of these sides, or None where it has no point."""
    rows = rows_of(player, sides)
    points, rays = generators(rows, len(player.vars))
    if not points:
        return None
    whole = [v for v, var in enumerate(player.vars) if var[1]]
    ends = [near(points, rays, v) for v in whole]
    if prod(max(0, high - low + 1) for low, high in ends) > most:
        raise TooMany
    cells = []
    for values in product(*[range(low, high + 1) for low, high in ends]):
        cell = cell_at(player, rows, whole, values)
        if cell:
            cells.append(cell)
    if not cells:
        return None
    points = without([p for c in cells for p in c.points], player.base)
    listed = all(r[v] == 0 for r in rays for v in whole)
    return Region(points, without(rays, player.base), cells, listed)


def regions(player, most=3000):
    """All regions of the player that have a point."""
    found = [region_of(player, list(sides), most)
             for sides in product((1, 2), repeat=len(player.pairs))]
    return [region for region in found if region]


def least(player, found, slope):
    """The least of slope * x: ("at", numerator, denominator, point), ("below",) or ("empty",)."""
    if not found:
        return ("empty",)
    if any(dot(slope, r) < 0 for region in found for r in region.rays):
        return ("below",)
    best = None
    for region in found:
        for point, over in region.points:
            value = dot(slope, point)
            if best is None or value * best[1] < best[0] * over:
                best = (value, over, (point, over))
    return ("at",) + best


def is_feasible(player, point, over):
    """Whether the base point over its denominator is feasible, the followers' answers included.

    By the definition: bounds, rows, whole values and pairs by substitution, and each follower's
    cost against the least one of its own linear program.
    """
    for v in range(player.base):
        _, whole, low, up = player.vars[v]
        if whole and point[v] % over or low is not None and point[v] < low * over \
                or up is not None and point[v] > up * over:
            return False
    rows = player.rows + [row for _, rows, _ in player.followers for row in rows]
    if any(sum(a * point[v] for v, a in terms.items()) > right * over for terms, right in rows):
        return False
    own_pairs = player.pairs[:len(player.pairs) - follower_pairs(player)]
    for var, terms, add in own_pairs:
        value = add * over + sum(a * point[v] for v, a in terms.items())
        if value < 0 or point[var] < 0 or value * point[var] != 0:
            return False
    return all(answers_best(player, f, point, over) for f in player.followers)


def follower_pairs(player):
    return sum(len(own) + len(rows) for own, rows, _ in player.followers)


def answers_best(player, follower, point, over):
    """Whether the follower's own values cost it least, the leader's other values being given."""
    own, rows, first = follower
    slope = []
    for var, terms, add in player.pairs[len(player.pairs) - follower_pairs(player):]:
        if var in own:
            given = sum(a * point[v] for v, a in terms.items() if v < player.base)
            slope.append(add * over + given)
    left = []
    for terms, right in rows:
        given = sum(a * point[v] for v, a in terms.items() if v not in own)
        left.append(([terms.get(v, 0) * over for v in own], right * over - given))
    left += [([-int(k == j) for k in range(len(own))], 0) for j in range(len(own))]
    points, rays = generators(left, len(own))
    if any(dot(slope, r) < 0 for r in rays) or any(point[v] < 0 for v in own):
        return False
    mine = dot(slope, [point[v] for v in own])
    return all(mine * d <= dot(slope, p) * over for p, d in points)

