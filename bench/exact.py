#!/usr/bin/env python3
"""Exact tools for made games: draws, the points and rays of a polyhedron, linear programs.

Whole numbers and fractions alone, and only Python's standard library.
"""
from math import gcd


class Draws:
    """state' = (6364136223846793005 * state + 1442695040888963407) mod 2^64, as `gen` draws."""

    def __init__(self, number):
        self.state = number

    def below(self, n):
        """A number from 0 to n - 1."""
        self.state = (self.state * 6364136223846793005 + 1442695040888963407) % 2**64
        return self.state // 2**33 % n

    def between(self, low, high):
        """A number from low to high."""
        return low + self.below(high - low + 1)

    def chance(self, percent):
        return self.below(100) < percent

    def other_than_zero(self, size):
        """A number from -size to size that isn't zero."""
        return (1 + self.below(size)) * (1 if self.below(2) else -1)

    def pick(self, items):
        return items[self.below(len(items))]


def lowest(numbers):
    common = gcd(*numbers)
    return [v // common for v in numbers] if common > 1 else numbers


def dot(left, right):
    return sum(a * b for a, b in zip(left, right))


def mixed(first, left, second, right):
    """first * left + second * right, without a common divisor."""
    return lowest([first * a + second * b for a, b in zip(left, right)])


def between(rays, bit, values):
    """The rays that stand where the plane parts two neighbouring rays (their common faces)."""
    above = [k for k, value in enumerate(values) if value > 0]
    below = [k for k, value in enumerate(values) if value < 0]
    found = []
    for p in above:
        for m in below:
            common = rays[p][1] & rays[m][1]
            if not any(k != p and k != m and common & r[1] == common for k, r in enumerate(rays)):
                found.append((mixed(values[p], rays[m][0], -values[m], rays[p][0]), common | bit))
    return found


def generators(rows, n):
    """Points (numbers, denominator) and rays of {x : a * x <= b for each (a, b) of rows}.

    The polyhedron is all means of the points with sums of multiples of the rays; without a point
    it is empty. By double description (T. Motzkin, H. Raiffa, G. Thompson, R. Thrall, 1953) of the
    cone {(x, t) : a * x <= b * t, t >= 0}, one row after another; lines go as two rays.
    """
    planes = [[0] * n + [-1]] + [list(a) + [-b] for a, b in rows]
    lines = [[int(k == j) for k in range(n + 1)] for j in range(n + 1)]
    rays = []
    for number, plane in enumerate(planes):
        bit = 1 << number
        line = next((x for x in lines if dot(plane, x)), None)
        if line is not None:
            lines = [x for x in lines if x is not line]
            size = abs(dot(plane, line))
            if dot(plane, line) > 0:
                line = [-v for v in line]
            lines = [mixed(size, x, dot(plane, x), line) for x in lines]
            rays = [(mixed(size, x, dot(plane, x), line), mask | bit) for x, mask in rays]
            rays.append((line, bit - 1))
            continue
        values = [dot(plane, x) for x, _ in rays]
        kept = [(x, mask | (bit if value == 0 else 0))
                for (x, mask), value in zip(rays, values) if value <= 0]
        rays = kept + between(rays, bit, values)
    points = [(x[:-1], x[-1]) for x, _ in rays if x[-1] > 0]
    directions = [x[:-1] for x, _ in rays if x[-1] == 0]
    for x in lines:
        directions += [x[:-1], [-v for v in x[:-1]]]
    return (points, directions) if points else ([], [])


class Tableau:
    """Equations in whole numbers over one common denominator (J. Edmonds, 1967)."""

    def __init__(self, columns, equations, right):
        self.columns = columns
        count = len(equations)
        self.lines = []
        for k, (equation, b) in enumerate(zip(equations, right)):
            sign = -1 if b < 0 else 1
            own = [int(k == j) for j in range(count)]
            self.lines.append([sign * v for v in equation] + own + [sign * b])
        self.basis = list(range(self.columns, self.columns + count))
        self.over = 1

    def pivot(self, row, column):
        if self.lines[row][column] < 0:
            self.lines[row] = [-v for v in self.lines[row]]
        entry, pivot = self.lines[row][column], self.lines[row]
        for k, line in enumerate(self.lines):
            if k != row:
                by = line[column]
                self.lines[k] = [(entry * v - by * u) // self.over for v, u in zip(line, pivot)]
        self.basis[row] = column
        self.over = entry

    def descend(self, allowed):
        """R. Bland's rule on the last line; False where the value falls without end."""
        count = len(self.basis)
        while True:
            cost = self.lines[-1]
            column = next((j for j in allowed if cost[j] < 0), None)
            if column is None:
                return True
            row = None
            for k in range(count):
                line = self.lines[k]
                if line[column] > 0:
                    if row is not None:
                        best = self.lines[row]
                        less = line[-1] * best[column] - best[-1] * line[column]
                    if row is None or less < 0 or less == 0 and self.basis[k] < self.basis[row]:
                        row = k
            if row is None:
                return False
            self.pivot(row, column)


def solve(aim, equations, right):
    """The least aim * x over x >= 0 with equations * x = right, all in whole numbers.

    Gives ("at", x, denominator), ("empty",) or ("below",).
    """
    columns, count = len(aim), len(equations)
    table = Tableau(columns, equations, right)
    first = [-sum(line[j] for line in table.lines) for j in range(columns)]
    table.lines.append(first + [0] * count + [-sum(line[-1] for line in table.lines)])
    table.descend(range(columns))
    if table.lines[-1][-1] != 0:
        return ("empty",)
    for k in range(count):
        if table.basis[k] >= columns:
            column = next((j for j in range(columns) if table.lines[k][j] != 0), None)
            if column is not None:
                table.pivot(k, column)
    last = [table.over * v for v in aim] + [0] * (count + 1)
    for k in range(count):
        by = aim[table.basis[k]] if table.basis[k] < columns else 0
        if by:
            last = [v - by * u for v, u in zip(last, table.lines[k])]
    table.lines[-1] = last
    if not table.descend(range(columns)):
        return ("below",)
    x = [0] * columns
    for k in range(count):
        if table.basis[k] < columns:
            x[table.basis[k]] = table.lines[k][-1]
    return ("at", x, table.over)
