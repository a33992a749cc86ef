#!/usr/bin/env python3
"""Least values of made linear programs, by a plain simplex method in exact fractions.

Minimise aim * x over x >= 0 with coef * x <= le in each row. The programs come from a linear
congruential generator, as in the tests of zr_simplex; the method here is the textbook one on a
tableau of fractions, in two phases with R. Bland's rule, and shares nothing with that crate.

Prints a line for each program: its number, its sizes, and `best NUM DEN`, `empty` or `unbounded`.
"""
from fractions import Fraction


class Draws:
    """state' = (1103515245 * state + 12345) mod 2^31; a draw below n is (state' / 2^16) mod n."""

    def __init__(self, seed):
        self.state = seed

    def below(self, n):
        self.state = (1103515245 * self.state + 12345) % 2**31
        return self.state // 2**16 % n


def sizes(k):
    """Columns come in `parts` parts of `stride`, and a row has one number in each part."""
    if k < 15:
        return 3 + k * 9 // 14, 1, 3 + k * 9 // 14
    return 3, 1 + (k - 14) * 9 // 15, 3 + (k - 14) * 27 // 15


def program(k):
    parts, stride, count = sizes(k)
    draws = Draws(k + 1)
    low, fall = (5, 8) if k < 15 else (2, 4)
    slack = 8 if k % 3 == 2 else 12
    rows = []
    for _ in range(count):
        coef = {}
        for part in range(parts):
            column = part * stride + draws.below(stride)
            coef[column] = draws.below(13) - low
        rows.append((coef, draws.below(20) - 12 + slack))
    aim = [draws.below(12) - fall for _ in range(parts * stride)]
    return parts * stride, rows, aim


def pivot(table, basis, row, column):
    by = table[row][column]
    table[row] = [x / by for x in table[row]]
    for i, other in enumerate(table):
        if i != row and other[column] != 0:
            less = other[column]
            table[i] = [x - less * y for x, y in zip(other, table[row])]
    basis[row] = column


def descend(table, basis, columns):
    """Bland's rule on the last line of the table; False where the value falls without end."""
    while True:
        cost = table[-1]
        entering = next((j for j in range(columns) if cost[j] < 0), None)
        if entering is None:
            return True
        ratios = [(table[i][-1] / table[i][entering], basis[i], i)
                  for i in range(len(basis)) if table[i][entering] > 0]
        if not ratios:
            return False
        pivot(table, basis, min(ratios)[2], entering)


def least(columns, rows, aim):
    count = len(rows)
    width = columns + 2 * count
    table, basis = [], []
    for r, (coef, le) in enumerate(rows):
        line = [Fraction(coef.get(j, 0)) for j in range(columns)]
        line += [Fraction(int(i == r)) for i in range(count)] + [Fraction(0)] * count + [Fraction(le)]
        if le < 0:
            line = [-x for x in line]
        line[columns + count + r] = Fraction(1)
        table.append(line)
        basis.append(columns + count + r)
    # first phase: the sum of the artificial columns
    cost = [-sum(line[j] for line in table) for j in range(width + 1)]
    for j in range(columns + count, width):
        cost[j] = Fraction(0)
    table.append(cost)
    descend(table, basis, columns + count)
    if table[-1][-1] != 0:
        return None
    for i in range(count):
        if basis[i] >= columns + count:
            entering = next((j for j in range(columns + count) if table[i][j] != 0), None)
            if entering is not None:
                pivot(table, basis, i, entering)
    # second phase: the aim
    cost = [Fraction(a) for a in aim] + [Fraction(0)] * (2 * count + 1)
    for i in range(count):
        if basis[i] < columns and cost[basis[i]] != 0:
            by = cost[basis[i]]
            cost = [x - by * y for x, y in zip(cost, table[i])]
    table[-1] = cost
    if not descend(table, basis, columns + count):
        return False
    x = [Fraction(0)] * columns
    for i, column in enumerate(basis):
        if column < columns:
            x[column] = table[i][-1]
    assert all(v >= 0 for v in x)
    assert all(sum(a * x[j] for j, a in coef.items()) <= le for coef, le in rows)
    value = sum(a * v for a, v in zip(aim, x))
    assert value == -table[-1][-1]
    return value


if __name__ == "__main__":
    for k in range(30):
        columns, rows, aim = program(k)
        found = least(columns, rows, aim)
        kind = ("empty" if found is None else "unbounded" if found is False
                else f"best {found.numerator} {found.denominator}")
        print(k, columns, len(rows), kind)
