#!/usr/bin/env python3
"""Times `zero best` on games of one player beside glpsol and esolver, and compares the values.

    best.py [ZERO] [--seconds N] [--times N] [--seeds N] [--ratios FILE]

- knapsacks of 10, 15, 20 and 30 items: weights from 1 to 1,000, values within 50 of the weights,
  the capacity half the weights' sum. glpsol searches in binary64, so its value is compared within
  rounding.
- continuous programs of 20 rows and columns, 40 and 40, and 60 rows and 40 columns: an eighth to a
  quarter of the places hold numbers from -2 to 3. The zero point is feasible, and a sum of rows is
  a bound of the cost. `glpsol --exact` calculates in fractions and prints binary64; esolver prints
  fractions, which must be the same.

The certificate that `best` wants has the zero point as the player's strategy. Seeds are 0, 1 and so
on; the numbers are drawn as `gen` draws them, from the size and the seed.
"""
import os
import sys
from fractions import Fraction

sys.path.insert(0, os.path.join(os.path.dirname(os.path.abspath(__file__)), ".."))
from exact import Draws
from measure import Bench, Table, machine, quotient, run, shown, word_of

ITEMS = (10, 15, 20, 30)
PROGRAMS = ((20, 20, 4), (40, 40, 8), (60, 40, 8))


def knapsack(items, seed):
    """Aim, rows (numbers, right side) and whether the variables are binary."""
    draws = Draws(1000 * items + seed)
    weights = [draws.between(1, 1000) for _ in range(items)]
    values = [max(1, weight + draws.between(-50, 50)) for weight in weights]
    return [-value for value in values], [(weights, sum(weights) // 2)], True


def program(rows, columns, one_in, seed):
    """A continuous program in which one place of `one_in` isn't zero."""
    draws = Draws(1000 * (100 * rows + columns) + seed)
    numbers = [[0] * columns for _ in range(rows)]
    for row in numbers:
        for j in range(columns):
            row[j] = draws.pick((-2, -1, 1, 1, 2, 3)) if draws.below(one_in) == 0 else 0
        row[draws.below(columns)] = draws.between(1, 3)
    shares = [draws.below(4) for _ in range(rows)]
    aim = [draws.below(3) - sum(s * row[j] for s, row in zip(shares, numbers))
           for j in range(columns)]
    return aim, [(row, draws.between(10, 99)) for row in numbers], False


def game_of(aim, rows, binary):
    names = [f"x{j}" for j in range(len(aim))]
    terms = lambda numbers: [[n, a] for n, a in zip(names, numbers) if a]
    variables = [{"name": n, "int": True, "up": 1} if binary else {"name": n} for n in names]
    return [{"name": "A", "vars": variables, "cost": terms(aim),
             "rows": [{"terms": terms(numbers), "le": le} for numbers, le in rows]}]


def certificate_at_zero(columns):
    """A certificate whose head is right: the player plays the zero point."""
    lines = ["zero-cert/1", "kind mixed 1", "verdict profile", "player 0 total 1 parts 1",
             "part 1 1" + " 0" * columns, "cost 0 0 1", "leaf 1 0", "end"]
    return "\n".join(lines) + "\n"


def lp_text(aim, rows, binary):
    """The program in CPLEX's LP format, a term on a line."""
    terms = lambda numbers: [f" {a:+d} x{j}" for j, a in enumerate(numbers) if a]
    lines = ["Minimize", " cost:"] + terms(aim) + ["Subject To"]
    for k, (numbers, le) in enumerate(rows):
        lines += [f" r{k}:"] + terms(numbers) + [f" <= {le}"]
    if binary:
        lines += ["Binary"] + [f" x{j}" for j in range(len(aim))]
    return "\n".join(lines + ["End"]) + "\n"


def least_of(text):
    """The least cost that `best` prints."""
    line = next(line for line in text.split("\n") if line.startswith("least 0 "))
    return Fraction(*[int(word) for word in line.split(" ")[2:]])


def glpsol_value(bench, name):
    """The value of the solution that glpsol wrote, in binary64."""
    with open(bench.path(name)) as text:
        line = next(line for line in text if line.startswith("s "))
    return float(line.split()[-1])


def esolver_value(bench, name):
    with open(bench.path(name)) as text:
        line = next(line for line in text if "Value =" in line)
    return Fraction(line.split("=")[1].strip())


def beside(bench, peers, binary):
    """For each peer that serves: its name, its run, and its value as a fraction, exact or not."""
    found = []
    if peers["glpsol"]:
        exact = [] if binary else ["--exact"]
        words = [peers["glpsol"], *exact, "--lp", "game.lp", "-w", "game.glp"]
        done = bench.median(words)
        value = None if done.status else Fraction(glpsol_value(bench, "game.glp"))
        found.append(("glpsol" + (" --exact" if exact else ""), done, value, False))
    if peers["esolver"] and not binary:
        limit = str(bench.words.seconds)
        done = bench.median([peers["esolver"], "-R", limit, "-L", "-O", "game.sol", "game.lp"])
        value = None if done.status else esolver_value(bench, "game.sol")
        found.append(("esolver", done, value, True))
    return found


def compare(bench, game, ours, value, exact):
    if ours is None or value is None:
        return
    near = ours == value if exact else abs(ours - value) <= Fraction(1, 10**9) * max(1, abs(ours))
    if not near:
        bench.differs(f"{game}: {ours} in place of {value}")


def measure(bench, peers, table, size, seed, parts):
    aim, rows, binary = parts
    bench.write_game(game_of(aim, rows, binary))
    bench.write("zero.cert", certificate_at_zero(len(aim)))
    bench.write("game.lp", lp_text(aim, rows, binary))
    done = bench.median([bench.zero, "best", "game.json", "zero.cert"])
    word = bench.stop_of(done)
    value = None if word else least_of(done.out)
    cells = []
    for name, theirs, their_value, exact in beside(bench, peers, binary):
        compare(bench, f"{size}, seed {seed}, {name}", value, their_value, exact)
        their_word = word_of(theirs)
        bench.ratio(f"best beside {name}", size, done.seconds, theirs.seconds,
                    word or their_word and f"{name} {their_word}")
        if word or their_word:
            cells.append(f"{name} {their_word or shown(theirs.seconds)}")
        else:
            by = quotient(done.seconds, theirs.seconds)
            cells.append(f"{name} {shown(theirs.seconds)} ({by})")
    table.row(size, seed, word or value, shown(done.seconds), ", ".join(cells))


def main():
    bench = Bench(__doc__, 3)
    print(machine())
    peers = {"glpsol": bench.peer("glpsol", "glpk-utils"),
             "esolver": bench.peer("esolver", "qsopt-ex")}
    starts = [("zero", [bench.zero])]
    starts += [(name, [path, option]) for (name, path), option
               in zip(peers.items(), ("--version", "-v")) if path]
    print("a start alone:", ", ".join(f"{n} {shown(bench.start(words))}" for n, words in starts))
    table = Table(program=14, seed=4, least=28, zero=9, beside_and_ratio=60)
    for items in ITEMS:
        for seed in range(bench.words.seeds):
            measure(bench, peers, table, f"knapsack {items}", seed, knapsack(items, seed))
    for rows, columns, one_in in PROGRAMS:
        for seed in range(bench.words.seeds):
            measure(bench, peers, table, f"{rows} x {columns}", seed,
                    program(rows, columns, one_in, seed))
    bench.finish()


if __name__ == "__main__":
    main()
