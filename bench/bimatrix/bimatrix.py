#!/usr/bin/env python3
"""Times the first equilibrium of bimatrix games by `zero solve` beside lrsnash, which finds all.

    bimatrix.py [ZERO] [--seconds N] [--times N] [--seeds N] [--ratios FILE]

Two players with N continuous variables of sum 1 (`sum <= 1` and `-sum <= -1`), N from 2 to 8, and a
whole cost from -50 to 50 of each pair, drawn as `gen` draws from 100 * N and the seed. lrsnash
gets the negated costs, as it takes payoffs. Each printed profile is tried in fractions: no row and
no column costs less than the one that is played.
"""
import os
import sys

sys.path.insert(0, os.path.join(os.path.dirname(os.path.abspath(__file__)), ".."))
from compare_made import profile_of
from equilibria import means_of, slope_of
from exact import Draws, dot
from make_cert import Player
from measure import Bench, Table, machine, shown, while_answered, word_of

SIZES = range(2, 9)


def matrices(size, seed):
    """The costs of the player of rows and of the player of columns, by row and column."""
    draws = Draws(100 * size + seed)
    return [[[draws.between(-50, 50) for _ in range(size)] for _ in range(size)] for _ in range(2)]


def game_of(first, second):
    size = len(first)
    variables = [f"x{k}" for k in range(size)]
    columns = list(zip(*second))
    players = []
    for name, other, costs in (("A", "B", first), ("B", "A", columns)):
        cross = [[x, other, y, a] for x, line in zip(variables, costs)
                 for y, a in zip(variables, line) if a]
        rows = [{"terms": [[x, sign] for x in variables], "le": sign} for sign in (1, -1)]
        players.append({"name": name, "vars": [{"name": x} for x in variables], "rows": rows,
                        "cross": cross})
    return players


def nash_text(first, second):
    """The game as lrsnash reads it."""
    text = f"{len(first)} {len(first[0])}\n"
    for matrix in (first, second):
        text += "\n" + "".join(" ".join(str(-a) for a in line) + "\n" for line in matrix)
    return text


def test(bench, players, lines, name):
    """That no row and no column costs less than the means do."""
    read = [Player(p) for p in players]
    means = means_of(profile_of(lines, read))
    for i, mean in enumerate(means):
        slope = slope_of(read, i, means)
        if min(mean) < 0 or sum(mean) != 1 or dot(slope, mean) != min(slope):
            bench.differs(f"{name}: player {i} doesn't play a best answer")


def equilibria_found(text):
    line = next(line for line in text.split("\n") if "Number of equilibria found" in line)
    return int(line.split(":")[1])


def measure(bench, nash, table, size, seed):
    """Measures a game; true where the program has an answer."""
    first, second = matrices(size, seed)
    players = game_of(first, second)
    bench.write_game(players)
    solved = bench.solve("mixed")
    name = f"{size} x {size}"
    if solved.word == "profile":
        test(bench, players, solved.lines, f"{name}, seed {seed}")
        seconds = bench.check("mixed", solved)
        bench.ratio("solve beside check, bimatrix", name, solved.seconds, seconds)
    elif solved.word == "none":
        bench.differs(f"{name}, seed {seed}: none")
    count, theirs, by = "-", "-", "-"
    if nash:
        bench.write("game.nash", nash_text(first, second))
        done = bench.median([nash, "game.nash"])
        count = word_of(done) or equilibria_found(done.out)
        theirs = shown(done.seconds)
        by = bench.ratio_beside("first equilibrium beside lrsnash's all", name, solved, "lrsnash",
                                done)
    table.row(size, seed, solved.word, shown(solved.seconds), theirs, count, by)
    return bool(solved.lines)


def main():
    bench = Bench(__doc__, 5)
    print(machine())
    nash = bench.peer("lrsnash", "lrslib")
    table = Table(size=4, seed=4, verdict=9, zero=9, lrsnash=9, equilibria=10, ratio=9)
    while_answered(SIZES, lambda size: [measure(bench, nash, table, size, seed)
                                        for seed in range(bench.words.seeds)])
    bench.finish()


if __name__ == "__main__":
    main()
