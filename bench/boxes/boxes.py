#!/usr/bin/env python3
"""Counts and times the box trees of `zero solve --kind pure` beside a trial of all profiles.

    boxes.py [ZERO] [--seconds N] [--times N] [--seeds N] [--ratios FILE]

The games are the families `knapsack` and `chase` of knapsacks.py, of two and three players with 4
to 10 items, by the numbers 0, 1 and so on. Profiles are counted over the players' feasible points.
The plain trial is bench/trial/trial.rs, which rustc builds into bench/out/; it keeps all costs, so
that its memory ends first where there are many profiles. Where there is a pure equilibrium, no box
tree can be found and the answer comes from the search over covers.
"""
import os
import subprocess
import sys
from itertools import product

sys.path.insert(0, os.path.join(os.path.dirname(os.path.abspath(__file__)), ".."))
from knapsacks import chase, knapsack
from measure import HERE, Bench, Table, machine, shown, while_answered, word_of

ITEMS = range(4, 11)


def built_trial(bench):
    """The plain trial, built where rustc is there."""
    rustc = bench.peer("rustc", "rustc")
    if rustc is None:
        return None
    out = os.path.join(HERE, "out")
    os.makedirs(out, exist_ok=True)
    path = os.path.join(out, "plain_trial")
    subprocess.run([rustc, "-O", "-o", path, os.path.join(HERE, "trial", "trial.rs")], check=True)
    return path


def count_profiles(game):
    """The product of the players' numbers of feasible points."""
    total = 1
    for player in game["players"]:
        row = player["rows"][0]
        weights = [weight for _, weight in row["terms"]]
        points = product((0, 1), repeat=len(weights))
        total *= sum(sum(w * x for w, x in zip(weights, p)) <= row["le"] for p in points)
    return total


def leaves_of(solved):
    """The leaves of a box tree; for another answer its name."""
    if solved.lines and solved.lines[2] == "verdict none boxes":
        return sum(line.split(" ")[0] in ("empty", "deviate") for line in solved.lines)
    return "-" if solved.word != "none" else solved.lines[2].split(" ")[2]


def measure(bench, trial, table, family, players, items, number):
    """Measures a game; true where the program has an answer."""
    game = family(players, items, number)
    bench.write_game(game)
    solved = bench.solve("pure")
    size = f"{family.__name__} {players} x {items}"
    if solved.lines:
        seconds = bench.check("pure", solved)
        bench.ratio("solve beside check, pure", size, solved.seconds, seconds)
    theirs, by = "-", "-"
    if trial:
        done = bench.median([trial, "game.json"])
        theirs = word_of(done) or shown(done.seconds)
        by = bench.ratio_beside("solve pure beside trial", size, solved, "trial", done)
        if by != "-" and done.out.split("\n")[0] != f"verdict {solved.word}":
            bench.differs(f"{size}, number {number}: {solved.word}")
    table.row(family.__name__, players, items, number, count_profiles(game), solved.word,
              leaves_of(solved), shown(solved.seconds), theirs, by)
    return bool(solved.lines)


def main():
    bench = Bench(__doc__, 3)
    print(machine())
    trial = built_trial(bench)
    table = Table(family=8, players=7, items=5, number=6, profiles=12, verdict=9, leaves=9, zero=9,
                  trial=9, ratio=9)
    for family, players in product((knapsack, chase), (2, 3)):
        while_answered(ITEMS, lambda items: [
            measure(bench, trial, table, family, players, items, number)
            for number in range(bench.words.seeds)])
    bench.finish()


if __name__ == "__main__":
    main()
