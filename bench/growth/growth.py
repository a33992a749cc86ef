#!/usr/bin/env python3
"""How the seconds of `zero solve` of the mixed kind grow with a game's size.

    growth.py [ZERO] [--seconds N] [--times N] [--seeds N] [--ratios FILE]

The games are those of knapsacks.py, by the numbers 0, 1 and so on: knapsacks of two players with
1 to 6 items, of three players with 1 to 4 items, and 2 to 5 leaders with a follower each. The ratio
is that of the medians of a size and of the size before it, over the games with an answer.
"""
import os
import statistics
import sys

sys.path.insert(0, os.path.join(os.path.dirname(os.path.abspath(__file__)), ".."))
from knapsacks import knapsack, leaders
from measure import Bench, Table, machine, quotient, shown, while_answered

FAMILIES = [("two players, items", range(1, 7), lambda size, number: knapsack(2, size, number)),
            ("three players, items", range(1, 5), lambda size, number: knapsack(3, size, number)),
            ("leaders", range(2, 6), leaders)]


def solve_all(bench, name, size, made):
    """The seconds of the games with an answer, and what all of them came to."""
    seconds, words = [], []
    for number in range(bench.words.seeds):
        bench.write_game(made(size, number))
        solved = bench.solve("mixed", times=1)
        words.append(solved.word)
        if solved.lines:
            seconds.append(solved.seconds)
            checked = bench.check("mixed", solved, times=1)
            bench.ratio(f"solve beside check, {name}", str(size), solved.seconds, checked)
        else:
            bench.ratio(f"solve beside check, {name}", str(size), None, None, solved.word)
    return seconds, words


def measure(bench, table, medians, name, size, made):
    """Measures the games of a size and prints their row beside the size before; gives the seconds
    of those that have an answer."""
    seconds, words = solve_all(bench, name, size, made)
    before, now = medians.get(size - 1), statistics.median(seconds) if seconds else None
    medians[size] = now
    ended = ", ".join(f"{words.count(w)} {w}" for w in sorted(set(words)))
    table.row(name, size, shown(now), shown(max(seconds, default=None)), quotient(now, before),
              ended)
    if before:
        bench.ratio(f"growth, {name}", f"{size} beside {size - 1}", now, before,
                    "" if now else words[0])
    return seconds


def main():
    bench = Bench(__doc__, 5)
    print(machine())
    table = Table(family=20, size=4, median=9, greatest=9, to_the_size_before=18, ended=30)
    for name, sizes, made in FAMILIES:
        medians = {}
        while_answered(sizes, lambda size: measure(bench, table, medians, name, size, made))
    bench.finish()


if __name__ == "__main__":
    main()
