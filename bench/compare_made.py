#!/usr/bin/env python3
"""Compares the program with the made games' verdicts, which were found without it.

    compare_made.py [PROGRAM] [--players] [--games] [--kind KIND] [--budget N] [--seconds N]
                    [--seed N] [--plans] [--tell]

PROGRAM is `zero` where missing. Without --players or --games both lists are taken, without --kind
both kinds, and of all seeds. --seconds (60 where missing) is the longest time for a game; --plans
prints a line per plan, --tell a line per game.

On each game it runs `solve GAME --kind KIND`. A certificate's verdict is compared with the list's,
its profile is tried by the definition of an equilibrium and its costs are made anew, `check GAME
CERT` must accept it, and for one player the cost must be the least one, as that of `best GAME
CERT`. Stops (7 to 10) are counted, and must come with a report; an open whole variable must want a
bound. Where something differs the line says what, and the exit status is 1.
"""
import argparse
import json
import os
import re
import shutil
import subprocess
import sys
import tempfile
import time
from fractions import Fraction

from equilibria import means_of, slope_of
from made_games import is_equilibrium
from make_cert import Player
from regions import regions

STOPS = {7: r"budget of \d+ spent", 8: "too wide", 9: r"open: player (\d+) variable (\d+)",
         10: r"too large: \d+"}
COLUMNS = ["agree", "differ", "7", "8", "9", "10", "late", "unjudged"]


class Differs(Exception):
    """The program says something else than it should."""


class Program:
    """Runs of the program in a folder, with the game's text in a file."""

    def __init__(self, path, folder, limit, budget):
        self.path, self.folder, self.limit = path, folder, limit
        self.options = [] if budget is None else ["--budget", str(budget)]

    def write(self, name, text):
        with open(os.path.join(self.folder, name), "w", newline="") as out:
            out.write(text)

    def run(self, *words):
        """Status, output and error lines; a longer run than the limit is a TimeoutExpired."""
        done = subprocess.run([self.path, *words, *self.options], cwd=self.folder, text=True,
                              capture_output=True, timeout=self.limit)
        return done.returncode, done.stdout, done.stderr


def profile_of(lines, players):
    """The profile of a certificate's lines, as parts (weight, values of the base variables)."""
    profile = []
    for line in lines:
        words = line.split(" ")
        if words[0] == "player":
            profile.append([])
            total = int(words[3])
        elif words[0] == "part":
            base = players[len(profile) - 1].base
            values = [Fraction(int(a), int(words[2])) for a in words[3:3 + base]]
            profile[-1].append((Fraction(int(words[1]), total), values))
    return profile


def cost_of(players, i, means):
    """What player i pays at the means, its terms in the others' variables alone included."""
    numbers = {p.name: k for k, p in enumerate(players)}
    cost = sum(g * x for g, x in zip(slope_of(players, i, means), means[i]))
    for names, number in players[i].others:
        term = Fraction(number)
        for name, var in zip(names[::2], names[1::2]):
            k = numbers[name]
            term *= means[k][players[k].number[var]]
        cost += term
    return cost


def test_profile(players, lines, kind):
    """That the certificate's profile is an equilibrium of the kind, with these costs."""
    profile = profile_of(lines, players)
    if len(profile) != len(players) or kind == "pure" and any(len(p) != 1 for p in profile):
        raise Differs("the profile isn't of the kind")
    if not is_equilibrium(players, [regions(p) for p in players], profile):
        raise Differs("the profile is no equilibrium")
    printed = [line.split(" ")[2:] for line in lines if line.startswith("cost ")]
    means = means_of(profile)
    for i, words in enumerate(printed):
        if Fraction(int(words[0]), int(words[1])) != cost_of(players, i, means):
            raise Differs(f"the cost of player {i}")


def test_stop(players, status, out, err):
    """That a stop has its line and its report, and that an open variable wants a bound."""
    found = re.fullmatch(f"zero: {STOPS[status]}\n", err)
    if not found or not out.startswith("zero-report/1\n") or not out.endswith("\nend\n"):
        raise Differs(f"status {status} without its line or its report")
    if status == 9:
        _, whole, low, up = players[int(found[1])].vars[int(found[2])]
        if not whole or low is not None and up is not None:
            raise Differs("the open variable has both bounds")


def test_verdict(item, kind, lines, count):
    """The verdict of the certificate, compared with the list's."""
    if lines[:2] != ["zero-cert/1", f"kind {kind} {count}"] or lines[-2:] != ["end", ""]:
        raise Differs("the text is no certificate of the kind")
    words = lines[2].split(" ")
    expected = item["verdict"] if "verdict" in item else item[kind]
    if expected is not None and words[1] != expected:
        raise Differs(f"verdict {words[1]} in place of {expected}")
    if words[1:3] == ["none", "empty"] and not item.get("empty"):
        raise Differs("no player is without a point")
    return words[1], expected is None


def test_least(program, item, lines):
    """The cost of one player's optimum, in the certificate and by `best`."""
    least = " ".join(str(a) for a in item["cost"])
    if f"cost 0 {least}" not in lines:
        raise Differs(f"the cost isn't {least}")
    status, out, err = program.run("best", "game.json", "game.cert")
    if status or f"least 0 {least}" not in out.split("\n"):
        raise Differs(f"best: status {status} {(err or out)[:60]!r}")


def compare(program, item, kind):
    """The column in which this game counts."""
    program.write("game.json", json.dumps(item["game"]))
    players = [Player(p) for p in item["game"]["players"]]
    try:
        status, out, err = program.run("solve", "game.json", "--kind", kind)
    except subprocess.TimeoutExpired:
        return "late"
    if status in STOPS:
        test_stop(players, status, out, err)
        return str(status)
    if status:
        raise Differs(f"status {status} {err[:60]!r}")
    lines = out.split("\n")
    verdict, unjudged = test_verdict(item, kind, lines, len(players))
    program.write("game.cert", out)
    status, said, err = program.run("check", "game.json", "game.cert")
    if (status, said) != (0, f"accepted {kind} {verdict}\n"):
        raise Differs(f"check: status {status} {(err or said)[:60]!r}")
    if verdict == "profile":
        test_profile(players, lines, kind)
        if "cost" in item:
            test_least(program, item, lines)
    return "unjudged" if unjudged and verdict == "none" else "agree"


def counted(program, item, kind, tell):
    """The column and the seconds of `compare`; what differs is printed."""
    start = time.monotonic()
    try:
        column, what = compare(program, item, kind), ""
    except subprocess.TimeoutExpired:
        column, what = "differ", "check or best takes too long"
    except Differs as differs:
        column, what = "differ", str(differs)
    except (IndexError, ValueError) as error:
        column, what = "differ", f"a text can't be read: {error}"
    seconds = time.monotonic() - start
    if tell or what:
        words = ["seed", item["seed"], item["plan"] + ",", kind + ":", column, what]
        print(*words, f"{seconds:.2f}", flush=True)
    return column, seconds


def print_table(table):
    print(f"{'':30}" + "".join(f"{c:>9}" for c in COLUMNS) + f"{'seconds':>10}{'longest':>9}")
    for name, found in table.items():
        counts = "".join(f"{sum(c == column for c, _ in found):9}" for column in COLUMNS)
        seconds = [s for _, s in found]
        print(f"{name:30}{counts}{sum(seconds):10.1f}{max(seconds):9.2f}")


def read_words():
    words = argparse.ArgumentParser(description="Compares the program with the made verdicts.")
    words.add_argument("program", nargs="?", default="zero")
    for name in ("--players", "--games", "--plans", "--tell"):
        words.add_argument(name, action="store_true")
    words.add_argument("--kind", choices=["pure", "mixed"])
    words.add_argument("--budget", type=int)
    words.add_argument("--seconds", type=float, default=60)
    words.add_argument("--seed", type=int)
    return words.parse_args()


def main():
    words = read_words()
    lists = [n for n in ("players", "games") if getattr(words, n)] or ["players", "games"]
    kinds = [words.kind] if words.kind else ["pure", "mixed"]
    path = shutil.which(words.program)
    if path is None:
        sys.exit(f"there is no program {words.program}")
    path = os.path.abspath(path)
    folder = os.path.join(os.path.dirname(os.path.abspath(__file__)), "made")
    table = {}
    with tempfile.TemporaryDirectory() as place:
        program = Program(path, place, words.seconds, words.budget)
        for name in lists:
            with open(os.path.join(folder, name + ".json")) as text:
                listed = json.load(text)
            for item in listed:
                for kind in kinds:
                    if words.seed in (None, item["seed"]):
                        found = counted(program, item, kind, words.tell)
                        row = f"{name}, {item['plan']}" if words.plans else f"{name}, {kind}"
                        table.setdefault(row, []).append(found)
                        table.setdefault("all", []).append(found)
    if table:
        table["all"] = table.pop("all")
        print_table(table)
    sys.exit(any(c == "differ" for c, _ in table.get("all", [])))


if __name__ == "__main__":
    main()
