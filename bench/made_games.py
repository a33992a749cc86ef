#!/usr/bin/env python3
"""Made games of two and three players with verdicts for both kinds, found without the program.

    made_games.py                 writes bench/made/games.json
    made_games.py --tell          prints a line per game beside

Each item has its seed, its plan, the game, and for each kind `profile`, `none` or null; `ways`
says how each was found. Of games whose points are finitely many, the pure verdict comes of a trial
of all profiles. A mixed one is `profile` where all values are bounded and no player is without a
point (J. Nash, 1951, for the regions' points, since costs are linear in each player's own); the
search must find one too. The others come of a complete search over the regions' points and rays
(equilibria.py), for the pure kind one per choice of a cell for each player. Each found profile is
tried by its definition. A verdict is null where whole values without a bound leave the pure kind
open, or where the search is too long. Seeds of a sort that a plan has enough of are passed over.
"""
import sys
from fractions import Fraction
from itertools import product

from equilibria import (Conditions, TooLong, means_of, point_profile, profile_of, search, slope_of,
                        whole)
from exact import Draws
from made_players import write_list
from made_texts import crosses, game, others, plan, player
from make_cert import Player
from regions import TooMany, is_feasible, least, regions

EACH = 10
OF_A_SORT = 5
PATIENCE = 4500  # from this seed on any game with points is taken
# the second player's cross terms are the first one's negated: in so many games of 100
OPPOSED = {"zero sum": 100, "whole two": 60, "pairs": 70, "both": 40, "followers two": 50,
           "followers three": 60, "greatest": 50, "whole three": 50}
# name, players, most points or cells of a player, plan
PLANS = [
    ("whole two", 2, 6, plan(vars=(1, 3), whole=100, up=(1, 3), rows=(0, 2), cost=2)),
    ("whole three", 3, 4, plan(vars=(1, 2), whole=100, up=(1, 1), rows=(0, 1), cost=2)),
    ("zero sum", 2, 5, plan(vars=(1, 2), whole=100, up=(1, 2), rows=(0, 1), cost=3)),
    ("continuous two", 2, 1, plan(vars=(1, 3), whole=0, rows=(0, 2))),
    ("continuous unbounded", 2, 1, plan(vars=(1, 2), whole=0, bounded=20, rows=(0, 2), size=3)),
    ("continuous three", 3, 1, plan(vars=(1, 2), whole=0, bounded=60, rows=(0, 1))),
    ("both", 2, 4, plan(vars=(2, 3), whole=50, up=(1, 2), rows=(0, 2), cost=2)),
    ("pairs", 2, 4, plan(vars=(2, 2), whole=0, rows=(0, 1), pairs=(1, 1), cost=2)),
    ("pairs unbounded", 2, 4, plan(vars=(2, 2), whole=0, bounded=35, rows=(0, 1), pairs=(1, 1),
                                   size=3)),
    ("followers two", 2, 6, plan(vars=(1, 2), whole=25, rows=(0, 1), followers=(1, 1),
                                 cost=2)),
    ("followers three", 3, 4, plan(vars=(1, 1), whole=25, followers=(1, 1), max=20, cost=2)),
    ("free", 2, 4, plan(vars=(1, 2), whole=30, bounded=50, free=40, below=40, rows=(1, 3),
                        senses=50, size=3)),
    ("unbounded whole", 2, 8, plan(vars=(1, 2), whole=75, bounded=25, rows=(0, 2), size=3)),
    ("greatest", 3, 4, plan(vars=(1, 2), whole=60, up=(1, 2), below=30, rows=(0, 1), max=60,
                            senses=30, cost=2)),
    ("great numbers", 2, 4, plan(vars=(1, 2), whole=70, up=(1, 2), rows=(0, 1), size=99999)),
]


def made(seed):
    """The game of a seed."""
    name, count, _, how = PLANS[seed % len(PLANS)]
    draws = Draws(seed)
    texts = [player(draws, letter, how) for letter in "ABC"[:count]]
    crosses(draws, texts, 75 if count == 2 else 50, how["size"])
    if draws.chance(OPPOSED.get(name, 0)):
        oppose(*texts[:2])
    if draws.chance(30) or name == "greatest":
        others(draws, texts, how["size"])
    return game(texts)


def oppose(first, second):
    """The second player pays by its cross terms with the first what that one gains."""
    sign = -1 if first.get("aim") == second.get("aim") else 1
    listed = [t for t in second.get("cross", []) if t[1] != first["name"]]
    listed += [[v, first["name"], u, sign * a]
               for u, other, v, a in first.get("cross", []) if other == second["name"]]
    second.pop("cross", None)
    if listed:
        second["cross"] = listed


def is_equilibrium(players, found, profile):
    """Whether nobody pays more than its least cost, and all parts are feasible."""
    means = means_of(profile)
    for i, (one, parts) in enumerate(zip(players, profile)):
        if any(w <= 0 for w, _ in parts) or sum(w for w, _ in parts) != 1:
            return False
        if not all(is_feasible(one, *whole(x)) for _, x in parts):
            return False
        slope = slope_of(players, i, means)
        numbers, over = whole(slope)
        best = least(one, found[i], numbers)
        mine = sum(g * x for g, x in zip(slope, means[i]))
        if best[0] != "at" or mine != Fraction(best[1], best[2] * over):
            return False
    return True


def by_trial(players, found):
    """The pure verdict of a game whose cells are single points, by the costs of all profiles."""
    points = []
    for regs in found:
        own = {(tuple(p), d) for r in regs for c in r.cells for p, d in c.points}
        points.append([[Fraction(a, d) for a in p] for p, d in sorted(own)])
    for profile in product(*points):
        slopes = [slope_of(players, i, profile) for i in range(len(players))]
        if all(sum(g * a for g, a in zip(slope, x)) <= sum(g * a for g, a in zip(slope, y))
               for slope, x, own in zip(slopes, profile, points) for y in own):
            return [[(Fraction(1), x)] for x in profile]
    return None


def pure_by_search(players, found):
    """A pure profile by a search per choice of cells, or None."""
    cells = [[c for r in regs for c in r.cells] for regs in found]
    for chosen in product(*cells):
        conditions = Conditions(players, found, [[c] for c in chosen])
        answer = search(conditions)
        if answer:
            return point_profile(conditions, answer)
    return None


def mixed_by_search(players, found):
    conditions = Conditions(players, found, found)
    answer = search(conditions)
    return profile_of(conditions, answer) if answer else None


def pure_verdict(players, found):
    """The verdict, the way and a profile."""
    single = all(r.listed and len(c.points) == 1 and not c.rays
                 for regs in found for r in regs for c in r.cells)
    try:
        profile = (by_trial if single else pure_by_search)(players, found)
    except TooLong:
        return None, "the search is too long", None
    way = "trial of all profiles" if single else "search over cells"
    if profile is None and not all(r.listed for regs in found for r in regs):
        return None, "whole values without a bound", None
    return ("profile" if profile else "none"), way, profile


def mixed_verdict(players, found):
    """The verdict, the way and maybe a profile."""
    bounded = not any(r.rays for regs in found for r in regs)
    try:
        profile = mixed_by_search(players, found)
    except TooLong:
        return ("profile", "all values are bounded", None) if bounded \
            else (None, "the search is too long", None)
    if bounded:
        if profile is None:
            sys.exit("the search finds no equilibrium of a bounded game")
        return "profile", "all values are bounded", profile
    return ("profile" if profile else "none"), "search over regions", profile


def verdicts(text, most, lone=False):
    """The members for both kinds; None where a player has too many cells or a lone point."""
    players = [Player(p) for p in text["players"]]
    found = [regions(p, 200) for p in players]
    if any(sum(len(r.cells) for r in regs) > most for regs in found):
        return None
    if not lone and any(sum(len(r.points + r.rays) for r in regs) == 1 for regs in found):
        return None
    if not all(found):
        way = "a player has no point"
        return {"pure": "none", "mixed": "none", "ways": [way, way], "empty": True}
    pure, pure_way, profile = pure_verdict(players, found)
    mixed, mixed_way, other = mixed_verdict(players, found)
    for each in (profile, other):
        if each and not is_equilibrium(players, found, each):
            sys.exit("a found profile is no equilibrium")
    if mixed == "none" and pure == "profile":
        sys.exit("a pure equilibrium and no mixed one")
    if mixed == "none" and pure is None:
        pure, pure_way = "none", "no mixed one"
    return {"pure": pure, "mixed": mixed, "ways": [pure_way, mixed_way]}


def is_wanted(found, kept, patient):
    """Whether a plan's list that has kept these takes this one: few of one sort, and one empty."""
    sort = (found["pure"], found["mixed"], found.get("empty", False))
    same = sum((k["pure"], k["mixed"], k.get("empty", False)) == sort for k in kept)
    return same < 1 if sort[2] else same < OF_A_SORT or not patient


def main():
    listed, seed = [], 0
    kept = [[] for _ in PLANS]
    while any(len(items) < EACH for items in kept):
        seed += 1
        name, _, most, _ = PLANS[seed % len(PLANS)]
        own = kept[seed % len(PLANS)]
        if len(own) == EACH:
            continue
        text = made(seed)
        try:
            found = verdicts(text, most)
        except TooMany:
            continue
        if found is None or not is_wanted(found, own, seed < PATIENCE):
            continue
        own.append(found)
        listed.append({"seed": seed, "plan": name, "game": text, **found})
        if "--tell" in sys.argv:
            print(seed, name, found["pure"], found["mixed"], found["ways"], flush=True)
    write_list("games.json", listed)


if __name__ == "__main__":
    main()
