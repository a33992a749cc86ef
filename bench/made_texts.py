#!/usr/bin/env python3
"""Draws made games' texts: players by a plan, with few variables and small numbers."""

SMALL = {
    "vars": (2, 3), "whole": 50, "bounded": 100, "up": (1, 3), "free": 0, "below": 0,
    "rows": (0, 2), "senses": 0, "pairs": (0, 0), "size": 5, "max": 0, "followers": (0, 0),
    "terms": 75, "costs": 85, "cost": 1,
}


def plan(**changes):
    return {**SMALL, **changes}


def variable(draws, name, whole, how):
    """A variable; its members `low` and `up` stand where they say something."""
    text = {"name": name, "int": True} if whole else {"name": name}
    low = 0
    if draws.chance(how["free"]):
        text["low"] = None
        low = None
    elif draws.chance(how["below"]):
        low = text["low"] = draws.between(-3, 1)
    if draws.chance(how["bounded"]):
        text["up"] = draws.between(*how["up"]) + (low or 0)
    return text


def terms(draws, names, chance, size):
    return [[name, draws.other_than_zero(size)] for name in names if draws.chance(chance)]


def inside(draws, texts):
    """Whole values within the bounds."""
    values = {}
    for text in texts:
        low, up = text.get("low", 0), text.get("up")
        if low is None:
            low = up - 3 if up is not None else -2
        values[text["name"]] = draws.between(low, low + 2 if up is None else up)
    return values


def row(draws, texts, how):
    """A row that mostly holds at a drawn point within the bounds."""
    values = inside(draws, texts)
    listed = terms(draws, list(values), how["terms"], how["size"])
    if not listed:
        listed = [[texts[0]["name"], draws.other_than_zero(how["size"])]]
    amount = sum(a * values[name] for name, a in listed)
    sense = "le"
    if draws.chance(how["senses"]):
        sense = draws.pick(["ge", "eq"])
    slack = draws.between(-1, how["size"]) if sense != "eq" else draws.between(0, 1)
    return {"terms": listed, sense: amount - slack if sense == "ge" else amount + slack}


def pair(draws, texts, how):
    """A pair of a variable with low 0, or None where there is no such variable."""
    names = [t["name"] for t in texts if t.get("low", 0) == 0]
    if not names:
        return None
    listed = terms(draws, [t["name"] for t in texts], how["terms"], how["size"])
    return {"var": draws.pick(names), "terms": listed, "add": draws.between(-2, 5)}


def follower(draws, number, texts, how):
    """A follower with one or two variables, whose row keeps them below the leader's."""
    own = [f"f{number}{letter}" for letter in "ab"[:draws.between(1, 2)]]
    leaders = [t["name"] for t in texts]
    text = {"vars": own, "rows": [], "cost": terms(draws, own, 90, 3), "cross": []}
    if how["max"] and draws.chance(50):
        text["aim"] = "max"
    for _ in range(draws.between(1, 2 if len(own) == 1 else 1)):
        listed = [[name, draws.between(1, 2)] for name in own]
        listed += terms(draws, leaders, 60, 2)
        text["rows"].append({"terms": listed, "le": draws.between(0, 4)})
    if draws.chance(60):
        text["cross"] = [[draws.pick(own), draws.pick(leaders), draws.other_than_zero(2)]]
    return text


def player(draws, name, how):
    """A player without cross terms."""
    count = draws.between(*how["vars"])
    texts = [variable(draws, f"x{k}", draws.chance(how["whole"]), how) for k in range(count)]
    text = {"name": name, "vars": texts}
    if draws.chance(how["max"]):
        text["aim"] = "max"
    text["rows"] = [row(draws, texts, how) for _ in range(draws.between(*how["rows"]))]
    pairs = [pair(draws, texts, how) for _ in range(draws.between(*how["pairs"]))]
    text["pairs"] = [p for p in pairs if p]
    count = draws.between(*how["followers"])
    text["followers"] = [follower(draws, k, texts, how) for k in range(count)]
    text["cost"] = terms(draws, names_of(text), how["costs"], max(1, how["size"] // how["cost"]))
    return {key: value for key, value in text.items() if value != []}


def names_of(text):
    """The names of the player's variables, its followers' included."""
    names = [t["name"] for t in text["vars"]]
    return names + [name for f in text.get("followers", []) for name in f["vars"]]


def crosses(draws, texts, chance, size):
    """Cross terms of each player with each other one's variables."""
    for text in texts:
        listed = []
        for other in texts:
            if other is not text:
                for own in names_of(text):
                    for name in names_of(other):
                        if draws.chance(chance):
                            number = draws.other_than_zero(size)
                            listed.append([own, other["name"], name, number])
        if listed:
            text["cross"] = listed


def others(draws, texts, size):
    """A term or two of each player in the others' variables alone."""
    for text in texts:
        rest = [t for t in texts if t is not text]
        first = draws.pick(rest)
        listed = [[first["name"], draws.pick(names_of(first)), draws.other_than_zero(size)]]
        if len(rest) > 1:
            both = [x for t in rest[:2] for x in (t["name"], draws.pick(names_of(t)))]
            listed.append(both + [draws.other_than_zero(size)])
        text["others"] = listed


def is_second(texts):
    """Whether a text of the second format is needed."""
    parts = texts + [f for t in texts for f in t.get("followers", [])]
    return any("aim" in part for part in parts) \
        or any("low" in v for t in texts for v in t["vars"]) \
        or any("le" not in r for part in parts for r in part.get("rows", []))


def game(texts):
    return {"format": f"zero-game/{2 if is_second(texts) else 1}", "players": texts}
