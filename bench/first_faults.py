#!/usr/bin/env python3
"""Compares the tables of faulty game texts in the program's tests with a reader of its own.

The reader follows docs/FORMATS.md and shares nothing with the program. For each text of the tables
in crates/zero/src/tests it finds the first fault and its path; then it lists which faults at which
members of the format no text has. Lists at their limits are made by a loop in the tests, and
aren't counted here. The exit status is 0 where each text has the fault that the table says.
"""
import json
import pathlib
import re
import sys

TESTS = pathlib.Path(__file__).resolve().parent.parent / "crates" / "zero" / "src" / "tests"
ENTRY = re.compile(r'\(\s*"([^"]*)",\s*(?:r#"(.*?)"#|"([^"]*)")\s*,?\s*\)', re.S)
NAME = re.compile(r"[A-Za-z0-9_]{1,32}\Z")
LARGEST = 1_000_000_000
MOST_TERMS = 65_536


class Fault(Exception):
    """A fault and the path of the value at fault."""


class Fraction:
    """A number that isn't held as a whole one."""


def fail(fault, path):
    raise Fault(fault, path)


def whole(digits):
    """The number of digits with maybe a sign, where 64 bits hold it as a whole one."""
    number = int(digits)
    return number if digits != "-0" and -2**63 <= number < 2**64 else Fraction()


def fraction(digits):
    if float(digits) in (float("inf"), float("-inf")):
        raise ValueError(digits)
    return Fraction()


def depth(text):
    """How deep the brackets of the text nest, those in texts left out."""
    bare = re.sub(r'"(?:\\.|[^"\\])*"', "", text, flags=re.S)
    now = most = 0
    for character in bare:
        now += (character in "[{") - (character in "]}")
        most = max(most, now)
    return most


def parsed(text):
    try:
        if depth(text) <= 127:
            return json.loads(text, parse_int=whole, parse_float=fraction)
    except ValueError:
        pass
    return fail("NotJson", "")


# ---- values


def of_kind(value, kind, path):
    return value if isinstance(value, kind) else fail("Kind", path)


def needed(members, name, path):
    return members[name] if name in members else fail("Missing", f"{path}/{name}")


def items(value, path, least=0, most=None):
    count = len(of_kind(value, list, path))
    if count < least or most is not None and count > most:
        fail("Count", path)
    return [(item, f"{path}/{k}") for k, item in enumerate(value)]


def name_of(value, path):
    return value if NAME.match(of_kind(value, str, path)) else fail("BadName", path)


def number_of(value, path, low=-LARGEST):
    if isinstance(value, bool) or not isinstance(value, (int, Fraction)):
        fail("Kind", path)
    if isinstance(value, Fraction):
        fail("NotWhole", path)
    if not low <= value <= LARGEST:
        fail("TooBig", path)
    return value


def known(value, names, path):
    return value if name_of(value, path) in names else fail("UnknownName", path)


def new(key, seen, path):
    if key in seen:
        fail("Twice", path)
    seen.add(key)


def parts(value, path, *counts):
    if len(of_kind(value, list, path)) not in counts:
        fail("Kind", path)
    return value


# ---- the parts of a game


def read_aim(members, second, path):
    if second and "aim" in members:
        if of_kind(members["aim"], str, f"{path}/aim") not in ("min", "max"):
            fail("Format", f"{path}/aim")


def read_variable(value, second, lows, path):
    of_kind(value, dict, path)
    name = name_of(needed(value, "name", path), f"{path}/name")
    new(name, set(lows), f"{path}/name")
    if "int" in value:
        of_kind(value["int"], bool, f"{path}/int")
    low = 0
    if second and "low" in value:
        low = None if value["low"] is None else number_of(value["low"], f"{path}/low")
    if "up" in value:
        number_of(value["up"], f"{path}/up", -LARGEST if low is None else low)
    lows[name] = low


def read_names(player, second, path):
    """The variables of a player and its followers with their lows, and each follower's own."""
    lows = {}
    for value, place in items(needed(player, "vars", path), f"{path}/vars", 1, 64):
        read_variable(value, second, lows, place)
    own = []
    if "followers" in player:
        for follower, place in items(player["followers"], f"{path}/followers", 0, 16):
            of_kind(follower, dict, place)
            own.append([])
            for value, spot in items(needed(follower, "vars", place), f"{place}/vars"):
                new(name_of(value, spot), set(lows), spot)
                lows[value] = 0
                own[-1].append(value)
        if len(lows) > 64:
            fail("Count", f"{path}/followers")
    return lows, own


def read_terms(value, names, path):
    seen = set()
    for item, place in items(value, path):
        name, number = parts(item, place, 2)
        new(known(name, names, f"{place}/0"), seen, f"{place}/0")
        number_of(number, f"{place}/1")


def read_rows(members, second, names, most, path):
    rows = items(members.get("rows", []), f"{path}/rows")
    if sum(2 if second and isinstance(row, dict) and "eq" in row else 1 for row, _ in rows) > most:
        fail("Count", f"{path}/rows")
    for row, place in rows:
        of_kind(row, dict, place)
        read_terms(needed(row, "terms", place), names, f"{place}/terms")
        sides = [side for side in (("le", "ge", "eq") if second else ("le",)) if side in row]
        for k, side in enumerate(sides):
            number_of(row[side], f"{place}/{side}")
            if k > 0:
                fail("Twice", f"{place}/{side}")
        if not sides:
            fail("Missing", f"{place}/le")


def read_pairs(player, lows, path):
    for pair, place in items(player.get("pairs", []), f"{path}/pairs", 0, 32):
        of_kind(pair, dict, place)
        if lows[known(needed(pair, "var", place), lows, f"{place}/var")] != 0:
            fail("PairLow", f"{place}/var")
        read_terms(needed(pair, "terms", place), lows, f"{place}/terms")
        number_of(needed(pair, "add", place), f"{place}/add")


def other(value, players, avoided, path):
    """A player's name, which isn't that of the one to be avoided."""
    return fail("OwnCross", path) if known(value, players, path) == avoided else value


def read_cross(player, players, path):
    seen = set()
    for item, place in items(player.get("cross", []), f"{path}/cross", 0, MOST_TERMS):
        own, name, variable, number = parts(item, place, 4)
        known(own, players[player["name"]], f"{place}/0")
        other(name, players, player["name"], f"{place}/1")
        known(variable, players[name], f"{place}/2")
        new((own, name, variable), seen, f"{place}/2")
        number_of(number, f"{place}/3")


def read_others(player, players, path):
    seen = set()
    for item, place in items(player.get("others", []), f"{path}/others", 0, MOST_TERMS):
        parts(item, place, 3, 5)
        factors = []
        for k in range(0, len(item) - 1, 2):
            name = other(item[k], players, player["name"], f"{place}/{k}")
            if factors and name == factors[0][0]:
                fail("OwnCross", f"{place}/{k}")
            factors.append((name, known(item[k + 1], players[name], f"{place}/{k + 1}")))
        new(frozenset(factors), seen, f"{place}/{len(item) - 2}")
        number_of(item[-1], f"{place}/{len(item) - 1}")


def read_follower(follower, second, names, own, path):
    read_aim(follower, second, path)
    read_rows(follower, second, names, 32, path)
    read_terms(follower.get("cost", []), names, f"{path}/cost")
    seen = set()
    for item, place in items(follower.get("cross", []), f"{path}/cross", 0, MOST_TERMS):
        first, variable, number = parts(item, place, 3)
        known(known(first, names, f"{place}/0"), own, f"{place}/0")
        if known(variable, names, f"{place}/1") in own:
            fail("OwnCross", f"{place}/1")
        new((first, variable), seen, f"{place}/1")
        number_of(number, f"{place}/2")


def read_game(text):
    game = of_kind(parsed(text), dict, "")
    version = of_kind(needed(game, "format", ""), str, "/format")
    if version not in ("zero-game/1", "zero-game/2"):
        fail("Format", "/format")
    second = version == "zero-game/2"
    listed = items(needed(game, "players", ""), "/players", 1, 16)
    players, owns = {}, []
    for player, path in listed:
        of_kind(player, dict, path)
        name = name_of(needed(player, "name", path), f"{path}/name")
        new(name, set(players), f"{path}/name")
        read_aim(player, second, path)
        players[name], own = read_names(player, second, path)
        owns.append(own)
    for (player, path), own in zip(listed, owns):
        lows = players[player["name"]]
        read_rows(player, second, lows, 256, path)
        read_pairs(player, lows, path)
        read_terms(player.get("cost", []), lows, f"{path}/cost")
        read_cross(player, players, path)
        read_others(player, players, path)
        for k, follower in enumerate(player.get("followers", [])):
            read_follower(follower, second, lows, own[k], f"{path}/followers/{k}")


def first_fault(text):
    try:
        read_game(text)
    except Fault as fault:
        return "NotJson" if fault.args[0] == "NotJson" else " ".join(fault.args)
    return "none"


# ---- which faults there may be


def term_faults(path):
    return {path: "Kind", f"{path}/k": "Kind", f"{path}/k/0": "Kind BadName UnknownName Twice",
            f"{path}/k/1": "Kind NotWhole TooBig"}


def row_faults(path):
    numbers = "Kind NotWhole TooBig"
    return {path: "Kind Count", f"{path}/k": "Kind", f"{path}/k/le": f"Missing {numbers}",
            f"{path}/k/ge": f"Twice {numbers}", f"{path}/k/eq": f"Twice {numbers}",
            **with_missing(term_faults(f"{path}/k/terms"))}


def with_missing(faults):
    first = next(iter(faults))
    return {**faults, first: f"Missing {faults[first]}"}


def possible_faults():
    player, names, numbers = "/players/k", "Kind BadName UnknownName", "Kind NotWhole TooBig"
    follower = f"{player}/followers/k"
    faults = {
        "": "NotJson Kind", "/format": "Missing Kind Format", "/players": "Missing Kind Count",
        player: "Kind", f"{player}/name": "Missing Kind BadName Twice",
        f"{player}/aim": "Kind Format", f"{player}/vars": "Missing Kind Count",
        f"{player}/vars/k": "Kind", f"{player}/vars/k/name": "Missing Kind BadName Twice",
        f"{player}/vars/k/int": "Kind", f"{player}/vars/k/low": numbers,
        f"{player}/vars/k/up": numbers, f"{player}/followers": "Kind Count", follower: "Kind",
        f"{follower}/vars": "Missing Kind", f"{follower}/vars/k": "Kind BadName Twice",
        f"{player}/pairs": "Kind Count", f"{player}/pairs/k": "Kind",
        f"{player}/pairs/k/var": f"Missing PairLow {names}",
        f"{player}/pairs/k/add": f"Missing {numbers}", f"{player}/cross": "Kind Count",
        f"{player}/cross/k": "Kind", f"{player}/cross/k/0": names,
        f"{player}/cross/k/1": f"{names} OwnCross", f"{player}/cross/k/2": f"{names} Twice",
        f"{player}/cross/k/3": numbers, f"{player}/others": "Kind Count",
        f"{player}/others/k": "Kind", f"{player}/others/k/0": f"{names} OwnCross",
        f"{player}/others/k/1": f"{names} Twice",
        f"{player}/others/k/2": f"{names} OwnCross {numbers}",
        f"{player}/others/k/3": f"{names} Twice", f"{player}/others/k/4": numbers,
        f"{follower}/aim": "Kind Format", f"{follower}/cross": "Kind Count",
        f"{follower}/cross/k": "Kind", f"{follower}/cross/k/0": names,
        f"{follower}/cross/k/1": f"{names} OwnCross Twice", f"{follower}/cross/k/2": numbers,
        **row_faults(f"{player}/rows"), **with_missing(term_faults(f"{player}/pairs/k/terms")),
        **term_faults(f"{player}/cost"), **row_faults(f"{follower}/rows"),
        **term_faults(f"{follower}/cost"),
    }
    return {f"{fault} {path}".strip() for path, kinds in faults.items() for fault in kinds.split()}


def member_of(fault):
    """The fault with each number of an item of a list of named parts as `k`."""
    lists = "players|vars|rows|pairs|followers|terms|cost|cross|others"
    return re.sub(rf"/({lists})/\d+", r"/\1/k", fault)


def main():
    tables = "\n".join((TESTS / name).read_text() for name in ("faults.rt", "places.rt"))
    entries = [(told, raw or plain) for told, raw, plain in ENTRY.findall(tables)]
    wrong = [(told, first_fault(text)) for told, text in entries if first_fault(text) != told]
    for told, found in wrong:
        print(f"{told}: the reader finds {found}")
    had = {member_of(told).strip() for told, _ in entries}
    absent = sorted(possible_faults() - had)
    for fault in absent:
        print(f"in no text: {fault}")
    print(f"{len(entries)} texts, {len(wrong)} differ; "
          f"{len(had)} faults at members, {len(absent)} absent")
    return 1 if wrong else 0


if __name__ == "__main__":
    sys.exit(main())
