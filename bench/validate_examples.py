#!/usr/bin/env python3
"""Validates the examples by the schema of game texts, and that the schema refuses faulty texts.

It needs Debian's python3-jsonschema, and ends with 0 and a word where that isn't installed.
"""
import copy
import json
import pathlib
import sys

try:
    import jsonschema
except ImportError:
    print("python3-jsonschema isn't installed: nothing was validated")
    sys.exit(0)

top = pathlib.Path(__file__).resolve().parent.parent
schema = json.loads((top / "docs" / "game.schema.json").read_text())
jsonschema.Draft202012Validator.check_schema(schema)
valid = jsonschema.Draft202012Validator(schema)
games = sorted((top / "examples").glob("*.json"))
failed = 0
for path in games:
    for error in valid.iter_errors(json.loads(path.read_text())):
        failed += 1
        print(f"{path.name}: {error.json_path}: {error.message}")

one = {"format": "zero-game/2", "players": [{"name": "A", "vars": [{"name": "x", "low": -1, "up": 1}],
       "rows": [{"terms": [["x", 2]], "eq": 1}]}]}
changes = {
    "format": lambda g: g.update(format="zero-game/3"),
    "no player": lambda g: g.update(players=[]),
    "a name with a space": lambda g: g["players"][0].update(name="A B"),
    "no variable": lambda g: g["players"][0].update(vars=[]),
    "a number as text": lambda g: g["players"][0]["vars"][0].update(up="1"),
    "two sides of a row": lambda g: g["players"][0]["rows"][0].update(le=1),
    "no side of a row": lambda g: g["players"][0]["rows"][0].pop("eq"),
    "a term of three": lambda g: g["players"][0].update(cost=[["x", 1, 2]]),
    "too big a number": lambda g: g["players"][0].update(cost=[["x", 1000000001]]),
    "another aim": lambda g: g["players"][0].update(aim="most"),
}
if not valid.is_valid(one):
    failed += 1
    print("the game to be changed isn't valid")
for name, change in changes.items():
    game = copy.deepcopy(one)
    change(game)
    if valid.is_valid(game):
        failed += 1
        print(f"the schema takes {name}")
print(f"{len(games)} examples and {len(changes)} faulty texts, {failed} failed")
sys.exit(1 if failed else 0)
