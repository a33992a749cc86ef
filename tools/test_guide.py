#!/usr/bin/env python3
"""Tests that the documents for newcomers and the examples agree: python3 tools/test_guide.py"""
import json
import pathlib
import re
import subprocess
import unittest

TOP = pathlib.Path(__file__).resolve().parent.parent
EXAMPLES = TOP / "examples"
GUIDE = (TOP / "docs" / "GUIDE.md").read_text()
LISTED = (EXAMPLES / "README.md").read_text()


def pieces(text):
    """The blocks of the text that are set off."""
    return re.findall(r"```\n(.*?)```", text, re.DOTALL)


def packed(text):
    return re.sub(r"\s", "", text)


class Guide(unittest.TestCase):
    def test_each_piece_of_a_game_is_one_of_an_example(self):
        games = [packed(path.read_text()) for path in EXAMPLES.glob("*.json")]
        found = [p for p in pieces(GUIDE) if p.startswith('"')]
        self.assertGreater(len(found), 8)
        for piece in found:
            with self.subTest(piece=piece):
                part = packed(piece).replace(",..]", ",")
                self.assertTrue(any(part in game for game in games))

    def test_whole_games_are_json(self):
        for piece in pieces(GUIDE):
            if piece.startswith("{"):
                self.assertIn("players", json.loads(piece))

    def test_the_answer_is_what_show_prints(self):
        name = EXAMPLES / "unit_commitment"
        done = subprocess.run([TOP / "tools" / "show", f"{name}.json", f"{name}.cert"],
                              capture_output=True, check=True)
        (answer,) = [p for p in pieces(GUIDE) if "expected cost" in p]
        self.assertIn(answer, done.stdout.decode())

    def test_named_files_exist(self):
        for name in re.findall(r"`((?:examples|docs|tools|bench)/[a-z_./A-Z0-9]+)`", GUIDE):
            self.assertTrue((TOP / name).exists(), name)


class List(unittest.TestCase):
    def test_each_example_is_listed(self):
        for path in EXAMPLES.iterdir():
            if path.suffix in (".json", ".cert"):
                self.assertIn(f"`{path.name}`", LISTED)

    def test_each_listed_file_exists(self):
        for name in re.findall(r"`([a-z_.]+\.(?:json|cert))`", LISTED):
            self.assertTrue((EXAMPLES / name).exists(), name)

    def test_each_certificate_has_its_game(self):
        for path in EXAMPLES.glob("*.cert"):
            self.assertTrue((EXAMPLES / f"{path.name.split('.')[0]}.json").exists(), path.name)


if __name__ == "__main__":
    unittest.main()
