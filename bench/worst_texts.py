#!/usr/bin/env python3
"""Seconds and peak memory of `zero check` and `zero migrate` on game texts of the worst kinds.

Usage: worst_texts.py PROGRAM

Each text has the length that a game text may have, 8,388,608 bytes, with spaces at its end where
its kind allows no more, and must be answered within two seconds and 1 GiB. The first column `MiB`
is its length without these spaces. The three kinds of objects may take more memory, 1.5 GiB:
`serde_json` keeps an object as a map that takes some 800 bytes however few members it has, so that
a text of nothing but objects that have no meaning takes up to 1.4 GiB.

The certificate of `check` is one word, so that `check` reads the game whole and then refuses the
certificate: its status is 6 where the text stands for a game. The exit status is 0 where the status
of each run is the expected one and each is within the limits.
"""
import itertools
import json
import os
import string
import subprocess
import sys
import tempfile
import time

LIMIT = 8_388_608
MOST_SECONDS = 2
MOST_BYTES = 1 << 30
MOST_BYTES_OF_OBJECTS = 3 << 29
NAMES = (list(string.ascii_letters + string.digits) + ["_", "aa"])[:64]
PLAYERS = NAMES[:16]


def compact(value):
    return json.dumps(value, separators=(",", ":"))


def game(players, version=1):
    return compact({"format": f"zero-game/{version}", "players": players})


def player(name, **members):
    return {"name": name, "vars": [{"name": v} for v in NAMES], **members}


def padded(text):
    """The text with spaces at its end, which JSON passes over."""
    assert len(text) <= LIMIT
    return text + " " * (LIMIT - len(text))


def many_variables():
    """One player with 250,000 variables; Count stands at its list."""
    return game([{"name": "A", "vars": [{"name": f"x{i}", "up": 1} for i in range(250_000)]}])


def many_names():
    """A follower with as many variables as there may be; Count stands at the leader's followers."""
    def names():
        for length in range(1, 6):
            for letters in itertools.product(NAMES[:63], repeat=length):
                yield "".join(letters)
    leader = '{"name":"A","vars":[{"name":"leader"}],"followers":[{"vars":["'
    head = '{"format":"zero-game/1","players":[' + leader
    tail = '"]}]}]}'
    room = LIMIT - len(head) - len(tail)
    kept = []
    for name in names():
        room -= len(name) + 3
        if room < 0:
            break
        kept.append(name)
    return head + '","'.join(kept) + tail


def full_players():
    """16 players of 64 variables, each with 256 rows over all of them, and 32 pairs."""
    terms = [[v, 1_000_000_000] for v in NAMES]
    rows = [{"le": 1, "terms": terms}] * 256
    pairs = [{"var": v, "add": 1, "terms": terms} for v in NAMES[:32]]
    return game([player(p, rows=rows, pairs=pairs) for p in PLAYERS])


def cross_terms():
    """8 of 16 players have each cross term that there may be: 64 * 15 * 64, from the last back."""
    def terms(p):
        others = [q for q in PLAYERS if q != p]
        return [[u, q, v, 1] for u, q, v in itertools.product(NAMES, others, NAMES)][::-1]
    return game([player(p, cross=terms(p) if p in PLAYERS[:8] else []) for p in PLAYERS])


def repeated_cross_terms():
    """The last of 65,536 cross terms is the first to be one again."""
    others = PLAYERS[1:]
    terms = [[u, q, v, 1] for u, q, v in itertools.product(NAMES, others, NAMES)]
    # the limit of a list is above the number of different terms
    terms += [["a", "b", "a", 1]] * (65_536 - len(terms))
    return game([player(p, cross=terms if p == "a" else []) for p in PLAYERS])


def others():
    """6 of 16 players have 65,536 products of two others' variables, from the last back."""
    def terms(p):
        pairs = itertools.combinations([q for q in PLAYERS if q != p], 2)
        places = ([q, u, r, v, 1] for q, r in pairs for u in NAMES for v in NAMES)
        return list(itertools.islice(places, 65_536))[::-1]
    return game([player(p, others=terms(p) if p in PLAYERS[:6] else []) for p in PLAYERS])


def nested(depth, opening, closing, inmost=""):
    """As many values as there may be that nest to the depth, the text's object and a list round
    them counted in."""
    return filled(opening * (depth - 2) + inmost + closing * (depth - 2))


def filled(item):
    """As many items as there may be, in a member that has no meaning."""
    head = '{"filler":['
    tail = '],"format":"zero-game/1","players":[{"name":"A","vars":[{"name":"x"}]}]}'
    count = (LIMIT - len(head) - len(tail)) // (len(item) + 1)
    return head + ",".join([item] * count) + tail


KINDS = [
    ("250,000 variables", many_variables, 5, MOST_BYTES),
    ("1,200,000 variables of a follower", many_names, 5, MOST_BYTES),
    ("rows and pairs of 16 full players", full_players, None, MOST_BYTES),
    ("61,440 cross terms of 8 players", cross_terms, None, MOST_BYTES),
    ("65,536 cross terms, some again", repeated_cross_terms, 5, MOST_BYTES),
    ("65,536 others of 6 players", others, None, MOST_BYTES),
    ("lists that nest 127 deep", lambda: nested(127, "[", "]"), None, MOST_BYTES),
    ("lists that nest 128 deep", lambda: nested(128, "[", "]"), 5, MOST_BYTES),
    ("empty lists", lambda: filled("[]"), None, MOST_BYTES),
    ("small numbers", lambda: filled("0"), None, MOST_BYTES),
    ("objects that nest 127 deep", lambda: nested(127, '{"":', "}", "0"), None,
     MOST_BYTES_OF_OBJECTS),
    ("objects that nest 128 deep", lambda: nested(128, '{"":', "}", "0"), 5, MOST_BYTES_OF_OBJECTS),
    ("small objects", lambda: filled('{"":0}'), None, MOST_BYTES_OF_OBJECTS),
]


def written(path, text):
    """Writes the text with its padding, and gives its length without. A process of its own makes
    it, since a program's peak memory counts in what its parent held when it began."""
    pid = os.fork()
    if pid == 0:
        content = text()
        with open(path, "w") as file:
            file.write(padded(content))
        with open(path + ".length", "w") as file:
            file.write(str(len(content)))
        os._exit(0)
    if os.waitpid(pid, 0)[1] != 0:
        sys.exit(f"no text at {path}")
    with open(path + ".length") as file:
        return int(file.read())


def measured(program, words):
    """The status, the seconds and the peak memory in bytes of a run."""
    start = time.perf_counter()
    run = subprocess.Popen([program, *words], stdout=subprocess.DEVNULL, stderr=subprocess.DEVNULL)
    _, ended, usage = os.wait4(run.pid, 0)
    run.returncode = os.waitstatus_to_exitcode(ended)
    return run.returncode, time.perf_counter() - start, usage.ru_maxrss * 1024


def main():
    program, = sys.argv[1:]
    good = True
    print(f"{'text':36} {'MiB':>5} {'command':8} {'status':>6} {'seconds':>8} {'MiB':>6}")
    with tempfile.TemporaryDirectory() as folder:
        cert = os.path.join(folder, "cert")
        with open(cert, "w") as file:
            file.write("none\n")
        for name, text, refused, most_bytes in KINDS:
            path = os.path.join(folder, "game")
            length = written(path, text)
            for words, accepted in (["check", path, cert], 6), (["migrate", path], 0):
                status, seconds, memory = measured(program, words)
                expected = accepted if refused is None else refused
                right = status == expected and seconds <= MOST_SECONDS and memory <= most_bytes
                good = good and right
                mark = "" if right else f"  (expected {expected})"
                print(f"{name:36} {length / 2**20:5.1f} {words[0]:8} {status:6} "
                      f"{seconds:8.2f} {memory / 2**20:6.0f}{mark}", flush=True)
    return 0 if good else 1


if __name__ == "__main__":
    sys.exit(main())
