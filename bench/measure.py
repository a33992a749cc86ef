#!/usr/bin/env python3
"""Timed runs of programs and the table of their ratios: what the measuring scripts share.

    measure.py FILE        prints the table of the ratios that the scripts appended to FILE

Seconds are processor seconds of one process, user and system, its start included, so that other
work on the machine changes them little. A run ends at its limit of processor seconds or of memory,
4 GiB. Only Python's standard library is used; it wants Linux.
"""
import argparse
import json
import os
import platform
import resource
import shutil
import signal
import statistics
import subprocess
import sys
import tempfile
from collections import namedtuple

HERE = os.path.dirname(os.path.abspath(__file__))
MEMORY = 4 * 2**30
STOPS = {7: "budget", 8: "wide", 9: "open", 10: "large", 11: "memory", 16: "not built"}

Run = namedtuple("Run", "status seconds out err")
Solved = namedtuple("Solved", "word seconds lines")


def limit_child(pid, seconds):
    """Limits a process that has just started; one that has ended already needs none."""
    try:
        resource.prlimit(pid, resource.RLIMIT_CPU, (seconds, seconds + 1))
        resource.prlimit(pid, resource.RLIMIT_AS, (MEMORY, MEMORY))
    except ProcessLookupError:
        pass


def run(words, seconds, folder=None):
    """Runs a program once; a status below zero is the signal that ended it."""
    with tempfile.TemporaryFile("w+") as out, tempfile.TemporaryFile("w+") as err:
        child = subprocess.Popen(words, stdin=subprocess.DEVNULL, stdout=out, stderr=err,
                                 cwd=folder)
        limit_child(child.pid, seconds)
        _, status, used = os.wait4(child.pid, 0)
        child.returncode = os.waitstatus_to_exitcode(status)
        out.seek(0)
        err.seek(0)
        return Run(child.returncode, used.ru_utime + used.ru_stime, out.read(), err.read())


def word_of(done):
    """What a run came to: nothing where its status is 0, else why it has no answer."""
    if done.status in (-signal.SIGXCPU, -signal.SIGKILL):
        return "late"
    if done.status == -signal.SIGABRT:
        return "memory"
    return "" if done.status == 0 else STOPS.get(done.status, f"status {done.status}")


def machine():
    """The machine in one line."""
    with open("/proc/cpuinfo") as text:
        models = [line.split(":")[1].strip() for line in text if line.startswith("model name")]
    memory = os.sysconf("SC_PAGE_SIZE") * os.sysconf("SC_PHYS_PAGES") / 2**30
    model = models[0] if models else platform.machine()
    load = os.getloadavg()[0]
    return (f"{model}, {os.cpu_count()} processors, {memory:.0f} GiB, "
            f"Linux {platform.release()}, load {load:.1f}")


def shown(seconds):
    return "-" if seconds is None else f"{seconds:.4f}" if seconds < 10 else f"{seconds:.2f}"


def quotient(ours, theirs):
    return f"{ours / theirs:.2f}" if ours is not None and theirs else "-"


def while_answered(sizes, measured):
    """Measures size by size, up to the first size of which no game has an answer, that included.

    `measured` tells of a size's games whether each has an answer.
    """
    for size in sizes:
        if not any(measured(size)):
            return


class Table:
    """A table in Markdown whose rows are printed as they come."""

    def __init__(self, **widths):
        self.widths = list(widths.values())
        self.row(*[name.replace("_", " ") for name in widths])
        print("|" + "|".join("-" * (width + 2) for width in self.widths) + "|")

    def row(self, *cells):
        texts = [str(cell).rjust(width) for cell, width in zip(cells, self.widths)]
        print("| " + " | ".join(texts) + " |", flush=True)


class Bench:
    """A measuring script: its words, a folder for games, the ratios, and what differs."""

    def __init__(self, text, seeds):
        words = argparse.ArgumentParser(
            description=text, formatter_class=argparse.RawDescriptionHelpFormatter)
        words.add_argument("program", nargs="?", default=os.environ.get("ZERO", "zero"),
                           help="the program's path; $ZERO or zero where missing")
        words.add_argument("--seconds", type=int, default=60, help="the longest run (60)")
        words.add_argument("--times", type=int, default=3, help="runs for each median (3)")
        words.add_argument("--seeds", type=int, default=seeds, help=f"games of a size ({seeds})")
        words.add_argument("--ratios", metavar="FILE", help="append the ratios to this file")
        self.words = words.parse_args()
        program = shutil.which(self.words.program)
        if program is None:
            sys.exit(f"no program at {self.words.program}")
        self.zero = os.path.abspath(program)
        self.place = tempfile.TemporaryDirectory()
        self.folder = self.place.name
        self.ratios, self.different = [], 0

    def path(self, name):
        return os.path.join(self.folder, name)

    def write(self, name, text):
        with open(self.path(name), "w", newline="") as out:
            out.write(text)

    def write_game(self, players):
        """Writes players as game.json; a whole game is taken as it is."""
        if isinstance(players, list):
            players = {"format": "zero-game/2", "players": players}
        self.write("game.json", json.dumps(players))

    def peer(self, name, package):
        """The path of a program to measure beside, or None with a line that says so."""
        found = shutil.which(name)
        if found is None:
            print(f"{name} isn't there (Debian's {package}): left out")
        return found

    def median(self, words, times=None):
        """The run of middle seconds; one that has no answer is not made again."""
        runs = []
        while len(runs) < (times or self.words.times):
            runs.append(run(words, self.words.seconds, self.folder))
            if runs[-1].status != 0:
                return runs[-1]
        return sorted(runs, key=lambda r: r.seconds)[len(runs) // 2]

    def start(self, words):
        """The seconds of a run that does nothing."""
        return statistics.median(run(words, self.words.seconds).seconds for _ in range(5))

    def solve(self, kind, times=None):
        """Solves game.json; where there is an answer it is in game.cert."""
        done = self.median([self.zero, "solve", "game.json", "--kind", kind], times)
        if done.status:
            return Solved(self.stop_of(done), done.seconds, [])
        self.write("game.cert", done.out)
        lines = done.out.split("\n")
        return Solved(lines[2].split(" ")[1], done.seconds, lines)

    def stop_of(self, done):
        """The word for a run of the program; a status that isn't foreseen differs."""
        word = word_of(done)
        if word.startswith("status"):
            self.differs(f"{word} {done.err.strip()[:60]}")
        return word

    def check(self, kind, solved, times=None):
        """The seconds of `check` on game.cert, which must accept it."""
        done = self.median([self.zero, "check", "game.json", "game.cert"], times)
        if (done.status, done.out) != (0, f"accepted {kind} {solved.word}\n"):
            self.differs("check: " + (word_of(done) or done.out).strip() + " " + done.err[:60])
        return done.seconds

    def differs(self, text):
        print(f"DIFFERS: {text}", flush=True)
        self.different += 1

    def ratio(self, what, size, ours, theirs, word=""):
        """Keeps two times; a word says why a game has none."""
        if word:
            ours = theirs = None
        self.ratios.append({"what": what, "size": size, "ours": ours, "theirs": theirs,
                            "word": word})

    def ratio_beside(self, what, size, solved, name, theirs):
        """Keeps the times of an answer and of a peer's run, where both came to an end; gives the
        quotient as text."""
        word = "" if solved.lines else solved.word
        if not word and theirs.status:
            word = f"{name} {word_of(theirs)}"
        self.ratio(what, size, solved.seconds, theirs.seconds, word)
        return "-" if word else quotient(solved.seconds, theirs.seconds)

    def finish(self):
        """Appends the ratios and ends the script, with status 1 where something differs."""
        if self.words.ratios:
            with open(self.words.ratios, "a") as out:
                for item in self.ratios:
                    out.write(json.dumps(item) + "\n")
        self.place.cleanup()
        sys.exit(1 if self.different else 0)


def spread(ratios):
    """The median of ratios, and the least and the greatest where there are several."""
    if not ratios:
        return "-", "-"
    least, most = min(ratios), max(ratios)
    return (f"{statistics.median(ratios):.2f}",
            f"{least:.2f} to {most:.2f}" if len(ratios) > 1 else "")


def without(items):
    """How many of the items have no times, and why."""
    words = [i["word"] for i in items if i["word"]]
    return ", ".join(f"{words.count(w)} {w}" for w in sorted(set(words)))


def print_ratios(path):
    """The table of all ratios: medians over the games of a size."""
    with open(path) as text:
        items = [json.loads(line) for line in text]
    groups, order = {}, list(dict.fromkeys(item["what"] for item in items))
    for item in sorted(items, key=lambda item: order.index(item["what"])):
        groups.setdefault((item["what"], item["size"]), []).append(item)
    table = Table(what=38, size=16, games=5, zero=9, beside=9, ratio=9, from_to=18, without=20)
    for (what, size), found in groups.items():
        timed = [i for i in found if i["ours"] is not None and i["theirs"]]
        middle = lambda name: statistics.median(i[name] for i in timed) if timed else None
        ratios = [i["ours"] / i["theirs"] for i in timed]
        table.row(what, size, len(found), shown(middle("ours")), shown(middle("theirs")),
                  *spread(ratios), without(found))


if __name__ == "__main__":
    print_ratios(sys.argv[1])
