#!/usr/bin/env python3
"""How often a search with a culprit ends inconclusive, since its runs go past its budget: a table by rates, suspects
and width, which docs/OPERATING.md has.

    bench/budgets.py [SEARCHES]          2000 searches a cell, which is as many as a farm has, if not said

Run it after `./finder build`; FINDER names another program. It takes some ten minutes. The searches are simulated
ones, and the program makes all decisions: each cell is a farm in memory that opens so many searches of the same kind,
and goes on by rounds. In a round each search leases as many runs as its width, and then all are reported, so that runs
which come too late are made and counted. Each search has a culprit, at a position drawn evenly; a run of a tree with
the culprit passes at the true miss rate, one of a tree without it fails at the true flake rate, each run by itself. All
weights are 1, the calm weight is the number of suspects, and the bar is 9999/10000. What is drawn depends on a seed, so
the same program gives the same table.

Each cell has the searches of a hundred that end inconclusive at width 1 / 4 / 8, and in brackets the runs of a search
on the average. The last column counts the searches of the row that end with another suspect or with nobody.
"""
import json
import os
import random
import subprocess
import sys

ROOT = os.path.dirname(os.path.dirname(os.path.abspath(__file__)))
PROGRAM = os.environ.get("FINDER", os.path.join(ROOT, "crates", "culprit_finder", "out", "culprit_finder"))
MOMENT = 1_795_770_000_000  # of every line, so that no lease expires
AT_ONCE = 100  # lines that are written before their answers are read
SUSPECTS = (30, 200, 1_000)
WIDTHS = (1, 4, 8)
NONE = (0, 1)
# Rates that are given, the flake rate and the miss rate, where they are the true ones; then given and true ones.
TRUE = [((1, 1_000), NONE), ((1, 100), NONE), ((1, 20), NONE), ((1, 10), NONE), ((1, 5), NONE), ((3, 10), NONE),
        ((1, 100), (1, 100)), ((1, 20), (1, 20)), ((1, 10), (1, 10))]
ROUNDED_UP = [(((1, 10), (1, 10)), ((1, 100), (1, 100))), (((1, 5), (1, 5)), ((1, 100), (1, 100))),
              (((1, 5), (1, 5)), ((1, 20), (1, 20))), (((1, 5), (1, 5)), ((1, 10), (1, 10)))]


class Game:
    """A farm in memory that is asked by many lines at once."""

    def __init__(self):
        self.child = subprocess.Popen([PROGRAM, "run"], stdin=subprocess.PIPE, stdout=subprocess.PIPE)
        self.keys = 0

    def line(self, do, **fields):
        if do != "report":
            self.keys += 1
            fields["key"] = f"{self.keys:032x}"
        return json.dumps({"at": MOMENT, "do": do, **fields}, separators=(",", ":")).encode() + b"\n"

    def ask(self, lines):
        """The answers to these lines, in order."""
        answers = []
        for first in range(0, len(lines), AT_ONCE):
            some = lines[first:first + AT_ONCE]
            self.child.stdin.write(b"".join(some))
            self.child.stdin.flush()
            answers += [json.loads(self.child.stdout.readline()) for _ in some]
        return answers

    def end(self):
        self.child.communicate()
        if self.child.returncode != 0:
            sys.exit(f"{PROGRAM} ended with {self.child.returncode}")


class Cell:
    """Many searches of one kind, played to their ends."""

    def __init__(self, given, true, suspects, width, searches):
        self.game = Game()
        self.flake, self.miss = (a / b for a, b in true)
        self.draw = random.Random(f"{given} {true} {suspects} {width}")
        self.culprits = [self.draw.randint(1, suspects) for _ in range(searches)]
        self.width = width
        self.runs = self.inconclusive = self.wrong = self.budget = 0
        self.active = set(range(1, searches + 1))
        self.open(given, suspects)
        while self.active:
            self.round()
        self.game.end()

    def open(self, given, suspects):
        (flake, miss), commits = given, [[f"{i:040d}", 1] for i in range(1, suspects + 1)]
        fields = {"test": "t", "base": f"{0:040d}", "suspects": commits, "calm": suspects, "rate": flake,
                  "bar": (9_999, 10_000), "width": self.width, "reruns": 1}
        if miss != NONE:
            fields["miss"] = miss
        opened = self.game.ask([self.game.line("open", **fields) for _ in self.culprits])
        self.budget = opened[0]["budget"]

    def verdict(self, search, position):
        broken = position >= self.culprits[search - 1]
        fails = self.draw.random() >= self.miss if broken else self.draw.random() < self.flake
        return "fail" if fails else "pass"

    def round(self):
        asked = [self.game.line("lease", worker="w") for _ in range(len(self.active) * self.width)]
        leased = [lease for lease in self.game.ask(asked) if "run" in lease]
        self.runs += len(leased)
        reports = [self.game.line("report", run=lease["run"], verdict=self.verdict(lease["search"], lease["position"]))
                   for lease in leased]
        ended = {}
        for told in self.game.ask(reports):
            if told["standing"] != "searching":
                ended[told["search"]] = told
        self.note(ended)

    def note(self, ended):
        """Counts how these searches ended; what would be rerun is cancelled."""
        for search, told in ended.items():
            self.active.remove(search)
            self.inconclusive += told["standing"] == "inconclusive"
            self.wrong += told["standing"] == "no culprit" or told.get("culprit", self.culprits[search - 1]) != \
                self.culprits[search - 1]
        self.game.ask([self.game.line("cancel", search=search) for search, told in ended.items()
                       if told["standing"] == "verifying"])


def percent(part, whole):
    share = 100 * part / whole
    return "0" if part == 0 else f"{share:.1f}" if share < 9.95 else f"{share:.0f}"


def named(rates):
    (a, b), miss = rates
    return f"{a}/{b}" if miss == NONE else f"{a}/{b}, miss {miss[0]}/{miss[1]}"


def row(given, true, searches):
    cells, wrong, budgets = [], 0, []
    for suspects in SUSPECTS:
        some = [Cell(given, true, suspects, width, searches) for width in WIDTHS]
        budgets.append(str(some[0].budget))
        wrong += sum(cell.wrong for cell in some)
        lost = " / ".join(percent(cell.inconclusive, searches) for cell in some)
        runs = " / ".join(f"{cell.runs / searches:.1f}" for cell in some)
        cells.append(f"{lost} ({runs})")
    name = named(given) if given == true else f"{named(given)}; truly {named(true)}"
    return f"| {name} | {', '.join(budgets)} | {' | '.join(cells)} | {wrong} |"


def main():
    searches = int(sys.argv[1]) if len(sys.argv) > 1 else 2_000
    if not os.access(PROGRAM, os.X_OK):
        sys.exit("build the program first: ./finder build")
    print(f"| Given | Budgets | {' | '.join(f'{suspects} suspects' for suspects in SUSPECTS)} | Wrong |")
    print("|---|---|" + "---|" * len(SUSPECTS) + "--:|")
    for given, true in [(rates, rates) for rates in TRUE] + ROUNDED_UP:
        print(row(given, true, searches), flush=True)


if __name__ == "__main__":
    main()
