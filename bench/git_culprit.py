#!/usr/bin/env python3
"""Measures `git culprit` beside `git bisect run`: how often each names the commit that broke a flaky test, and in how
many runs and how much time. docs/OPERATING.md has the tables.

    bench/git_culprit.py play [SEARCHES]     simulated searches of 60 commits, 400 a cell if not said; half a minute
    bench/git_culprit.py tool [SEARCHES]     the same searches by the two tools themselves, over a repository of its own
                                             making; half an hour with four processors
    bench/git_culprit.py real [SEARCHES]     a real test in the last 60 changes of this repository, 10 a cell

Run it after `./finder build`; FINDER names another program, GIT_CULPRIT another `git-culprit`. `-h` lists the options.
With --kept FILE each search that has ended is written there, and those that stand there aren't made again.

A cell is a strategy, a flake rate, and whether a commit of the range broke the test. Where one did, its place goes over
the range from search to search; where none did, the run that failed at the end of the range was a flake. With the
culprit in, the test always fails; without it, it fails at the flake rate, each run by itself. All strategies meet the
same worlds: run n of search s flakes for all of them or for none. The strategies are

- `git culprit` with its own numbers but for `--flakes`, which is the true rate (a cell says where it isn't);
- `git bisect run`;
- the same with a wrapper that tries a commit three times: it fails where two of three runs fail (the third run is left
  out where the first two agree), or where all three do (a pass ends it);
- the same with a wrapper by which it fails where all of five runs do.

`git bisect` takes the end of the range for broken, so where nobody broke the test it names an innocent commit, whatever
the wrapper. Runs are those before reruns, and then the reruns; those of GOOD and BAD that `git culprit` makes before a
search aren't among them.

`play` asks the program itself, by the rules of tools/culprit_drive.py, and bisects as git does over a line of commits.
`tool` says which of its searches differ from those of `play`. In `real` the flakes are Python's: the test takes the
first of a set, whose order is drawn anew in each process.
"""
import argparse
import concurrent.futures
import functools
import json
import os
import queue
import random
import shutil
import subprocess
import sys
import tempfile
import threading
import time
import types
import typing

import budgets

ROOT = budgets.ROOT
TOOL = os.path.abspath(os.environ.get("GIT_CULPRIT", os.path.join(ROOT, "tools", "git-culprit")))
sys.path.append(os.path.dirname(TOOL))
sys.dont_write_bytecode = True

import culprit_drive  # noqa: E402

SUSPECTS = 60
NONE = SUSPECTS + 1  # the culprit's place where there is none
MOST = 400  # runs of a search whose flakes are drawn
AT_ONCE = 400  # searches of a farm that is played
RATES = {"no": (0, 1), "5 %": (1, 20), "10 %": (1, 10), "20 %": (1, 5)}
LEAST = (1, 100)  # what `git culprit` takes where it is told less
CULPRIT, PLAIN, TWO, ALL = "git culprit", "bisect", "bisect, two of three", "bisect, all three"
FIVE = "bisect, all five"
STRATEGIES = (CULPRIT, PLAIN, TWO, ALL, FIVE)


class Cell(typing.NamedTuple):
    """What is measured: a strategy, the true flake rate, whether there is a culprit, the rate that `git culprit` is
    told (None: it isn't told one), and its jobs."""

    strategy: str
    rate: str
    broken: bool
    told: typing.Optional[str] = None
    jobs: int = 1


class World(typing.NamedTuple):
    """A search to be made: the culprit's place, and the runs of sound trees that flake, by their labels."""

    culprit: int
    flakes: frozenset


class Answer(typing.NamedTuple):
    """How a search ended: the place that was named (0 for nobody, None for no answer), the runs before reruns, the
    reruns, those of GOOD and BAD before the search, the searches of the program, and the seconds."""

    named: typing.Optional[int]
    runs: int
    reruns: int = 0
    checks: int = 0
    tries: int = 1
    seconds: float = 0.0


@functools.lru_cache(maxsize=None)
def world(rate, broken, search):
    """The world of a search, the same for all strategies."""
    draw, chance = random.Random(f"{rate} {broken} {search}"), RATES[rate][0] / RATES[rate][1]
    labels = [*map(str, range(1, MOST + 1)), *(f"check-{number}" for number in range(1, 21))]
    flakes = frozenset(label for label in labels if draw.random() < chance)
    return World(1 + 37 * search % SUSPECTS if broken else NONE, flakes)


def cells(jobs, strategies):
    """All cells: each strategy at each rate, and `git culprit` at 10 % without being told.
    `git culprit` is measured with so many `jobs` too."""
    for rate in RATES:
        for broken in (True, False):
            yield from (Cell(strategy, rate, broken, rate) for strategy in strategies)
            yield from (Cell(CULPRIT, rate, broken, rate, many) for many in jobs if CULPRIT in strategies)
    if CULPRIT in strategies:
        yield from (Cell(CULPRIT, "10 %", broken) for broken in (True, False))


# ---- simulated searches ---------------------------------------------------------------------------------------------

def bisect(world, strategy):
    """What `git bisect run` does with a line of commits whose ends are known."""
    made = 0

    def fails():
        nonlocal made
        made += 1
        return middle >= world.culprit or str(made) in world.flakes

    low, high = 0, SUSPECTS
    while high - low > 1:
        middle = low + 2 if high - low == 3 else (low + high) // 2  # git 2.39 takes the second one of three
        if strategy == TWO:
            first, second = fails(), fails()
            is_broken = first if first == second else fails()
        else:
            is_broken = all(fails() for _ in range({PLAIN: 1, ALL: 3, FIVE: 5}[strategy]))
        low, high = (low, middle) if is_broken else (middle, high)
    return Answer(high, made)


class Search:
    """A search by `git culprit` that is played: what the tool keeps of it."""

    def __init__(self, world, flakes):
        self.world, self.before = world, []
        self.counts = {"search": 0, "verify": 0}
        self.checks, self.is_sound = 1, True
        while f"check-{self.checks}" in world.flakes and self.is_sound:
            self.is_sound = flakes[0] ** self.checks * culprit_drive.DOUBT >= flakes[1] ** self.checks
            self.checks += self.is_sound
        self.checks += self.is_sound  # the run of BAD
        failed = world.culprit <= SUSPECTS or f"check-{self.checks}" in world.flakes
        numbers = {"calm": SUSPECTS, "flakes": flakes, "misses": (0, 1)}
        self.calm = culprit_drive.calm_of(numbers, [{"position": SUSPECTS, "verdict": "fail" if failed else "pass"}])

    def verdict(self, lease):
        self.counts[lease["stage"]] += 1
        flaked = str(sum(self.counts.values())) in self.world.flakes
        return "fail" if lease["position"] >= self.world.culprit or flaked else "pass"

    def answer(self, named):
        return Answer(named, self.counts["search"], self.counts["verify"], self.checks, len(self.before))


class Played(budgets.Game):
    """Searches of a cell by `git culprit`, played to their ends over a farm in memory."""

    def __init__(self, told, worlds, options):
        super().__init__()
        self.flakes, self.options = LEAST if told == "no" else RATES[told or "5 %"], options
        self.searches = [Search(world, self.flakes) for world in worlds]
        self.answers = [None if search.is_sound else search.answer(None) for search in self.searches]
        self.at_work, self.opened = {}, 0
        self.open([index for index, answer in enumerate(self.answers) if answer is None])
        while self.at_work:
            self.round()
        self.end()

    def open(self, indices):
        """Opens the next search of the program for each of these."""
        lines = []
        for index in indices:
            weights = culprit_drive.weights_of([1] * SUSPECTS, self.searches[index].before)
            suspects = [[f"{place:040d}", weight] for place, weight in enumerate(weights, 1)]
            lines.append(self.line("open", test="t", base=f"{0:040d}", suspects=suspects, width=1, reruns=1,
                                   calm=self.searches[index].calm, rate=self.flakes, bar=self.options.bar))
        for index, opened in zip(indices, self.ask(lines)):
            self.at_work[opened["search"]] = index

    def round(self):
        """A run of each search."""
        leased = self.ask([self.line("lease", worker="w") for _ in self.at_work])
        told = self.ask([self.line("report", run=lease["run"],
                                   verdict=self.searches[self.at_work[lease["search"]]].verdict(lease))
                         for lease in leased])
        again = [self.ended(reply) for reply in told if reply["standing"] not in ("searching", "verifying")]
        self.open([index for index in again if index is not None])

    def ended(self, told):
        """Takes the end of a search of the program; the index of what is to be searched once more, or None."""
        index = self.at_work.pop(told["search"])
        search = self.searches[index]
        search.before.append(types.SimpleNamespace(culprit=told.get("culprit")))
        if told["standing"] == "vindicated" and len(search.before) < self.options.tries:
            return index
        named = {"confirmed": told.get("culprit"), "no culprit": 0}.get(told["standing"])
        self.answers[index] = search.answer(named)
        return None


def play(cell, searches, options):
    """The answers of a cell's first searches, simulated."""
    worlds = [world(cell.rate, cell.broken, search) for search in range(searches)]
    if cell.strategy != CULPRIT:
        return [bisect(each, cell.strategy) for each in worlds]
    farms = (Played(cell.told, worlds[first:first + AT_ONCE], options) for first in range(0, searches, AT_ONCE))
    return [answer for farm in farms for answer in farm.answers]


# ---- the tools themselves -------------------------------------------------------------------------------------------

TEST = """#!/bin/sh
# Fails from the culprit's place ($1) on, and below it in the runs that $2 names. A run without a number of its own is
# counted in the file $3.
read -r place < place
if [ -z "$CULPRIT_RUN" ]; then
    read -r made < "$3"
    CULPRIT_RUN=$((made + 1))
    echo "$CULPRIT_RUN" > "$3"
fi
[ "$place" -ge "$1" ] && exit 1
case " $2 " in *" $CULPRIT_RUN "*) exit 1 ;; esac
exit 0
"""
COUNTED = """#!/bin/sh
# Counts a run in a file, and makes it.
count=$1
shift
read -r made < "$count"
echo $((made + 1)) > "$count"
exec "$@"
"""
WRAPPERS = {
    PLAIN: '"$@"',
    TWO: 'fails=0; for run in 1 2; do "$@" || fails=$((fails + 1)); done; [ $fails = 1 ] && { "$@"; exit; }; '
         '[ $fails = 0 ]',
    ALL: '"$@" || "$@" || "$@"',
    FIVE: '"$@" || "$@" || "$@" || "$@" || "$@"',
}
ENV = {name: value for name, value in os.environ.items() if name != "PYTHONHASHSEED"}


def git(folder, *words, stdin=None):
    """What a command of git writes."""
    ended = subprocess.run(["git", *words], cwd=folder, env=ENV, input=stdin, check=False, capture_output=True,
                           text=True)
    if ended.returncode:
        sys.exit(f"git {' '.join(words)}: {ended.stderr}")
    return ended.stdout.strip()


def written(folder, name, text):
    """A script in a folder."""
    path = os.path.join(folder, name)
    with open(path, "w", encoding="ascii") as file:
        file.write(text)
    os.chmod(path, 0o755)
    return path


def searched(cell, branch, command, repository, count, options):
    """A search of a branch by the tools themselves. The file `count` counts the runs of `git bisect`."""
    with open(count, "w", encoding="ascii") as file:
        file.write("0\n")
    if cell.strategy == CULPRIT:
        return by_culprit(cell, f"{branch}~{SUSPECTS}..{branch}", command, repository, options)
    return by_bisect(cell, branch, command, repository, count)


def by_culprit(cell, span, command, repository, options):
    """A search by `git culprit`."""
    told = ["--flakes", "{}/{}".format(*RATES[cell.told])] if cell.told else []
    words = [TOOL, span, *told, "--jobs", str(cell.jobs), "--bar", "{}/{}".format(*options.bar), "--tries",
             str(options.tries), "--finder", os.path.abspath(budgets.PROGRAM), "--quiet", "--json", *options.more, "--",
             *command]
    ended = subprocess.run(words, cwd=repository, env=ENV, capture_output=True, text=True, check=False)
    if ended.returncode not in (0, 1, 3) or not ended.stdout:
        sys.exit(f"{words}: {ended.stderr}")
    report = json.loads(ended.stdout)
    stages = [run["stage"] for run in report["runs"] if run["ended"] == "reported"]
    named = {0: (report["culprit"] or {}).get("position"), 1: 0}.get(ended.returncode)
    shutil.rmtree(os.path.join(repository, ".git", "culprit"))
    return Answer(named, stages.count("search"), stages.count("verify"), len(report["checks"]), report["tries"],
                  report["seconds"])


def by_bisect(cell, branch, command, repository, count):
    """A search by `git bisect run`."""
    began = time.monotonic()
    git(repository, "bisect", "start", branch, f"{branch}~{SUSPECTS}")
    git(repository, "bisect", "run", "sh", "-c", WRAPPERS[cell.strategy], "sh", *command)
    seconds = time.monotonic() - began
    named = SUSPECTS - int(git(repository, "rev-list", "--count", f"refs/bisect/bad..{branch}"))
    git(repository, "bisect", "reset")
    with open(count, encoding="ascii") as file:
        return Answer(named, int(file.read()), seconds=seconds)


def history(branch, parts):
    """A branch of 61 commits for `git fast-import`. Each part has a tree that the commit begins with, or none, and
    files."""
    for place, (tree, files) in enumerate(parts):
        yield f"commit refs/heads/{branch}\ncommitter Bench <bench@example.com> {place} +0000\n"
        yield f"data <<.\nchange {place}\n.\n" + (f'M 040000 {tree} ""\n' if tree else "")
        for name, text in files:
            yield f"M 100644 inline {name}\ndata {len(text)}\n{text}\n"


class Line:
    """A repository of 61 commits, each with its place in a file, and a test that plays flakes."""

    def __init__(self, folder, _):
        self.test, self.repository = written(folder, "test", TEST), os.path.join(folder, "line")
        git(folder, "init", "-q", "-b", "line", self.repository)
        parts = [(None, [("place", f"{place}\n")]) for place in range(NONE)]
        git(self.repository, "fast-import", "--quiet", stdin="".join(history("line", parts)))

    def search(self, cell, search, repository, options):
        here, count = world(cell.rate, cell.broken, search), os.path.join(repository, ".git", "count")
        command = [self.test, str(here.culprit), " ".join(sorted(here.flakes)), count]
        return here.culprit, searched(cell, "origin/line", command, repository, count, options)


# ---- a real test ----------------------------------------------------------------------------------------------------

TESTS = """import time
import unittest

from offers import best, total


class Totals(unittest.TestCase):
    def test_a_discount_counts_from_its_limit_on(self):
        time.sleep(%s)  # as a test that waits for a service does
        self.assertEqual([total(99), total(100), total(101)], [99, 90, 90])


class Best(unittest.TestCase):
    def test_of_five_shops(self):
        self.assertNotEqual(best({f"shop {n}" for n in range(5)}), "shop 0")

    def test_of_ten_shops(self):
        self.assertNotEqual(best({f"shop {n}" for n in range(10)}), "shop 0")

    def test_of_twenty_shops(self):
        self.assertNotEqual(best({f"shop {n}" for n in range(20)}), "shop 0")
"""
CODE = """def total(price):
    return price * 9 // 10 if price %s 100 else price


def best(shops):
    return next(iter(shops))
"""
FLAKY = {"no": [], "5 %": ["test_offers.Best.test_of_twenty_shops"], "10 %": ["test_offers.Best.test_of_ten_shops"],
         "20 %": ["test_offers.Best.test_of_five_shops"]}


class Changes:
    """The last changes of this repository, with a package of Python and its tests in each tree. A commit breaks the
    package, or none does; a test of it flakes as Python draws the order of a set."""

    def __init__(self, folder, options):
        self.counted, self.repository = written(folder, "counted", COUNTED), os.path.join(folder, "changes")
        git(folder, "clone", "-q", "--shared", "--no-checkout", ROOT, self.repository)
        trees = git(self.repository, "log", "--first-parent", "--reverse", f"-{NONE}", "--format=%T").split()
        if len(trees) < NONE:
            sys.exit(f"this repository has {len(trees)} changes, and {NONE} are needed")
        tests = ("bench/offers/test_offers.py", TESTS % options.seconds)
        codes = [("bench/offers/offers.py", CODE % sign) for sign in (">=", ">")]
        for culprit in {self.culprit(True, search) for search in range(options.searches)} | {NONE}:
            parts = [(tree, [tests, codes[place >= culprit]]) for place, tree in enumerate(trees)]
            git(self.repository, "fast-import", "--quiet", stdin="".join(history(f"broken-at-{culprit}", parts)))

    @staticmethod
    def culprit(broken, search):
        return 4 + 6 * search % SUSPECTS if broken else NONE

    def search(self, cell, search, repository, options):
        culprit, count = self.culprit(cell.broken, search), os.path.join(repository, ".git", "count")
        command = ["python3", "-m", "unittest", "-q", "test_offers.Totals", *FLAKY[cell.rate]]
        command = [self.counted, count, "sh", "-c", 'cd bench/offers && exec "$@"', "sh", *command]
        return culprit, searched(cell, f"origin/broken-at-{culprit}", command, repository, count, options)


# ---- many searches --------------------------------------------------------------------------------------------------

class Kept:
    """The searches that have ended, in memory and, where one is given, in a file."""

    def __init__(self, mode, path):
        self.mode, self.path, self.lock, self.ended = mode, path, threading.Lock(), {}
        if path and os.path.exists(path):
            with open(path, encoding="ascii") as file:
                for row in map(json.loads, file):
                    if row[0] == mode:
                        self.ended[Cell(*row[1]), row[2]] = (row[3], Answer(*row[4]))

    def by_cell(self):
        answers = {}
        for (cell, _), row in self.ended.items():
            answers.setdefault(cell, []).append(row)
        return answers

    def add(self, cell, search, culprit, answer):
        with self.lock:
            self.ended[cell, search] = (culprit, answer)
            if self.path:
                with open(self.path, "a", encoding="ascii") as file:
                    file.write(json.dumps([self.mode, cell, search, culprit, answer]) + "\n")


def measure(place, kept, all_cells, options):
    """Makes all searches that aren't kept yet, the first ones of all cells first."""
    repositories = queue.Queue()
    for number in range(options.at_once):
        clone = f"{place.repository}-{number}"
        git(None, "clone", "-q", "--shared", place.repository, clone)
        repositories.put(clone)

    def one(cell, search):
        repository = repositories.get()
        try:
            kept.add(cell, search, *place.search(cell, search, repository, options))
        finally:
            repositories.put(repository)

    with concurrent.futures.ThreadPoolExecutor(options.at_once) as pool:
        made = [pool.submit(one, cell, search) for search in range(options.searches) for cell in all_cells
                if (cell, search) not in kept.ended]
        try:
            for each in concurrent.futures.as_completed(made):
                each.result()
        except BaseException:
            pool.shutdown(wait=False, cancel_futures=True)
            raise


# ---- tables ---------------------------------------------------------------------------------------------------------

def share(part, whole):
    percent = 100 * part / whole
    return f"{percent:.0f}" if percent in (0, 100) else f"{percent:.1f}"


def figures(strategy, rows, timed):
    """Right, wrong and no answer in a hundred, the runs, and the seconds."""
    def mean(name):
        return f"{sum(getattr(answer, name) for _, answer in rows) / len(rows):.1f}"

    right = sum(answer.named is not None and answer.named == culprit % NONE for culprit, answer in rows)
    none = sum(answer.named is None for _, answer in rows)
    shares = [share(part, len(rows)) for part in (right, len(rows) - right - none, none)]
    runs = mean("runs") + (f" + {mean('reruns')}" if strategy == CULPRIT else "")
    return " / ".join([*shares, runs, *([f"{mean('seconds')} s"] if timed else [])])


def table(answers, timed):
    """The table of all cells that have answers."""
    columns = [(rate, rate) for rate in RATES] + [("10 %", None)]
    heads = [f"{rate} flakes" + ("" if told else ", not told") for rate, told in columns]
    print(f"| right / wrong / no answer % / runs{' / time' if timed else ''} | {' | '.join(heads)} |")
    print("|---|" + "--:|" * len(columns))
    for broken in (True, False):
        for strategy, jobs in [(CULPRIT, 1), (CULPRIT, 4)] + [(strategy, 1) for strategy in STRATEGIES[1:]]:
            rows = [answers.get(Cell(strategy, rate, broken, told, jobs)) for rate, told in columns]
            if any(rows):
                name = f"{'a culprit' if broken else 'nobody'}: {strategy}{', 4 jobs' if jobs > 1 else ''}"
                print(f"| {name} | {' | '.join(figures(strategy, row, timed) if row else '' for row in rows)} |")


def compare(kept, options):
    """Says which searches of the tools differ from those that are played."""
    differing = 0
    for cell in sorted({cell for cell, _ in kept.ended}, key=str):
        made = {search: row for (other, search), row in kept.ended.items() if other == cell}
        for search, answer in enumerate(play(cell, max(made) + 1, options)):
            if search in made and made[search][1][:5] != answer[:5]:
                differing += 1
                print(f"{cell}, search {search}: {made[search][1]}, played {answer}")
    print(f"{len(kept.ended)} searches by the tools, {differing} of them other than played")


def words():
    """What is asked."""
    reader = argparse.ArgumentParser(description=__doc__, formatter_class=argparse.RawDescriptionHelpFormatter)
    reader.add_argument("mode", choices=("play", "tool", "real"))
    reader.add_argument("searches", nargs="?", type=int, help="searches a cell")
    reader.add_argument("--at-once", type=int, default=4, help="searches at once by the tools, 4 if not said")
    reader.add_argument("--kept", metavar="FILE", help="where the searches of the tools are kept")
    reader.add_argument("--folder", help="for the repositories, in place of that for temporary files")
    reader.add_argument("--bar", default="9999/10000", type=lambda text: tuple(map(int, text.split("/"))),
                        help="of `git culprit`, 9999/10000 if not said")
    reader.add_argument("--tries", default=3, type=int, help="of `git culprit`, 3 if not said")
    reader.add_argument("--seconds", default=1.0, type=float, help="how long the real test waits, 1 if not said")
    reader.add_argument("--only", metavar="STRATEGY", action="append", choices=STRATEGIES,
                        help="what is measured, all strategies if not said")
    options = reader.parse_args()
    options.searches = options.searches or {"play": 400, "tool": 400, "real": 10}[options.mode]
    options.more = ["--keep-build"] if options.mode == "tool" else []
    return options


def main():
    options = words()
    if not os.access(budgets.PROGRAM, os.X_OK):
        sys.exit("build the program first: ./finder build")
    strategies = options.only or STRATEGIES
    if options.mode == "play":
        answers = {}
        for cell in cells((), strategies):
            culprits = [world(cell.rate, cell.broken, search).culprit for search in range(options.searches)]
            answers[cell] = list(zip(culprits, play(cell, options.searches, options)))
        table(answers, False)
        return
    kept = Kept(options.mode, options.kept)
    is_real = options.mode == "real"
    with tempfile.TemporaryDirectory(dir=options.folder) as folder:
        place = (Changes if is_real else Line)(folder, options)
        measure(place, kept, list(cells((4,) if is_real else (), strategies)), options)
    table(kept.by_cell(), is_real)
    if not is_real:
        compare(kept, options)


if __name__ == "__main__":
    main()
