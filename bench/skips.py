#!/usr/bin/env python3
"""What a lease and a report cost in a search over 1,000 suspects of which 900 can't be tested, beside one in which all
can: a report may cost three times as much at most.

    bench/skips.py [SEARCHES]            20 searches of each kind, if not said; some seconds

Run it after `./finder build`; FINDER names another program. The searches of a kind are opened in one farm in memory,
which goes on by rounds: each search leases a run, and then all are reported. Times are those for which the program's
process had a processor, and include the reading of lines and the writing of replies. Each kind is made three times, and
the least figure of each counts, as a busy machine only adds.

The commits that can't be tested are a stretch, 51 to 950, which the search goes through from its middle to both sides,
or nine of ten. The runs never flake. Status 1 where a report costs more than three times as much as in a search in
which all commits can be tested.
"""
import sys

import budgets

SUSPECTS, MOST = 1_000, 3.0


class Farm(budgets.Game):
    """Searches of one kind, led to their ends. `costs` has the seconds of each kind of line, and how many they were."""

    def __init__(self, searches, culprit, is_untestable):
        super().__init__()
        self.culprit, self.is_untestable, self.costs = culprit, is_untestable, {}
        suspects = [[f"{place:040x}", 1] for place in range(1, SUSPECTS + 1)]
        self.ask([self.line("open", test="t", base="0" * 40, suspects=suspects, calm=SUSPECTS, rate=[1, 20],
                            bar=[9999, 10000], width=1, reruns=1) for _ in range(searches)])
        active = searches
        while active:
            leases = self.timed("lease", [self.line("lease", worker="w") for _ in range(active)])
            for kind in ("skip", "pass or fail"):
                told = self.timed(kind, [self.line("report", run=lease["run"], verdict=self.verdict(lease))
                                         for lease in leases if (self.verdict(lease) == "skip") == (kind == "skip")])
                active -= sum(reply["standing"] not in ("searching", "verifying") for reply in told)
        self.end()

    def seconds(self):
        """For how long the program has had a processor."""
        with open(f"/proc/{self.child.pid}/schedstat", encoding="ascii") as file:
            return int(file.read().split()[0]) / 1e9

    def timed(self, kind, lines):
        """The answers to lines of one kind."""
        before, (spent, count) = self.seconds(), self.costs.get(kind, (0.0, 0))
        answers = self.ask(lines)
        self.costs[kind] = spent + self.seconds() - before, count + len(lines)
        return answers

    def verdict(self, lease):
        if self.is_untestable(lease["position"]):
            return "skip"
        return "fail" if lease["position"] >= self.culprit else "pass"

    def mean(self, *kinds):
        """The microseconds of a line of these kinds on the average."""
        spent, count = (sum(self.costs[kind][index] for kind in kinds) for index in (0, 1))
        return 1e6 * spent / count if count else 0.0

    def means(self):
        """Those of a lease, of a report, of a skip, and of a pass or a fail."""
        return self.mean("lease"), self.mean("skip", "pass or fail"), self.mean("skip"), self.mean("pass or fail")


def row(name, searches, is_untestable):
    """Prints a row of the table; the microseconds of a report."""
    farms = [Farm(searches, 30, is_untestable) for _ in range(3)]
    counts = [farms[0].costs[kind][1] / searches for kind in ("skip", "pass or fail")]
    least = [min(means) for means in zip(*(farm.means() for farm in farms))]
    print(f"| {name} | {' + '.join(f'{count:.1f}' for count in counts)} | "
          f"{' | '.join(f'{mean:.1f}' if mean else '' for mean in least)} |", flush=True)
    return least[1]


def main():
    searches = int(sys.argv[1]) if len(sys.argv) > 1 else 20
    print("| Of 1,000 suspects | Skips + runs of a search | A lease, µs | A report, µs | A skip | A pass or a fail |")
    print("|---|--:|--:|--:|--:|--:|")
    without = row("all can be tested", searches, lambda position: False)
    stretch = row("a stretch of 900 can't", searches, lambda position: 51 <= position <= 950)
    scattered = row("nine of ten can't", searches, lambda position: position % 10 != 0)
    worst = max(stretch, scattered) / without
    print(f"a report costs at most {worst:.2f} times one without ({MOST:g} at most)")
    sys.exit(worst > MOST)


if __name__ == "__main__":
    main()
