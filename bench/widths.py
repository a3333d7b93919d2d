#!/usr/bin/env python3
"""What the width of a search costs and gains where searches share workers: runs of a search, and the time until it is
answered, for several numbers of open searches. docs/OPERATING.md says what follows.

    bench/widths.py [SEARCHES]           6400 searches a cell, if not said

Run it after `./finder build`; FINDER names another program. It takes some ten minutes. The program makes all
decisions, over farms in memory. A farm opens its searches at once, of 60 suspects each, half of them with a culprit,
whose tests flake in 5 of 100 runs and fail for sure with the culprit in; all weights are 1, the calm weight is 60, the
bar 9999/10000. 16 workers lease and report; a run takes half a unit of time to one and a half, evenly drawn. A search
counts as answered once it isn't searching any more, and is cancelled then, so that no reruns are made. The draws are
seeded.
"""
import heapq
import random
import sys

import budgets

SUSPECTS, WORKERS, FLAKE = 60, 16, (1, 20)
SEARCHES = (64, 16, 8, 4)
WIDTHS = (1, 2, 4, 8)
UNIT_MS = 1_000


class Farm(budgets.Game):
    """Searches of one width that workers bring to their ends."""

    def __init__(self, searches, width, draw):
        super().__init__()
        self.draw = draw
        self.culprits = [draw.randint(1, SUSPECTS) if draw.random() < 0.5 else SUSPECTS + 1 for _ in range(searches)]
        self.runs, self.times, self.now = 0, [], 0
        self.active = set(range(1, searches + 1))
        commits = [[f"{i:040d}", 1] for i in range(1, SUSPECTS + 1)]
        self.ask([self.command("open", test="t", base=f"{0:040d}", suspects=commits, calm=SUSPECTS, rate=FLAKE,
                               bar=(9_999, 10_000), width=width, reruns=1) for _ in self.culprits])
        self.work()
        self.end()

    def command(self, do, **fields):
        return self.line(do, at=budgets.MOMENT + int(self.now * UNIT_MS), **fields)

    def verdict(self, lease):
        broken = lease["position"] >= self.culprits[lease["search"] - 1]
        return "fail" if broken or self.draw.random() < FLAKE[0] / FLAKE[1] else "pass"

    def work(self):
        """Workers that have no run lease one, and the run that ends next is reported."""
        out, idle = [], WORKERS
        while self.active:
            while idle:
                [lease] = self.ask([self.command("lease", worker="w")])
                if "run" not in lease:
                    break
                idle, self.runs = idle - 1, self.runs + 1
                heapq.heappush(out, (self.now + self.draw.uniform(0.5, 1.5), lease["run"], lease))
            self.now, run, lease = heapq.heappop(out)
            idle += 1
            [told] = self.ask([self.command("report", run=run, verdict=self.verdict(lease))])
            self.note(told)

    def note(self, told):
        search = told["search"]
        if told["standing"] == "searching" or search not in self.active:
            return
        self.active.remove(search)
        self.times.append(self.now)
        if told["standing"] == "verifying":
            self.ask([self.command("cancel", search=search)])


def cell(searches, width, farms):
    draw = random.Random(f"{searches} {width}")
    played = [Farm(searches, width, draw) for _ in range(farms)]
    runs = sum(farm.runs for farm in played) / (farms * searches)
    times = sum(sum(farm.times) for farm in played) / (farms * searches)
    return f"{runs:.1f} / {times:.1f}"


def main():
    total = int(sys.argv[1]) if len(sys.argv) > 1 else 6_400
    print(f"| 16 workers: runs of a search / time | {' | '.join(f'{searches} searches' for searches in SEARCHES)} |")
    print("|---|" + "--:|" * len(SEARCHES))
    for width in WIDTHS:
        cells = [cell(searches, width, total // searches) for searches in SEARCHES]
        print(f"| width {width} | {' | '.join(cells)} |", flush=True)


if __name__ == "__main__":
    main()
