"""The evidence of a search as `judge` reads it, and what `judge` says of it.

The evidence of a search is its search line and its reports with a verdict, but for reruns, in the order in which they
were reported: none behind its cancellation, and none behind the entry with which it ended because no further run could
tell. So whoever has it can judge the search again, by the program or by another one, from nothing but its runs.
"""
from __future__ import annotations

import subprocess
from typing import Any, NamedTuple, Sequence

from culprit_history import Run, Search
from culprit_lib import NoAnswer, ending


class Judged(NamedTuple):
    """What `judge` says: the budget, what became of each run, the shares in basis points, the standing."""

    budget: int
    fates: list[str]
    shares: list[int]
    standing: str


def judge(program: str, text: str) -> Judged:
    """What the program's `judge` says of a search and its runs."""
    try:
        ended = subprocess.run([program, "judge"], input=text.encode("ascii"), capture_output=True, check=False)
    except OSError as fault:
        raise NoAnswer(f"{program}: {fault.strerror}") from fault
    lines = ended.stdout.decode("ascii", "replace").splitlines()
    if ended.returncode != 0 or len(lines) < 3:
        raise NoAnswer(ending(f"{program} judge", ended.returncode, ended.stderr))
    return Judged(int(lines[0].split()[1]), [line.split()[2] for line in lines[1:-2]],
                  [int(share) for share in lines[-2].split()[1:]], lines[-1].partition(" ")[2])


def text_of(search: Search, runs: Sequence[Run]) -> str:
    """The lines of a search and of runs of it."""
    opening = search.opening
    weights = (weight for _, weight in opening.suspects)
    lines = [" ".join(map(str, ("search", *opening.rate, *opening.bar, opening.calm, *weights)))]
    if opening.miss[0]:
        lines.insert(0, f"miss {opening.miss[0]} {opening.miss[1]}")
    lines += [f"run {number} {run.position} {run.verdict}" for number, run in enumerate(runs, 1)]
    return "\n".join(lines) + "\n"


class Evidence:
    """The evidence of a search: its runs, its text, and what `judge` says of the whole text."""

    def __init__(self, program: str, search: Search) -> None:
        told = search.told[:search.before_end]
        runs = [run for run in told if run.stage == "search" and run.verdict != "skip"]
        judged = judge(program, text_of(search, runs))
        # A late report that `judge` would count came behind the end, of which `judge`, without skips, doesn't know.
        behind = [index for index, run in enumerate(runs) if run.fate == "late" and judged.fates[index] != "late"]
        if behind:
            runs = runs[:behind[0]]
            judged = judge(program, text_of(search, runs))
        if [run.fate for run in runs] != judged.fates:
            raise NoAnswer(f"what became of the runs of search {search.number} isn't what {program} says of them")
        self.program, self.search, self.runs, self.judged = program, search, runs, judged
        self.text = text_of(search, runs)

    def agreed(self, page: dict[str, Any]) -> "Evidence":
        """This evidence, where `judge` finds in it what the program's page of the search says."""
        if (self.judged.shares, self.judged.budget) != (page["shares"], page["budget"]):
            raise NoAnswer(f"judge gives other shares for the runs of search {self.search.number} than the program's "
                           "page of it")
        return self

    def shares_after(self) -> tuple[list[int], dict[int, list[int]]]:
        """The shares before the first run, and those after each counted run, by its number: `judge` over the prefixes
        of the evidence."""
        after, last = {}, self.judged.shares
        for count in range(len(self.runs), 0, -1):
            after[self.runs[count - 1].number] = last
            if self.runs[count - 1].fate == "counted":
                last = judge(self.program, text_of(self.search, self.runs[:count - 1])).shares
        return last, after
