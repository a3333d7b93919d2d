"""What tests over script lines share: the lines of a script for `run`, with the replies that are wanted of them."""
from __future__ import annotations

import dataclasses
import json
import math
import subprocess
import unittest
from typing import Any, Optional

from case_farm import PATIENCE, PROGRAM, commit

DAY = 86_400_000  # ms; the moment at which a farm in memory is founded
LEASE = 60_000  # ms, of a farm in memory
Reply = dict[str, Any]


@dataclasses.dataclass
class Asked:
    """A search as it is asked for. Its base is the commit of the number `base`, and suspect i that of `base` + i."""
    weights: list[int]
    calm: int = 1
    rate: tuple[int, int] = (1, 10)
    bar: tuple[int, int] = (9, 10)
    width: int = 1
    reruns: int = 1
    miss: tuple[int, int] = (0, 1)
    base: int = 0

    def factors(self) -> list[int]:
        """The likelihood numbers: of a fail with the culprit in its tree and out of it, and of a pass likewise."""
        (a, b), (c, d) = self.rate, self.miss
        fail, passed = ((d - c) * b, a * d), (c * b, (b - a) * d)
        return [it // math.gcd(*pair) for pair in (fail, passed) for it in pair]

    def budget(self) -> int:
        """How many runs the exact numbers hold that still tell hypotheses apart."""
        held, greatest, count = (sum(self.weights) + self.calm) * 10_000, max(self.factors()), 0
        while held * greatest ** (count + 1) < 2 ** 128:
            count += 1
        return count

    def members(self) -> Reply:
        """The members of an `open` that ask for it."""
        suspects = [[commit(self.base + i), weight] for i, weight in enumerate(self.weights, 1)]
        return {"test": "t", "base": commit(self.base), "suspects": suspects, "calm": self.calm, "rate": self.rate,
                "miss": self.miss, "bar": self.bar, "width": self.width, "reruns": self.reruns}


def standing_of(text: str) -> Reply:
    """The members of a standing, as `searching` or `verifying 3`."""
    word, _, culprit = text.partition(" ")
    return {"standing": word, "culprit": int(culprit)} if culprit.isdigit() else {"standing": text}


class Script:
    """Lines for a farm in memory or in a journal, and the replies that are wanted. `at` is the moment of a line."""

    def __init__(self, at: int = DAY) -> None:
        self.at, self.keys = at, 0
        self.searches: list[Asked] = []
        self.leases: list[tuple[int, int]] = []  # of each run its search and its position
        self.lines: list[str] = []
        self.wanted: list[str] = []

    def ask(self, do: str, wanted: Reply, keyed: bool = False, **members: Any) -> None:
        """Adds a line, with a key of its own where it takes one, and its reply."""
        if keyed:
            self.keys += 1
            members["key"] = f"{self.keys:032x}"
        self.lines.append(json.dumps({"at": self.at, "do": do, **members}))
        self.wanted.append(json.dumps(wanted, sort_keys=True, separators=(",", ":")))

    def open(self, asked: Asked, standing: str = "searching") -> int:
        """Opens a search; its number."""
        self.searches.append(asked)
        number = len(self.searches)
        self.ask("open", {"budget": asked.budget(), "reply": "open", "search": number, **standing_of(standing)}, True,
                 **asked.members())
        return number

    def lease(self, search: int, stage: str, position: int) -> int:
        """Leases the run that is due; its number."""
        self.leases.append((search, position))
        run = len(self.leases)
        told = {"commit": commit(self.searches[search - 1].base + position), "deadline": self.at + LEASE, "test": "t",
                "position": position, "reply": "lease", "run": run, "search": search, "stage": stage}
        self.ask("lease", told, True, worker="w")
        return run

    def lease_none(self) -> None:
        """Asks for a run where none is due."""
        self.ask("lease", {"refused": "NoRun"}, True, worker="w")

    def report(self, run: int, verdict: str, fate: str, standing: str) -> None:
        """Reports a run, by which its search stands so."""
        self.ask("report", {"fate": fate, "reply": "report", "run": run, "search": self.leases[run - 1][0],
                            "verdict": verdict, **standing_of(standing)}, run=run, verdict=verdict)

    def confirm(self, asked: Asked) -> int:
        """Opens a search whose suspect 1 is at the bar before any run, and confirms it by a rerun on each side."""
        number = self.open(asked, "verifying 1")
        self.report(self.lease(number, "verify", 1), "fail", "counted", "verifying 1")
        self.report(self.lease(number, "verify", 0), "pass", "counted", "confirmed 1")
        return number

    def revert(self, order: Optional[tuple[int, int, int, str]], refused: Optional[Reply] = None) -> None:
        """Takes a revert: the order's number, its search, its day and that day's date, or a refusal."""
        if order is None:
            self.ask("revert", refused or {"refused": "NoRevert"}, True, agent="a")
            return
        number, search, day, date = order
        told = {"commit": commit(self.searches[search - 1].base + 1), "date": date, "day": day, "order": number,
                "reply": "revert", "search": search}
        self.ask("revert", told, True, agent="a")

    def play(self, test: unittest.TestCase, journal: str = "", name: str = "") -> None:
        """Runs the lines, and holds each reply to the one that is wanted."""
        ran = subprocess.run([PROGRAM, "run", *([journal] if journal else [])], text=True, capture_output=True,
                             input="".join(f"{line}\n" for line in self.lines), timeout=PATIENCE, check=False)
        test.assertEqual((ran.returncode, ran.stderr), (0, ""), name)
        for line, told, wanted in zip(self.lines, ran.stdout.splitlines(), self.wanted):
            test.assertEqual(told, wanted, f"{name}: {line}")
        test.assertEqual(len(ran.stdout.splitlines()), len(self.wanted), name)
