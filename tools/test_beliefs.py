#!/usr/bin/env python3
"""Tests of the program beside a model of its own: what `judge` and `run` say of random searches.

    CULPRIT_FINDER=PROGRAM python3 tools/test_beliefs.py [CLASS[.TEST]]

The model is written from docs/DEFINITIONS.md: Bayes' rule over all runs, the plan by comparing all positions, and
a farm as a list of searches and one of leases.
"""
from __future__ import annotations

import itertools
import random
import subprocess
import unittest
from typing import Optional

from case_farm import PATIENCE, PROGRAM, commit
from case_script import LEASE, Asked, Reply, Script, standing_of

JUDGED, PLAYED = 80, 40  # how many random searches are judged, and how many random farms are played


class Belief:
    """A search by the runs that counted. Weights are priors times the probability of each run, over one denominator."""

    def __init__(self, asked: Asked) -> None:
        self.asked, self.n, self.budget = asked, len(asked.weights), asked.budget()
        self.weights = [*asked.weights, asked.calm]
        self.total = sum(self.weights)
        self.runs: list[tuple[int, bool]] = []  # the position, and whether it failed

    def note(self, position: int, failed: bool) -> None:
        """Counts a run: a tree with the culprit passes with probability c/d, one without it fails with a/b."""
        (a, b), (c, d) = self.asked.rate, self.asked.miss
        self.runs.append((position, failed))
        for i in range(1, self.n + 2):
            fails = (d - c) * b if i <= position else a * d
            self.weights[i - 1] *= fails if failed else b * d - fails
        self.total = sum(self.weights)

    def floor(self, runs: list[tuple[int, bool]]) -> int:
        """The suspects up to it are cleared."""
        return 0 if self.asked.miss[0] else max((k for k, failed in runs if not failed), default=0)

    def is_past_budget(self, position: int, failed: bool) -> bool:
        """Whether a run more would take the load above the budget."""
        runs = [*self.runs, (position, failed)]
        floor = self.floor(runs)
        return sum(bool(self.asked.miss[0]) or fails and k > floor for k, fails in runs) > self.budget

    def is_at_bar(self, first: int, last: int) -> bool:
        """Whether hypotheses `first` to `last` are at the bar together."""
        t, u = self.asked.bar
        return sum(self.weights[first - 1:last]) * u >= self.total * t

    def shares(self) -> list[int]:
        """The share of each hypothesis in basis points, rounded down."""
        return [it * 10_000 // self.total for it in self.weights]

    def at_bar(self) -> Optional[int]:
        """The hypothesis at the bar."""
        return next((i for i in range(1, self.n + 2) if self.is_at_bar(i, i)), None)

    def is_hidden(self, skipped: set[int]) -> bool:
        """Whether hypotheses that skipped positions alone part are at the bar together."""
        pairs = ((i, j) for i in range(1, self.n + 2) for j in range(i + 1, self.n + 2))
        return any(set(range(i, j)) <= skipped and self.is_at_bar(i, j) for i, j in pairs)

    def plan(self, skipped: set[int]) -> list[int]:
        """Where to run next, over the positions that weren't skipped: the nearest to each threshold."""
        places = [k for k in range(self.floor(self.runs) + 1, self.n + 1) if k not in skipped]
        upto, more = list(itertools.accumulate(self.weights)), self.asked.width + 1
        return [min(places, key=lambda k: (abs(upto[k - 1] * more - j * upto[-1]), k))
                for j in range(1, more) if places]


def random_asked(dice: random.Random, suspects: int) -> Asked:
    """A search by numbers within the limits."""
    b = dice.choice([3, 10, 20, 100, 1_000])
    a = dice.randint(1, max(1, b // dice.choice([2, 5, 10])))
    miss = dice.choice([(0, 1), (0, 1), (1, 10), (18, 100)])
    if miss[0] * b + a * miss[1] >= b * miss[1]:  # a broken test has to fail more often than a sound one
        miss = (0, 1)
    top = dice.choice([1, 9, 65_535])
    bar = dice.choice([(51, 100), (2, 3), (9, 10), (9_999, 10_000)])
    weights = [dice.randint(1, top) for _ in range(dice.randint(1, suspects))]
    calm = dice.choice([1, 1, 2, 5, top, 1_000_000])
    return Asked(weights, calm, (a, b), bar, dice.randint(1, 8), dice.randint(1, 3), miss)


def random_run(dice: random.Random, culprit: int, position: int) -> bool:
    """Whether a run fails where a suspect is the culprit and one run in eight says the contrary."""
    return (culprit <= position) != (dice.random() < 0.125)


class Judged(unittest.TestCase):
    """`judge` beside the model."""

    def hold(self, seed: int) -> None:
        """Judges a random search."""
        dice = random.Random(seed)
        asked = random_asked(dice, 30)
        belief, culprit, greatest, over = Belief(asked), dice.randint(1, len(asked.weights) + 1), 0, False
        lines = [f"miss {asked.miss[0]} {asked.miss[1]}"] if asked.miss[0] or dice.random() < 0.5 else []
        lines.append("search " + " ".join(map(str, (*asked.rate, *asked.bar, asked.calm, *asked.weights))))
        wanted = [f"budget {belief.budget}"]
        for _ in range(dice.choice([3, 20, 80])):
            number = dice.randint(max(1, greatest - 1), greatest + 1)
            position = dice.randint(1, belief.n)
            failed = random_run(dice, culprit, position)
            lines.append(f"run {number} {position} {'fail' if failed else 'pass'}")
            fate = "repeat" if number <= greatest else "late" if over or belief.at_bar() else "counted"
            if fate == "counted" and belief.is_past_budget(position, failed):
                fate, over = "over", True
            if fate == "counted":
                belief.note(position, failed)
            greatest = max(greatest, number)
            wanted.append(f"run {number} {fate}")
        named = belief.at_bar()
        standing = "inconclusive" if over else "searching" if named is None else f"named {named}"
        if not over and named == belief.n + 1:
            standing = "no culprit"
        wanted += ["shares " + " ".join(map(str, belief.shares())), f"standing {standing}"]
        ran = subprocess.run([PROGRAM, "judge"], input="\n".join(lines), text=True, capture_output=True,
                             timeout=PATIENCE, check=False)
        self.assertEqual(ran.stdout.splitlines(), wanted, "\n".join(lines))
        self.assertEqual(ran.returncode, 0)

    def test_searches(self) -> None:
        for seed in range(JUDGED):
            with self.subTest(seed=seed):
                self.hold(seed)


class Search:
    """A search of a farm, by all that was reported of it."""

    def __init__(self, number: int, asked: Asked, culprit: int) -> None:
        self.number, self.asked, self.culprit, self.belief = number, asked, culprit, Belief(asked)
        self.reruns: list[tuple[int, bool]] = []
        self.skipped: set[int] = set()
        self.over = self.cancelled = False
        self.last_lease = self.leased = 0

    def count(self, position: int, *verdicts: bool) -> int:
        """How many reruns at a position failed, or passed, or either."""
        return sum(run in [(position, it) for it in verdicts] for run in self.reruns)

    def standing(self) -> str:
        """Where it stands."""
        if self.cancelled or self.over:
            return "cancelled" if self.cancelled else "inconclusive"
        named = self.belief.at_bar()
        if named is None:
            return "inconclusive" if self.belief.is_hidden(self.skipped) else "searching"
        if named == self.belief.n + 1:
            return "no culprit"
        if self.count(named, False) or self.count(named - 1, True):
            return f"vindicated {named}"
        lacking = [k for k, failed in ((named, True), (named - 1, False)) if self.count(k, failed) < self.asked.reruns]
        if not lacking:
            return f"confirmed {named}"
        return "inconclusive" if self.skipped & set(lacking) else f"verifying {named}"

    def stage(self) -> str:
        """The stage at which it stands, or nothing where it has ended."""
        return {"searching": "search", "verifying": "verify"}.get(self.standing().partition(" ")[0], "")

    def due(self, out: list[int]) -> Optional[int]:
        """The position that is due where runs at these ones are out."""
        if self.stage() == "verify":
            named = self.belief.at_bar() or 0
            return next((k for k in (named, named - 1)
                         if self.count(k, True, False) + out.count(k) < self.asked.reruns), None)
        if self.stage() == "":
            return None
        plan = self.belief.plan(self.skipped)
        room = len(out) < len(plan)
        for position in out:
            if position in plan:
                plan.remove(position)
        return plan[0] if room else None

    def take(self, stage: str, position: int, verdict: str) -> str:
        """Takes the report of a run; its fate."""
        failed = verdict == "fail"
        if stage != self.stage():
            return "late"
        if verdict == "skip":
            self.skipped.add(position)
            return "skipped"
        if stage == "verify":
            if self.count(position, True, False) >= self.asked.reruns:
                return "late"
            self.reruns.append((position, failed))
        elif self.belief.is_past_budget(position, failed):
            self.over = True
            return "over"
        else:
            self.belief.note(position, failed)
        return "counted"

    def page(self) -> Reply:
        """Its page."""
        standing, named = self.standing(), self.belief.at_bar()
        page: Reply = {"budget": self.belief.budget, "counted": len(self.belief.runs), "leases": self.leased,
                       "reply": "search", "search": self.number, "shares": self.belief.shares(), "test": "t",
                       "verified": len(self.reruns), **standing_of(standing)}
        if "culprit" in page:
            page["commit"] = commit(self.asked.base + (named or 0))
        if self.skipped:
            page["untestable"] = sorted(self.skipped)
        return page


class Play:
    """A random play of a farm, with what the model says of each line."""

    def __init__(self, seed: int) -> None:
        self.dice, self.script = random.Random(seed), Script()
        self.searches: list[Search] = []
        self.runs: list[tuple[Search, str, int, int]] = []  # the search, the stage, the position and the deadline
        self.told: set[int] = set()  # the runs that have a report

    def open(self) -> None:
        """Opens a search."""
        asked = random_asked(self.dice, 8)
        asked.base = 100 * len(self.searches)
        search = Search(len(self.searches) + 1, asked, self.dice.randint(1, len(asked.weights) + 1))
        self.searches.append(search)
        self.script.open(asked, search.standing())

    def lease(self) -> None:
        """Leases the run that is due of the search whose last lease stands earliest."""
        for search in sorted(self.searches, key=lambda it: (it.last_lease, it.number)):
            stage = search.stage()
            out = [position for run, (other, its, position, deadline) in enumerate(self.runs, 1)
                   if other is search and its == stage and run not in self.told and deadline > self.script.at]
            position = search.due(out)
            if position is not None:
                self.runs.append((search, stage, position, self.script.at + LEASE))
                search.last_lease = self.script.lease(search.number, stage, position)
                search.leased += 1
                return
        self.script.lease_none()

    def report(self) -> None:
        """Reports a run that has no report."""
        left = [run for run in range(1, len(self.runs) + 1) if run not in self.told]
        if left:
            run = self.dice.choice(left)
            search, stage, position, _ = self.runs[run - 1]
            verdict = "fail" if random_run(self.dice, search.culprit, position) else "pass"
            verdict = "skip" if self.dice.random() < 0.15 else verdict
            self.told.add(run)
            fate = search.take(stage, position, verdict)
            self.script.report(run, verdict, fate, search.standing())

    def cancel(self) -> None:
        """Cancels a search."""
        search = self.dice.choice(self.searches)
        standing = search.standing()
        if search.stage():
            search.cancelled = True
            self.script.ask("cancel", {"reply": "cancel", "search": search.number, "standing": "cancelled"}, True,
                            search=search.number)
        else:
            self.script.ask("cancel", {"refused": "SearchEnded", **standing_of(standing)}, True, search=search.number)

    def repeat(self) -> None:
        """Sends a line again that has a key or reports a run: it has its first reply again."""
        at = self.dice.randrange(len(self.script.lines))
        if "refused" not in self.script.wanted[at] and '"reply":"search"' not in self.script.wanted[at]:
            self.script.lines.append(self.script.lines[at])
            self.script.wanted.append(self.script.wanted[at])

    def page(self) -> None:
        """Looks at a search."""
        search = self.dice.choice(self.searches)
        self.script.ask("search", search.page(), search=search.number)

    def make(self, steps: int) -> Script:
        """The play."""
        self.open()
        deeds = [self.lease] * 9 + [self.report] * 8 + [self.page] * 2 + [self.repeat, self.open]
        for _ in range(steps):
            self.script.at += self.dice.choice([0, 0, 1_000, 20_000, LEASE])
            (self.cancel if self.dice.random() < 0.01 else self.dice.choice(deeds))()
        for search in self.searches:
            self.script.ask("search", search.page(), search=search.number)
        return self.script


class Played(unittest.TestCase):
    """`run` beside the model: runs that are due, fates, standings and shares of farms with several searches."""

    def test_farms(self) -> None:
        told = ""
        for seed in range(PLAYED):
            script = Play(seed).make(150)
            script.play(self, name=f"seed {seed}")
            told += "".join(script.wanted)
        for text in ("counted", "late", "over", "skipped", "confirmed", "vindicated", "no culprit", "untestable"):
            self.assertIn(f'"{text}"', told)  # the plays come to each of these


if __name__ == "__main__":
    unittest.main()
