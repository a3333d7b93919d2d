#!/usr/bin/env python3
"""Tests of the program's rules by worked rows: plans, skipped positions, reruns, orders and days.

    CULPRIT_FINDER=PROGRAM python3 tools/test_rules.py [CLASS[.TEST]]

What is wanted was worked out by hand from docs/DEFINITIONS.md. A play of one search is told by words:

    l2  v2     a run is due at position 2, to find the culprit or to verify it
    -          none is due
    f2 p2 s2   the oldest run at position 2 that has no report failed, passed, or can't be tested; it counts
    f2~        the same, and it is late
    =STANDING  by the report before it the search stands so, as `=verifying_3`
    +60        so many seconds pass; a lease lasts 60
"""
from __future__ import annotations

import json
import os
import pathlib
import re
import subprocess
import tempfile
import unittest

from case_farm import PATIENCE, PROGRAM, commit
from case_script import DAY, LEASE, Asked, Script

LAST = 47_482 * DAY  # the last moment that there is, at which 2100-01-01 begins in UTC
VERDICTS = {"f": "fail", "p": "pass", "s": "skip"}
EVEN = "1,1,1,1 1 1/10 9/10"  # four suspects and "no culprit", each of weight 1
HIGH = "1,1,1,1 1 1/10 19/20"  # the same with a higher bar
ALL = "l1 l1 l2 l2 l3 l3 l4 l4"  # the plan of width 8 of either one
TWO = "1,1 1 1/10 9/10"
NAMED = "1,1,65535 1 1/10 9/10"  # suspect 3 is named before any run
FIRST = "65535,1 1 1/10 9/10"  # and here suspect 1
KEYS = 300_000  # how many keys count up
# 120 suspects of weight 1, and "no culprit" with 60: each run with suspect 87 in fails, and each other passes
MANY = "1*120 60 1/100 9999/10000"


def asked_of(text: str) -> Asked:
    """The search that a text asks for: its weights, calm weight, flake rate and bar, and then its width and reruns."""
    weights, calm, rate, bar, *rest = text.split()
    numbers = [int(weight) for it in weights.split(",") for weight, _, times in [it.partition("*")]
               for _ in range(int(times or 1))]
    (a, b), (t, u) = (map(int, it.split("/")) for it in (rate, bar))
    width, reruns = map(int, rest or (1, 1))
    return Asked(numbers, int(calm), (a, b), (t, u), width, reruns)


class Told:
    """A play of one search, told by words."""

    def __init__(self, asked: str, words: str) -> None:
        self.script, self.standing, self.left = Script(), "searching", words.split()
        self.out: list[tuple[int, int]] = []  # the runs without a report, and their positions
        self.script.open(asked_of(asked), self.next_standing())
        while self.left:
            self.tell(self.left.pop(0))

    def next_standing(self) -> str:
        """The standing, which the next word may change."""
        if self.left and self.left[0][0] == "=":
            self.standing = self.left.pop(0)[1:].replace("_", " ")
        return self.standing

    def tell(self, word: str) -> None:
        """Adds the line of a word."""
        match = re.fullmatch(r"([lvfps])([0-9]+)(~?)", word)
        if match is None:
            if word == "-":
                self.script.lease_none()
            else:
                self.script.at += 1_000 * int(word)
            return
        kind, position = match[1], int(match[2])
        if kind in "lv":
            self.out.append((self.script.lease(1, "search" if kind == "l" else "verify", position), position))
            return
        run = next(it for it in self.out if it[1] == position)
        self.out.remove(run)
        fate = "late" if match[3] else "skipped" if kind == "s" else "counted"
        self.script.report(run[0], VERDICTS[kind], fate, self.next_standing())


class Rows(unittest.TestCase):
    """Plays of one search."""

    def hold(self, *rows: tuple[str, str, str]) -> None:
        """Makes plays, each told by what it shows, the search and the words."""
        for shows, asked, words in rows:
            with self.subTest(shows):
                Told(asked, words).script.play(self, name=shows)


class Plans(Rows):
    """Which positions are leased."""

    def test_plans(self) -> None:
        self.hold(
            ("half of the whole is as far from 2 as from 3", EVEN, "l2 -"),
            ("the plan of width 3", f"{EVEN} 3 1", "l1 l2 l4 -"),
            ("after a fail at 2, and then a pass at 2", f"{EVEN} 3 1", "l1 l2 l4 f2 +60 l1 l1 l2 - p2 +60 l3 l3 l4 -"),
            ("ties of the first two and of the last two", "1,1,1,1,1 1 1/10 9/10 3 1", "l1 l3 l4 -"),
            ("one suspect", "1 1 1/10 9/10", "l1 -"),
            ("more runs than suspects", f"{TWO} 8 1", "l1 l1 l1 l1 l2 l2 l2 l2 -"),
            ("no suspect's sum reaches any threshold", "1,1 998 1/10 9999/10000 3 1", "l2 l2 l2 -"))

    def test_a_long_search(self) -> None:
        self.hold(("rounds of four runs, of which the first three are reported", f"{MANY} 4 1",
                   "l36 l72 l108 l120 - p36 p72 f108 +60 l79 l87 l94 l101 - p79 f87 f94 +60 l81 l82 l84 l85 - "
                   "p81 p82 p84 +60 l85 l85 l86 l86 - p85 p85 p86 +60 l87 l87 l87 l87 - f87 f87 =verifying_87 v87 v86"))

    def test_runs_that_are_out(self) -> None:
        self.hold(
            ("a run is out until its deadline", EVEN, "l2 +59 - +1 l2 -"),
            ("runs that expired strike nothing", f"{TWO} 8 1", "l1 l1 l1 l1 +30 l2 l2 l2 l2 - +30 l1 l1 l1 l1 -"),
            ("each run strikes one entry of the plan", f"{TWO} 8 1",
             "l1 +30 l1 l1 l1 l2 l2 l2 +30 l1 l2 - +30 l1 l1 l1 l2 l2 l2 -"),
            ("the first entry that is left is due", f"{EVEN} 3 1", "l1 +30 l2 l4 - +30 l1 - +30 l2 l4 -"),
            ("a run at a position that the plan no longer has takes up room, and strikes nothing", f"{EVEN} 3 1",
             "l1 l2 l4 p1 l3 - p2 l3 - f3 l3 -"),
            ("it may take up all room there is", EVEN, "l2 +60 l2 p2 - +60 l3 -"),
            ("of two runs at a position of which the plan has one entry, the second strikes nothing",
             "1*6 1 1/10 19/20 4 1", "l1 l3 l4 f4 l2 l3 p1 l2 -"))  # the plan is 2 2 3 4, and 3 2 3 are out


class Skipped(Rows):
    """Positions whose tree can't be tested."""

    def test_plans_over_open_positions(self) -> None:
        self.hold(
            ("the nearest of the others, the smaller one on a tie, until none is left", EVEN,
             "l2 s2 l3 s3 l1 s1 l4 s4 =inconclusive -"),
            ("above a floor", EVEN, "l2 s2 l3 p3 l4 s4 =inconclusive -"),
            ("the plan of width 3", f"{EVEN} 3 1", "l1 l2 l4 s2 +60 l1 l3 l4 -"),
            ("after a fail at 3, and then a pass at 1", HIGH, "l2 s2 l3 f3 l1 p1 l3 -"),
            ("one up to the floor and one skipped twice change nothing", f"{HIGH} 8 1",
             f"{ALL} +60 {ALL} - f3 s3 s3 s1 p1 +60 l2 l2 l2 l2 l2 l2 l4 l4 -"),
            ("ten suspects, of which two near the middle are skipped", "1,1,2,4,8,16,32,64,128,256 1 1/10 9/10 8 1",
             "l7 l8 l8 l9 l9 l9 l10 l10 - s8 s9 +60 l7 l7 l7 l7 l7 l10 l10 l10 -"))

    def test_hidden_hypotheses(self) -> None:
        self.hold(
            ("2 is skipped: 2 and 3 have 20 of 22, above 9/10", EVEN, "l2 s2 l3 f3 l1 p1 =inconclusive -"),
            ("they are below 19/20, and then have 200 of 202", HIGH, "l2 s2 l3 f3 l1 p1 l3 f3 =inconclusive -"),
            ("nothing is skipped", f"{EVEN} 3 1", "l1 l2 l4 p1 l3 f3 l2 -"),
            ("1 is skipped: 1 and 2 have 20 of 32; then 3: 3 and 4 have 11", f"{EVEN} 8 1",
             f"{ALL} s1 f3 s3 +60 l2 l2 l2 l2 l2 l2 l2 l4 -"),
            ("2 and 1 are skipped: 1 to 3 have 30 of 32", f"{EVEN} 8 1", f"{ALL} s2 s1 f3 =inconclusive -"),
            ("one suspect", "1 1 1/10 9/10", "l1 s1 =inconclusive -"))


class Reruns(Rows):
    """The verification of a suspect."""

    def test_reruns_that_are_due(self) -> None:
        self.hold(
            ("the culprit before its parent, one of each", NAMED, "=verifying_3 v3 v2 -"),
            ("the side whose run expired", NAMED, "=verifying_3 v3 +30 v2 +30 v3 - +30 v2 -"),
            ("two of each", f"{NAMED} 1 2", "=verifying_3 v3 f3 v3 v2 p2 v2 -"),
            ("the culprit's side where the other has all its reruns", f"{NAMED} 1 2",
             "=verifying_3 v3 +30 v3 v2 v2 p2 p2 - +30 v3 -"),
            ("the other way round", f"{NAMED} 1 2", "=verifying_3 v3 v3 v2 v2 f3 f3 p2 +60 v2 -"),
            ("runs that are out to find the culprit take up no room, and are late", f"{EVEN} 3 1",
             "l1 l2 l4 f2 l1 p1 l2 f2 =verifying_2 v2 v1 - f4~ p1~ p1 f2 =confirmed_2 -"),
            ("the parent of the first suspect is the base", FIRST, "=verifying_1 v1 f1 v0 -"))

    def test_outcomes(self) -> None:
        self.hold(
            ("once a side has its rerun the next is late, though it would speak against the culprit", NAMED,
             "=verifying_3 v3 v2 +60 v3 v2 +60 v3 v2 - f3 p3~ f3~ p2 =confirmed_3 f2~ p2~ -"),
            ("the parent's side first", NAMED, "=verifying_3 v3 v2 +60 v3 v2 p2 p2~ f3 =confirmed_3 p3~ -"),
            ("the reruns of the culprit's side alone confirm nothing", f"{NAMED} 1 2", "=verifying_3 v3 f3 v3 f3 v2"),
            ("those of its parent's side neither", f"{NAMED} 1 2", "=verifying_3 v3 v3 v2 v2 p2 p2 -"),
            ("one pass at the culprit vindicates it", f"{NAMED} 1 3",
             "=verifying_3 v3 v3 v3 v2 f3 p3 =vindicated_3 f3~ p2~ -"),
            ("so does a fail at its parent, which may be the last rerun of its side", f"{NAMED} 1 2",
             "=verifying_3 v3 v3 v2 v2 +60 v3 v3 v2 v2 p2 f3 f2 =vindicated_3 p2~ p3~ -"),
            ("or the last of all", NAMED, "=verifying_3 v3 v2 f3 f2 =vindicated_3 -"),
            ("or the first", NAMED, "=verifying_3 v3 v2 f2 =vindicated_3 f3~ -"),
            ("eight on each side", f"{FIRST} 1 8", "=verifying_1 " + "v1 " * 8 + "v0 " * 8 + "- +60 v1 "
             + "f1 p0 " * 7 + "f1 p0 =confirmed_1 p1~ -"))

    def test_reruns_that_cannot_be_made(self) -> None:
        self.hold(
            ("a side lacks reruns at a skipped position", NAMED, "=verifying_3 v3 v2 f3 s2 =inconclusive -"),
            ("the culprit's side", NAMED, "=verifying_3 v3 s3 =inconclusive -"),
            ("the side has its reruns already", NAMED, "=verifying_3 v3 v2 +60 v3 v2 f3 s3 p2 =confirmed_3 s2~ -"))


def named(base: int) -> Asked:
    """A search whose suspect, the commit behind a base, is at the bar before any run."""
    return Asked([65_535], base=base)


class Orders(unittest.TestCase):
    """Which commit is reverted next, and on which day."""

    def setUp(self) -> None:
        folder = tempfile.TemporaryDirectory(prefix="a farm ")
        self.addCleanup(folder.cleanup)
        self.journal = os.path.join(folder.name, "farm.journal")

    def found(self, daily: int, zone: int) -> None:
        """Writes the journal of a farm that was founded at 1970-01-02, with days of a zone in minutes east of UTC."""
        entry = DAY.to_bytes(8, "big") + b"\x01" + LEASE.to_bytes(4, "big")
        entry += daily.to_bytes(2, "big") + (zone + 720).to_bytes(2, "big")
        record = b"\x01" + len(entry).to_bytes(4, "big") + entry + b"\x00"
        pathlib.Path(self.journal).write_bytes(b"\x01CulpritFinder 2" + record)

    def test_the_smallest_search_comes_first(self) -> None:
        script = Script()
        numbers = [script.open(named(base), "verifying 1") for base in (90, 40, 70)]
        failed = [script.lease(number, "verify", 1) for number in numbers]
        passed = [script.lease(number, "verify", 0) for number in numbers]
        script.revert(None)
        for at in (2, 0):
            script.report(failed[at], "fail", "counted", "verifying 1")
            script.report(passed[at], "pass", "counted", "confirmed 1")
        script.revert((1, 1, 1, "1970-01-02"))
        script.revert((2, 3, 1, "1970-01-02"))
        script.revert(None)
        script.report(failed[1], "fail", "counted", "verifying 1")
        script.report(passed[1], "pass", "counted", "confirmed 1")
        script.revert((3, 2, 1, "1970-01-02"))
        script.revert(None)
        script.play(self)

    def test_a_commit_is_ordered_once(self) -> None:
        script = Script()
        script.confirm(named(10))
        script.revert((1, 1, 1, "1970-01-02"))
        script.confirm(named(10))
        script.revert(None)
        script.confirm(named(11))
        script.revert((2, 3, 1, "1970-01-02"))
        script.play(self)

    def test_two_hundred_orders(self) -> None:
        script = Script()
        for number in range(1, 201):
            script.at = DAY * (1 + number // 10)
            day = f"1970-01-{number // 10 + 2:02}"
            script.confirm(named(number))
            script.revert((number, number, 1 + number // 10, day))
        for number in range(200, 0, -1):
            script.confirm(named(number))
        script.revert(None)
        script.confirm(named(201))
        script.revert((201, 401, 21, "1970-01-22"))
        script.confirm(named(0))
        script.revert((202, 402, 21, "1970-01-22"))
        script.play(self)

    def test_no_order_a_day(self) -> None:
        self.found(0, 0)
        script = Script(20 * DAY)
        script.revert(None)  # that there is none comes before the limit
        script.confirm(named(10))
        script.revert(None, {"count": 0, "day": 20, "refused": "DailyLimit"})
        script.play(self, self.journal)

    def test_each_day_has_its_limit(self) -> None:
        self.found(2, 60)
        script = Script(21 * DAY - 3_600_001)  # the last moment of day 20, by a zone one hour east
        for base in (10, 20, 30):
            script.confirm(named(base))
        script.revert((1, 1, 20, "1970-01-21"))
        script.revert((2, 2, 20, "1970-01-21"))
        script.revert(None, {"count": 2, "day": 20, "refused": "DailyLimit"})
        script.at += 1
        script.revert((3, 3, 21, "1970-01-22"))
        script.revert(None)
        script.confirm(named(40))
        script.revert((4, 4, 21, "1970-01-22"))
        script.confirm(named(50))
        script.at = 20 * DAY  # moments never fall
        script.revert(None, {"count": 2, "day": 21, "refused": "DailyLimit"})
        script.play(self, self.journal)

    def test_orders_that_were_carried_over(self) -> None:
        lines = f"{commit(11)} 47482\n{commit(12)} 47482\nclosed 2\n"
        subprocess.run([PROGRAM, "inherit", self.journal, "60000", "3", "east:0"], input=lines, text=True, check=True,
                       capture_output=True, timeout=PATIENCE)
        script = Script(LAST)
        script.confirm(named(10))
        script.confirm(named(11))
        script.revert(None)
        script.confirm(named(12))
        script.revert((1, 3, 47_482, "2100-01-01"))
        script.confirm(named(13))
        script.revert(None, {"count": 3, "day": 47_482, "refused": "DailyLimit"})
        script.ask("orders", {"orders": [{"agent": "a", "commit": commit(13), "date": "2100-01-01", "order": 1,
                                          "search": 3}], "reply": "orders"})
        script.play(self, self.journal)

    def hold_days(self, zone: int, *rows: tuple[int, int, str]) -> None:
        """Takes an order at each moment, which is of a day with a date by the zone."""
        self.found(1_000, zone)
        script = Script()
        for number, (script.at, day, date) in enumerate(rows, 1):
            script.confirm(named(10 * number))
            script.revert((number, number, day, date))
        script.play(self, self.journal, str(zone))

    def test_dates(self) -> None:
        dates = ((1, "1970-01-02"), (10_956, "1999-12-31"), (10_957, "2000-01-01"), (11_016, "2000-02-29"),
                 (11_017, "2000-03-01"), (19_782, "2024-02-29"), (47_481, "2099-12-31"), (47_482, "2100-01-01"))
        self.hold_days(0, *((day * DAY, day, date) for day, date in dates))

    def test_a_day_ends_at_local_midnight(self) -> None:
        leap = 951_782_400_000  # 2000-02-29, which is day 11016, begins in UTC
        self.hold_days(0, (leap - 1, 11_015, "2000-02-28"), (leap, 11_016, "2000-02-29"),
                       (LAST - 1, 47_481, "2099-12-31"), (LAST, 47_482, "2100-01-01"))
        self.hold_days(-1, (DAY, 0, "1970-01-01"), (LAST, 47_481, "2099-12-31"))
        self.hold_days(-720, (DAY, 0, "1970-01-01"), (129_599_999, 0, "1970-01-01"), (129_600_000, 1, "1970-01-02"),
                       (951_825_599_999, 11_015, "2000-02-28"), (951_825_600_000, 11_016, "2000-02-29"))
        self.hold_days(840, (DAY, 1, "1970-01-02"), (122_399_999, 1, "1970-01-02"), (122_400_000, 2, "1970-01-03"),
                       (951_731_999_999, 11_015, "2000-02-28"), (951_732_000_000, 11_016, "2000-02-29"),
                       (LAST, 47_482, "2100-01-01"))
        self.hold_days(60, (951_778_799_999, 11_015, "2000-02-28"), (951_778_800_000, 11_016, "2000-02-29"))


class Many(unittest.TestCase):
    """Farms at the ends of their limits."""

    def test_a_thousand_suspects(self) -> None:
        script = Script()
        script.open(Asked([1] * 1_000, calm=1_000_000, bar=(9_999, 10_000), width=8))
        for _ in range(8):  # the sums rise to 1,000 of 1,001,000, below all thresholds
            script.lease(1, "search", 1_000)
        script.lease_none()
        asked = Asked([0] * 1_001, calm=0)
        script.ask("open", {"cause": "TooManySuspects", "refused": "BadOpen", "value": [1_001]}, True,
                   **asked.members())
        script.play(self)

    def test_two_thousand_searches(self) -> None:
        script = Script()
        for base in range(2_000):
            script.open(named(base), "verifying 1")
        script.ask("open", {"refused": "TooManySearches"}, True, **named(0).members())
        script.play(self)

    def test_keys_that_count_up(self) -> None:
        # Were they in one bucket, this would compare some 10^11 keys. A lease is made when the one before has expired.
        asked = json.dumps({"at": DAY, "do": "open", "key": "f" * 32, **Asked([1]).members()})
        opened = '{"budget":34,"reply":"open","search":1,"standing":"searching"}\n'
        replies = (opened + "".join(
            f'{{"commit":"{commit(1)}","deadline":{DAY + LEASE * run},"position":1,"reply":"lease","run":{run},'
            '"search":1,"stage":"search","test":"t"}\n' for run in range(1, KEYS + 1))).splitlines()
        for step in (1, 1 << 64, (1 << 64) + 1):
            lines = [f'{{"at":{DAY + LEASE * number},"do":"lease","key":"{step * number:032x}","worker":"w"}}\n'
                     for number in range(KEYS)]
            ran = subprocess.run([PROGRAM, "run"], input="".join([asked + "\n", *lines, *lines[:1_000]]), text=True,
                                 stdout=subprocess.PIPE, timeout=5 * PATIENCE, check=False)
            self.assertTrue(ran.stdout.splitlines() == replies + replies[1:1_001], f"multiples of {step}")


if __name__ == "__main__":
    unittest.main()
