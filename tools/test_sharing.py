#!/usr/bin/env python3
"""Tests of callers that share the service's farm, each on a connection of its own: what they are answered is what the
journal has, by a reader of its bytes that knows docs/FORMATS.md alone.

    CULPRIT_FINDER=PROGRAM python3 tools/test_sharing.py [CLASS[.TEST]]
"""
from __future__ import annotations

import concurrent.futures
import os
import threading
import unittest
from typing import Any, Callable

from case_callers import Caller, Entry, Shared, entries_of, leased, payloads
from case_farm import PATIENCE, Case, Reply

CALLERS = 6
ROUNDS = 12


class Sharing(Case):
    """Callers at once on a farm that is served."""

    def begin_with(self, count: int) -> None:
        """Founds a farm, serves it, and connects so many callers."""
        self.found().close()
        self.service = Shared(self.journal)
        self.addCleanup(self.service.close)
        self.callers = [Caller(self.service, number) for number in range(1, count + 1)]
        for caller in self.callers:
            self.addCleanup(caller.close)

    def at_once(self, call: Callable[[Caller], Any]) -> list[Any]:
        """What a call gives of each caller, all at once."""
        gate = threading.Barrier(len(self.callers), timeout=PATIENCE)

        def begin(caller: Caller) -> Any:
            gate.wait()
            return call(caller)

        with concurrent.futures.ThreadPoolExecutor(len(self.callers)) as pool:
            return list(pool.map(begin, self.callers, timeout=PATIENCE))

    def history(self) -> list[Entry]:
        """What the journal records behind its founding. A page of the log gives the same before the service ends."""
        page = self.callers[0].ask(("/v1/log/1", None))[0][1]
        self.service.close()
        with open(self.journal, "rb") as file:
            records = list(payloads(file.read()))
        self.assertEqual(page, {"entries": b"".join(records).hex(), "from": 1, "reply": "log"})
        entries = [entry for payload in records for entry in entries_of(payload)]
        moments = [at for at, _ in entries]
        self.assertEqual(moments, sorted(moments), "the moments of the entries never fall")
        self.assertEqual(entries[0][1][0], "founded")
        return [what for _, what in entries[1:]]

    def work(self, caller: Caller) -> None:
        """Rounds of a caller: an open and two leases that are sent ahead, then a report, then the totals."""
        before: Reply = {}
        for number in range(ROUNDS):
            keys = [caller.key() for _ in range(3)]
            answers = caller.ask(caller.search(keys[0]), *map(caller.lease, keys[1:]))
            self.assertEqual([status for status, _ in answers], [200] * 3, answers)
            (_, opened), (_, first), (_, second) = answers
            caller.made += [("opened", keys[0], opened["search"]), leased(keys[1], first), leased(keys[2], second)]
            verdict = ("pass", "fail")[number % 2]
            (status, report), (_, totals) = caller.ask((f"/v1/runs/{first['run']}/report", {"verdict": verdict}),
                                                       ("/v1/totals", None))
            self.assertEqual((status, report["verdict"], report["run"]), (200, verdict, first["run"]))
            caller.made.append(("reported", first["run"], verdict, report["fate"]))
            self.assertGreater(totals["entries"], len(caller.made), "what was answered is among the totals")
            for name in ("entries", "searches", "counted"):
                self.assertGreaterEqual(totals[name], before.get(name, 0), name)
            before = totals

    def test_each_answer_has_one_entry_in_the_order_of_its_connection(self) -> None:
        self.begin_with(CALLERS)
        self.at_once(self.work)
        history = self.history()
        self.assertEqual(len(history), 4 * ROUNDS * CALLERS)
        maker = {entry[2]: int(entry[1][:16], 16) for entry in history if entry[0] == "leased"}
        for caller in self.callers:
            theirs = [it for it in history
                      if (maker[it[1]] if it[0] == "reported" else int(it[1][:16], 16)) == caller.number]
            self.assertEqual(theirs, caller.made)
        for kind in ("opened", "leased"):
            numbers = [it[2] for it in history if it[0] == kind]
            self.assertEqual(numbers, list(range(1, len(numbers) + 1)), f"{kind}: numbered from 1 in their order")

    def test_totals_never_fall_beside_callers_and_end_at_the_last_entry(self) -> None:
        self.begin_with(CALLERS)
        reader, ended, seen = Caller(self.service, 0), threading.Event(), []
        self.addCleanup(reader.close)

        def look() -> None:
            while not ended.is_set():
                seen.append(reader.ask(("/v1/totals", None))[0][1])

        thread = threading.Thread(target=look)
        thread.start()
        try:
            self.at_once(self.work)
        finally:
            ended.set()
            thread.join()
        seen.append(reader.ask(("/v1/totals", None))[0][1])
        for before, after in zip(seen, seen[1:]):
            for name in ("entries", "searches", "counted", "orders"):
                self.assertLessEqual(before[name], after[name], name)
        self.assertEqual({**seen[-1], "reply": "farm"}, reader.ask(("/v1/farm", None))[0][1])
        self.assertEqual(seen[-1]["entries"], 1 + 4 * ROUNDS * CALLERS)
        self.assertEqual(seen[-1]["searches"], ROUNDS * CALLERS)

    def test_a_key_that_all_send_at_once_is_one_entry_and_one_answer(self) -> None:
        self.begin_with(CALLERS)
        opened, key = f"{1:032x}", f"{2:032x}"
        answers = self.at_once(lambda caller: caller.ask(caller.search(opened), caller.lease(key), caller.lease(key)))
        self.assertEqual([answer for answer in answers if answer != answers[0]], [])
        (status, search), (also, lease), again = answers[0]
        self.assertEqual((status, also, again), (200, 200, (200, lease)))
        self.assertEqual(self.history(), [("opened", opened, search["search"]), leased(key, lease)])

    def test_a_journal_that_is_away_for_a_while_loses_nobody_an_entry(self) -> None:
        self.begin_with(CALLERS)
        self.assertEqual(self.callers[0].ask(self.callers[0].search(f"{0:032x}"))[0][0], 200)
        self.at_once(lambda caller: caller.ask(caller.search(f"{caller.number:016x}{1:016x}")))
        os.rename(self.journal, self.journal + ".away")
        keys = {caller.number: f"{caller.number:016x}{2:016x}" for caller in self.callers}
        lost = self.at_once(lambda caller: caller.ask(caller.lease(keys[caller.number]), ("/v1/totals", None)))
        for (status, refusal), (also, totals) in lost:
            self.assertEqual((status, refusal), (503, {"refused": "StoreFault"}))
            self.assertEqual((also, totals["entries"]), (200, 2 + CALLERS))
        os.rename(self.journal + ".away", self.journal)
        kept = self.at_once(lambda caller: caller.ask(*[caller.lease(keys[caller.number])] * 2))
        self.assertEqual([[status for status, _ in answers] for answers in kept], [[200, 200]] * CALLERS)
        self.assertEqual([first for first, _ in kept], [again for _, again in kept])
        leases = sorted(leased(keys[caller.number], answers[0][1]) for caller, answers in zip(self.callers, kept))
        history = self.history()
        self.assertEqual([it[0] for it in history], ["opened"] * (1 + CALLERS) + ["leased"] * CALLERS)
        self.assertEqual(sorted(history[1 + CALLERS:]), leases)


if __name__ == "__main__":
    unittest.main()
