#!/usr/bin/env python3
"""Tests of callers whose entries share records of the journal, on a disk that fails by a plan: each is answered as it
should be, so many are told of a fault, and the journal has each entry once.

    CULPRIT_FINDER=PROGRAM python3 tools/test_shared_records.py [CLASS[.TEST]]

A caller's batch is three requests that are sent in one piece: two searches that are opened, and the first again. That
records come to be shared is arranged by events: a call on the file is held until all other handlers are asleep, each
with a batch that waits for its turn. By docs/FORMATS.md a record is written behind the closed gate and synced, and then
the byte that opens its gate is written and synced: two writes and two syncs.
"""
from __future__ import annotations

import dataclasses
import errno
import os
import signal
import subprocess
import unittest
from typing import Sequence

import case_faults
from case_callers import Ask, Caller, Entry, entries_of, leased, payloads
from case_farm import PATIENCE, PROGRAM, Case, Service, commit, own_port
from case_faults import Fault, Traced

BATCHES = 16  # how many each caller asks where its whole history is looked at
SEARCHES = 2  # how many a batch opens
FUTEX = 202  # the call of the system in which a thread sleeps that waits for another one
LOST = (503, {"refused": "StoreFault"})

History = list[list[Entry]]  # records behind the founding


def opening(key: str) -> Ask:
    """The open of a search for one suspect, whose entry has 89 bytes."""
    return "/v1/searches", {"key": key, "test": "t", "base": commit(0), "suspects": [[commit(1), 1]], "calm": 1,
                            "rate": [1, 10], "bar": [9, 10], "width": 1, "reruns": 1}


class Batches(Caller):
    """A caller that asks batches, each again where the disk failed: so many searches that are opened, and the first of
    them again."""

    keys: list[str] = []

    def begin(self, searches: int = SEARCHES) -> None:
        """Sends a new batch."""
        self.keys = [self.key() for _ in range(searches)]
        self.again()

    def again(self) -> None:
        """Sends the last batch."""
        self.send(*map(opening, [*self.keys, self.keys[0]]))

    def end(self) -> bool:
        """Takes the answers of a batch. Whether it was done; else all of it was told that the disk failed."""
        answers = [self.read() for _ in [*self.keys, self.keys[0]]]
        if LOST in answers:
            assert set(map(str, answers)) == {str(LOST)}, answers
            return False
        replies = [reply for _, reply in answers]
        assert {status for status, _ in answers} == {200} and replies[-1] == replies[0], answers
        assert {it["reply"] for it in replies} == {"open"}, answers
        self.made += [("opened", key, it["search"]) for key, it in zip(self.keys, replies)]
        return True

    def entries(self) -> int:
        """How many entries the farm has, by its totals."""
        (status, totals), = self.ask(("/v1/totals", None))
        assert status == 200, totals
        return totals["entries"]

    def is_over(self) -> bool:
        """Whether the connection has ended without an answer."""
        try:
            return self.answers.read() == b""
        except ConnectionResetError:
            return True

    def move(self, service: Service) -> None:
        """Goes on by another service."""
        self.close()
        self.connect(service)


class Followed(Service):
    """The program serving a journal by so many handlers, traced."""

    def __init__(self, journal: str, handlers: int) -> None:
        self.handlers = handlers
        super().__init__(journal)

    def _start(self, port: int) -> None:
        self.port = port or own_port()
        self.url = f"http://127.0.0.1:{self.port}"
        words = [PROGRAM, "serve", self.journal, f"127.0.0.1:{self.port}", str(self.handlers), "1000000"]
        self.process = Traced(words, self.journal)

    def plan_next(self, *faults: Fault) -> None:
        """More of a plan, its numbers counted from now on."""
        self.process.add(*faults)

    def wait_for_hold(self) -> None:
        """Waits until a call is held."""
        self.process.wait_until(lambda: self.process.held)

    def wait_for_others(self) -> None:
        """Waits until each handler but the one whose call is held sleeps until another one wakes it. Then each has a
        caller's batch: of those that have none, one would wait for connections. While this looks the tracer does
        nothing, so that no thread gets from one call to the next."""
        self.process.wait_until(self._others_sleep)

    def _others_sleep(self) -> bool:
        inside = dict(self.process.inside)
        others = inside.keys() - self.process.held.keys()
        return len(others) == self.handlers - 1 and all(inside[it] == FUTEX and self._sleeps(it) for it in others)

    def _sleeps(self, thread: int) -> bool:
        with open(f"/proc/{self.process.pid}/task/{thread}/stat", encoding="utf-8", errors="replace") as file:
            return file.read().rpartition(")")[2].split()[0] == "S"

    def go(self) -> None:
        """Lets the call go on."""
        self.process.go()


@unittest.skipIf(case_faults.refused(), str(case_faults.refused()))
class Traces(Case):
    """Callers of a service that is traced."""

    def say(self, status: int, *words: str) -> str:
        """What a call writes, of this status."""
        ran = subprocess.run([PROGRAM, *words], stdin=subprocess.DEVNULL, capture_output=True, text=True,
                             timeout=PATIENCE, check=False)
        self.assertEqual(ran.returncode, status, ran.stderr)
        return ran.stdout

    def clear(self) -> None:
        """There is no journal."""
        if os.path.exists(self.journal):
            os.remove(self.journal)

    def begin(self, count: int) -> None:
        """Founds a farm, serves it, and connects so many callers, one a handler."""
        self.clear()
        self.assertEqual(self.say(0, "found", self.journal, "60000", "10", "east:0"), "founded\n")
        self.service = Followed(self.journal, count)
        self.addCleanup(self.service.close)
        self.callers = [Batches(self.service, number) for number in range(1, count + 1)]
        for caller in self.callers:
            self.addCleanup(caller.close)

    def disk_faults(self) -> int:
        """How many calls on the file have failed."""
        return sum((it.answer or 0) < 0 for it in self.service.process.calls)

    def read(self, file: bytes) -> History:
        """The records behind the founding of a journal's bytes, each with its entries; and an audit finds the history
        legal that they are together."""
        records = [[what for _, what in entries_of(it)] for it in payloads(file)]
        entries = [it for record in records for it in record]
        searches = [it for it in entries if it[0] == "opened"]
        audit = subprocess.run([PROGRAM, "audit"], input=file, capture_output=True, timeout=PATIENCE, check=True)
        self.assertEqual(audit.stdout.decode(), f"legal entries {len(entries)} searches {len(searches)} orders 0\n")
        self.assertEqual([it[2] for it in searches], list(range(1, len(searches) + 1)))
        self.assertEqual([it[0] for it in records[0]], ["founded"])
        return records[1:]

    def images(self) -> list[bytes]:
        """What a crash may leave of the file now, each once."""
        return sorted(set(self.service.process.disk.images()))

    def finish(self) -> History:
        """The service ends. The records of its journal, which have just what callers were answered with, each entry
        once and in their order; and so does whatever a crash leaves."""
        self.service.close()
        with open(self.journal, "rb") as file:
            records = self.read(file.read())
        history = [it for record in records for it in record]
        for caller in self.callers:
            self.assertEqual([it for it in history if owner(it) == caller.number], caller.made)
        self.assertEqual(len(history), sum(len(it.made) for it in self.callers))
        self.assertIn(f'"entries":{len(history) + 1},', self.say(0, "show", self.journal))
        for image in self.images():
            self.assertEqual(self.read(image), records)
        return records


def owner(entry: Entry) -> int:
    """The caller whose command made an entry, by its key."""
    return int(entry[1][:16], 16)


def owners(records: History) -> list[list[int]]:
    """The callers whose entries each record has, in their order."""
    return [list(dict.fromkeys(map(owner, record))) for record in records]


class Alone(Traces):
    """One caller, who shares records with nobody."""

    def ask_all(self, ahead: int, plan: Sequence[Fault]) -> int:
        """All that the caller asks, each again where the disk failed: its batches, and a lease, which it repeats. The
        plan counts from behind so many of these. How often the caller was told that the disk failed."""
        caller, = self.callers
        faults = 0
        for number in range(BATCHES):
            if number == ahead:
                self.service.plan_next(*plan)
            seen = caller.entries()
            caller.begin()
            while not caller.end():
                faults += 1
                self.assertEqual(caller.entries(), seen)
                caller.again()
            self.assertEqual(caller.entries(), seen + 2)
        if ahead == BATCHES:
            self.service.plan_next(*plan)
        key = caller.key()
        while (answer := caller.ask(caller.lease(key))[0]) == LOST:
            faults += 1
        if ahead > BATCHES:
            self.service.plan_next(*plan)
        self.assertEqual(answer[0], 200)
        self.assertEqual(caller.ask(caller.lease(key)), [answer])
        caller.made.append(leased(key, answer[1]))
        return faults

    def hold_faults(self, faults: int, ahead: int, *plan: Fault) -> None:
        """Plays a plan by which the disk fails, so often."""
        with self.subTest(ahead=ahead, plan=plan):
            self.begin(1)
            self.assertEqual(self.ask_all(ahead, plan), faults)
            self.assertEqual(self.disk_faults(), faults)
            records = self.finish()
            self.assertEqual([len(it) for it in records], [2] * BATCHES + [1])

    def test_a_batch_has_one_record(self) -> None:
        """A caller opens 32 searches by batches of two, and leases a run: 33 entries of 34, in 17 records."""
        self.hold_faults(0, 0)

    def test_a_fault_is_told_once_and_what_is_asked_again_is_done_once(self) -> None:
        """The disk fails at the record of the fifth batch, at the gate behind it, at the record of the lease, and at
        its gate: as it is synced or written, a part of it or nothing. Behind that gate nothing is synced or written."""
        for ahead in (4, BATCHES):
            for plan in (Fault("sync", 1), Fault("sync", 2), Fault("write", 1), Fault("write", 2),
                         Fault("write", 1, errno.ENOSPC, keeps=20)):
                self.hold_faults(1, ahead, plan)
        self.hold_faults(0, BATCHES + 1, Fault("sync", 1), Fault("write", 1))


class Waiting(Traces):
    """Callers whose batches come to share records, as they wait for their turns."""

    searches = SEARCHES

    def begin_waiting(self, first: Batches) -> list[Batches]:
        """All callers ask a batch each: the others, whom it gives, wait while the gate of the first one's is synced."""
        others = [it for it in self.callers if it is not first]
        self.service.plan_next(Fault("sync", 2, error=0, holds=True))
        first.begin(self.searches)
        self.service.wait_for_hold()
        for caller in others:
            caller.begin(self.searches)
        self.service.wait_for_others()
        return others

    def end_all(self, *callers: Batches) -> None:
        """Each caller is told that its batch was done."""
        self.assertEqual([it.end() for it in callers], [True] * len(callers))

    def begin_sharing(self, count: int) -> None:
        """Begins with so many callers, who have waited for a turn each then, so that turns are long: from then on the
        batches of those who wait share a record."""
        self.begin(count)
        self.begin_waiting(self.callers[0])
        self.service.go()
        self.end_all(*self.callers)

    def begin_record(self, count: int, *plan: Fault) -> list[Batches]:
        """So many callers, whom it gives, share a record that is behind that of the first caller. The plan counts from
        there, and its first call is held, until the first caller has asked another batch."""
        self.begin_sharing(count + 1)
        first = self.callers[0]
        others = self.begin_waiting(first)
        self.service.plan_next(dataclasses.replace(plan[0], holds=True), *plan[1:])
        self.service.go()
        self.end_all(first)
        self.service.wait_for_hold()
        self.assertEqual(first.entries(), 1 + self.searches * (count + 2))
        first.begin(self.searches)
        self.service.wait_for_others()
        return others


class Records(Waiting):
    """What callers are answered whose batches share records."""

    def test_each_caller_has_its_entries_where_records_are_shared(self) -> None:
        """Each of three callers has 33 entries of 100, and those who wait together share a record."""
        self.begin_sharing(3)
        for number in range(1, BATCHES):
            seen = self.callers[0].entries()
            self.begin_waiting(self.callers[number % 3])
            self.service.go()
            self.end_all(*self.callers)
            self.assertEqual([it.entries() for it in self.callers], [seen + 6] * 3)
        keys = [it.key() for it in self.callers]
        for caller, key in zip(self.callers, keys):
            caller.send(caller.lease(key), caller.lease(key))
        for caller, key in zip(self.callers, keys):
            answer, again = caller.read(), caller.read()
            self.assertEqual((answer[0], again), (200, answer))
            caller.made.append(leased(key, answer[1]))
        records = self.finish()
        self.assertEqual([len(it.made) for it in self.callers], [33] * 3)
        self.assertGreater(sum(len(it) > 1 for it in owners(records)), BATCHES // 2)

    def play(self, count: int, plan: Sequence[Fault], kept: bool) -> None:
        """So many callers share a record, and the disk fails by the plan: as many of them are told so as it has faults,
        and nobody else is. Where the record was kept it is the journal's, else each caller has one of its own."""
        others = self.begin_record(count, *plan)
        first = self.callers[0]
        self.service.go()
        done = [it.end() for it in others]
        self.end_all(first)
        self.assertEqual((done.count(False), self.disk_faults()), (len(plan), len(plan)))
        entries = 1 + self.searches * (2 * count + 3)
        self.assertEqual(first.entries(), entries - (0 if kept else self.searches * len(plan)))
        for caller in (it for it, well in zip(others, done) if not well):
            caller.again()
            self.end_all(caller)
        self.assertEqual(first.entries(), entries)
        records = owners(self.finish())[count + 1:]
        self.assertEqual(records[0], [first.number])
        if kept:
            self.assertEqual([sorted(it) for it in records[1:]], [[it.number for it in others], [first.number]])
        else:
            self.assertEqual(sorted(records[1:]), [[it.number] for it in self.callers])

    def test_a_fault_at_a_shared_record_is_told_to_one_caller(self) -> None:
        """It is the one by whose turn the record was stored. The others' batches are asked anew, one after the other,
        behind a repair, which finds the record where the gate's byte was written: what the system may have dropped as
        its sync failed is written again."""
        for kept, fault in [(False, Fault("write", 1)),
                            (False, Fault("write", 1, errno.ENOSPC, keeps=200)),
                            (False, Fault("sync", 1)),
                            (False, Fault("sync", 1, forgets=True)),
                            (False, Fault("write", 2, errno.ENOSPC)),
                            (True, Fault("sync", 2)),
                            (True, Fault("sync", 2, drops=True)),
                            (True, Fault("sync", 2, forgets=True))]:
            with self.subTest(fault=fault):
                self.play(3, [fault], kept)

    def test_as_many_callers_of_a_record_are_told_as_there_are_faults(self) -> None:
        """A fault of a repair is told to the caller whose batch was to be asked behind it: where all of a record are
        told, a caller that came later is still told nothing. A repair is a sync and a read."""
        for first, kept in ((1, False), (2, True)):
            syncs = [Fault("sync", first + i, drops=True) for i in range(3)]
            for plan in (syncs[:2], syncs, [syncs[0], Fault("read", 1)], [*syncs[:2], Fault("read", 1)]):
                with self.subTest(plan=plan):
                    self.play(3, plan, kept)

    def test_as_many_callers_as_there_may_be(self) -> None:
        """Of sixteen callers fifteen share a record: one is told that its sync failed, or all, where that of its gate
        fails and each repair but the last."""
        self.searches = 1
        self.play(15, [Fault("sync", 1)], False)
        self.play(15, [Fault("sync", 2 + i) for i in range(15)], True)


class Kills(Waiting):
    """A service that is killed while callers wait for a record that they share."""

    def go_on(self, file: bytes) -> None:
        """Another service goes on by these bytes: what was asked and not answered is asked again, and done once."""
        with open(self.journal, "wb") as journal:
            journal.write(file)
        self.service = Followed(self.journal, len(self.callers))
        self.addCleanup(self.service.close)
        made = [list(it.made) for it in self.callers]
        for caller in self.callers:
            caller.move(self.service)
            caller.again()
            self.end_all(caller)
        self.finish()
        for caller, before in zip(self.callers, made):
            caller.made = before

    def play(self, fault: Fault, kept: bool, sure: bool) -> None:
        """The service is killed as this call of a record that three callers share is to be made. Whether its file then
        has the record, and whether a crash leaves the same of it for sure."""
        others = self.begin_record(3, fault)
        self.service.close()
        self.assertEqual(self.service.process.returncode, -signal.SIGKILL)
        self.assertEqual([it.is_over() for it in self.callers], [True] * 4)
        with open(self.journal, "rb") as journal:
            file = journal.read()
        answered = sorted(it for caller in self.callers for it in caller.made)
        left: dict[bool, bytes] = {}
        for image in [*self.images(), file]:
            records = self.read(image)
            has = owners(records)[5:] != []
            self.assertEqual(sorted(it for record in records[:5] for it in record), answered)
            self.assertEqual([sorted(it) for it in owners(records)[5:]], [[it.number for it in others]] * has)
            left[has] = image
        self.assertEqual((owners(self.read(file))[5:] != [], set(left)), (kept, {kept} if sure else {False, True}))
        for image in left.values():
            self.go_on(image)

    def test_what_was_answered_stands_and_the_rest_is_done_once(self) -> None:
        """Before the gate's byte is written no crash leaves the record, and before its sync is done one may leave it or
        not, but never a part. Either way all of its callers, and one that waits for its turn, ask again."""
        for fault, kept, sure in [(Fault("write", 1, error=0), False, True), (Fault("sync", 1, error=0), False, True),
                                  (Fault("write", 2, error=0), False, True), (Fault("sync", 2, error=0), True, False)]:
            with self.subTest(fault=fault):
                self.play(fault, kept, sure)


class Founding(Traces):
    """A founding on a disk that fails."""

    def test_a_fault_in_a_founding_founds_nothing_or_all(self) -> None:
        """Nothing is said to be founded. Until the birth byte is to be written the file is unborn. From then until its
        sync is done a crash leaves the file unborn or founded, also where the write failed. One that is unborn can be
        founded."""
        words = ["found", self.journal, "60000", "10", "east:0"]
        for fault, born, may_be in [(Fault("write", 1), False, {False}), (Fault("sync", 1), False, {False}),
                                    (Fault("write", 2, errno.ENOSPC, keeps=20), False, {False}),
                                    (Fault("sync", 2), False, {False}), (Fault("write", 3), False, {False, True}),
                                    (Fault("sync", 3), True, {False, True}),
                                    (Fault("sync", 3, forgets=True), False, {False})]:
            with self.subTest(fault=fault):
                self.clear()
                ran = Traced([PROGRAM, *words], self.journal, [fault])
                self.assertEqual((ran.wait(), ran.out, ran.said), (5, "", "the journal could not be used\n"))
                images = set(ran.disk.images())
                founded = {it for it in images if len(it) > 1 and it[0]}
                self.assertEqual({it in founded for it in images}, may_be)
                self.assertEqual([self.read(it) for it in founded], [[]] * len(founded))
                self.say(8 if born else 0, *words)
                self.assertIn('"entries":1,', self.say(0, "show", self.journal))


if __name__ == "__main__":
    unittest.main()
