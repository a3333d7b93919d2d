#!/usr/bin/env python3
"""Tests of a journal's file that fails under the program: it is full, removed, renamed, replaced, cut, or another's.

    CULPRIT_FINDER=PROGRAM python3 tools/test_disk.py [CLASS[.TEST]]
"""
from __future__ import annotations

import functools
import os
import resource
import shutil
import signal
import subprocess
import unittest
import urllib.error
from typing import Any
from unittest import mock

import case_farm
from case_farm import PATIENCE, PROGRAM, Service, commit

OPEN = {"test": "t", "base": commit(0), "suspects": [[commit(1), 1], [commit(2), 1]], "calm": 1, "rate": [1, 10],
        "bar": [9, 10], "width": 1, "reruns": 1}


class Bounded(Service):
    """A service whose file may have a limit, past which a write fails: the signal that comes then is ignored."""

    def _start(self, port: int) -> None:
        ignored = functools.partial(subprocess.Popen, preexec_fn=lambda: signal.signal(signal.SIGXFSZ, signal.SIG_IGN))
        with mock.patch.object(subprocess, "Popen", ignored):
            super()._start(port)


class Disk(case_farm.Case):
    """A service whose journal's file fails."""

    def setUp(self) -> None:
        super().setUp()
        self.say(0, "found", self.journal, "60000", "10", "east:0")
        self.service = self.serve(self.journal)

    def say(self, status: int, *words: str, given: str = "") -> str:
        """What a call writes, of this status."""
        ran = subprocess.run([PROGRAM, *words], input=given, capture_output=True, text=True, timeout=PATIENCE,
                             check=False)
        self.assertEqual(ran.returncode, status, ran.stderr)
        return ran.stdout

    def open(self, key: int) -> "tuple[int, Any]":
        """The status of an answer, and the search that was opened."""
        try:
            return 200, self.service.post("/v1/searches", key=f"{key:032x}", **OPEN)["search"]
        except urllib.error.HTTPError as fault:
            with fault:
                return fault.code, fault.read().decode()

    def hold_failing(self) -> None:
        """Calls that need an entry are answered 503, and those that need none as ever."""
        for key in (2, 3, 2):
            self.assertEqual(self.open(key), (503, '{"refused":"StoreFault"}'))

    def hold_going_on(self) -> None:
        """The service goes on: what was asked before is done once, and the file has it."""
        self.assertEqual([self.open(key) for key in (2, 3, 2, 1)], [(200, 2), (200, 3), (200, 2), (200, 1)])
        self.service.close()
        self.assertIn('"entries":4,', self.say(0, "show", self.journal))

    def test_a_file_that_is_removed_or_renamed(self) -> None:
        """The very file put back under its name is used again."""
        self.assertEqual(self.open(1), (200, 1))
        os.rename(self.journal, self.journal + ".away")
        self.hold_failing()
        os.rename(self.journal + ".away", self.journal)
        self.hold_going_on()

    def test_a_file_that_is_replaced(self) -> None:
        """A copy in its place is left alone; another service answers by it."""
        self.assertEqual(self.open(1), (200, 1))
        shutil.copy(self.journal, self.journal + ".copy")
        os.rename(self.journal + ".copy", self.journal)
        size = os.path.getsize(self.journal)
        self.hold_failing()
        self.assertEqual(os.path.getsize(self.journal), size)
        self.service.close()
        self.service = self.serve(self.journal)
        self.hold_going_on()

    def test_a_file_that_is_cut(self) -> None:
        """It is left alone until the program is started again, which answers by the file that it finds."""
        self.assertEqual(self.open(1), (200, 1))
        os.truncate(self.journal, 39)
        self.hold_failing()
        self.assertEqual(os.path.getsize(self.journal), 39)
        self.service.close()
        self.assertIn("broken at 38\n", self.audit())
        self.say(6, "show", self.journal)
        with open(self.journal, "r+b") as file:  # as docs/OPERATING.md says: the gate is closed
            file.seek(38)
            file.write(b"\0")
        self.assertIn('"entries":1,', self.say(0, "show", self.journal))

    def audit(self) -> str:
        """What an audit finds of the file."""
        with open(self.journal, "rb") as file:
            return subprocess.run([PROGRAM, "audit"], stdin=file, capture_output=True, text=True, timeout=PATIENCE,
                                  check=True).stdout

    def test_a_disk_that_is_full(self) -> None:
        """Once there is room all goes on, without a start anew; also where a part of a record was written."""
        self.service.close()
        for room in (0, 1, 30):
            with self.subTest(room=room):
                os.remove(self.journal)
                self.say(0, "found", self.journal, "60000", "10", "east:0")
                self.service = Bounded(self.journal)
                self.addCleanup(self.service.close)
                self.assertEqual(self.open(1), (200, 1))
                size = os.path.getsize(self.journal) + room
                resource.prlimit(self.service.process.pid, resource.RLIMIT_FSIZE, (size, resource.RLIM_INFINITY))
                self.hold_failing()
                self.assertIn("legal entries 2 searches 1 orders 0\n", self.audit())
                resource.prlimit(self.service.process.pid, resource.RLIMIT_FSIZE, (resource.RLIM_INFINITY,) * 2)
                self.hold_going_on()

    def test_a_file_that_another_program_has(self) -> None:
        """A journal that is served can't be shown, run, closed, founded or served by another program."""
        self.assertEqual(self.open(1), (200, 1))
        for words in (["show"], ["run"], ["close"], ["rates"], ["evidence"], ["serve"]):
            more = {"evidence": ["1"], "serve": ["127.0.0.1:1", "1", "1"]}.get(words[0], [])
            self.say(5, words[0], self.journal, *more, given='{"at":100000000,"do":"farm"}\n')
        self.say(5, "found", self.journal, "60000", "10", "east:0")
        self.assertEqual([self.open(key) for key in (2, 3, 2)], [(200, 2), (200, 3), (200, 2)])
        self.hold_going_on()


if __name__ == "__main__":
    unittest.main()
