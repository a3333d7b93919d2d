#!/usr/bin/env python3
"""Tests of watch over the real program, which $CULPRIT_FINDER names, serving journals on loopback.

    tools/test PROGRAM test_watch
"""
from __future__ import annotations

import json
import os
import queue
import shutil
import signal
import subprocess
import sys
import threading
import time
import unittest
from typing import Any, Optional

from case_farm import PATIENCE, TOOLS, Case, Service, commit, culprit

Line = dict[str, Any]


class Watched(Case):
    """Services that are watched."""

    def watch(self, service: Service, *words: str) -> "subprocess.Popen[str]":
        """The tool at work on a service; what it writes comes by `next`."""
        process = self.begin("watch", service.url, "--every", "0.1", *words)
        self.lines: "queue.Queue[Optional[str]]" = queue.Queue()
        self.said: "queue.Queue[Optional[str]]" = queue.Queue()
        for stream, lines in ((process.stdout, self.lines), (process.stderr, self.said)):
            thread = threading.Thread(target=self.read, args=(stream, lines))
            thread.start()
            self.addCleanup(thread.join)
        self.addCleanup(process.kill)
        return process

    @staticmethod
    def read(stream: Any, lines: "queue.Queue[Optional[str]]") -> None:
        """Hands on the lines of a stream, and None at its end."""
        for line in stream:
            lines.put(line)
        lines.put(None)

    def next(self) -> Line:
        """The next line of the tool."""
        line = self.lines.get(timeout=PATIENCE)
        assert line is not None, "it has ended"
        return json.loads(line)

    def next_said(self) -> str:
        """The next line of the tool on standard error."""
        return self.said.get(timeout=PATIENCE) or "it has ended"

    def served(self, count: int = 4) -> Service:
        """The service of a new farm with a search."""
        farm = self.found()
        farm.open(count)
        farm.close()
        return self.serve(self.journal)

    @staticmethod
    def step(service: Service, suspect: int) -> Line:
        """Leases a run and reports it, where a suspect is the culprit. The reply to the report."""
        lease = service.post("/v1/leases", worker="bot")
        return service.post(f"/v1/runs/{lease['run']}/report", verdict=culprit(suspect)(lease))

    def test_each_entry_has_a_line_and_a_search_that_moved_its_standing(self) -> None:
        farm = self.found()
        farm.open(test="<t>")
        farm.play(culprit(2))
        farm.ask("revert", agent="me")
        farm.ask("cancel", search=farm.open(2, 20))
        farm.open(1, suspects=[[commit(9), 1000]])
        farm.close()
        self.watch(self.serve(self.journal), "--from", "1")
        lines = [self.next() for _ in range(16)]
        self.assertEqual([line["entry"] for line in lines], list(range(1, 17)))
        self.assertEqual([line["what"] for line in lines], [
            "founded", "opened", *["leased", "reported"] * 5, "ordered", "opened", "cancelled", "opened"])
        self.assertEqual({line["test"] for line in lines[1:12]}, {"<t>"})
        stands = {line["entry"]: (line["standing"], line.get("culprit"), line.get("commit")) for line in lines
                  if "standing" in line}
        self.assertEqual(stands[15], ("cancelled", None, None))
        self.assertEqual(stands[16], ("verifying", 1, commit(9)))
        self.assertEqual(sorted(stands)[1:], [15, 16])
        first = sorted(stands)[0]
        self.assertEqual((stands[first], lines[first - 1]["what"]), (("confirmed", 2, commit(2)), "reported"))
        ordered = lines[12]
        self.assertEqual([ordered[name] for name in ("what", "search", "order", "commit", "agent")],
                         ["ordered", 1, 1, commit(2), "me"])
        leased = lines[2]
        self.assertEqual([leased[name] for name in ("run", "stage", "position", "commit", "worker")],
                         [1, "search", 2, commit(2), "w"])

    def test_what_comes_in_is_told_as_it_comes_and_a_late_report_moves_nothing(self) -> None:
        farm = self.found()
        farm.open(width=3)
        late = [farm.lease() for _ in range(3)][0]
        farm.report(3, "pass")
        farm.open(4, 20)
        farm.close()
        service = self.serve(self.journal)
        process = self.watch(service)
        base, suspects = commit(90), [[commit(91), 1]]
        while self.lines.empty():  # until it has begun
            number = service.post("/v1/searches", test="t", base=base, suspects=suspects, calm=1, rate=[1, 10],
                                  bar=[9, 10], width=1, reruns=1)["search"]
            service.post(f"/v1/searches/{number}/cancel")
            time.sleep(0.5)
        self.assertEqual(service.post(f"/v1/runs/{late['run']}/report", verdict="fail")["fate"], "late")
        while (line := self.next())["what"] != "reported":
            self.assertIn(line["what"], ("opened", "cancelled"))
        self.assertEqual([line.get(name) for name in ("what", "search", "fate", "standing")],
                         ["reported", 1, "late", None])
        moved = []
        while self.step(service, 2)["standing"] != "confirmed":
            pass
        while not moved or moved[-1] != "confirmed":
            line = self.next()
            moved += [line["standing"]] if "standing" in line else []
        self.assertIn(moved, (["verifying", "confirmed"], ["confirmed"]))
        process.send_signal(signal.SIGINT)
        self.assertEqual(process.wait(timeout=PATIENCE), 0)
        self.assertIsNone(self.said.get(timeout=PATIENCE))
        while (last := self.lines.get(timeout=PATIENCE)) is not None:
            self.assertNotIn("standing", json.loads(last))

    def test_it_goes_on_over_an_outage_and_notices_another_history(self) -> None:
        service = self.served()
        process = self.watch(service, "--from", "1")
        self.assertEqual([self.next()["entry"], self.next()["entry"]], [1, 2])
        older = os.path.join(self.folder, "older")
        shutil.copy(self.journal, older)
        service.close()
        self.assertRegex(self.next_said(), r"\Afinder watch: http://127.* doesn't answer: .*; waiting for it\n\Z")
        service = self.serve(self.journal, service.port)
        self.step(service, 2)
        self.assertEqual([(line["entry"], line["what"]) for line in (self.next(), self.next())],
                         [(3, "leased"), (4, "reported")])
        self.assertEqual(self.next_said(), "finder watch: it answers again\n")
        service.close()
        self.assertIn("waiting for it", self.next_said())
        self.serve(older, service.port)
        self.assertIn("has another history than before: entry 4 isn't there any more, or differs", self.next_said())
        self.assertEqual(process.wait(timeout=PATIENCE), 3)

    def test_it_ends_with_its_reader(self) -> None:
        service = self.served()
        words = [sys.executable, "-ISB", os.path.join(TOOLS, "watch"), service.url, "--from", "1", "--every", "60"]
        with subprocess.Popen(words, stdout=subprocess.PIPE, stderr=subprocess.PIPE) as process:
            assert process.stdout and process.stderr
            process.stdout.readline()
            process.stdout.close()
            self.assertEqual(process.wait(timeout=PATIENCE), 0)
            self.assertEqual(process.stderr.read(), b"")

    def test_words_and_where_there_is_none(self) -> None:
        for words, said in (((), "required"), (("x", "--from", "0"), "no number of an entry"),
                            (("ftp://x",), "no address"), (("x", "--every", "0"), "takes 0.05 to 3600")):
            self.assertIn(said, self.call("watch", *words, status=2))
        self.assertIn("members of a line:", self.call("watch", "--help"))
        service = self.served()
        service.close()
        process = self.watch(service)
        self.assertIn("doesn't answer: ", self.next_said())
        self.serve(self.journal, service.port)
        self.assertEqual(self.next_said(), "finder watch: it answers again\n")
        process.terminate()
        self.assertEqual(process.wait(timeout=PATIENCE), 0)


if __name__ == "__main__":
    sys.exit(unittest.main())
