#!/usr/bin/env python3
"""Tests of succeed over the real program, which $CULPRIT_FINDER names: farms that follow one another.

    tools/test PROGRAM test_succeed
"""
from __future__ import annotations

import json
import os
import random
import signal
import subprocess
import sys
import time
from typing import Any

from case_farm import PATIENCE, PROGRAM, TOOLS, Case, Farm, commit, culprit

WORDS = ("60000", "10", "east:60")


class Succession(Case):
    """A farm that ends, and the one that follows it."""

    def succeed(self, *words: str, status: int = 0) -> tuple[str, str]:
        """What it writes, and says."""
        return self.came_to(self.at_work(*words), status)

    def at_work(self, *words: str, **more: Any) -> "subprocess.Popen[str]":
        """The tool at work."""
        return subprocess.Popen([sys.executable, os.path.join(TOOLS, "succeed"), *words], stdin=subprocess.DEVNULL,
                                stdout=subprocess.PIPE, stderr=subprocess.PIPE, text=True, cwd=self.folder, **more)

    def came_to(self, tool: "subprocess.Popen[str]", status: int = 0) -> tuple[str, str]:
        """What the tool wrote, and said."""
        out, err = tool.communicate()
        self.assertEqual(tool.returncode, status, err)
        return out, err

    def path(self, name: str) -> str:
        """A path in the test's folder."""
        return os.path.join(self.folder, name)

    def program(self, *words: str, given: bytes = b"") -> subprocess.CompletedProcess[bytes]:
        """How the program ended."""
        return subprocess.run([PROGRAM, *words], input=given, capture_output=True, check=False)

    def data(self, name: str) -> bytes:
        """The bytes of a file."""
        with open(self.path(name), "rb") as file:
            return file.read()

    def ended(self, name: str, *bases: int, take: bool = True) -> None:
        """A farm in a new journal, with a confirmed search for each base, suspect 2 of four its culprit, and its order.
        """
        farm = Farm(self.path(name))
        self.work(farm, *bases, take=take)
        farm.close()

    def work(self, farm: Farm, *bases: int, take: bool = True) -> list[str]:
        """Confirms a culprit for each base; the commits that were ordered."""
        ordered = []
        for base in bases:
            farm.open(base=base)
            self.assertEqual(farm.play(culprit(2))["standing"], "confirmed")
            reply = farm.ask("revert", agent="a") if take else {}
            ordered += [reply["commit"]] if "commit" in reply else []
        return ordered

    def test_a_farm_follows_with_all_orders_and_never_orders_one_again(self) -> None:
        self.ended("old", 100, 200)
        said, _ = self.succeed("old", "new", *WORDS, "--yes")
        self.assertEqual(said, "new begins with 2 orders of old\n")
        self.assertEqual(self.program("audit", given=self.data("new")).stdout, b"legal entries 3 searches 0 orders 0\n")
        farm = self.reopened("new")
        self.assertEqual(self.work(farm, 100, 200, 300), [commit(302)])
        farm.close()
        self.assertEqual(self.succeed("new", "third", *WORDS, "--yes")[0], "third begins with 3 orders of new\n")

    def test_explain_says_what_was_ordered_before_and_that_a_farm_is_closed(self) -> None:
        self.ended("old", 100)
        self.assertNotIn("closed", self.call("explain", self.path("old"), "1"))
        self.succeed("old", "new", *WORDS, "--yes")
        self.assertIn("The farm was closed on", self.call("explain", self.path("old"), "1"))
        farm = self.reopened("new")
        self.work(farm, 100, take=False)
        farm.close()
        said = self.call("explain", self.path("new"), "1")
        self.assertIn("Its revert was ordered by a farm before this one, on 20", said)

    def test_watch_tells_what_was_carried_over_and_the_closing(self) -> None:
        self.ended("old", 100)
        self.succeed("old", "new", *WORDS, "--yes")
        self.program("close", self.path("new"))
        service = self.serve(self.path("new"))
        watch = self.begin("watch", service.url, "--from", "1", "--every", "0.1")
        lines = [json.loads(watch.stdout.readline()) for _ in range(3)]
        self.assertEqual([line["what"] for line in lines], ["founded", "carried", "closed"])
        self.assertEqual(lines[1]["commit"], commit(102))

    def reopened(self, name: str) -> Farm:
        """The farm of a journal that is there."""
        farm = Farm.__new__(Farm)
        farm.journal, farm.keys, farm.at = self.path(name), 0, int(time.time() * 1000)
        farm.process = subprocess.Popen([PROGRAM, "run", farm.journal], stdin=subprocess.PIPE, stdout=subprocess.PIPE)
        return farm

    def test_it_may_be_called_again(self) -> None:
        self.ended("old", 100)
        self.succeed("old", "new", *WORDS, "--yes")
        before = self.data("old"), self.data("new")
        said, _ = self.succeed("old", "new", *WORDS, "--yes")
        self.assertEqual(said, "new begins with 1 order of old, as it did before\n")
        self.assertEqual((self.data("old"), self.data("new")), before)
        farm = self.reopened("new")
        farm.open(base=100)
        farm.close()
        said, _ = self.succeed("old", "new", *WORDS, "--yes")
        self.assertEqual(said, "new was founded with the orders of old before, and is in use\n")
        _, said = self.succeed("old", "new", "60000", "10", "east:0", "--yes", status=8)
        self.assertIn("new is another farm", said)

    def test_a_farm_that_is_not_at_rest_stays_as_it_is(self) -> None:
        self.ended("old", 100, take=False)
        before = self.data("old")
        _, said = self.succeed("old", "new", *WORDS, "--yes", status=17)
        self.assertIn("old isn't at rest", said)
        self.assertEqual(self.data("old"), before)
        self.assertFalse(os.path.exists(self.path("new")))

    def test_a_slip_in_the_words_closes_nothing(self) -> None:
        self.ended("old", 100)
        before = self.data("old")
        for words in (("old", "new", "60000", "10"), ("old", "new", "999", "10", "east:0"),
                      ("old", "new", "60000", "1001", "east:0"), ("old", "new", "60000", "10", "north:0"),
                      ("old", "new", "60000", "10", "west:721"), ("old", "./old", *WORDS)):
            with self.subTest(words):
                self.succeed(*words, "--yes", status=2)
        os.link(self.path("old"), self.path("the same"))
        os.mkdir(self.path("folder"))
        with open(self.path("a text"), "w", encoding="ascii") as file:
            file.write("xx\n")
        for new, status in (("the same", 2), ("-new", 2), ("", 2), ("folder", 5), ("nodir/new", 5), ("a text", 5)):
            with self.subTest(new):
                self.succeed("old", new, *WORDS, "--yes", status=status)
        self.ended("other")
        _, said = self.succeed("old", "other", *WORDS, "--yes", status=8)
        self.assertIn("choose another path for NEW", said)
        self.assertEqual(self.data("old"), before)
        self.succeed("nowhere", "new", *WORDS, "--yes", status=7)

    def test_another_farm_is_no_follower(self) -> None:
        self.ended("old", 100)
        self.ended("new", 200)
        self.assertEqual(self.program("close", self.path("old")).returncode, 0)
        _, said = self.succeed("old", "new", *WORDS, "--yes", status=8)
        self.assertIn("new is another farm", said)

    def test_a_worker_at_work_here_is_named(self) -> None:
        self.ended("old", 100)
        with open(self.path("work"), "w", encoding="ascii") as file:
            file.write("read line\n")
        worker = subprocess.Popen(["culprit_finder", "work"], executable="/bin/sh", cwd=self.folder,
                                  stdin=subprocess.PIPE)
        try:
            _, said = self.succeed("old", "new", *WORDS, status=3)
            self.assertIn(f"{worker.pid}: culprit_finder work", said)
            self.assertFalse(os.path.exists(self.path("new")))
        finally:
            worker.kill()
            worker.communicate()

    def test_a_program_that_takes_its_time_to_end(self) -> None:
        self.ended("old", 100)
        tried, program = self.path("tried"), self.path("program")
        with open(program, "w", encoding="utf-8") as file:
            file.write(f"#!/bin/sh\n[ \"$1\" != close ] || echo >> '{tried}'\nexec '{PROGRAM}' \"$@\"\n")
        os.chmod(program, 0o755)
        other = self.reopened("old")
        self.addCleanup(other.close)
        self.assertEqual(other.ask("farm")["reply"], "farm")
        tool = self.at_work("old", "new", *WORDS, "--yes", env={**os.environ, "CULPRIT_FINDER": program})
        limit = time.monotonic() + PATIENCE
        while tool.poll() is None and (not os.path.exists(tried) or os.path.getsize(tried) < 2):
            self.assertLess(time.monotonic(), limit, "it took too long")
            time.sleep(0.01)
        other.close()
        self.assertEqual(self.came_to(tool)[0], "new begins with 1 order of old\n")

    def test_a_kill_at_any_moment_loses_nothing(self) -> None:
        chance, whole = random.Random(1), 0
        for turn in range(12):
            old, new = f"old{turn}", f"new{turn}"
            self.ended(old, 100)
            process = self.at_work(old, new, *WORDS, "--yes", start_new_session=True)
            time.sleep(0.3 * chance.random())
            if process.poll() is None:
                os.killpg(process.pid, signal.SIGKILL)
            else:
                whole += 1
            process.communicate()
            said, _ = self.succeed(old, new, *WORDS, "--yes")
            self.assertIn(f"{new} begins with 1 order of {old}", said)
        self.assertLess(whole, 12)


if __name__ == "__main__":
    import unittest
    unittest.main()
