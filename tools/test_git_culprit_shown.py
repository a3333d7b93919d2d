"""Tests of git culprit: its words and what it shows, over real repositories and the real program."""
from __future__ import annotations

import fcntl
import json
import os
import pty
import re
import select
import struct
import subprocess
import sys
import termios
import time
import unittest

from case_git_culprit import ENV, IS_OK, PATIENCE, PROGRAM, TOOL, TOOLS, Case


class Shown(Case):
    """What is shown, and the words."""

    def test_searches_are_kept(self) -> None:
        self.make(5, 2)
        self.assertEqual(self.culprit("--show").status, 2)
        self.search()
        ended = self.shell("good..", test=f"[ $CULPRIT_RUN = 2 ] && exit 129; {IS_OK}")
        self.assertEqual(ended.status, 3)
        ended = self.culprit("--list")
        self.assertRegex(ended.out, r"1  confirmed [0-9a-f]+ +\d+  good\.\.main .*\n +2  open +3  good\.\. ")
        self.assertEqual(len(json.loads(self.culprit("--list", "--json").out)), 2)
        self.assertIn("git culprit --resume 2", self.culprit("--show").out)
        ended = self.culprit("good..", "--no-check", "--", "sh", "-c", "exit 129")
        self.assertIn("note: search 2 is open still: git culprit --resume 2, or --abort 2", ended.err)
        self.assertEqual(self.culprit("--abort").status, 0)
        self.assertIn("broke it", self.culprit("--show", "1").out)
        self.assertEqual(self.culprit("--show", "4").status, 2)
        self.assertEqual(self.culprit("--abort").status, 0)
        self.assertIn("cancelled", self.culprit("--list").out)
        self.assertRegex(self.audit(2), "^legal entries 6 ")
        self.assertEqual(self.culprit("--abort").status, 2)
        self.assertEqual(self.culprit("--resume").status, 2)
        self.assertEqual(self.culprit("--resume", "1").status, 0)
        ended = self.culprit("--html", os.path.join(self.folder, "none", "x"))
        self.assertEqual((ended.status, ended.out), (3, ""))
        self.assertIn("none/x: No such file or directory", ended.err)

    def test_words_that_cannot_be_followed(self) -> None:
        self.make(3, 2)
        self.git("checkout", "-q", "--orphan", "other")
        self.git("commit", "-qm", "another root")
        run = ("--", "true")
        for words, said in (
                ((), "which commits?"), (("good..main",), "which test?"), (("good", *run), "the range is GOOD..BAD"),
                (("good...main", *run), "the range is GOOD..BAD"), (("..main", *run), "the range is GOOD..BAD"),
                (("nix..main", *run), "nix names no commit"), (("good..nix", *run), "nix names no commit"),
                (("main..main", *run), "there are no commits in main..main"),
                (("main..good", *run), "main is no ancestor of good"),
                (("good..other", *run), "git merge-base good other"),
                (("good..main", "--flakes", "x", *run), "neither a percentage"),
                (("good..main", "--flakes", "100%", *run), "isn't below 100%"),
                (("good..main", "--flakes", "1/0", *run), "divides by 0"),
                (("good..main", "--flakes", "60%", "--misses", "40%", *run), "below 100% together"),
                (("good..main", "--bar", "50%", *run), "above 50%"),
                (("good..main", "--jobs", "9", *run), "from 1 to 8"),
                (("good..main", "--reruns", "0", *run), "from 1 to 8"), (("good..main", "--calm", "0", *run), "--calm"),
                (("good..main", "--calm", "100%", *run), "--calm"),
                (("good..main", "--prior", "x", *run), "--prior is"),
                (("good..main", "--timeout", "0", *run), "no length of time"),
                (("--resume", *run), "neither a range nor"),
                (("good..main", "--flake", "5%", *run), "unrecognized"),
                (("good..main", "--", "no-such-command"), "no such command on PATH")):
            with self.subTest(words=words):
                ended = self.culprit(*words)
                self.assertEqual((ended.status, ended.out), (2, ""), ended.err)
                self.assertIn(said, ended.err)
        self.assertFalse(os.path.exists(os.path.join(self.repo, ".git", "culprit")))
        self.assertEqual(self.culprit("good..main", *run, folder=self.folder).status, 2)

    def test_the_program_that_is_missing_or_another(self) -> None:
        self.make(3, 2)
        for program, said in (("/no/such", "/no/such is no program"), ("false", "false ended with status 1"),
                              ("true", "true ended with status 0")):
            ended = self.culprit("good..main", "--no-check", "--finder", program, "--", "true")
            self.assertEqual(ended.status, 3)
            self.assertIn(said, ended.err)
        self.assertEqual(len(json.loads(self.culprit("--list", "--json").out)), 1)

    def test_the_line_on_a_terminal(self) -> None:
        self.make(9, 4, subject="a rather long subject of change {}, チェックアウト included")
        for width in (10, 40, 79, 200):
            for env in ({"TERM": "xterm"}, {"TERM": "xterm", "NO_COLOR": "1"}):
                with self.subTest(width=width, env=env):
                    text = self.on_terminal(width, {**ENV, **env})
                    drawn = [part.split("\n")[0] for part in text.split("\r\x1b[K")[1:]]
                    live = [line.replace("\r", "") for line in drawn if re.match(r"\d+ run", line)]
                    self.assertTrue(live)
                    wide = [line + "".join(sign for sign in line if "\u3000" < sign < "\uff00") for line in live]
                    self.assertLess(max(map(len, wide)), width)
                    self.assertEqual("\x1b[32m" in text, "NO_COLOR" not in env)
                    if width == 200:
                        form = r"^\d+ runs · at \d/9 \d+:\d\d · .* [\d.]+ % · nobody .* · \[ *█ *\] · \d+:\d\d$"
                        self.assertRegex(live[-1], form)

    def on_terminal(self, width: int, env: dict[str, str]) -> str:
        """What the tool writes to a terminal of so many columns."""
        master, slave = pty.openpty()
        fcntl.ioctl(slave, termios.TIOCSWINSZ, struct.pack("HHHH", 24, width, 0, 0))
        tool = subprocess.Popen([TOOL, "good..", "--no-check", "--", "sh", "-c", IS_OK], cwd=self.repo, env=env,
                                stdin=slave, stdout=slave, stderr=slave)
        os.close(slave)
        text = b""
        while select.select([master], [], [], PATIENCE)[0]:
            try:
                text += os.read(master, 65536)
            except OSError:  # the end of a terminal
                break
        os.close(master)
        self.assertEqual(tool.wait(), 0)
        return text.decode("utf-8")

    def test_a_reader_that_goes_away_and_help(self) -> None:
        self.make(3, 2)
        self.search()
        ended = subprocess.run([TOOL, "--help"], capture_output=True, text=True, env=ENV, check=True)
        for word in ("--flakes", "--resume", "exit status:", "CULPRIT_RUN", "GOOD..BAD"):
            self.assertIn(word, ended.stdout)
        ended = subprocess.run(["sh", "-c", f"'{TOOL}' --json | true"], cwd=self.repo, env=ENV, capture_output=True,
                               text=True, check=False)
        self.assertEqual(ended.stderr, "")

    def test_time_that_goes_back(self) -> None:
        sys.path.insert(0, TOOLS)
        import culprit_lib  # pylint: disable=import-outside-toplevel
        self.make(3, 2)
        journal = os.path.join(self.folder, "journal")
        culprit_lib.found(PROGRAM, journal)
        finder = culprit_lib.Finder(PROGRAM, journal, 0, lambda: None)
        self.addCleanup(finder.close)
        opened = {"key": "0" * 32, "test": "t", "base": "0" * 40, "suspects": [["1" * 40, 1]], "calm": 1,
                  "rate": [1, 20], "bar": [9, 10], "width": 1, "reruns": 1}
        self.assertEqual(finder.ask("open", **opened)["reply"], "open")
        real, latest = time.time_ns, finder.latest
        self.addCleanup(setattr, time, "time_ns", real)
        for moved in (-3_600, -100 * 365 * 86_400, 200 * 365 * 86_400):
            time.time_ns = lambda: real() + moved * 1_000_000_000  # noqa: B023
            reply = finder.ask("lease", key="1" * 32, worker="w")
            self.assertEqual(reply["deadline"], latest + culprit_lib.LEASE)
        self.assertEqual(finder.latest, culprit_lib.LATEST)


if __name__ == "__main__":
    unittest.main()
