"""Tests of git culprit that cut a search off. They look at three things: the journal is legal by the program's audit,
no run that got to its end was made twice, and what comes out at last is what a search has that nobody stopped."""
from __future__ import annotations

import contextlib
import json
import os
import shutil
import signal
import subprocess
import sys
import time
import unittest
from typing import Any, Sequence

from case_git_culprit import ENV, IS_OK, PATIENCE, PROGRAM, TOOL, TOOLS, Case

sys.path.insert(0, TOOLS)
from culprit_lib import Finder  # noqa: E402

REMOVAL = ("worktree remove", "[ -d \"$tree\" ]")  # the command of git, and where it is one


class Kills(Case):
    """A search that is cut off goes on where it was."""

    def finder(self, line: int, after: bool) -> str:
        """A program that kills its caller at a line of the script, before the real one has it or after it answered."""
        path = os.path.join(self.folder, f"finder {line} {after}")
        with open(path, "w", encoding="utf-8") as file:
            file.write(f"""#!{sys.executable}
import os, signal, subprocess, sys
if sys.argv[1] != "run":
    os.execv({PROGRAM!r}, [{PROGRAM!r}, *sys.argv[1:]])
real = subprocess.Popen([{PROGRAM!r}, *sys.argv[1:]], stdin=subprocess.PIPE, stdout=subprocess.PIPE, bufsize=0)
for number, text in enumerate(sys.stdin.buffer):
    if number == {line} and not {after}:
        break
    real.stdin.write(text)
    reply = real.stdout.readline()
    if number == {line}:
        break
    sys.stdout.buffer.write(reply)
    sys.stdout.buffer.flush()
else:
    sys.exit(0)
os.kill(os.getppid(), signal.SIGKILL)
""")
        os.chmod(path, 0o755)
        return path

    def test_a_kill_at_each_line_of_the_script(self) -> None:
        self.make(2, 2)
        words = ("good..", "--no-check", "--flakes", "1%", "--bar", "90%")
        whole = self.search(*words[1:], test=self.note(IS_OK))
        lines = ["farm", "open", *["lease", "report", "search"] * len(whole["runs"])]
        for line, kind in enumerate(lines):
            for after in (False, True) if kind in ("open", "lease", "report") else (False,):
                with self.subTest(line=line, after=after):
                    shutil.rmtree(os.path.join(self.repo, ".git", "culprit"))
                    os.unlink(self.done)
                    ended = self.shell(*words, "--finder", self.finder(line, after), test=self.note(IS_OK))
                    self.assertEqual(ended.status, -signal.SIGKILL)
                    ended = self.culprit("--resume", "--json")
                    self.assertEqual(ended.status, 0, ended.err)
                    self.assert_same(ended.report, whole)
                    self.assert_once()
                    self.assert_clean()

    def test_a_kill_where_a_commit_cannot_be_tested(self) -> None:
        self.make(3, 3)
        words = ("good..", "--no-check", "--flakes", "1%", "--bar", "90%")
        test = self.note(f"[ $CULPRIT_POSITION != 2 ] || exit 125; {IS_OK}")
        whole = self.search(*words[1:], "--calm", "1", test=test, status=3)
        first = whole["untestable"] == [2] and next(run for run in whole["runs"] if run["verdict"] == "skip")["run"]
        for line, after in ((3 * first, False), (3 * first, True), (3 * first + 1, False)):  # its report, and the page
            with self.subTest(line=line, after=after):
                shutil.rmtree(os.path.join(self.repo, ".git", "culprit"))
                os.unlink(self.done)
                ended = self.shell(*words, "--calm", "1", "--finder", self.finder(line, after), test=test)
                self.assertEqual(ended.status, -signal.SIGKILL)
                ended = self.culprit("--resume", "--json")
                self.assertEqual((ended.status, ended.report["untestable"]), (3, [2]), ended.err)
                self.assertEqual(ended.report["candidates"], whole["candidates"])
                self.assert_same(ended.report, whole)
                self.assert_once()

    def assert_same(self, report: dict[str, Any], whole: dict[str, Any]) -> None:
        """The same runs with the same verdicts and beliefs as in the search that nobody stopped."""
        members = ("run", "position", "stage", "verdict", "fate", "belief", "nobody")
        self.assertEqual([[run[name] for name in members] for run in report["runs"]],
                         [[run[name] for name in members] for run in whole["runs"]])

    def test_a_kill_by_each_run(self) -> None:
        self.make(2, 2)
        words = ("good..", "--keep-build", "--flakes", "1%", "--bar", "90%")
        whole = self.search(*words[1:], test=self.note(IS_OK))
        for label in ["check-1", "check-2", *(str(run["run"]) for run in whole["runs"])]:
            with self.subTest(label=label):
                shutil.rmtree(os.path.join(self.repo, ".git", "culprit"))
                once = os.path.join(self.folder, f"once {label}")
                left = os.path.join(self.folder, f"left {label}")
                os.unlink(self.done)
                killing = (f"[ $CULPRIT_RUN = {label} ] && mkdir '{once}' 2>/dev/null && {{ "
                           f"touch \"$(git rev-parse --git-dir)/index.lock\"; sleep 7777 & echo $! > '{left}'; "
                           f"kill -9 $PPID; wait; }}; {self.note(IS_OK)}")
                ended = self.shell(*words, test=killing)
                self.assertEqual(ended.status, -signal.SIGKILL)
                ended = self.culprit("--resume", "--json")
                self.assertEqual(ended.status, 0, ended.err)
                self.assert_gone(left)
                self.assert_same(ended.report, whole)
                self.assert_once()
                self.assert_clean()

    def test_a_kill_as_a_work_tree_is_taken_away(self) -> None:
        self.make(6, 4)
        whole = self.search()
        kills = {"before": "kill -9 $PPID; exit 1",
                 "half": "rm -r \"$tree\"; kill -9 $PPID; exit 1",
                 "by another": "kill -9 $PPID; sleep 1; exec \"$real\" \"$@\""}
        for name, does in kills.items():
            for words in (("--json", "--jobs", "2"), ("--keep-build",), ("--keep-build", "--no-check")):
                with self.subTest(name=name, words=words):
                    shutil.rmtree(os.path.join(self.repo, ".git", "culprit"))
                    killed = self.shell("good..main", *words, env=self.git_that(does, *REMOVAL))
                    self.assertEqual(killed.status, -signal.SIGKILL)
                    ended = self.culprit("--resume", "--json")
                    self.assertEqual(ended.status, 0, ended.err)
                    self.assertEqual(ended.report["culprit"], whole["culprit"])
                    self.assert_clean()

    def test_a_kill_as_a_search_ends_of_which_the_program_was_not_asked(self) -> None:
        self.make(6, 4)
        for status, standing in ((1, "base fails"), (125, "untestable")):
            for words in ((), ("--jobs", "2")):
                with self.subTest(standing=standing, words=words):
                    test = self.note(f"echo no compiler; exit {status}")
                    whole = self.search(*words, test=test, status=3)
                    self.assertEqual(whole["standing"], standing)
                    shutil.rmtree(os.path.join(self.repo, ".git", "culprit"))
                    os.unlink(self.done)
                    env = self.git_that("kill -9 $PPID; exit 1", *REMOVAL)
                    killed = self.shell("good..main", "--keep-build", *words, test=test, env=env)
                    self.assertEqual(killed.status, -signal.SIGKILL)
                    ended = self.culprit("--resume", "--json")
                    self.assertEqual((ended.status, ended.report["reason"]), (3, whole["reason"]), ended.err)
                    self.assertEqual(*([check["verdict"] for check in report["checks"] if check["position"] == 0]
                                       for report in (ended.report, whole)))
                    self.assert_once()
                    self.assert_clean()
                    shutil.rmtree(os.path.join(self.repo, ".git", "culprit"))
                    os.unlink(self.done)

    def test_a_kill_as_the_journal_is_founded(self) -> None:
        """The program that goes on, for a while as long as nobody else begins, isn't in the way of the next search."""
        self.make(4, 2)
        first, ended, other = (os.path.join(self.folder, name) for name in ("first", "ended", "other"))
        path = os.path.join(self.folder, "finder")
        with open(path, "w", encoding="utf-8") as file:
            file.write(f"""#!/bin/sh
[ "$1" = found ] || exec '{PROGRAM}' "$@"
if mkdir '{first}' 2>/dev/null; then
  kill -9 $PPID
  for turn in 1 2 3 4 5 6 7 8 9 10 11 12 13 14 15 16 17 18 19 20; do [ -e '{other}' ] || sleep 0.1; done
else
  touch '{other}'
  until [ -e '{ended}' ]; do sleep 0.1; done
fi
'{PROGRAM}' "$@"
status=$?
touch '{ended}'
exit $status
""")
        os.chmod(path, 0o755)
        self.assertEqual(self.shell("good..main", "--finder", path).status, -signal.SIGKILL)
        self.assertEqual(self.search("--finder", path)["culprit"]["position"], 2)

    def test_a_program_that_takes_its_time_to_end(self) -> None:
        self.make(4, 2)
        once = os.path.join(self.folder, "once")
        killed = self.shell("good..", test=f"[ $CULPRIT_RUN = 2 ] && mkdir '{once}' && kill -9 $PPID; {IS_OK}")
        self.assertEqual(killed.status, -signal.SIGKILL)
        journal = os.path.join(self.repo, ".git", "culprit", "1", "journal")
        path = os.path.join(self.folder, "finder")
        with open(path, "w", encoding="utf-8") as file:
            file.write(f"#!/bin/sh\n[ \"$1\" != run ] || echo >> '{self.done}'\nexec '{PROGRAM}' \"$@\"\n")
        os.chmod(path, 0o755)
        with contextlib.closing(Finder(PROGRAM, journal, 0, lambda: None)):
            tool = self.begin("--resume", "--json", "--finder", path)
            self.until(lambda: tool.poll() is not None or os.path.exists(self.done) and os.path.getsize(self.done) > 6)
        out, err = tool.communicate(timeout=PATIENCE)
        self.assertEqual(tool.returncode, 0, err)
        self.assertEqual(json.loads(out)["culprit"]["position"], 2)

    def test_git_that_fails_or_is_interrupted(self) -> None:
        self.make(6, 4, lambda _: {".gitmodules": "# none\n"})
        interrupts = "kill -INT $PPID; kill -INT $$"
        for does, command, said in (("exit 1", "worktree list", "git: it ended with 1"),
                                    ("exit 1", "ls-files", "git: it ended with 1"),
                                    (interrupts, "ls-files", "it was interrupted (SIGINT)")):
            with self.subTest(does=does, command=command):
                ended = self.shell("good..main", "-q", env=self.git_that(does, command))
                self.assertEqual(ended.status, 3, ended.err)
                self.assertIn(f"no answer: {said}\n", ended.err)
                self.assertIn("Go on: git culprit --resume 1", ended.err)
                ended = self.culprit("--resume", "--json")
                self.assertEqual((ended.status, ended.report["culprit"]["position"]), (0, 4), ended.err)
                self.assert_clean()
                shutil.rmtree(os.path.join(self.repo, ".git", "culprit"))

    def test_a_search_is_given_up_though_git_fails_at_first(self) -> None:
        self.make(5, 3)
        ended = self.shell("good..main", "-q", env=self.git_that("exit 1", "worktree list"))
        self.assertEqual(ended.status, 3, ended.err)
        ended = self.culprit("--abort", env=self.git_that("exit 1", "worktree list"))
        self.assertEqual((ended.status, ended.err), (3, "git culprit: no answer: git: it ended with 1\n"))
        self.assertEqual(self.culprit("--abort").status, 0)
        self.assert_clean()

    def test_a_killed_search_of_a_repository_that_moves(self) -> None:
        self.make(5, 3, lambda _: {".gitmodules": "# none\n"})
        once = os.path.join(self.folder, "once")
        killed = self.shell("good..", test=f"[ $CULPRIT_RUN = 2 ] && mkdir '{once}' && kill -9 $PPID; {IS_OK}")
        self.assertEqual(killed.status, -signal.SIGKILL)
        moved = os.path.join(self.folder, "moved")
        os.rename(self.repo, moved)
        self.repo = moved
        ended = self.culprit("--resume", "--json")
        self.assertEqual((ended.status, ended.report["culprit"]["position"]), (0, 3), ended.err)

    def test_kills_at_any_time_with_two_jobs(self) -> None:
        self.make(12, 8)
        test = self.note(f"sleep 0.0$((CULPRIT_POSITION % 7)); {IS_OK}")
        words: Sequence[str] = ("good..", "--jobs", "2", "--", "sh", "-c", test)
        limit = time.monotonic() + 12
        for count in range(60):
            if time.monotonic() > limit:
                break
            tool = self.begin(*words)
            try:
                tool.wait(0.1 + 0.03 * (count % 13) + 0.01 * count)
            except subprocess.TimeoutExpired:
                tool.kill()
            tool.communicate()
            words = ("--resume",) if os.path.isdir(os.path.join(self.repo, ".git", "culprit", "1")) else words
            if tool.returncode not in (-signal.SIGKILL, 3):
                break
        ended = self.culprit(*words)  # to its end, where it isn't there yet
        self.assertIn(ended.status, (0, 2), ended.err)
        ended = self.culprit("--show", "--json")
        self.assertEqual((ended.report["status"], ended.report["culprit"]["position"]), (0, 8))
        self.assertRegex(self.audit(), "^legal")
        self.assert_clean()

    def test_ctrl_c_ends_the_runs_and_the_search_goes_on(self) -> None:
        self.make(9, 4)
        left = os.path.join(self.folder, "left")
        hang = f"[ $CULPRIT_RUN = 3 ] && [ ! -e '{left}' ] && {{ sleep 7777 & echo $! > '{left}'; wait; }}"
        test = self.note(f"{hang}; {IS_OK}")
        for number in (signal.SIGINT, signal.SIGTERM, signal.SIGHUP):
            with self.subTest(number=number):
                tool = self.begin("good..", "--", "sh", "-c", test)
                self.until(lambda: os.path.exists(left) and os.path.getsize(left) > 0)
                tool.send_signal(number)
                _, err = tool.communicate(timeout=PATIENCE)
                self.assertEqual(tool.returncode, 3)
                self.assertIn(f"no answer: it was interrupted ({number.name})", err)
                self.assertIn("4 runs kept. Go on: git culprit --resume", err)
                self.assert_gone(left)
                self.assert_clean()
                self.assertEqual(self.culprit("--show", "--json").report["status"], None)
                ended = self.culprit("--resume", "--json")
                self.assertEqual((ended.status, ended.report["culprit"]["position"]), (0, 4))
                self.assert_once()
                shutil.rmtree(os.path.join(self.repo, ".git", "culprit"))
                os.unlink(self.done)
                os.unlink(left)

    def test_ctrl_c_where_the_program_does_not_answer(self) -> None:
        self.make(2, 1)
        path = os.path.join(self.folder, "finder")
        with open(path, "w", encoding="utf-8") as file:
            file.write(f"""#!/bin/sh
[ "$1" = run ] || exec '{PROGRAM}' "$@"
echo $$ > '{self.done}'
exec sleep 7777
""")
        os.chmod(path, 0o755)
        tool = self.begin("good..", "--no-check", "--finder", path, "--", "true")
        self.until(lambda: os.path.exists(self.done) and os.path.getsize(self.done) > 0)
        tool.send_signal(signal.SIGINT)
        _, err = tool.communicate(timeout=PATIENCE)
        self.assertEqual(tool.returncode, 3)
        self.assertIn("it was interrupted", err)
        self.assert_gone(self.done)

    def test_ctrl_c_ends_runs_that_do_not_heed_it(self) -> None:
        self.make(2, 1)
        test = f"trap '' TERM; echo $$ x > '{self.done}'; while :; do sleep 0.1; done"
        tool = self.begin("good..", "--", "sh", "-c", test)
        self.until(lambda: os.path.exists(self.done) and os.path.getsize(self.done) > 0)
        tool.send_signal(signal.SIGINT)
        time.sleep(1.2)
        tool.send_signal(signal.SIGINT)
        tool.communicate(timeout=PATIENCE)
        self.assertEqual(tool.returncode, 3)
        self.assert_gone(self.done)

    def test_a_cut_log_and_a_lost_program(self) -> None:
        self.make(6, 3)
        self.search()
        folder = os.path.join(self.repo, ".git", "culprit", "1")
        with open(os.path.join(folder, "log"), "rb") as file:
            log = file.read()
        for cut in (0, 1, len(log) // 3, len(log) // 2, len(log) - 1):
            with open(os.path.join(folder, "log"), "wb") as file:
                file.write(log[:cut])
            with self.subTest(cut=cut):
                ended = self.culprit("--resume", "--json")
                self.assertEqual((ended.status, ended.report["culprit"]["position"]), (0, 3), ended.err)
                self.assertRegex(self.audit(), "^legal")
        with open(os.path.join(folder, "log"), "wb") as file:
            file.write(log[:len(log) // 2])
        with open(os.path.join(folder, "journal"), "r+b") as file:
            file.truncate(70)
        ended = self.culprit("--resume")
        self.assertEqual(ended.status, 3)
        self.assertRegex(ended.err, r"ended with status 6: the journal is damaged at byte \d+")

    def test_a_disk_that_is_full(self) -> None:
        self.make(4, 2)
        plan = None
        for kilobytes in range(1, 40):
            tool = f"ulimit -f {kilobytes}; exec '{TOOL}' good.. -q --no-check -- sh -c '{IS_OK}'"
            ended = subprocess.run(["bash", "-c", tool], cwd=self.repo, env=ENV, capture_output=True, text=True,
                                   check=False)
            if ended.returncode == 0:
                break
            self.assertEqual(ended.returncode, 3, ended.stderr)
            self.assertIn("File too large", ended.stderr)
            plan = plan or "kept. Go on" in ended.stderr
            if "kept. Go on" in ended.stderr:
                ended = self.culprit("--resume", "--json")
                self.assertEqual((ended.status, ended.report["culprit"]["position"]), (0, 2), ended.err)
                self.assertRegex(self.audit(), "^legal")
                shutil.rmtree(os.path.join(self.repo, ".git", "culprit"))
        self.assertTrue(plan)

    def test_a_program_that_ends_and_a_repository_that_moves(self) -> None:
        self.make(5, 3)
        path = os.path.join(self.folder, "finder")
        with open(path, "w", encoding="utf-8") as file:
            file.write(f"""#!/bin/sh
[ "$1" = run ] || exec '{PROGRAM}' "$@"
sed -u 9q | '{PROGRAM}' "$@"
echo 'the journal could not be used' >&2
exit 5
""")
        os.chmod(path, 0o755)
        ended = self.shell("good..", "--keep-build", "--finder", path, test=self.note(IS_OK))
        self.assertEqual(ended.status, 3)
        self.assertIn("ended with status 5: the journal could not be used", ended.err)
        self.assertEqual(len(self.git("worktree", "list").splitlines()), 2)
        moved = os.path.join(self.folder, "moved")
        os.rename(self.repo, moved)
        self.repo = moved
        ended = self.culprit("--resume", "--json")
        self.assertEqual((ended.status, ended.report["culprit"]["position"]), (0, 3), ended.err)
        self.assert_once()
        self.assertEqual(self.git("status", "--porcelain"), "")

    def test_one_tool_works_in_a_repository(self) -> None:
        self.make(3, 2)
        tool = self.begin("good..", "--", "sh", "-c", f"echo $$ > '{self.done}'; sleep 7777")
        self.until(lambda: os.path.exists(self.done))
        for words in (("good..", "--", "true"), ("--resume",), ("--abort",)):
            ended = self.culprit(*words)
            self.assertEqual(ended.status, 3)
            self.assertIn(f"another git culprit works in this repository (process {tool.pid})", ended.err)
        self.assertEqual(self.culprit("--show").status, 0)
        tool.send_signal(signal.SIGINT)
        tool.communicate(timeout=PATIENCE)
        self.search()


if __name__ == "__main__":
    unittest.main()
