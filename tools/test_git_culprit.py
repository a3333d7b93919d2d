"""Tests of git culprit: what it answers, how and where it runs, over real repositories and the real program."""
from __future__ import annotations

import errno
import json
import os
import re
import shutil
import subprocess
import sys
import types
import unittest
from unittest import mock

from case_git_culprit import ENV, IS_OK, TOOLS, Case

sys.path.insert(0, TOOLS)
from culprit_runs import Crew, Job, Step  # noqa: E402
from culprit_search import erase  # noqa: E402

SIGNALS = types.SimpleNamespace(check=lambda: None, wait=lambda _: None)
GUARD = types.SimpleNamespace(note=lambda *_: None)


class Answers(Case):
    """What a search comes to."""

    def test_the_commit_that_broke_it_is_named_wherever_it_is(self) -> None:
        for culprit in (1, 7, 12):
            shutil.rmtree(self.repo, ignore_errors=True)
            ids = self.make(12, culprit)
            with self.subTest(culprit=culprit):
                report = self.search()
                self.assertEqual((report["standing"], report["culprit"]["position"]), ("confirmed", culprit))
                self.assertEqual(report["culprit"]["commit"], ids[culprit])
                self.assertEqual(report["verified"], 2)
                self.assertEqual(report["nobody"], 0)
                self.assertEqual([check["verdict"] for check in report["checks"]], ["pass", "fail"])

    def test_the_prose_says_who_how_sure_and_what_to_do(self) -> None:
        self.make(9, 4, subject='change {} "of" tëa')
        short = self.git("rev-parse", "--short", "main~5")
        ended = self.shell("good..", "--flakes", "1/20", test=IS_OK)
        self.assertEqual(ended.status, 0)
        first, second = ended.out.splitlines()[:2]
        self.assertRegex(first, rf'^{short} "change 4 "of" tëa" \(Zoë, 14 Nov 2023\) broke it: 99\.99 %, '
                                r"confirmed by 2 reruns, after \d+ runs in [\d.]+ (min \d+ )?s\.$")
        self.assertEqual(second, "Nobody to blame: below 0.01 %.")
        self.assertIn(f"git revert {short}", ended.out)
        self.assertNotIn("\x1b", ended.out + ended.err)
        runs = [line for line in ended.err.splitlines() if re.match(r"(re)?run \d+: ", line)]
        self.assertEqual(len(runs), json.loads(self.culprit("--json").out)["runs"].__len__())

    def test_flakes_mislead_nobody(self) -> None:
        self.make(20, 13)
        flaky = f"case $CULPRIT_RUN in check-1|2|5|8) exit 1;; esac; {IS_OK}"
        report = self.search("--flakes", "20%", test=flaky)
        self.assertEqual(report["culprit"]["position"], 13)
        self.assertEqual([check["verdict"] for check in report["checks"]], ["fail", "pass", "fail"])
        fails = [run for run in report["runs"] if run["verdict"] == "fail" and run["position"] < 13]
        self.assertEqual(bool(fails), "sound by this" in " ".join(report["notes"]))

    def test_nobody_is_to_blame_where_the_red_run_was_a_flake(self) -> None:
        self.make(15, 0)
        ended = self.shell("good..main", test=f"case $CULPRIT_RUN in check-2|1) exit 1;; esac; {IS_OK}")
        self.assertEqual(ended.status, 1, ended.err)
        self.assertRegex(ended.out, r"^Nobody in good\.\.main is to blame: [\d.]+ %, after \d+ runs in ")
        self.assertNotIn("Before the search", ended.out)

    def test_a_fail_at_the_end_before_the_search_counts(self) -> None:
        self.make(40, 13)
        told, untold = (self.search(*words)["runs"] for words in ((), ("--no-check",)))
        self.assertEqual(untold[0]["position"], 40)
        self.assertLess(told[0]["position"], 40)
        self.assertLess(len(told), len(untold))

    def test_a_pass_at_the_end_is_explained_and_the_search_decides(self) -> None:
        self.make(5, 0)
        ended = self.culprit("good..main", "--", "true")
        self.assertEqual(ended.status, 1)
        self.assertIn("the test passed at BAD", ended.err)
        self.assertIn("Before the search the test passed at BAD", ended.out)

    def test_a_broken_test_may_pass_at_times(self) -> None:
        self.make(12, 5)
        missing = f"case $CULPRIT_RUN in check-2|1|4) exit 0;; esac; {IS_OK}"
        report = self.search("--misses", "20%", test=missing)
        self.assertEqual(report["culprit"]["position"], 5)
        self.assertEqual(report["numbers"]["misses"], [1, 5])

    def test_a_base_that_fails_is_found_out_first(self) -> None:
        self.make(6, 0)
        ended = self.shell("good..main", test="echo no such table; exit 1")
        self.assertEqual(ended.status, 3)
        self.assertIn("the test fails at GOOD too", ended.out)
        self.assertIn("| no such table", ended.out)
        self.assertIn("3 of 3 runs", ended.out)
        self.assertRegex(self.audit(), "^legal entries 1 ")
        ended = self.culprit("good..main", "--no-check", "-q", "--json", "--", "false")
        self.assertEqual((ended.status, ended.report["standing"], ended.err), (3, "vindicated", ""))

    def test_a_contradicted_name_is_searched_once_more(self) -> None:
        self.make(8, 6)
        rerun = next(run["run"] for run in self.search()["runs"] if run["stage"] == "verify")
        flaky = f"[ $CULPRIT_RUN = {rerun} ] && exit 0; {IS_OK}"
        report = self.search(test=flaky)
        self.assertEqual((report["tries"], report["culprit"]["position"], report["status"]), (2, 6, 0))
        first, second = ([run["belief"] for run in report["runs"] if run["try"] == number] for number in (1, 2))
        self.assertLess(len(second), len(first))
        self.assertGreater(second[0][5], 3 * first[0][5])
        self.assertEqual(self.audit(2).split()[3:5], ["searches", "2"])
        report = self.search("--tries", "1", test=flaky, status=3)
        self.assertEqual(report["standing"], "vindicated")
        self.assertIn("a rerun contradicted it", report["reason"])

    def test_numbers_without_room_end_without_an_answer(self) -> None:
        self.make(6, 3)
        report = self.search("--flakes", "999/1000", "--no-check", status=3)
        self.assertEqual(report["standing"], "inconclusive")
        self.assertIn("no room for more runs", report["reason"])

    def test_every_nth_commit(self) -> None:
        ids = self.make(24, 9)
        report = self.search("--every", "8")
        culprit = report["culprit"]
        self.assertEqual((culprit["commit"], culprit["commits"]), (ids[16], 8))
        ended = self.culprit("--show")
        self.assertIn('One of the 8 commits up to', ended.out)
        self.assertIn(f"git culprit {ids[8][:7]}..{ids[16][:7]} --flakes 1/20 -- sh -c", ended.out)

    def test_a_thousand_commits_and_more(self) -> None:
        ids = self.make(1001, 777)
        ended = self.culprit("good..main", "--", "true")
        self.assertEqual(ended.status, 2)
        self.assertIn("has 1,001 commits, and a search takes 1,000: add --every 2", ended.err)
        report = self.search("--every", "2")
        self.assertEqual((report["culprit"]["commit"], report["culprit"]["commits"]), (ids[777], 2))
        ended = self.shell(f"{ids[1]}..main", "--json", "-q", test=IS_OK)
        self.assertEqual(ended.report["culprit"]["commit"], ids[777])


class Runs(Case):
    """How runs are made."""

    def test_each_run_begins_clean_and_keeps_a_build_where_that_is_asked(self) -> None:
        self.make(6, 3, lambda _: {".gitignore": "*.o\n"})
        dirty = ("[ -e left ] || [ -e a.o ] || [ -d deep/.git ] || [ $(cat number) != $CULPRIT_POSITION ] && exit 200; "
                 f"touch left a.o; git init -q deep; {IS_OK}; verdict=$?; echo x > number; git add left; exit $verdict")
        self.assertEqual(self.search(test=dirty)["culprit"]["position"], 3)
        kept = (f"[ $(cat number) != $CULPRIT_POSITION ] && exit 200; echo x >> built; cp built '{self.done}'; "
                f"echo x > number; {IS_OK}")
        report = self.search("--keep-build", test=kept)
        with open(self.done, encoding="ascii") as file:
            self.assertEqual(len(file.readlines()), len(report["runs"]) + 2)

    def test_the_environment_of_a_run(self) -> None:
        self.make(4, 2)
        said = f"echo $CULPRIT_COMMIT $CULPRIT_POSITION $(git rev-parse HEAD) $CULPRIT_RUN >> '{self.done}'; {IS_OK}"
        report = self.search(test=said)
        with open(self.done, encoding="ascii") as file:
            rows = [line.split() for line in file]
        self.assertTrue(all(row[0] == row[2] for row in rows))
        self.assertEqual([row[3] for row in rows], ["check-1", "check-2", *(str(run["run"]) for run in report["runs"])])
        self.assertEqual([row[1] for row in rows[2:]], [str(run["position"]) for run in report["runs"]])

    def test_it_runs_in_the_folder_that_the_user_is_in(self) -> None:
        self.make(5, 2, lambda _: {"a b/ü/here.sh": "grep -qx ok ../../state\n"})
        ended = self.culprit("good..", "--json", "--", "sh", "here.sh", folder=os.path.join(self.repo, "a b", "ü"))
        self.assertEqual(ended.report["culprit"]["position"], 2)

    def test_what_is_here_but_not_committed_is_said(self) -> None:
        self.make(4, 2)
        with open(os.path.join(self.repo, ".git", "info", "exclude"), "a", encoding="ascii") as file:
            file.write("/my test.sh\n")
        path = os.path.join(self.repo, "my test.sh")
        with open(path, "w", encoding="ascii") as file:
            file.write(f"#!/bin/sh\n{IS_OK}\n")
        os.chmod(path, 0o755)
        ended = self.culprit("good..", "--", "./my test.sh")
        self.assertEqual(ended.status, 2)
        self.assertIn("./my test.sh isn't in", ended.err)
        self.assertEqual(self.culprit("good..", "--", path).status, 0)
        ended = self.culprit("good..", "--", "sh", "my test.sh")
        self.assertIn("note: my test.sh isn't in", ended.err)
        self.assertEqual(ended.status, 3)

    def test_the_statuses_of_a_command(self) -> None:
        self.make(2, 1)
        for status in (1, 2, 124, 126, 127):
            with self.subTest(status=status):
                report = self.search(test=f"{IS_OK} || exit {status}")
                self.assertEqual((report["culprit"]["position"], report["checks"][1]["status"]), (1, status))
        for end, said in (("exit 128", "status 128"), ("exit 255", "status 255"), ("kill -SEGV $$", "SIGSEGV"),
                          ("kill -40 $$", "signal 40")):
            with self.subTest(end=end):
                ended = self.shell("good..main", test=f"{IS_OK} || {end}")
                self.assertEqual(ended.status, 3)
                self.assertIn(f"the command ended by {said} at", ended.err)

    def test_a_job_that_is_killed_ends_the_tool_and_the_search_goes_on(self) -> None:
        self.make(8, 5)
        test = f"mkdir '{self.folder}/once' 2>/dev/null && [ $CULPRIT_RUN = 2 ] && kill -9 $$; " \
               f"[ $CULPRIT_RUN = 2 ] || rmdir '{self.folder}/once'; {IS_OK}"
        ended = self.shell("good..", test=self.note(test))
        self.assertEqual(ended.status, 3)
        self.assertIn("ended by SIGKILL", ended.err)
        ended = self.culprit("--resume", "--json")
        self.assertEqual((ended.status, ended.report["culprit"]["position"]), (0, 5))
        self.assert_once()

    def test_a_run_that_takes_too_long_ends_with_all_that_it_started(self) -> None:
        self.make(3, 2)
        note = f">> '{self.done}'"
        hangs = f"{IS_OK} || {{ trap '' TERM; sleep 7777 & echo $! {note}; echo $$ {note}; wait; sleep 7777; }}"
        quick = ("--timeout", "10", "--jobs", "4", "--no-check", "--flakes", "1%", "--bar", "90%")
        report = self.search(*quick, test=hangs)
        self.assertEqual(report["culprit"]["position"], 2)
        self.assert_gone(self.done)

    def job(self, *words: str) -> Job:
        """A run of a command that has begun."""
        job = Job(1, "1", 1, self.done, lambda _: [Step(list(words), self.folder, ENV)])
        job.next(GUARD)
        return job

    def test_a_run_that_has_ended_in_time_is_seen_late(self) -> None:
        crew = Crew(SIGNALS, GUARD, 60.0)
        crew.jobs[1] = job = self.job("true")
        job.step_began -= 3_600
        self.until(job.has_exited)
        with mock.patch.object(job, "has_exited", side_effect=[False, True, True]):  # it ends behind the first look
            self.assertEqual(crew.wait(0.0), [job])
        self.assertEqual((job.status, job.timed_out), (0, False))

    def test_a_machine_that_has_no_room_for_a_process_gives_no_verdict(self) -> None:
        for number, fault, status in ((errno.EAGAIN, "sh: Resource temporarily unavailable", None),
                                      (errno.ENOMEM, "sh: Cannot allocate memory", None),
                                      (errno.EACCES, "", 126), (errno.ENOENT, "", 127)):
            with self.subTest(number=number):
                with mock.patch("subprocess.Popen", side_effect=OSError(number, os.strerror(number))):
                    job = self.job("sh")
                self.assertEqual((job.fault, job.status, job.has_exited()), (fault, status, True))

    def test_what_a_command_leaves_running_ends_with_it(self) -> None:
        self.make(2, 1)
        self.search(test=f"sleep 7777 & echo $! >> '{self.done}'; {IS_OK}")
        self.assert_gone(self.done)

    def test_two_jobs_run_beside_each_other_in_trees_of_their_own(self) -> None:
        self.make(30, 17)
        both = f"until [ $(grep -c + '{self.done}') -gt 1 ]; do sleep 0.01; done"  # the first one waits for another
        test = (f"mkdir .busy || exit 200; echo + $PWD >> '{self.done}'; {both}; {IS_OK}; verdict=$?; "
                f"echo - $PWD >> '{self.done}'; rmdir .busy; exit $verdict")
        report = self.search("--jobs", "2", test=test)
        self.assertEqual(report["culprit"]["position"], 17)
        with open(self.done, encoding="utf-8") as file:
            rows = [line.split(" ", 1) for line in file]
        at_work: set[str] = set()
        most = 0
        for sign, tree in rows:
            (at_work.add if sign == "+" else at_work.discard)(tree)
            most = max(most, len(at_work))
        self.assertEqual((most, len({tree for _, tree in rows})), (2, 2))
        self.assertRegex(self.audit(), "^legal")

    def test_work_trees_may_stand_elsewhere(self) -> None:
        self.make(4, 3)
        trees = os.path.join(self.folder, "some trees")
        self.search("--trees", trees, "--jobs", "2", test=f"pwd >> '{self.done}'; {IS_OK}")
        with open(self.done, encoding="utf-8") as file:
            self.assertTrue(all(line.startswith(trees + "/git-culprit-") for line in file))
        self.assertEqual(os.listdir(trees), [])

    def test_a_run_is_told_its_own_folder(self) -> None:
        self.make(3, 2)
        test = ("import os, subprocess, sys; same = os.environ['PWD'] == os.getcwd() and 'OLDPWD' not in os.environ; "
                "sys.exit(129 if not same else subprocess.run(['grep', '-qx', 'ok', 'state']).returncode)")
        env = {**ENV, "PWD": self.repo, "OLDPWD": self.folder}
        ended = self.culprit("good..", "--json", "--", sys.executable, "-c", test, env=env)
        self.assertEqual((ended.status, ended.report["culprit"]["position"]), (0, 2), ended.err)

    def test_files_whose_attributes_alone_change(self) -> None:
        texts = ("\n", "*.txt text eol=crlf\n")
        self.make(6, 0, lambda number: {"a.txt": "a\n", ".gitattributes": texts[number % 2]})
        test = "[ $(wc -c < a.txt) = $((2 + CULPRIT_POSITION % 2)) ]"
        for more in ((), ("--keep-build",)):
            report = self.search("--no-check", *more, test=f"{test} || exit 129; [ $CULPRIT_POSITION -lt 4 ]")
            self.assertEqual(report["culprit"]["position"], 4)

    def test_submodules(self) -> None:
        self.make(4, 2)
        outer, self.repo = self.repo, os.path.join(self.folder, "outer")
        self.make(1, 0)
        allow = {**ENV, "GIT_CONFIG_COUNT": "1", "GIT_CONFIG_KEY_0": "protocol.file.allow",
                 "GIT_CONFIG_VALUE_0": "always"}
        self.git("submodule", "--quiet", "add", outer, "part", env=allow)
        self.git("commit", "-qm", "with a part")
        self.git("commit", "-qm", "nothing", "--allow-empty")
        self.git("checkout", "-q", "good", folder=os.path.join(self.repo, "part"))
        self.git("commit", "-qam", "the part is older")
        with open(os.path.join(self.repo, ".git", "config"), encoding="utf-8") as file:
            config = file.read()
        self.git("submodule", "deinit", "-q", "-f", "part")
        fresh = "[ ! -e part/left ] && [ ! -e part/number.left ] || exit 129; touch part/left; echo x > part/number; "
        parted = "if [ $CULPRIT_POSITION -gt 1 ]; then [ -e part/state ]; else [ ! -e part ]; fi || exit 130;"
        test = f"{parted} [ $CULPRIT_POSITION -lt 2 ] || {{ {fresh} grep -qx broken part/state; }}"
        ended = self.shell("good..main", "--submodules", "--json", test=test, env=allow)
        self.assertEqual((ended.status, ended.report["culprit"]["position"]), (0, 4), ended.err)
        with open(os.path.join(self.repo, ".git", "config"), encoding="utf-8") as file:
            self.assertNotIn("submodule", file.read())
        with open(os.path.join(self.repo, ".git", "config"), "w", encoding="utf-8") as file:
            file.write(config)
        test = f"[ ! -e part/state ] || exit 131; git submodule -q update --init; {parted} [ $CULPRIT_POSITION -lt 4 ]"
        ended = self.shell("good..main", "--json", test=test, env=allow)
        self.assertEqual((ended.status, ended.report["culprit"]["position"]), (0, 4), ended.err)
        self.git("submodule", "-q", "update", "--init", env=allow)
        ended = self.shell("good..origin/main", "--json", folder=os.path.join(self.repo, "part"))  # its .git is a file
        self.assertEqual(ended.report["culprit"]["position"], 2, ended.err)


class Repositories(Case):
    """Where it runs, and what it leaves alone."""

    def test_the_user_keeps_his_work_tree_index_and_branch(self) -> None:
        self.make(6, 3)
        with open(os.path.join(self.repo, "number"), "w", encoding="ascii") as file:
            file.write("mine\n")
        self.git("add", "number")
        with open(os.path.join(self.repo, "state"), "w", encoding="ascii") as file:
            file.write("mine too\n")
        index = os.path.join(self.repo, ".git", "index")
        before = (os.stat(index).st_mtime_ns, self.git("for-each-ref"), open(index, "rb").read())
        ended = self.shell("good..", "--jobs", "2", "--json", test=IS_OK)
        self.assertEqual(ended.report["culprit"]["position"], 3)
        self.assertEqual((os.stat(index).st_mtime_ns, self.git("for-each-ref"), open(index, "rb").read()), before)
        self.assertEqual(self.git("status", "--porcelain"), "M  number\n M state")

    def test_no_hook_is_run(self) -> None:
        self.make(3, 2)
        hook = os.path.join(self.repo, ".git", "hooks", "post-checkout")
        os.makedirs(os.path.dirname(hook), exist_ok=True)
        with open(hook, "w", encoding="utf-8") as file:
            file.write(f"#!/bin/sh\ntouch '{self.done}'\n")
        os.chmod(hook, 0o755)
        self.search()
        self.assertFalse(os.path.exists(self.done))

    def test_linked_work_trees_bare_repositories_and_long_ids(self) -> None:
        ids = self.make(6, 4)
        linked = os.path.join(self.folder, "linked")
        self.git("worktree", "add", "-q", "--detach", linked, "main~1")
        ended = self.shell("good..", "--json", test=IS_OK, folder=linked)
        self.assertEqual((len(ended.report["suspects"]), ended.report["culprit"]["commit"]), (5, ids[4]))
        self.assertEqual(len(self.git("worktree", "list").splitlines()), 2)
        bare = os.path.join(self.folder, "bare.git")
        self.git("clone", "-q", "--bare", self.repo, bare)
        ended = self.shell("good..main", "--json", test=IS_OK, folder=bare)
        self.assertEqual(ended.report["culprit"]["commit"], ids[4])
        shutil.rmtree(self.repo)
        ids = self.make(6, 4, form="sha256")
        self.assertEqual(self.search()["culprit"]["commit"], ids[4])

    def test_what_cannot_be_removed_stays(self) -> None:
        inner = os.path.join(self.folder, "of another user", "inner")
        os.makedirs(inner)
        denied = mock.patch("os.chmod", side_effect=PermissionError(errno.EPERM, "denied"))
        with mock.patch("os.access", return_value=False), denied:
            erase(os.path.dirname(inner))
        self.assertFalse(os.path.exists(inner))  # here it could be

    def test_a_commit_that_git_cannot_check_out(self) -> None:
        self.make(4, 2)
        path = os.path.join(self.folder, "bin")
        os.mkdir(path)
        with open(os.path.join(path, "git"), "w", encoding="utf-8") as file:
            file.write(f"""#!/bin/sh
case "$*" in *" checkout "*|*" worktree add "*) echo 'no space left' >&2; exit 1;; esac
exec '{shutil.which("git")}' "$@"
""")
        os.chmod(os.path.join(path, "git"), 0o755)
        ended = self.shell("good..", env={**ENV, "PATH": path + os.pathsep + ENV["PATH"]})
        self.assertEqual(ended.status, 3)
        output = re.search("git could not check a commit out; what it said is in (.*)", ended.err)
        self.assertIsNotNone(output)
        with open(output[1] if output else "", encoding="utf-8") as file:
            self.assertIn("no space left", file.read())
        self.assertEqual(self.culprit("--resume", "-q").status, 0)

    def test_it_may_be_called_from_a_hook(self) -> None:
        self.make(4, 3)
        index = os.path.join(self.folder, "index")
        env = {**ENV, "GIT_DIR": os.path.join(self.repo, ".git"), "GIT_INDEX_FILE": index, "GIT_PREFIX": "x/"}
        self.assertEqual(self.search(env=env)["culprit"]["position"], 3)
        self.assertFalse(os.path.exists(index))

    def test_a_merge_is_one_suspect_and_the_end_leads_inside_it(self) -> None:
        self.make(2, 0)
        self.git("checkout", "-q", "-b", "side", "good")
        for text in ("ok", "broken", "broken"):
            with open(os.path.join(self.repo, "state"), "w", encoding="ascii") as file:
                file.write(f"{text}\n")
            self.git("commit", "-q", "--allow-empty", "-am", f"side {text}")
        self.git("checkout", "-q", "main")
        self.git("merge", "-q", "--no-ff", "-m", "the merge", "side")
        self.git("commit", "-q", "--allow-empty", "-m", "after it")
        page = os.path.join(self.folder, "page.html")
        report = self.search("--html", page)
        self.assertEqual((len(report["suspects"]), report["culprit"]["subject"]), (4, "the merge"))
        command, purpose = report["next"][2]
        self.assertEqual(purpose, "searches what came in by the merge")
        self.assertIn(f"{command}  # {purpose}", self.culprit("--show").out)
        self.assertIn("it is the merge itself that broke it", self.culprit("--show").out)
        with open(page, encoding="utf-8") as file:
            self.assertIn("searches what came in by the merge", file.read())
        ended = subprocess.run(["sh", "-c", command], cwd=self.repo, env=ENV, capture_output=True, text=True,
                               check=True)
        self.assertIn('"side broken" (Ann', ended.stdout)
        ended = self.shell("good..main", "--all")
        self.assertEqual(ended.status, 2)
        self.assertIn("--all is for a line of commits, and good..main has merges", ended.err)
        self.assertEqual(self.shell("good..main~1^2", "--all", "--json").report["culprit"]["subject"], "side broken")

    def test_any_text_in_names(self) -> None:
        subject = "チェックアウト \x1b[31m<script>alert(1)</script> & \u202e{}"
        self.make(5, 3, lambda _: {"dîr with space/é": "x"}, subject=subject)
        self.git("tag", "gut ü".replace(" ", "-"), "good")
        page = os.path.join(self.folder, "the page.html")
        ended = self.shell("gut-ü..main", "--html", page, test=f"{IS_OK} # ü\n")
        self.assertEqual(ended.status, 0, ended.err)
        self.assertNotIn("\x1b", ended.out + ended.err)
        self.assertNotIn("\u202e", ended.out)
        self.assertIn("チェックアウト ?[31m<script>", ended.out)
        with open(page, encoding="utf-8") as file:
            text = file.read()
        self.assertNotIn("<script", text)
        self.assertIn("&lt;script&gt;", text)
        self.assertNotRegex(text, r"https?://|src=|<link|@import|url\(")

    def test_priors(self) -> None:
        big = "".join(f"{number}\n" for number in range(500))
        self.make(4, 2, lambda number: {"src/a/b.c": "x" * number, "big": big if number >= 3 else ""})
        self.assertEqual(self.search("--prior", "size")["numbers"]["weights"], [1, 1, 3, 1])
        report = self.search("--prior", "paths:none,src/**/*.c", "--calm", "25%", "--bar", "99%", "--reruns", "2")
        self.assertEqual(report["numbers"]["weights"], [1, 1, 1, 1])
        self.assertEqual((report["numbers"]["calm"], report["verified"]), (1, 4))
        report = self.search("--prior", "paths:big", "--calm", "7")
        self.assertEqual((report["numbers"]["weights"], report["numbers"]["calm"]), ([1, 1, 3, 1], 7))


if __name__ == "__main__":
    unittest.main()
