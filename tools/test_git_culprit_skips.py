"""Tests of git culprit: commits that can't be tested, over real repositories and the real program."""
from __future__ import annotations

import json
import os
import shutil
import subprocess
import sys
import unittest
from typing import Any, Iterable

from case_git_culprit import IS_OK, PROGRAM, Case

BUILDS = "grep -qx yes builds || exit 125"
TEST = f"{BUILDS}; {IS_OK}"


class Skips(Case):
    """What comes of commits that can't be tested."""

    def make_unbuildable(self, count: int, culprit: int, skipped: Iterable[int]) -> list[str]:
        """A repository of which the commits at some positions don't build."""
        broken = set(skipped)
        return self.make(count, culprit, lambda number: {"builds": "no\n" if number in broken else "yes\n"})

    def assert_skipped_once(self, report: dict[str, Any]) -> None:
        """Each commit that can't be tested was run once in its search, and those alone were skipped."""
        skipped = [run["position"] for run in report["runs"] if run["verdict"] == "skip"]
        self.assertEqual(sorted(skipped), sorted(set(skipped)))
        self.assertEqual(report["untestable"], sorted(skipped))
        for run in report["runs"]:
            self.assertEqual(run["fate"], "skipped" if run["verdict"] == "skip" else "counted")

    def test_a_culprit_among_commits_of_which_a_third_cannot_be_built(self) -> None:
        skipped = [number for number in range(1, 61) if number % 10 in (2, 6, 7)]
        ids = self.make_unbuildable(60, 25, skipped)
        for words in ((), ("--jobs", "3")):
            shutil.rmtree(os.path.join(self.repo, ".git", "culprit"), ignore_errors=True)
            report = self.search(*words, test=self.note(TEST))
            self.assertEqual((report["standing"], report["culprit"]["commit"]), ("confirmed", ids[25]))
            self.assertEqual((report["candidates"], report["status"]), (None, 0))
            self.assertLess(0, len(report["untestable"]))
            self.assertLessEqual(set(report["untestable"]), set(skipped))
            if not words:
                self.assert_skipped_once(report)
            self.assert_once()
            os.unlink(self.done)
        self.assertIn(" skipped) in ", self.culprit("--show").out)
        self.assertRegex(self.culprit("--show").out, r"\nCan't be tested: [0-9a-f]+ \"change \d+\"")

    def test_a_culprit_that_commits_which_cannot_be_built_hide(self) -> None:
        ids = self.make_unbuildable(60, 27, [number for number in range(1, 61) if number % 10 in (2, 6, 7)])
        page = os.path.join(self.folder, "page.html")
        report = self.search("--html", page, test=TEST, status=3)
        self.assertEqual((report["standing"], report["culprit"]), ("inconclusive", None))
        self.assert_skipped_once(report)
        left = report["candidates"]
        self.assertEqual([suspect["commit"] for suspect in left["suspects"]], ids[26:29])
        self.assertEqual([suspect["untestable"] for suspect in left["suspects"]], [True, True, False])
        self.assertEqual([suspect["share"] for suspect in left["suspects"]], [3333, 3333, 3333])
        self.assertEqual((left["nobody"], left["share"], left["below"]), (False, 9999, ids[25][:7]))
        names = f'from {ids[26][:7]} "change 26" to {ids[28][:7]} "change 28"'
        self.assertEqual(report["reason"], f"it is one of 3 commits, {names}: all but the last one can't be tested, so "
                                           "no run tells which")
        shown = self.culprit("--show").out
        self.assertIn(f"it is one of 3 commits, {names}", shown)
        self.assertIn(f'33.33 %    27  {ids[27][:7]} "change 27"', shown)
        self.assertIn(f"git log {ids[25][:7]}..{ids[28][:7]}", shown)
        self.assertRegex(shown, r"\n +\d+ +26 +[0-9a-f]{7} +skip ")
        with open(page, encoding="utf-8") as file:
            text = file.read()
        self.assertIn('<rect class="top skip"', text)
        self.assertIn("change 27&quot;: 33.33 %, can&#x27;t be tested", text)
        self.assertIn('<td class="skip">skip</td>', text)

    def test_a_stretch_that_hides_the_culprit_and_one_commit_before_a_broken_one(self) -> None:
        ids = self.make_unbuildable(60, 27, range(20, 38))
        report = self.search(test=TEST, status=3)
        self.assertEqual([each["position"] for each in report["candidates"]["suspects"]], list(range(20, 39)))
        self.assertIn(".. and 7 more\n", self.culprit("--show").out)
        self.assertEqual(len(self.culprit("--list").out.splitlines()), 2)
        report = self.search(test=f"[ $CULPRIT_POSITION != 26 ] || exit 125; {IS_OK}", status=3)
        self.assertEqual([each["commit"] for each in report["candidates"]["suspects"]], ids[26:28])
        self.assertIn(': the first one can\'t be tested', report["reason"])

    def test_every_nth_commit_of_which_some_cannot_be_built(self) -> None:
        ids = self.make_unbuildable(48, 27, range(17, 33))
        report = self.search("--every", "8", test=TEST, status=3)
        names = f'behind {ids[16][:7]} "change 16" up to {ids[40][:7]} "change 40"'
        self.assertEqual(report["reason"], f"it is one of the 24 commits {names}: of those tried all but the last one "
                                           "can't be tested, so no run tells which")
        self.assertEqual([each["commits"] for each in report["candidates"]["suspects"]], [8, 8, 8])
        self.assertIn(f"git culprit {ids[16][:7]}..{ids[40][:7]} --flakes 1/20 -- sh -c", report["next"][1][0])
        report = self.search("--every", "8", test="[ $CULPRIT_POSITION -lt 6 ] || exit 125", status=3)
        self.assertEqual(report["reason"], f'it is one of the 8 commits behind {ids[40][:7]} "change 40" up to '
                                           f'{ids[48][:7]} "change 48", or nobody: none of those tried can be tested, '
                                           "so no run tells which")

    def test_a_thousand_commits_of_which_nine_hundred_cannot_be_built(self) -> None:
        ids = self.make_unbuildable(1000, 640, (number for number in range(1, 1001) if number % 10))
        report = self.search("-q", "--keep-build", test=TEST, status=3)
        self.assertEqual([suspect["commit"] for suspect in report["candidates"]["suspects"]], ids[631:641])
        self.assert_skipped_once(report)
        self.assertLess(len(report["runs"]), 200)
        self.assertRegex(self.audit(), "^legal")

    def test_no_commit_can_be_tested(self) -> None:
        self.make(5, 2)
        ended = self.shell("good..main", test="echo no compiler; exit 125")
        self.assertEqual(ended.status, 3)
        self.assertRegex(ended.out, r"^No answer: neither GOOD \([0-9a-f]+\) nor BAD \([0-9a-f]+\) can be tested\.\n")
        self.assertIn("  | no compiler\n", ended.out)
        self.assertRegex(self.audit(), "^legal entries 1 ")
        report = self.search("--no-check", test="exit 125", status=3)
        self.assertEqual((report["standing"], report["untestable"]), ("inconclusive", [1, 2, 3, 4, 5]))
        self.assertEqual(report["reason"], "none of the 5 commits in good..main can be tested")
        self.assertTrue(report["candidates"]["nobody"])

    def test_good_cannot_be_tested(self) -> None:
        self.make(6, 3)
        ended = self.shell("good..main", "--json", test=f"[ $CULPRIT_POSITION = 0 ] && exit 125; {IS_OK}")
        self.assertEqual((ended.status, ended.report["culprit"]["position"]), (0, 3))
        self.assertRegex(ended.err, r"check: GOOD \([0-9a-f]+\) can't be tested \(the command ended with 125\), ")
        self.assertEqual((ended.report["untestable"], ended.report["checks"][0]["verdict"]), ([0], "skip"))
        shutil.rmtree(self.repo)
        ids = self.make(6, 1)
        report = self.search(test=f"[ $CULPRIT_POSITION = 0 ] && exit 125; {IS_OK}", status=3)
        self.assertEqual((report["standing"], report["candidates"]["share"]), ("inconclusive", 9999))
        self.assertIn(f'reached the bar, but isn\'t confirmed: a rerun is due of {ids[0][:7]} "', report["reason"])

    def test_a_folder_that_a_commit_lacks_cannot_be_tested(self) -> None:
        self.make(9, 6, lambda number: {"new/file": "x"} if number > 3 else {})
        ended = self.culprit("good..", "--json", "--", "sh", "-c", "grep -qx ok ../state",
                             folder=os.path.join(self.repo, "new"))
        self.assertEqual((ended.status, ended.report["culprit"]["position"]), (0, 6), ended.err)
        self.assertIn("check: GOOD (", ended.err)

    def test_bad_cannot_be_tested(self) -> None:
        ids = self.make(6, 3)
        ended = self.shell("good..main", "--json", test=f"[ $CULPRIT_POSITION = 6 ] && exit 125; {IS_OK}")
        self.assertEqual((ended.status, ended.report["culprit"]["position"]), (0, 3))
        self.assertIn("check: BAD (", ended.err)
        report = self.search(test="[ $CULPRIT_POSITION -lt 5 ] || exit 125", status=3)
        self.assertEqual([each["position"] for each in report["candidates"]["suspects"]], [5, 6])
        self.assertTrue(report["candidates"]["nobody"])
        self.assertIn(f'it is one of the last 2 commits, from {ids[5][:7]} "change 5" on, or nobody', report["reason"])
        report = self.search(test="[ $CULPRIT_POSITION -lt 6 ] || exit 125", status=3)
        self.assertIn(f'it is {ids[6][:7]} "change 6", or nobody', report["reason"])

    def test_a_run_that_takes_too_long_may_be_a_skip(self) -> None:
        self.make(5, 3)
        test = f"[ $CULPRIT_POSITION != 2 ] || sleep 7777; {IS_OK}"
        report = self.search("--timeout", "10", "--timeout-is", "skip", "--no-check", test=test, status=3)
        self.assertEqual([each["position"] for each in report["candidates"]["suspects"]], [2, 3])
        self.assertEqual(report["untestable"], [2])

    def test_numbers_without_room_are_no_matter_of_skips(self) -> None:
        self.make_unbuildable(6, 3, [3])
        report = self.search("--flakes", "999/1000", "--no-check", test=TEST, status=3)
        self.assertEqual((report["standing"], report["candidates"]), ("inconclusive", None))
        self.assertIn("no room for more runs", report["reason"])

    def test_searches_of_the_older_tool_go_on(self) -> None:
        """That tool noted a commit that can't be tested and stopped there: the run, or the check, is made again."""
        self.make_unbuildable(12, 5, [6])
        log = os.path.join(self.repo, ".git", "culprit", "1", "log")
        for at, position in (("check-2", 12), ("1", 6)):
            ended = self.shell("good..", test=f"[ $CULPRIT_RUN = {at} ] && exit 129; {TEST}")
            self.assertEqual(ended.status, 3)
            with open(log, encoding="ascii") as file:
                lines = [json.loads(line) for line in file]
            self.assertEqual(lines[-1]["event"], "stopped")
            noted = {**lines[-1], "event": "untestable", "position": position}
            del noted["reason"]
            with open(log, "w", encoding="ascii") as file:
                file.write("".join(json.dumps(line) + "\n" for line in [*lines[:-1], noted, lines[-1]]))
            self.assertEqual(self.culprit("--show", "--json").report["untestable"], [position])
            with open(os.path.join(os.path.dirname(log), "plan.json"), encoding="ascii") as file:
                plan = json.load(file)
            plan["command"][-1] = TEST
            with open(os.path.join(os.path.dirname(log), "plan.json"), "w", encoding="ascii") as file:
                json.dump(plan, file)
            ended = self.culprit("--resume", "--json")
            self.assertEqual((ended.status, ended.report["culprit"]["position"]), (0, 5), ended.err)
            self.assertEqual(ended.report["untestable"], [6])
            shutil.rmtree(os.path.dirname(os.path.dirname(log)))

    def test_an_older_program_is_said_and_the_search_goes_on_with_a_newer_one(self) -> None:
        self.make_unbuildable(12, 5, [6])
        path = os.path.join(self.folder, "finder")
        with open(path, "w", encoding="utf-8") as file:
            file.write(f"""#!{sys.executable}
import os, subprocess, sys
if sys.argv[1] != "run":
    os.execv({PROGRAM!r}, [{PROGRAM!r}, *sys.argv[1:]])
real = subprocess.Popen([{PROGRAM!r}, *sys.argv[1:]], stdin=subprocess.PIPE, stdout=subprocess.PIPE, bufsize=0)
for text in sys.stdin.buffer:
    if b'"verdict":"skip"' in text:
        reply = b'{{"field":"verdict","refused":"BadField"}}\\n'
    else:
        real.stdin.write(text)
        reply = real.stdout.readline()
    sys.stdout.buffer.write(reply)
    sys.stdout.buffer.flush()
real.communicate()
""")
        os.chmod(path, 0o755)
        ended = self.shell("good..", "--finder", path, test=self.note(TEST))
        self.assertEqual(ended.status, 3)
        self.assertIn(f"{path} is older than this tool", ended.err)
        self.assertIn("Go on: git culprit --resume 1", ended.err)
        ended = self.culprit("--resume", "--json")
        self.assertEqual((ended.status, ended.report["culprit"]["position"]), (0, 5), ended.err)
        self.assertEqual(ended.report["untestable"], [6])
        self.assert_once()


if __name__ == "__main__":
    unittest.main()
