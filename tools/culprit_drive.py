"""Drives the program through one search: asks what is due, runs it, tells the verdict, and shows how far it is."""
from __future__ import annotations

import json
import os
import sys
import time
from typing import Any, Iterable, Optional, Sequence

from culprit_git import ATTRIBUTES, git_words
from culprit_lib import ACTIVE, Finder, Look, NoAnswer, Usage, clock, columns, duration, figure, fit, many, plain
from culprit_lib import ratio, spelled
from culprit_reasons import DOUBT, failed_at_good, passed_at_bad, reason_of, skipped_at, skipped_at_both
from culprit_runs import Crew, Guard, Job, Signals, Step, signal_name
from culprit_search import Attempt, Event, Home, Run, Search
from culprit_shown import leading_of, named

OPEN, LEASE, CANCEL = 1, 2, 3  # the kinds of requests in keys
# Checks submodules out without a word of them in the repository's configuration, which the user's work tree shares.
SUBMODULES = ("-c", "submodule.active=.", "submodule", "--quiet", "update", "--recursive", "--force", "--checkout")
# The ways to draw the line: with the leading suspect's subject, with so many bars, with what runs where.
WAYS = ((True, 24, True), (False, 24, True), (False, 12, True), (False, 0, True), (False, 0, False))


class Ended(Exception):
    """The search has ended before the program was asked; the words are how it stands, and the reason. Status 3."""


def key(attempt: int, kind: int, number: int) -> str:
    """The key of a request: the same whenever it is sent again, so the program answers it once."""
    return f"{attempt:08x}-{kind:04x}-4000-8000-{number:012x}"


def test_name(command: Sequence[str]) -> str:
    """The command as the name of a test, in the form that the program takes."""
    return "".join(sign if " " <= sign <= "~" else "?" for sign in spelled(command))[:200]


# ---- what is shown --------------------------------------------------------------------------------------------------

class Progress:
    """What standard error shows while a search runs: on a terminal a line that is kept current, else a line a run."""

    def __init__(self, quiet: bool) -> None:
        self.look = Look(sys.stderr)
        self.quiet, self.drawn = quiet, False

    def say(self, text: str) -> None:
        """Writes a line that stays."""
        self._write(("\r\x1b[K" if self.drawn else "") + text + "\n")
        self.drawn = False

    def note(self, text: str) -> None:
        """Writes a line that stays, unless the tool is quiet."""
        if not self.quiet:
            self.say(text)

    def ran(self, search: Search, run: Run) -> None:
        """Tells of a run that was reported."""
        if not self.look.terminal:
            kind = "rerun" if run.stage == "verify" else "run"
            late = ", too late to count" if run.fate == "late" else ""
            took = duration(run.seconds or 0)
            belief = self._belief(search, run.shares, False)
            tree = search.tree(run.position)["short"]
            self.note(f"{kind} {run.number}: {run.verdict} at {run.position} ({tree}) in {took}{late}; {belief}")

    def draw(self, search: Search, jobs: Iterable[Job]) -> None:
        """Keeps the line current, with as many of its parts as the terminal has room for."""
        if self.quiet or not self.look.terminal:
            return
        story, now, last = search.story, time.monotonic(), len(search.plan["suspects"])
        shares = story.attempts[-1].shares if story.attempts else []
        made = many(story.made(), "run")
        at_work = ", ".join(f"at {job.position}/{last} {clock(now - job.began)}" for job in jobs)
        room = self.look.width() - 1
        for subject, bars, trees in WAYS:
            belief = self._belief(search, shares, subject)
            line = self.look.sparkline(shares[:-1], bars) if shares and bars else ""
            parts = [made, at_work if trees else "", belief, line, clock(search.elapsed())]
            parts = [part for part in parts if part]
            if columns(self.look.dot.join(parts)) <= room:
                break
        self._write("\r\x1b[K" + fit(self.look.dot.join(parts), room, self.look.ellipsis))
        self.drawn = True

    def _belief(self, search: Search, shares: Sequence[int], subject: bool) -> str:
        if not shares:
            return ""
        nobody, leading = f"nobody {figure(shares[-1])}", leading_of(shares)
        if not leading:
            return nobody
        suspect = search.tree(leading)
        name = fit(named(suspect), 50, self.look.ellipsis) if subject else suspect["short"]
        return f"leading {name} {figure(shares[leading - 1])}{self.look.dot}{nobody}"

    def clear(self) -> None:
        """Takes the line away."""
        if self.drawn:
            self._write("\r\x1b[K")
            self.drawn = False

    @staticmethod
    def _write(text: str) -> None:
        try:
            sys.stderr.write(text)
            sys.stderr.flush()
        except (OSError, ValueError):
            pass  # the terminal is gone: what ends the tool is its hang-up, not this


# ---- the driver -----------------------------------------------------------------------------------------------------

class Driver:
    """Drives the program through one search, from wherever it was stopped."""

    def __init__(self, home: Home, search: Search, program: str, progress: Progress) -> None:
        self.home, self.search, self.program, self.progress = home, search, program, progress
        self.plan, self.story = search.plan, search.story
        self.numbers: dict[str, Any] = self.plan["numbers"]
        self.finder: Optional[Finder] = None

    def drive(self) -> None:
        """Goes on with the search to its end. What it starts ends with it, however it ends: its end is noted once
        nothing of it is left."""
        self.signals = Signals()
        self.guard = Guard()
        self.crew = Crew(self.signals, self.guard, self.numbers["timeout"])
        has_ended = False
        try:
            end = self._end()
            has_ended = True
        except (NoAnswer, Usage) as fault:  # where a command of git failed, which Ctrl-C meets too, it is Usage
            reason = self.signals.reason() or str(fault)
            self.search.add("stopped", reason=reason)
            raise NoAnswer(reason) from fault
        finally:
            self._clean_up(has_ended)
        self.search.add("ended", **end)

    def _end(self) -> dict[str, Any]:
        """The search's end, with the status that the tool ends with."""
        try:
            self._check()
            attempt = self._hunt()
        except Ended as end:
            standing, reason = end.args
            return {"status": 3, "standing": standing, "reason": reason}
        status = {"confirmed": 0, "no culprit": 1}.get(attempt.standing, 3)
        return {"status": status, "standing": attempt.standing, "reason": reason_of(self.search, attempt)}

    def _clean_up(self, has_ended: bool) -> None:
        self.progress.clear()
        self.crew.drop(self.crew.jobs.values())
        if self.finder:
            self.finder.close()
        if has_ended or not self.numbers["keep_build"]:
            self.home.remove_trees(self.plan)
        self.guard.close()

    # -- before the search: GOOD and BAD

    def _check(self) -> None:
        """Runs GOOD and BAD once each, and GOOD again as long as flakes may explain that it failed."""
        while self.numbers["check"]:
            self._look_at_ends()
            running = {job.position for job in self.crew.jobs.values()}
            due = [position for position in (0, len(self.plan["suspects"]))
                   if position not in running and self._is_unchecked(position)]
            for position in due[:self.numbers["jobs"] - len(running)]:
                self._start(f"check-{len(self.story.checks) + len(self.crew.jobs) + 1}", position)
            if not self.crew.jobs:
                return
            for job in self._wait():
                self._checked(job)

    def _look_at_ends(self) -> None:
        """Ends the search where neither GOOD nor BAD can be tested, or where flakes hardly explain that GOOD failed."""
        skipped = {check["position"] for check in self.story.checks if check["verdict"] == "skip"}
        if {0, len(self.plan["suspects"])} <= skipped:
            output = self.search.output(self.story.checks[-1]["label"])
            raise Ended("untestable", skipped_at_both(self.plan, output))
        fails = [check for check in self.story.checks if check["position"] == 0]
        upper, lower = self.numbers["flakes"]
        if fails and fails[-1]["verdict"] == "fail" and upper ** len(fails) * DOUBT < lower ** len(fails):
            raise Ended("base fails", failed_at_good(self.plan, fails, self.search.output(fails[-1]["label"])))

    def _is_unchecked(self, position: int) -> bool:
        verdicts = [check["verdict"] for check in self.story.checks if check["position"] == position]
        return not verdicts or (position == 0 and set(verdicts) == {"fail"})

    def _checked(self, job: Job) -> None:
        verdict = self._verdict(job)
        self.search.add("check", position=job.position, verdict=verdict, seconds=round(job.seconds, 3),
                        status=job.status, label=job.label)
        if verdict == "skip":
            self.progress.note(f"check: {skipped_at(self.plan, job)}")
        if job.position and verdict == "pass":
            self.progress.note(f"check: {passed_at_bad(self.plan)}")
        if job.position == 0 and verdict == "fail":
            self._look_at_ends()
            good = self.plan["good"]["short"]
            self.progress.note(f"check: the test failed at GOOD ({good}), as a flake may: once more")

    # -- the search

    def _hunt(self) -> Attempt:
        """Makes the program's searches: the first one, and one more as long as reruns contradict what was named. It
        gives the last of them, which has ended."""
        self.finder = Finder(self.program, self.search.journal, self.story.at, self.signals.check)
        attempt = self.story.attempts[-1] if self.story.attempts else self._open(1)
        self._settle(attempt)
        self._search(attempt)
        while attempt.standing == "vindicated" and attempt.number < self.numbers["tries"]:
            name = self.search.tree(attempt.culprit or 0)["short"]
            self.progress.note(f"a rerun contradicted {name}: one more search, in which it is as likely as all others")
            attempt = self._open(attempt.number + 1)
            self._search(attempt)
        return attempt

    def _search(self, attempt: Attempt) -> None:
        while attempt.standing in ACTIVE:
            self._fill(attempt)
            self._finish(self._wait())

    def _ask(self, do: str, **fields: Any) -> dict[str, Any]:
        assert self.finder
        reply = self.finder.ask(do, **fields)
        if reply.get("refused") == "BadField" and fields.get("verdict") == "skip":
            raise NoAnswer(f"{self.program} is older than this tool: it doesn't know the verdict for a commit that "
                           "can't be tested. Give another program: --finder PATH")
        if reply.get("refused", "NoRun") != "NoRun":
            raise NoAnswer(f"the program refused {do}: {json.dumps(reply)}")
        return reply

    def _open(self, number: int) -> Attempt:
        """The program's search with a number. Asked again after a crash, it is the one that was opened."""
        numbers, suspects = self.numbers, self.plan["suspects"]
        weights = weights_of(numbers["weights"], self.story.attempts[:number - 1])
        pairs = [[suspect["commit"][:40], weight] for suspect, weight in zip(suspects, weights)]
        missed = {"miss": numbers["misses"]} if numbers["misses"][0] else {}
        reply = self._ask("open", key=key(number, OPEN, 1), test=test_name(self.plan["command"]), suspects=pairs,
                          base=self.plan["good"]["commit"][:40], rate=numbers["flakes"], bar=numbers["bar"],
                          calm=calm_of(numbers, self.story.checks), width=numbers["jobs"],
                          reruns=numbers["reruns"], **missed)
        self.search.add("opened", search=reply["search"], budget=reply["budget"])
        return self.story.attempts[-1]

    def _settle(self, attempt: Attempt) -> None:
        """Reports once more what was run when the tool was stopped, and perhaps not reported."""
        for run in list(self.story.runs.values()):
            if run.attempt == attempt.number and run.ended == "open" and run.verdict:
                self._report(run)

    def _fill(self, attempt: Attempt) -> None:
        """Gives each free slot a run: one that was leased when the tool was stopped, or else the next that is due."""
        stage = "search" if attempt.standing == "searching" else "verify"
        running = {job.label for job in self.crew.jobs.values()}
        waiting = [run for run in self.story.runs.values() if run.attempt == attempt.number and run.stage == stage
                   and run.ended == "open" and str(run.number) not in running]
        while len(self.crew.jobs) < self.numbers["jobs"]:
            run = waiting.pop(0) if waiting else self._lease(attempt)
            if run is None:
                break
            self._start(str(run.number), run.position)
        if not self.crew.jobs:
            raise NoAnswer(f"the program has no run due, though the search stands {attempt.standing}")

    def _lease(self, attempt: Attempt) -> Optional[Run]:
        reply = self._ask("lease", key=key(attempt.number, LEASE, attempt.leases + 1), worker="git-culprit")
        if "refused" in reply:
            return None
        position = reply["position"]
        if reply["search"] != attempt.number or reply["commit"] != self.search.tree(position)["commit"][:40]:
            raise NoAnswer(f"{self.search.journal} isn't the journal of this search")
        self.search.add("leased", search=reply["search"], run=reply["run"], position=position, stage=reply["stage"])
        return self.story.runs[reply["run"]]

    def _start(self, label: str, position: int) -> None:
        slot = next(number for number in range(1, self.numbers["jobs"] + 1) if number not in self.crew.jobs)
        self.crew.start(Job(slot, label, position, self.search.output(label),
                            lambda anew: self._steps(self.home.tree(self.plan, slot), label, position, anew)))

    def _steps(self, tree: str, label: str, position: int, anew: bool) -> list[Step]:
        """What a run does: a clean work tree at its commit, and then the command in it."""
        repository, commit, steps = self.home.repository, self.search.tree(position)["commit"], []
        if anew or not os.path.exists(os.path.join(tree, ".git")):
            self.home.remove_tree(tree)
            os.makedirs(os.path.dirname(tree), exist_ok=True)
            words = git_words("worktree", "add", "--quiet", "--force", "--detach", tree, commit)
            steps.append(Step(words, repository.common, repository.outside))
        else:
            steps += [Step(git_words(*words), tree, repository.inside) for words in self._renewal(tree, commit)]
        if self.numbers["submodules"]:
            steps.append(Step(git_words(*SUBMODULES), tree, repository.inside))
        env = {"CULPRIT_COMMIT": commit, "CULPRIT_POSITION": str(position), "CULPRIT_RUN": label}
        folder = os.path.join(tree, self.plan["folder"])
        return [*steps, Step(self.plan["command"], folder, {**repository.inside, **env})]

    def _renewal(self, tree: str, commit: str) -> list[tuple[str, ...]]:
        """The commands of git that make a work tree like a new one at a commit."""
        checkout = ("checkout", "-qf", "--detach", commit)
        if self.numbers["keep_build"]:
            words = [checkout]
        else:
            self.home.empty_submodules(tree)
            words = [("clean", "-ffdxq"), checkout, ("clean", "-ffdxq")]
        same = ("diff", "--quiet", "HEAD", commit, "--", ATTRIBUTES)
        if self.plan["attributes"] and not self.home.repository.says_in(tree, *same):
            words += [("read-tree", "--empty"), checkout]  # files whose text is the same, but not how it is written
        return words

    def _wait(self) -> list[Job]:
        self.progress.draw(self.search, self.crew.jobs.values())
        return self.crew.wait(1.0 if self.progress.look.terminal else 3600.0)

    def _verdict(self, job: Job) -> str:
        """What a run's exit status says, as for `git bisect run`: pass, fail, or skip where it can't be tested."""
        if job.fault:
            raise NoAnswer(job.fault)
        if job.timed_out:
            return self.numbers["timeout_is"]
        status = 128 if job.status is None else job.status
        if 0 <= status <= 127:
            return {0: "pass", 125: "skip"}.get(status, "fail")
        name = signal_name(-status) if status < 0 else f"status {status}"
        raise NoAnswer(f"the command ended by {name} at {self._shown(job.position)}, which is no verdict (where it is "
                       f"a fail: -- sh -c '.. || exit 1'). What it wrote: {job.output}")

    def _finish(self, jobs: Iterable[Job]) -> None:
        """Takes the verdicts of runs that have ended: all are noted before the program is told of one."""
        ended, fault = [], None
        for job in jobs:
            try:
                ended.append(self._noted(job))
            except NoAnswer as caught:
                fault = fault or caught
        for run in ended:
            self._report(run)
        if fault:
            raise fault

    def _noted(self, job: Job) -> Run:
        """A run that has ended, with its verdict."""
        run, verdict = self.story.runs[int(job.label)], self._verdict(job)
        self.search.add("ran", run=run.number, verdict=verdict, seconds=round(job.seconds, 3), status=job.status)
        return run

    def _report(self, run: Run) -> None:
        """Tells the program a verdict, and notes what it replies and what it believes then."""
        reply = self._ask("report", run=run.number, verdict=run.verdict)
        shown = self._ask("search", search=run.attempt)
        there = {name: shown[name] for name in ("culprit", "untestable") if name in shown}
        self.search.add("reported", run=run.number, verdict=reply["verdict"], fate=reply["fate"],
                        shares=shown["shares"], standing=shown["standing"], verified=shown["verified"], **there)
        self.progress.ran(self.search, run)
        self._drop_late(shown["standing"])

    def _drop_late(self, standing: str) -> None:
        """Ends the runs that would come too late: those of another stage, and all where the search has ended."""
        stage = {"searching": "search", "verifying": "verify"}.get(standing)
        late = [job for job in self.crew.jobs.values() if self.story.runs[int(job.label)].stage != stage]
        self.crew.drop(late)
        for job in late:
            self.search.add("dropped", run=int(job.label))

    def _shown(self, position: int) -> str:
        return named(self.search.tree(position))

    def abort(self) -> None:
        """Gives the search up: the program's is cancelled. What was found stays to be shown."""
        attempt = self.story.attempts[-1] if self.story.attempts else None
        if attempt and attempt.standing in ACTIVE:
            self.finder = Finder(self.program, self.search.journal, self.story.at, lambda: None)
            self._ask("cancel", key=key(attempt.number, CANCEL, 1), search=attempt.number)
            self.finder.close()
        self.search.add("ended", status=3, standing="cancelled", reason="it was given up")


def weights_of(weights: Sequence[int], before: Sequence[Attempt]) -> list[int]:
    """The prior weights of one more search: a suspect whose name a rerun contradicted is as likely as all others."""
    again = {attempt.culprit for attempt in before}
    total = sum(weights)
    return [max(weight, total - weight) if position in again else weight for position, weight in enumerate(weights, 1)]


def calm_of(numbers: dict[str, Any], checks: Sequence[Event]) -> int:
    """The prior weight of nobody, by Bayes' rule less where BAD failed before the search: a sound tree fails as rarely
    as the flake rate says. It is rounded up."""
    if not any(check["position"] and check["verdict"] == "fail" for check in checks):
        return numbers["calm"]
    (flakes, runs), (misses, broken) = numbers["flakes"], numbers["misses"]
    return -(-numbers["calm"] * flakes * broken // (runs * (broken - misses)))
