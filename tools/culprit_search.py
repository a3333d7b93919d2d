"""Searches as they are kept on the disk, below `.git/culprit`.

Each search has a folder, named by its number, with its plan (`plan.json`), the program's journal (`journal`), a line of
JSON for each thing that happened (`log`), and what each run wrote (`runs/`). A verdict is in the log before the program
is told, so a search goes on from wherever it was stopped, and what was run isn't run again. Runs have their work trees
in `trees`, unless the plan says where else. The file `lock` is locked by the one tool that works there.
"""
from __future__ import annotations

import contextlib
import fcntl
import json
import os
import shutil
import stat
import time
import zlib
from typing import Any, Optional

from culprit_git import Repository
from culprit_lib import NoAnswer, Usage, found

Event = dict[str, Any]
Plan = dict[str, Any]


class Run:
    """A run that the program asked for, and what came of it. `ended` is open, reported or not needed."""

    def __init__(self, event: Event) -> None:
        self.number: int = event["run"]
        self.attempt: int = event["search"]
        self.position: int = event["position"]
        self.stage: str = event["stage"]
        self.ended = "open"
        self.verdict: Optional[str] = None
        self.status: Optional[int] = None
        self.seconds: Optional[float] = None
        self.fate: Optional[str] = None
        self.shares: list[int] = []


class Attempt:
    """A search of the program's: the first one, or one more after a suspect was vindicated."""

    def __init__(self, number: int) -> None:
        self.number = number
        self.leases = 0
        self.standing = "searching"
        self.culprit: Optional[int] = None
        self.shares: list[int] = []
        self.untestable: list[int] = []
        self.verified = 0


class Story:
    """What has happened in a search: the sum of its log."""

    def __init__(self) -> None:
        self.attempts: list[Attempt] = []
        self.runs: dict[int, Run] = {}
        self.checks: list[Event] = []
        self.untestable: list[int] = []
        self.end: Optional[Event] = None
        self.reason = ""  # why the tool was last stopped
        self.seconds = 0.0
        self.at = 0

    def add(self, event: Event) -> None:
        """Takes one thing in that happened."""
        getattr(self, "_" + event["event"])(event)
        self.seconds, self.at = max(self.seconds, event["after"]), max(self.at, event["at"])

    def made(self) -> int:
        """How many runs were made: those that were reported, and those before the search."""
        return len(self.checks) + sum(run.ended == "reported" for run in self.runs.values())

    def _check(self, event: Event) -> None:
        self.checks.append(event)
        self._sum_untestable()

    def _opened(self, event: Event) -> None:
        self.attempts.append(Attempt(event["search"]))

    def _leased(self, event: Event) -> None:
        self.runs[event["run"]] = Run(event)
        self.attempts[-1].leases += 1

    def _ran(self, event: Event) -> None:
        run = self.runs[event["run"]]
        run.verdict, run.status, run.seconds = event["verdict"], event["status"], event["seconds"]

    def _reported(self, event: Event) -> None:
        run, attempt = self.runs[event["run"]], self.attempts[-1]
        run.verdict, run.fate, run.shares, run.ended = event["verdict"], event["fate"], event["shares"], "reported"
        attempt.standing, attempt.culprit = event["standing"], event.get("culprit")
        attempt.shares, attempt.verified = event["shares"], event["verified"]
        attempt.untestable = event.get("untestable", [])
        self._sum_untestable()

    def _dropped(self, event: Event) -> None:
        self.runs[event["run"]].ended = "not needed"

    def _untestable(self, event: Event) -> None:
        """An older tool stopped here. What goes on from there runs it again, and reports what comes of that."""
        self.untestable = sorted({*self.untestable, event["position"]})

    def _sum_untestable(self) -> None:
        checked = {check["position"] for check in self.checks if check["verdict"] == "skip"}
        self.untestable = sorted(checked.union(*(attempt.untestable for attempt in self.attempts)))

    def _stopped(self, event: Event) -> None:
        self.reason = event["reason"]

    def _ended(self, event: Event) -> None:
        self.end = event


class Search:
    """A search: its folder, its plan, its log."""

    def __init__(self, folder: str) -> None:
        self.folder, self.number = folder, int(os.path.basename(folder))
        self.journal = os.path.join(folder, "journal")
        self.plan = read_plan(os.path.join(folder, "plan.json"))
        self.story = Story()
        self.log: Optional[int] = None
        self.log_path, self.log_size = os.path.join(folder, "log"), 0
        self._load()
        self.before, self.began = self.story.seconds, time.monotonic()

    def _load(self) -> None:
        if not os.path.exists(self.log_path):
            return
        with open(self.log_path, "rb") as file:
            lines = file.read().split(b"\n")[:-1]  # behind the last line feed stands what a crash cut off
        for number, line in enumerate(lines, 1):
            try:
                self.story.add(json.loads(line))
            except (ValueError, LookupError, AttributeError, TypeError) as fault:
                raise NoAnswer(f"line {number} of {self.log_path} is damaged: remove {self.folder}") from fault
            self.log_size += len(line) + 1

    def add(self, event: str, **fields: Any) -> None:
        """Writes one thing that happened into the log, and takes it in."""
        if self.log is None:
            self.log = os.open(self.log_path, os.O_WRONLY | os.O_CREAT | os.O_APPEND | os.O_CLOEXEC, 0o666)
            os.ftruncate(self.log, self.log_size)
        now = max(self.story.at, time.time_ns() // 1_000_000)
        fields.update(event=event, after=round(self.elapsed(), 3), at=now)
        line = json.dumps(fields, separators=(",", ":")).encode("ascii") + b"\n"
        while line:
            line = line[os.write(self.log, line):]
        self.story.add(fields)

    def elapsed(self) -> float:
        """The seconds that the search has taken so far, without the time in which it was stopped."""
        return self.before + time.monotonic() - self.began

    def tree(self, position: int) -> dict[str, Any]:
        """The commit at a position: GOOD at 0, then the suspects."""
        return self.plan["suspects"][position - 1] if position else self.plan["good"]

    def output(self, label: str) -> str:
        """The file with what a run wrote."""
        return os.path.join(self.folder, "runs", f"{label}.txt")


def read_plan(path: str) -> Plan:
    """The plan of a search."""
    try:
        with open(path, encoding="ascii") as file:
            plan = json.load(file)
        if plan["form"] == 1:
            return plan
    except (ValueError, LookupError, TypeError):
        pass
    raise NoAnswer(f"{path} is damaged, or was written by another version: remove {os.path.dirname(path)}")


class Home:
    """The folder `.git/culprit` of a repository."""

    def __init__(self, repository: Repository) -> None:
        self.repository = repository
        self.folder = os.path.join(repository.common, "culprit")

    def numbers(self) -> list[int]:
        """The numbers of the searches, rising."""
        try:
            return sorted(int(name) for name in os.listdir(self.folder) if name.isdigit())
        except FileNotFoundError:
            return []

    def search(self, number: int) -> Search:
        """The search with a number; with 0 the last one."""
        numbers = self.numbers()
        if not numbers:
            raise Usage("there is no search in this repository yet: git culprit GOOD..BAD -- COMMAND")
        if number and number not in numbers:
            raise Usage(f"there is no search {number}; git culprit --list shows those that there are")
        return Search(os.path.join(self.folder, str(number or numbers[-1])))

    def searches(self) -> list[Search]:
        """All searches that can be read."""
        read = []
        for number in self.numbers():
            try:
                read.append(self.search(number))
            except (NoAnswer, OSError):
                pass
        return read

    def open_search(self, number: int) -> Search:
        """The search with a number; with 0 the last one that hasn't ended."""
        if number:
            return self.search(number)
        for search in reversed(self.searches()):
            if search.story.end is None:
                return search
        raise Usage("no search of this repository is open; git culprit --list shows all")

    def last_open(self) -> int:
        """The number of the last search, where that is open, else 0."""
        number = max(self.numbers(), default=0)
        try:
            return number if number and self.search(number).story.end is None else 0
        except (NoAnswer, OSError):
            return 0

    def lock(self) -> None:
        """Keeps others from working here until this process, its guard, its commands of git and its founding of a
        journal have ended."""
        os.makedirs(self.folder, exist_ok=True)
        file = os.open(os.path.join(self.folder, "lock"), os.O_RDWR | os.O_CREAT | os.O_CLOEXEC, 0o666)
        for _ in range(300):
            try:
                fcntl.flock(file, fcntl.LOCK_EX | fcntl.LOCK_NB)
                os.ftruncate(file, 0)
                os.pwrite(file, f"{os.getpid()}\n".encode("ascii"), 0)
                self.repository.held = (file,)
                return
            except BlockingIOError:
                owner = os.pread(file, 20, 0).decode("ascii", "replace").strip()
                if is_alive(owner):
                    break
                time.sleep(0.1)  # it was killed, and its guard ends its runs, or what it called goes on
        raise NoAnswer(f"another git culprit works in this repository (process {owner})")

    def create(self, plan: Plan, program: str) -> Search:
        """Makes the folder of a new search, with a journal that the program founded, whole or not at all."""
        fresh = os.path.join(self.folder, "new")
        shutil.rmtree(fresh, ignore_errors=True)
        os.makedirs(os.path.join(fresh, "runs"))
        with open(os.path.join(fresh, "plan.json"), "w", encoding="ascii") as file:
            json.dump(plan, file)
            file.flush()
            os.fsync(file.fileno())
        found(program, os.path.join(fresh, "journal"), self.repository.held)
        folder = os.path.join(self.folder, str(max(self.numbers(), default=0) + 1))
        os.rename(fresh, folder)
        return Search(folder)

    def trees(self, plan: Plan) -> str:
        """The folder with the work trees of a search. One that the user gave may be shared with other repositories."""
        if not plan["numbers"]["trees"]:
            return os.path.join(self.folder, "trees")
        return os.path.join(plan["numbers"]["trees"], f"git-culprit-{zlib.crc32(os.fsencode(self.folder)):08x}")

    def tree(self, plan: Plan, slot: int) -> str:
        """The work tree of a slot."""
        return os.path.join(self.trees(plan), f"culprit-{slot}")

    def remove_tree(self, tree: str) -> None:
        """Takes a work tree away, and what git holds of it, also where one of the two is there alone."""
        words = ("worktree", "remove", "--force", "--force", tree)
        if not self.repository.says(*words) and os.path.lexists(tree):
            erase(tree)
            self.repository.says(*words)

    def empty_submodules(self, tree: str) -> None:
        """Empties the folders of submodules that were checked out in a work tree, as they are in a new one."""
        with open(os.path.join(tree, ".git"), encoding="utf-8", errors="surrogateescape") as file:
            modules = os.path.join(file.read().partition("gitdir: ")[2].strip("\n"), "modules")
        has_some = os.path.isdir(modules) or os.path.exists(os.path.join(tree, ".gitmodules"))
        if has_some and self.repository.says_in(tree, "rev-parse"):  # it doesn't where the repository was moved
            for entry in self.repository.git_in(tree, "ls-files", "--stage", "-z").split("\0"):
                if entry.startswith("160000 "):
                    erase(os.path.join(tree, entry.partition("\t")[2]))

    def remove_trees(self, plan: Plan) -> None:
        """Takes all work trees of a search away."""
        trees = os.path.realpath(self.trees(plan))
        known = self.repository.git("worktree", "list", "--porcelain").split("\n")
        paths = {line[len("worktree "):] for line in known if line.startswith(f"worktree {trees}{os.sep}")}
        if os.path.isdir(trees):
            paths.update(os.path.join(trees, name) for name in os.listdir(trees))
        for path in sorted(paths):
            self.remove_tree(path)
        erase(trees)


def is_alive(process: str) -> bool:
    """Whether there is such a process."""
    try:
        os.kill(int(process), 0)
    except (ValueError, ProcessLookupError):
        return False
    except PermissionError:
        pass
    return True


def erase(folder: str) -> None:
    """Removes a folder with all that is in it, also folders that were made read-only. What can't be removed stays."""
    if os.path.islink(folder):
        os.unlink(folder)
    for path, names, _ in os.walk(folder):
        for name in names:
            inner = os.path.join(path, name)
            if not os.path.islink(inner) and not os.access(inner, os.R_OK | os.W_OK | os.X_OK):
                with contextlib.suppress(OSError):
                    os.chmod(inner, stat.S_IRWXU)
    shutil.rmtree(folder, ignore_errors=True)
