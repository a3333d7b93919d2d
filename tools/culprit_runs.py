"""Runs at work: each a few commands one after the other, each of which is a process group that ends as a whole.

Whatever ends this process, a signal that can't be caught among them, the groups end too: a child of it, the guard,
outlives it and ends them.
"""
from __future__ import annotations

import errno
import os
import select
import signal
import subprocess
import time
from typing import Any, Callable, Iterable, NamedTuple, Optional

from culprit_lib import NoAnswer

GRACE = 3.0  # seconds that a group has to end itself in before it is killed
# What a machine that is at its limits lacks for a moment, so that no process can be made: it says nothing of a commit.
LACKS = (errno.EAGAIN, errno.ENOMEM, errno.EMFILE, errno.ENFILE)
EXITED = os.WEXITED | os.WNOHANG | os.WNOWAIT  # has a child ended? It keeps its number


def signal_name(number: int) -> str:
    """The name of a signal."""
    try:
        return signal.Signals(number).name
    except ValueError:  # a real-time signal
        return f"signal {number}"


def end_group(group: int, number: int) -> bool:
    """Sends a signal to a process group; whether there was one."""
    try:
        os.killpg(group, number)
    except (ProcessLookupError, PermissionError):
        return False
    return True


class Signals:
    """Makes one wait of ended children, of Ctrl-C and its like, and of time."""

    def __init__(self) -> None:
        self.reader, self.writer = os.pipe2(os.O_NONBLOCK | os.O_CLOEXEC)
        self.stops: list[float] = []
        self.name = ""
        signal.set_wakeup_fd(self.writer, warn_on_full_buffer=False)
        signal.signal(signal.SIGCHLD, lambda *_: None)
        for number in (signal.SIGINT, signal.SIGTERM, signal.SIGHUP):
            if signal.getsignal(number) != signal.SIG_IGN:
                signal.signal(number, self._stop)

    def _stop(self, number: int, _: Any) -> None:
        self.stops.append(time.monotonic())
        self.name = self.name or signal_name(number)

    def wait(self, limit: float) -> None:
        """Returns when a signal came or so many seconds passed."""
        select.select([self.reader], [], [], max(0.0, limit))
        try:
            os.read(self.reader, 4096)
        except BlockingIOError:
            pass

    def reason(self) -> str:
        """Why the tool is to end, where the user asked for that."""
        return f"it was interrupted ({self.name})" if self.stops else ""

    def check(self) -> None:
        """Ends the tool where the user asked for that."""
        if self.stops:
            raise NoAnswer(self.reason())

    def is_urgent(self) -> bool:
        """Whether the user asked a second time: not at once, as git hands the first Ctrl-C on to this process."""
        return len(self.stops) > 1 and self.stops[-1] - self.stops[0] > 1.0


class Guard:
    """A child that, where this process was killed, ends the groups that it left, and only then lets its lock go."""

    def __init__(self) -> None:
        reader, self.writer = os.pipe()
        self.process = os.fork()
        if self.process == 0:
            try:
                os.close(self.writer)
                self._watch(reader)
            finally:
                os._exit(0)
        os.close(reader)

    @staticmethod
    def _watch(reader: int) -> None:
        os.setsid()
        null = os.open(os.devnull, os.O_RDWR)
        for stream in (0, 1, 2):
            os.dup2(null, stream)
        groups: set[int] = set()
        with os.fdopen(reader, encoding="ascii") as lines:
            for line in lines:
                (groups.add if line[0] == "+" else groups.discard)(int(line[1:]))
        for _ in range(30):
            groups = {group for group in groups if end_group(group, signal.SIGKILL)}
            if not groups:
                break
            time.sleep(0.1)

    def note(self, sign: str, group: int) -> None:
        """Tells the guard of a group that began (`+`) or ended (`-`)."""
        try:
            os.write(self.writer, f"{sign}{group}\n".encode("ascii"))
        except OSError:
            pass

    def close(self) -> None:
        """Lets the guard end."""
        os.close(self.writer)
        os.waitpid(self.process, 0)


class Step(NamedTuple):
    """A command: its words, the folder that it runs in, its environment."""

    words: list[str]
    folder: str
    env: dict[str, str]


class Job:
    """A run: steps that make its work tree, and last the command that tests it. `steps_of` gives them, and where it is
    told that they failed before it makes the tree anew. What all of them write goes to the file `output`."""

    def __init__(self, slot: int, label: str, position: int, output: str,
                 steps_of: Callable[[bool], list[Step]]) -> None:
        self.slot, self.label, self.position, self.output, self.steps_of = slot, label, position, output, steps_of
        self.steps = steps_of(False)
        self.process: Optional[subprocess.Popen[bytes]] = None
        self.began = self.step_began = time.monotonic()
        self.ending = 0.0  # since when its group is asked to end
        self.failed = self.timed_out = False
        self.fault = ""  # why the work tree or a process could not be made
        self.status: Optional[int] = None  # the command's
        self.seconds = 0.0  # that the command took

    def next(self, guard: Guard) -> None:
        """Begins the next step."""
        step = self.steps.pop(0)
        env = {**step.env, "PWD": os.path.realpath(step.folder)}  # and not the folder that the user is in
        self.step_began = time.monotonic()
        with open(self.output, "ab") as output:
            try:
                self.process = subprocess.Popen(
                    step.words, cwd=step.folder, env=env, stdin=subprocess.DEVNULL, stdout=output, stderr=output,
                    start_new_session=True, preexec_fn=lambda: guard.note("+", os.getpid()))
            except OSError as fault:
                said = f"{step.words[0]}: {fault.strerror}"
                status = 127 if fault.errno == errno.ENOENT else 126
                if not os.path.isdir(step.folder):
                    said, status = "the folder that it runs in isn't in this commit", 125
                output.write(os.fsencode(f"git culprit: {said}\n"))
                if self.steps or fault.errno in LACKS:
                    self.fault = said
                else:
                    self.status = status

    def has_exited(self) -> bool:
        """Whether the process of its step has ended, or there is none."""
        return self.process is None or os.waitid(os.P_PID, self.process.pid, EXITED) is not None

    def reap(self, guard: Guard) -> int:
        """The status of a step that has ended. What it left in its group ends with it, while its number is its own."""
        process, self.process = self.process, None
        assert process
        end_group(process.pid, signal.SIGKILL)
        process.wait()
        guard.note("-", process.pid)
        self.seconds = time.monotonic() - self.step_began
        return process.returncode


class Crew:
    """The jobs that are at work."""

    def __init__(self, signals: Signals, guard: Guard, timeout: Optional[float]) -> None:
        self.signals, self.guard = signals, guard
        self.timeout = float("inf") if timeout is None else timeout
        self.jobs: dict[int, Job] = {}

    def start(self, job: Job) -> None:
        """Begins a job, unless the tool is to end."""
        self.signals.check()
        open(job.output, "wb").close()
        self.jobs[job.slot] = job
        job.next(self.guard)

    def wait(self, limit: float) -> list[Job]:
        """The jobs that have ended; where there is none, it waits for one, at most `limit` seconds."""
        ended = [job for job in self.jobs.values() if self._is_over(job)]
        if not ended:
            self.signals.check()
            self.signals.wait(min([limit, *map(self._time_left, self.jobs.values())]))
            ended = [job for job in self.jobs.values() if self._is_over(job)]
        for job in ended:
            del self.jobs[job.slot]
        return ended

    def _is_over(self, job: Job) -> bool:
        """Whether a job has ended. Where a step of it has, the next one begins."""
        while job.process and job.has_exited():
            status = job.reap(self.guard)
            if not job.steps:
                job.status = status
            elif status == 0:
                job.next(self.guard)
            elif not job.failed:
                job.failed, job.steps = True, job.steps_of(True)
                job.next(self.guard)
            else:
                job.fault = f"git could not check a commit out; what it said is in {job.output}"
        return job.process is None

    def _time_left(self, job: Job) -> float:
        """The seconds until something is to be done about a job; where its time is up, its group is ended."""
        now = time.monotonic()
        if job.steps or not job.process:
            return float("inf")
        if not job.ending and now - job.step_began >= self.timeout and not job.has_exited():
            job.timed_out, job.ending = True, now
            end_group(job.process.pid, signal.SIGTERM)
        if not job.ending:
            return job.step_began + self.timeout - now
        if now - job.ending >= GRACE:
            end_group(job.process.pid, signal.SIGKILL)
            return 0.1
        return job.ending + GRACE - now

    def drop(self, jobs: Iterable[Job]) -> None:
        """Ends jobs and forgets them: asks their groups to end, and kills those that don't."""
        dropped = list(jobs)
        for job in dropped:
            if job.process:
                end_group(job.process.pid, signal.SIGTERM)
        limit = time.monotonic() + GRACE
        while not all(job.has_exited() for job in dropped):
            left = limit - time.monotonic()
            if left <= 0 or self.signals.is_urgent():
                for job in dropped:
                    if job.process:
                        end_group(job.process.pid, signal.SIGKILL)
            self.signals.wait(max(0.1, left))
        for job in dropped:
            if job.process:
                job.reap(self.guard)
            self.jobs.pop(job.slot, None)
