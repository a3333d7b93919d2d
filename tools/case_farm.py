"""What the tests of explain and watch share: farms of their own making in journals, served or not, and tools called."""
from __future__ import annotations

import atexit
import contextlib
import functools
import importlib.machinery
import importlib.util
import io
import json
import os
import shutil
import signal
import socket
import subprocess
import sys
import tempfile
import time
import unittest
import urllib.request
from typing import Any, Callable, Optional, Sequence

TOOLS = os.path.dirname(os.path.abspath(__file__))
PROGRAM = os.environ.get("CULPRIT_FINDER") or os.path.join(TOOLS, "..", "finder")
ENV = {**os.environ, "CULPRIT_FINDER": PROGRAM, "PYTHONWARNINGS": "error", "TERM": "dumb"}

PATIENCE = 120.0  # seconds that something may take which takes well below one: the machine may be slow, and loaded

os.environ["CULPRIT_FINDER"] = PROGRAM
Reply = dict[str, Any]
Verdict = Callable[[Reply], Optional[str]]


@functools.lru_cache(None)
def main_of(tool: str) -> Callable[[Sequence[str]], int]:
    """The call that a tool is, given its words."""
    loader = importlib.machinery.SourceFileLoader(tool, os.path.join(TOOLS, tool))
    module = importlib.util.module_from_spec(importlib.machinery.ModuleSpec(tool, loader, origin=loader.path))
    module.__dict__["__file__"] = loader.path
    loader.exec_module(module)
    return module.main


def own_port() -> int:
    """A port on 127.0.0.1 for servers of this process's tests. A socket that never listens has it to the end, so that
    no other process that asks for any port gets it, also while no server has begun, or one is started again."""
    held = socket.socket()
    held.setsockopt(socket.SOL_SOCKET, socket.SO_REUSEADDR, 1)
    held.bind(("127.0.0.1", 0))
    atexit.register(held.close)
    return held.getsockname()[1]


def commit(number: int) -> str:
    """The commit id whose 40 digits are a number in decimal."""
    return f"{number:040}"


class Farm:
    """A farm in a journal, asked line by line. `at` is the moment that its lines tell."""

    def __init__(self, journal: str) -> None:
        self.journal, self.keys = journal, 0
        founded = subprocess.run([PROGRAM, "found", journal, "60000", "10", "east:60"], capture_output=True, check=True)
        assert founded.stdout == b"founded\n"
        self.at = int(time.time() * 1000)
        self.process = subprocess.Popen([PROGRAM, "run", journal], stdin=subprocess.PIPE, stdout=subprocess.PIPE)

    def ask(self, do: str, **members: Any) -> Reply:
        """The reply to a line."""
        self.keys += 1
        line = {"at": self.at, "do": do, "key": f"{self.keys:032x}", **members}
        assert self.process.stdin and self.process.stdout
        self.process.stdin.write(json.dumps(line).encode() + b"\n")
        self.process.stdin.flush()
        return json.loads(self.process.stdout.readline())

    def open(self, count: int = 4, base: int = 0, **members: Any) -> int:
        """Opens a search of suspects of weight 1; its number."""
        given = {"test": "t", "base": commit(base), "suspects": [[commit(base + i + 1), 1] for i in range(count)],
                 "calm": 1, "rate": [1, 10], "bar": [9, 10], "width": 1, "reruns": 1, **members}
        return self.ask("open", **given)["search"]

    def lease(self, worker: str = "w") -> Reply:
        """The reply to a lease."""
        return self.ask("lease", worker=worker)

    def report(self, run: int, verdict: str) -> Reply:
        """The reply to a report."""
        return self.ask("report", run=run, verdict=verdict)

    def play(self, verdict: Verdict) -> Reply:
        """Leases and reports, by the verdict for each lease, until nothing is due or no verdict is given. The last
        report's reply."""
        reply: Reply = {}
        while "run" in (lease := self.lease()):
            told = verdict(lease)
            if told is None:
                break
            reply = self.report(lease["run"], told)
        return reply

    def close(self) -> None:
        """Ends the program."""
        self.process.communicate()

    def page(self, search: int) -> Reply:
        """The page of a search."""
        return self.ask("search", search=search)


def culprit(number: int) -> Verdict:
    """The verdicts where the suspect of a number is the culprit and nothing flakes."""
    return lambda lease: "fail" if lease["position"] >= number else "pass"


class Service:
    """The program serving a journal on loopback."""

    def __init__(self, journal: str, port: int = 0) -> None:
        self.journal = journal
        self._start(port)
        limit = time.monotonic() + PATIENCE
        while True:
            try:
                urllib.request.urlopen(self.url + "/v1/totals", timeout=5).close()
                return
            except OSError:
                assert time.monotonic() < limit, "the service doesn't answer"
                time.sleep(0.02)
                assert self.process.poll() is None, "the service ended"

    def _start(self, port: int) -> None:
        port = port or own_port()
        self.port, self.url = port, f"http://127.0.0.1:{port}"
        self.process = subprocess.Popen([PROGRAM, "serve", self.journal, f"127.0.0.1:{port}", "2", "1000000"],
                                        stdout=subprocess.DEVNULL, stderr=subprocess.DEVNULL)

    def post(self, path: str, **members: Any) -> Reply:
        """The reply to a POST with a key of its own."""
        body = json.dumps({"key": os.urandom(16).hex(), **members}).encode()
        with urllib.request.urlopen(urllib.request.Request(self.url + path, body), timeout=PATIENCE) as answer:
            return json.load(answer)

    def close(self) -> None:
        """Ends the service."""
        self.process.kill()
        self.process.wait()


class Case(unittest.TestCase):
    """A folder of its own for each test."""

    def setUp(self) -> None:
        self.folder = tempfile.mkdtemp(prefix="a farm ü ")
        self.addCleanup(shutil.rmtree, self.folder, ignore_errors=True)
        self.journal = os.path.join(self.folder, "farm.journal")

    def found(self) -> Farm:
        """A new farm."""
        farm = Farm(self.journal)
        self.addCleanup(farm.close)
        return farm

    def serve(self, journal: str, port: int = 0) -> Service:
        """The service of a journal."""
        service = Service(journal, port)
        self.addCleanup(service.close)
        return service

    def begin(self, tool: str, *words: str, **more: Any) -> "subprocess.Popen[str]":
        """A tool that is at work."""
        process = subprocess.Popen([sys.executable, "-ISB", os.path.join(TOOLS, tool), *words], stdout=subprocess.PIPE,
                                   stderr=subprocess.PIPE, text=True, env=ENV, cwd=self.folder,
                                   preexec_fn=lambda: signal.signal(signal.SIGINT, signal.SIG_DFL), **more)
        self.addCleanup(self.end, process)
        return process

    @staticmethod
    def end(process: "subprocess.Popen[str]") -> None:
        """Ends a tool that may be at work still."""
        process.kill()
        process.communicate()

    def call(self, tool: str, *words: str, status: int = 0) -> str:
        """What a tool, called in this process, writes to standard output, or where it fails to standard error."""
        out, err = io.TextIOWrapper(io.BytesIO(), encoding="utf-8"), io.StringIO()
        with contextlib.redirect_stdout(out), contextlib.redirect_stderr(err):
            try:
                ended = main_of(tool)(words)
            except SystemExit as fault:
                ended = fault.code
        out.seek(0)
        said = out.read()
        self.assertEqual(ended, status, err.getvalue())
        self.assertEqual(said if status else err.getvalue(), "")
        return err.getvalue() if status else said

    def explain(self, *words: Any, status: int = 0) -> str:
        """What explain writes of this test's journal."""
        return self.call("explain", self.journal, *map(str, words), status=status)
