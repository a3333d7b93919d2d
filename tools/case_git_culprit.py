"""What the tests of git culprit share: repositories of their own making, and the tool called in them."""
from __future__ import annotations

import collections
import json
import os
import shutil
import signal
import subprocess
import tempfile
import time
import unittest
from typing import Any, Callable, Optional

TOOLS = os.path.dirname(os.path.abspath(__file__))
TOOL = os.path.join(TOOLS, "git-culprit")
PROGRAM = os.environ.get("CULPRIT_FINDER") or os.path.join(TOOLS, "..", "finder")
ENV = {name: value for name, value in os.environ.items() if not name.startswith(("GIT_", "CULPRIT_"))}
ENV.update(CULPRIT_FINDER=PROGRAM, GIT_CONFIG_GLOBAL=os.devnull, GIT_CONFIG_SYSTEM=os.devnull, TERM="dumb",
           GIT_AUTHOR_NAME="Ann", GIT_AUTHOR_EMAIL="ann@example.com", GIT_COMMITTER_NAME="Ann",
           GIT_COMMITTER_EMAIL="ann@example.com", PATH=TOOLS + os.pathsep + os.environ["PATH"], PYTHONWARNINGS="error")
IS_OK = "grep -qx ok state"
PATIENCE = 120.0  # seconds that something may take which takes well below one: the machine may be slow, and loaded


def restore_signals() -> None:
    """What a shell in the foreground gives to what it starts."""
    for number in (signal.SIGINT, signal.SIGTERM, signal.SIGHUP):
        signal.signal(number, signal.SIG_DFL)


class Ended:
    """How the tool ended."""

    def __init__(self, ended: Any) -> None:
        self.status, self.out, self.err = ended.returncode, ended.stdout, ended.stderr

    @property
    def report(self) -> dict[str, Any]:
        return json.loads(self.out)


class Case(unittest.TestCase):
    """A folder of its own for each test, and what the tests do in it."""

    def setUp(self) -> None:
        self.folder = tempfile.mkdtemp(prefix="git culprit ü ")
        self.addCleanup(shutil.rmtree, self.folder, ignore_errors=True)
        self.repo = os.path.join(self.folder, "the shop")
        self.done = os.path.join(self.folder, "done")

    def git(self, *words: str, folder: Optional[str] = None, env: Optional[dict[str, str]] = None) -> str:
        ended = subprocess.run(["git", *words], cwd=folder or self.repo, env=env or ENV, capture_output=True,
                               check=True)
        return ended.stdout.decode("utf-8", "replace").strip()

    def make(self, count: int, culprit: int, files: Callable[[int], dict[str, str]] = lambda _: {},
             subject: str = "change {}", form: str = "sha1") -> list[str]:
        """A repository of a base and `count` commits, of which `culprit` breaks the test. Its ids, the base first."""
        subprocess.run(["git", "init", "-q", "-b", "main", f"--object-format={form}", self.repo], env=ENV, check=True)
        lines: list[bytes] = []
        for number in range(count + 1):
            said = subject.format(number).encode()
            lines.append(b"commit refs/heads/main\nmark :%d\nauthor Zo\xc3\xab <z@example.com> %d +0000\n"
                         b"committer Ann <a@example.com> %d +0000\ndata %d\n%s\n" %
                         (number + 1, 1_700_000_000 + number, 1_700_000_000 + number, len(said), said))
            state = "broken" if culprit and number >= culprit else "ok"
            for name, text in {"state": f"{state}\n", "number": f"{number}\n", **files(number)}.items():
                body = text.encode()
                lines.append(b'M 644 inline "%s"\ndata %d\n%s\n' % (name.encode(), len(body), body))
        subprocess.run(["git", "fast-import", "--quiet"], cwd=self.repo, env=ENV, input=b"".join(lines), check=True)
        self.git("reset", "-q", "--hard", "main")
        ids = self.git("rev-list", "--reverse", "main").split()
        self.git("tag", "good", ids[0])
        return ids

    def begin(self, *words: str, folder: Optional[str] = None, env: Optional[dict[str, str]] = None,
              **more: Any) -> "subprocess.Popen[str]":
        return subprocess.Popen([TOOL, *words], cwd=folder or self.repo, env=env or ENV, stdout=subprocess.PIPE,
                                stderr=subprocess.PIPE, text=True, preexec_fn=restore_signals, **more)

    def culprit(self, *words: str, folder: Optional[str] = None, env: Optional[dict[str, str]] = None) -> Ended:
        ended = subprocess.run([TOOL, *words], cwd=folder or self.repo, env=env or ENV, capture_output=True, text=True,
                               stdin=subprocess.DEVNULL, preexec_fn=restore_signals, timeout=900, check=False)
        self.assertNotIn("Traceback", ended.stderr)
        return Ended(ended)

    def shell(self, *words: str, test: str = IS_OK, **more: Any) -> Ended:
        """How the tool ends over a test that the shell reads."""
        return self.culprit(*words, "--", "sh", "-c", test, **more)

    def search(self, *words: str, test: str = IS_OK, status: int = 0, **more: Any) -> dict[str, Any]:
        """The report of a search of the whole range."""
        ended = self.shell("good..main", "--json", *words, test=test, **more)
        self.assertEqual(ended.status, status, ended.err)
        self.assert_clean()
        return ended.report

    def git_that(self, does: str, command: str, where: str = "true") -> dict[str, str]:
        """The environment with a git that does something in `sh` the first time that it is given a command where some
        condition holds. `$tree` is the last word that it is given, `$real` the real one."""
        path, real = os.path.join(self.folder, "bin"), shutil.which("git", path=ENV["PATH"])
        once = os.path.join(path, "once")
        shutil.rmtree(path, ignore_errors=True)
        os.mkdir(path)
        with open(os.path.join(path, "git"), "w", encoding="utf-8") as file:
            file.write(f"""#!/bin/sh
real='{real}'
for tree; do :; done
case "$*" in *" {command} "*) {where} && mkdir '{once}' 2>/dev/null && {{ {does}; }};; esac
exec "$real" "$@"
""")
        os.chmod(os.path.join(path, "git"), 0o755)
        return {**ENV, "PATH": path + os.pathsep + ENV["PATH"]}

    def assert_clean(self) -> None:
        """No work tree is left, and the user's own is as it was."""
        self.assertEqual(len(self.git("worktree", "list").splitlines()), 1)
        self.assertEqual(self.git("status", "--porcelain"), "")

    def audit(self, number: int = 1) -> str:
        with open(os.path.join(self.repo, ".git", "culprit", str(number), "journal"), "rb") as journal:
            ended = subprocess.run([PROGRAM, "audit"], stdin=journal, capture_output=True, text=True, check=True)
        return ended.stdout.strip()

    def note(self, test: str) -> str:
        """The test, which notes its run in the file `done` when it got to its end."""
        return f"({test}); verdict=$?; echo $CULPRIT_RUN $CULPRIT_POSITION >> '{self.done}'; exit $verdict"

    def runs_done(self) -> list[str]:
        if not os.path.exists(self.done):
            return []
        with open(self.done, encoding="ascii") as file:
            return [line.split()[0] for line in file]

    def assert_once(self) -> None:
        """The journal is legal, and no run got to its end twice."""
        self.assertRegex(self.audit(), r"^legal entries \d+ searches \d+ orders 0$")
        twice = [run for run, count in collections.Counter(self.runs_done()).items() if count > 1]
        self.assertEqual(twice, [])

    def assert_gone(self, path: str) -> None:
        """The processes whose numbers a file has, a line each, have ended."""
        with open(path, encoding="ascii") as file:
            processes = [line.split()[0] for line in file]
        self.assertTrue(processes)
        self.until(lambda: not any(os.path.exists(f"/proc/{process}") for process in processes))

    def until(self, true: Callable[[], bool]) -> None:
        limit = time.monotonic() + PATIENCE
        while not true():
            self.assertLess(time.monotonic(), limit, "it took too long")
            time.sleep(0.01)
