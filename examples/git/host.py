#!/usr/bin/env python3
"""A test host: answers each line `COMMIT TEST` with `pass`, `fail` or `skip`, after it has run the test at that commit.

    host.py REPOSITORY FOLDER PORT

Each connection gets a work tree of its own under FOLDER. The test is the script of that name in the repository, whose
exit status is the verdict. The environment variable RUN tells the script how often it was run at this commit. Before it
the script `build` is run, where there is one.

`skip` says that the tree itself can't be tested: `build` ends with 1 to 127, or there is no such test. What else keeps
a test from being run (no such commit, a script that doesn't end, a build that a signal ends or that ends with 128 or
above, as it should where the disk is full) is no verdict, as another machine or a later hour may have one: the
connection is closed without a line, the worker ends with status 10, and the run is handed out again. A connection that
asks nothing gets nothing: it only tries whether the host is there.
"""
import collections
import itertools
import os
import socketserver
import subprocess
import sys
import threading

repository, folder, port = sys.argv[1], sys.argv[2], int(sys.argv[3])
runs, trees, one_at_a_time = collections.Counter(), itertools.count(1), threading.Lock()


def git(*words):
    subprocess.run(["git", "-C", repository, *words], check=True, capture_output=True)


def ran(script, tree, run):
    """The exit status of a script in a tree."""
    environment = {**os.environ, "RUN": str(run)}
    return subprocess.run(["bash", script], cwd=tree, env=environment, stdout=sys.stderr, timeout=20).returncode


def tested(tree, test, run):
    """Builds a tree and runs the test in it once."""
    if os.path.isfile(os.path.join(tree, "build")):
        status = ran("build", tree, run)
        if not 0 <= status < 128:
            raise ChildProcessError(f"the build ended with {status}")
        if status:
            return "skip"
    if not os.path.isfile(os.path.join(tree, test)):
        return "skip"
    return "pass" if ran(test, tree, run) == 0 else "fail"


def verdict(commit, test):
    """Checks the commit out and tests it."""
    with one_at_a_time:
        runs[commit] += 1
        run, tree = runs[commit], os.path.join(folder, f"tree{next(trees)}")
        git("worktree", "add", "--detach", tree, commit)
    try:
        return tested(tree, test, run)
    finally:
        with one_at_a_time:
            git("worktree", "remove", "--force", tree)


class Asked(socketserver.StreamRequestHandler):
    def handle(self):
        line = self.rfile.readline()
        if not line:
            return
        try:
            commit, _, test = line.decode("ascii").rstrip("\n").partition(" ")
            answer = verdict(commit, test)
        except Exception as fault:  # no verdict: say nothing, and let the worker see it
            print(f"host: {fault}", file=sys.stderr)
            return
        self.wfile.write(f"{answer}\n".encode("ascii"))


class Host(socketserver.ThreadingTCPServer):
    allow_reuse_address = True
    daemon_threads = True


with Host(("127.0.0.1", port), Asked) as host:
    host.serve_forever()
