"""A served farm for the scripts of this folder: started on a free port, asked, killed, started again; and what its journal holds.

FINDER names another program than the one that `./finder build` made.
"""
import http.client
import json
import os
import shutil
import socket
import subprocess
import tempfile
import time

ROOT = os.path.dirname(os.path.dirname(os.path.abspath(__file__)))
PROGRAM = os.environ.get("FINDER", os.path.join(ROOT, "crates/culprit_finder/out/culprit_finder"))


def key(number):
    """The request key with this number."""
    digits = f"{number:032x}"
    return "-".join((digits[:8], digits[8:12], digits[12:16], digits[16:20], digits[20:]))


def commit(number):
    """The commit id whose digits are this number in decimal."""
    return f"{number:040d}"


def opening(number, suspects=4, **more):
    """The body of an open: `suspects` commits of weight 1, unlike those of other numbers."""
    first = 10_000 * number
    body = {"key": key(number), "test": "t", "base": commit(first),
            "suspects": [[commit(first + i), 1] for i in range(1, suspects + 1)],
            "calm": 1, "rate": [1, 10], "bar": [9, 10], "width": 1, "reruns": 1}
    return {**body, **more}


def free_port():
    with socket.socket() as it:
        it.bind(("127.0.0.1", 0))
        return it.getsockname()[1]


class Farm:
    """A journal in a folder of its own, and the service over it."""

    def __init__(self, handlers=4, lease_ms=60_000, folder=None):
        if not os.access(PROGRAM, os.X_OK):
            raise SystemExit("build the program first: ./finder build")
        self.folder = folder or tempfile.mkdtemp()
        self.journal = os.path.join(self.folder, "farm.journal")
        self.handlers, self.port, self.process = handlers, free_port(), None
        self.run("found", self.journal, str(lease_ms), "1000", "east:0")

    def run(self, *words, stdin=b"", status=0):
        """What the program writes for these words, which has to end with this status."""
        ended = subprocess.run([PROGRAM, *words], input=stdin, capture_output=True)
        assert ended.returncode == status, (words, ended.returncode, ended.stderr)
        return ended.stdout

    def start(self, links=1_000_000_000):
        """Starts the service, and waits until it takes connections."""
        self.process = subprocess.Popen([PROGRAM, "serve", self.journal, f"127.0.0.1:{self.port}", str(self.handlers), str(links)],
                                        stdout=subprocess.PIPE)
        until = time.time() + 20
        while time.time() < until:
            try:
                socket.create_connection(("127.0.0.1", self.port), 1).close()
                return self
            except OSError:
                ended = self.process.poll()
                assert ended is None, f"the service ended with status {ended}"
                time.sleep(0.005)
        raise TimeoutError("the service doesn't listen")

    def kill(self):
        self.process.kill()
        self.process.wait()
        self.process.stdout.close()

    def connection(self, timeout=20):
        return http.client.HTTPConnection("127.0.0.1", self.port, timeout=timeout)

    def ask(self, method, path, body=None, over=None):
        """The status and the body as JSON, over a connection of its own or a given one."""
        it = over or self.connection()
        try:
            it.request(method, path, None if body is None else json.dumps(body))
            answer = it.getresponse()
            read = answer.read()
        finally:
            if over is None:
                it.close()
        return answer.status, json.loads(read) if read else None

    def post(self, path, body, over=None):
        return self.ask("POST", path, body, over)

    def get(self, path, over=None):
        return self.ask("GET", path, None, over)

    def memory(self):
        """The resident memory of the service, in KiB."""
        with open(f"/proc/{self.process.pid}/status") as it:
            return next(int(line.split()[1]) for line in it if line.startswith("VmRSS"))

    def close(self):
        """Ends the service, and takes the folder away."""
        if self.process and self.process.poll() is None:
            self.kill()
        shutil.rmtree(self.folder, ignore_errors=True)


def records_of(path):
    """The payloads of a journal's open records, by docs/FORMATS.md."""
    with open(path, "rb") as it:
        data = it.read()
    at, records = 16, []
    while at < len(data) and data[at]:
        size = int.from_bytes(data[at + 1:at + 5], "big")
        records.append(data[at + 5:at + 5 + size])
        at += 5 + size
    return records


class Bytes:
    """Bytes that are read from the front."""

    def __init__(self, data):
        self.data, self.at = data, 0

    def take(self, count):
        self.at += count
        return self.data[self.at - count:self.at]

    def number(self, count):
        return int.from_bytes(self.take(count), "big")

    def name(self):
        return self.take(self.number(1)).decode("ascii")


def entry_of(it):
    """The entry that bytes begin with, by docs/FORMATS.md: what the replies that were read can be held against."""
    at, tag = it.number(8), it.number(1)
    if tag == 1:
        return {"what": "founded", "lease_ms": it.number(4), "daily": it.number(2), "zone": it.number(2)}
    if tag in (2, 7):
        entry = {"what": "open", "key": it.number(16), "search": it.number(4), "test": it.name()}
        it.take(20 + 4)
        for _ in range(it.number(2)):
            it.take(20 + 2)
        it.take(4 + (2 if tag == 7 else 0) + 4 + 1 + 1)
        return entry
    if tag == 3:
        return {"what": "lease", "key": it.number(16), "worker": it.name(), "run": it.number(4), "search": it.number(4),
                "stage": ("search", "verify")[it.number(1) - 1], "position": it.number(2), "deadline": it.number(8)}
    if tag == 4:
        return {"what": "report", "run": it.number(4), "verdict": ("pass", "fail")[it.number(1) - 1],
                "fate": ("counted", "late", "over")[it.number(1) - 1]}
    if tag == 5:
        return {"what": "cancel", "key": it.number(16), "search": it.number(4)}
    if tag == 8:
        return {"what": "report", "run": it.number(4), "verdict": "skip", "fate": ("skipped", "late")[it.number(1) - 1]}
    if tag == 9:
        return {"what": "close"}
    if tag == 10:
        return {"what": "carry", "commit": it.take(20).hex(), "day": it.number(4)}
    assert tag == 6, (tag, at)
    return {"what": "revert", "key": it.number(16), "agent": it.name(), "order": it.number(4), "commit": it.take(20).hex(),
            "search": it.number(4), "day": it.number(4)}


def entries_of(path):
    """The entries of a journal."""
    it, entries = Bytes(b"".join(records_of(path))), []
    while it.at < len(it.data):
        entries.append(entry_of(it))
    return entries
