"""What the tests of connections share: the program serving a journal, connections to it, and answers byte for byte."""
from __future__ import annotations

import functools
import os
import pathlib
import re
import select
import shutil
import socket
import subprocess
import tempfile
import time
import unittest
from typing import Any, Optional

from case_farm import own_port

TOOLS = pathlib.Path(__file__).resolve().parent
PROGRAM = os.environ.get("CULPRIT_FINDER") or str(TOOLS.parent / "finder")
PATIENCE = 120.0  # seconds that something may take which takes well below one: the machine may be slow, and loaded
MEMORY = next((it for it in ["/dev/shm"] if os.access(it, os.W_OK)), None)  # a folder whose syncs take no time
MOMENT = 0.005  # seconds for which nothing may come where nothing is due

# The texts of the statuses, by RFC 9110 and, for 429, RFC 6585.
PHRASES = {
    200: "OK", 400: "Bad Request", 403: "Forbidden", 404: "Not Found", 405: "Method Not Allowed", 409: "Conflict",
    411: "Length Required", 413: "Content Too Large", 429: "Too Many Requests", 501: "Not Implemented",
    503: "Service Unavailable", 507: "Insufficient Storage",
}
INTERIM = b"HTTP/1.1 100 Continue\r\n\r\n"


@functools.lru_cache(None)
def own_address() -> str:
    """An address on loopback that no other process has."""
    return f"127.0.0.1:{own_port()}"


def spelled(text: str) -> bytes:
    r"""The bytes of a text in which `\r`, `\n` and `\t` stand for control characters, and a part between bars that
    begins with a number, as `|63*x|`, for so many times the rest of it."""
    for mark, control in ((r"\r", "\r"), (r"\n", "\n"), (r"\t", "\t")):
        text = text.replace(mark, control)
    parts = [re.fullmatch(r"([0-9]+)\*(.*)", it, re.S) or it for it in text.split("|")]
    return "".join(it if isinstance(it, str) else it[2] * int(it[1]) for it in parts).encode()


def request(method: str, target: str, body: str = "", more: str = "") -> bytes:
    """A request of HTTP/1.1 with a Host and the length of its body."""
    told = body.encode()
    return f"{method} {target} HTTP/1.1\r\nHost: farm\r\nContent-Length: {len(told)}\r\n{more}\r\n".encode() + told


def answer(status: int, body: str, *, allow: str = "", closes: bool = False, withheld: bool = False) -> bytes:
    """The bytes of an answer."""
    told = body.encode()
    lines = [f"HTTP/1.1 {status} {PHRASES[status]}", "Content-Type: application/json", f"Content-Length: {len(told)}"]
    lines += [f"Allow: {allow}"] * bool(allow) + ["Connection: close"] * closes
    return "".join(f"{it}\r\n" for it in [*lines, ""]).encode() + (b"" if withheld else told)


class Connection:
    """A connection, whose bytes are sent without delay."""

    def __init__(self, link: socket.socket) -> None:
        self.link = link
        link.setsockopt(socket.IPPROTO_TCP, socket.TCP_NODELAY, 1)
        link.settimeout(PATIENCE)

    def send(self, sent: bytes, size: int = 0) -> None:
        """Sends bytes, in pieces of a size where there is one. A peer that has closed takes no more."""
        try:
            for start in range(0, len(sent), size or max(1, len(sent))):
                self.link.sendall(sent[start:start + (size or len(sent))])
        except (BrokenPipeError, ConnectionResetError):
            pass

    def take(self, count: int) -> bytes:
        """So many bytes, or fewer where the peer ends before."""
        taken = b""
        while len(taken) < count and (piece := self.link.recv(count - len(taken))):
            taken += piece
        return taken

    def take_request(self) -> str:
        """A request: its head, and the body by its Content-Length."""
        head = b""
        while not head.endswith(b"\r\n\r\n") and (byte := self.link.recv(1)):
            head += byte
        size = re.search(rb"(?i)\r\ncontent-length: *([0-9]+)", head)
        return (head + self.take(int(size[1]) if size else 0)).decode()

    def is_quiet(self, seconds: float = MOMENT) -> bool:
        """Whether nothing comes for a moment."""
        return not select.select([self.link], [], [], seconds)[0]

    def end(self) -> None:
        """Says that no more is sent."""
        try:
            self.link.shutdown(socket.SHUT_WR)
        except OSError:  # the peer has closed
            pass

    def rest(self) -> bytes:
        """All that comes up to the peer's end."""
        return self.take(1 << 30)

    def drop(self) -> None:
        """Goes away at once: the peer finds a connection that was reset."""
        self.link.setsockopt(socket.SOL_SOCKET, socket.SO_LINGER, b"\1\0\0\0\0\0\0\0")
        self.link.close()

    def __enter__(self) -> "Connection":
        return self

    def __exit__(self, *_: Any) -> None:
        self.link.close()


class Service:
    """The program serving a journal by so many handlers, until so many links were accepted."""

    def __init__(self, journal: pathlib.Path, handlers: int = 2, links: int = 1_000_000, **more: Any) -> None:
        self.address = own_address()
        self.process = subprocess.Popen([PROGRAM, "serve", journal, self.address, str(handlers), str(links)],
                                        **{"stdout": subprocess.PIPE, "stderr": subprocess.PIPE, **more})

    def connect(self) -> Connection:
        """A connection to it, made again until it listens."""
        limit = time.monotonic() + PATIENCE
        host, port = self.address.split(":")
        while True:
            try:
                return Connection(socket.create_connection((host, int(port)), PATIENCE))
            except ConnectionRefusedError:
                assert time.monotonic() < limit and self.process.poll() is None, "the service doesn't listen"
                time.sleep(0.002)

    def talk(self, sent: bytes) -> bytes:
        """All that comes on a connection of its own for these bytes, behind which no more is sent."""
        with self.connect() as link:
            link.send(sent)
            link.end()
            return link.rest()

    def ended(self) -> tuple[int, str, str]:
        """How it ends by itself: its status, and what it wrote."""
        out, said = self.process.communicate(timeout=PATIENCE)
        return self.process.returncode, out.decode(), said.decode()

    def close(self) -> None:
        """Ends it."""
        self.process.kill()
        self.process.communicate()


def call(*words: object, given: Optional[bytes] = None) -> str:
    """What the program writes for words that it obeys."""
    ran = subprocess.run([PROGRAM, *map(str, words)], input=given, capture_output=True, timeout=PATIENCE, check=False)
    assert (ran.returncode, ran.stderr) == (0, b""), (words, ran)
    return ran.stdout.decode()


def records(journal: pathlib.Path) -> list[bytes]:
    """The payloads of a journal's records."""
    held, at, found = journal.read_bytes(), 16, []
    while held[at]:
        size = int.from_bytes(held[at + 1:at + 5], "big")
        found.append(held[at + 5:at + 5 + size])
        at += 5 + size
    return found


def new_journal() -> pathlib.Path:
    """A journal that was just founded, in a folder of its own."""
    journal = pathlib.Path(tempfile.mkdtemp(prefix="http ", dir=MEMORY)) / "farm.journal"
    assert call("found", journal, 60000, 10, "east:0") == "founded\n"
    return journal


def audit(journal: pathlib.Path) -> str:
    """What an audit says of a journal's bytes."""
    return call("audit", given=journal.read_bytes())


class Case(unittest.TestCase):
    """A journal of its own for each test."""

    def setUp(self) -> None:
        self.journal = new_journal()
        self.addCleanup(shutil.rmtree, self.journal.parent, ignore_errors=True)

    def serve(self, handlers: int = 2, links: int = 1_000_000, **more: Any) -> Service:
        """The service of this test's journal."""
        service = Service(self.journal, handlers, links, **more)
        self.addCleanup(service.close)
        return service
