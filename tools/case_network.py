"""What the tests of work and follow share: peers on loopback that answer by a script, or that spoil by a plan what a
service says, and the bytes of journals, as docs/FORMATS.md has them."""
from __future__ import annotations

import json
import os
import re
import socket
import struct
import subprocess
import threading
import unittest
import urllib.error
import urllib.request
from typing import Any, Callable, NamedTuple, Optional, Sequence

from case_farm import PATIENCE, PROGRAM, Reply, Service, commit

STATUS = {"the output could not be written": 4, "the journal could not be used": 5, "the network failed": 9,
          "the runner failed": 10}
NUMBERED = {"the journal is damaged at byte": 6, "the service answered": 14,
            "the journal differs from the leader's at entry": 15}
NOWHERE = "127.0.0.1:99999"  # an address that no machine has: connecting fails at once


def program(*words: object, given: bytes = b"", **more: Any) -> "subprocess.CompletedProcess[bytes]":
    """How the program ended."""
    return subprocess.run([PROGRAM, *map(str, words)], input=given, stdout=more.pop("stdout", subprocess.PIPE),
                          stderr=subprocess.PIPE, timeout=PATIENCE, check=False, **more)


def came_to(test: unittest.TestCase, *words: object, **more: Any) -> str:
    """The one line that the program writes, or where it fails says, whose status has to be that of the line."""
    ended = program(*words, **more)
    out, said = (ended.stdout or b"").decode(), ended.stderr.decode()
    line = said.removesuffix("\n")
    wanted = STATUS.get(line, NUMBERED.get(line.rstrip("0123456789").rstrip(), 0 if not line else -1))
    test.assertEqual(ended.returncode, wanted, (words, out, said))
    text = said if wanted else out
    test.assertEqual((out if wanted else said, text.count("\n"), text[-1:]), ("", 1, "\n"), words)
    return text[:-1]


class Answer(NamedTuple):
    """What a peer puts to a connection: bytes, at once or one by one, and then the connection's end, or a fault."""

    data: bytes = b""
    reset: bool = False
    slow: bool = False


def http(status: int, body: object, more: int = 0, head: str = "") -> bytes:
    """A response with a body, in JSON if it is no text, which says that it has so many bytes more."""
    text = body if isinstance(body, str) else json.dumps(body)
    return f"HTTP/1.1 {status} X\r\n{head}Content-Length: {len(text) + more}\r\n\r\n{text}".encode()


def reset(link: socket.socket) -> None:
    """Ends a connection by a fault."""
    link.setsockopt(socket.SOL_SOCKET, socket.SO_LINGER, struct.pack("ii", 1, 0))
    link.close()


def request_of(link: socket.socket) -> bytes:
    """A request, with its body by its Content-Length."""
    data = b""
    while b"\r\n\r\n" not in data:
        if not (more := link.recv(65_536)):
            return data
        data += more
    head, _, body = data.partition(b"\r\n\r\n")
    length = re.search(rb"Content-Length: ([0-9]+)", head)
    while length and len(body) < int(length[1]):
        if not (more := link.recv(65_536)):
            break
        data, body = data + more, body + more
    return data


def line_of(link: socket.socket) -> bytes:
    """A line, or what came before the end."""
    data = b""
    while not data.endswith(b"\n") and (more := link.recv(1)):
        data += more
    return data


class Peer:
    """A server on loopback, which takes one connection after the other. `heard` has what each asked."""

    reads = staticmethod(request_of)

    def __init__(self, test: unittest.TestCase) -> None:
        self.listener = socket.create_server(("127.0.0.1", 0))
        self.port: int = self.listener.getsockname()[1]
        self.address = f"127.0.0.1:{self.port}"
        self.heard: list[bytes] = []
        self.faults: list[Exception] = []
        self.test = test
        self.thread = threading.Thread(target=self._serve, daemon=True)
        self.thread.start()
        test.addCleanup(self.end)

    def end(self) -> None:
        """Takes no further connection, and waits for the one that is served."""
        if self.listener.fileno() >= 0:
            self.listener.shutdown(socket.SHUT_RDWR)
            self.thread.join(PATIENCE)
            self.listener.close()
        self.test.assertEqual(self.faults, [])

    def _serve(self) -> None:
        number = 0
        while True:
            try:
                link, _ = self.listener.accept()
            except OSError:
                return
            link.settimeout(PATIENCE)
            try:
                self.take(number, link)
            except OSError:
                pass  # the other end went away
            except Exception as fault:  # told when the test ends
                self.faults.append(fault)
            link.close()
            number += 1

    def take(self, number: int, link: socket.socket) -> None:
        """Serves a connection, by its number from 0."""
        self.heard.append(self.reads(link))
        self.put(link, self.answer(number, self.heard[-1]))

    def answer(self, number: int, asked: bytes) -> Answer:
        """What is answered to what a connection asked."""
        raise NotImplementedError

    @staticmethod
    def put(link: socket.socket, answer: Answer) -> None:
        """Puts an answer, and ends the connection."""
        link.setsockopt(socket.IPPROTO_TCP, socket.TCP_NODELAY, 1)
        pieces = [bytes([it]) for it in answer.data] if answer.slow else [answer.data]
        for piece in pieces:
            link.sendall(piece)
        if answer.reset:
            reset(link)
        else:
            link.shutdown(socket.SHUT_WR)


class Scripted(Peer):
    """A peer that gives these answers, one a connection, and none to further ones."""

    def __init__(self, test: unittest.TestCase, answers: Sequence[bytes | Answer]) -> None:
        self.answers = [it if isinstance(it, Answer) else Answer(it) for it in answers]
        super().__init__(test)

    def answer(self, number: int, asked: bytes) -> Answer:
        return self.answers[number] if number < len(self.answers) else Answer()


class Proxy(Peer):
    """A network before a service. What becomes of its connections is said by the letters of a plan, over and over.

    `.` the request is answered; `s` it is, a byte at a time; `i` it is, behind an interim answer; `a` the service takes
    it, and its answer is lost; `h` half of the answer comes; `H` the same, and the connection fails; `f` the service
    takes it, and the connection fails; `k` the service takes it, and is killed and started again; `r` the request is
    lost; `x` the connection fails at once; `g` another answers, and not in HTTP; `5` memory ran out, says an answer,
    and `3` that the disk failed; `4` an answer that workers aren't given; `d` the request comes late, before the next
    one that is taken; `t` it comes twice; `c` what `ends` does is done, and then it is answered.
    """

    def __init__(self, test: unittest.TestCase, farm: "Served", plan: str = ".",
                 ends: Callable[[], None] = lambda: None) -> None:
        self.farm, self.ends = farm, ends
        self.late: list[bytes] = []
        self.follow(plan)
        super().__init__(test)

    def follow(self, plan: str) -> None:
        """Begins a plan, while no connection is made."""
        self.plan, self.made = plan, 0

    def take(self, number: int, link: socket.socket) -> None:
        fate = self.plan[self.made % len(self.plan)]
        self.made += 1
        if fate == "x":
            reset(link)
            return
        self.heard.append(request_of(link))
        self.put(link, self.spoiled(fate, self.heard[-1]))

    def spoiled(self, fate: str, asked: bytes) -> Answer:
        """What comes of a request by a letter."""
        if fate in "rg":
            return Answer(b"220 mail.example ready\r\n\r\n" if fate == "g" else b"")
        if fate in "534":
            return Answer(http({"5": 507, "3": 503, "4": 404}[fate], {}))
        if fate == "d":
            self.late.append(asked)
            return Answer()
        if fate == "c":
            self.ends()
        answer = self.taken(asked)
        if fate == "t":
            answer = self.taken(asked)
        if fate == "k":
            self.farm.restart()
        if fate == "i":
            answer = b"HTTP/1.1 100 Continue\r\n\r\n" + answer
        if fate in "hH":
            answer = answer[:len(answer) // 2 if fate == "h" else -1]
        return Answer(b"" if fate in "afk" else answer, reset=fate in "fH", slow=fate == "s")

    def taken(self, asked: bytes) -> bytes:
        """What the service answers, behind those that come late, whose answers nobody gets."""
        late, self.late = self.late, []
        for it in late:
            self.passed(it)
        return self.passed(asked)

    def passed(self, asked: bytes) -> bytes:
        """What the service answers."""
        with socket.create_connection(("127.0.0.1", self.farm.service.port), PATIENCE) as link:
            link.sendall(asked)
            data = b""
            while more := link.recv(65_536):
                data += more
        return data


class Served:
    """A farm that a service has, behind a journal."""

    def __init__(self, test: unittest.TestCase, journal: str, lease_ms: int = 60_000, founded: bool = False) -> None:
        self.test, self.journal = test, journal
        if not founded:
            test.assertEqual(program("found", journal, lease_ms, 10, "east:0").stdout, b"founded\n")
        self.service = Service(journal)
        test.addCleanup(lambda: self.service.close())

    def restart(self) -> None:
        """Kills the service, and starts it again."""
        self.service.close()
        self.service = Service(self.journal)

    def ask(self, path: str, body: Optional[Reply] = None) -> Reply:
        """The reply or refusal to a POST, or without a body to a GET."""
        data = None if body is None else json.dumps(body).encode()
        try:
            with urllib.request.urlopen(urllib.request.Request(self.service.url + path, data), timeout=PATIENCE) as it:
                return json.load(it)
        except urllib.error.HTTPError as refused:
            with refused:
                return json.load(refused)

    def close(self) -> tuple[int, bytes]:
        """How closing the farm ends, and what it writes: its service is ended for that, and started again."""
        self.service.close()
        ended = program("close", self.journal)
        self.service = Service(self.journal)
        return ended.returncode, ended.stdout

    def audit(self) -> str:
        """What an audit finds of the journal."""
        return program("audit", given=self.data()).stdout.decode().strip()

    def data(self) -> bytes:
        """The bytes of the journal."""
        with open(self.journal, "rb") as file:
            return file.read()

    def history(self) -> list[bytes]:
        """The entries of the journal."""
        return history_of(self.data())


def history_of(data: bytes) -> list[bytes]:
    """The entries in the bytes of a journal, each in its bytes; none where it is unborn."""
    at, payload = 16, b""
    while len(data) > 1 and data[0] and data[at]:
        size = int.from_bytes(data[at + 1:at + 5], "big")
        payload += data[at + 5:at + 5 + size]
        at += 5 + size
    return entries_of(payload)


def held_in(journal: str) -> list[bytes]:
    """The entries of the journal at a path, none where there is no file."""
    if not os.path.exists(journal):
        return []
    with open(journal, "rb") as file:
        return history_of(file.read())


def journal_of(entries: Sequence[bytes]) -> bytes:
    """The bytes of a journal of one record with these entries."""
    payload = b"".join(entries)
    return b"\x01CulpritFinder 2\x01" + len(payload).to_bytes(4, "big") + payload + b"\0"


def entries_of(data: bytes) -> list[bytes]:
    """Entries, each in its bytes."""
    entries, at = [], 0
    while at < len(data):
        end = end_of(data, at)
        entries.append(data[at:end])
        at = end
    assert at == len(data), "the last entry is cut off"
    return entries


def end_of(data: bytes, at: int) -> int:
    """Where the entry ends that begins here."""
    tag, at = data[at + 8], at + 9
    if tag in (2, 7):
        at += 20
        at += 1 + data[at] + 24
        return at + 2 + 22 * int.from_bytes(data[at:at + 2], "big") + 10 + (2 if tag == 7 else 0)
    if tag in (3, 6):
        return at + 17 + data[at + 16] + (19 if tag == 3 else 32)
    return at + {1: 8, 4: 6, 5: 20, 8: 5, 9: 0, 10: 24}[tag]


class Told(NamedTuple):
    """A report in a history: its run, the position that was leased for it, and its verdict."""

    run: int
    position: int
    verdict: str


def reports_of(entries: Sequence[bytes]) -> list[Told]:
    """The reports in a history."""
    leased: dict[int, int] = {}
    told = []
    for it in entries:
        number = int.from_bytes(it[9:13], "big")
        if it[8] == 3:
            fields = it[26 + it[25]:]
            leased[int.from_bytes(fields[:4], "big")] = int.from_bytes(fields[9:11], "big")
        elif it[8] in (4, 8):
            told.append(Told(number, leased[number], "skip" if it[8] == 8 else ("pass", "fail")[it[13] - 1]))
    return told


def suspects_of(count: int, weight: int = 1) -> list[list[object]]:
    """The commits 1 to so many, with a weight."""
    return [[commit(it), weight] for it in range(1, count + 1)]
