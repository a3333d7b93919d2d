#!/usr/bin/env python3
"""Tests of the program at its edges: inputs at their limits, standard streams that fail, and connections that say
nothing or that nobody takes.

    CULPRIT_FINDER=PROGRAM python3 tools/test_edges.py

What is wanted was worked out by hand, from the definitions and from docs/FORMATS.md.
"""
from __future__ import annotations

import itertools
import json
import os
import socket
import subprocess
import time
import unittest
from typing import IO, Any, Union

from case_farm import PATIENCE, PROGRAM, Case, Reply, commit, own_port

DAY = 86_400_000
FARM = ('{"confirmed":0,"counted":0,"ended":0,"entries":%d,"orders":0,"reply":"farm","searches":0,"searching":0,'
        '"verifying":0}\n')
ASKS = b'{"at":4102444800000,"do":"farm"}\n'
INPUT_LIMIT = 2**30
REFUSED_S = 10.0  # for how long a connect that is refused is made again


def bare_program() -> str:
    """The program itself, where the launcher was named."""
    if os.path.basename(PROGRAM) != "finder":
        return PROGRAM
    return subprocess.run([PROGRAM, "--path"], capture_output=True, text=True, check=True).stdout.strip()


def call(*words: Any, given: Union[bytes, IO[bytes], int] = b"", out: Union[IO[bytes], int] = subprocess.PIPE,
         closed: tuple[int, ...] = ()) -> tuple[int, str, str]:
    """The program's status, what it wrote, and what it said, with these standard streams closed as it begins."""
    source = {"input": given} if isinstance(given, bytes) else {"stdin": given}

    def close() -> None:
        for stream in closed:
            os.close(stream)

    ran = subprocess.run([PROGRAM, *map(str, words)], stdout=out, stderr=subprocess.PIPE, check=False, timeout=PATIENCE,
                         preexec_fn=close if closed else None, **source)
    return ran.returncode, (ran.stdout or b"").decode(), ran.stderr.decode()


class Limits(unittest.TestCase):
    """Inputs at their limits."""

    @staticmethod
    def open(count: int, weight: int, **members: Any) -> Reply:
        """An open of so many suspects of one weight."""
        return {"at": DAY, "do": "open", "key": f"{1:032}", "test": "t", "base": commit(0),
                "suspects": [[commit(it), weight] for it in range(1, count + 1)], "calm": 1, "rate": [1, 10],
                "bar": [9, 10], "width": 1, "reruns": 1, **members}

    @staticmethod
    def answers(lines: list[Reply]) -> list[Reply]:
        """What a farm in memory answers."""
        status, out, said = call("run", given="".join(f"{json.dumps(it)}\n" for it in lines).encode())
        assert (status, said) == (0, ""), said
        return [json.loads(it) for it in out.splitlines()]

    def test_a_search_takes_no_more_than_1000_suspects(self) -> None:
        self.assertEqual(self.answers([self.open(1_001, 1)]),
                         [{"refused": "BadOpen", "cause": "TooManySuspects", "value": [1_001]}])
        self.assertEqual([it["reply"] for it in self.answers([self.open(1_000, 1)])], ["open"])

    def test_each_number_of_a_search_at_its_limit_and_a_run_past_the_budget(self) -> None:
        lines = [self.open(1_000, 65_535, calm=1_000_000, rate=[1, 1_000], bar=[9_999, 10_000])]
        lines += [{"at": DAY + 60_000 * it, "do": "lease", "key": f"{it + 2:032}", "worker": "w"} for it in range(9)]
        lines += [{"at": DAY, "do": "report", "run": it, "verdict": "fail"} for it in range(1, 10)]
        wanted: list[Reply] = [{"reply": "open", "search": 1, "budget": 8, "standing": "searching"}]
        # No lease is reported, so each position is that of the first: of 1,000,000 + 1,000 * 65,535 half lies there.
        wanted += [{"reply": "lease", "run": it, "search": 1, "position": 508, "commit": commit(508), "test": "t",
                    "stage": "search", "deadline": DAY + 60_000 * it} for it in range(1, 10)]
        counted = {"reply": "report", "search": 1, "verdict": "fail", "fate": "counted", "standing": "searching"}
        wanted += [{**counted, "run": it} for it in range(1, 9)]
        wanted += [{**counted, "run": 9, "fate": "over", "standing": "inconclusive"}]
        self.assertEqual(self.answers(lines), wanted)

    def test_an_input_that_has_no_end_is_answered_by_its_whole_lines(self) -> None:
        script = subprocess.Popen([PROGRAM, "run"], stdin=subprocess.PIPE, stdout=subprocess.PIPE,
                                  stderr=subprocess.PIPE)
        assert script.stdin
        script.stdin.write(ASKS)
        for _ in range(INPUT_LIMIT // 2**20):
            try:
                script.stdin.write(b"x" * 2**20)
            except BrokenPipeError:
                break
        out, said = script.communicate(timeout=PATIENCE)
        self.assertEqual((script.returncode, out.decode(), said), (13, FARM % 1, b"the input is too long\n"))


    def test_words_that_the_launcher_takes_are_none_of_the_programs(self) -> None:
        for words in (["--help"], ["-h"], ["--version"], ["show", "--help"]):
            ran = subprocess.run([bare_program(), *words], capture_output=True, input=b"{}", check=False)
            self.assertEqual((ran.returncode, ran.stdout, ran.stderr), (2, b"", b"usage\n"))


class Streams(Case):
    """Standard streams that can be neither read nor written."""

    UNREAD, UNWRITTEN = (3, "", "the input could not be read\n"), (4, "", "the output could not be written\n")

    def content(self) -> bytes:
        """The journal's bytes."""
        with open(self.journal, "rb") as file:
            return file.read()

    def test_an_input_that_cannot_be_read(self) -> None:
        folder = os.open(self.folder, os.O_RDONLY)
        self.addCleanup(os.close, folder)
        for words in (("judge",), ("run",), ("audit",), ("inherit", self.journal, 60_000, 10, "east:0")):
            with self.subTest(words):
                self.assertEqual(call(*words, given=folder), self.UNREAD)
                self.assertEqual(call(*words, closed=(0,)), self.UNREAD)
        self.assertFalse(os.path.exists(self.journal))

    def test_an_output_that_cannot_be_written(self) -> None:
        with open("/dev/full", "wb") as full:
            for words, given in ((("judge",), b"search 1 10 9 10 1 1\n"), (("run",), ASKS), (("audit",), b""),
                                 (("drill", 1, 1), b"")):
                with self.subTest(words):
                    self.assertEqual(call(*words, given=given, out=full), self.UNWRITTEN)
                    self.assertEqual(call(*words, given=given, closed=(1,)), self.UNWRITTEN)

    def test_a_journal_gets_no_byte_that_was_meant_for_a_closed_stream(self) -> None:
        for closed in (it for count in range(4) for it in itertools.combinations((0, 1, 2), count)):
            with self.subTest(closed):
                unwritten = 4 if 1 in closed else 0
                self.assertEqual(call("found", self.journal, 60_000, 10, "east:0", closed=closed)[0], unwritten)
                founded = self.content()
                self.assertEqual(len(founded), 39)
                self.assertEqual(call("show", self.journal, closed=closed)[0], unwritten)
                ended = 3 if 0 in closed else unwritten
                self.assertEqual(call("run", self.journal, given=ASKS, closed=closed)[0], ended)
                self.assertEqual(self.content(), founded)
                os.remove(self.journal)


class Quiet(Case):
    """Connections that say nothing, and connects that nobody takes."""

    def setUp(self) -> None:
        super().setUp()
        self.assertEqual(call("found", self.journal, 60_000, 10, "east:0"), (0, "founded\n", ""))

    def begin_service(self, links: int) -> "tuple[subprocess.Popen[str], int]":
        """The service of the journal by one handler, with how many links it accepts, and its port."""
        port = own_port()
        service = subprocess.Popen([PROGRAM, "serve", self.journal, f"127.0.0.1:{port}", "1", str(links)],
                                   stdout=subprocess.PIPE, stderr=subprocess.PIPE, text=True)
        self.addCleanup(self.end, service)
        self.connected(port, service).close()  # without a byte: the first link
        return service, port

    @staticmethod
    def connected(port: int, service: "subprocess.Popen[str]") -> socket.socket:
        """A connection to the service, once it listens."""
        limit = time.monotonic() + PATIENCE
        while True:
            try:
                return socket.create_connection(("127.0.0.1", port), PATIENCE)
            except ConnectionRefusedError:
                assert time.monotonic() < limit and service.poll() is None, "the service doesn't listen"
                time.sleep(0.02)

    @staticmethod
    def page(link: socket.socket) -> bytes:
        """The answer to a request for the farm's page."""
        link.sendall(b"GET /v1/farm HTTP/1.1\r\nHost: farm\r\n\r\n")
        answer = b""
        while not answer.endswith(b"}"):
            more = link.recv(4_096)
            assert more, answer
            answer += more
        return answer

    def test_a_connection_that_ends_without_a_byte_is_a_link_too(self) -> None:
        service, _ = self.begin_service(1)
        self.assertEqual(service.communicate(timeout=PATIENCE), (FARM % 1, ""))
        self.assertEqual(service.returncode, 0)

    def test_one_that_says_nothing_holds_nobody_up_and_ends_once_no_accept_follows(self) -> None:
        service, port = self.begin_service(3)
        at = ("127.0.0.1", port)
        with socket.create_connection(at, PATIENCE) as quiet, socket.create_connection(at, PATIENCE) as one:
            self.assertTrue(self.page(one).startswith(b"HTTP/1.1 200 OK\r\n"))
            # The one handler leaves the first of the two, which says nothing more, for the second.
            with socket.create_connection(at, PATIENCE) as two:
                self.assertTrue(self.page(two).startswith(b"HTTP/1.1 200 OK\r\n"))
                self.assertEqual([it.recv(1) for it in (quiet, two, one)], [b"", b"", b""])
        self.assertEqual(service.communicate(timeout=PATIENCE), (FARM % 1, ""))
        self.assertEqual(service.returncode, 0)

    def test_a_connect_that_is_refused_is_made_again_for_ten_seconds(self) -> None:
        with socket.socket() as deaf:
            deaf.bind(("127.0.0.1", 0))  # it never listens, and nobody else can
            begun = time.monotonic()
            ended = call("work", "nowhere", "w", 1, f"host:127.0.0.1:{deaf.getsockname()[1]}")
        self.assertEqual(ended, (10, "", "the runner failed\n"))
        self.assertGreaterEqual(time.monotonic() - begun, REFUSED_S)


if __name__ == "__main__":
    unittest.main()
