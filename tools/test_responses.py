#!/usr/bin/env python3
"""Tests of how a worker reads responses, before a service that is played by a script on loopback.

    CULPRIT_FINDER=PROGRAM python3 tools/test_responses.py [CLASS[.TEST]]

The tables of tools/cases_http/responses.txt have a title each, behind `#`, and a row a line: a response, ` => ` and
what the worker then comes to. A response is its bytes, spelled as in requests.txt, or a status and a body, to the
lease, or behind `report` to the report of a run. It is sent to each try of the request, and the connection then stays
open, unless `\\E` ends it. What the worker comes to is `idle` or `limit`, by the end of its line, or the status which
it says that the service answered: 0 where there was no whole response. Without one, and with 503 and 507, a request
is tried three times.

What is wanted was worked out by hand from docs/FORMATS.md, and not taken from the program.
"""
from __future__ import annotations

import re
import socket
import subprocess
import tempfile
import threading
import unittest
from typing import Callable, Optional

from case_http import PATIENCE, PROGRAM, TOOLS, Connection, own_address, spelled

COMMIT = "0000000000000000000000000000000000000002"
WORDS = {"lease": r'POST /v1/leases HTTP/1\.1\r\nHost: farm\r\nContent-Length: 5[0-9]\r\n'
         r'Connection: close\r\n\r\n\{"key":"([0-9a-f-]{32,36})","worker":"w"\}',
         "report": r'POST /v1/runs/([0-9]+)/report HTTP/1\.1\r\nHost: farm\r\nContent-Length: 18\r\n'
         r'Connection: close\r\n\r\n\{"verdict":"(pass|fail|skip)"\}'}


def whole(status: int, body: str) -> bytes:
    """A response with a body."""
    return f"HTTP/1.1 {status} x\r\nContent-Length: {len(body.encode())}\r\n\r\n{body}".encode()


def lease(run: int, test: str = "t") -> bytes:
    """The response to a lease."""
    return whole(200, f'{{"commit":"{COMMIT}","run":{run},"test":"{test}"}}')


class Peer:
    """A service that answers each connection by a call: the responses between which it waits a moment, and whether the
    connection stays open behind them."""

    def __init__(self, answers: Callable[[str], tuple[list[bytes], bool]]) -> None:
        self.address = own_address()
        host, port = self.address.split(":")
        self.answers, self.asked, self.faults = answers, [], []
        self.listener = socket.create_server((host, int(port)))
        self.thread = threading.Thread(target=self.serve)
        self.thread.start()

    def serve(self) -> None:
        """Answers one connection after the other, until the listener is shut."""
        while True:
            try:
                link = Connection(self.listener.accept()[0])
            except OSError:
                return
            with link:
                try:
                    self.serve_one(link)
                except (AssertionError, OSError) as fault:
                    self.faults.append(fault)

    def serve_one(self, link: Connection) -> None:
        """Takes a request, and answers it. Where the connection stays open the worker has to end it."""
        asked = link.take_request()
        self.asked.append(asked)
        parts, stays = self.answers(asked)
        for number, part in enumerate(parts):
            assert number == 0 or link.is_quiet(0.03), "it was over too early"
            link.send(part)
        if stays:
            assert not link.is_quiet(PATIENCE), "the worker waits on"

    def close(self) -> None:
        """Ends it."""
        self.listener.shutdown(socket.SHUT_RDWR)
        self.thread.join()
        self.listener.close()


class Responses(unittest.TestCase):
    """Each row of the tables, and workers whose requests are lost."""

    def work(self, peer: Peer, runs: int, verdicts: str = "pass") -> tuple[int, str, str]:
        """What a worker comes to that makes its runs by a table: its status, and what it writes."""
        with tempfile.NamedTemporaryFile("w", suffix=".table") as table:
            table.write("".join(f"{COMMIT} {it} {test}\n" for it, test in zip(verdicts.split(" "), "tuv")))
            table.flush()
            words = [PROGRAM, "work", peer.address, "w", str(runs), f"table:{table.name}"]
            try:
                ran = subprocess.run(words, capture_output=True, text=True, timeout=PATIENCE, check=False)
            finally:
                peer.close()
        self.assertEqual(peer.faults, [])
        return ran.returncode, ran.stdout, ran.stderr

    def keys(self, asked: list[str]) -> list[str]:
        """What was asked: for a lease `A`, `B` and so on, by its key, and for a report its run and verdict."""
        told, names = [], {}
        for text in asked:
            if found := re.fullmatch(WORDS["lease"], text):
                told.append(names.setdefault(found[1], "ABCDEF"[len(names)]))
            else:
                found = re.fullmatch(WORDS["report"], text)
                assert found, text
                told.append(f"{found[1]} {found[2]}")
        return told

    def play(self, text: str, wanted: str) -> None:
        """Plays a row."""
        is_report, text = text.startswith("report "), text.removeprefix("report ")
        if found := re.fullmatch(r"([0-9]{3})(?: (.*))?", text):
            parts, stays = [whole(int(found[1]), found[2] or "")], True
        else:
            parts, stays = [spelled(it) for it in text.removesuffix("\\E").split("\\W")], not text.endswith("\\E")

        def answers(asked: str) -> tuple[list[bytes], bool]:
            if asked.startswith("POST /v1/leases") == is_report:
                return ([lease(1)] if is_report else [whole(200, "{}")]), True
            return parts, stays

        peer = Peer(answers)
        ended = self.work(peer, 1)
        asked, tries = self.keys(peer.asked), 3 if wanted in ("0", "503", "507") else 1
        if wanted == "idle":
            self.assertEqual((ended, asked), ((0, "leased 0 reported 0 idle\n", ""), ["A"]))
        elif wanted == "limit":
            run = re.search(r'"run":([0-9]+)', text) if not is_report else None
            self.assertEqual((ended, asked), ((0, "leased 1 reported 1 limit\n", ""),
                                              ["A", f"{run[1] if run else 1} pass"]))
        else:
            self.assertEqual(ended, (14, "", f"the service answered {wanted}\n"))
            self.assertEqual(asked, ["A", "1 pass"] if is_report else ["A"] * tries)

    def play_lost(self, runs: int, verdicts: str, script: list[tuple[str, Optional[bytes]]]) -> tuple[int, str, str]:
        """Lets a worker ask by a script of what it asks and of the response, which is lost where there is none."""
        left = [it for _, it in script]

        def answers(_: str) -> tuple[list[bytes], bool]:
            response = left.pop(0) if left else None
            return ([response] if response is not None else []), response is not None

        peer = Peer(answers)
        ended = self.work(peer, runs, verdicts)
        self.assertEqual(self.keys(peer.asked), [it for it, _ in script])
        return ended

    def test_five_runs_may_be_leased_the_farm_has_two_and_the_first_answer_to_a_report_is_lost(self) -> None:
        noted, no_run = whole(200, "{}"), whole(409, '{"refused":"NoRun"}')
        script = [("A", lease(1)), ("1 fail", None), ("1 fail", noted), ("B", lease(2, "u")), ("2 pass", noted),
                  ("C", no_run)]
        self.assertEqual(self.play_lost(5, "fail pass", script), (0, "leased 2 reported 2 idle\n", ""))

    def test_one_run_may_be_leased_and_two_tries_of_its_lease_are_lost_with_different_statuses(self) -> None:
        script = [("A", whole(503, "")), ("A", None), ("A", lease(4)), ("4 pass", whole(200, "{}"))]
        self.assertEqual(self.play_lost(1, "pass", script), (0, "leased 1 reported 1 limit\n", ""))

    def test_each_request_has_three_tries_and_the_status_of_the_third_is_told(self) -> None:
        script = [("A", None), ("A", whole(503, "")), ("A", lease(1)), ("1 fail", whole(503, "")),
                  ("1 fail", whole(507, "")), ("1 fail", whole(507, ""))]
        self.assertEqual(self.play_lost(2, "fail", script), (14, "", "the service answered 507\n"))

    def test_a_tree_that_cant_be_tested_is_reported_as_such_as_often_as_it_is_lost(self) -> None:
        noted = whole(200, "{}")
        script = [("A", lease(1)), ("1 skip", None), ("1 skip", noted), ("B", lease(2)), ("2 skip", noted)]
        self.assertEqual(self.play_lost(2, "skip", script), (0, "leased 2 reported 2 limit\n", ""))


def test_of(rows: list[str]) -> Callable[[Responses], None]:
    """The test that plays a table."""
    def test(self: Responses) -> None:
        for row in rows:
            with self.subTest(row[:200]):
                text, _, wanted = row.rpartition(" => ")
                self.play(text, wanted)
    return test


for place, table in enumerate((TOOLS / "cases_http" / "responses.txt").read_text("utf-8").split("\n\n")[1:], 1):
    title, *told = table.strip("\n").split("\n")
    setattr(Responses, f"test_{place:02}_{'_'.join(re.findall(r'[a-z0-9]+', title.lower()))}"[:110], test_of(told))

if __name__ == "__main__":
    unittest.main()
