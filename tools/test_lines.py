#!/usr/bin/env python3
"""Tests of `run` by scripts that are too long for a case: full pages, the farm with the most searches, and streams that
come in pieces or fail.

    CULPRIT_FINDER=PROGRAM python3 tools/test_lines.py [CLASS[.TEST]]

What is wanted is worked out here from docs/FORMATS.md, and not taken from the program.
"""
from __future__ import annotations

import json
import pathlib
import resource
import socket
import subprocess
import tempfile
import unittest
from typing import Any

from case_http import PATIENCE, PROGRAM, Connection

QUOTES = '"' * 200  # the name whose text is the longest
FIRST = 100000000
FARM = ('{"confirmed":0,"counted":0,"ended":0,"entries":%d,"orders":0,"reply":"farm","searches":%d,"searching":%d,'
        '"verifying":0}\n')


def text(data: Any) -> str:
    """The text of a reply, as a line."""
    return json.dumps(data, sort_keys=True, separators=(",", ":")) + "\n"


def ask(do: str, at: int = FIRST, **members: Any) -> str:
    """A line of a script."""
    return json.dumps({"at": at, "do": do, **members}) + "\n"


def opening(number: int, test: str = "t") -> str:
    """The open of a search of one suspect, whose key is a number."""
    return ask("open", key=f"{number:032x}", test=test, base=f"{0:040}", suspects=[[f"{1:040}", 1]], calm=1,
               rate=[1, 10], bar=[9, 10], width=1, reruns=1)


def run(script: str) -> list[str]:
    """The lines with which a farm in memory answers a script."""
    ran = subprocess.run([PROGRAM, "run"], input=script, capture_output=True, text=True, timeout=PATIENCE, check=True)
    assert ran.stderr == ""
    return ran.stdout.splitlines(keepends=True)


class Pages(unittest.TestCase):
    """Pages that are full, and the farm with the most searches."""

    def test_a_page_has_100_runs_with_the_longest_names(self) -> None:
        script, runs = opening(1), []
        for number in range(1, 102):
            at = FIRST + 60000 * number  # the lease before has expired
            script += ask("lease", at, key=f"{number + 1:032x}", worker=QUOTES)
            runs.append({"commit": f"{1:040}", "deadline": at + 60000, "leased": at, "position": 1, "run": number,
                         "stage": "search", "worker": QUOTES})
        froms = (1, 2, 101, 102)
        found = run(script + "".join(ask("runs", at, search=1, **{"from": it}) for it in froms))[-len(froms):]
        for first, line in zip(froms, found):
            wanted = {"from": first, "reply": "runs", "runs": runs[first - 1:first + 99], "search": 1}
            self.assertEqual(line, text(wanted))
            self.assertLess(len(line), 62000)

    def test_a_farm_has_2000_searches_and_a_page_100_of_them(self) -> None:
        script = "".join(opening(it, QUOTES) for it in range(1, 2002)) + opening(7, QUOTES)
        froms = (1, 1901, 1902, 2001)
        found = run(script + "".join(ask("list", **{"from": it}) for it in froms) + ask("farm"))
        # The priors are 1 and 1: 2 * 10^34 * 10^4 is below 2^128, and ten times that isn't.
        opened = [text({"budget": 34, "reply": "open", "search": it, "standing": "searching"}) for it in range(1, 2001)]
        self.assertEqual(found[:2002], [*opened, text({"refused": "TooManySearches"}), opened[6]])
        for first, line in zip(froms, found[2002:]):
            searches = [{"counted": 0, "leases": 0, "opened": FIRST, "search": it, "standing": "searching",
                         "suspects": 1, "test": QUOTES} for it in range(first, min(first + 100, 2001))]
            self.assertEqual(line, text({"from": first, "reply": "list", "searches": searches}))
            self.assertLess(len(line), 62000)
        self.assertEqual(found[2006:], [FARM % (2001, 2000, 2000)])


class Streams(unittest.TestCase):
    """Input in pieces, and input and output that fail on the way."""

    SCRIPT = (opening(1) + opening(1) + "x\n" + ask("farm")).encode()
    OPENED = text({"budget": 34, "reply": "open", "search": 1, "standing": "searching"})
    WANTED = (OPENED * 2 + text({"refused": "BadJson"}) + FARM % (2, 1, 1)).encode()

    def test_input_may_come_in_pieces_of_any_size(self) -> None:
        for sizes in ([1], [7], [8192], [2, 5], [3, 8192], [len(opening(1)) - 1, 1]):
            with self.subTest(sizes=sizes):
                ours, theirs = socket.socketpair(socket.AF_UNIX, socket.SOCK_SEQPACKET)  # a read takes a piece, no more
                with ours, subprocess.Popen([PROGRAM, "run"], stdin=theirs, stdout=subprocess.PIPE) as process:
                    theirs.close()
                    left = self.SCRIPT
                    for size in sizes + [sizes[-1]] * len(left):
                        if left:
                            ours.sendall(left[:size])
                            left = left[size:]
                    ours.shutdown(socket.SHUT_WR)
                    assert process.stdout
                    self.assertEqual((process.stdout.read(), process.wait(PATIENCE)), (self.WANTED, 0))

    def test_a_last_line_may_lack_its_line_feed(self) -> None:
        self.assertEqual("".join(run(self.SCRIPT.decode().rstrip("\n"))).encode(), self.WANTED)

    def test_input_that_fails_is_told_behind_the_answers_to_its_whole_lines(self) -> None:
        with socket.create_server(("127.0.0.1", 0)) as listener:
            ours = Connection(socket.create_connection(listener.getsockname()))
            theirs = listener.accept()[0]
        with theirs, subprocess.Popen([PROGRAM, "run"], stdin=theirs, stdout=subprocess.PIPE,
                                      stderr=subprocess.PIPE) as process:
            assert process.stdout and process.stderr
            ours.send(self.SCRIPT + b'{"at":100000000,"do":"farm"}')
            self.assertEqual(process.stdout.read(len(self.WANTED)), self.WANTED)
            ours.drop()
            self.assertEqual((process.stdout.read(), process.stderr.read(), process.wait(PATIENCE)),
                             (b"", b"the input could not be read\n", 3))

    def test_output_that_fails_has_a_prefix_of_the_answers(self) -> None:
        for size in (0, 1, 40, len(self.OPENED), len(self.WANTED) - 1, len(self.WANTED)):
            with self.subTest(size=size), tempfile.TemporaryDirectory() as folder:
                place = pathlib.Path(folder) / "out"
                with open(place, "wb") as out:
                    ran = subprocess.run([PROGRAM, "run"], input=self.SCRIPT, stdout=out, stderr=subprocess.PIPE,
                                         timeout=PATIENCE, check=False, restore_signals=False,
                                         preexec_fn=lambda: resource.setrlimit(resource.RLIMIT_FSIZE, (size, size)))
                whole = size == len(self.WANTED)
                self.assertEqual((ran.returncode, ran.stderr),
                                 (0, b"") if whole else (4, b"the output could not be written\n"))
                self.assertEqual(place.read_bytes(), self.WANTED[:size])


if __name__ == "__main__":
    unittest.main()
