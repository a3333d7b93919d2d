#!/usr/bin/env python3
"""Tests of the program by the cases of tools/cases: what it answers to words, input and files, byte for byte.

    CULPRIT_FINDER=PROGRAM python3 tools/test_cases.py [CLASS[.TEST]]

A file of cases is a class of tests, and each case a test of it. Cases have an empty line between them. The first line
of one is `#` and what it shows; further ones with `#` explain. Each other line begins with a word:

    file NAME HEX      the file NAME has these bytes
    $ WORDS            the program is called with these words, in the folder of the case's files
    > LINE             a line of its input
    >x HEX             bytes of its input
    < LINE             a line that it writes, in its order; no line: it writes nothing
    ! LINE             the same on standard error; no line: it may write anything there, as a status says what failed
    = STATUS           its exit status, where it isn't 0
    bytes NAME HEX     the file NAME then has these bytes; `begins NAME HEX` and `ends NAME HEX` tell a part of them
    size NAME NUMBER   it is that long
    keep NAME AS       the file AS is made of its bytes

`{a*200}` stands for a text that often, here for 200 letters. What is wanted was worked out by hand, or by a program of
its own over the definitions, and not taken from the program.
"""
from __future__ import annotations

import os
import pathlib
import re
import shutil
import subprocess
import tempfile
import unittest
from typing import Callable

TOOLS = pathlib.Path(__file__).resolve().parent
PROGRAM = os.environ.get("CULPRIT_FINDER") or str(TOOLS.parent / "finder")
PATIENCE = 120.0  # seconds that a call may take which takes well below one: the machine may be slow, and loaded
REPEATED = re.compile(r"\{([^{}*]+)\*([0-9]+)\}")


def whole(line: str) -> str:
    """A line with each repeated text written out."""
    return REPEATED.sub(lambda it: it[1] * int(it[2]), line)


class Call:
    """A call of the program: its words, its input, what it is to write, and its exit status."""

    def __init__(self, words: list[str]) -> None:
        self.words, self.input, self.status = words, b"", 0
        self.out: list[str] = []
        self.said: list[str] = []

    def make(self, test: unittest.TestCase, folder: pathlib.Path) -> None:
        """Calls the program, and holds what it writes and its status to what is wanted."""
        ran = subprocess.run([PROGRAM, *self.words], input=self.input, capture_output=True, timeout=PATIENCE,
                             cwd=folder, check=False)
        said, name = ran.stderr.decode(errors="replace"), " ".join(self.words)[:200]
        test.assertEqual(ran.stdout.decode(errors="backslashreplace"), "".join(f"{it}\n" for it in self.out), name)
        test.assertEqual(ran.returncode, self.status, f"{name}: {said}")
        if self.said:
            test.assertEqual(said, "".join(f"{it}\n" for it in self.said), name)


class Case:
    """The steps of a case."""

    def __init__(self, lines: list[str]) -> None:
        self.title = lines[0][1:].strip()
        self.steps: list[Callable[[unittest.TestCase, pathlib.Path], None]] = []
        self.call = Call([])
        for line in lines[1:]:
            self.read(line)

    def read(self, line: str) -> None:
        """Takes a line of the case."""
        word, _, rest = line.partition(" ")
        rest = whole(rest)
        name, _, more = rest.partition(" ")
        if word == "$":
            self.call = Call(rest.split(" "))
            self.steps.append(self.call.make)
        elif word == ">":
            self.call.input += rest.encode() + b"\n"
        elif word == ">x":
            self.call.input += bytes.fromhex(rest)
        elif word == "<":
            self.call.out.append(rest)
        elif word == "!":
            self.call.said.append(rest)
        elif word == "=":
            self.call.status = int(rest)
        elif word == "file":
            self.steps.append(lambda _, folder: (folder / name).write_bytes(bytes.fromhex(more)) and None)
        elif word in ("bytes", "begins", "ends"):
            self.steps.append(lambda test, folder: hold_bytes(test, folder / name, word, more))
        elif word == "size":
            self.steps.append(lambda test, folder: test.assertEqual((folder / name).stat().st_size, int(more), name))
        elif word == "keep":
            self.steps.append(lambda _, folder: shutil.copy(folder / name, folder / more) and None)
        elif word != "#":
            raise ValueError(f"{self.title}: no case has a line {line[:60]!r}")

    def play(self, test: unittest.TestCase) -> None:
        """Makes the steps in a folder of their own."""
        with tempfile.TemporaryDirectory(prefix="case ") as folder:
            for step in self.steps:
                step(test, pathlib.Path(folder))


def hold_bytes(test: unittest.TestCase, file: pathlib.Path, word: str, wanted: str) -> None:
    """Holds the bytes of a file, or a part of them, to these digits."""
    found, size = file.read_bytes().hex(), len(wanted)
    part = {"bytes": found, "begins": found[:size], "ends": found[max(0, len(found) - size):]}[word]
    test.assertEqual(part, wanted, f"{file.name} {word}")


def cases_of(file: pathlib.Path) -> list[Case]:
    """The cases of a file."""
    texts = [it.strip("\n") for it in re.split(r"\n\n+", file.read_text("utf-8"))]
    return [Case(it.split("\n")) for it in texts if it]


def test_of(case: Case) -> Callable[[unittest.TestCase], None]:
    """The test that plays a case."""
    return lambda test: case.play(test)


def class_of(file: pathlib.Path) -> type:
    """The class of tests of a file of cases: a test for each, named by what it shows."""
    members: dict[str, object] = {"__doc__": f"The cases of {file.name}."}
    for number, case in enumerate(cases_of(file), 1):
        name = "_".join(re.findall(r"[a-z0-9]+", case.title.lower()))
        members[f"test_{number:03}_{name}"[:110]] = test_of(case)
    return type(file.stem.title().replace("_", ""), (unittest.TestCase,), members)


globals().update({it.__name__: it for it in map(class_of, sorted((TOOLS / "cases").glob("*.txt")))})

if __name__ == "__main__":
    unittest.main()
