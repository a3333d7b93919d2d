#!/usr/bin/env python3
"""A process that begins without its standard streams: nothing that it writes to them may land in the journal.

    bench/streams.py        FINDER names another program than the one that `./finder build` made

Run it after `./finder build`. With standard input, output or error closed, in each combination, a journal is founded,
shown and asked by a script: the status is that of a stream which can't be read or written, and the journal holds what
was founded, no byte more or less.
"""
import itertools
import os
import subprocess
import sys
import tempfile

from service import PROGRAM

SCRIPT = b'{"at":4102444800000,"do":"farm"}\n'
SETS = [closed for count in range(4) for closed in itertools.combinations((0, 1, 2), count)]


def run(words, closed, script=b""):
    """The status of the program, whose standard streams of these numbers are closed as it begins."""
    def close():
        for stream in closed:
            os.close(stream)
    ended = subprocess.run([PROGRAM, *words], input=script, capture_output=True, preexec_fn=close)
    return ended.returncode


def content(path):
    with open(path, "rb") as file:
        return file.read()


def main():
    with tempfile.TemporaryDirectory() as folder:
        faults = faults_in(os.path.join(folder, "farm.journal"))
    for fault in faults:
        print(fault)
    print(f"{len(SETS)} sets of closed streams, {len(faults)} faults")
    sys.exit(1 if faults else 0)


def faults_in(journal):
    """What isn't as it should be, where this journal is founded and used with each set of streams closed."""
    faults = []
    for closed in SETS:
        if os.path.exists(journal):
            os.remove(journal)
        unwritten = 4 if 1 in closed else 0
        expected = {"found": unwritten}
        tried = {"found": run(["found", journal, "60000", "10", "east:0"], closed)}
        founded = content(journal)
        expected["show"] = unwritten
        tried["show"] = run(["show", journal], closed)
        # A script that can't be read ends before its first line, and one whose replies can't be written after it.
        expected["run"] = 3 if 0 in closed else unwritten
        tried["run"] = run(["run", journal], closed, SCRIPT)
        expected["drill"] = unwritten
        tried["drill"] = run(["drill", "2", "2"], closed)
        if content(journal) != founded:
            faults.append(f"closed {closed}: the journal changed")
        expected["show again"] = 0
        tried["show again"] = run(["show", journal], ())
        for name, status in tried.items():
            if status != expected[name]:
                faults.append(f"closed {closed}: {name} ended with {status}, and not with {expected[name]}")
    return faults


if __name__ == "__main__":
    main()
