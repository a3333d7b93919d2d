#!/usr/bin/env python3
"""What an audit finds of a journal in which one bit was flipped: the findings, by their first word, over all bits.

    bench/flips.py

Run it after `./finder build`; FINDER names another program. The journal is that of examples/journal's first script and
of examples/run's script of an order, behind it. A journal has no checksum, so many flips leave a legal history: another
commit id, another key, another test's name. docs/OPERATING.md says how to find such damage.
"""
import collections
import os
import pathlib
import subprocess
import sys
import tempfile

ROOT = pathlib.Path(__file__).resolve().parent.parent
PROGRAM = os.environ.get("FINDER", str(ROOT / "crates" / "culprit_finder" / "out" / "culprit_finder"))
SCRIPTS = ("examples/journal/monday.txt", "examples/run/culprit_ordered.txt")


def said(*words, stdin=b""):
    """What the program writes for these words."""
    return subprocess.run([PROGRAM, *words], input=stdin, capture_output=True, check=True).stdout


def journal():
    """The bytes of a journal of two scripts."""
    with tempfile.TemporaryDirectory() as folder:
        path = pathlib.Path(folder) / "farm.journal"
        said("found", str(path), "60000", "10", "east:0")
        for script in SCRIPTS:
            said("run", str(path), stdin=(ROOT / script).read_bytes())
        return bytearray(path.read_bytes())


def main():
    if not os.access(PROGRAM, os.X_OK):
        sys.exit("build the program first: ./finder build")
    data, found = journal(), collections.Counter()
    print(said("audit", stdin=bytes(data)).decode(), end="")
    for place in range(len(data)):
        for bit in range(8):
            data[place] ^= 1 << bit
            found[said("audit", stdin=bytes(data)).split()[0].decode()] += 1
            data[place] ^= 1 << bit
    flips = 8 * len(data)
    for word, times in found.most_common():
        print(f"{word:8} {times:5} of {flips} flips, {100 * times / flips:.0f} %")


if __name__ == "__main__":
    main()
