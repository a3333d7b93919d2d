#!/usr/bin/env python3
"""Times `audit` of journals in which more and more searches were driven to their ends, and prints what it answers, seconds,
microseconds an entry, how much an entry costs of what it did in the journal before, and the peak of memory.

    bench/audit.py [SEARCHES ..]        30, 60, 120, 240 and 480 searches, if not said

Run it after `./finder build`. The searches are those of growth.py; each journal is made by `run JOURNAL`, and audited
from a file, with the least of its times.
"""
import os
import subprocess
import sys
import tempfile

import growth
import run

LEASE_MS = 86_400_000
DAILY = 1_000
TURNS = 3


def journal_of(searches, path):
    """Writes the journal of so many searches."""
    game, _ = growth.drive(searches)
    subprocess.run([run.PROGRAM, "found", path, str(LEASE_MS), str(DAILY), "east:0"], check=True, stdout=subprocess.DEVNULL)
    script = b"".join(game.lines)
    subprocess.run([run.PROGRAM, "run", path], input=script, check=True, stdout=subprocess.DEVNULL)


def audited(path):
    """What an audit answers, its seconds, and its peak of memory in MiB."""
    with open(path, "rb") as source:
        data = source.read()
    said = subprocess.run([run.PROGRAM, "audit"], input=data, check=True, capture_output=True).stdout.decode().strip()
    seconds, peak = min(run.took([run.PROGRAM, "audit"], data) for _ in range(TURNS))
    return said, seconds, peak


def main():
    sizes = [int(word) for word in sys.argv[1:]] or [30, 60, 120, 240, 480]
    before = None
    with tempfile.TemporaryDirectory() as folder:
        for searches in sizes:
            path = os.path.join(folder, f"journal-{searches}")
            journal_of(searches, path)
            said, seconds, peak = audited(path)
            words = said.split()
            if words[0] != "legal":
                sys.exit(f"the audit says: {said}")
            each = seconds / int(words[2]) * 1e6
            growth_of = "" if before is None else f"   an entry costs {each / before:.2f} times as much"
            print(f"{said}: {seconds:7.3f} s, {each:7.1f} us an entry, {peak:6.1f} MiB{growth_of}", flush=True)
            before = each


if __name__ == "__main__":
    main()
