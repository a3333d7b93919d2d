#!/usr/bin/env python3
"""Times `run JOURNAL` over leases that each expire before the next one, beside a plain program in C that makes the same
writes and syncs (plain_journal.c, built here by `cc`), and prints the ratio of the two in the median turn, and the
share of its time for which `run` had the processor.

    bench/journal.py [FOLDER [LEASES]]        1000 leases in the folder for temporary files, if not said

Run it after `./finder build`; FINDER names another program than that. The two programs are run in turn, each timed from
its start to its end. What a sync takes is the disk's: on a folder in memory it is nothing, and what `run` takes there
is the processor's work alone.
"""
import json
import os
import resource
import statistics
import subprocess
import sys
import tempfile
import time

ROOT = os.path.dirname(os.path.dirname(os.path.abspath(__file__)))
PROGRAM = os.environ.get("FINDER", os.path.join(ROOT, "crates", "culprit_finder", "out", "culprit_finder"))
# In 2096: a farm takes no moment before that of its founding, which is the clock's.
START = 4_000_000_000_000
LEASE_MS = 60_000
TURNS = 15


def script(leases):
    """One search, and leases of it, each at the moment at which the one before expires."""
    ids = [f"{i:040d}" for i in range(6)]
    lines = [{
        "at": START, "do": "open", "key": f"{1:032x}", "test": "//bench:test", "base": ids[0],
        "suspects": [[one, 1] for one in ids[1:]], "calm": 1, "rate": [1, 10], "bar": [9, 10], "width": 1, "reruns": 1,
    }]
    lines += [
        {"at": START + LEASE_MS * i, "do": "lease", "key": f"{i + 2:032x}", "worker": "bot"} for i in range(leases)
    ]
    return "".join(json.dumps(line, separators=(",", ":")) + "\n" for line in lines).encode()


def found(path):
    """Founds the journal anew."""
    if os.path.exists(path):
        os.remove(path)
    subprocess.run([PROGRAM, "found", path, str(LEASE_MS), "10", "east:0"], check=True, stdout=subprocess.DEVNULL)


def processor():
    """The processor seconds of the programs that have ended so far."""
    used = resource.getrusage(resource.RUSAGE_CHILDREN)
    return used.ru_utime + used.ru_stime


def main():
    words = sys.argv[1:]
    where = words[0] if words else None
    leases = int(words[1]) if len(words) > 1 else 1_000
    lines = script(leases)
    with tempfile.TemporaryDirectory() as built, tempfile.TemporaryDirectory(dir=where) as folder:
        plain = os.path.join(built, "plain_journal")
        subprocess.run(["cc", "-O2", "-o", plain, os.path.join(ROOT, "bench", "plain_journal.c")], check=True)
        journal, copy = (os.path.join(folder, name) for name in ("journal", "copy"))
        ours, theirs, shares = [], [], []
        for _ in range(TURNS):
            found(journal)
            began, used = time.monotonic(), processor()
            subprocess.run([PROGRAM, "run", journal], input=lines, check=True, stdout=subprocess.DEVNULL)
            ours.append(time.monotonic() - began)
            shares.append((processor() - used) / ours[-1])
            began = time.monotonic()
            subprocess.run([plain, journal, copy], check=True)
            theirs.append(time.monotonic() - began)
    ratios = [one / other for one, other in zip(ours, theirs)]
    print(f"{leases} leases: at least {min(ours):.3f} s, and {min(theirs):.3f} s in a plain program")
    print(f"ratio {statistics.median(ratios):.2f}; in turn " + ", ".join(f"{ratio:.2f}" for ratio in ratios))
    print(f"of its time the program had the processor for {statistics.median(shares):.0%}")


if __name__ == "__main__":
    main()
