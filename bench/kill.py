#!/usr/bin/env python3
"""Kills `run JOURNAL` (SIGKILL) at random moments while a script comes in by a pipe, and looks each time at what the
journal holds then: `show` opens it, and each line whose reply was read is in it.

    bench/kill.py [FOLDER [TIMES [SEED]]]        500 times in the folder for temporary files, if not said

Run it after `./finder build`; FINDER names another program than that. That an entry is there is seen by sending its
line again: a line that is known gets its first reply. What a kill can't show is what the disk itself would keep at a
loss of power.
"""
import json
import os
import random
import subprocess
import sys
import tempfile
import threading
import time

ROOT = os.path.dirname(os.path.dirname(os.path.abspath(__file__)))
PROGRAM = os.environ.get("FINDER", os.path.join(ROOT, "crates", "culprit_finder", "out", "culprit_finder"))
# In 2096: a farm takes no moment before that of its founding, which is the clock's.
START = 4_000_000_000_000
LINES = 200


def script(key):
    """An open, and leases that each expire before the next one. All of them record an entry."""
    ids = [f"{i:040d}" for i in range(6)]
    yield {
        "at": START, "do": "open", "key": f"{key:032x}", "test": "//bench:test", "base": ids[0],
        "suspects": [[one, 1] for one in ids[1:]], "calm": 1, "rate": [1, 10], "bar": [9, 10], "width": 1, "reruns": 1,
    }
    for i in range(1, LINES):
        yield {"at": START + 60_000 * i, "do": "lease", "key": f"{key + i:032x}", "worker": "bot"}


def fail(what):
    sys.exit(f"kill.py: {what}")


def found(journal):
    if os.path.exists(journal):
        os.remove(journal)
    subprocess.run([PROGRAM, "found", journal, "60000", "10", "east:0"], check=True, stdout=subprocess.DEVNULL)


def entries_in(journal):
    """How many entries the journal holds, by what `show` says."""
    shown = subprocess.run([PROGRAM, "show", journal], check=True, stdout=subprocess.PIPE).stdout
    return json.loads(shown.splitlines()[0])["entries"]


def killed(journal, text, after):
    """The whole reply lines that were read before the program was killed, so many seconds after its start."""
    child = subprocess.Popen([PROGRAM, "run", journal], stdin=subprocess.PIPE, stdout=subprocess.PIPE)

    def feed():
        try:
            child.stdin.write(text)
            child.stdin.close()
        except BrokenPipeError:
            pass

    feeder = threading.Thread(target=feed)
    feeder.start()
    timer = threading.Timer(after, child.kill)
    timer.start()
    told = child.stdout.read()
    child.wait()
    timer.cancel()
    feeder.join()
    return told[: told.rfind(b"\n") + 1].splitlines(keepends=True)


def main():
    words = sys.argv[1:]
    where = words[0] if words else None
    times = int(words[1]) if len(words) > 1 else 500
    dice = random.Random(int(words[2]) if len(words) > 2 else 1)
    text = "".join(json.dumps(line, separators=(",", ":")) + "\n" for line in script(1)).encode()
    with tempfile.TemporaryDirectory(dir=where) as folder:
        journal = os.path.join(folder, "journal")
        found(journal)
        began = time.monotonic()
        whole = subprocess.run([PROGRAM, "run", journal], input=text, check=True, stdout=subprocess.PIPE).stdout
        span = time.monotonic() - began
        replies = whole.splitlines(keepends=True)
        cut = more = 0
        for turn in range(times):
            found(journal)
            told = killed(journal, text, dice.uniform(0, 1.1 * span))
            if told != replies[: len(told)]:
                fail(f"turn {turn}: another reply")
            entries = entries_in(journal)
            if entries < 1 + len(told):
                fail(f"turn {turn}: {len(told)} replies were read, and {entries} entries are there")
            known = text.splitlines(keepends=True)[: len(told)]
            again = subprocess.run([PROGRAM, "run", journal], input=b"".join(known), check=True, stdout=subprocess.PIPE)
            if again.stdout.splitlines(keepends=True) != told:
                fail(f"turn {turn}: a line that was answered gets another reply")
            if entries_in(journal) != entries:
                fail(f"turn {turn}: a line that was answered was recorded again")
            cut += len(told) < len(replies)
            more += entries > 1 + len(told)
    print(f"{times} kills, {cut} before the last reply, {more} with an entry whose reply was not read; none was lost")


if __name__ == "__main__":
    main()
