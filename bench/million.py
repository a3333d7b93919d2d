#!/usr/bin/env python3
"""Times `show` over a journal of a million entries, and prints seconds, those of the processor, the peak of memory in
bytes an entry, those that a service over it keeps once it listens, and the size of the file.

    bench/million.py [FOLDER [ENTRIES ..]]        1000000 entries in the folder for temporary files, if not said

Run it after `./finder build`. The journal is written here, an entry a record, in the form that docs/FORMATS.md says, as
`run JOURNAL` would take too long for it. It has rounds: searches are opened, their runs are leased, and leased again
when they expire, and then all are reported: the first passes at its position, and the fails after it change no weight.
Then the searches are cancelled. Each time is the least of some runs. After it one more lease is asked for, by `run` on
a copy: a farm of a million entries is full.
"""
import json
import os
import shutil
import struct
import subprocess
import sys
import tempfile
import time

import journal
from service import Farm

TURNS = 3
FOUNDED = 1_000_000_000_000
LEASE_MS = 60_000
SEARCHES = 20
# How often each run of a round is leased.
LEASES = 250
SUSPECTS = 4
POSITION = 2


class Journal:
    """The records of a journal, one for each entry."""

    def __init__(self, path):
        self.file = open(path, "wb")
        self.file.write(b"\1CulpritFinder 2")
        self.count = self.key = self.searches = self.runs = 0
        self.at = FOUNDED

    def entry(self, tag, fields):
        payload = struct.pack(">QB", self.at, tag) + fields
        self.file.write(b"\1" + struct.pack(">I", len(payload)) + payload)
        self.count += 1

    def next_key(self):
        self.key += 1
        return self.key.to_bytes(16, "big")

    def end(self):
        self.file.write(b"\0")
        self.file.close()


def name(text):
    return bytes([len(text)]) + text


def commit(number):
    return number.to_bytes(20, "big")


def found(to):
    to.entry(1, struct.pack(">IHH", LEASE_MS, 10, 720))


def open_search(to):
    """Suspects of weight 1, a calm weight of 1, a flake rate of 1/10, a bar of 9/10, one run at a time."""
    to.searches += 1
    suspects = b"".join(commit(number) + struct.pack(">H", 1) for number in range(1, SUSPECTS + 1))
    head = to.next_key() + struct.pack(">I", to.searches) + name(b"//bench:test") + commit(0)
    counts = struct.pack(">IH", 1, SUSPECTS)
    to.entry(2, head + counts + suspects + struct.pack(">HHHHBB", 1, 10, 9, 10, 1, 1))


def lease(to, search, position=None):
    to.runs += 1
    numbers = struct.pack(">IIBHQ", to.runs, search, 1, position or POSITION, to.at + LEASE_MS)
    to.entry(3, to.next_key() + name(b"bot") + numbers)


def report(to, run, passes):
    to.entry(4, struct.pack(">IBB", run, 1 if passes else 2, 1))


def cancel(to, search):
    to.entry(5, to.next_key() + struct.pack(">I", search))


def play_round(to, most):
    """One round, or what of it fits the entries."""
    first = to.searches + 1
    runs = to.runs + 1
    for _ in range(SEARCHES):
        if to.count < most:
            open_search(to)
    opened = range(first, to.searches + 1)
    for _ in range(LEASES):
        for search in opened:
            if to.count < most:
                lease(to, search)
        to.at += LEASE_MS
    for number, run in enumerate(range(runs, to.runs + 1)):
        if to.count < most:
            report(to, run, number < len(opened))
    for search in opened:
        if to.count < most:
            cancel(to, search)


def write(path, entries):
    to = Journal(path)
    found(to)
    while to.count < entries:
        play_round(to, entries)
    to.end()
    return to


def show_more(path, written):
    """Asks for one lease more, and for the first lease again, and prints what they come to."""
    at = written.at + LEASE_MS
    lines = [{"at": at, "do": "lease", "key": f"{key:032x}", "worker": "bot"} for key in (written.key + 1, SEARCHES + 1)]
    text = "".join(json.dumps(line) + "\n" for line in lines).encode()
    told = subprocess.run([journal.PROGRAM, "run", path], input=text, check=True, stdout=subprocess.PIPE).stdout
    for line in told.decode().splitlines():
        print("  " + line)


def least(path):
    """The least seconds of `show`, the least of the processor's, and the most bytes of memory."""
    turns = []
    for _ in range(TURNS):
        began = time.monotonic()
        child = subprocess.Popen([journal.PROGRAM, "show", path], stdout=subprocess.DEVNULL)
        _, status, usage = os.wait4(child.pid, 0)
        turns.append((time.monotonic() - began, usage.ru_utime + usage.ru_stime))
    command = ["/usr/bin/time", "-f", "%M", journal.PROGRAM, "show", path]
    told = subprocess.run(command, check=True, stdout=subprocess.DEVNULL, stderr=subprocess.PIPE, text=True)
    return min(turn[0] for turn in turns), min(turn[1] for turn in turns), int(told.stderr) * 1024


def resident(path, folder):
    """The bytes of memory of a service over a copy of the journal, once it listens."""
    farm = Farm(folder=folder)
    shutil.copy(path, farm.journal)
    farm.start()
    try:
        return farm.memory() * 1024
    finally:
        farm.kill()
        os.remove(farm.journal)


def main():
    words = sys.argv[1:]
    where = words[0] if words else None
    sizes = [int(word) for word in words[1:]] or [1_000_000]
    with tempfile.TemporaryDirectory(dir=where) as folder:
        for entries in sizes:
            path = os.path.join(folder, "journal")
            written = write(path, entries)
            shown = subprocess.run([journal.PROGRAM, "show", path], stdout=subprocess.PIPE)
            page = json.loads(shown.stdout.splitlines()[0]) if shown.returncode == 0 else {}
            if page.get("entries") != entries:
                sys.exit(f"million.py: show ended with {shown.returncode}")
            seconds, spent, most = least(path)
            kept = resident(path, folder)
            print(f"{entries} entries, {written.searches} searches, {os.path.getsize(path)} bytes: {seconds:.3f} s,"
                  f" {spent:.3f} of the processor; bytes of memory an entry: {most / entries:.0f} at most,"
                  f" {kept / entries:.0f} in a service", flush=True)
            copy = os.path.join(folder, "copy")
            shutil.copy(path, copy)
            show_more(copy, written)


if __name__ == "__main__":
    main()
