#!/usr/bin/env python3
"""Times `show` over journals of more and more entries, one search and leases that each expire before the next one, and
prints seconds, microseconds an entry, the peak of memory, and the size of the file.

    bench/opening.py [FOLDER [ENTRIES ..]]        250, 500, 1000 and 2000 entries in the folder for temporary files, if not
                                                  said

Run it after `./finder build`. What opening takes besides reading the file is the farm's: each entry is admitted to a farm in
memory. Each time is the least of some runs.
"""
import os
import subprocess
import sys
import tempfile
import time

import journal

TURNS = 5


def seconds(path):
    """How long one `show` takes."""
    began = time.monotonic()
    subprocess.run([journal.PROGRAM, "show", path], check=True, stdout=subprocess.DEVNULL)
    return time.monotonic() - began


def kilobytes(path):
    """The peak of memory of one `show`. It is started by a small program, as a child's peak begins with its parent's."""
    command = ["/usr/bin/time", "-f", "%M", journal.PROGRAM, "show", path]
    told = subprocess.run(command, check=True, stdout=subprocess.DEVNULL, stderr=subprocess.PIPE, text=True)
    return int(told.stderr)


def main():
    words = sys.argv[1:]
    where = words[0] if words else None
    sizes = [int(word) for word in words[1:]] or [250, 500, 1_000, 2_000]
    with tempfile.TemporaryDirectory(dir=where) as folder:
        for entries in sizes:
            path = os.path.join(folder, str(entries))
            journal.found(path)
            # Besides the leases there are the founding and the search.
            lines = journal.script(entries - 2)
            subprocess.run([journal.PROGRAM, "run", path], input=lines, check=True, stdout=subprocess.DEVNULL)
            least = min(seconds(path) for _ in range(TURNS))
            size = os.path.getsize(path)
            print(f"{entries} entries, {size} bytes: {least:.3f} s, {least / entries * 1e6:.0f} us an entry, {kilobytes(path)} kB")


if __name__ == "__main__":
    main()
