#!/usr/bin/env python3
"""Times `drill` beside a plain program in C that plays the same drills over plain structures under one mutex
(plain_drill.c, built here by `cc`), and prints the seconds of both and their ratio for one worker and for four, the
same of the processor's time, how much four workers take beside one, and how the time of four grows with the searches.

    bench/drill.py [TURNS]        7 turns, if not said

Run it after `./finder build`; FINDER names another program than that. The programs are run in turn, each timed from its
start to its end, and each has the least of its times. Both have to write the same line. Where the times grow in
proportion to the searches, the last column of the growth stays near 1.
"""
import os
import subprocess
import sys
import tempfile
import time

ROOT = os.path.dirname(os.path.dirname(os.path.abspath(__file__)))
PROGRAM = os.environ.get("FINDER", os.path.join(ROOT, "crates", "culprit_finder", "out", "culprit_finder"))
TURNS = int(sys.argv[1]) if sys.argv[1:] else 7
LARGE = 2_000
GROWTH = [250, 500, 1_000, 2_000]


def timed(command):
    """The first line that a program writes, the seconds that it takes, and those of the processor."""
    with tempfile.TemporaryFile("w+") as told:
        began = time.perf_counter()
        child = subprocess.Popen(command, stdin=subprocess.DEVNULL, stdout=told, stderr=subprocess.DEVNULL)
        _, status, usage = os.wait4(child.pid, 0)
        seconds = time.perf_counter() - began
        if status != 0:
            sys.exit(f"{command[0]} ended with {os.waitstatus_to_exitcode(status)}")
        told.seek(0)
        return told.readline(), seconds, usage.ru_utime + usage.ru_stime


def least(commands):
    """The lines that commands write, which are run in turn, their least seconds, and the least of the processor's."""
    turns = [[timed(command) for command in commands] for _ in range(TURNS)]
    columns = [[turn[i] for turn in turns] for i in range(len(commands))]
    return [column[0][0] for column in columns], *([min(it[k] for it in column) for column in columns] for k in (1, 2))


def main():
    ours = [PROGRAM, "drill"]
    with tempfile.TemporaryDirectory() as folder:
        plain = [os.path.join(folder, "plain_drill")]
        source = os.path.join(ROOT, "bench", "plain_drill.c")
        subprocess.run(["cc", "-O2", "-pthread", "-o", plain[0], source], check=True)
        commands = [who + [str(LARGE), workers] for workers in ("1", "4") for who in (ours, plain)]
        lines, times, spent = least(commands)
        if len(set(lines)) != 1:
            sys.exit("the programs write different lines: " + "; ".join(lines))
        for workers, i in ((1, 0), (4, 2)):
            print(f"{LARGE} searches, workers {workers}: {times[i]:.3f} s, and {times[i + 1]:.3f} s in a plain program;"
                  f" ratio {times[i] / times[i + 1]:.2f}; of the processor {spent[i]:.3f} and {spent[i + 1]:.3f} s,"
                  f" {spent[i] / spent[i + 1]:.2f}")
        print(f"four workers beside one: {times[2] / times[0]:.2f}, and {times[3] / times[1]:.2f} in the plain program;"
              f" of the processor {spent[2] / spent[0]:.2f} and {spent[3] / spent[1]:.2f}")
        before = None
        for searches in GROWTH:
            _, (took,), _ = least([ours + [str(searches), "4"]])
            growth = f", {took / before / 2:.2f} times the half's for each search" if before else ""
            print(f"{searches} searches, workers 4: {took:.3f} s, {took / searches * 1e6:.0f} us a search{growth}")
            before = took


if __name__ == "__main__":
    main()
