#!/usr/bin/env python3
"""Times `judge` on large searches, and prints seconds and peak memory. Where runs are counted it times a plain judge in
C beside it (plain_judge.c, built here by `cc`), and prints the ratio of the two.

Run it after `./finder build`; FINDER names another program than that. Each input is made here by rule, so two runs
measure the same work.
"""
import os
import select
import subprocess
import sys
import tempfile
import time

ROOT = os.path.dirname(os.path.dirname(os.path.abspath(__file__)))
PROGRAM = os.environ.get("FINDER", os.path.join(ROOT, "crates", "culprit_finder", "out", "culprit_finder"))
JUDGE = [PROGRAM, "judge"]


def search(suspects, miss=None):
    """A search line with these suspects, and a bar that is hard to reach."""
    weights = " ".join(str(1 + i * 37 % 50) for i in range(suspects))
    first = "" if miss is None else f"miss {miss}\n"
    return f"{first}search 1 100 9999 10000 5 {weights}\n"


def run_lines(runs):
    return "".join(f"run {number} {at} {verdict}\n" for number, (at, verdict) in enumerate(runs, 1))


def run(command, path, output):
    with open(path) as source:
        return subprocess.Popen(command, stdin=source, stdout=output)


def seconds_of(command, path):
    """The least seconds of three runs."""
    best = None
    for _ in range(3):
        began = time.perf_counter()
        status = run(command, path, subprocess.DEVNULL).wait()
        seconds = time.perf_counter() - began
        if status != 0:
            sys.exit(f"{command[0]} ended with {status}")
        best = seconds if best is None else min(best, seconds)
    return best


def peak_of(path):
    """The peak memory in MiB, read while the program waits for its answer to be taken; None for a short answer,
    which doesn't wait."""
    child = run(JUDGE, path, subprocess.PIPE)
    select.select([child.stdout], [], [])
    try:
        with open(f"/proc/{child.pid}/status") as status:
            peak = [line.split()[1] for line in status if line.startswith("VmHWM")]
    finally:
        child.communicate()
    return int(peak[0]) / 1024 if peak else None


def measure(text):
    """Seconds, and peak memory in MiB."""
    with tempfile.NamedTemporaryFile("w") as file:
        file.write(text)
        file.flush()
        return seconds_of(JUDGE, file.name), peak_of(file.name)


def show(name, text):
    seconds, peak = measure(text)
    memory = "" if peak is None else f"{peak:8.1f} MiB"
    print(f"{name:58} {seconds * 1000:9.1f} ms {memory}")
    return seconds


def processor_seconds(command, path):
    """The processor time of one run, which other work on the machine changes less than the time of a clock."""
    child = run(command, path, subprocess.DEVNULL)
    _, status, used = os.wait4(child.pid, 0)
    if status != 0:
        sys.exit(f"{command[0]} ended with {status}")
    return used.ru_utime + used.ru_stime


def beside_plain(text, nothing):
    """The processor seconds that judge and the plain judge in C take for an input more than for one without runs: the
    least of many runs in turn."""
    with tempfile.TemporaryDirectory() as folder:
        plain = [os.path.join(folder, "plain_judge")]
        subprocess.run(["cc", "-O2", "-o", plain[0], os.path.join(ROOT, "bench", "plain_judge.c")], check=True)
        paths = []
        for name, content in (("runs", text), ("none", nothing)):
            paths.append(os.path.join(folder, name))
            with open(paths[-1], "w") as file:
                file.write(content)
        answers = [run(command, paths[0], subprocess.PIPE).communicate()[0] for command in (JUDGE, plain)]
        if answers[0] != answers[1]:
            sys.exit("the plain judge answers otherwise")
        turns = [[[processor_seconds(command, path) for path in paths] for command in (JUDGE, plain)] for _ in range(200)]
        return [min(t[i][0] for t in turns) - min(t[i][1] for t in turns) for i in range(2)]


def show_counted():
    """Runs that are counted: a fail at the last suspect, and then a pass and a fail at each next position."""
    print("\nCounted runs over 1,000 suspects: one fail, then passes and fails that rise; beside a plain loop in C")
    runs = [(1000, "fail")]
    for position in range(1, 979):
        runs += [(position, "pass"), (position + 1, "fail")]
    ours, plain = beside_plain(search(1000) + run_lines(runs), search(1000))
    print(f"{'  judge, and the plain loop':58} {ours * 1000:9.2f} ms {plain * 1000:9.2f} ms   ratio {ours / plain:.2f}")


def main():
    if not os.path.exists(PROGRAM):
        sys.exit("build the program first: ./finder build")
    show("1,000 suspects, no run", search(1000))
    # Runs all over the range, of which most come late or repeat, as in a long log that is judged anew.
    mixed = [(1 + i * 331 % 1000, "fail" if i % 3 else "pass") for i in range(200_000)]
    show("1,000 suspects, 200,000 run lines", search(1000) + run_lines(mixed))
    show("1,000 suspects, 200,000 run lines, miss 1/10", search(1000, "1 10") + run_lines(mixed))

    print("\nRuns that change no weight: 200,000 fails at the floor, of searches of n suspects")
    for suspects in (10, 100, 1000):
        runs = [(1, "pass")] + [(1, "fail")] * 200_000
        base = measure(search(suspects))[0]
        seconds = show(f"  n = {suspects}", search(suspects) + run_lines(runs))
        print(f"{'':60} {(seconds - base) / 200_000 * 1e9:9.0f} ns a run")

    print("\nRuns that change weights: passes at 1 to n - 2, each of which raises the floor")
    for suspects in (250, 500, 1000):
        runs = [(position, "pass") for position in range(1, suspects - 1)]
        base = measure(search(suspects))[0]
        seconds = show(f"  n = {suspects}", search(suspects) + run_lines(runs))
        print(f"{'':60} {(seconds - base) / len(runs) * 1e6:9.1f} us a run")

    show_counted()


if __name__ == "__main__":
    main()
