#!/usr/bin/env python3
"""Times `run` on a script of many searches beside two plain programs in C, built here by `cc`: plain_run.c, which keeps
the same farm over plain structures and has to write the same replies, and plain_lines.c, which reads the same lines,
decides nothing and writes lines of the same length. Prints seconds, seconds of the processor, microseconds a line, peak
memory, and the ratios.

    bench/run.py [LINES [SEARCHES [LEAST [MOST]]]]        20000 lines over 2000 searches of 10 to 100 suspects, if not
                                                          said

Run it after `./finder build`; FINDER names another program than that. The script is made by playing workers against the
program: each search has a culprit and a test that flakes by rule, so two runs measure the same work. Two programs are
run in turn, and each has the least of its times. Where others work on the machine, the time of the processor, the
system's for the program among it, tells more than that by the clock. Two further scripts of as many lines show what
reading and printing cost alone: in one each line is read and refused, in the other each is a page of a farm without
searches.
"""
import json
import os
import subprocess
import sys
import tempfile
import time

ROOT = os.path.dirname(os.path.dirname(os.path.abspath(__file__)))
PROGRAM = os.environ.get("FINDER", os.path.join(ROOT, "crates", "culprit_finder", "out", "culprit_finder"))
START = 1_795_770_000_000
TURNS = 7


def commit(search, position):
    return f"{search * 10_000 + position:040d}"


def opening(search, suspects):
    return {
        "do": "open",
        "test": f"//bench:test_{search}",
        "base": commit(search, 0),
        "suspects": [[commit(search, i), 1 + (i * search) % 7] for i in range(1, suspects + 1)],
        "calm": 1 + suspects // 2,
        "rate": [1, 2],
        "bar": [9999, 10000],
        "width": 1 + search % 8,
        "reruns": 8,
    }


def verdict(run, search, position, suspects):
    """A run at or past the culprit fails, and one below it fails too in one of seven runs."""
    culprit = 1 + (7 * search) % suspects
    return "fail" if position >= culprit or run % 7 == 0 else "pass"


class Play:
    """The program, asked line by line, the lines that it was asked, and its answers."""

    def __init__(self, limit=None):
        self.limit = limit
        self.lines = []
        self.answers = []
        self.child = subprocess.Popen([PROGRAM, "run"], stdin=subprocess.PIPE, stdout=subprocess.PIPE)

    def ask(self, **command):
        """The answer to a command, or None once the script is long enough."""
        if len(self.lines) == self.limit:
            return None
        command.setdefault("at", START + len(self.lines))
        if command["do"] in ("open", "lease", "revert"):
            command["key"] = f"{len(self.lines) + 1:032x}"
        line = json.dumps(command, separators=(",", ":")).encode() + b"\n"
        self.lines.append(line)
        self.child.stdin.write(line)
        self.child.stdin.flush()
        self.answers.append(self.child.stdout.readline())
        return json.loads(self.answers[-1])

    def end(self):
        self.child.communicate()
        return b"".join(self.lines)


def suspects_of(search, least, most):
    return least + (37 * search) % (most - least + 1)


def play(limit, searches, least, most):
    """Workers lease, look at the search's page and report, until the script has its lines."""
    game = Play(limit)
    for search in range(1, searches + 1):
        game.ask(**opening(search, suspects_of(search, least, most)))
    while len(game.lines) < limit:
        lease = game.ask(do="lease", worker=f"worker-{len(game.lines) % 10}")
        if lease is None:
            break
        if "run" not in lease:
            game.ask(do="farm")
            continue
        run, search = lease["run"], lease["search"]
        game.ask(do="search", search=search)
        says = verdict(run, search, lease["position"], suspects_of(search, least, most))
        game.ask(do="report", run=run, verdict=says)
    game.end()
    return game


def timed(command, script):
    """The seconds, the seconds of the processor and the peak memory in MiB of one run."""
    with tempfile.TemporaryFile() as source:
        source.write(script)
        source.seek(0)
        began = time.perf_counter()
        child = subprocess.Popen(command, stdin=source, stdout=subprocess.DEVNULL)
        _, status, usage = os.wait4(child.pid, 0)
        seconds = time.perf_counter() - began
    if status != 0:
        sys.exit(f"{command[0]} ended with {os.waitstatus_to_exitcode(status)}")
    return seconds, usage.ru_utime + usage.ru_stime, usage.ru_maxrss / 1024


def took(command, script):
    """The seconds and the peak memory in MiB of one run."""
    seconds, _, peak = timed(command, script)
    return seconds, peak


def seconds_of(script, turns=TURNS):
    """The least seconds of some runs of the program."""
    return min(took([PROGRAM, "run"], script)[0] for _ in range(turns))


def report(name, script, lines):
    best, peak = min(took([PROGRAM, "run"], script) for _ in range(TURNS))
    print(f"{name:44} {best:8.3f} s {best / lines * 1e6:10.1f} us a line {peak:8.1f} MiB")
    return best


def built(folder, name):
    """A plain program of this folder, built into another."""
    program = os.path.join(folder, name)
    subprocess.run(["cc", "-O2", "-o", program, os.path.join(ROOT, "bench", f"{name}.c")], check=True)
    return program


def replies(command, script):
    return subprocess.run(command, input=script, check=True, stdout=subprocess.PIPE).stdout.splitlines(keepends=True)


def beside(name, command, script, lines):
    """Prints the least times of the program and of a plain one on a script, run in turn, and the ratio in each turn."""
    turns = [[timed(who, script) for who in ([PROGRAM, "run"], command)] for _ in range(TURNS)]
    print(f"  the program beside {name}")
    for clock, i in (("by the clock", 0), ("of the processor", 1)):
        ours, plain = (min(turn[who][i] for turn in turns) for who in range(2))
        each = ", ".join(f"{mine[i] / other[i]:.2f}" for mine, other in turns)
        print(f"    {clock:16} {ours:8.4f} s {ours / lines * 1e6:7.2f} us a line, plain {plain:8.4f} s "
              f"{plain / lines * 1e6:7.2f} us; ratio {ours / plain:.2f}; in turn {each}")


def beside_plain(folder, game):
    """The program beside one that keeps the same farm, and beside one that decides nothing."""
    script, lines = b"".join(game.lines), len(game.lines)
    plain = [built(folder, "plain_run")]
    if replies(plain, script) != game.answers:
        sys.exit("the plain program gives other replies")
    beside("one that does the same", plain, script, lines)
    lengths = os.path.join(folder, "lengths")
    with open(lengths, "w") as file:
        file.writelines(f"{len(answer) - 1}\n" for answer in game.answers)
    plain = [built(folder, "plain_lines"), lengths]
    if [len(line) for line in replies(plain, script)] != [len(answer) for answer in game.answers]:
        sys.exit("the plain program writes other lines")
    beside("one that decides nothing", plain, script, lines)


def main():
    numbers = [int(word) for word in sys.argv[1:]] + [20_000, 2_000, 10, 100][len(sys.argv) - 1:]
    lines, searches, least, most = numbers
    game = play(lines, searches, least, most)
    script = b"".join(game.lines)
    refused = script.replace(b'"do":"', b'"do":"not ')
    shown = b'{"at":86400000,"do":"farm"}\n' * lines
    print(f"{len(script)} bytes in, {sum(map(len, game.answers))} bytes out")
    whole = report(f"{lines} lines, {searches} searches of {least} to {most}", script, lines)
    with tempfile.TemporaryDirectory() as folder:
        beside_plain(folder, game)
    read = report("the same lines, read and refused", refused, lines)
    printed = report("pages of an empty farm", shown, lines)
    print(f"reading and printing are about {100 * max(read, printed) / whole:.0f} % of it")


if __name__ == "__main__":
    main()
