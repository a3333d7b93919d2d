#!/usr/bin/env python3
"""Times single lines of a script: for each kind `run` is timed on a script that leads up to such lines, and on the same
script with the lines behind it. Prints the difference, in microseconds a line.

    bench/line_costs.py [--instructions | --farm] [LINES [SEARCHES]]        20000 lines of each kind, over 2000
                                                                            searches, if not said

Run it after `./finder build`. The two scripts are run in turn, and each has the least of its times. With --instructions
the processor's instructions are counted by valgrind in place of the time, so that nothing is lost in noise. With --farm
the time is that in the functions of the farm's crates alone, by perf's samples: without reading and printing, and
without the memory that they ask for. All lines of a kind but the refused ones record an entry. What reading a line and printing its reply take is in each number; the last kind,
pages of an empty farm, has nearly that alone.
"""
import json
import re
import subprocess
import sys
import tempfile

import run

START = 1_795_770_000_000
LEASE_MS = 60_000
# The crates between the lines and the journal.
FARM = (
    "farm_core kept_farm farm_ledger farm_state farm_books plain_history search_state posterior "
    "threshold_pick farm_rules search_books weight_exact suspect_range"
).split()
# How many samples perf takes in a second, and of how many runs of a script.
SAMPLES = 10_000
SAMPLED = 10
# How many reports change the weights of one search.
FAILS = 25


def line(at, word, **fields):
    return json.dumps({"at": at, "do": word, **fields}, separators=(",", ":")).encode() + b"\n"


def key(number):
    return f"{number:032x}"


def opens(searches, suspects, width=1):
    """Searches of suspects of weight 1, with keys from a million on."""
    for search in range(1, searches + 1):
        asked = run.opening(search, suspects)
        del asked["do"]
        asked.update(suspects=[[one, 1] for one, _ in asked["suspects"]], calm=1, rate=[1, 10], width=width, reruns=1)
        yield line(START, "open", key=key(1_000_000 + search), **asked)


def leases(count, at=START, first=1, round_of=None):
    """Leases with keys from a number on; in rounds of so many, if said, in each of which those of the last have expired."""
    for i in range(count):
        later = LEASE_MS * (i // round_of) if round_of else 0
        yield line(at + later, "lease", key=key(first + i), worker="bot")


def reports(runs, says, at=START):
    for number in runs:
        yield line(at, "report", run=number, verdict=says)


def kinds(count, searches):
    """The name of each kind, the lines that lead up to it, and the lines themselves."""
    for suspects in (10, 100, 1_000):
        # Each lease expires before the next one, so that all are at one position.
        before = [*opens(1, suspects), *leases(count + 1, round_of=1), *reports([1], "pass")]
        name = f"counted reports that change no weight, of {suspects} suspects"
        yield name, before, [*reports(range(2, count + 2), "fail")]
    for suspects in (10, 100, 1_000):
        # Within the budget of each search, and below its bar.
        few = max(1, count * 10 // FAILS // suspects)
        before = [*opens(few, suspects), *leases(few * FAILS, round_of=few)]
        name = f"counted reports that change weights, of {suspects} suspects"
        yield name, before, [*reports(range(1, few * FAILS + 1), "fail")]
    before = [*opens(1, 10), *leases(count, round_of=1), line(START, "cancel", key=key(2_000_000), search=1)]
    yield "late reports", before, [*reports(range(1, count + 1), "fail")]
    rounds = max(1, min(8, count // searches))
    before = [*opens(searches, 10, width=8)]
    yield f"leases, the first of {searches} searches due", before, [*leases(rounds * searches)]
    before = [*opens(searches, 10), *leases(searches)]
    yield f"leases refused, none of {searches} searches due", before, [*leases(count, first=searches + 1)]
    later = START + LEASE_MS
    yield f"leases of {searches} searches, all expired", before, [*leases(searches, at=later, first=searches + 1)]
    yield "leases sent again", before, [*leases(searches)] * max(1, count // searches)
    shows = [line(START, "search", search=1 + i % searches) for i in range(count)]
    yield "searches of 10 suspects shown", before, shows
    yield f"pages of a farm of {searches} searches", before, [line(START, "farm")] * count
    reverts = [line(START, "revert", key=key(3_000_000 + i), agent="agent") for i in range(count)]
    yield f"reverts refused, none of {searches} searches confirmed", before, reverts
    yield "pages of an empty farm", [], [line(START, "farm")] * count


def cost(before, lines):
    """The seconds that the lines take, a line."""
    scripts = [b"".join(before), b"".join(before + lines)]
    turns = [[run.took([run.PROGRAM, "run"], script)[0] for script in scripts] for _ in range(run.TURNS)]
    least = [min(turn[i] for turn in turns) for i in range(2)]
    return (least[1] - least[0]) / len(lines)


def counted(script):
    """How many instructions the program runs for a script."""
    command = ["valgrind", "--tool=callgrind", "--callgrind-out-file=/dev/null", run.PROGRAM, "run"]
    ran = subprocess.run(command, input=script, check=True, stdout=subprocess.DEVNULL, stderr=subprocess.PIPE)
    return int(re.search(rb"Collected : (\d+)", ran.stderr)[1])


def instructions(before, lines):
    """The instructions that the lines take, a line."""
    scripts = [b"".join(before), b"".join(before + lines)]
    without, whole = [counted(script) for script in scripts]
    return (whole - without) / len(lines)


def in_farm(script):
    """The seconds that the program spends in the farm's crates for a script."""
    samples = 0
    with tempfile.TemporaryDirectory() as folder:
        data = f"{folder}/data"
        record = ["perf", "record", "-q", "-e", "cpu-clock", "-F", str(SAMPLES), "-o", data, run.PROGRAM, "run"]
        for _ in range(SAMPLED):
            subprocess.run(record, input=script, check=True, stdout=subprocess.DEVNULL, stderr=subprocess.DEVNULL)
            shown = subprocess.run(["perf", "script", "-i", data, "-F", "ip,sym"], check=True, capture_output=True).stdout
            crates = [line.split()[1].split(b"::")[0].decode() for line in shown.splitlines()]
            samples += sum(crate in FARM for crate in crates)
    return samples / SAMPLES / SAMPLED


def farm_cost(before, lines):
    """The seconds in the farm's crates that the lines take, a line."""
    scripts = [b"".join(before), b"".join(before + lines)]
    without, whole = [in_farm(script) for script in scripts]
    return (whole - without) / len(lines)


def told(before, lines):
    """The last answer, so that it is seen what was timed."""
    script = b"".join(before + lines)
    output = subprocess.run([run.PROGRAM, "run"], input=script, check=True, stdout=subprocess.PIPE).stdout
    return output.splitlines()[-1].decode()[:100]


def main():
    words = sys.argv[1:]
    how = words.pop(0) if words and words[0].startswith("--") else ""
    count, searches = [int(word) for word in words] + [20_000, 2_000][len(words):]
    for name, before, lines in kinds(count, searches):
        if how == "--instructions":
            took = f"{instructions(before, lines):10.0f} instructions"
        else:
            took = f"{(farm_cost if how == '--farm' else cost)(before, lines) * 1e6:10.3f} us"
        print(f"{name:56} {took} a line   {told(before, lines)}", flush=True)


if __name__ == "__main__":
    main()
