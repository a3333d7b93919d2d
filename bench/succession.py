#!/usr/bin/env python3
"""The drill of succession: farms that follow one another, culprits that come again in later ones, and a kill at each step of each handover.

    bench/succession.py [FARMS [SEARCHES [SEED]]]      10 farms of 2000 searches, seed 1

Run it after `./finder build`; it needs `cc`, and FINDER a file named culprit_finder. Each farm is worked to its end: in nine of
ten searches a culprit is confirmed, which one time in two was one before, in this farm or in an earlier one. `./finder succeed`
then hands the farm over. It is killed at each call by which `close`, `inherit` or `audit` opens, writes, cuts, syncs or closes
a file, writes also by half (killing_calls.c), each time over copies of its own, and called again: the new farm has to begin
with each order once. At the end no commit may have two orders in all farms, and no day more orders than the limit of the farm
in which the last of them was taken.
"""
import json
import os
import random
import shutil
import subprocess
import sys
import tempfile
import time

from service import PROGRAM, ROOT, commit, entries_of, key

DAILY, DAY = 1_000, 86_400_000
HERE = os.path.dirname(os.path.abspath(__file__))
farms = int(sys.argv[1]) if len(sys.argv) > 1 else 10
searches = int(sys.argv[2]) if len(sys.argv) > 2 else 2_000
dice = random.Random(int(sys.argv[3]) if len(sys.argv) > 3 else 1)
SETTINGS = ("60000", str(DAILY), "east:0")


class Farm:
    """A farm that a program has open, asked line by line at a moment of its own."""

    def __init__(self, journal, at):
        self.at, self.keys = at, 0
        self.process = subprocess.Popen([PROGRAM, "run", journal], stdin=subprocess.PIPE, stdout=subprocess.PIPE)

    def ask(self, do, **members):
        self.keys += 1
        line = {"at": self.at, "do": do, "key": key(self.keys), **members}
        self.process.stdin.write(json.dumps(line).encode() + b"\n")
        self.process.stdin.flush()
        return json.loads(self.process.stdout.readline())

    def search(self, culprit, is_flake):
        """One suspect, found and confirmed by reruns at it and at its parent, or told from a flake."""
        self.ask("open", test="t", base=commit(1), suspects=[[culprit, 1]], calm=1, rate=[1, 10], bar=[9, 10], width=1, reruns=1)
        while "run" in (lease := self.ask("lease", worker="w")):
            fails = lease["position"] == 1 and not is_flake
            standing = self.ask("report", run=lease["run"], verdict="fail" if fails else "pass")["standing"]
        return standing

    def close(self):
        self.process.communicate()
        assert self.process.returncode == 0, self.process.returncode


def work(journal, at, ordered, known):
    """Works a farm to its end. Each commit that is confirmed gets its order, where it has none in any farm. Its last moment."""
    farm, given = Farm(journal, at), 0
    for _ in range(searches):
        is_flake = dice.random() < 0.1
        culprit = dice.choice(known) if known and dice.random() < 0.5 else commit(1_000 + len(known))
        if culprit == commit(1_000 + len(known)):
            known.append(culprit)
        standing = farm.search(culprit, is_flake)
        assert standing == ("no culprit" if is_flake else "confirmed"), standing
        reply = farm.ask("revert", agent="a")
        if not is_flake and culprit not in ordered:
            while reply.get("refused") == "DailyLimit":
                farm.at += DAY
                reply = farm.ask("revert", agent="a")
            assert reply["commit"] == culprit, reply
            ordered[culprit] = reply["day"]
            given += 1
        else:
            assert reply == {"refused": "NoRevert"}, reply
    farm.close()
    return farm.at, given


def handed(path):
    """The lines that a closed farm hands over."""
    ended = subprocess.run([PROGRAM, "close", path], capture_output=True, check=True)
    return ended.stdout


def succeed(old, new, **more):
    """How a handover ended."""
    words = [sys.executable, "-ISB", os.path.join(ROOT, "tools/succeed"), old, new, *SETTINGS, "--yes"]
    return subprocess.run(words, capture_output=True, env={**os.environ, "CULPRIT_FINDER": PROGRAM, **more})


def kills(folder, old, lines, library):
    """Kills a handover at each of its steps, and goes on. How many kills there were."""
    count = 0
    for word in ("close", "inherit", "audit"):
        for half in ({}, {"HALF": "1"}):
            at = 0
            while True:
                at += 1
                copy, new = os.path.join(folder, "old.copy"), os.path.join(folder, "new.copy")
                shutil.copyfile(old, copy)
                if os.path.exists(new):
                    os.remove(new)
                killed = succeed(copy, new, LD_PRELOAD=library, WORD=word, AT=str(at), **half)
                if killed.returncode == 0:
                    break
                assert killed.returncode == -9, (word, at, killed.returncode, killed.stderr)
                count += 1
                ended = succeed(copy, new)
                assert ended.returncode == 0, (word, at, ended.stderr)
                assert carried(new) == lines and handed(copy) == lines, (word, at)
            assert at > 3, f"{word} makes no calls: is the library loaded, and the program's file named culprit_finder?"
    return count


def carried(path):
    """The lines of the orders that a new farm begins with."""
    orders = [entry for entry in entries_of(path) if entry["what"] == "carry"]
    return "".join(f"{entry['commit']} {entry['day']}\n" for entry in orders).encode() + b"closed %d\n" % len(orders)


def judge(paths, ordered):
    """What is wrong with the orders of all farms."""
    wrong, times, days = [], {}, {}
    for index, path in enumerate(paths):
        for entry in entries_of(path):
            if entry["what"] == "revert":
                times[entry["commit"]] = times.get(entry["commit"], 0) + 1
                days[entry["day"]] = days.get(entry["day"], 0) + 1
    wrong += [f"{name} was ordered {count} times" for name, count in times.items() if count > 1]
    wrong += [f"day {day} has {count} orders" for day, count in days.items() if count > DAILY]
    if set(times) != set(ordered):
        wrong.append(f"{len(set(times) ^ set(ordered))} commits have an order in the farms alone, or in the model alone")
    return wrong


def main():
    folder = tempfile.mkdtemp()
    library = os.path.join(folder, "killing_calls.so")
    subprocess.run(["cc", "-O2", "-fPIC", "-shared", "-o", library, os.path.join(HERE, "killing_calls.c"), "-ldl"], check=True)
    try:
        paths, ordered, known, at, steps = [], {}, [], 0, 0
        for number in range(1, farms + 1):
            path = os.path.join(folder, f"{number}.journal")
            if number == 1:
                subprocess.run([PROGRAM, "found", path, *SETTINGS], stdout=subprocess.DEVNULL, check=True)
            paths.append(path)
            at, given = work(path, max(at, int(time.time() * 1_000)), ordered, known)
            lines = "".join(f"{name} {day}\n" for name, day in ordered.items()).encode() + b"closed %d\n" % len(ordered)
            done = kills(folder, path, lines, library)
            ended = succeed(path, os.path.join(folder, f"{number + 1}.journal"))
            assert ended.returncode == 0, ended.stderr
            assert carried(os.path.join(folder, f"{number + 1}.journal")) == lines
            steps += done
            print(f"farm {number}: {searches} searches, {given} orders, {len(ordered)} handed over, {done} kills", flush=True)
        wrong = judge(paths, ordered)
        print(f"{farms} farms, {farms * searches} searches, {len(ordered)} orders, {steps} kills: "
              f"{'; '.join(wrong[:5]) or 'no commit was ordered twice'}")
        return 1 if wrong else 0
    finally:
        shutil.rmtree(folder)


if __name__ == "__main__":
    sys.exit(main())
