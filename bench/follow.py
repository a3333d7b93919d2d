#!/usr/bin/env python3
"""A follower beside a service, both of the built program.

    bench/follow.py [ENTRIES [KILLS]]      10000 entries, 50 kills, if not said

Run it after `./finder build`.
- A leader with so many entries is followed; the follower is killed so many times on the way and started again, anew where it had all, and
  the leader twice. At each stop the follower's file is a prefix of the leader's history; at the end `show` writes the same of both.
- The time in which a whole history is copied beside that of a plain copy of the file with a sync.
- How many entries a follower in a loop is behind a leader that takes some 500 entries a second, when it says that it has all.
"""
import json
import os
import random
import re
import shutil
import subprocess
import sys
import threading
import time

from service import PROGRAM, Farm, key, opening, records_of

count = int(sys.argv[1]) if len(sys.argv) > 1 else 10_000
kills = int(sys.argv[2]) if len(sys.argv) > 2 else 50
dice = random.Random(1)


def history(path):
    return b"".join(records_of(path)) if os.path.exists(path) else b""


def script():
    """A search, and leases of it, each of which has expired when the next one comes."""
    at = int(time.time() * 1_000) + 60_000
    yield {"at": at, "do": "open", **opening(1)}
    for number in range(2, count):
        at += 61_000
        yield {"at": at, "do": "lease", "key": key(number), "worker": "w"}


def follow(farm, copy, rounds):
    return subprocess.Popen([PROGRAM, "follow", copy, f"127.0.0.1:{farm.port}", str(rounds)], stdout=subprocess.PIPE, stderr=subprocess.PIPE)


def whole(farm, copy):
    """Follows until the follower has all; what it wrote."""
    it = follow(farm, copy, 1_000_000)
    said, fault = it.communicate()
    assert it.returncode == 0 and said.endswith(b"whole\n"), (it.returncode, said, fault)
    return said


def killed(farm, copy):
    """Kills on the way; at how many stops the file was no prefix."""
    leader, wrong, stops, scratch = history(farm.journal), 0, set(), copy + ".scratch"
    begun = time.time()
    whole(farm, scratch)
    took = time.time() - begun
    for turn in range(kills):
        if history(copy) == leader:
            os.remove(copy)
        it = follow(farm, copy, 1_000_000)
        time.sleep(took * dice.random())
        if turn in (kills // 3, 2 * kills // 3):
            farm.kill()
            farm.start()
        it.kill()
        it.communicate()
        held = history(copy)
        wrong += not leader.startswith(held)
        stops.add(len(held))
    said = whole(farm, copy)
    wrong += history(copy) != leader
    print(f"{kills} kills on the way, {len(stops)} lengths of the file at the stops, {wrong} times no prefix; then {said.decode().strip()}", flush=True)
    return wrong


def speed(farm):
    turns = []
    for turn in range(5):
        copy, plain = (os.path.join(farm.folder, f"{name}{turn}") for name in ("copy", "plain"))
        begun = time.time()
        whole(farm, copy)
        first = time.time() - begun
        begun = time.time()
        shutil.copyfile(farm.journal, plain)
        with open(plain, "rb+") as it:
            os.fsync(it.fileno())
        turns.append((first, time.time() - begun))
    first, second = min(turns)
    print(f"{count} entries copied in {first:.3f} s at least, {count / first:,.0f} a second; a plain copy of the file takes {second:.4f} s", flush=True)


def lag():
    """A leader under load and a follower in a loop for five seconds."""
    farm = Farm(lease_ms=1_000)
    until, behind = time.time() + 6, []
    try:
        farm.start()
        for search in range(1, 201):
            assert farm.post("/v1/searches", opening(search, 20, width=8))[0] == 200

        def load():
            over, number = farm.connection(), 10**6
            while time.time() < until:
                number += 1
                farm.post("/v1/leases", {"key": key(number), "worker": "w"}, over)
                time.sleep(0.0005)
            over.close()

        before, thread = farm.get("/v1/totals")[1]["entries"], threading.Thread(target=load)
        begun = time.time()
        thread.start()
        copy = os.path.join(farm.folder, "copy")
        while time.time() < until - 1:
            held = int(re.match(rb"followed (\d+) ", whole(farm, copy)).group(1))
            behind.append(farm.get("/v1/totals")[1]["entries"] - held)
        thread.join()
        rate = (farm.get("/v1/totals")[1]["entries"] - before) / (time.time() - begun)
        print(f"at {rate:.0f} entries a second a follower was {sum(behind) / len(behind):.1f} entries behind when it had all, {max(behind)} at most, in "
              f"{len(behind)} rounds of its loop")
    finally:
        farm.close()


farm = Farm()
try:
    farm.run("run", farm.journal, stdin="".join(json.dumps(it) + "\n" for it in script()).encode())
    farm.start()
    copy = os.path.join(farm.folder, "copy.journal")
    wrong = killed(farm, copy)
    speed(farm)
    farm.kill()
    if farm.run("show", farm.journal) != farm.run("show", copy):
        print("show of both differs")
        wrong += 1
finally:
    farm.close()
lag()
sys.exit(bool(wrong))
