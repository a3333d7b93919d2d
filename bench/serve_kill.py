#!/usr/bin/env python3
"""`kill -9` of the service under load, again and again: every report that was answered stands in the journal that opens.

    bench/serve_kill.py [TIMES [SEED]]      200 times, seed 1

Run it after `./finder build`. Then the same service on a file system that is full (a tmpfs of 64 KiB; only as root): calls that need
an entry are answered 503, the others go on, and once there is room the service goes on without a restart. Last the same with four clients
at once, over a file system whose syncs take their time (2 MiB of ext4 in a file), so that clients share records.
"""
import http.client
import os
import random
import subprocess
import sys
import tempfile
import threading
import time

from service import Farm, entries_of, key, opening, records_of

times = int(sys.argv[1]) if len(sys.argv) > 1 else 200
dice = random.Random(int(sys.argv[2]) if len(sys.argv) > 2 else 1)
reported, lost, lock = {}, 0, threading.Lock()
numbers = {"key": 10**6, "search": 0}


def fresh(kind):
    """The next number of a kind."""
    with lock:
        numbers[kind] += 1
        return numbers[kind]


def client(farm):
    """Leases, reports, and opens a search where no run is due, until its connection breaks."""
    global lost
    try:
        over = farm.connection(5)
        while True:
            mine = fresh("key")
            status, reply = farm.post("/v1/leases", {"key": key(mine), "worker": "w"}, over)
            if status != 200:
                if numbers["search"] < 1_990:
                    farm.post("/v1/searches", opening(fresh("search"), 20, width=8), over)
                continue
            run, verdict = reply["run"], "pass" if mine % 2 else "fail"
            status, reply = farm.post(f"/v1/runs/{run}/report", {"verdict": verdict}, over)
            if status == 200:
                with lock:
                    reported[run] = verdict, reply
    except (OSError, http.client.HTTPException, ValueError):
        lost += 1


def kills():
    """The reports that were answered and aren't in the journal as they were answered."""
    farm = Farm(lease_ms=1_000)
    try:
        farm.start()
        for _ in range(times):
            clients = [threading.Thread(target=client, args=(farm,)) for _ in range(4)]
            [it.start() for it in clients]
            time.sleep(0.02 + 0.1 * dice.random())
            farm.kill()
            [it.join() for it in clients]
            farm.start()
        over = farm.connection()
        wrong = [run for run, (_, reply) in reported.items() if farm.post(f"/v1/runs/{run}/report", {"verdict": "pass"}, over) != (200, reply)]
        over.close()
        farm.kill()
        entries = entries_of(farm.journal)
        held = {it["run"]: it for it in entries if it["what"] == "report"}
        wrong += [run for run, (verdict, reply) in reported.items()
                  if run not in held or (held[run]["verdict"], held[run]["fate"]) != (verdict, reply["fate"])]
        print(f"{times} kills, {len(reported)} reports answered, {len(entries)} entries, {len(wrong)} lost or changed, {lost} connections cut")
        return wrong
    finally:
        farm.close()


def full_disk():
    """Whether the service went on as it should over a disk that was full."""
    folder = tempfile.mkdtemp()
    subprocess.run(["mount", "-t", "tmpfs", "-o", "size=64k", "tmpfs", folder], check=True)
    farm = None
    try:
        farm = Farm(folder=folder).start()
        statuses = []
        while statuses[-3:] != [503] * 3:
            statuses.append(farm.post("/v1/searches", opening(len(statuses) + 1, 20))[0])
            assert len(statuses) < 2_000
        assert farm.get("/v1/farm")[0] == farm.get("/v1/totals")[0] == 200
        subprocess.run(["mount", "-o", "remount,size=1m", folder], check=True)
        after = farm.post("/v1/searches", opening(len(statuses), 20))[0]
        held = farm.get("/v1/totals")[1]["searches"]
        print(f"a full disk after {statuses.count(200)} opens: {statuses.count(503)} times 503; with room {after}, {held} searches")
        return after == 200 and held > statuses.count(200)
    finally:
        if farm:
            farm.kill()
        subprocess.run(["umount", "-l", folder])
        os.rmdir(folder)


def full_disk_of_several():
    """Whether four clients at once, who share records, were served as they should over a disk that was full for a while."""
    image, folder = tempfile.mktemp(), tempfile.mkdtemp()
    subprocess.run(["truncate", "-s", "2M", image], check=True)
    subprocess.run(["mke2fs", "-q", "-F", "-t", "ext4", "-O", "^has_journal", image], check=True)
    subprocess.run(["mount", "-o", "loop", image, folder], check=True)
    farm, filler = None, os.path.join(folder, "filler")
    try:
        room = os.statvfs(folder)
        with open(filler, "wb") as it:
            it.write(bytes(room.f_bavail * room.f_bsize - 160 * 1024))
        os.sync()
        farm = Farm(folder=folder).start()
        opened, faults = [{} for _ in range(4)], [0] * 4

        def client(which):
            """Opens 500 searches, each asked for again until it is answered."""
            over = farm.connection(60)
            for number in range(which + 1, 2_001, 4):
                while number not in opened[which]:
                    status, body = farm.post("/v1/searches", opening(number, 20), over)
                    assert status in (200, 503), (status, body)
                    if status == 200:
                        opened[which][number] = body["search"]
                    else:
                        faults[which] += 1
                        time.sleep(0.002)
            over.close()

        clients = [threading.Thread(target=client, args=(which,)) for which in range(4)]
        for it in clients:
            it.start()
        until = time.time() + 30
        while sum(faults) < 40 and time.time() < until:
            time.sleep(0.01)
        os.remove(filler)
        for it in clients:
            it.join()
        numbers = sorted(number for it in opened for number in it.values())
        farm.kill()
        records = len(records_of(farm.journal)) - 1
        held = farm.start().get("/v1/totals")[1]["searches"]
        print(f"a full disk with four clients: {sum(faults)} times 503; {len(numbers)} opens in {records} records, {held} searches after a restart")
        return numbers == list(range(1, 2_001)) and held == 2_000 and sum(faults) >= 40
    finally:
        if farm:
            farm.kill()
        subprocess.run(["umount", "-l", folder])
        os.rmdir(folder)
        os.remove(image)


wrong = kills()
if os.geteuid() == 0:
    wrong += [] if full_disk() else [0]
    wrong += [] if full_disk_of_several() else [0]
else:
    print("not root: no full disk was tried")
sys.exit(bool(wrong))
