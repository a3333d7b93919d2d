#!/usr/bin/env python3
"""Workers with a table of verdicts beside a service, all of the built program.

    bench/workers.py [SEARCHES [RUNS]]      50 searches, and 2000 runs for the time, if not said

Run it after `./finder build`.
- Three workers end the searches; one of them is killed on the way and started again, and so is the service. At the end each report in the
  journal has the verdict of the table for its commit, no run has two, and each search has found its culprit, or that there is none.
- One worker's time for so many runs beside that of a plain worker in C (plain_worker.c) that makes the same exchanges with a farm of its
  own, in turn, three times.
"""
import os
import re
import shutil
import subprocess
import sys
import tempfile
import threading
import time

from service import PROGRAM, ROOT, Farm, commit, entries_of, opening

searches = int(sys.argv[1]) if len(sys.argv) > 1 else 50
runs = int(sys.argv[2]) if len(sys.argv) > 2 else 2_000
SUSPECTS = 20


def culprit(search):
    """The position of a search's culprit, or 0 where there is none."""
    return 0 if search % 5 == 0 else 1 + 7 * search % SUSPECTS


def verdict(search, position):
    return "fail" if 0 < culprit(search) <= position else "pass"


def open_all(farm, count, path):
    """Opens searches, and writes the table of their verdicts."""
    over = farm.connection()
    with open(path, "w") as table:
        for search in range(1, count + 1):
            assert farm.post("/v1/searches", opening(search, SUSPECTS), over)[1]["search"] == search
            for position in range(SUSPECTS + 1):
                table.write(f"{commit(10_000 * search + position)} {verdict(search, position)} t\n")
    over.close()


def worker(farm, name, count, path):
    return subprocess.Popen([PROGRAM, "work", f"127.0.0.1:{farm.port}", name, str(count), f"table:{path}"],
                            stdout=subprocess.PIPE, stderr=subprocess.PIPE)


def ended(farm):
    page = farm.get("/v1/farm")[1]
    return page["searching"] == page["verifying"] == 0


def together():
    """Three workers, kills on the way; what was found wrong."""
    farm, wrong, statuses, killed = Farm(lease_ms=1_000), [], [], []
    table = os.path.join(farm.folder, "table")
    over = threading.Event()

    def serve_runs(name):
        """A worker that is started again until the searches have ended; that of this name is killed once."""
        while not over.is_set():
            it = worker(farm, name, 1_000, table)
            if name == "w1" and not killed:
                time.sleep(0.2)
                it.kill()
                killed.append(name)
            it.wait()
            said, fault = it.communicate()
            statuses.append(it.returncode)
            if it.returncode not in (0, 9, -9) and fault != b"the service answered 0\n":
                wrong.append(f"{name}: status {it.returncode} {fault}")
            time.sleep(0.05)

    try:
        farm.start()
        open_all(farm, searches, table)
        threads = [threading.Thread(target=serve_runs, args=(f"w{n}",)) for n in (1, 2, 3)]
        begun = time.time()
        [it.start() for it in threads]
        time.sleep(0.3)
        farm.kill()
        farm.start()
        while not ended(farm):
            assert time.time() - begun < 300, farm.get("/v1/farm")
            time.sleep(0.1)
        took = time.time() - begun
        over.set()
        [it.join() for it in threads]
        for search in range(1, searches + 1):
            page = farm.get(f"/v1/searches/{search}")[1]
            wanted = ("confirmed", culprit(search)) if culprit(search) else ("no culprit", None)
            if (page["standing"], page.get("culprit")) != wanted:
                wrong.append(f"search {search}: {page}")
        farm.kill()
        entries = entries_of(farm.journal)
        leases = {it["run"]: it for it in entries if it["what"] == "lease"}
        reports = [it for it in entries if it["what"] == "report"]
        for it in reports:
            lease = leases[it["run"]]
            if it["verdict"] != verdict(lease["search"], lease["position"]):
                wrong.append(f"{it} of {lease}")
        if len({it["run"] for it in reports}) != len(reports):
            wrong.append("a run has two reports")
        print(f"{searches} searches ended in {took:.2f} s by {len(reports)} reports of {len(leases)} leases; workers ended "
              + ", ".join(f"{statuses.count(it)} times with {it}" for it in sorted(set(statuses))), flush=True)
    finally:
        over.set()
        farm.close()
    return wrong


def timed(call):
    """Seconds of a worker, and how many runs it reported, with a farm of its own."""
    farm = Farm()
    try:
        farm.start()
        table = os.path.join(farm.folder, "table")
        open_all(farm, min(1_990, 50 + runs // 4), table)
        begun = time.time()
        made = call(farm, table)
        return time.time() - begun, made
    finally:
        farm.close()


def ours(farm, table):
    it = worker(farm, "ours", runs, table)
    said, fault = it.communicate()
    assert it.returncode == 0, (it.returncode, fault)
    return int(re.match(rb"leased \d+ reported (\d+) ", said).group(1))


def speed():
    built = tempfile.mkdtemp()
    try:
        subprocess.run(["cc", "-O2", "-D_GNU_SOURCE", "-o", f"{built}/plain_worker", f"{ROOT}/bench/plain_worker.c"], check=True)

        def plain(farm, table):
            line = [f"{built}/plain_worker", str(farm.port), str(runs), table]
            return int(subprocess.run(line, check=True, capture_output=True).stdout)

        for _ in range(3):
            (first, made), (second, by_plain) = timed(ours), timed(plain)
            print(f"a worker made {made} runs in {first:.2f} s, {made / first:,.0f} a second; the plain one {by_plain} in {second:.2f} s: ratio "
                  f"{first / made * by_plain / second:.2f}", flush=True)
    finally:
        shutil.rmtree(built, ignore_errors=True)


wrong = together()
for it in wrong[:20]:
    print("WRONG", it)
speed()
sys.exit(bool(wrong))
