#!/usr/bin/env python3
"""A served farm under load and kill.

    bench/soak.py [SECONDS [SEED]]        600 seconds and seed 1, if not said

Run it after `./finder build`. `serve` with four handlers over a file; eight clients, of which five open, lease, report, cancel, take reverts,
look at pages and send requests again, one is slow, one goes away in mid-request and one sends bytes that form no request; `kill -9` every few
seconds and a restart; a follower beside it, killed now and then too. At the end what was answered is held against the journal:
- each request that was answered gets its first answer again, and its entry stands in the journal as that answer said,
- no run has two reports, and no key two entries,
- `audit` says that the journal is a legal history (up to the 20,000 entries that it judges),
- the follower's file is a prefix of the journal, and the same once the follower has all,
- the memory of the service is what a fresh one needs for that history, and little more.
The figures stand in one line; the status is 1 where anything was found.
"""
import collections
import http.client
import os
import random
import socket
import subprocess
import sys
import threading
import time
import uuid

from service import PROGRAM, Farm, entries_of, key, opening, records_of

seconds = float(sys.argv[1]) if len(sys.argv) > 1 else 600.0
seed = int(sys.argv[2]) if len(sys.argv) > 2 else 1
farm = Farm(lease_ms=5_000)
until = time.time() + seconds
found = []
counts = collections.Counter()
answered = {}          # (path, key or run) -> the body that was sent, and the first reply that was read
runs = []              # runs that were leased and not reported, as far as anybody knows
searches = [0]
lock = threading.Lock()
stopping = threading.Event()


def note(path, mark, body, status, reply):
    """Holds an answer against the first one of the same request."""
    with lock:
        counts[status] += 1
        if status != 200:
            return
        first = answered.setdefault((path, mark), (body, reply))[1]
    if first != reply:
        found.append(f"{path} {mark}: {reply} after {first}")


class Client(threading.Thread):
    def __init__(self, number):
        super().__init__(daemon=True)
        self.number, self.dice, self.made = number, random.Random(seed * 1_000 + number), 0
        self.over = None

    def leave(self):
        """Ends the connection, so that others get its handler."""
        if self.over:
            self.over.close()
        self.over = None

    def send(self, path, body, mark):
        """Sends one request until it is answered, over one connection for some ten requests."""
        while not stopping.is_set():
            try:
                self.over = self.over or farm.connection(10)
                status, reply = farm.post(path, body, self.over)
                note(path, mark, body, status, reply)
                if self.dice.random() < 0.1:
                    self.leave()
                return status, reply
            except (OSError, http.client.HTTPException, ValueError):
                self.leave()
                counts["lost"] += 1
                time.sleep(0.02)
        return None, None

    def fresh(self):
        self.made += 1
        return self.number * 10**9 + self.made

    def step(self):
        number, dice = self.fresh(), self.dice
        pick = dice.random()
        if pick < 0.03 and searches[0] < 1_900:
            with lock:
                searches[0] += 1
            self.send("/v1/searches", opening(number, dice.randrange(2, 40), width=dice.randrange(1, 5)), number)
        elif pick < 0.45:
            status, reply = self.send("/v1/leases", {"key": key(number), "worker": f"w{self.number}"}, number)
            if status == 200:
                with lock:
                    runs.append(reply["run"])
        elif pick < 0.85:
            with lock:
                run = runs.pop(dice.randrange(len(runs))) if runs else None
            if run:
                self.send(f"/v1/runs/{run}/report", {"verdict": dice.choice(["pass", "fail", "pass", "fail", "skip"])}, run)
        elif pick < 0.87 and searches[0]:
            search = dice.randrange(1, searches[0] + 1)
            self.send(f"/v1/searches/{search}/cancel", {"key": key(number)}, number)
        elif pick < 0.92:
            self.send("/v1/reverts", {"key": key(number), "agent": "soak"}, number)
        elif pick < 0.96:
            with lock:
                again = dice.choice(list(answered.items())) if answered else None
            if again:
                (path, mark), (body, _) = again
                self.send(path, body, mark)
        else:
            self.look(dice.choice(["/v1/farm", "/v1/totals", "/v1/orders", "/v1/searches/1"]))

    def look(self, path):
        try:
            counts[farm.get(path)[0]] += 1
        except (OSError, http.client.HTTPException, ValueError):
            counts["lost"] += 1

    def run(self):
        while time.time() < until:
            self.step()
        self.leave()


class Rude(threading.Thread):
    """A client that is slow, goes away, or sends bytes that form no request."""

    def __init__(self, how):
        super().__init__(daemon=True)
        self.how, self.dice = how, random.Random(f"{seed} {how}")

    def run(self):
        whole = (b'POST /v1/leases HTTP/1.1\r\nHost: farm\r\nContent-Length: 60\r\n\r\n'
                 b'{"key":"ffffffff-0000-0000-0000-000000000001","worker":"s"} ')
        while time.time() < until:
            try:
                with socket.create_connection(("127.0.0.1", farm.port), 10) as it:
                    if self.how == "slow":
                        for at in range(len(whole)):
                            it.sendall(whole[at:at + 1])
                            time.sleep(0.02)
                        it.recv(1000)
                    elif self.how == "away":
                        it.sendall(whole[:self.dice.randrange(len(whole))])
                    else:
                        it.sendall(bytes(self.dice.randrange(256) for _ in range(self.dice.randrange(300))) + b"\r\n\r\n")
                        it.shutdown(socket.SHUT_WR)
                        it.recv(1000)
                    counts[self.how] += 1
            except OSError:
                counts["lost"] += 1
            time.sleep(0.05)


class Follower(threading.Thread):
    """Follows all the time; every other time it is killed on the way."""

    def __init__(self, path):
        super().__init__(daemon=True)
        self.path, self.dice = path, random.Random(f"{seed} follower")

    def once(self, may_kill):
        it = subprocess.Popen([PROGRAM, "follow", self.path, f"127.0.0.1:{farm.port}", "1000"], stdout=subprocess.PIPE, stderr=subprocess.PIPE)
        if may_kill and self.dice.random() < 0.5:
            time.sleep(self.dice.random() * 0.05)
            it.kill()
            counts["follower killed"] += 1
        said, fault = it.communicate()
        # The leader is killed now and then: a follower that lost an ask three times says that the network failed, or, where the
        # leader's end came in mid-answer, that no whole answer came.
        if it.returncode not in (0, 9, -9) and fault != b"the service answered 0\n":
            found.append(f"follow: status {it.returncode} {fault}")
        return said

    def run(self):
        while time.time() < until:
            self.once(True)
            time.sleep(0.2)


def number_of(text):
    return uuid.UUID(text).int


def check_entries():
    """Holds each answer that was read against its entry in the journal."""
    entries = entries_of(farm.journal)
    keys = [it["key"] for it in entries if "key" in it]
    reports = [it["run"] for it in entries if it["what"] == "report"]
    if len(keys) != len(set(keys)) or len(reports) != len(set(reports)):
        found.append("a key or a report stands twice")
    by_key = {it["key"]: it for it in entries if "key" in it}
    by_run = {it["run"]: it for it in entries if it["what"] == "report"}
    members = {"open": ["search"], "lease": ["run", "search", "stage", "position", "deadline"], "report": ["run", "verdict", "fate"],
               "cancel": ["search"], "revert": ["order", "commit", "search", "day"]}
    for (path, mark), (body, reply) in answered.items():
        entry = by_run.get(mark) if reply["reply"] == "report" else by_key.get(number_of(body["key"]))
        if entry is None or entry["what"] != reply["reply"] or any(entry[it] != reply[it] for it in members[reply["reply"]]):
            found.append(f"{path} {mark}: {reply} was answered, the journal has {entry}")
    return len(entries)


def load(copy):
    """Clients and a follower beside a service that is killed again and again; the follower, and how often."""
    clients = [Client(number) for number in range(1, 6)]
    follower = Follower(copy)
    others = [Rude("slow"), Rude("away"), Rude("noise"), follower]
    for it in clients + others:
        it.start()
    dice, kills = random.Random(seed), 0
    while time.time() < until:
        time.sleep(min(1 + 4 * dice.random(), max(0.01, until - time.time())))
        farm.kill()
        kills += 1
        farm.start()
    for it in clients + others:
        it.join(60)
    stopping.set()
    return follower, kills


def soak():
    copy = os.path.join(farm.folder, "copy.journal")
    farm.start()
    follower, kills = load(copy)

    # Each request that was answered gets its first answer again.
    fresh = farm.memory()
    over = farm.connection()
    for (path, mark), (body, _) in list(answered.items()):
        status, reply = farm.post(path, body, over)
        if status != 200:
            found.append(f"{path} {mark}: {status} {reply} at the end")
        else:
            note(path, mark, body, status, reply)
    over.close()
    grown = farm.memory() - fresh
    if grown > 4_096:
        found.append(f"the service took {grown} KiB more for requests that record nothing")
    totals = farm.get("/v1/totals")[1]

    for _ in range(20):
        said = follower.once(False)
        if said.endswith(b"whole\n"):
            break
    else:
        found.append(f"follow never had all: {said}")
    farm.kill()
    whole, copied = b"".join(records_of(farm.journal)), b"".join(records_of(copy))
    if not whole.startswith(copied) or said.endswith(b"whole\n") and whole != copied:
        found.append("the follower's file is no prefix of the journal")
    if farm.run("show", farm.journal) != farm.run("show", copy):
        found.append("show of the journal and of its copy differ")
    with open(farm.journal, "rb") as it:
        audit = farm.run("audit", stdin=it.read()).decode().strip()
    if not audit.startswith(("legal", "long")):
        found.append(f"audit: {audit}")
    entries = check_entries()
    if entries != totals["entries"]:
        found.append(f"{entries} entries in the journal, {totals['entries']} in the totals")
    answers = sum(count for status, count in counts.items() if isinstance(status, int))
    print(f"{seconds:.0f} s, seed {seed}: {answers} answers, {len(answered)} acknowledged requests, {entries} entries, {kills} kills, memory "
          f"{fresh} KiB +{grown}, {audit}; " + ", ".join(f"{k} {v}" for k, v in sorted(counts.items(), key=str)))
    for it in found[:20]:
        print("FOUND", it)


try:
    soak()
finally:
    farm.close()
sys.exit(bool(found))
