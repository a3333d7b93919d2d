#!/usr/bin/env python3
"""Times each page that a GET gives, of a farm at its limits, and what those who ask for the largest cost others.

    FINDER=PROGRAM bench/limit_pages.py [ENTRIES [SEARCHES [SUSPECTS]]]        1000000, 2000 and 1000, if not said

All searches but 20 are driven to an order. Those 20 have all further runs, which expire and are leased again, and then
are reported. The history is served by 4 handlers. Of each page are printed its bytes, the median and the worst time
from the request to the last byte, over one connection that stays open, and the median processor time of the service a
page, in turns of 100: that tells more where others work on the machine. Then the time of a search's page while 8 other
connections ask for the orders, or for the log, again and again: a page waits for its turn as a lease does.
"""
import json
import os
import random
import socket
import statistics
import struct
import subprocess
import sys
import tempfile
import threading
import time

import million
import run
from service import PROGRAM, Farm

OPEN, TURNS, PAGES, ASKERS = 20, 9, 100, 8
START = 1_795_770_000_000
DAY_MS = 86_400_000


class Script:
    """The program, asked line by line, and the lines that it was asked."""

    def __init__(self):
        self.lines, self.runs = [], 0
        self.child = subprocess.Popen([PROGRAM, "run"], stdin=subprocess.PIPE, stdout=subprocess.PIPE)

    def ask(self, at, **command):
        if command["do"] in ("open", "lease", "revert"):
            command["key"] = f"{len(self.lines) + 1:032x}"
        self.lines.append(json.dumps({"at": at, **command}, separators=(",", ":")).encode() + b"\n")
        self.child.stdin.write(self.lines[-1])
        self.child.stdin.flush()
        answer = json.loads(self.child.stdout.readline())
        assert "refused" not in answer, answer
        self.runs += "run" in answer and command["do"] == "lease"
        return answer


def drive(searches, suspects):
    """A script of so many searches, each driven to its order; 1,000 orders a day are allowed, 10 by `run` alone."""
    script = Script()
    for search in range(1, searches + 1):
        at = START + (search - 1) // 10 * DAY_MS
        asked = run.opening(search, suspects)
        asked.update(calm=1, rate=[1, 10], bar=[9, 10], width=1, reruns=1)
        script.ask(at, **asked)
        culprit = 1 + (7 * search) % suspects
        standing = "searching"
        while standing in ("searching", "verifying"):
            lease = script.ask(at, do="lease", worker="worker-0001")
            says = "fail" if lease["position"] >= culprit else "pass"
            standing = script.ask(at, do="report", run=lease["run"], verdict=says)["standing"]
        script.ask(at, do="revert", agent="agent-0001")
    script.child.communicate()
    return script


def first_position(suspects):
    """Where a search of suspects of one weight runs first."""
    script = Script()
    asked = run.opening(1, suspects)
    asked.update(calm=1, rate=[1, 10], bar=[9, 10], width=1, reruns=1)
    asked["suspects"] = [[suspect, 1] for suspect, _ in asked["suspects"]]
    script.ask(START, **asked)
    position = script.ask(START, do="lease", worker="bot")["position"]
    script.child.communicate()
    return position


def write(path, entries, searches, suspects):
    """The journal of the history."""
    to = million.Journal(path)
    to.entry(1, struct.pack(">IHH", million.LEASE_MS, 1_000, 720))
    to.end()
    script = drive(searches - OPEN, suspects)
    subprocess.run([PROGRAM, "run", path], input=b"".join(script.lines), stdout=subprocess.DEVNULL, check=True)
    with open(path, "rb") as file:
        data = file.read()
    at = 16
    to.count = 0
    while at < len(data) and data[at]:
        at += 5 + int.from_bytes(data[at + 1:at + 5], "big")
        to.count += 1
    to.file = open(path, "wb")
    to.file.write(data[:at])
    to.runs, to.searches, to.key = script.runs, searches - OPEN, 1 << 64
    to.at = START + (searches // 10 + 1) * DAY_MS
    million.SEARCHES, million.SUSPECTS, million.POSITION = OPEN, suspects, first_position(suspects)
    million.LEASES = -(-(entries - to.count - 2 * OPEN) // (2 * OPEN))
    million.play_round(to, entries)
    to.end()
    return to


class Link:
    """One connection to the service, on which a page is read as its bytes."""

    def __init__(self, farm):
        self.to = socket.create_connection(("127.0.0.1", farm.port))
        self.to.setsockopt(socket.IPPROTO_TCP, socket.TCP_NODELAY, 1)

    def get(self, path):
        """How many bytes the page has."""
        self.to.sendall(b"GET %s HTTP/1.1\r\nHost: farm\r\n\r\n" % path.encode())
        head = b""
        while b"\r\n\r\n" not in head:
            head += self.to.recv(1 << 20)
        assert head.startswith(b"HTTP/1.1 200"), head[:100]
        told, body = head.split(b"\r\n\r\n", 1)
        length = next(int(line[15:]) for line in told.split(b"\r\n") if line.lower().startswith(b"content-length:"))
        left = length - len(body)
        while left > 0:
            left -= len(self.to.recv(1 << 20))
        return length


def processor(farm):
    """The processor time of the service so far, in ms."""
    tasks = f"/proc/{farm.process.pid}/task"
    return sum(int(open(f"{tasks}/{task}/schedstat").read().split()[0]) for task in os.listdir(tasks)) / 1e6


def timed(farm, link, pick):
    """The greatest length of pages; in ms the median and worst of their times, and the median of the processor's."""
    times, spent, most = [], [], 0
    for _ in range(TURNS):
        before = processor(farm)
        for _ in range(PAGES):
            path = pick()
            began = time.perf_counter()
            most = max(most, link.get(path))
            times.append((time.perf_counter() - began) * 1e3)
        spent.append((processor(farm) - before) / PAGES)
    return most, statistics.median(times), max(times), statistics.median(spent)


def beside(farm, link, asked, pick):
    """The same of pages that are picked, while others ask for one page again and again."""
    going = True

    def ask():
        mine = Link(farm)
        while going:
            mine.get(asked)

    askers = [threading.Thread(target=ask) for _ in range(ASKERS)]
    for asker in askers:
        asker.start()
    told = timed(farm, link, pick)
    going = False
    for asker in askers:
        asker.join()
    return told


def pages(entries, searches, runs):
    """Each kind of page, and how one of it is picked."""
    dice = random.Random(1)
    any_search = lambda: dice.randint(1, searches)
    long_search = lambda: dice.randint(searches - OPEN + 1, searches)
    start = lambda lines: dice.randint(1, max(1, lines - 99))
    return {
        "/v1/totals": lambda: "/v1/totals",
        "/v1/farm": lambda: "/v1/farm",
        "/v1/orders": lambda: "/v1/orders",
        "/v1/list/F": lambda: f"/v1/list/{start(searches)}",
        "/v1/searches/S": lambda: f"/v1/searches/{any_search()}",
        "/v1/searches/S, of many runs": lambda: f"/v1/searches/{long_search()}",
        "/v1/searches/S/runs/F, of many": lambda: f"/v1/searches/{long_search()}/runs/{start(runs)}",
        "/v1/log/F": lambda: f"/v1/log/{dice.randint(1, entries)}",
    }


def show(farm, kinds):
    """Prints the times of each kind of page, and of a search's page beside those who ask for the largest ones."""
    link = Link(farm)
    print(farm.get("/v1/totals")[1], f"{farm.memory() / 1024:.0f} MiB", flush=True)
    for name, pick in kinds.items():
        size, median, worst, spent = timed(farm, link, pick)
        print(f"{name:32} {size:7} bytes: {median:.3f} ms, worst {worst:.3f}; processor {spent:.3f}", flush=True)
    for asked in ("/v1/orders", "/v1/log/1"):
        _, median, worst, _ = beside(farm, link, asked, kinds["/v1/searches/S"])
        print(f"a search's page beside {ASKERS} who ask for {asked}: {median:.3f} ms, worst {worst:.3f}", flush=True)


def main():
    entries, searches, suspects = [int(word) for word in sys.argv[1:]] + [1_000_000, 2_000, 1_000][len(sys.argv) - 1:]
    with tempfile.TemporaryDirectory(dir="/dev/shm") as folder:
        farm = Farm(handlers=4, folder=folder)
        os.remove(farm.journal)
        write(farm.journal, entries, searches, suspects)
        farm.start()
        try:
            show(farm, pages(entries, searches, million.LEASES))
        finally:
            farm.kill()


if __name__ == "__main__":
    main()
