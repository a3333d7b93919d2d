#!/usr/bin/env python3
"""Real clients against the built service over loopback, each kind once: a line a kind, and status 1 where one found a fault.

    bench/clients.py

Run it after `./finder build`. It needs curl. What it wrote once stands in clients.out.
"""
import json
import re
import socket
import subprocess
import sys
import threading
import time

from service import ROOT, Farm, key, opening

farm = Farm(handlers=4, lease_ms=60_000)
farm.start()
bad = 0


def step(name):
    def run(check):
        global bad
        begun = time.time()
        try:
            said = check() or "as it should"
        except Exception as fault:
            bad, said = bad + 1, f"FAULT {fault!r}"
        print(f"{name}: {said} ({time.time() - begun:.2f} s)", flush=True)
    return run


def together(calls):
    """Runs calls in threads of their own, and raises what the first of them raised."""
    faults = []

    def guarded(call):
        try:
            call()
        except Exception as fault:
            faults.append(fault)

    threads = [threading.Thread(target=guarded, args=(call,)) for call in calls]
    [it.start() for it in threads]
    [it.join() for it in threads]
    if faults:
        raise faults[0]


def link():
    return socket.create_connection(("127.0.0.1", farm.port), 20)


def to_the_end(it):
    return b"".join(iter(lambda: it.recv(65_536), b""))


@step("every line of curl in docs/OPERATING.md, with its answer")
def _():
    with open(f"{ROOT}/docs/OPERATING.md") as it:
        lines = [line.strip() for line in it]
    calls = [(line[2:], lines[at + 1]) for at, line in enumerate(lines) if line.startswith("$ curl ")]
    assert len(calls) == 15, len(calls)
    for call, wanted in calls:
        call = call.replace("localhost:8080", f"127.0.0.1:{farm.port}")
        said = subprocess.run(["bash", "-c", call], capture_output=True, check=True, text=True).stdout
        assert re.fullmatch(".*".join(map(re.escape, wanted.split(".."))), said), (call, said, wanted)
    return f"{len(calls)} calls"


@step("HEAD has the length of GET and no body")
def _():
    over = farm.connection()
    lengths = []
    for method in ("GET", "HEAD"):
        over.request(method, "/v1/farm")
        answer = over.getresponse()
        lengths.append((answer.status, answer.getheader("Content-Length"), len(answer.read())))
    over.close()
    (_, length, whole), (status, said, none) = lengths
    assert status == 200 and said == length == str(whole) and none == 0, lengths
    return f"{length} bytes"


@step("a connection that is kept, 1,000 requests")
def _():
    over = farm.connection()
    for _ in range(1_000):
        assert farm.get("/v1/totals", over)[0] == 200
    over.close()


@step("64 requests sent ahead in one piece")
def _():
    lines = b"".join(
        b"POST /v1/leases HTTP/1.1\r\nHost: farm\r\nContent-Length: %d\r\n\r\n%s" % (len(body), body)
        for body in (json.dumps({"key": key(1_000 + i), "worker": "w"}).encode() for i in range(64)))
    with link() as it:
        it.sendall(lines)
        it.shutdown(socket.SHUT_WR)
        read = to_the_end(it)
    assert read.count(b"HTTP/1.1 409 Conflict\r\n") == 64, read[:200]


@step("Expect: 100-continue with an open of 1,000 suspects")
def _():
    body = json.dumps(opening(20, 1_000)).encode()
    line = ["curl", "-sS", "-v", "--max-time", "20", "-H", "Expect: 100-continue", "-d", "@-", f"http://127.0.0.1:{farm.port}/v1/searches"]
    said = subprocess.run(line, input=body, capture_output=True, check=True)
    assert json.loads(said.stdout)["reply"] == "open" and b"100 Continue" in said.stderr, said
    return f"{len(body)} bytes"


@step("a byte a tenth of a second beside 500 quick requests")
def _():
    whole = b"GET /v1/farm HTTP/1.1\r\nHost: farm\r\n\r\n"
    took = []

    def slowly():
        with link() as it:
            for at in range(len(whole)):
                it.sendall(whole[at:at + 1])
                time.sleep(0.1)
            assert it.recv(1_000).startswith(b"HTTP/1.1 200")

    def quickly():
        begun, over = time.time(), farm.connection()
        for _ in range(500):
            assert farm.get("/v1/farm", over)[0] == 200
        over.close()
        took.append(time.time() - begun)

    together([slowly, quickly])
    assert took[0] < 2, took
    return f"the quick ones took {took[0]:.2f} s"


@step("clients that go away in mid-request, 100 times")
def _():
    whole = b'POST /v1/leases HTTP/1.1\r\nHost: farm\r\nContent-Length: 59\r\n\r\n{"key":'
    for at in range(100):
        with link() as it:
            it.sendall(whole[:at % len(whole)])
    assert farm.get("/v1/farm")[0] == 200


@step("a request that is refused while its body still comes is answered")
def _():
    with link() as it:
        it.sendall(b"POST /v1/leases HTTP/1.1\r\nHost: farm\r\nContent-Length: 300000\r\n\r\n" + b"x" * 200_000)
        read = to_the_end(it)
    assert read.startswith(b"HTTP/1.1 413 "), read[:80]


@step("the end of a stream is seen at once after Connection: close")
def _():
    begun = time.time()
    with link() as it:
        it.sendall(b"GET /v1/farm HTTP/1.1\r\nHost: farm\r\nConnection: close\r\n\r\n")
        read = to_the_end(it)
    assert read.startswith(b"HTTP/1.1 200") and time.time() - begun < 1, (read[:80], time.time() - begun)


@step("200 connections one after the other")
def _():
    for _ in range(200):
        assert farm.get("/v1/totals")[0] == 200


@step("16 connections at once, 50 requests each")
def _():
    def many():
        over = farm.connection()
        for _ in range(50):
            assert farm.get("/v1/farm", over)[0] == 200
        over.close()

    together([many] * 16)


@step("a request behind 32 idle connections, with 16 handlers")
def _():
    patient = Farm(handlers=16)
    try:
        patient.start()
        idle = [socket.create_connection(("127.0.0.1", patient.port), 20) for _ in range(32)]
        over = patient.connection(20)
        assert patient.get("/v1/farm", over)[0] == 200
        over.close()
        [it.close() for it in idle]
    finally:
        patient.close()


farm.kill()
print(farm.run("show", farm.journal).decode().splitlines()[0])
farm.close()
sys.exit(bool(bad))
