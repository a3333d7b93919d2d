#!/usr/bin/env python3
"""Workers and followers whose other end is away, slow, or says what it shouldn't: a line a step, and status 1 at a fault.

    bench/outages.py [STEP ..]        restart, away, answers, host, slow and proxy, all of them if none is said

Run it after `./finder build`; FINDER names another program. It needs only loopback, and takes three minutes and a half.
- restart: the service is killed while three workers work, and started anew five seconds later. They go on.
- away: where nobody listens a worker and a follower end with status 9, after three connects of ten seconds.
- answers: what a test host may say, and what no verdict is.
- host: a test host that isn't there is told before anything is asked of the service; one that is started late is found.
- slow: a peer that sends a byte a second, or none, is given up after a minute, three times.
- proxy: the nginx of docs/OPERATING.md for workers lets their two calls through, and nothing else (skipped where there
  is none).
"""
import contextlib
import os
import re
import shutil
import socket
import subprocess
import sys
import tempfile
import threading
import time

from service import PROGRAM, ROOT, Farm, entries_of, free_port, opening

SUSPECTS = 20


def program(*words):
    return subprocess.Popen([PROGRAM, *words], stdout=subprocess.PIPE, stderr=subprocess.PIPE)


def work(port, name, runs, runner):
    return program("work", f"127.0.0.1:{port}", name, str(runs), runner)


def ended(it, seconds):
    """How a program ended: its status, and what it wrote on both streams."""
    try:
        said, fault = it.communicate(timeout=seconds)
    except subprocess.TimeoutExpired:
        it.kill()
        it.communicate()
        return "no end", f"within {seconds} s"
    return it.returncode, (said + fault).decode().strip()


class Peer:
    """A socket that listens, and serves each connection by a call in a thread of its own."""

    def __init__(self, serve, port=0):
        self.listener = socket.create_server(("127.0.0.1", port), backlog=64)
        self.port, self.serve, self.connections = self.listener.getsockname()[1], serve, 0
        threading.Thread(target=self.accept, daemon=True).start()

    def accept(self):
        with contextlib.suppress(OSError):
            while True:
                it, _ = self.listener.accept()
                self.connections += 1
                threading.Thread(target=self.served, args=(it,), daemon=True).start()

    def served(self, it):
        with it, contextlib.suppress(OSError):
            self.serve(it)

    def close(self):
        # A shutdown wakes the accept, which a close alone does not.
        with contextlib.suppress(OSError):
            self.listener.shutdown(socket.SHUT_RDWR)
        self.listener.close()


def question(it):
    """The line that a test host is asked by, empty where the connection ends before it."""
    line = b""
    while not line.endswith(b"\n"):
        piece = it.recv(300)
        if not piece:
            return b""
        line += piece
    return line


@contextlib.contextmanager
def served(searches, **more):
    """A farm with so many open searches, served."""
    farm = Farm(**more)
    try:
        farm.start()
        over = farm.connection()
        for search in range(1, searches + 1):
            assert farm.post("/v1/searches", opening(search, SUSPECTS), over)[1]["search"] == search
        over.close()
        yield farm
    finally:
        farm.close()


def restart():
    """Three workers, each run of which takes 20 ms, and a service that is away for five seconds meanwhile."""
    def passes(it):
        if question(it):
            time.sleep(0.02)
            it.sendall(b"pass\n")

    host, wrong = Peer(passes), []
    with served(150) as farm:
        begun = time.time()
        workers = [work(farm.port, f"w{n}", 1_000_000, f"host:127.0.0.1:{host.port}") for n in (1, 2, 3)]
        time.sleep(1)
        before = farm.get("/v1/totals")[1]["counted"]
        farm.kill()
        time.sleep(5)
        gone = [it.poll() for it in workers]
        farm.start()
        ends = [ended(it, 120) for it in workers]
        took, after = time.time() - begun, farm.get("/v1/totals")[1]["counted"]
        if gone != [None] * 3:
            wrong.append(f"workers had ended while the service was away: {gone}")
        if any(status != 0 for status, _ in ends):
            wrong.append(f"workers ended with {ends}")
        if after <= before:
            wrong.append(f"{before} counted runs before, {after} after")
    host.close()
    statuses = [status for status, _ in ends]
    return wrong, f"{before} counted runs before, {after} after; the workers ended with {statuses} after {took:.1f} s"


def away():
    """Nobody listens."""
    wrong, said = [], []
    with tempfile.TemporaryDirectory() as folder:
        table = os.path.join(folder, "table")
        open(table, "w").close()
        begun = time.time()
        port = free_port()
        programs = {"work": work(port, "w", 1, f"table:{table}"),
                    "follow": program("follow", os.path.join(folder, "copy"), f"127.0.0.1:{port}", "1")}
        for name, it in programs.items():
            end, took = ended(it, 90), time.time() - begun
            said.append(f"{name} ended with {end[0]} after {took:.1f} s")
            if end != (9, "the network failed") or not 29 < took < 40:
                wrong.append(f"{name}: {end} after {took:.1f} s")
    return wrong, "; ".join(said)


# What a host sends, with pauses in seconds between the pieces, and None where it keeps the connection open; its verdict.
ANSWERS = [
    ([b"pass\n"], "pass"), ([b"fail\n"], "fail"), ([b"pass"], "pass"), ([b"fail"], "fail"),
    ([b"p", 0.1, b"as", 0.1, b"s", 0.1, b"\n"], "pass"), ([b"fail", 1.5, b"\n"], "fail"),
    ([b"pass\n", None], "pass"), ([b"fail\n", None], "fail"),
    ([b"pass\nfail"], None), ([b"pass\nfail\n"], None), ([b"pass\npass\n"], None), ([b"pass\n\n"], None),
    ([b"fail\n", 0.3, b"pass\n"], None), ([b"pass\n", 0.3, b"\n"], None), ([b"pass\r\n"], None), ([b"pass "], None),
    ([b"PASS\n"], None), ([b" pass\n"], None), ([b"passed\n"], None), ([b"pas"], None), ([b"\n"], None), ([], None),
]


def answers():
    """One run for each answer of a host."""
    answer, wrong, longest = [], [], 0

    def says(it):
        if not question(it):
            return
        for piece in answer:
            if piece is None:
                it.recv(1)
            elif isinstance(piece, bytes):
                it.sendall(piece)
            else:
                time.sleep(piece)

    host = Peer(says)
    with served(len(ANSWERS)) as farm:
        for answer, verdict in ANSWERS:
            begun = time.time()
            end = ended(work(farm.port, "w", 1, f"host:127.0.0.1:{host.port}"), 20)
            longest = max(longest, time.time() - begun)
            reports = [it["verdict"] for it in entries_of(farm.journal) if it["what"] == "report"]
            wanted = (0, "leased 1 reported 1 limit") if verdict else (10, "the runner failed")
            if end != wanted or verdict and reports[-1:] != [verdict]:
                wrong.append(f"{answer}: {end}, reports {reports[-1:]}")
        if host.connections != len(ANSWERS):
            wrong.append(f"{host.connections} connections for {len(ANSWERS)} runs")
        said = [verdict for _, verdict in ANSWERS if verdict]
        if reports != said:
            wrong.append(f"reports {reports}")
    host.close()
    return wrong, f"{len(ANSWERS)} answers, {len(said)} of them verdicts; the longest took {longest:.1f} s"


def host():
    """A host that isn't there, one that comes three seconds late, and one that nobody asks."""
    wrong, asked = [], []
    service = Peer(lambda it: asked.append(it.recv(100)))
    begun = time.time()
    end = ended(work(service.port, "w", 1, f"host:127.0.0.1:{free_port()}"), 60)
    took = time.time() - begun
    if end != (10, "the runner failed") or asked or service.connections:
        wrong.append(f"no host: {end}, and the service was asked {asked}")
    service.close()
    with served(1) as farm:
        port, questions = free_port(), []
        it = work(farm.port, "w", 1, f"host:127.0.0.1:{port}")
        time.sleep(3)

        def passes(it):
            questions.append(question(it))
            if questions[-1]:
                it.sendall(b"pass\n")

        late = Peer(passes, port)
        end = ended(it, 60)
        if end != (0, "leased 1 reported 1 limit") or len(questions) != 1:
            wrong.append(f"a late host: {end}, {questions}")
        farm.kill()
        farm.run("found", os.path.join(farm.folder, "idle"), "60000", "10", "east:0")
        farm.journal = os.path.join(farm.folder, "idle")
        farm.start()
        end = ended(work(farm.port, "w", 1, f"host:127.0.0.1:{port}"), 60)
        time.sleep(0.1)
        if end != (0, "leased 0 reported 0 idle") or questions[1:] != [b""]:
            wrong.append(f"an idle farm: {end}, {questions}")
        late.close()
    return wrong, f"a host that isn't there was told after {took:.1f} s"


def slow():
    """Peers that answer a byte a second, or nothing; each of their connections is timed."""
    begun, ends = time.time(), {}

    def trickles(head):
        def serve(it, times):
            start = time.time()
            try:
                it.sendall(head)
                while time.time() - start < 100:
                    time.sleep(1)
                    if head:
                        it.sendall(b"a")
                    elif not it.recv(300):
                        break
            except OSError:
                pass
            times.append(time.time() - start)
        return serve

    peers = {"a head": b"HTTP/1.1 200 OK\r\nX: ", "a body": b"HTTP/1.1 200 OK\r\nContent-Length: 100000\r\n\r\n",
             "nothing": b""}
    wrong, threads = [], []
    with tempfile.TemporaryDirectory() as folder:
        table = os.path.join(folder, "table")
        open(table, "w").close()

        def one(name, what, head):
            times, serve = [], trickles(head)
            peer = Peer(lambda it: serve(it, times))
            it = (work(peer.port, "w", 1, f"table:{table}") if name == "work" else
                  program("follow", os.path.join(folder, f"copy {what}"), f"127.0.0.1:{peer.port}", "1"))
            end = ended(it, 240)
            took = time.time() - begun
            time.sleep(2)
            peer.close()
            ends[name, what] = took
            if end != (9, "the network failed") or len(times) != 3 or not all(58 < it < 64 for it in times):
                lasted = [round(it, 1) for it in times]
                wrong.append(f"{name}, {what}: {end} after {took:.1f} s, connections of {lasted} s")

        for name in ("work", "follow"):
            for what, head in peers.items():
                threads.append(threading.Thread(target=one, args=(name, what, head)))
        [it.start() for it in threads]
        [it.join() for it in threads]
    said = ", ".join(f"{name} of {what} {took:.1f}" for (name, what), took in sorted(ends.items()))
    return wrong, f"ended after (s): {said}"


def proxy_config(farm, port, folder):
    """The servers of docs/OPERATING.md that listen without TLS, with other ports, as a whole configuration."""
    with open(f"{ROOT}/docs/OPERATING.md") as it:
        blocks = re.findall(r"^    server \{\n.*?^    \}\n", it.read(), re.M | re.S)
    plain = [block for block in blocks if "ssl" not in block]
    assert len(plain) == 1, blocks
    server = plain[0].replace("127.0.0.1:8081", f"127.0.0.1:{port}").replace("127.0.0.1:8080", f"127.0.0.1:{farm.port}")
    kinds = ("client_body", "proxy", "fastcgi", "uwsgi", "scgi")
    temporary = "".join(f"{kind}_temp_path {folder}/{kind};\n" for kind in kinds)
    return (f"pid {folder}/pid;\nerror_log {folder}/error;\ndaemon off;\nmaster_process off;\nevents {{}}\n"
            f"http {{\naccess_log off;\n{temporary}{server}}}\n")


# What the proxy for workers doesn't let through, and paths below those that it does, which are none to the service.
SHUT = [("POST", "/v1/searches"), ("POST", "/v1/searches/1/cancel"), ("POST", "/v1/reverts"), ("POST", "/v1/leases/"),
        ("GET", "/v1/searches/1"), ("GET", "/v1/farm"), ("GET", "/v1/orders"), ("GET", "/v1/totals"), ("GET", "/v1/log/1"),
        ("GET", "/v1/runs/../farm"), ("GET", "/v1/runs/%2e%2e/farm"), ("GET", "/v1/leases/../farm"), ("GET", "/")]
OPEN = ["/v1/searches/../runs/1/report", "/v1/searches%2f..%2fruns/1", "/v1/runs//1/report", "/v1/runs/"]


def status_of(farm, method, path):
    """The status of a call without a body that says anything."""
    over = farm.connection()
    over.request(method, path, "{}" if method == "POST" else None)
    status = over.getresponse().status
    over.close()
    return status


def proxy():
    """The proxy for workers."""
    nginx = shutil.which("nginx") or shutil.which("nginx", path="/usr/sbin")
    if nginx is None:
        return [], "skipped: there is no nginx"
    wrong = []
    with served(3) as farm, tempfile.TemporaryDirectory() as folder:
        port, config, table = free_port(), os.path.join(folder, "config"), os.path.join(folder, "table")
        with open(config, "w") as it:
            it.write(proxy_config(farm, port, folder))
        with open(table, "w") as it:
            it.writelines(f"{10_000 * search + at:040d} pass t\n" for search in (1, 2, 3) for at in range(SUSPECTS + 1))
        running = subprocess.Popen([nginx, "-c", config, "-p", folder], stderr=subprocess.DEVNULL)
        try:
            direct, farm.port = farm.port, port
            for _ in range(200):
                with contextlib.suppress(OSError):
                    socket.create_connection(("127.0.0.1", port), 1).close()
                    break
                time.sleep(0.02)
            end = ended(work(port, "w", 5, f"table:{table}"), 60)
            if end != (0, "leased 5 reported 5 limit"):
                wrong.append(f"a worker: {end}")
            for method, path in SHUT:
                if (status := status_of(farm, method, path)) != 403:
                    wrong.append(f"{method} {path}: {status}")
            for path in OPEN:
                if (status := status_of(farm, "GET", path)) not in (404, 405):
                    wrong.append(f"GET {path}: {status}")
            farm.port = direct
            entries = [it["what"] for it in entries_of(farm.journal)]
            if sorted(set(entries)) != ["founded", "lease", "open", "report"] or entries.count("open") != 3:
                wrong.append(f"entries {entries}")
        finally:
            running.terminate()
            running.wait()
    return wrong, f"a worker made 5 runs through it; {len(SHUT)} other calls were answered 403"


def main():
    steps = {call.__name__: call for call in (restart, away, answers, host, slow, proxy)}
    bad = 0
    for name in sys.argv[1:] or steps:
        begun = time.time()
        wrong, said = steps[name]()
        print(f"{name}: {said} ({time.time() - begun:.1f} s)", flush=True)
        for line in wrong:
            print(f"  FAULT {line}", flush=True)
        bad += len(wrong)
    print(f"{bad} faults")
    sys.exit(1 if bad else 0)


if __name__ == "__main__":
    main()
