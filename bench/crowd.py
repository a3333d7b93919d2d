#!/usr/bin/env python3
"""What clients wait beside a crowd of connections that stay open, and when the service closes them.

    bench/crowd.py [PART..]         waits bodies many together over links descriptors deadlines young; all of them, if not said

Run it after `./finder build`. Each part has a service of its own, with four handlers.
- waits: beside 500 connections that say nothing and 500 that send a byte of a head or a body every 5 seconds, 100 clients that
  keep their connection ask once a second, and newcomers connect, ask once and close. Quantiles of what both waited.
- bodies: what a newcomer waits beside as many slow bodies of over 16 KiB as there are handlers.
- many: what newcomers wait beside 10,000 connections that say nothing, where the limit of descriptors allows.
- together: what newcomers wait while as many are closed, which were opened together, for having said nothing.
- over: what newcomers wait beside 300 connections that were answered 400 and stay, and beside 16 that go on sending a byte every
  half millisecond behind a request with `Connection: close`.
- links: how the service ends once its LINKS are used up.
- descriptors: what a newcomer waits where 300 connections want 64 descriptors, and that no link is used up by that.
- deadlines: when a connection is closed that says nothing, that sends half a request, that never takes its answers.
- young: what newcomers wait for totals in a service whose first entry waits for its sync (hanging_sync.c, built here by `cc`).
The status is 1 where a part misses its target.
"""
import asyncio
import multiprocessing
import os
import resource
import socket
import subprocess
import sys
import threading
import time

from service import Farm, opening

HANDLERS = 4
PAGE = b"GET /v1/totals HTTP/1.1\r\nhost: here\r\n\r\n"
HALF_HEAD = b"GET /v1/totals HTTP/1.1\r\nx: "
LAST_PAGE = b"GET /v1/totals HTTP/1.1\r\nhost: here\r\nconnection: close\r\n\r\n"
SMALL_BODY = b"POST /v1/leases HTTP/1.1\r\nhost: here\r\ncontent-length: 90\r\n\r\n{"
LARGE_BODY = b"POST /v1/leases HTTP/1.1\r\nhost: here\r\ncontent-length: 100000\r\n\r\n" + b" " * 20_000
missed = []


def say(text, holds=True):
    """Prints a line, and notes where it misses its target."""
    print(text + ("" if holds else "   MISSED"), flush=True)
    if not holds:
        missed.append(text)


def quantiles(name, waits, median_ms=1.0, worst_ms=50.0):
    """The line of a list of seconds, held against the targets."""
    if not waits:
        say(f"{name}: none answered", False)
        return
    waits = sorted(1000 * it for it in waits)
    at = lambda share: waits[min(len(waits) - 1, int(share * len(waits)))]
    say(f"{name}: {len(waits)} answered, median {at(.5):.2f} ms, p90 {at(.9):.2f}, p99 {at(.99):.2f}, worst {waits[-1]:.2f}",
        at(.5) < median_ms and waits[-1] < worst_ms)


def ask_once(port, timeout=60.0):
    """What a newcomer waits for its answer, its connect included, or None where it got none."""
    begun = time.monotonic()
    try:
        with socket.create_connection(("127.0.0.1", port), timeout) as it:
            it.settimeout(timeout)
            it.sendall(PAGE)
            if not it.recv(4_096):
                return None
    except OSError:
        return None
    return time.monotonic() - begun


async def idle(port):
    """A connection that says nothing. It comes again where it is closed."""
    while True:
        try:
            reader, writer = await asyncio.open_connection("127.0.0.1", port)
            await reader.read(1)
            writer.close()
        except OSError:
            pass
        await asyncio.sleep(0.05)


async def slow(port, first, pause):
    """A connection that sends the front of a request, and then a byte now and then. It comes again where it is closed."""
    while True:
        try:
            reader, writer = await asyncio.open_connection("127.0.0.1", port)
            writer.write(first)
            while not reader.at_eof():
                await asyncio.sleep(pause)
                writer.write(b"a")
                await writer.drain()
        except OSError:
            pass
        await asyncio.sleep(0.05)


async def refused(port):
    """A connection whose request is malformed, and that stays for a while when it was answered. It comes again."""
    while True:
        try:
            reader, writer = await asyncio.open_connection("127.0.0.1", port)
            writer.write(b"no request\r\n\r\n")
            while await reader.read(4_096):
                pass
            await asyncio.sleep(2)
            writer.close()
        except OSError:
            await asyncio.sleep(0.05)


async def talkative(port):
    """A connection that goes on sending behind its last request. It comes again."""
    while True:
        try:
            _, writer = await asyncio.open_connection("127.0.0.1", port)
            writer.get_extra_info("socket").setsockopt(socket.IPPROTO_TCP, socket.TCP_NODELAY, 1)
            writer.write(LAST_PAGE)
            until = time.monotonic() + 2
            while time.monotonic() < until and not writer.is_closing():
                writer.write(b"x")
                await asyncio.sleep(0.0005)
            writer.close()
        except OSError:
            await asyncio.sleep(0.05)


def many_of(peer, port, count):
    """A process of so many peers of one kind."""
    async def run():
        await asyncio.gather(*[peer(port) for _ in range(count)])

    asyncio.run(run())


def crowd(port, idles, slows):
    """A process of connections that hold nothing but themselves."""
    async def run():
        asks = [idle(port) for _ in range(idles)]
        for number in range(slows):
            asks.append(slow(port, HALF_HEAD if number % 2 else SMALL_BODY, 5.0))
        await asyncio.gather(*asks)

    asyncio.run(run())


async def kept(port, number, count, until, waits):
    """A client that keeps its connection and asks once a second."""
    await asyncio.sleep(number / count)
    reader, writer = await asyncio.open_connection("127.0.0.1", port)
    while time.monotonic() < until:
        begun = time.monotonic()
        try:
            writer.write(PAGE)
            if not await asyncio.wait_for(reader.read(4_096), 60):
                raise OSError("closed")
            waits.append(time.monotonic() - begun)
        except (OSError, asyncio.TimeoutError):
            waits.append(60.0)
            writer.close()
            reader, writer = await asyncio.open_connection("127.0.0.1", port)
        await asyncio.sleep(max(0.0, 1 - (time.monotonic() - begun)))


def keepers(port, count, seconds, told):
    """A process of clients that keep their connections; puts what they waited."""
    waits = []

    async def run():
        until = time.monotonic() + seconds
        await asyncio.gather(*[kept(port, number, count, until, waits) for number in range(count)])

    asyncio.run(run())
    told.put(waits)


def started(work, *args):
    """A process of this work that ends with this one."""
    process = multiprocessing.Process(target=work, args=args, daemon=True)
    process.start()
    return process


def newcomers(name, port, count, pause, **targets):
    """Connects so often, one after the other."""
    waits = []
    for _ in range(count):
        wait = ask_once(port)
        waits.append(60.0 if wait is None else wait)
        time.sleep(pause)
    quantiles(name, waits, **targets)


def waits_part(farm):
    others = started(crowd, farm.port, 500, 500)
    time.sleep(3)
    told = multiprocessing.Queue()
    asking = started(keepers, farm.port, 100, 28.0, told)
    time.sleep(3)
    newcomers("newcomers beside 500 idle, 500 slow, 100 kept", farm.port, 300, 0.05)
    quantiles("kept ones", told.get())
    asking.join()
    others.kill()


def bodies_part(farm):
    def trickle():
        with socket.create_connection(("127.0.0.1", farm.port)) as it:
            try:
                it.sendall(LARGE_BODY)
                for _ in range(20):
                    time.sleep(5)
                    it.sendall(b" ")
            except OSError:
                pass

    for _ in range(HANDLERS):
        threading.Thread(target=trickle, daemon=True).start()
    time.sleep(1)
    wait = ask_once(farm.port)
    say(f"a newcomer beside {HANDLERS} slow bodies of over 16 KiB: " + ("no answer" if wait is None else f"{wait:.1f} s"),
        wait is not None and wait < 31)


def many_part(farm):
    room = resource.getrlimit(resource.RLIMIT_NOFILE)[0]
    count = min(10_000, room - 200)
    others = started(crowd, farm.port, count, 0)
    until = time.monotonic() + 60
    held = 0
    while time.monotonic() < until and held < 0.99 * count:
        time.sleep(0.5)
        held = len(os.listdir(f"/proc/{farm.process.pid}/fd")) - 8
    say(f"{held:,} of {count:,} connections wait", held >= 0.99 * count)
    newcomers("newcomers beside them", farm.port, 100, 0.02)
    say(f"resident memory {farm.memory():,} KiB")
    others.kill()


def together_part(farm):
    count = min(9_900, resource.getrlimit(resource.RLIMIT_NOFILE)[0] - 200)
    begun = time.monotonic()
    there = [socket.create_connection(("127.0.0.1", farm.port)) for _ in range(count)]
    said = f"newcomers while {count:,} are closed that were opened together in {time.monotonic() - begun:.1f} s"
    time.sleep(max(0.0, begun + 73 - time.monotonic()))
    newcomers(said, farm.port, 400, 0.02)
    ended = sum(closes_within(it, 1) is not None for it in there[-100:])
    say(f"of the last 100 of them {ended} are closed", ended == 100)


def over_part(farm):
    for name, peer, count in (("300 that stay after a 400", refused, 300), ("16 that go on sending", talkative, 16)):
        others = started(many_of, peer, farm.port, count)
        time.sleep(2)
        newcomers(f"newcomers beside {name}", farm.port, 300, 0.02)
        others.kill()
        time.sleep(1)


def closes_within(it, seconds):
    """When a connection is closed, in seconds from now, or None."""
    begun = time.monotonic()
    it.settimeout(seconds)
    try:
        while it.recv(65_536):
            pass
    except TimeoutError:
        return None
    except OSError:
        pass
    return time.monotonic() - begun


def links_part(farm):
    farm.kill()
    farm.start(links=3)  # The connect of `start` uses one.
    there = [socket.create_connection(("127.0.0.1", farm.port)) for _ in range(4)]
    time.sleep(0.2)
    for it in there[:2]:
        it.sendall(PAGE)
        assert it.recv(4_096).startswith(b"HTTP/1.1 200")
    waits = [closes_within(it, 10) for it in there[2:]]
    say(f"those who wait are closed after {waits} s", all(it is not None and it < 0.5 for it in waits))
    refused = ask_once(farm.port) is None
    say(f"the listener is closed: {refused}", refused)
    there[1].sendall(PAGE)
    asked = there[1].recv(4_096).startswith(b"HTTP/1.1 200")
    ends = [closes_within(it, 10) for it in there[:2]]
    said = farm.process.stdout.read()
    status = farm.process.wait(10)
    say(f"one that is served still gets an answer: {asked}; both end after {ends} s of silence; status {status}",
        status == 0 and said.startswith(b"{") and all(it is not None and it < 1.5 for it in ends))


def descriptors_part(farm):
    farm.kill()
    hard = resource.getrlimit(resource.RLIMIT_NOFILE)[1]
    before = resource.getrlimit(resource.RLIMIT_NOFILE)
    resource.setrlimit(resource.RLIMIT_NOFILE, (64, hard))
    try:
        farm.start(links=22)  # The connect of `start`, 20 newcomers, and one more.
    finally:
        resource.setrlimit(resource.RLIMIT_NOFILE, before)
    others = started(crowd, farm.port, 300, 0)
    time.sleep(3)
    newcomers("newcomers where 300 idle ones want 64 descriptors", farm.port, 20, 0.1, median_ms=2_000, worst_ms=5_000)
    say("no link was used up by that", farm.process.poll() is None and ask_once(farm.port) is not None)
    others.kill()


def deadlines_part(farm):
    assert farm.post("/v1/searches", opening(1, 20))[0] == 200
    rows = [
        ("nothing sent", b"", 0, 75), ("half a head", HALF_HEAD, 0, 30), ("half a small body", SMALL_BODY, 0, 30),
        ("half a large body", LARGE_BODY, 0, 30), ("one request", PAGE, 0, 75), ("a head at a byte a second", HALF_HEAD, 1, 30),
        ("one and a half requests", PAGE + HALF_HEAD, 1, 30),
    ]
    threads = [threading.Thread(target=closed_after, args=(farm.port, *row)) for row in rows]
    threads.append(threading.Thread(target=never_reads, args=(farm.port,)))
    for it in threads:
        it.start()
    for it in threads:
        it.join()


def closed_after(port, name, first, pause, target):
    """When a connection is closed that sends this, and then a byte after each pause, counted from its last answer."""
    with socket.create_connection(("127.0.0.1", port)) as it:
        begun = time.monotonic()
        it.sendall(first)
        it.settimeout(pause or 200)
        while True:
            try:
                if not it.recv(4_096):
                    break
                begun = time.monotonic()
            except TimeoutError:
                try:
                    it.sendall(b"a")
                except OSError:
                    break
            except OSError:
                break
        took = time.monotonic() - begun
        say(f"{name}: closed after {took:.1f} s", target - 1 < took < target + 3)


def never_reads(port):
    """When a client is given up that sends request after request and takes no answer."""
    with socket.create_connection(("127.0.0.1", port)) as it:
        it.settimeout(120)
        begun = time.monotonic()
        try:
            while True:
                it.sendall(PAGE * 200)
        except OSError as fault:
            took = time.monotonic() - begun
            say(f"answers never taken: given up after {took:.1f} s ({type(fault).__name__})", took < 34)


def young_part(farm):
    farm.kill()
    library, hang = os.path.join(farm.folder, "hanging_sync.so"), os.path.join(farm.folder, "hang")
    source = os.path.join(os.path.dirname(os.path.abspath(__file__)), "hanging_sync.c")
    subprocess.run(["cc", "-O2", "-fPIC", "-shared", "-o", library, source, "-ldl"], check=True)
    os.environ.update(LD_PRELOAD=library, HANG=hang)
    farm.start()
    del os.environ["LD_PRELOAD"], os.environ["HANG"]
    open(hang, "wb").close()
    answers = []
    first = threading.Thread(target=lambda: answers.append(farm.ask("POST", "/v1/searches", opening(1), farm.connection(90))[0]))
    first.start()
    time.sleep(0.3)
    waits = [ask_once(farm.port, 10.0) for _ in range(100)]
    held = not answers
    os.remove(hang)
    first.join()
    quantiles("newcomers who ask for totals while the first sync hangs", [it for it in waits if it is not None])
    say(f"of 100 were answered {sum(it is not None for it in waits)}; the entry waited for its sync: {held}; then {answers}",
        None not in waits and held and answers == [200])


PARTS = {"waits": waits_part, "bodies": bodies_part, "many": many_part, "together": together_part,
         "over": over_part, "links": links_part, "descriptors": descriptors_part,
         "deadlines": deadlines_part, "young": young_part}


def main():
    names = sys.argv[1:] or list(PARTS)
    soft, hard = resource.getrlimit(resource.RLIMIT_NOFILE)
    resource.setrlimit(resource.RLIMIT_NOFILE, (hard, hard))
    for name in names:
        farm = Farm(handlers=HANDLERS)
        try:
            farm.start()
            PARTS[name](farm)
        finally:
            farm.close()
    sys.exit(1 if missed else 0)


if __name__ == "__main__":
    main()
