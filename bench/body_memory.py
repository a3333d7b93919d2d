#!/usr/bin/env python3
"""What memory a service keeps of large bodies once they are answered.

    FINDER=PROGRAM bench/body_memory.py [HANDLERS [ROUNDS]]        16 handlers and 3 rounds, if not said

As many connections as handlers each send a body of 262,144 bytes, the most that one may have, all at once, and stay
open. The bodies are of small JSON values, so that reading one takes the most memory; they are refused. Then the
service's resident memory is read: after each round, and once the connections are closed. This is done as `./finder`
starts the program, which lets the C library give back what is freed, and as the program is started by itself.
"""
import os
import socket
import sys
import threading
import time

from service import Farm

SIZE = 262_144
TUNABLES = "glibc.malloc.trim_threshold=131072"


def body():
    """An object whose one member is an array of small numbers."""
    begin, end = b'{"a":[', b"0]}"
    room = SIZE - len(begin) - len(end)
    return begin + b"1," * (room // 2) + b" " * (room % 2) + end


def ask(link, text):
    """The status of the answer to a lease whose body is this text."""
    link.sendall(b"POST /v1/leases HTTP/1.1\r\nHost: farm\r\nContent-Length: %d\r\n\r\n%s" % (len(text), text))
    answer = b""
    while b"\r\n\r\n" not in answer:
        piece = link.recv(65_536)
        assert piece, answer
        answer += piece
    head, rest = answer.split(b"\r\n\r\n", 1)
    fields = dict(line.lower().split(b":", 1) for line in head.split(b"\r\n")[1:])
    while len(rest) < int(fields[b"content-length"]):
        rest += link.recv(65_536)
    return int(head.split()[1])


def measure(handlers, rounds):
    text = body()
    farm = Farm(handlers=handlers).start()
    try:
        links = [socket.create_connection(("127.0.0.1", farm.port)) for _ in range(handlers)]
        assert {ask(link, b"{}") for link in links} == {400}
        before = farm.memory()
        print(f"  {handlers} connections, each answered once: {before} KiB")
        for turn in range(1, rounds + 1):
            seen = []
            threads = [threading.Thread(target=lambda link=link: seen.append(ask(link, text))) for link in links]
            for thread in threads:
                thread.start()
            for thread in threads:
                thread.join()
            assert seen == [400] * handlers, seen
            time.sleep(0.2)
            now = farm.memory()
            more = (now - before) // handlers
            print(f"  {turn * handlers} bodies: {now} KiB, {more} KiB more a connection", flush=True)
        for link in links:
            link.close()
        time.sleep(0.5)
        print(f"  the connections closed: {farm.memory()} KiB")
    finally:
        farm.close()


def main():
    handlers = int(sys.argv[1]) if len(sys.argv) > 1 else 16
    rounds = int(sys.argv[2]) if len(sys.argv) > 2 else 3
    for said, tunables in (("as ./finder starts it", TUNABLES), ("by itself", "")):
        os.environ["GLIBC_TUNABLES"] = tunables
        print(said + ":")
        measure(handlers, rounds)


if __name__ == "__main__":
    main()
