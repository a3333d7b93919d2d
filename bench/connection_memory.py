#!/usr/bin/env python3
"""Refuses each allocation in turn while a service answers two connections, and looks at what is answered.

    FINDER=PROGRAM bench/connection_memory.py

The connections come one after the other, to a new farm each time, served by one handler: an open, a lease whose interim
answer is asked for, the totals and a report that closes, and on the second one the same again. Whichever allocation finds
no memory, each answer is that of its request, or that of a request before which something went unrecorded, or 507, or
503 where the file lacked it; what is put on a connection that memory ends is a prefix; and the second connection has all
answers as they should be, unless it is the one that lacks memory, or the program has ended. Then its status is 11, or 5 or 9
where the file or the network lacked it.
"""
import collections
import itertools
import os
import re
import socket
import subprocess
import sys
import tempfile
import time

from service import PROGRAM, ROOT, free_port


def post(path, body, fields=""):
    return f"POST {path} HTTP/1.1\r\nHost: farm\r\nContent-Length: {len(body)}\r\n{fields}\r\n{body}"


SUSPECTS = ",".join(f'["{i:040}",1]' for i in range(1, 5))
OPEN = (f'{{"key":"00000000-0000-0000-0000-000000000001","test":"t","base":"{0:040}","suspects":[{SUSPECTS}],'
        '"calm":1,"rate":[1,10],"bar":[9,10],"width":1,"reruns":1}')
SENT = (
    post("/v1/searches", OPEN)
    + post("/v1/leases", '{"key":"00000000-0000-0000-0000-000000000002","worker":"w"}', "Expect: 100-continue\r\n")
    + "GET /v1/totals HTTP/1.1\r\nHost: farm\r\n\r\n"
    + post("/v1/runs/7/report", '{"verdict":"pass"}', "Connection: close\r\n")).encode()
# What may be answered in place of each of the five answers.
NO_MEMORY, ENDS = (b"HTTP/1.1 507 ", b"HTTP/1.1 503 "), (5, 9, 11)
OTHERS = ([], [], [b"HTTP/1.1 409 "], [b"HTTP/1.1 200 "], [])


def talk(process, port):
    """The answers on a connection, moments apart; none where the program ends before it listens."""
    while process.poll() is None:
        try:
            link = socket.create_connection(("127.0.0.1", port), 60)
        except OSError:
            time.sleep(0.001)
            continue
        with link:
            said = b""
            try:
                link.sendall(SENT)
                while piece := link.recv(65536):
                    said += piece
            except OSError:  # the program ended
                pass
        return re.split(rb"(?=HTTP/1\.1 )", re.sub(rb'"deadline":[0-9]{13}', b'"deadline":0', said))[1:]
    return []


def ran(folder, fails):
    """The status, the answers on both connections, and whether memory was refused."""
    journal, told, port = os.path.join(folder, "farm.journal"), os.path.join(folder, "told"), free_port()
    for name in (journal, told):
        if os.path.exists(name):
            os.unlink(name)
    subprocess.run([PROGRAM, "found", journal, "60000", "10", "east:0"], stdout=subprocess.DEVNULL, check=True)
    room = {**os.environ, "LD_PRELOAD": os.path.join(folder, "failing_malloc.so"), "FAILS": str(fails), "TOLD": told}
    words = [PROGRAM, "serve", journal, f"127.0.0.1:{port}", "1", "2"]
    with subprocess.Popen(words, stdout=subprocess.DEVNULL, stderr=subprocess.DEVNULL, env=room) as process:
        answers, others = talk(process, port), talk(process, port)
        status = process.wait(60)
    return status, answers, others, os.path.exists(told)


def is_answer(place, answer, wanted):
    return answer == wanted[place] or answer.startswith((*NO_MEMORY, *OTHERS[place]))


def is_right(answers, wanted):
    """Whether these are answers of a connection on which an allocation was refused; the last may be cut off."""
    if len(answers) > len(wanted):
        return False
    whole = answers if len(answers) == len(wanted) else answers[:-1]
    return all(is_answer(place, answer, wanted) for place, answer in enumerate(whole))


def main():
    with tempfile.TemporaryDirectory() as folder:
        library = os.path.join(folder, "failing_malloc.so")
        subprocess.run(["cc", "-O2", "-shared", "-fPIC", "-o", library, os.path.join(ROOT, "bench", "failing_malloc.c")], check=True)
        status, wanted, others, _ = ran(folder, 0)
        if status != 0 or len(wanted) != 5 or wanted != others:
            sys.exit(f"with memory: status {status}, {wanted!r}, {others!r}")
        seen, wrong = collections.Counter(), 0
        for fails in itertools.count(1):
            status, answers, others, refused = ran(folder, fails)
            if not refused:
                break
            lacks = [it != wanted for it in (answers, others)]
            good = (status in (0, *ENDS) and is_right(answers, wanted) and is_right(others, wanted)
                    and (status in ENDS or not all(lacks)))
            name = ("it ends" if status else "no connection lacks it" if not any(lacks)
                    else f"the {'first' if lacks[0] else 'second'} connection lacks it")
            seen[name] += 1
            if not good:
                wrong += 1
                print(f"allocation {fails}: status {status}, {answers!r}, {others!r}", flush=True)
        for name, number in sorted(seen.items()):
            print(f"{number} allocations: {name}")
        print(f"{fails - 1 - wrong} of {fails - 1} right")
        return 1 if wrong else 0


if __name__ == "__main__":
    sys.exit(main())
