#!/usr/bin/env python3
"""What the program does where the file of its journal fails it: a line for each case, and status 1 where one went wrong.

    bench/file_faults.py [CASE ..]      all cases

Run it after `./finder build`. Looked at are

- syncs: syncs fail under the service, the system drops what they should have stored, and the power is cut: everything that was
  answered 200 has to be stored (dropping_cache.c, built here by `cc` and loaded before the program, plays the system);
- restart: the same where the service is killed after a sync that failed, and goes on from what its system still reads;
- lost: the journal is removed, renamed, replaced, or cut while it is served: 503, and the next start answers by the file it finds;
- readonly: `show`, `rates` and `audit` of a file that can only be read, in a folder that can only be read, and where nothing syncs;
- founding: `found` and `follow` leave a file alone whose first byte is 0 and that is longer than what a founding leaves.
"""
import os
import shutil
import subprocess
import sys
import tempfile

from service import PROGRAM, Farm, entries_of, key, opening

HERE = os.path.dirname(os.path.abspath(__file__))
NOBODY = 65534
wrong = []


def say(case, well, what):
    print(f"{case}: {'well' if well else 'WRONG'}: {what}", flush=True)
    if not well:
        wrong.append(case)


class Dropping:
    """A farm over a system that drops what it could not store."""

    def __init__(self, folder):
        self.library = os.path.join(folder, "dropping_cache.so")
        subprocess.run(["cc", "-O2", "-fPIC", "-shared", "-o", self.library, os.path.join(HERE, "dropping_cache.c"), "-ldl"], check=True)
        self.farm = Farm()
        self.stored = os.path.join(self.farm.folder, "stored")
        shutil.copy(self.farm.journal, self.stored)

    def environment(self, fails, **more):
        return {"LD_PRELOAD": self.library, "JOURNAL": "farm.journal", "STORED": self.stored, "FAILS": fails, **more}

    def start(self, fails):
        more = self.environment(fails)
        os.environ.update(more)
        try:
            self.farm.start()
        finally:
            for name in more:
                del os.environ[name]

    def open(self, number, tries=30):
        """Opens a search, and again with the same key while that is answered 503. How often it was; 200 has to come."""
        faults = 0
        while tries:
            status, _ = self.farm.post("/v1/searches", opening(number))
            if status == 200:
                return faults
            assert status == 503, status
            tries, faults = tries - 1, faults + 1
        raise TimeoutError("503 without end")

    def missing(self, numbers):
        """The searches among these that the stored file hasn't."""
        held = [entry["key"] for entry in entries_of(self.stored) if entry["what"] == "open"]
        return [number for number in numbers if number not in held]

    def close(self):
        self.farm.close()


def syncs(folder):
    lost, faults = [], 0
    for fails in [str(number) for number in range(2, 14)] + ["3,4", "3,4,5", "2,3,5,6", "5-9", "2,4,6,8,10,12"]:
        over = Dropping(folder)
        try:
            over.start(fails)
            faults += sum(over.open(number) for number in range(1, 7))
            over.farm.kill()
            lost += [(fails, number) for number in over.missing(range(1, 7))]
        finally:
            over.close()
    say("syncs", not lost and faults > 0, f"{faults} answers 503 in 17 farms of 6 searches; answered 200 and not stored: {lost or 'none'}")


def restart(folder):
    lost, seen = [], 0
    for fails in ("2-", "3-", "4-", "5-"):
        over = Dropping(folder)
        try:
            over.start(fails)
            answered = []
            for number in range(1, 4):
                status, _ = over.farm.post("/v1/searches", opening(number))
                seen += status == 503
                answered += [number] * (status == 200)
            over.farm.kill()
            over.start("")
            answered += [number for number in range(1, 5) if over.farm.post("/v1/searches", opening(number))[0] == 200]
            over.farm.kill()
            lost += [(fails, number) for number in over.missing(answered)]
        finally:
            over.close()
    say("restart", not lost and seen > 0, f"{seen} answers 503, then a kill, in 4 farms; answered 200 and not stored: {lost or 'none'}")


def lost_while_served(name, lose, status_of_next):
    farm = Farm()
    try:
        farm.start()
        first = [farm.post("/v1/searches", opening(number))[0] for number in (1, 2)]
        lose(farm)
        after = [farm.post("/v1/searches", opening(number))[0] for number in (3, 4, 3, 4, 5)]
        totals = farm.get("/v1/totals")[0]
        farm.kill()
        shown = subprocess.run([PROGRAM, "show", farm.journal], capture_output=True)
        say(name, (first, set(after), totals, shown.returncode) == ([200, 200], {503}, 200, status_of_next),
            f"before {first}, after {after}, totals {totals}, then `show` ends with {shown.returncode}")
    finally:
        farm.close()


def lost(_folder):
    def cut(count):
        return lambda farm: os.truncate(farm.journal, os.path.getsize(farm.journal) - count)

    def cut_and_written(farm):
        data = open(farm.journal, "rb").read()
        with open(farm.journal, "wb") as it:
            it.write(data[:39])
        farm.post("/v1/searches", opening(9))
        with open(farm.journal, "r+b") as it:
            it.write(data + bytes(100))

    def replaced(farm):
        shutil.copy(farm.journal, farm.journal + ".new")
        os.replace(farm.journal + ".new", farm.journal)

    def renamed(farm):
        os.rename(farm.journal, farm.journal + ".old")
        shutil.copy(farm.journal + ".old", farm.journal)

    def linked_and_removed(farm):
        os.link(farm.journal, farm.journal + ".snapshot")
        os.remove(farm.journal)

    lost_while_served("removed", lambda farm: os.remove(farm.journal), 7)
    lost_while_served("removed, with another name", linked_and_removed, 7)
    lost_while_served("replaced", replaced, 0)
    lost_while_served("renamed, and a copy in its place", renamed, 0)
    lost_while_served("cut by a byte", cut(1), 6)
    lost_while_served("cut by 200 bytes", cut(200), 6)
    lost_while_served("cut, and written to", cut_and_written, 0)
    lost_while_served("written to", lambda farm: open(farm.journal, "ab").write(b"x"), 0)
    names()


def names():
    """Further names of the file may come and go, and it may be put back where it was."""
    farm = Farm()
    try:
        os.link(farm.journal, farm.journal + ".snapshot")
        farm.start()
        answers = [farm.post("/v1/searches", opening(1))[0]]
        os.remove(farm.journal + ".snapshot")
        answers.append(farm.post("/v1/searches", opening(2))[0])
        os.rename(farm.journal, farm.journal + ".away")
        answers.append(farm.post("/v1/searches", opening(3))[0])
        os.rename(farm.journal + ".away", farm.journal)
        answers.append(farm.post("/v1/searches", opening(3))[0])
        say("names", answers == [200, 200, 503, 200], f"a snapshot goes, then the file is away, then back: {answers}")
    finally:
        farm.close()


def readonly(folder):
    over = Dropping(folder)
    farm = over.farm
    try:
        farm.start()
        farm.post("/v1/searches", opening(1))
        farm.kill()
        beside = [farm.run(*words) for words in (("show", farm.journal), ("rates", farm.journal))]
        os.chmod(farm.journal, 0o444)
        os.chmod(farm.folder, 0o555)
        user = {"user": NOBODY} if os.getuid() == 0 else {}
        for number, word in enumerate(("show", "rates")):
            ended = subprocess.run([PROGRAM, word, farm.journal], capture_output=True, **user)
            say(f"readonly {word}", (ended.returncode, ended.stdout) == (0, beside[number]), f"status {ended.returncode}")
        with open(farm.journal, "rb") as it:
            ended = subprocess.run([PROGRAM, "audit"], stdin=it, capture_output=True, **user)
        say("readonly audit", ended.stdout == b"legal entries 2 searches 1 orders 0\n", f"status {ended.returncode}, {ended.stdout}")
        ended = subprocess.run([PROGRAM, "run", farm.journal], input=b"", capture_output=True, **user)
        say("readonly run", ended.returncode == 5, f"status {ended.returncode}")
        os.chmod(farm.folder, 0o755)
        for kind, status in (("22", 0), ("30", 0), ("5", 5)):
            there = {**os.environ, **over.environment("1-", KIND=kind)}
            ended = subprocess.run([PROGRAM, "show", farm.journal], capture_output=True, env=there)
            say(f"readonly, syncs with error {kind}", ended.returncode == status, f"`show` ends with {ended.returncode}")
        farm.start()
        ended = subprocess.run([PROGRAM, "show", farm.journal], capture_output=True)
        say("show beside a service", (ended.returncode, ended.stderr) == (5, b"the journal could not be used\n"), f"{ended.returncode} {ended.stderr}")
    finally:
        over.close()


def founding(folder):
    path = os.path.join(folder, "video")
    for name, data, statuses in (("a file of 5 MB", bytes(1) + os.urandom(5_000_000), (5, 5, 7, 7)), ("40 bytes", bytes(40), (5, 9, 7, 7))):
        with open(path, "wb") as it:
            it.write(data)
        words = (("found", path, "60000", "10", "east:0"), ("follow", path, "127.0.0.1:1", "1"), ("show", path), ("serve", path, "127.0.0.1:0", "1", "1"))
        ended = tuple(subprocess.run([PROGRAM, *it], capture_output=True).returncode for it in words)
        with open(path, "rb") as it:
            same = it.read() == data
        say(f"founding over {name}", ended == statuses and same, f"found, follow, show, serve end with {ended}, the file is {'the same' if same else 'changed'}")
    with open(path, "wb") as it:
        it.write(bytes(39))
    ended = [subprocess.run([PROGRAM, "found", path, "60000", "10", "east:0"], capture_output=True).returncode for _ in range(2)]
    say("founding over 39 bytes", ended == [0, 8], f"found twice ends with {ended}")


CASES = {"syncs": syncs, "restart": restart, "lost": lost, "readonly": readonly, "founding": founding}


def main():
    with tempfile.TemporaryDirectory() as folder:
        for name in sys.argv[1:] or CASES:
            CASES[name](folder)
    sys.exit(1 if wrong else 0)


if __name__ == "__main__":
    main()
