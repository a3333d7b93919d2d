#!/usr/bin/env python3
"""Tests of the program where the system fails it in mid-stream, by a plan: a call on the journal's file, a read of
standard input, a write of standard output, the memory that it asks for, or a connection. What it is then to write, to
end with and to leave in its journal follows from docs/FORMATS.md: from the order in which a journal is written and
synced, by which an entry whose reply was put is in whatever a crash leaves.

    tools/test PROGRAM test_failures
"""
from __future__ import annotations

import contextlib
import errno
import itertools
import json
import os
import socket
import subprocess
import time
import unittest
from typing import Any, Iterator, NamedTuple, Optional, Sequence

import case_farm
from case_farm import PATIENCE, PROGRAM, commit, own_port
from case_faults import Call, Fault, Traced, refused
from case_network import Answer, Peer, http, journal_of, program

FOUNDING = bytes.fromhex("0000000005265c00" "01" "0000ea60" "000a" "02d0")  # 1970-01-02: 60 s, ten orders a day, UTC
FOUNDED = journal_of([FOUNDING])
READ, WRITTEN, DISK, MEMORY = 3, 4, 5, 11
SAID = {0: "", READ: "the input could not be read\n", WRITTEN: "the output could not be written\n",
        DISK: "the journal could not be used\n", 7: "the journal has not been founded\n",
        8: "the journal is already founded\n", MEMORY: "out of memory\n"}
AT = 100_000_000
can_trace = unittest.skipIf(refused(), str(refused()))


def text(**members: object) -> str:
    """A line in the form of a reply."""
    return json.dumps(members, sort_keys=True, separators=(",", ":")) + "\n"


def ask(do: str, key: int = 0, **members: object) -> str:
    """A line of a script."""
    return text(do=do, at=AT, **({"key": f"{key:032x}"} if key else {}), **members)


def opening(key: int, first: int = 1, count: int = 4) -> str:
    """A line that opens a search among so many commits, from one of this number on."""
    return ask("open", key, test="t", base=commit(0), calm=1, rate=[1, 10], bar=[9, 10], width=1, reruns=1,
               suspects=[[commit(it), 1] for it in range(first, first + count)])


class Run(NamedTuple):
    """A run of the search: what is leased, what is reported, and how the search stands then."""
    position: int
    stage: str
    verdict: str
    standing: str


RUNS = (Run(2, "search", "fail", "searching"), Run(1, "search", "pass", "searching"),
        Run(2, "search", "fail", "verifying"), Run(2, "verify", "fail", "verifying"),
        Run(1, "verify", "pass", "confirmed"))


def played() -> Iterator[tuple[str, str]]:
    """The lines of a search that ends in an order, each of them an entry, and its reply."""
    yield opening(1), text(budget=33, reply="open", search=1, standing="searching")
    for number, run in enumerate(RUNS, 1):
        yield ask("lease", 1 + number, worker="w"), text(
            commit=commit(run.position), deadline=AT + 60_000, position=run.position, reply="lease", run=number,
            search=1, stage=run.stage, test="t")
        named = {} if run.standing == "searching" else {"culprit": 2}
        yield ask("report", run=number, verdict=run.verdict), text(
            fate="counted", reply="report", run=number, search=1, standing=run.standing, verdict=run.verdict, **named)
    yield ask("revert", 7, agent="a"), text(commit=commit(2), date="1970-01-02", day=1, order=1, reply="revert",
                                            search=1)


FARM = text(confirmed=1, counted=5, ended=0, entries=13, orders=1, reply="farm", searches=1, searching=0, verifying=0)
LINES, REPLIES = zip(*played(), (ask("farm"), FARM))
SCRIPT = "".join(LINES)


class Case(case_farm.Case):
    """Calls of the program, traced or not, over a journal."""

    def put(self, data: Optional[bytes], path: str = "") -> None:
        """Makes the journal's file of these bytes, or takes it away."""
        path = path or self.journal
        if data is not None:
            with open(path, "wb") as file:
                file.write(data)
        elif os.path.exists(path):
            os.remove(path)

    def data(self) -> bytes:
        """The journal's bytes."""
        with open(self.journal, "rb") as file:
            return file.read()

    def traced(self, words: Sequence[object], plan: Sequence[Fault] = (), given: str = "", **more: Any) -> Traced:
        """A call that has ended, whose calls of the system failed by a plan."""
        ran = Traced([PROGRAM, *map(str, words)], self.journal, plan, given.encode(), **more)
        ran.wait()
        return ran

    def assert_ended(self, ran: Traced, status: int, out: str) -> None:
        """Holds a call to its end, what it said of that, and what it wrote."""
        self.assertEqual((ran.returncode, ran.said, ran.out), (status, SAID[status], out))

    def assert_came(self, status: int, out: str, *words: object, given: str = "", **more: Any) -> None:
        """Holds a call that isn't traced to the same."""
        ended = program(*words, given=given.encode(), **more)
        self.assertEqual((ended.returncode, ended.stderr.decode(), (ended.stdout or b"").decode()),
                         (status, SAID[status], out), words)

    def entries(self, path: str = "") -> int:
        """How many entries the journal has, by its farm's line; 0 where none was founded."""
        ended = program("show", path or self.journal)
        if ended.returncode:
            self.assertEqual((ended.returncode, ended.stderr.decode(), ended.stdout), (7, SAID[7], b""))
            return 0
        return int(json.loads(ended.stdout.splitlines()[0])["entries"])


class Stored(NamedTuple):
    """A call that stores something."""
    words: Sequence[object]
    given: str
    before: Optional[bytes]  # the journal's bytes; none where there is no file
    entries: Sequence[int]  # how many entries the journal has at first, and once each further one of its gates is open
    told: Sequence[str]  # what is written once each of these gates is sure
    again: tuple[int, str]  # what the call comes to over a journal that has it all


def gates_of(data: Optional[bytes]) -> list[int]:
    """The places of a journal's open gates, behind that of the birth byte, which is one as well."""
    if not data or len(data) == 1 or not data[0]:
        return []
    gates = [0, 16]
    while data[gates[-1]]:
        gates.append(gates[-1] + 5 + int.from_bytes(data[gates[-1] + 1:gates[-1] + 5], "big"))
    return gates[:-1]


def faults_at(call: Call) -> list[Fault]:
    """The ways in which a call on the file fails: without a byte, and with the first or all that was to be written."""
    kept: Sequence[Optional[int]] = (None,)
    if call.kind == "write":
        kept = (None, *sorted({1, len(call.data)}))
    elif call.kind == "cut":
        kept = (None, 1)
    error = errno.ENOSPC if call.kind == "write" else errno.EIO
    return [Fault(call.kind, call.number, error, it) for it in kept]


class Disk(Case):
    """Each call on the journal's file fails, with each number of bytes that goes through: the program ends with 5, and
    whatever a crash leaves then has all that was told, and at most the one record more whose gate was being opened. By
    each of these images the same call goes on, and gives the same replies."""

    def setUp(self) -> None:
        super().setUp()
        self.image = os.path.join(self.folder, "image")
        self.known: dict[bytes, int] = {}  # how many entries each image has

    def look(self, image: bytes, call: Stored) -> int:
        """How many entries an image has. It is held to what the call, made again over it, comes to."""
        if image not in self.known:
            self.put(image, self.image)
            entries = self.entries(self.image)
            words = [self.image if it == self.journal else it for it in call.words]
            status, out = call.again if entries == call.entries[-1] else (0, "".join(call.told))
            self.assert_came(status, out, *words, given=call.given)
            self.assertEqual(self.entries(self.image), call.entries[-1])
            self.known[image] = entries
        return self.known[image]

    def hold(self, call: Stored) -> None:
        """Makes a call, and then again with each fault that there may be."""
        self.put(call.before)
        calm = self.traced(call.words, given=call.given)
        self.assert_ended(calm, 0, "".join(call.told))
        self.assertEqual(self.entries(), call.entries[-1])
        spans = self.spans_of(calm.calls, gates_of(self.data())[len(gates_of(call.before)):], len(call.told))
        for place, each in enumerate(calm.calls):
            sure = sum(end < place for _, end in spans)
            opens = sure + any(first <= place <= end for first, end in spans)
            wanted = [call.entries[sure], call.entries[opens]]
            for fault in faults_at(each):
                with self.subTest(str(fault)):
                    self.put(call.before)
                    ran = self.traced(call.words, [fault], call.given)
                    self.assert_ended(ran, DISK, "".join(call.told[:sure]))
                    held = [self.look(it, call) for it in ran.disk.images()]
                    self.assertEqual(held[:4], wanted * 2)
                    self.assertLessEqual(set(held), set(wanted))
                    self.assertIn(self.entries(), wanted)

    def spans_of(self, calls: Sequence[Call], gates: Sequence[int], count: int) -> list[tuple[int, int]]:
        """The calls, by their places, between which each new record is made to count: the write of the byte that opens
        a gate, or of the birth byte, and the sync that makes it sure. Gates behind a birth byte that is still to be
        written open nothing."""
        gates = gates[:1] if gates[:1] == [0] else gates
        self.assertEqual(len(gates), count)
        spans = []
        for gate in gates:
            first = max(place for place, it in enumerate(calls) if (it.kind, it.at, it.data) == ("write", gate, b"\1"))
            syncs = [place for place, it in enumerate(calls) if place > first and it.kind == "sync"]
            self.assertTrue(syncs, f"the gate at {gate} isn't made sure")
            spans.append((first, syncs[0]))
        return spans


@can_trace
class Scripts(Disk):
    """A script, over a journal."""

    def test_each_call_on_the_file_fails(self) -> None:
        told = [*REPLIES[:-2], "".join(REPLIES[-2:])]
        self.hold(Stored(["run", self.journal], SCRIPT, FOUNDED, range(1, 14), told, (0, "".join(told))))

    def test_calls_that_take_a_byte_at_a_time_or_are_interrupted(self) -> None:
        """They are no faults: the replies and the journal are as ever."""
        self.put(FOUNDED)
        self.assert_ended(self.traced(["run", self.journal], given=SCRIPT), 0, "".join(REPLIES))
        whole = self.data()
        for plan in ([Fault(it, 1, 0, 1, lasts=True) for it in ("read", "write")],
                     [Fault(it, number, errno.EINTR) for it in ("read", "write", "take", "put")
                      for number in range(1, 30, 2)]):
            self.put(FOUNDED)
            self.assert_ended(self.traced(["run", self.journal], plan, SCRIPT), 0, "".join(REPLIES))
            self.assertEqual(self.data(), whole)


@can_trace
class Foundings(Disk):
    """Foundings, closings, and the first append to a journal of version 1."""

    def test_a_founding(self) -> None:
        """Over nothing, over a byte that is no journal, and over one whose birth byte was not stored."""
        words = ["found", self.journal, 60_000, 10, "east:0"]
        for before in (None, b"\5", b"\0" + FOUNDED[1:]):
            with self.subTest(before):
                self.hold(Stored(words, "", before, [0, 1], ["founded\n"], (8, "")))

    def test_a_farm_that_follows_another(self) -> None:
        handed = "".join(f"{commit(it)} {day}\n" for it, day in ((2, 1), (3, 2), (4, 2))) + "closed 3\n"
        self.hold(Stored(["inherit", self.journal, 60_000, 10, "east:0"], handed, None, [0, 4], ["founded\n"], (8, "")))

    def test_a_closing(self) -> None:
        self.put(FOUNDED)
        self.assert_came(0, "".join(REPLIES[:-1]), "run", self.journal, given="".join(LINES[:-1]))
        told = f"{commit(2)} 1\nclosed 1\n"
        self.hold(Stored(["close", self.journal], "", self.data(), [13, 14], [told], (0, told)))

    def test_a_first_append_to_a_journal_of_version_1(self) -> None:
        before = FOUNDED[:15] + b"1" + FOUNDED[16:] + b"\xff" * 6
        self.hold(Stored(["close", self.journal], "", before, [1, 2], ["closed 0\n"], (0, "closed 0\n")))


BLANK = text(confirmed=0, counted=0, ended=0, entries=1, orders=0, reply="farm", searches=0, searching=0, verifying=0)
NO_ORDERS = text(orders=[], reply="orders")
PAGES = '{"at":86400000,"do":"farm"}\n{"at":86400000,"do":"orders"}\n{}'  # 28, 30 and 2 bytes
ASKED = "search 1 10 9 10 1 1\nrun 1 1 fail\n"
JUDGED = "budget 34\nrun 1 counted\nshares 9090 909\nstanding named 1\n"


@can_trace
class Inputs(Case):
    """Standard input comes in pieces of a size, and the read of a number fails: 3, and what was whole is answered."""

    def hold(self, words: Sequence[object], given: str, size: int, number: int, out: str) -> None:
        """Holds a call to what it is to write."""
        plan = [*(Fault("take", it, 0, size) for it in range(1, number)), Fault("take", number)]
        self.assert_ended(self.traced(words, plan, given), READ, out)

    def test_where_it_fails(self) -> None:
        for title, word, given, size, number, out in (
                ("a search is answered once its input has ended", "judge", ASKED, 21, 2, ""),
                ("before anything was read", "run", PAGES, 28, 1, ""),
                ("between the first line and the second", "run", PAGES, 28, 2, BLANK),
                ("within the second line", "run", PAGES, 9, 5, BLANK),
                ("in the second line's line feed's place", "run", PAGES, 57, 2, BLANK),
                ("after the second line", "run", PAGES, 58, 2, BLANK + NO_ORDERS),
                ("after a last line without a line feed, which is none yet", "run", PAGES, 60, 2, BLANK + NO_ORDERS),
                ("the first read", "audit", "x", 1, 1, ""),
                ("a journal is audited once its input has ended", "audit", "x", 1, 2, "")):
            with self.subTest(title):
                self.hold([word], given, size, number, out)

    def test_what_was_answered_stands(self) -> None:
        """Over a journal, with each read that fails."""
        size, ends = 150, list(itertools.accumulate(map(len, LINES)))
        for number in range(1, len(SCRIPT) // size + 2):
            with self.subTest(number):
                self.put(FOUNDED)
                whole = sum(end <= size * (number - 1) for end in ends)
                self.hold(["run", self.journal], SCRIPT, size, number, "".join(REPLIES[:whole]))
                self.assertEqual(self.entries(), 1 + whole)
                self.assert_came(0, "".join(REPLIES), "run", self.journal, given=SCRIPT)

    def test_nothing_is_founded_by_half_of_what_is_handed_over(self) -> None:
        handed = f"{commit(2)} 1\nclosed 1\n"
        for number in range(1, 5):
            self.hold(["inherit", self.journal, 60_000, 10, "east:0"], handed, 20, number, "")
            self.assertFalse(os.path.exists(self.journal))


class Outputs(Case):
    """Standard output fails."""

    @can_trace
    def test_it_takes_a_byte_at_a_time_and_stops_at_one(self) -> None:
        """What was written is all that came before, whatever the error: also where memory is said to lack."""
        for word, given, out, number in (
                ("judge", ASKED, JUDGED, 1), ("judge", ASKED, JUDGED, 7), ("judge", ASKED, JUDGED, 10),
                ("run", PAGES, BLANK + NO_ORDERS, 1), ("run", PAGES, BLANK + NO_ORDERS, 12),
                ("run", PAGES, BLANK + NO_ORDERS, 117), ("run", PAGES, BLANK + NO_ORDERS, 130),
                ("audit", "", "unborn\n", 3), ("audit", "", "unborn\n", 7)):
            for error in (errno.EIO, errno.ENOSPC, errno.ENOMEM, errno.EPIPE):
                with self.subTest(f"{word} {number} {errno.errorcode[error]}"):
                    plan = [Fault("put", 1, 0, 1, lasts=True), Fault("put", number, error)]
                    self.assert_ended(self.traced([word], plan, given), WRITTEN, out[:number - 1])

    @can_trace
    def test_an_entry_stands_before_its_reply_is_put(self) -> None:
        """The write of each reply fails, without a byte or behind one: its entry stands, and none behind it."""
        for number, keeps in itertools.product(range(1, 14), (0, 1)):
            with self.subTest(f"{number} {keeps}"):
                self.put(FOUNDED)
                plan = [Fault("put", number, 0, keeps)] if keeps else []
                ran = self.traced(["run", self.journal], [*plan, Fault("put", number + keeps)], SCRIPT)
                self.assert_ended(ran, WRITTEN, "".join(REPLIES[:number - 1]) + REPLIES[number - 1][:keeps])
                self.assertEqual(self.entries(), min(1 + number, 13))
                self.assert_came(0, "".join(REPLIES), "run", self.journal, given=SCRIPT)

    def test_a_full_device_and_a_pipe_that_nobody_reads(self) -> None:
        """Each word that writes; what it was to do is done, and the same asked again says so."""
        handed = f"{commit(2)} 1\nclosed 1\n"
        self.put(FOUNDED)
        self.assert_came(0, "".join(REPLIES), "run", self.journal, given=SCRIPT)
        whole = self.data()
        found, inherit = ["found", self.journal, 60_000, 10, "east:0"], ["inherit", self.journal, 60_000, 10, "east:0"]
        read, pipe = os.pipe()
        os.close(read)
        self.addCleanup(os.close, pipe)
        with open("/dev/full", "wb") as full:
            for out, (words, given, before, entries) in itertools.product((full.fileno(), pipe), (
                    (["judge"], ASKED, None, 0), (["run"], PAGES, None, 0), (["audit"], "", None, 0),
                    (["drill", 1, 1], "", None, 0), (["show", self.journal], "", whole, 13),
                    (["rates", self.journal], "", whole, 13), (["evidence", self.journal, 1], "", whole, 13),
                    (["run", self.journal], SCRIPT, FOUNDED, 2), (["close", self.journal], "", whole, 14),
                    (found, "", None, 1), (inherit, handed, None, 2))):
                with self.subTest(f"{out} {words}"):
                    self.put(before)
                    self.assert_came(WRITTEN, "", *words, given=given, stdout=out)
                    self.assertEqual(self.entries(), entries)
                    if words[0] in ("found", "inherit"):
                        self.assert_came(8, "", *words, given=given)
                    elif words[0] == "close":
                        self.assert_came(0, f"{commit(2)} 1\nclosed 1\n", *words)

    def test_the_line_of_a_service_that_ends(self) -> None:
        """Its connections were served; its line can't be written."""
        self.put(FOUNDED)
        port = own_port()
        with open("/dev/full", "wb") as full:
            process = subprocess.Popen([PROGRAM, "serve", self.journal, f"127.0.0.1:{port}", "1", "1"], stdout=full,
                                       stderr=subprocess.PIPE, text=True)
        self.addCleanup(self.end, process)
        self.assertTrue(said_at(port, GET_FARM).endswith(BLANK.strip().encode()))
        self.assertEqual((process.communicate(timeout=PATIENCE)[1], process.returncode), (SAID[WRITTEN], WRITTEN))


GET_FARM = b"GET /v1/farm HTTP/1.1\r\nHost: farm\r\nConnection: close\r\n\r\n"


def said_at(port: int, asked: bytes) -> bytes:
    """What a service says to a connection, up to its end, once it listens."""
    limit = time.monotonic() + PATIENCE
    while True:
        try:
            link = socket.create_connection(("127.0.0.1", port), PATIENCE)
            break
        except ConnectionRefusedError:
            assert time.monotonic() < limit, "nobody listens"
            time.sleep(0.01)
    said = b""
    with link, contextlib.suppress(ConnectionError):
        link.sendall(asked)
        while more := link.recv(65_536):
            said += more
    return said


TIGHT = {**os.environ, "GLIBC_TUNABLES": "glibc.malloc.top_pad=0"}  # the system is asked for each 4 KiB
SINGLE = {**TIGHT, "GLIBC_TUNABLES": "glibc.malloc.mmap_threshold=64:glibc.malloc.top_pad=0"}  # and for most pieces
GOING = "".join(opening(key, 1 + 100 * key, 90) for key in range(1, 13))  # each leaves some 4 KiB in memory
# 91 * 10^32 * 10^4 is below 2^128, and ten times that is not
OPENED = "".join(text(budget=32, reply="open", search=it, standing="searching") for it in range(1, 13))


class Want(Case):
    """From one time on that the program asks the system for memory it gets none, whichever time this is: the program
    says so, and what it acknowledged stands."""

    def wants(self, words: Sequence[object], given: str, before: Optional[bytes], out: str,
              env: "dict[str, str]") -> Iterator[Traced]:
        """The call with each time from which on there is no memory. One that ends well has done all its work."""
        self.put(before)
        calm = self.traced(words, given=given, env=env)
        self.assert_ended(calm, 0, out)
        self.assertGreater(calm.counts["grow"], 5)
        for number in range(1, calm.counts["grow"] + 1):
            with self.subTest(f"{words[0]} {number}"):
                self.put(before)
                ran = self.traced(words, [Fault("grow", number, errno.ENOMEM, lasts=True)], given, env=env)
                if ran.returncode:
                    self.assertIn((ran.returncode, ran.said), [(it, SAID[it]) for it in (MEMORY, DISK)])
                    self.assertTrue(out.startswith(ran.out))
                else:
                    self.assertEqual((ran.out, ran.said), (out, ""))
                yield ran


@can_trace
class Stores(Want):
    """Calls that store something."""

    def test_a_script_over_a_journal(self) -> None:
        """What was replied to is in the journal, with one entry more at most, and the script goes on from there."""
        for env, script, replies, entries in ((TIGHT, GOING, OPENED, 13), (SINGLE, SCRIPT, "".join(REPLIES), 13)):
            counts = set()
            for ran in self.wants(["run", self.journal], script, FOUNDED, replies, env):
                self.assertNotEqual(ran.returncode, 0)
                count = ran.out.count("\n")
                self.assertEqual(ran.out, "".join(replies.splitlines(True)[:count]))
                self.assertIn(self.entries(), (1 + count, 2 + count))
                self.assert_came(0, replies, "run", self.journal, given=script)
                self.assertEqual(self.entries(), entries)
                counts.add(count)
            self.assertGreater(len(counts), 1)  # it ran out before the first line, and behind others

    def test_what_is_stored_at_once_stands_whole_or_not_at_all(self) -> None:
        """Foundings and closings: where they are made again, they are made, or said to be made."""
        handed = "".join(f"{commit(it)} 1\n" for it in range(1, 301)) + "closed 300\n"
        self.put(FOUNDED)
        self.assert_came(0, "".join(REPLIES[:-1]), "run", self.journal, given="".join(LINES[:-1]))
        ordered = self.data()
        for words, given, before, held, out, again in (
                (["found", self.journal, 60_000, 10, "east:0"], "", None, (0, 1), "founded\n", (8, "")),
                (["inherit", self.journal, 60_000, 10, "east:0"], handed, None, (0, 301), "founded\n", (8, "")),
                (["close", self.journal], "", ordered, (13, 14), f"{commit(2)} 1\nclosed 1\n",
                 (0, f"{commit(2)} 1\nclosed 1\n"))):
            for ran in self.wants(words, given, before, out, TIGHT):
                entries = self.entries()
                self.assertIn(entries, held)
                if not ran.returncode:
                    self.assertEqual(entries, held[1])
                status, told = again if entries == held[1] else (0, out)
                self.assert_came(status, told, *words, given=given)
                self.assertEqual(self.entries(), held[1])

    def test_a_service_answers_that_it_wants_memory_and_goes_on_once_there_is_some(self) -> None:
        """What it refused is done once, when it is asked for again."""
        served = Serving(self, env=TIGHT)
        key = 0
        for number in range(1, 6):
            served.traced.add(Fault("grow", number, errno.ENOMEM, lasts=True))
            while (came := served.opens(key + 1)) == (200, key + 1):
                key += 1
            self.assertEqual(came, (507, '{"refused":"Memory"}'))
            served.traced.mend("grow")
            for _ in range(2):
                self.assertEqual(served.opens(key + 1), (200, key + 1))
            key += 1
        served.end()
        self.assertEqual(self.entries(), 1 + key)


@can_trace
class Reads(Want):
    """Calls that store nothing, or only what another farm says."""

    def test_what_is_read_alone_stays_as_it_is(self) -> None:
        """Pages, rates, evidence, an audit, and what needs no journal."""
        self.put(FOUNDED)
        self.assert_came(0, "".join(REPLIES), "run", self.journal, given=SCRIPT)
        whole = self.data()
        page = text(budget=33, commit=commit(2), counted=3, culprit=2, leases=5, reply="search", search=1,
                    shares=[0, 9708, 97, 97, 97], standing="confirmed", test="t", verified=2)
        evidence = "search 1 10 9 10 1 1 1 1 1\nrun 1 2 fail\nrun 2 1 pass\nrun 3 2 fail\n"
        for words, given, out in ((["show", self.journal], "", FARM + page),
                                  (["rates", self.journal], "", text(fails=0, rate=[1, 4], runs=2, test="t")),
                                  (["evidence", self.journal, 1], "", evidence),
                                  (["judge"], ASKED, JUDGED), (["audit"], "", "unborn\n"),
                                  (["run"], PAGES, BLANK + NO_ORDERS + text(field="at", refused="BadField")),
                                  (["drill", 2, 1], "", "searches 2 confirmed 2 no-culprit 0 other 0 orders 2\n")):
            for ran in self.wants(words, given, whole, out, TIGHT):
                self.assertIn(ran.returncode, (0, MEMORY))
                self.assertEqual(self.data(), whole)

    def test_a_worker_and_a_follower(self) -> None:
        """A page of 300 orders is held whole or not at all, and is then taken."""
        table = os.path.join(self.folder, "table")
        self.put(f"{commit(1)} pass t\n".encode(), table)
        leader = Leader(self, always=True)
        worker = ["work", leader.address, "w", 1, f"table:{table}"]
        for ran in self.wants(worker, "", None, "leased 1 reported 1 limit\n", TIGHT):
            self.assertIn(ran.returncode, (0, MEMORY))
        follower = ["follow", self.journal, leader.address, 1]
        leader.entries += [FOUNDING[:8] + b"\x0a" + bytes.fromhex(commit(it)) + bytes(4) for it in range(300)]
        for _ in self.wants(follower, "", None, "followed 301 entries more\n", TIGHT):
            self.assertIn(self.entries(), (0, 301))
            self.assert_came(0, "followed 301 entries more\n", *follower)
            self.assertEqual(self.data(), journal_of(leader.entries))


class Serving:
    """A service that is traced."""

    def __init__(self, test: Case, **more: Any) -> None:
        test.put(FOUNDED)
        self.port = own_port()
        self.traced = Traced([PROGRAM, "serve", test.journal, f"127.0.0.1:{self.port}", "2", "1000000"], test.journal,
                             **more)
        test.addCleanup(self.end)
        test.assertTrue(said_at(self.port, GET_FARM).endswith(BLANK.strip().encode()))

    def end(self) -> None:
        """Kills it."""
        self.traced.close()

    def opens(self, key: int) -> tuple[int, object]:
        """The status of an answer, and the number of the search that was opened, or the refusal; 0 and nothing where
        the connection ends without an answer."""
        asked = json.loads(opening(key, 1 + 100 * key, 90))
        body = text(**{name: it for name, it in asked.items() if name not in ("at", "do")})
        said = said_at(self.port, f"POST /v1/searches HTTP/1.1\r\nHost: farm\r\nConnection: close\r\n"
                                  f"Content-Length: {len(body)}\r\n\r\n{body}".encode()).decode()
        if not said:
            return 0, ""
        status, told = int(said.split(" ")[1]), said.partition("\r\n\r\n")[2]
        return status, json.loads(told)["search"] if status == 200 else told


class Leader(Peer):
    """A farm that has one run to lease, and answers what it is asked again as before."""

    LEASE = {"commit": commit(1), "deadline": 86_460_000, "position": 1, "reply": "lease", "run": 1, "search": 1,
             "stage": "search", "test": "t"}
    TOLD = {"fate": "counted", "reply": "report", "run": 1, "search": 1, "standing": "searching", "verdict": "pass"}

    def __init__(self, test: unittest.TestCase, always: bool = False) -> None:
        self.always = always  # it has its run to lease again and again
        self.entries = [FOUNDING]
        self.reported: set[bytes] = set()
        super().__init__(test)

    def answer(self, number: int, asked: bytes) -> Answer:
        if not asked.endswith(b"}" if asked.startswith(b"POST") else b"\r\n\r\n"):
            return Answer()  # what was asked was cut off
        if b"/v1/log/1 " in asked:
            return Answer(http(200, {"entries": b"".join(self.entries).hex(), "from": 1, "reply": "log"}))
        if b"/report " in asked:
            self.reported.add(asked)
            return Answer(http(200, self.TOLD))
        ended = self.reported and not self.always
        return Answer(http(409, {"refused": "NoRun"}) if ended else http(200, self.LEASE))


@can_trace
class Links(Case):
    """Connections that give and take little at a time, or fail."""

    def work(self, plan: Sequence[Fault], status: int, out: str, row: int = 1) -> None:
        """Holds a worker, whose table has the row of one commit, to what it comes to."""
        table = os.path.join(self.folder, "table")
        self.put(f"{commit(row)} pass t\n".encode(), table)
        leader = Leader(self)
        ran = self.traced(["work", leader.address, "w", 2, f"table:{table}"], plan)
        leader.end()
        self.assertEqual((ran.returncode, ran.out), (status, out), ran.said)
        self.assertLessEqual(len(leader.reported), 1)

    def follow(self, plan: Sequence[Fault]) -> None:
        """A follower founds its journal by the first page."""
        self.put(None)
        leader = Leader(self)
        ran = self.traced(["follow", self.journal, leader.address, 1], plan)
        self.assert_ended(ran, 0, "followed 1 entries more\n")
        leader.end()
        self.assertEqual(self.data(), FOUNDED)

    def test_a_few_bytes_at_a_time(self) -> None:
        """A worker makes a run and reports it, and then nothing is due; one whose runner has no answer ends with 10."""
        for get, send in ((7, 1_000), (1, 1_000), (1_000, 1), (1, 1)):
            with self.subTest(f"{get} {send}"):
                plan = [Fault("get", 1, 0, get, lasts=True), Fault("send", 1, 0, send, lasts=True)]
                self.work(plan, 0, "leased 1 reported 1 idle\n")
                self.work(plan, 10, "", row=2)
                self.follow(plan)

    def test_one_that_fails_is_made_again(self) -> None:
        """Whichever receive or send it is: the same is asked again, and done once."""
        for kind, number in itertools.product(("get", "send"), (*range(1, 8), *range(10, 60, 7))):
            with self.subTest(f"{kind} {number}"):
                plan = [Fault("get", 1, 0, 7, lasts=True), Fault("send", 1, 0, 40, lasts=True),
                        Fault(kind, number, errno.ECONNRESET)]
                self.work(plan, 0, "leased 1 reported 1 idle\n")
                self.follow(plan)

    def test_a_service_over_bad_links(self) -> None:
        """A byte at a time is as well as all at once. A connection that fails ends alone, and what it asked for may be
        done, and is done once."""
        served = Serving(self)
        for key, (get, send) in enumerate(((1, 1), (7, 1_000), (1_000, 7)), 1):
            served.traced.add(Fault("get", 1, 0, get, lasts=True), Fault("send", 1, 0, send, lasts=True))
            self.assertEqual([served.opens(key), served.opens(key)], [(200, key)] * 2)
        for key, kind, entries in ((4, "get", 4), (5, "send", 6)):
            served.traced.mend("get")
            served.traced.mend("send")
            served.traced.add(Fault(kind, 1, errno.ECONNRESET, lasts=True))
            self.assertEqual(served.opens(key), (0, ""))
            served.traced.mend(kind)
            self.assertIn(b'"entries":%d,' % entries, said_at(served.port, GET_FARM))
            self.assertEqual(served.opens(key), (200, key))
        served.end()
        self.assertEqual(self.entries(), 6)


if __name__ == "__main__":
    unittest.main()
