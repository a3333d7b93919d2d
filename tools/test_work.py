#!/usr/bin/env python3
"""Tests of workers: the program's `work`, beside its service behind a network that loses, repeats, delays and spoils
what is sent, beside a service that answers by a script, and with tables and test hosts.

    tools/test PROGRAM test_work
"""
from __future__ import annotations

import json
import os
import random
import re
import socket
import threading
import time
import unittest
from typing import Any, Callable, Optional, Sequence

from case_farm import PATIENCE, Case, Reply, commit
from case_network import (NOWHERE, Answer, Peer, Proxy, Scripted, Served, Told, came_to, http, line_of, reports_of,
                          request_of, suspects_of)

KEY = "00000000-0000-0000-0000-000000ffff01"
ONE = {"key": KEY, "test": "t", "base": commit(0), "suspects": suspects_of(1, 1_000), "calm": 1, "rate": [1, 10],
       "bar": [9, 10], "width": 1, "reruns": 1}
VERIFIED = {"budget": 31, "commit": commit(1), "counted": 0, "culprit": 1, "leases": 2, "reply": "search", "search": 1,
            "shares": [9990, 9], "standing": "confirmed", "test": "t", "verified": 2}
TWELVE = {**ONE, "key": KEY[:-1] + "2", "suspects": suspects_of(12), "calm": 6, "bar": [99, 100], "width": 4,
          "reruns": 2}
LEASE = {"commit": commit(1), "deadline": 86_400_000, "position": 1, "reply": "lease", "run": 7, "search": 3,
         "stage": "verify", "test": "t"}
TOLD = {"fate": "counted", "reply": "report", "run": 7, "search": 3, "standing": "searching", "verdict": "fail"}
NO_RUN, CLOSED = http(409, {"refused": "NoRun"}), http(409, {"refused": "Closed"})


class WorkCase(Case):
    """Workers, and the tables of their tests."""

    def table(self, *rows: tuple[int, str, str], name: str = "table") -> str:
        """A runner: a table with these rows, of a commit's number, a verdict and a test."""
        return self.table_of("".join(f"{commit(number)} {verdict} {test}\n" for number, verdict, test in rows), name)

    def table_of(self, text: str, name: str = "table") -> str:
        """A runner: a table with this text."""
        path = os.path.join(self.folder, name)
        with open(path, "w", encoding="ascii") as file:
            file.write(text)
        return f"table:{path}"

    def breaks(self, culprit: int, count: int, skipped: int = 1_000) -> str:
        """A runner: tests fail from the commit of this number on, of which the last has the number `count`. From the
        commit `skipped` on trees can't be tested."""
        return self.table(*((it, "skip" if it >= skipped else "fail" if it >= culprit else "pass", "t")
                            for it in range(count + 1)))

    def work(self, peer: Peer, runs: int, runner: str, name: str = "w", **more: Any) -> str:
        """What a worker comes to."""
        return came_to(self, "work", peer.address, name, runs, runner, **more)

    def assert_legal(self, farm: Served, entries: Optional[int] = None) -> list[Told]:
        """Holds the history to be legal, with so many entries, and each run to have one report at most. The reports."""
        history = farm.history()
        if entries is not None:
            self.assertEqual(len(history), entries)
        self.assertRegex(farm.audit(), f"^legal entries {len(history)} ")
        reports = reports_of(history)
        self.assertEqual(len({it.run for it in reports}), len(reports), reports)
        return reports


class Networks(WorkCase):
    """A worker and the service, with a network between them that spoils by a plan (case_network.Proxy)."""

    def begin_farm(self, plan: str = ".", opened: Reply = ONE, lease_ms: int = 60_000) -> tuple[Served, Proxy]:
        """A farm with a search whose one suspect is named at once and has to be verified, if no other is given."""
        farm = Served(self, self.journal, lease_ms)
        reply = farm.ask("/v1/searches", opened)
        self.assertEqual((reply["reply"], reply["budget"]), ("open", 31 if opened is ONE else 33))
        return farm, Proxy(self, farm, plan, lambda: self.end_farm(farm))

    def end_farm(self, farm: Served) -> None:
        """Cancels the first search and closes the farm."""
        self.assertEqual(farm.ask("/v1/searches/1/cancel", {"key": "0" * 32})["standing"], "cancelled")
        self.assertEqual(farm.close(), (0, b"closed 0\n"))

    def test_a_report_whose_answer_is_lost_is_sent_again_and_stands_once(self) -> None:
        farm, network = self.begin_farm(".a.......")
        self.assertEqual(self.work(network, 5, self.breaks(1, 1)), "leased 2 reported 2 idle")
        self.assertEqual(self.assert_legal(farm, 6), [Told(1, 1, "fail"), Told(2, 0, "pass")])
        self.assertEqual(farm.ask("/v1/searches/1"), VERIFIED)

    def test_what_is_lost_three_times_ends_the_worker_by_what_lost_the_last_try(self) -> None:
        farm, network = self.begin_farm()
        runner = self.breaks(1, 1)
        for plan, wanted in (("rrr", "the service answered 0"), ("xxx", "the network failed"),
                             ("rrx", "the network failed"), ("xxr", "the service answered 0"),
                             ("555", "the service answered 507"), ("xr5", "the service answered 507"),
                             ("533", "the service answered 503"), ("rgg", "the service answered 0"),
                             ("r4", "the service answered 404"), ("4", "the service answered 404")):
            with self.subTest(plan):
                network.follow(plan)
                self.assertEqual(self.work(network, 5, runner), wanted)
                self.assertEqual(network.made, len(plan))
        self.assert_legal(farm, 2)
        network.follow("rxf")
        self.assertEqual(self.work(network, 5, runner), "the network failed")
        self.assert_legal(farm, 3)

    def test_a_report_that_is_lost_three_times_ends_the_worker_too(self) -> None:
        farm, network = self.begin_farm(".raf")
        self.assertEqual(self.work(network, 5, self.breaks(1, 1)), "the network failed")
        self.assertEqual(self.assert_legal(farm, 4), [Told(1, 1, "fail")])

    def test_a_request_that_is_lost_twice_is_sent_as_it_was(self) -> None:
        farm, network = self.begin_farm("rx.rr.")
        runner = self.breaks(1, 1)
        self.assertEqual(self.work(network, 1, runner), "leased 1 reported 1 limit")
        self.assert_legal(farm, 4)
        network.follow("aa.tt.")
        self.assertEqual(self.work(network, 1, runner), "leased 1 reported 1 limit")
        self.assert_legal(farm, 6)
        network.follow(".")
        self.assertEqual(self.work(network, 1, runner), "leased 0 reported 0 idle")
        self.assertEqual(farm.ask("/v1/searches/1"), VERIFIED)
        asks, counts = network.heard, [2, 3, 3, 1, 1]  # one of the first three found no connection
        for count in counts:
            self.assertEqual(len(set(asks[:count])), 1)
            self.assertNotIn(asks[0], asks[count:])
            asks = asks[count:]
        self.assertEqual(asks, [])

    def test_answers_that_are_cut_slow_or_behind_an_interim_one(self) -> None:
        farm, network = self.begin_farm("hHsiHh.s")
        self.assertEqual(self.work(network, 5, self.breaks(1, 1)), "leased 2 reported 2 idle")
        self.assert_legal(farm, 6)
        self.assertEqual(farm.ask("/v1/searches/1"), VERIFIED)
        for plan, wanted in (("hhH", "the network failed"), ("HHh", "the service answered 0")):
            network.follow(plan)
            self.assertEqual(self.work(network, 5, self.breaks(1, 1)), wanted)

    def test_a_service_that_is_killed_once_it_took_a_request_goes_on_from_there(self) -> None:
        farm, network = self.begin_farm("k.k.")
        self.assertEqual(self.work(network, 5, self.breaks(1, 1)), "leased 2 reported 2 idle")
        self.assert_legal(farm, 6)
        self.assertEqual(farm.ask("/v1/searches/1"), VERIFIED)

    def test_a_runner_that_fails_ends_the_worker_and_leaves_its_run_out(self) -> None:
        farm, network = self.begin_farm()
        self.assertEqual(self.work(network, 1, self.table((2, "fail", "t"))), "the runner failed")
        self.assertEqual(self.assert_legal(farm, 3), [])

    def test_a_tree_that_cannot_be_tested_is_skipped_once(self) -> None:
        farm, network = self.begin_farm(".a....")
        self.assertEqual(self.work(network, 5, self.breaks(1, 1, skipped=1)), "leased 1 reported 1 idle")
        self.assertEqual(self.assert_legal(farm, 4), [Told(1, 1, "skip")])
        wanted: Reply = {**VERIFIED, "leases": 1, "standing": "inconclusive", "untestable": [1], "verified": 0}
        del wanted["commit"], wanted["culprit"]
        self.assertEqual(farm.ask("/v1/searches/1"), wanted)

    def soak(self, farm: Served, network: Proxy, names: Sequence[str], runs: int, runner: str) -> None:
        """Workers take turns until in one round none has a run to make, and the search is confirmed."""
        limit = time.monotonic() + 5 * PATIENCE
        while True:
            ends = {self.work(network, runs, runner, it) for it in names}
            if ends == {"leased 0 reported 0 idle"} and farm.ask("/v1/searches/1")["standing"] == "confirmed":
                return
            self.assertLess(time.monotonic(), limit, farm.ask("/v1/searches/1"))

    def test_workers_take_turns_over_a_bad_network_until_a_search_is_confirmed(self) -> None:
        farm, network = self.begin_farm("..a.dt.r5.x.f.ad", TWELVE, lease_ms=1_000)
        self.soak(farm, network, ("w1", "w2", "w3"), 2, self.breaks(7, 12))
        for it in self.assert_legal(farm):
            self.assertEqual(it.verdict, "fail" if it.position >= 7 else "pass")
        reply = farm.ask("/v1/reverts", {"key": KEY[:-1] + "9", "agent": "a"})
        self.assertEqual([reply[it] for it in ("commit", "order", "search")], [commit(7), 1, 1])

    def test_no_random_plan_gives_a_run_a_second_report_or_another_verdict(self) -> None:
        farm, network = self.begin_farm(".", TWELVE, lease_ms=1_000)
        dice = random.Random(1)
        network.follow("".join(dice.choice("....afdtrx53ghHsi") for _ in range(97)))
        self.soak(farm, network, ("w1", "w2"), 3, self.breaks(4, 12, skipped=9))
        for it in self.assert_legal(farm):
            self.assertEqual(it.verdict, "skip" if it.position >= 9 else "fail" if it.position >= 4 else "pass")
        sent: dict[bytes, set[bytes]] = {}
        for asked in network.heard:
            if b"/report " in asked:
                sent.setdefault(asked.split(b" ")[1], set()).add(asked)
        self.assertEqual({len(it) for it in sent.values()}, {1})
        self.assertEqual(farm.ask("/v1/searches/1")["commit"], commit(4))

    def test_a_farm_at_work_is_not_closed_and_a_closed_one_has_no_run(self) -> None:
        farm, network = self.begin_farm()
        runner = self.breaks(1, 1)
        self.assertEqual(farm.close(), (17, b""))
        self.assertEqual(self.work(network, 5, runner), "leased 2 reported 2 idle")
        self.assertEqual(farm.close(), (17, b""))
        order = farm.ask("/v1/reverts", {"key": KEY[:-1] + "9", "agent": "a"})
        self.assertEqual((order["commit"], order["order"], order["search"]), (commit(1), 1, 1))
        closed = (0, f"{commit(1)} {order['day']}\nclosed 1\n".encode())
        self.assertEqual(farm.close(), closed)
        self.assertEqual(self.work(network, 5, runner), "leased 0 reported 0 idle")
        self.assertEqual(farm.ask("/v1/leases", {"key": KEY[:-1] + "a", "worker": "w"}), {"refused": "Closed"})
        self.assertEqual(farm.close(), closed)
        self.assert_legal(farm, 8)

    def test_a_farm_that_is_closed_before_a_report_ends_its_worker_well(self) -> None:
        farm, network = self.begin_farm(".c")
        self.assertEqual(self.work(network, 5, self.breaks(1, 1)), "leased 1 reported 1 idle")
        self.assertEqual(farm.ask("/v1/runs/1/report", {"verdict": "fail"}), {"refused": "Closed"})
        self.assertEqual(farm.ask("/v1/farm"), {"confirmed": 0, "counted": 0, "ended": 1, "entries": 5, "orders": 0,
                                                "reply": "farm", "searches": 1, "searching": 0, "verifying": 0})
        self.assertEqual(self.assert_legal(farm), [])

    def test_a_farm_that_is_closed_before_a_skip_is_sent_again(self) -> None:
        farm, network = self.begin_farm(".rc")
        self.assertEqual(self.work(network, 1, self.breaks(1, 1, skipped=1)), "leased 1 reported 1 limit")
        self.assert_legal(farm, 5)

    def test_a_farm_that_is_closed_once_it_took_a_report(self) -> None:
        farm, network = self.begin_farm(".ac")
        self.assertEqual(self.work(network, 5, self.breaks(1, 1)), "leased 1 reported 1 idle")
        self.assert_legal(farm, 6)


class Services(WorkCase):
    """A worker and a service that answers by a script."""

    def worked(self, *answers: bytes | Answer, runs: int = 5, runner: str = "") -> tuple[str, Scripted]:
        """What a worker comes to that gets these answers."""
        service = Scripted(self, answers)
        return self.work(service, runs, runner or self.breaks(1, 1)), service

    def test_the_bytes_of_both_requests(self) -> None:
        lease = (r"POST /v1/leases HTTP/1\.1\r\nHost: farm\r\nContent-Length: (\d+)\r\nConnection: close\r\n\r\n"
                 r'(\{"key":"([0-9a-f]{8}(?:-[0-9a-f]{4}){3}-[0-9a-f]{12})","worker":"w"\})')
        report = (r"POST /v1/runs/%s/report HTTP/1\.1\r\nHost: farm\r\nContent-Length: (\d+)\r\n"
                  r'Connection: close\r\n\r\n(\{"verdict":"%s"\})')
        last = {**LEASE, "run": 4_294_967_295, "commit": commit(0)}
        none = {**LEASE, "run": 1, "commit": commit(2)}
        told = http(200, TOLD)
        came, service = self.worked(http(200, LEASE), told, http(200, last), told, http(200, none), told, NO_RUN,
                                    runner=self.breaks(1, 2, skipped=2))
        self.assertEqual(came, "leased 3 reported 3 idle")
        keys, forms = [], (lease, report % (7, "fail"), lease, report % (4_294_967_295, "pass"), lease,
                           report % (1, "skip"), lease)
        self.assertEqual(len(service.heard), len(forms))
        for form, heard in zip(forms, service.heard):
            found = re.fullmatch(form, heard.decode())
            assert found, (form, heard)
            self.assertEqual(int(found[1]), len(found[2]))
            keys += found.groups()[2:]
        self.assertEqual(len(set(keys)), 4, keys)

    def test_what_a_lease_may_be_answered(self) -> None:
        for answer, wanted in ((NO_RUN, "leased 0 reported 0 idle"), (CLOSED, "leased 0 reported 0 idle"),
                               (http(409, {"refused": "Full"}), "the service answered 409"),
                               (http(409, {"refused": 1}), "the service answered 409"),
                               (http(409, "NoRun"), "the service answered 409"),
                               (http(400, {"field": "key", "refused": "BadField"}), "the service answered 400"),
                               (http(403, {"refused": "Foreign"}), "the service answered 403"),
                               (http(500, ""), "the service answered 500"),
                               (http(302, "", head="Location: /\r\n"), "the service answered 302"),
                               (http(204, ""), "the service answered 204"),
                               (http(200, ""), "the service answered 200"),
                               (http(200, "<html></html>"), "the service answered 200"),
                               (http(200, [LEASE]), "the service answered 200"),
                               (http(200, TOLD), "the service answered 200")):
            with self.subTest(answer):
                came, service = self.worked(answer)
                self.assertEqual((came, len(service.heard)), (wanted, 1))

    def test_the_forms_of_a_leases_members(self) -> None:
        for members in ({"run": 0}, {"run": 4_294_967_296}, {"run": -1}, {"run": 7.0}, {"run": "7"}, {"run": None},
                        {"commit": "1" * 39}, {"commit": "1" * 41}, {"commit": "g" * 40}, {"commit": 1},
                        {"test": ""}, {"test": "t" * 201}, {"test": "a\nb"}, {"test": "é"}, {"test": 1}):
            with self.subTest(members):
                came, service = self.worked(http(200, {**LEASE, **members}))
                self.assertEqual((came, len(service.heard)), ("the service answered 200", 1))
        for name in ("run", "commit", "test"):
            with self.subTest(name):
                answer = {it: value for it, value in LEASE.items() if it != name}
                self.assertEqual(self.worked(http(200, answer))[0], "the service answered 200")
        few = {"run": 7, "commit": "ABCDEF" + commit(1)[6:], "test": "~" * 200, "deadline": [{}], "ü": "ü"}
        rows = self.table_of(f"{few['commit']} pass {few['test']}\n")
        self.assertEqual(self.worked(http(200, few), http(200, TOLD), runs=1, runner=rows)[0],
                         "leased 1 reported 1 limit")

    def test_what_a_report_may_be_answered(self) -> None:
        idle = "leased 1 reported 1 idle"
        for answer, wanted in ((http(200, TOLD), idle), (http(200, {}), idle), (CLOSED, idle),
                               (http(409, {"refused": "NoRun"}), "the service answered 409"),
                               (http(409, "Closed"), "the service answered 409"),
                               (http(404, {"refused": "UnknownRun", "run": 7}), "the service answered 404"),
                               (http(400, {"refused": "BadJson"}), "the service answered 400"),
                               (http(413, {"refused": "TooLarge"}), "the service answered 413")):
            with self.subTest(answer):
                came, service = self.worked(http(200, LEASE), answer, NO_RUN)
                self.assertEqual((came, len(service.heard)), (wanted, 3 if wanted == idle else 2))

    def test_a_report_that_is_lost_is_sent_again_with_the_same_verdict(self) -> None:
        for verdict in ("pass", "fail", "skip"):
            with self.subTest(verdict):
                came, service = self.worked(http(200, LEASE), http(503, {"refused": "StoreFault"}),
                                            http(507, {"refused": "Memory"}), http(200, TOLD), NO_RUN,
                                            runner=self.table((1, verdict, "t")))
                self.assertEqual(came, "leased 1 reported 1 idle")
                self.assertEqual(len(set(service.heard[1:4])), 1)
                self.assertTrue(service.heard[1].endswith(b'\r\n\r\n{"verdict":"%s"}' % verdict.encode()))

    def test_what_is_no_whole_response_is_lost(self) -> None:
        filler = "".join(f"F{it}: x\r\n" for it in range(64))
        long = "F: " + "x" * 8_200 + "\r\n"
        for lost in (b"", b"\r\n", b"HTTP/1.1 200 X\r\n", b"HTTP/1.1 200 X\r\n\r\n{}", b"SSH-2.0-OpenSSH_9.6\r\n",
                     b"\x15\x03\x01\x00\x02\x02\x46", b"\0" * 100, http(200, LEASE, more=1),
                     http(200, LEASE, head=filler), http(200, LEASE, head=long), http(200, " " * 262_145),
                     http(200, LEASE).replace(b"Content-Length: ", b"Content-Length: -"),
                     http(200, LEASE, head="Content-Length: 2\r\n"), b"HTTP/1.1 100 Continue\r\n\r\n"):
            with self.subTest(lost[:60]):
                came, service = self.worked(lost, lost, lost)
                self.assertEqual((came, len(service.heard)), ("the service answered 0", 3))
                self.assertEqual(len(set(service.heard)), 1)

    def test_responses_at_their_limits(self) -> None:
        fields = "".join(f"F{it}: x\r\n" for it in range(63))
        bare = http(200, LEASE, head="F: \r\n")
        head = "F: " + "x" * (8_192 - len(bare) + len(json.dumps(LEASE))) + "\r\n"
        body = json.dumps(LEASE) + " " * (262_144 - len(json.dumps(LEASE)))
        interim = b"HTTP/1.1 100 Continue\r\nF: x\r\n\r\n"
        for lease in (http(200, LEASE, head=fields), http(200, LEASE, head=head), http(200, body),
                      interim * 3 + http(200, LEASE), Answer(http(200, LEASE), slow=True), http(200, LEASE) + b"more"):
            with self.subTest(str(lease)[:60]):
                came, service = self.worked(lease, http(200, TOLD), runs=1)
                self.assertEqual((came, len(service.heard)), ("leased 1 reported 1 limit", 2))
        self.assertEqual(len(http(200, LEASE, head=head)) - len(json.dumps(LEASE)), 8_192)

    def test_the_network_at_fault(self) -> None:
        came, service = self.worked(Answer(reset=True), Answer(http(200, LEASE)[:-1], reset=True), Answer(reset=True))
        self.assertEqual((came, len(service.heard)), ("the network failed", 3))
        came, service = self.worked(Answer(reset=True), Answer(http(200, LEASE)), Answer(reset=True), http(200, TOLD),
                                    runs=1)
        self.assertEqual((came, len(service.heard)), ("leased 1 reported 1 limit", 4))
        self.assertEqual(came_to(self, "work", NOWHERE, "w", 1, self.breaks(1, 1)), "the network failed")

    def test_a_service_that_is_started_late_is_found(self) -> None:
        service = Scripted(self, [])
        with socket.socket() as port:
            port.bind(("127.0.0.1", 0))
            service.address = f"127.0.0.1:{port.getsockname()[1]}"
            port.settimeout(PATIENCE)
            came: list[str] = []
            worker = threading.Thread(target=lambda: came.append(self.work(service, 1, self.breaks(1, 1))))
            worker.start()
            time.sleep(0.3)  # a worker that isn't refused in this time finds the service at once
            port.listen()
            link, _ = port.accept()
            with link:
                self.assertIn(b"/v1/leases", request_of(link))
                link.sendall(NO_RUN)
            worker.join(PATIENCE)
        self.assertEqual(came, ["leased 0 reported 0 idle"])

    def test_an_output_that_cannot_be_written(self) -> None:
        with open("/dev/full", "wb") as full:
            service = Scripted(self, [http(200, LEASE), http(200, TOLD), NO_RUN])
            self.assertEqual(self.work(service, 5, self.breaks(1, 1), stdout=full), "the output could not be written")
        self.assertEqual(len(service.heard), 3)


class Tables(WorkCase):
    """Tables of verdicts."""

    def ran(self, text: str, test: str = "t") -> tuple[str, list[bytes]]:
        """What a worker with this table comes to, which is given a run of commit 1, and the bodies of its requests."""
        service = Scripted(self, [http(200, {**LEASE, "test": test}), http(200, TOLD)])
        came = self.work(service, 1, self.table_of(text))
        return came, [it.partition(b"\r\n\r\n")[2] for it in service.heard]

    def test_the_first_row_of_a_commit_and_a_test_decides(self) -> None:
        one = commit(1)
        for text, test, verdict in ((f"{one} pass t\n{one} fail t\n", "t", b"pass"),
                                    (f"{one} fail a b\n{one} pass a\n", "a b", b"fail"),
                                    (f"{commit(2)} pass t\n{one} fail u\n{one} skip t", "t", b"skip")):
            with self.subTest(text):
                came, bodies = self.ran(text, test)
                self.assertEqual(came, "leased 1 reported 1 limit")
                self.assertEqual(bodies[1], b'{"verdict":"%s"}' % verdict)

    def test_no_row_fails_the_runner(self) -> None:
        for text in ("", f"{commit(2)} pass t\n", f"{commit(1)} pass u\n"):
            with self.subTest(text):
                came, bodies = self.ran(text)
                self.assertEqual((came, len(bodies)), ("the runner failed", 1))

    def test_another_line_is_told_before_the_service_is_asked(self) -> None:
        one = commit(1)
        for line in (f"{one[1:]} pass t", f"0{one} pass t", f"{one}  pass t", f"{one} PASS t", f"{one} pass",
                     f"{one} pass ", f"{one} passed t", f"{one} pass {'t' * 201}", f"{one} pass t\r", " ",
                     f"#{one} pass t"):
            with self.subTest(line):
                self.assertEqual(self.ran(f"{one} pass t\n{line}\n"), ("the runner failed", []))

    def test_a_table_that_cannot_be_read_is_told_before_the_service_is_asked(self) -> None:
        for path in (os.path.join(self.folder, "none"), self.folder):
            service = Scripted(self, [])
            self.assertEqual(self.work(service, 1, f"table:{path}"), "the runner failed")
            self.assertEqual(service.heard, [])


class Host(Peer):
    """A test host, which answers a line as it is told. The connections on which nothing was asked are counted."""

    reads = staticmethod(line_of)

    def __init__(self, test: WorkCase, say: Callable[[bytes], Answer], stays: float = 0.0) -> None:
        self.say, self.stays, self.empty, self.left = say, stays, 0, threading.Event()
        super().__init__(test)

    def answer(self, number: int, asked: bytes) -> Answer:
        return self.say(asked)

    def take(self, number: int, link: socket.socket) -> None:
        asked = line_of(link)
        if not asked:
            self.empty += 1
            self.left.set()
            return
        self.heard.append(asked)
        answer = self.answer(number, asked)
        if not self.stays:
            self.put(link, answer)
            return
        link.sendall(answer.data)
        self.assert_gone(link)

    def assert_gone(self, link: socket.socket) -> None:
        """Keeps the connection open until the worker has ended it."""
        link.settimeout(self.stays)
        assert link.recv(1) == b"", "the worker asks twice on a connection"


class Hosts(WorkCase):
    """Runs that a test host makes."""

    def ran(self, data: bytes, stays: float = 0.0, **more: bool) -> tuple[str, Host, Scripted]:
        """What a worker comes to that is given one run, for which the host gives this answer."""
        host = Host(self, lambda _: Answer(data, **more), stays)
        service = Scripted(self, [http(200, LEASE), http(200, TOLD)])
        return self.work(service, 1, f"host:{host.address}"), host, service

    def assert_told(self, verdict: bytes, *given: Any, **more: Any) -> None:
        """Holds a worker to have reported this."""
        came, host, service = self.ran(*given, **more)
        self.assertEqual((came, host.heard), ("leased 1 reported 1 limit", [commit(1).encode() + b" t\n"]))
        self.assertTrue(service.heard[1].endswith(b'{"verdict":"%s"}' % verdict), service.heard)

    def test_what_a_host_says_is_reported(self) -> None:
        for verdict in (b"pass", b"fail", b"skip"):
            for line in (verdict, verdict + b"\n"):
                with self.subTest(line):
                    self.assert_told(verdict, line)
        self.assert_told(b"skip", b"skip\n", slow=True)

    def test_a_line_on_a_connection_that_stays_open_or_fails_is_the_answer(self) -> None:
        self.assert_told(b"pass", b"pass\n", PATIENCE)
        self.assert_told(b"fail", b"fail\n", reset=True)

    def test_anything_else_fails_the_runner(self) -> None:
        for data in (b"", b"\n", b"PASS\n", b" pass\n", b"pass \n", b"pass\r\n", b"pas", b"passed\n", b"pass\n\n",
                     b"pass\nfail\n", b"error\n", b"x" * 1_000, b"\0\n"):
            with self.subTest(data):
                came, host, service = self.ran(data)
                self.assertEqual((came, len(host.heard), len(service.heard)), ("the runner failed", 1, 1))
        for data in (b"", b"pass"):
            with self.subTest(data):
                self.assertEqual(self.ran(data, reset=True)[0], "the runner failed")

    def test_a_host_that_is_not_there_is_told_before_the_service_is_asked(self) -> None:
        service = Scripted(self, [])
        self.assertEqual(self.work(service, 1, f"host:{NOWHERE}"), "the runner failed")
        self.assertEqual(service.heard, [])

    def test_a_host_is_called_before_the_service_and_not_asked_where_nothing_is_due(self) -> None:
        host = Host(self, lambda _: Answer(b"pass\n"))
        service = Scripted(self, [NO_RUN])
        self.assertEqual(self.work(service, 1, f"host:{host.address}"), "leased 0 reported 0 idle")
        self.assertTrue(host.left.wait(PATIENCE), "it wasn't called")  # a connection may wait to be accepted still
        host.end()
        self.assertEqual((host.heard, host.empty), ([], 1))

    def test_each_run_is_made_once_however_often_its_report_is_sent(self) -> None:
        farm = Served(self, self.journal)
        farm.ask("/v1/searches", TWELVE)
        network = Proxy(self, farm, ".a..x.ar.t")
        host = Host(self, lambda asked: Answer(b"fail\n" if int(asked[:40]) >= 7 else b"pass\n"))
        self.assertEqual(self.work(network, 1_000, f"host:{host.address}").split()[-1], "idle")
        reports = self.assert_legal(farm)
        self.assertEqual(host.heard, [f"{commit(it.position)} t\n".encode() for it in reports])
        self.assertEqual(farm.ask("/v1/searches/1")["commit"], commit(7))


if __name__ == "__main__":
    unittest.main()
