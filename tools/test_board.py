#!/usr/bin/env python3
"""Tests of the board over the real program, which $CULPRIT_FINDER names, serving journals on loopback. What a browser
makes of its page, bench/board.py tries.

    tools/test PROGRAM test_board
"""
from __future__ import annotations

import http.client
import json
import re
import signal
import socket
import subprocess
import sys
import threading
import time
import unittest
from typing import Optional

from case_board import Front
from case_farm import PATIENCE, PROGRAM, Case, Service, commit, culprit

NAME = "<script>alert(\"t\")</script> & 'u'"


class Shown(Case):
    """Farms on boards."""

    def board(self, url: str, *words: str) -> "subprocess.Popen[str]":
        """The board of a service, at `port`."""
        process = self.begin("board", url, "127.0.0.1:0", *words)
        assert process.stderr
        line = process.stderr.readline()
        found = re.fullmatch(r"finder board: http://127\.0\.0\.1:(\d+)/ shows (.*)\n", line)
        self.assertTrue(found, line)
        assert found
        self.port, self.shows = int(found[1]), found[2]
        return process

    def fronted(self) -> Front:
        """A front before the service of this test's journal."""
        self.service: Service = self.serve(self.journal)
        front = Front(self.service.url)
        self.addCleanup(front.close)
        return front

    def asked(self, path: str, method: str = "GET", host: Optional[str] = None, body: Optional[bytes] = None,
              **fields: str) -> tuple[http.client.HTTPResponse, bytes]:
        """The answer to a request of its own connection."""
        connection = http.client.HTTPConnection("127.0.0.1", self.port, timeout=PATIENCE)
        try:
            names = {name.replace("_", "-"): value for name, value in fields.items()}
            connection.request(method, path, body, {"Host": host or f"127.0.0.1:{self.port}", **names})
            answer = connection.getresponse()
            return answer, answer.read()
        finally:
            connection.close()

    def shown(self, path: str, status: int = 200) -> bytes:
        """The body at a path."""
        answer, body = self.asked(path)
        self.assertEqual(answer.status, status, body[:200])
        return body

    def farm(self) -> None:
        """A farm of three searches: a confirmed one with its order, one that goes on, one that was cancelled."""
        farm = self.found()
        farm.open(test=NAME)
        farm.play(culprit(2))
        farm.ask("revert", agent="<i>me</i>")
        farm.open(4, 20, width=2)
        first, second = farm.lease("<b>bot</b>"), farm.lease()
        farm.report(second["run"], "fail")
        self.assertEqual(first["search"], 2)
        farm.ask("cancel", search=farm.open(4, 40))
        farm.close()

    def test_it_passes_the_pages_on_and_nothing_else(self) -> None:
        self.farm()
        front = self.fronted()
        self.board(front.url)
        self.assertEqual(self.shows, front.url)
        for path in ("/v1/totals", "/v1/farm", "/v1/orders", "/v1/list/1", "/v1/searches/2", "/v1/searches/2/runs/1"):
            answer, body = self.asked(path)
            self.assertEqual((answer.status, answer.headers["Content-Type"]), (200, "application/json"))
            self.assertEqual(body, front.answer(path)[1])
            self.assertEqual(self.asked(path, "HEAD")[0].headers["Content-Length"], str(len(body)))
        page = json.loads(self.shown("/v1/list/1"))
        self.assertEqual([(it["search"], it["standing"], it.get("order")) for it in page["searches"]],
                         [(1, "confirmed", 1), (2, "searching", None), (3, "cancelled", None)])
        self.assertEqual((page["searches"][0]["test"], page["searches"][0]["commit"]), (NAME, commit(2)))
        front.names = {NAME: "käse \u202e日本"}
        time.sleep(1.2)
        self.assertEqual(json.loads(self.shown("/v1/list/1"))["searches"][0]["test"], "käse \u202e日本")
        front.names = {}
        runs = json.loads(self.shown("/v1/searches/2/runs/1"))["runs"]
        self.assertEqual([(it["worker"], it.get("verdict")) for it in runs], [("<b>bot</b>", None), ("w", "fail")])
        self.assertEqual(json.loads(self.shown("/v1/searches/9", 404)), {"refused": "UnknownSearch", "search": 9})
        front.asked.clear()
        for path in ("/v1/log/1", "/v1/leases", "/v1/reverts", "/v1/searches/1/cancel", "/v1/searches/0", "/v1/list/",
                     "/v1/searches/01", "/v1/searches/1/", "/v1/../v1/log/1", "/v1/list/1?x=1", "/v1/list/%31", "/x",
                     "/v1/searches/4294967296", "/evidence/0", "/evidence/4294967296", "http://127.0.0.1/v1/log/1"):
            with self.subTest(path):
                self.shown(path, 404)
        for method in ("POST", "PUT", "PATCH", "DELETE", "OPTIONS"):
            for path in ("/", "/v1/searches/3/cancel", "/v1/leases"):
                answer, _ = self.asked(path, method, body=b'{"worker":"w"}')
                self.assertEqual((answer.status, answer.headers["Allow"]), (405, "GET, HEAD"), (method, path))
        self.assertEqual(self.asked("/v1/totals", body=b"{}")[0].status, 400)
        self.assertEqual(self.asked("/v1/totals", "TRACE")[0].status, 501)
        self.assertEqual(front.asked, [])

    def test_whoever_calls_it_by_another_name_is_not_answered(self) -> None:
        self.farm()
        front = self.fronted()
        self.board(front.url, "--name", "board.example.com")
        port = self.port
        for host in (f"127.0.0.1:{port}", f"localhost:{port}", "board.example.com", f"BOARD.example.com:{port}"):
            self.assertEqual(self.asked("/v1/totals", host=host)[0].status, 200, host)
        front.asked.clear()
        for host in ("evil.example", f"evil.example:{port}", f"127.0.0.1:{port}.evil.example", "127.0.0.1:1",
                     f"127.0.0.1.evil.example:{port}", f"x@127.0.0.1:{port}", " ", "[::1]", "board.example.com:1"):
            for path in ("/", "/v1/orders", "/metrics", "/evidence/1"):
                self.assertEqual(self.asked(path, host=host)[0].status, 421, (host, path))
        for head in (f"Host: 127.0.0.1:{port}\r\nHost: evil.example\r\n", ""):
            with socket.create_connection(("127.0.0.1", port), PATIENCE) as link:
                link.sendall(f"GET /v1/orders HTTP/1.1\r\n{head}\r\n".encode())
                self.assertEqual(link.makefile("rb").readline().split()[1], b"421")
        self.assertEqual(front.asked, [])

    def test_its_page_has_nothing_from_elsewhere_and_its_policy_lets_nothing_else_in(self) -> None:
        self.farm()
        self.board(self.fronted().url)
        answer, body = self.asked("/")
        page, policy = body.decode(), answer.headers["Content-Security-Policy"]
        self.assertNotRegex(page, r"(?i)https?://(?!www\.w3\.org/2000/svg)|\bsrc=|@import|url\(|innerHTML|\bon\w+=")
        self.assertEqual((page.count("<script>"), page.count("<style>"), page.count("<script")), (1, 1, 1))
        self.assertRegex(policy, r"\Adefault-src 'none'; style-src 'sha256-\S+'; script-src 'sha256-\S+'; connect-src ")
        self.assertNotIn("unsafe", policy)
        self.assertEqual(answer.headers["X-Content-Type-Options"], "nosniff")
        tag = answer.headers["ETag"]
        answer, body = self.asked("/", If_None_Match=tag)
        self.assertEqual((answer.status, body), (304, b""))
        for path in ("/v1/list/1", "/evidence/1", "/metrics", "/none"):
            answer, _ = self.asked(path)
            self.assertRegex(answer.headers["Content-Type"], r"\A(application/json|text/plain; .*)\Z")
            self.assertIn("default-src 'none'", answer.headers["Content-Security-Policy"])
            self.assertIsNone(answer.headers["Access-Control-Allow-Origin"])

    def test_the_evidence_is_that_of_explain_and_goes_with_its_search(self) -> None:
        self.farm()
        self.board(self.fronted().url)
        url = self.service.url
        for number in (1, 2, 3):
            text = self.call("explain", "--url", url, str(number), "--evidence")
            self.assertEqual(self.shown(f"/evidence/{number}").decode(), text)
        judged = subprocess.run([PROGRAM, "judge"], input=self.shown("/evidence/1"), capture_output=True, check=True)
        self.assertTrue(judged.stdout.endswith(b"standing named 2\n"), judged.stdout)
        self.service.post("/v1/runs/6/report", verdict="pass")
        text = self.call("explain", "--url", url, "2", "--evidence")
        self.assertEqual(len(text.splitlines()), 3)
        self.assertEqual(self.shown("/evidence/2").decode(), text)
        self.assertIn(b"the farm has no search 4: its searches are 1 to 3", self.shown("/evidence/4", 404))

    def test_prometheus_gets_a_line_of_each_total(self) -> None:
        self.farm()
        front = self.fronted()
        self.board(front.url)
        lines = self.shown("/metrics").decode().splitlines()
        values = dict(line.split() for line in lines if not line.startswith("#"))
        totals = json.loads(self.shown("/v1/totals"))
        del totals["reply"]
        self.assertEqual(values, {"culprits_up": "1", **{f"culprits_{name}": str(totals[name]) for name in totals}})
        for name in values:
            self.assertEqual(lines.count(f"# TYPE {name} gauge"), 1)
        front.fault = 503
        time.sleep(1.2)
        self.assertRegex(self.shown("/metrics").decode(), r"\A# HELP culprits_up .*\n# TYPE .*\nculprits_up 0\n\Z")

    def test_what_the_service_does_wrong_is_said_and_then_forgotten(self) -> None:
        self.farm()
        front = self.fronted()
        self.board(front.url)
        for fault in (503, 500, 302, 200):
            front.fault = fault
            body = json.loads(self.shown("/v1/farm", 502))
            self.assertEqual(body, {"away": f"the service answers with status {fault}, and not as it should"})
            time.sleep(1.2)
        front.fault = None
        self.shown("/v1/farm")
        port = self.service.port
        self.service.close()
        time.sleep(1.2)
        said = json.loads(self.shown("/v1/farm", 502))["away"]
        self.assertRegex(said, r"\Athe service doesn't answer: ")
        self.assertIn(b"the service doesn't answer: ", self.shown("/evidence/1", 502))
        self.assertIn(b'<script>\n"use strict"', self.shown("/"))
        self.serve(self.journal, port)
        time.sleep(1.2)
        self.shown("/v1/farm")
        self.assertTrue(self.shown("/evidence/1").startswith(b"search 1 10 9 10 1 1 1 1 1\n"))

    def test_many_browsers_are_one_request_and_a_slow_service_holds_nobody_else_up(self) -> None:
        self.farm()
        front = self.fronted()
        self.board(front.url)
        front.gate.clear()
        answers: list[int] = []
        threads = [threading.Thread(target=lambda: answers.append(self.asked("/v1/orders")[0].status))
                   for _ in range(20)]
        for thread in threads:
            thread.start()
        self.assertIn(b"<title>", self.shown("/"))
        self.assertEqual(answers, [])
        front.gate.set()
        for thread in threads:
            thread.join()
        self.assertEqual(answers, [200] * 20)
        self.assertLess(front.asked.count("/v1/orders"), 10)  # 1, unless browsers come seconds behind the others

    def test_words_and_its_end(self) -> None:
        with socket.socket() as taken:
            taken.bind(("127.0.0.1", 0))
            taken.listen()
            port = taken.getsockname()[1]
            self.assertIn("already in use", self.call("board", "127.0.0.1:1", f"127.0.0.1:{port}", status=3))
        for words, said in ((("ftp://x",), "no address of a service"), (("x", "8090"), "no address, as 127.0.0.1:8090"),
                            (("x", "a:b:1"), "no address"), (("x", "127.0.0.1:65536"), "no address"), ((), "required"),
                            (("x", "0.0.0.0:0"), "each address of this machine"), (("x", "[::]:0"), "each address"),
                            (("x", "--name", "a b"), "--name takes a host")):
            with self.subTest(words):
                self.assertIn(said, self.call("board", *words, status=2))
        self.assertIn("exit status:", self.call("board", "--help"))
        for number in (signal.SIGTERM, signal.SIGINT):
            process = self.board("127.0.0.1:1")
            self.assertRegex(json.loads(self.shown("/v1/totals", 502))["away"], "the service doesn't answer")
            process.send_signal(number)
            self.assertEqual((process.wait(timeout=PATIENCE), process.communicate()), (0, ("", "")))


if __name__ == "__main__":
    sys.exit(unittest.main())
