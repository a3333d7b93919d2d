#!/usr/bin/env python3
"""Tests of explain over the real program, which $CULPRIT_FINDER names: farms that are played, journals that are none.

    tools/test PROGRAM test_explain
"""
from __future__ import annotations

import http.server
import json
import os
import random
import re
import struct
import subprocess
import sys
import threading
import time
import unittest
from typing import Any

from case_farm import PROGRAM, TOOLS, Case, Farm, commit, culprit

sys.path.insert(0, TOOLS)
from culprit_evidence import Evidence, judge  # noqa: E402
from culprit_source import found_in_journal, program_of  # noqa: E402

FOUR = "search 1 10 9 10 1 1 1 1 1\n"  # the search line of four suspects


def hidden(farm: Farm, bar: tuple[int, int] = (9, 10)) -> int:
    """A search whose culprit, suspect 2, is hidden, as the tree at position 2 can't be tested."""
    number = farm.open(bar=bar)
    farm.play(lambda lease: "skip" if lease["position"] == 2 else culprit(2)(lease))
    return number


def at_random(farm: Farm, chance: random.Random) -> None:
    """24 searches with runs in any order: late ones, lost ones, skips; some are cancelled."""
    verdicts = ("pass", "fail", "fail", "skip")
    for turn in range(1, 25):
        number = farm.open(chance.randint(1, 9), 20 * turn, calm=chance.randint(1, 5), width=chance.randint(1, 4),
                           miss=chance.choice(([0, 1], [1, 5])), rate=[1, chance.choice((3, 10, 50))])
        out: list[int] = []
        for _ in range(chance.randint(0, 40)):
            lease = farm.lease()
            out += [lease["run"]] if "run" in lease else []
            if out and chance.random() < 0.8:
                farm.report(out.pop(chance.randrange(len(out))), chance.choice(verdicts))
            elif "run" not in lease:
                farm.at += 60_000
        if chance.random() < 0.6:
            farm.ask("cancel", search=number)
        for run in out:
            farm.report(run, chance.choice(verdicts))


def over(farm: Farm) -> int:
    """A search whose ninth run is one more than its numbers have room for."""
    number = farm.open(calm=1_000_000, rate=[1, 1000], bar=[9999, 10_000],
                       suspects=[[commit(i), 65_535] for i in range(1, 1001)])
    runs = []
    for _ in range(9):
        runs.append(farm.lease()["run"])
        farm.at += 60_000
    fates = [farm.report(run, "fail")["fate"] for run in runs]
    assert fates == ["counted"] * 8 + ["over"]
    return number


class Evident(Case):
    """The lines that judge reads."""

    def test_a_named_suspect_and_its_reruns(self) -> None:
        farm = self.found()
        farm.open()
        self.assertEqual(self.explain(1, "--evidence"), FOUR)
        farm.play(lambda lease: culprit(2)(lease) if lease["stage"] == "search" else None)
        lines = FOUR + "run 1 2 fail\nrun 2 1 pass\nrun 3 2 fail\n"
        self.assertEqual(self.explain(1, "--evidence"), lines)
        said = subprocess.run([PROGRAM, "judge"], input=lines.encode(), capture_output=True, check=True).stdout
        self.assertEqual(said, b"budget 33\nrun 1 counted\nrun 2 counted\nrun 3 counted\nshares 0 9708 97 97 97\n"
                               b"standing named 2\n")
        farm.at += 60_000
        farm.play(culprit(2))
        self.assertEqual(farm.ask("revert", agent="me")["order"], 1)
        self.assertEqual(self.explain(1, "--evidence"), lines)
        self.assertIn("the farm has no search 2: its searches are 1 to 1", self.explain(2, "--evidence", status=3))

    def test_what_came_behind_the_end_is_left_out(self) -> None:
        farm = self.found()
        farm.open(1, width=2)
        self.assertEqual([farm.lease()["position"] for _ in range(2)], [1, 1])
        self.assertEqual(farm.report(1, "skip")["standing"], "inconclusive")
        self.assertEqual(farm.report(2, "fail")["fate"], "late")
        self.assertEqual(self.explain(1, "--evidence"), "search 1 10 9 10 1 1\n")
        number = farm.open(width=3)
        runs = [farm.lease() for _ in range(3)]
        self.assertEqual(farm.report(runs[1]["run"], "fail")["fate"], "counted")
        self.assertEqual(farm.ask("cancel", search=number)["standing"], "cancelled")
        self.assertEqual(farm.report(runs[0]["run"], "pass")["fate"], "late")
        self.assertEqual(self.explain(number, "--evidence"), FOUR + f"run 1 {runs[1]['position']} fail\n")

    def test_the_report_that_ends_a_hidden_search_is_evidence(self) -> None:
        farm = self.found()
        self.assertEqual(self.explain(hidden(farm), "--evidence"), FOUR + "run 1 3 fail\nrun 2 1 pass\n")
        farm = Farm(os.path.join(self.folder, "another"))
        self.journal = farm.journal
        hidden(farm, (19, 20))
        farm.close()
        text = self.explain(1, "--evidence")
        self.assertEqual(text, FOUR.replace("9 10 1", "19 20 1", 1) + "run 1 3 fail\nrun 2 1 pass\nrun 3 3 fail\n")
        judged = judge(program_of(PROGRAM), text)
        self.assertEqual((judged.standing, judged.shares), ("searching", [0, 4950, 4950, 49, 49]))

    def test_late_reports_behind_a_name_and_the_miss_rate_are_evidence(self) -> None:
        farm = self.found()
        farm.open(miss=[1, 5])
        self.assertEqual(farm.play(culprit(2))["standing"], "confirmed")
        self.assertTrue(self.explain(1, "--evidence").startswith("miss 1 5\n" + FOUR + "run 1 2 fail\nrun 2 "))
        farm = Farm(os.path.join(self.folder, "another"))
        self.journal = farm.journal
        farm.open(width=3)
        self.assertEqual([farm.lease()["position"] for _ in range(3)], [1, 2, 4])
        self.assertEqual(farm.report(3, "pass")["standing"], "no culprit")
        self.assertEqual(farm.report(1, "fail")["fate"], "late")
        farm.close()
        self.assertEqual(self.explain(1, "--evidence"), FOUR + "run 1 4 pass\nrun 2 1 fail\n")

    def test_judge_gives_the_pages_of_random_farms(self) -> None:
        farm = self.found()
        at_random(farm, random.Random(1))
        program, seen = program_of(PROGRAM), set()
        for page in map(farm.page, range(1, 25)):
            found = found_in_journal(program, self.journal, page["search"])
            judged = Evidence(program, found.search).judged
            self.assertEqual((found.page, judged.shares, judged.budget), (page, page["shares"], page["budget"]))
            over_it = any(run.fate == "over" for run in found.search.runs)
            bar = [place for place, share in enumerate(page["shares"], 1) if share >= 9_000]
            ended = "no culprit" if bar == [len(page["shares"])] else f"named {bar[0]}" if bar else "searching"
            self.assertEqual(judged.standing, "inconclusive" if over_it else ended)
            seen.add(page["standing"])
        self.assertGreaterEqual(seen, {"cancelled", "inconclusive", "no culprit", "vindicated"})

    def test_the_program_writes_the_same_evidence(self) -> None:
        program = program_of(PROGRAM)
        if subprocess.run([program, "evidence", "/none", "1"], capture_output=True, check=False).returncode == 2:
            self.skipTest("the program has no word evidence")
        farm = self.found()
        farm.open(calm=7, miss=[2, 10], rate=[4, 10], bar=[18, 20])
        farm.play(culprit(2))
        hidden(farm)
        farm.at += 60_000
        over(farm)
        at_random(farm, random.Random(2))
        farm.close()
        for number in range(1, 28):
            told = subprocess.run([program, "evidence", self.journal, str(number)], capture_output=True, check=True)
            self.assertEqual(told.stdout.decode(), self.explain(number, "--evidence"))
        told = subprocess.run([program, "evidence", self.journal, "28"], capture_output=True, check=False)
        self.assertEqual((told.returncode, told.stdout), (16, b""))


class Told(Case):
    """Text, JSON and pages."""

    def test_each_standing_begins_with_its_answer(self) -> None:
        farm = self.found()
        cases: list[tuple[int, str]] = []

        def case(number: int, said: str) -> None:
            cases.append((number, said))
            farm.at += 60_000

        case(farm.open(), "")
        farm.play(culprit(2))
        self.assertEqual(farm.ask("revert", agent="me")["search"], 1)
        cases[0] = (1, rf"\A{commit(2)} broke it: 97.08 %, confirmed by 2 reruns, after 3 runs in .* s\.\n"
                       rf"Nobody to blame: 0.97 %\.\n(.*\n)*Its revert is order 1, of me on 20\d\d-")
        farm.open()
        farm.play(lambda lease: "fail" if lease["stage"] == "verify" else culprit(2)(lease))
        case(2, r"\ANo answer, after 3 runs in .*: 0{39}2 reached the bar, with 97.08 %, and a rerun contradicted it")
        farm.open()
        farm.play(lambda _: "pass")
        case(3, r"\ANobody in 0{40}\.\.0{39}4 is to blame: 100 %, after .*\nThe red run was a flake\.\n")
        case(hidden(farm), r"\ANo answer, after 3 runs \(1 skipped\) in .*: it is one of 2 commits, from 0{39}2 to "
                           r"0{39}3: the first one can't be tested, so no run tells which\n +45.45 % +2  0{39}2\n")
        case(over(farm), r"\ANo answer, after 9 runs in .*: the numbers have no room for more runs, and nobody has")
        number = farm.open()
        farm.ask("cancel", search=number)
        case(number, r"\ANo answer: it was cancelled on 20\d\d-\d\d-\d\d \d\d:\d\d:\d\d\n")
        farm.open(10, 50)
        case(7, r"\ANo answer yet\.\n(.*\n)*Search 7 of t, opened on 20.*\(UTC\+01:00\): 10 suspects, ")
        for number, said in cases:
            self.assertRegex(self.explain(number), said)
        farm.ask("cancel", search=7)
        farm.open(1, suspects=[[commit(9), 1000]])
        self.assertRegex(self.explain(8), r"\ANo answer yet: 0{39}9 reached the bar, with 99.90 %, and reruns of it "
                                          r"and of its parent are due\n(.*\n)*Reruns: at the suspect none counted; at")

    def test_each_run_stands_in_the_table_with_the_belief_behind_it(self) -> None:
        farm = self.found()
        farm.open(width=2)
        first, second = farm.lease("<b>bot 1</b>"), farm.lease("bot 2")
        self.assertEqual((first["position"], second["position"]), (2, 3))
        farm.report(second["run"], "fail")
        farm.report(first["run"], "pass")
        farm.lease("bot 3")
        when = r"20\d\d-\d\d-\d\d \d\d:\d\d:\d\d"
        self.assertRegex(self.explain(1), "\n".join((
            rf"\n +2  {when}  bot 2 +3  {commit(3)}  fail +counted  {commit(1)}  31.25 % +3.12 %",
            rf" +1  {when}  <b>bot 1</b> +2  {commit(2)}  pass +counted  {commit(3)}  83.33 % +8.33 %",
            r" +3 +bot 3 +\d  0{39}\d  not reported\n\n")))
        report, page = json.loads(self.explain(1, "--json")), farm.page(1)
        self.assertEqual([run["run"] for run in report["runs"]], [2, 1, 3])
        self.assertEqual(report["runs"][0]["belief"], [3125, 3125, 3125, 312])
        self.assertEqual(report["runs"][1]["leading"], {"position": 3, "short": commit(3), "share": 8333})
        self.assertEqual([report["runs"][2][name] for name in ("reported", "verdict", "fate", "leading")], [None] * 4)
        for name in ("standing", "shares", "counted", "leases", "verified", "budget"):
            self.assertEqual(report[name], page[name])
        self.assertEqual((report["status"], report["shares"]), (None, [0, 0, 8333, 833, 833]))
        self.assertEqual(report["runs"][1]["worker"], "<b>bot 1</b>")

    def test_a_page_has_nothing_of_a_name_as_markup_and_nothing_from_elsewhere(self) -> None:
        farm = self.found()
        farm.open(test="<script>alert('t')</script>\"&", reruns=2)
        farm.play(culprit(2))
        path = os.path.join(self.folder, "page.html")
        self.assertRegex(self.explain(1, "--html", path), "broke it: .* confirmed by 4 reruns")
        with open(path, encoding="utf-8") as file:
            page = file.read()
        self.assertIn("&lt;script&gt;alert(&#x27;t&#x27;)&lt;/script&gt;&quot;&amp;", page)
        self.assertNotRegex(page, r"(?i)<script|<img|<link|src=|href=|url\(|@import")
        self.assertEqual(page.count("<svg"), 1 + 3)
        for tag in ("table", "tr", "td", "h1", "h2", "svg", "code", "p"):
            self.assertEqual(len(re.findall(rf"<{tag}\b", page)), page.count(f"</{tag}>"), tag)
        self.assertIn("No such file", self.explain(1, "--html", os.path.join(self.folder, "no", "x"), status=3))

    def test_a_clone_names_the_commits(self) -> None:
        clone, env = os.path.join(self.folder, "shop"), {**os.environ, "GIT_CONFIG_GLOBAL": os.devnull}
        lines = "".join(f"commit refs/heads/main\nauthor Zo\u00eb <z@x> {1700000000 + i} +0000\ncommitter A <a@x> 1 "
                        f"+0000\ndata <<.\nchange <{i}>\n.\n" for i in range(5))
        subprocess.run(["git", "init", "-q", "-b", "main", clone], env=env, check=True)
        subprocess.run(["git", "fast-import", "--quiet"], cwd=clone, env=env, input=lines.encode(), check=True)
        listed = subprocess.run(["git", "rev-list", "--reverse", "main"], cwd=clone, capture_output=True, check=True)
        ids = listed.stdout.decode().split()
        farm = self.found()
        farm.open(base=0, suspects=[[id, 1] for id in [*ids[1:], commit(77)]], calm=5)
        farm.play(culprit(2))
        farm.close()
        said = self.explain(1, "--repo", clone)
        self.assertRegex(said, rf'\A{ids[2][:7]} "change <2>" \(Zo\u00eb, 14 Nov 2023\) broke it: ')
        report = json.loads(self.explain(1, "--repo", clone, "--json"))
        self.assertEqual([suspect.get("subject") for suspect in report["suspects"]],
                         ["change <1>", "change <2>", "change <3>", "change <4>", None])
        path = os.path.join(self.folder, "page.html")
        self.explain(1, "--repo", clone, "--html", path)
        with open(path, encoding="utf-8") as file:
            self.assertIn("    change &lt;2&gt;", file.read())
        empty = os.path.join(self.folder, "empty")
        subprocess.run(["git", "init", "-q", empty], env=env, check=True)
        self.assertIn("has none of the commits", self.explain(1, "--repo", empty, status=3))
        self.assertIn("not a git repository", self.explain(1, "--repo", self.folder, status=2))


class Foreign(Case):
    """Journals and services that are none, and words that can't be followed."""

    def test_damaged_and_foreign_files_are_refused_and_left_alone(self) -> None:
        farm = self.found()
        farm.open()
        farm.play(culprit(2))
        farm.close()
        with open(self.journal, "rb") as file:
            whole = file.read()
        unknown = struct.pack(">QB", 86_400_000, 99)
        for data, said in (
                (b"", "has not been founded"), (bytes(40), "has not been founded"), (b"Dear diary,\n", "damaged at"),
                (whole[:200], "damaged at byte"), (whole[:-1], f"damaged at byte {len(whole) - 1}"),
                (whole[:16] + b"\7" + whole[17:40] + b"x" + whole[41:], "damaged at byte"),
                (whole[:-1] + b"\1" + struct.pack(">I", len(unknown)) + unknown + b"\0", "damaged at byte")):
            with open(self.journal, "wb") as file:
                file.write(data)
            with self.subTest(said=said, size=len(data)):
                self.assertIn(said, self.explain(1, status=3))
                with open(self.journal, "rb") as file:
                    self.assertEqual(file.read(), data)
        os.unlink(self.journal)
        self.assertIn("No such file", self.explain(1, status=3))
        self.assertIn("Is a directory", self.call("explain", self.folder, "1", status=3))
        self.assertEqual(os.listdir(self.folder), [])

    def test_words(self) -> None:
        for words, said in ((("J",), "name a journal"), (("J", "0"), "no number of a search"), (("J", "x"), "no numbe"),
                            (("J", "4294967296"), "no number"), (("--url", "ftp://x", "1"), "no address"),
                            (("--url", "http://127.0.0.1:1", "J", "1"), "name a journal"),
                            (("J", "1", "--html", "x", "--json"), "not allowed"), ((), "required")):
            with self.subTest(words=words):
                self.assertIn(said, self.call("explain", *words, status=2))
        self.assertIn("exit status:", self.call("explain", "--help"))
        self.assertIn("No such file", self.call("explain", "J", "1", "--finder", "/none", status=3))

    def test_a_service_that_is_away_or_another_one(self) -> None:
        class Other(http.server.BaseHTTPRequestHandler):
            """Answers each path with the next text."""
            texts: list[tuple[int, bytes]] = []

            def do_GET(self) -> None:
                status, body = self.texts.pop(0)
                self.send_response(status)
                self.end_headers()
                self.wfile.write(body)

            def log_message(self, format: str, *args: Any) -> None:
                pass

        server = http.server.HTTPServer(("127.0.0.1", 0), Other)
        url = f"http://127.0.0.1:{server.server_port}"
        thread = threading.Thread(target=server.serve_forever)
        thread.start()
        for answer, said in (
                ((200, b"<html>"), "is it the right address"), ((404, b"{}"), "is it the right address"),
                ((503, b"{}"), "answers with status 503"), ((200, b'{"reply":"farm"}'), "no page of a log"),
                ((200, b'{"entries":"00ff","reply":"log"}'), "there is no entry at byte 0"),
                ((200, b'{"entries":"000000000000000063","reply":"log"}'), "of a kind, 99, that this tool")):
            Other.texts.append(answer)
            with self.subTest(said):
                self.assertIn(said, self.call("explain", "--url", url, "1", status=3))
        server.shutdown()
        thread.join()
        server.server_close()
        self.assertIn("doesn't answer: ", self.call("explain", "--url", url, "1", status=3))


class Served(Case):
    """A service beside its journal, and a farm of 2,000 searches."""

    def test_a_service_and_its_journal_give_the_same(self) -> None:
        farm = self.found()
        for number in range(3):
            farm.open(4, 10 * number)
            farm.play(culprit(2))
        farm.close()
        service = self.serve(self.journal)
        for number in (1, 3):
            reports = [json.loads(self.call("explain", *of, str(number), "--json"))
                       for of in ((self.journal,), ("--url", service.url), ("--url", service.url[len("http://"):]))]
            for report in reports:
                for name in ("origin", "next", "seconds"):
                    del report[name]
            self.assertEqual(reports[0], reports[1])
            self.assertEqual(reports[0], reports[2])
        self.assertIn("no search 4", self.call("explain", "--url", service.url, "4", status=3))

    def test_two_thousand_searches(self) -> None:
        farm = self.found()
        farm.close()
        with open(self.journal, "rb") as file:
            whole = file.read()
        at = whole[21:29]
        records = [whole[:-1]]
        for first in range(1, 2001, 100):
            payload = b"".join(
                at + b"\2" + number.to_bytes(16, "big") + struct.pack(">I", number) + b"\1t" + bytes(20)
                + struct.pack(">IH", 40, 40)
                + b"".join(bytes.fromhex(commit(number * 100 + i)) + b"\0\1" for i in range(1, 41))
                + struct.pack(">HHHHBB", 1, 10, 9, 10, 1, 1) for number in range(first, first + 100))
            records.append(b"\1" + struct.pack(">I", len(payload)) + payload)
        with open(self.journal, "wb") as file:
            file.write(b"".join(records) + b"\0")
        began = time.monotonic()
        self.assertIn("Search 2000 of t, ", self.explain(2000))
        took = time.monotonic() - began
        service = self.serve(self.journal)
        began = time.monotonic()
        self.assertIn("Search 1000 of t, ", self.call("explain", "--url", service.url, "1000"))
        print(f"2,000 searches: {took:.2f} s from the journal, {time.monotonic() - began:.2f} s from the service")


if __name__ == "__main__":
    sys.exit(unittest.main())
