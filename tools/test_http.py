#!/usr/bin/env python3
"""Tests of the service over connections: what it answers to bytes, byte for byte, and what it then has recorded.

    CULPRIT_FINDER=PROGRAM python3 tools/test_http.py [CLASS[.TEST]]

The tables of tools/cases_http/requests.txt have a title each, behind `#`, and a row a line: the bytes of a
connection, ` => ` and each answer. In the bytes `\\r`, `\\n` and `\\t` stand for control characters, a part between
bars that begins with a number, as `|63*x|`, for so many times the rest of it; at `\\W` the client waits for a moment
in which nothing may come, and at `\\E` it says that no more is sent. Bytes without a backslash are a method, a target
and a body, of a request of HTTP/1.1 with Host and Content-Length. An answer is a status and the name of a refusal
with what it says of a field or a number, `405` with the methods that are allowed, `200` with the name of a page,
`100`, or `end`, where the connection ends without one. `closes` stands before an answer that closes, and `head`
before one without its body.

What is wanted was worked out by hand from docs/FORMATS.md, and not taken from the program.
"""
from __future__ import annotations

import json
import re
import resource
import shutil
import socket
import subprocess
import threading
import time
import unittest
from typing import Callable

from case_http import (INTERIM, PATIENCE, PROGRAM, TOOLS, Case, Connection, Service, answer, audit, call, new_journal,
                       records, request, spelled)

FOUNDED = "010000ea60000a02d0"  # of a founding, behind its moment: leases of 60 s, 10 orders a day, days of UTC
ORDERS = '{"orders":[],"reply":"orders"}'
GET = "GET {} HTTP/1.1\r\nHost: farm\r\n\r\n"
PROBE = GET.format("/v1/orders").encode()
PROBED = answer(200, ORDERS)
Row = tuple[str, list[str]]


def totals(reply: str, entries: int, searches: int = 0) -> str:
    """The farm's numbers where its searches all go on, and no run counts."""
    return (f'{{"confirmed":0,"counted":0,"ended":0,"entries":{entries},"orders":0,"reply":"{reply}",'
            f'"searches":{searches},"searching":{searches},"verifying":0}}')


PAGES = {"farm": totals("farm", 1), "totals": totals("totals", 1), "orders": ORDERS}


def get(target: str) -> bytes:
    """A GET without a length."""
    return GET.format(target).encode()


def tables() -> dict[str, list[Row]]:
    """The tables of the file, by their titles."""
    found: dict[str, list[Row]] = {}
    for text in (TOOLS / "cases_http" / "requests.txt").read_text("utf-8").split("\n\n")[1:]:
        title, *rows = text.strip("\n").split("\n")
        found[title[2:]] = [(it.split(" => ")[0], it.split(" => ")[1:]) for it in rows]
    return found


def bytes_sent(text: str) -> bytes:
    """The bytes that a row stands for."""
    if "\\" in text:
        return spelled(text)
    method, target, *body = text.split(" ", 2)
    return request(method, spelled(target).decode(), spelled(body[0]).decode() if body else "")


def body_of(text: str, founding: bytes) -> str:
    """The body that a row's answer names."""
    name, _, rest = text.partition(" ")
    if name in PAGES:
        return PAGES[name]
    if name == "list":
        return f'{{"from":{rest},"reply":"list","searches":[]}}'
    if name == "log":
        return f'{{"entries":"{founding.hex() if rest == "1" else ""}","from":{rest},"reply":"log"}}'
    if name == "BadField":
        return f'{{"field":"{rest}","refused":"BadField"}}'
    more = {"UnknownSearch": f',"search":{rest}', "UnknownRun": f',"run":{rest}'}.get(name, "")
    return f'{{"refused":"{name}"{more}}}'


def answer_of(text: str, founding: bytes) -> bytes:
    """The bytes of a row's answer."""
    words = text.split(" ")
    marks = {it for it in words[:2] if it in ("head", "closes")}
    words = words[len(marks):]
    if words[0] in ("100", "end"):
        return INTERIM if words[0] == "100" else b""
    status, rest = int(words[0]), " ".join(words[1:])
    allow = rest if status == 405 else ""
    body = body_of("MethodNotAllowed" if allow else rest, founding)
    return answer(status, body, allow=allow, closes="closes" in marks, withheld="head" in marks)


class Requests(unittest.TestCase):
    """Each row of the tables: alone, with a request right behind it, and in pieces of 1 and 7 bytes. No row adds an
    entry, so one service answers them all."""

    @classmethod
    def setUpClass(cls) -> None:
        journal = new_journal()
        cls.addClassCleanup(shutil.rmtree, journal.parent, ignore_errors=True)
        cls.founding = records(journal)[0]
        cls.service = Service(journal)
        cls.addClassCleanup(cls.service.close)

    def test_00_a_founding_in_bytes(self) -> None:
        self.assertEqual(self.founding[8:].hex(), FOUNDED)

    def send_parts(self, link: Connection, text: str, size: int) -> None:
        """Sends what a row has, in pieces; it waits, and ends, where the row says so."""
        whole, _, ends = text.partition("\\E")
        parts = [spelled(it) for it in whole.split("\\W")] if "\\" in text else [bytes_sent(text)]
        for part in parts[:-1]:
            link.send(part, size)
            self.assertTrue(link.is_quiet(0.03), "an answer came too early")
        link.send(parts[-1], size)
        if "\\E" in text:
            link.end()

    def play(self, row: Row, behind: bytes = b"", size: int = 0) -> None:
        """Plays a row, in pieces where there is a size, with other bytes sent right behind it."""
        text, answers = row
        wanted, closes = b"".join(answer_of(it, self.founding) for it in answers), "closes" in answers[-1]
        with self.subTest(text[:200], behind=behind, size=size), self.service.connect() as link:
            if behind:
                link.send(bytes_sent(text) + behind)
                wanted += b"" if closes else PROBED
            else:
                self.send_parts(link, text, size)
            self.assertEqual(link.take(len(wanted)), wanted)
            if not closes:
                link.end()
            self.assertEqual(link.rest(), b"")

    def play_table(self, rows: list[Row]) -> None:
        """Plays each row of a table."""
        for row in rows:
            self.play(row)
            if not re.search(r"\\[EW]", row[0]):
                self.play(row, PROBE)
            if len(row[0]) < 600 and "*" not in row[0]:
                self.play(row, size=1)
                self.play(row, size=7)
        self.assertEqual(self.service.talk(get("/v1/totals")), answer(200, PAGES["totals"]))


def test_of(rows: list[Row]) -> Callable[[Requests], None]:
    """The test that plays a table."""
    return lambda test: test.play_table(rows)


for place, (title, told) in enumerate(tables().items(), 1):
    setattr(Requests, f"test_{place:02}_{'_'.join(re.findall(r'[a-z0-9]+', title.lower()))}"[:110], test_of(told))

SUSPECTS = ",".join(f'["0000000000000000000000000000{716468000001 + it}",1]' for it in range(4))
OPEN = ('{"key":"00000001-f24a-00f0-f0d5-119b1bff1478","test":"suite/case",'
        f'"base":"0000000000000000000000000000716468000000","suspects":[{SUSPECTS}],'
        '"calm":1,"rate":[1,10],"bar":[9,10],"width":%d,"reruns":1}')
LEASES = [f'{{"key":"00000001-f24a-00f0-f0d5-119b1bff147{it}","worker":"w"}}' for it in range(1, 5)]
OPENED = '{"budget":33,"reply":"open","search":1,"standing":"searching"}'
NOW = 1700000000000  # the moment of what is wanted; moments of the machine have as many digits
AWAITED = request("POST", "/v1/leases", '{"key":"00000000-0000-0000-0000-000000000001","worker":"w"}',
                  "Expect: 100-continue\r\n")
CLOSING = request("POST", "/v1/runs/7/report", '{"verdict":"pass"}', "Connection: close\r\n")
NO_RUN = answer(409, '{"refused":"NoRun"}')
UNKNOWN = answer(404, '{"refused":"UnknownRun","run":7}', closes=True)
def leased(run: int, position: int) -> str:
    """The reply to a lease at `NOW`."""
    return (f'{{"commit":"0000000000000000000000000000{716468000000 + position}","deadline":{NOW + 60000},'
            f'"position":{position},"reply":"lease","run":{run},"search":1,"stage":"search","test":"suite/case"}}')


class Connections(Case):
    """What connections come to, and what is recorded then."""

    def setUp(self) -> None:
        super().setUp()
        self.began = int(time.time() * 1000)

    def at_now(self, told: bytes) -> bytes:
        """What was answered, with `NOW` in place of each moment, which is that of this test."""
        def moved(found: "re.Match[bytes]") -> bytes:
            late = 60000 * (found[1] == b"deadline")
            self.assertTrue(self.began <= int(found[2]) - late <= time.time() * 1000, found[0])
            return b'"%s":%d' % (found[1], NOW + late)
        return re.sub(rb'"(deadline|leased|opened|reported)":([0-9]{13})', moved, told)

    def assert_recorded(self, service: Service, entries: list[int]) -> None:
        """Ends the service, and holds the journal to records of so many entries in all, searches apart."""
        service.close()
        found = records(self.journal)
        self.assertEqual(len(found), len(entries))
        self.assertRegex(audit(self.journal), rf"\Alegal entries {sum(entries)} searches [0-9]+ orders 0\n\Z")

    def play_cuts(self, sent: bytes, answers: list[tuple[int, bytes]]) -> None:
        """Cuts what is sent in two at each place. An answer comes once the bytes up to its place have come, and no
        sooner."""
        service = self.serve()
        whole = b"".join(it for _, it in answers)
        for cut in range(1, len(sent)):
            with self.subTest(cut=cut), service.connect() as link:
                due = b"".join(it for place, it in answers if place <= cut)
                link.send(sent[:cut])
                self.assertEqual(link.take(len(due)), due)
                closed = due == whole
                self.assertTrue(closed or link.is_quiet(0.001), "an answer came too early")
                link.send(sent[cut:])
                self.assertEqual(link.rest(), whole[len(due):])
        self.assert_recorded(service, [1])

    def test_a_lease_that_awaits_100_and_a_report_that_closes_cut_at_each_place(self) -> None:
        sent = AWAITED + CLOSING
        self.assertEqual(len(sent), 245)
        self.play_cuts(sent, [(82, INTERIM), (141, NO_RUN), (245, UNKNOWN)])

    def test_a_lease_with_an_origin_is_refused_at_the_end_of_its_head(self) -> None:
        sent = spelled(r"POST /v1/leases HTTP/1.1\r\nHost: farm\r\norigin:\r\nContent-Length: 9\r\n"
                       r"Expect: 100-continue\r\n\r\n")
        self.assertEqual(len(sent), 90)
        self.play_cuts(sent, [(90, answer(403, '{"refused":"Foreign"}', closes=True))])

    def test_connections_stay_open_between_requests_and_hold_no_handler(self) -> None:
        service = self.serve(1)
        links = [service.connect() for _ in range(20)]
        for pause in (0.0, 0.3):
            for _ in range(2):
                for link in links:
                    link.send(get("/v1/totals"))
                for link in reversed(links):
                    wanted = answer(200, PAGES["totals"])
                    self.assertEqual(link.take(len(wanted)), wanted)
            self.assertTrue(all(it.is_quiet(0) for it in links))
            time.sleep(pause)
        for link in links:
            link.end()
            self.assertEqual(link.rest(), b"")
            link.link.close()

    def test_an_open_is_repeated_on_a_new_connection_and_gets_its_first_reply(self) -> None:
        service = self.serve()
        for _ in range(2):
            self.assertEqual(service.talk(request("POST", "/v1/searches", OPEN % 1)), answer(200, OPENED))
        self.assert_recorded(service, [1, 1])

    def test_an_open_whose_answer_is_lost_stays_recorded(self) -> None:
        service = self.serve()
        with service.connect() as link:
            link.send(request("POST", "/v1/searches", OPEN % 1))
            self.assertFalse(link.is_quiet(120))
            link.drop()
        self.assertEqual(service.talk(request("POST", "/v1/searches", OPEN % 1)), answer(200, OPENED))
        self.assert_recorded(service, [1, 1])

    def test_a_client_that_goes_away_in_mid_request_records_nothing(self) -> None:
        service = self.serve()
        sent = request("POST", "/v1/searches", OPEN % 1)
        padded = request("POST", "/v1/searches", (OPEN % 1) + " " * 30000)
        for part in (sent[:20], sent[:-1], padded[:20000], padded[:-1]):
            with service.connect() as link:
                link.send(part)
                link.is_quiet()
                link.drop()
            self.assertEqual(service.talk(get("/v1/totals")), answer(200, totals("totals", 1)))
        self.assert_recorded(service, [1])

    def test_an_open_and_two_leases_in_one_piece_share_a_record(self) -> None:
        service = self.serve()
        sent = request("POST", "/v1/searches", OPEN % 3)
        sent += b"".join(request("POST", "/v1/leases", it) for it in LEASES[:2])
        wanted = answer(200, OPENED) + answer(200, leased(1, 1)) + answer(200, leased(2, 2))
        self.assertEqual(self.at_now(service.talk(sent)), wanted)
        self.assert_recorded(service, [1, 3])

    def test_sixteen_commands_share_a_record_and_the_seventeenth_is_alone(self) -> None:
        service = self.serve()
        sent = b"".join(request("POST", "/v1/searches", (OPEN % 1).replace("00000001-f2", f"000000{it:02}-f2"))
                        for it in range(1, 18))
        self.assertLess(len(sent), 16384)
        wanted = b"".join(answer(200, OPENED.replace('"search":1', f'"search":{it}')) for it in range(1, 18))
        self.assertEqual(service.talk(sent), wanted)
        self.assert_recorded(service, [1, 16, 1])

    def test_the_totals_behind_an_open_count_it(self) -> None:
        for size in (0, 1, 7):
            service = self.serve()
            with service.connect() as link:
                link.send(request("POST", "/v1/searches", OPEN % 1) + get("/v1/totals"), size)
                link.end()
                self.assertEqual(link.rest(), answer(200, OPENED) + answer(200, totals("totals", 2, 1)))
            service.close()

    def test_runs_and_searches_are_shown_in_the_batch_of_what_they_show(self) -> None:
        service = self.serve()
        sent = request("POST", "/v1/searches", OPEN % 1) + request("POST", "/v1/leases", LEASES[0])
        sent += request("POST", "/v1/runs/1/report", '{"verdict":"skip"}') + get("/v1/searches/1")
        sent += request("POST", "/v1/leases", LEASES[1])
        sent += get("/v1/searches/1/runs/1") + get("/v1/searches/1/runs/3")
        sent += get("/v1/searches/1/runs/2").replace(b"GET", b"HEAD") + get("/v1/searches/2/runs/1")
        sent += get("/v1/list/1") + get("/v1/list/2") + get("/v1/searches/1/runs/0") + get("/v1/searches/0/runs/0")
        sent += get("/v1/list/0") + request("POST", "/v1/list/1")
        skipped = (f'{{"commit":"0000000000000000000000000000716468000002","deadline":{NOW + 60000},"fate":"skipped",'
                   f'"leased":{NOW},"position":2,"reported":{NOW},"run":1,"stage":"search","verdict":"skip",'
                   '"worker":"w"}')
        out = (f'{{"commit":"0000000000000000000000000000716468000003","deadline":{NOW + 60000},"leased":{NOW},'
               '"position":3,"run":2,"stage":"search","worker":"w"}')
        runs = '{"from":%d,"reply":"runs","runs":[%s],"search":1}'
        wanted = [
            answer(200, OPENED),
            answer(200, leased(1, 2)),
            answer(200, '{"fate":"skipped","reply":"report","run":1,"search":1,"standing":"searching",'
                        '"verdict":"skip"}'),
            answer(200, '{"budget":33,"counted":0,"leases":1,"reply":"search","search":1,'
                        '"shares":[2000,2000,2000,2000,2000],"standing":"searching",'
                        '"test":"suite/case","untestable":[2],"verified":0}'),
            answer(200, leased(2, 3)),
            answer(200, runs % (1, f"{skipped},{out}")),
            answer(200, runs % (3, "")),
            answer(200, runs % (2, out), withheld=True),
            answer(404, '{"refused":"UnknownSearch","search":2}'),
            answer(200, f'{{"from":1,"reply":"list","searches":[{{"counted":0,"leases":2,"opened":{NOW},"search":1,'
                        '"standing":"searching","suspects":4,"test":"suite/case"}]}'),
            answer(200, '{"from":2,"reply":"list","searches":[]}'),
            *(answer(400, f'{{"field":"{it}","refused":"BadField"}}') for it in ("from", "search", "from")),
            answer(405, '{"refused":"MethodNotAllowed"}', allow="GET, HEAD"),
        ]
        self.assertEqual(self.at_now(service.talk(sent)), b"".join(wanted))
        self.assert_recorded(service, [1, 4])

    def test_an_open_with_an_origin_records_nothing_and_nothing_behind_it_is_read(self) -> None:
        service = self.serve()
        sent = get("/v1/orders").replace(b"\r\n\r\n", b"\r\nOrigin: null\r\n\r\n")
        sent += request("POST", "/v1/searches", OPEN % 1, "Origin: http://127.0.0.1:8080\r\n") + get("/v1/orders")
        self.assertEqual(service.talk(sent), PROBED + answer(403, '{"refused":"Foreign"}', closes=True))
        self.assert_recorded(service, [1])

    def test_a_closed_farm_refuses_a_lease_and_a_report_and_shows_its_pages(self) -> None:
        self.journal.write_bytes(bytes.fromhex("0143756c7072697446696e6465722032" "01000000110000000005265c00" + FOUNDED
                                               + "01000000090000000005f5e1000900"))
        service = self.serve()
        sent = AWAITED.replace(b"Expect: 100-continue\r\n", b"") + CLOSING.replace(b"Connection: close\r\n", b"")
        closed = answer(409, '{"refused":"Closed"}')
        self.assertEqual(service.talk(sent + get("/v1/farm")), closed * 2 + answer(200, totals("farm", 2)))
        self.assert_recorded(service, [1, 1])

    def test_the_daily_limit_is_told_with_429_and_its_day(self) -> None:
        self.journal.unlink()
        call("found", self.journal, 60000, 0, "east:0")
        service = self.serve()
        opened = (OPEN % 1).replace('000001",1]', '000001",65535]')
        sent = request("POST", "/v1/searches", opened) + request("POST", "/v1/leases", LEASES[0])
        sent += request("POST", "/v1/runs/1/report", '{"verdict":"fail"}') + request("POST", "/v1/leases", LEASES[1])
        sent += request("POST", "/v1/runs/2/report", '{"verdict":"pass"}')
        sent += request("POST", "/v1/reverts", '{"key":"00000000000000000000000000000009","agent":"a"}')
        told = service.talk(sent)
        day = int(time.time()) // 86400
        self.assertIn(told.rpartition(b"HTTP/1.1 ")[2], [
            answer(429, f'{{"count":0,"day":{it},"refused":"DailyLimit"}}')[9:] for it in (day - 1, day)], told)

    def test_a_page_of_the_log_has_at_most_100000_bytes_of_entries(self) -> None:
        service = self.serve()
        for number in range(1, 7):
            suspects = ",".join(f'["{it:040x}",1]' for it in range(1, 1001))
            body = (OPEN % 1).replace(SUSPECTS, suspects).replace("00000001-f2", f"000000{number:02}-f2")
            self.assertTrue(service.talk(request("POST", "/v1/searches", body)).startswith(b"HTTP/1.1 200 OK"))
        entries = [it.hex() for it in records(self.journal)]
        opened = 8 + 1 + 16 + 4 + 11 + 20 + 4 + 2 + 22000 + 4 + 4 + 1 + 1
        self.assertEqual([len(it) // 2 for it in entries], [8 + 1 + 8] + 6 * [opened])
        for first, last in ((1, 5), (2, 5), (3, 6), (6, 7), (7, 7), (8, 8)):
            held = "".join(entries[first - 1:last])
            self.assertEqual(service.talk(get(f"/v1/log/{first}")),
                             answer(200, f'{{"entries":"{held}","from":{first},"reply":"log"}}'))

    def test_a_fault_of_the_disk_is_told_with_503_and_the_rest_goes_on(self) -> None:
        size = self.journal.stat().st_size
        service = self.serve(restore_signals=False,
                             preexec_fn=lambda: resource.setrlimit(resource.RLIMIT_FSIZE, (size + 9, size + 9)))
        sent = request("POST", "/v1/searches", OPEN % 1) + get("/v1/totals")
        self.assertEqual(service.talk(sent), answer(503, '{"refused":"StoreFault"}') + answer(200, PAGES["totals"]))
        service.close()
        self.assertEqual(audit(self.journal), "legal entries 1 searches 0 orders 0\n")


SERVED_OPEN = ('{"key":"00000000000000000000000000000001","test":"t","base":"0000000000000000000000000000000000000000",'
               '"suspects":[["0000000000000000000000000000000000000001",1],'
               '["0000000000000000000000000000000000000002",1]],'
               '"calm":1,"rate":[1,2],"bar":[9999,10000],"width":8,"reruns":1}')


class Served(Case):
    """How the service ends: by the links that it may accept, and by what fails around it."""

    def ask(self, service: Service, number: int) -> tuple[bytes, int]:
        """Opens the search, leases, and asks for the farm's page on one connection that closes then. What was answered
        to the open, and the run that was leased."""
        lease = f'{{"key":"{number:032}","worker":"w"}}'
        sent = request("POST", "/v1/searches", SERVED_OPEN) + request("POST", "/v1/leases", lease)
        with service.connect() as link:
            link.send(sent + request("GET", "/v1/farm", "", "Connection: close\r\n"))
            opened, leased, page = re.findall(rb"\{.*?\}", link.rest())
        self.assertEqual(json.loads(page)["reply"], "farm")
        return opened, json.loads(leased)["run"]

    def test_four_links_open_one_search_and_lease_a_run_each(self) -> None:
        for handlers in (1, 4):
            with self.subTest(handlers=handlers):
                service = self.serve(handlers, 4)
                found: list[tuple[bytes, int]] = []
                threads = [threading.Thread(target=lambda it: found.append(self.ask(service, it)), args=(number,))
                           for number in range(2, 6)]
                for thread in threads:
                    thread.start()
                for thread in threads:
                    thread.join()
                self.assertEqual(len({opened for opened, _ in found}), 1)
                self.assertEqual(sorted(run for _, run in found), [1, 2, 3, 4])
                self.assertEqual(service.ended(), (0, totals("farm", 6, 1) + "\n", ""))
                self.assertEqual(audit(self.journal), "legal entries 6 searches 1 orders 0\n")
                self.journal.unlink()
                call("found", self.journal, 60000, 10, "east:0")

    def test_once_its_links_are_used_up_it_listens_no_more_and_closes_what_waits(self) -> None:
        service = self.serve(4, 2)
        with service.connect() as waiting:
            self.assertEqual([self.ask(service, it)[1] for it in (2, 3)], [1, 2])
            self.assertEqual(waiting.rest(), b"")
        self.assertEqual(service.ended(), (0, totals("farm", 4, 1) + "\n", ""))
        host, port = service.address.split(":")
        with self.assertRaises(ConnectionRefusedError):
            socket.create_connection((host, int(port)))

    def test_a_link_that_fails_ends_alone(self) -> None:
        service = self.serve(4, 4)
        with service.connect() as link:
            link.send(request("POST", "/v1/searches", SERVED_OPEN, "Expect: 100-continue\r\n")[:-1])
            self.assertEqual(link.take(len(INTERIM)), INTERIM)  # a handler has it
            link.drop()
        self.assertEqual([self.ask(service, it)[1] for it in (2, 3, 4)], [1, 2, 3])
        self.assertEqual(service.ended(), (0, totals("farm", 5, 1) + "\n", ""))

    def test_an_address_that_is_taken_is_a_fault_of_the_network(self) -> None:
        with socket.create_server(("127.0.0.1", 0)) as taken:
            words = [PROGRAM, "serve", self.journal, f"127.0.0.1:{taken.getsockname()[1]}", "4", "9"]
            ran = subprocess.run(words, capture_output=True, timeout=PATIENCE, check=False)
        self.assertEqual((ran.returncode, ran.stdout.decode(), ran.stderr),
                         (9, totals("farm", 1) + "\n", b"the network failed\n"))

    def test_an_output_that_fails_is_told_behind_the_links(self) -> None:
        with open("/dev/full", "wb") as full:
            service = self.serve(4, 1, stdout=full)
            self.assertEqual(self.ask(service, 2)[1], 1)
            service.process.wait(PATIENCE)
        assert service.process.stderr
        self.assertEqual((service.process.returncode, service.process.stderr.read()),
                         (4, b"the output could not be written\n"))

    def test_without_a_journal_nothing_is_accepted(self) -> None:
        self.journal.unlink()
        self.assertEqual(self.serve().ended(), (7, "", "the journal has not been founded\n"))
        self.assertFalse(self.journal.exists())

    def test_a_second_handler_answers_while_the_first_waits_for_the_rest_of_a_request(self) -> None:
        sent = request("POST", "/v1/searches", SERVED_OPEN, "Expect: 100-continue\r\n")
        for handlers in (2, 1):
            service = self.serve(handlers)
            with service.connect() as first, service.connect() as second:
                first.send(sent[:200])
                self.assertEqual(first.take(len(INTERIM)), INTERIM)  # a handler has it
                second.send(get("/v1/farm"))
                page = second.take(len(answer(200, PAGES["farm"]))) if handlers == 2 else b""
                first.send(sent[200:])
                self.assertEqual(first.take(15), b"HTTP/1.1 200 OK")
                page = page or second.take(len(answer(200, PAGES["farm"])))
            wanted = totals("farm", 1) if handlers == 2 else totals("farm", 2, 1)
            self.assertEqual(page, answer(200, wanted))
            service.close()
            self.assertEqual(audit(self.journal), "legal entries 2 searches 1 orders 0\n")


if __name__ == "__main__":
    unittest.main()
