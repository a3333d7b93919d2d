#!/usr/bin/env python3
"""Tests of followers: the program's `follow`, beside its service and beside a leader that answers by a script.

    tools/test PROGRAM test_follow
"""
from __future__ import annotations

import functools
import json
import os
import random
import re
import resource
import signal
import socket
import subprocess
import tempfile
import threading
import unittest
from typing import Any, Sequence

from case_farm import PATIENCE, PROGRAM, Case, Reply, commit
from case_network import (NOWHERE, Answer, Peer, Proxy, Scripted, Served, came_to, entries_of, held_in, http,
                          journal_of, program, request_of)

FOUNDED = bytes.fromhex("0000000005265c00" "01" "0000ea60" "000a" "02d0")  # 1970-01-02: 60 s, ten orders a day, UTC
OTHER = bytes.fromhex("0000000005265c00" "01" "0000ea60" "0009" "02d0")  # nine orders a day
CARRIED = bytes.fromhex("0000000005265c00" "0a" + "0" * 39 + "2" "00000001" "0000000005265c00" "0a" + "0" * 39 + "3"
                        "00000002" "0000000005265c00" "0a" + "0" * 39 + "4" "00000002")
AT = 1_795_788_000_000
SUSPECTS = [[commit(11), 3], [commit(12), 1], [commit(13), 1], [commit(14), 8], [commit(15), 2], [commit(16), 1]]
OPEN = {"do": "open", "test": "//db:migration_test", "base": commit(10), "suspects": SUSPECTS, "calm": 4,
        "rate": [1, 20], "bar": [99, 100], "width": 2, "reruns": 2}
LEASES = [{"do": "lease", "worker": f"bot-{it}"} for it in (1, 2)]


def report(run: int, verdict: str) -> Reply:
    """A report."""
    return {"do": "report", "run": run, "verdict": verdict}


TWELVE: list[Reply] = [OPEN, *LEASES, report(1, "pass"), report(2, "fail"), *LEASES, report(3, "fail"),
                       report(4, "fail"), *LEASES, report(5, "skip")]
SECOND: list[Reply] = [{**OPEN, "test": "//db:backup_test"}, {"do": "cancel", "search": 2}]


@functools.lru_cache(None)
def played(begun: bytes, *lines: str) -> tuple[bytes, ...]:
    """The entries of a farm that began with some entries and was given these lines."""
    with tempfile.TemporaryDirectory() as folder:
        path = os.path.join(folder, "farm.journal")
        with open(path, "wb") as file:
            file.write(journal_of(entries_of(begun)))
        ran = program("run", path, given="".join(f"{it}\n" for it in lines).encode())
        assert ran.returncode == 0 and b"refused" not in ran.stdout, ran
        return tuple(held_in(path))


def history(begun: bytes, *commands: Reply) -> list[bytes]:
    """The same, of commands that come a second after each other, each with a key of its own."""
    lines = (json.dumps({"at": AT + 1_000 * number, "key": f"{number:032x}", **it})
             for number, it in enumerate(commands, 1))
    return list(played(begun, *lines))


def page(first: int, entries: Sequence[bytes], **more: object) -> bytes:
    """The response that is a page of the log, with these entries from one of this number on."""
    return http(200, {"entries": b"".join(entries).hex(), "from": first, "reply": "log", **more})


class FollowCase(Case):
    """Followers, and what they hold."""

    def setUp(self) -> None:
        super().setUp()
        self.copy = os.path.join(self.folder, "copy.journal")
        self.leader = history(FOUNDED, *TWELVE)
        self.assertEqual(len(self.leader), 13)

    def hold(self, entries: Sequence[bytes]) -> None:
        """Lets the follower hold these entries, with none no file."""
        if os.path.exists(self.copy):
            os.remove(self.copy)
        if entries:
            with open(self.copy, "wb") as file:
                file.write(journal_of(entries))

    def held(self) -> int:
        """How many entries the follower holds; those past its own have to be the leader's, in their bytes."""
        held = held_in(self.copy)
        self.assertIn(held[:1], ([], [OTHER], self.leader[:1]))
        self.assertEqual(held[1:], self.leader[1:len(held)])
        return len(held)

    def answer(self, text: str) -> bytes:
        """The answer that a word of a case tells: `F:N` a page of the leader's N entries from F on, `F:N@G` one that
        says that it begins with G; a status; `cut` an answer that isn't whole; `bad` a page that spells no entry."""
        if text == "cut":
            return http(200, {}, more=9)
        if text == "bad":
            return http(200, {"entries": "00", "from": 1, "reply": "log"})
        if ":" not in text:
            return http(int(text), {})
        place, _, told = text.partition("@")
        first, count = map(int, place.split(":"))
        return page(int(told or first), self.leader[first - 1:first - 1 + count])

    def follow(self, leader: "Peer | str", rounds: int = 5, **more: Any) -> str:
        """What a follower comes to."""
        return came_to(self, "follow", self.copy, leader if isinstance(leader, str) else leader.address, rounds, **more)

    def assert_follows(self, held: int, rounds: int, answers: str, wanted: str, holds: int) -> None:
        """Holds what a follower comes to, which holds so many entries of the leader, or -1 of another farm, and what it
        holds then, to this. Each page that it asks for is the one behind those that it was given."""
        with self.subTest(f"{held} {rounds} {answers}"):
            self.hold([OTHER] if held < 0 else self.leader[:held])
            leader = Scripted(self, [self.answer(it) for it in answers.split()])
            self.assertEqual((self.follow(leader, rounds), self.held()), (wanted, holds))
            first, asks = 1, []
            for it in answers.split():
                asks.append(b"GET /v1/log/%d HTTP/1.1\r\nHost: farm\r\nConnection: close\r\n\r\n" % first)
                if ":" in it:
                    first += int(it.partition("@")[0].split(":")[1])
            self.assertEqual(leader.heard, asks)


class Leaders(FollowCase):
    """A follower and a leader that answers by a script."""

    def test_a_follower_that_holds_nothing(self) -> None:
        for rounds, answers, wanted in ((5, "1:13 14:0", "followed 13 entries whole"),
                                        (1, "1:13", "followed 13 entries more"),
                                        (5, "1:4 5:4 9:5 14:0", "followed 13 entries whole"),
                                        (3, "1:4 5:4 9:5", "followed 13 entries more")):
            self.assert_follows(0, rounds, answers, wanted, 13)
        self.assert_follows(13, 5, "1:13 14:0", "followed 13 entries whole", 13)
        self.assert_follows(0, 5, "1:0", "followed 0 entries whole", 0)

    def test_a_beginning_that_is_held_and_a_page_that_goes_past_it(self) -> None:
        self.assert_follows(7, 5, "1:9 10:4 14:0", "followed 13 entries whole", 13)
        self.assert_follows(5, 1, "1:2", "followed 5 entries more", 5)
        self.assert_follows(5, 2, "1:2 3:9", "followed 11 entries more", 11)

    def test_a_journal_that_differs_from_the_leaders(self) -> None:
        differs = "the journal differs from the leader's at entry"
        self.assert_follows(-1, 5, "1:13", f"{differs} 0", 1)
        self.assert_follows(13, 5, "1:12 13:0", f"{differs} 12", 13)
        self.assert_follows(13, 5, "1:0", f"{differs} 0", 13)

    def test_asks_that_are_lost(self) -> None:
        self.assert_follows(0, 5, "503 507 1:13 14:0", "followed 13 entries whole", 13)
        self.assert_follows(0, 5, "503 cut 507", "the service answered 507", 0)
        self.assert_follows(0, 5, "503 503 cut", "the service answered 0", 0)
        self.assert_follows(0, 5, "1:13 503 503 503", "the service answered 503", 13)
        self.assert_follows(0, 5, "404", "the service answered 404", 0)

    def test_pages_that_do_not_fit(self) -> None:
        self.assert_follows(0, 5, "1:4 5:4@6", "the service answered 200", 4)
        self.assert_follows(0, 5, "1:4@2", "the service answered 200", 0)
        self.assert_follows(0, 5, "bad", "the service answered 200", 0)

    def test_answers_that_are_no_pages(self) -> None:
        digits = b"".join(self.leader).hex()
        other = [{"from": 1}, {"entries": digits}, {"entries": 1, "from": 1}, {"entries": digits, "from": "1"},
                 {"entries": digits, "from": 1.0}, {"entries": digits, "from": 0}, {"entries": digits[:-1], "from": 1},
                 {"entries": digits[:-2], "from": 1}, {"entries": digits + "g0", "from": 1},
                 {"entries": " " + digits, "from": 1}, {"entries": [digits], "from": 1}, [digits], digits, None]
        for body in [*map(json.dumps, other), "", "{", "<html></html>"]:
            with self.subTest(body[:60]):
                self.hold(self.leader[:3])
                leader = Scripted(self, [http(200, body)])
                self.assertEqual((self.follow(leader), self.held()), ("the service answered 200", 3))
        least = Scripted(self, [http(200, {"from": 1, "entries": digits.upper(), "ü": 1}),
                                http(200, {"entries": "", "from": 14})])
        self.assertEqual((self.follow(least), self.held()), ("followed 13 entries whole", 13))

    def test_rubbish_and_a_network_at_fault(self) -> None:
        whole = page(1, self.leader)
        for lost in (b"", b"SSH-2.0-OpenSSH_9.6\r\n", b"\0" * 100, whole[:-1], whole[:40],
                     whole.replace(b"Content-Length", b"Length"), http(200, " " * 262_145)):
            with self.subTest(lost[:60]):
                self.hold(self.leader[:3])
                self.assertEqual((self.follow(Scripted(self, [lost] * 3)), self.held()), ("the service answered 0", 3))
                slow = Answer(b"HTTP/1.1 100 Continue\r\n\r\n" + whole, slow=True)
                back = Scripted(self, [lost, Answer(reset=True), slow])
                self.assertEqual((self.follow(back, 1), self.held()), ("followed 13 entries more", 13))
        self.hold([])
        gone = Scripted(self, [whole, b"", b"", Answer(whole[:60], reset=True)])
        self.assertEqual((self.follow(gone), self.held()), ("the network failed", 13))
        self.assertEqual((self.follow(NOWHERE), self.held()), ("the network failed", 13))

    def test_another_farms_history_is_told_apart_where_it_differs(self) -> None:
        other = history(FOUNDED, *TWELVE[:5], {"do": "cancel", "search": 1})
        self.assertEqual(other[:6], self.leader[:6])
        self.hold(self.leader[:4])
        self.assertEqual(self.follow(Scripted(self, [page(1, other)]), 1), "followed 7 entries more")
        for answers in ([page(1, self.leader)], [page(1, self.leader[:6]), page(7, self.leader[6:])]):
            self.assertEqual(self.follow(Scripted(self, answers)), "the journal differs from the leader's at entry 6")
            self.assertEqual(held_in(self.copy), other)

    def test_an_entry_that_may_not_come_next(self) -> None:
        leader = self.leader
        for entries, place in (([leader[1]], 0), ([leader[0], leader[0]], 1), ([leader[0], leader[2]], 1),
                               ([*leader[:2], leader[4]], 2), ([*leader[:5], leader[4]], 5),
                               ([*leader[:4], leader[2]], 4), ([*leader, leader[5]], 13)):
            with self.subTest(place):
                self.hold([])
                pages = [page(1, entries[:place]), page(place + 1, entries[place:])][0 if place else 1:]
                self.assertEqual(self.follow(Scripted(self, pages)),
                                 f"the journal differs from the leader's at entry {place}")
                self.assertEqual(self.held(), place)
                self.hold([])
                self.assertEqual(self.follow(Scripted(self, [page(1, entries)])),
                                 f"the journal differs from the leader's at entry {place}")
                self.assertEqual(self.held(), 0)  # of a page that isn't taken nothing is stored

    def test_a_closed_farm_is_followed_as_any_other(self) -> None:
        self.leader = [*history(FOUNDED, *TWELVE, *SECOND), (AT + 70_000).to_bytes(8, "big") + b"\x09"]
        self.assertEqual(len(self.leader), 16)
        for held, answers in ((0, "1:16 17:0"), (13, "1:13 14:3 17:0"), (15, "1:15 16:1 17:0"), (16, "1:16 17:0")):
            self.assert_follows(held, 5, answers, "followed 16 entries whole", 16)
        self.assert_follows(16, 5, "1:15 16:0", "the journal differs from the leader's at entry 15", 16)
        busy = [*self.leader[:14], self.leader[15]]  # the second search isn't cancelled
        self.hold([])
        self.assertEqual(self.follow(Scripted(self, [page(1, busy)])),
                         "the journal differs from the leader's at entry 14")
        self.assertEqual(self.held(), 0)

    def test_a_farm_that_begins_with_orders_of_one_before_it(self) -> None:
        self.leader = history(FOUNDED + CARRIED, OPEN)
        self.assertEqual(len(self.leader), 5)
        for held, answers in ((0, "1:5 6:0"), (0, "1:2 3:2 5:1 6:0"), (1, "1:5 6:0"), (3, "1:5 6:0")):
            self.assert_follows(held, 5, answers, "followed 5 entries whole", 5)
        self.assert_follows(-1, 5, "1:5", "the journal differs from the leader's at entry 0", 1)


class Stalled(Scripted):
    """A leader that gives its answers, and then hears a request and doesn't answer it."""

    def __init__(self, *given: Any) -> None:
        self.stalls = threading.Event()
        super().__init__(*given)

    def take(self, number: int, link: socket.socket) -> None:
        if number < len(self.answers):
            super().take(number, link)
            return
        self.heard.append(request_of(link))
        self.stalls.set()
        link.recv(1)


class Files(FollowCase):
    """The follower's file."""

    def limited(self, size: int) -> str:
        """What a follower comes to whose files may have so many bytes, and no more."""
        def limit() -> None:
            signal.signal(signal.SIGXFSZ, signal.SIG_IGN)
            resource.setrlimit(resource.RLIMIT_FSIZE, (size, size))
        return self.follow(Scripted(self, [page(1, self.leader[:8]), page(9, self.leader[8:])]), 2, preexec_fn=limit)

    def test_a_write_that_fails_in_mid_stream_leaves_a_prefix_and_is_mended(self) -> None:
        self.hold(self.leader[:5])
        sizes = [0]
        for _ in (1, 2):
            sizes.append(os.path.getsize(self.copy))
            self.follow(Scripted(self, [page(1, self.leader[:8]), page(9, self.leader[8:])]), len(sizes) - 1)
        five, eight, whole = sizes[1], sizes[2], os.path.getsize(self.copy)
        self.assertEqual(eight - five, 5 + sum(map(len, self.leader[5:8])))
        for held, least, first, end in ((0, 0, eight - 5, whole - 5), (5, five, eight, whole)):
            for size in [*range(least, end, 41), first - 1, first, end - 1]:
                with self.subTest(f"{held} {size}"):
                    self.hold(self.leader[:held])
                    self.assertEqual(self.limited(size), "the journal could not be used")
                    self.assertIn(self.held(), (held, 8))
                    self.assertEqual(self.held() == 8, size >= first, size)
                    again = Scripted(self, [self.answer("1:13")])
                    self.assertEqual((self.follow(again, 1), self.held()), ("followed 13 entries more", 13))
                    audited = program("audit", given=self.data())
                    self.assertEqual(audited.stdout, b"legal entries 13 searches 1 orders 0\n")
        self.hold(self.leader[:5])
        self.assertEqual((self.limited(whole), self.held()), ("followed 13 entries more", 13))

    def data(self) -> bytes:
        """The bytes of the follower's file."""
        with open(self.copy, "rb") as file:
            return file.read()

    def test_each_page_is_one_record_and_what_is_held_is_not_written_again(self) -> None:
        leader = Scripted(self, [self.answer(it) for it in "1:5 6:2 8:6 14:0".split()])
        self.assertEqual(self.follow(leader), "followed 13 entries whole")
        parts = [b"".join(self.leader[first:end]) for first, end in ((0, 5), (5, 7), (7, 13))]
        self.assertEqual(self.data().rstrip(b"\0"), b"\x01CulpritFinder 2"
                         + b"".join(b"\x01" + len(it).to_bytes(4, "big") + it for it in parts).rstrip(b"\0"))
        before = self.data()
        again = Scripted(self, [self.answer("1:13"), self.answer("14:0")])
        self.assertEqual(self.follow(again), "followed 13 entries whole")
        self.assertEqual(self.data(), before)

    def test_a_follower_that_is_killed_holds_the_pages_that_it_took(self) -> None:
        for held, answers, holds in ((0, "", 0), (0, "1:4", 4), (0, "1:4 5:4", 8), (7, "1:9", 9)):
            with self.subTest(answers):
                self.hold(self.leader[:held])
                leader = Stalled(self, [self.answer(it) for it in answers.split()])
                with subprocess.Popen([PROGRAM, "follow", self.copy, leader.address, "9"], stdout=subprocess.PIPE,
                                      stderr=subprocess.STDOUT) as follower:
                    self.assertTrue(leader.stalls.wait(PATIENCE))
                    follower.kill()
                    self.assertEqual(follower.communicate(), (b"", None))
                self.assertEqual(self.held(), holds)
                self.assertEqual(self.follow(Scripted(self, [self.answer("1:13"), self.answer("14:0")])),
                                 "followed 13 entries whole")
                self.assertEqual(self.held(), 13)

    def test_files_that_are_no_journals(self) -> None:
        head = b"\x01CulpritFinder 2"
        for data, place in ((b"\x01x", 1), (head[:9], 9), (head, 16), (head[:7] + b"X" + head[8:], 7),
                            (head + b"\x01\0\0\0\x19" + FOUNDED, 16), (journal_of([FOUNDED])[:-1], 38),
                            (head + b"\x01\0\0\0\0\0", 16), (journal_of([b"x"]), 16)):
            with self.subTest(data):
                with open(self.copy, "wb") as file:
                    file.write(data)
                leader = Scripted(self, [])
                self.assertEqual(self.follow(leader), f"the journal is damaged at byte {place}")
                self.assertEqual((self.data(), leader.heard), (data, []))

    def test_a_file_that_no_founding_left_stays_as_it_is(self) -> None:
        for size, wanted in ((1, "followed 13 entries more"), (131_094, "followed 13 entries more"),
                             (131_095, "the journal could not be used")):
            with self.subTest(size):
                with open(self.copy, "wb") as file:
                    file.write(bytes(size))
                self.assertEqual(self.follow(Scripted(self, [self.answer("1:13")]), 1), wanted)
                if "not" in wanted:
                    self.assertEqual(self.data(), bytes(size))
                else:
                    self.assertEqual(self.held(), 13)

    def test_a_journal_that_cannot_be_used(self) -> None:
        farm = self.found()
        farm.open()
        leader = Scripted(self, [self.answer("1:13")])
        for path in (self.journal, self.folder, os.path.join(self.folder, "none", "copy")):
            self.assertEqual(came_to(self, "follow", path, leader.address, 1), "the journal could not be used")
        self.assertEqual(len(held_in(self.journal)), 2)

    def test_an_output_that_cannot_be_written(self) -> None:
        leader = Scripted(self, [self.answer("1:13")])
        with open("/dev/full", "wb") as full:
            self.assertEqual(self.follow(leader, 1, stdout=full), "the output could not be written")
        self.assertEqual(self.held(), 13)


def pages_of(entries: Sequence[bytes]) -> list[int]:
    """How many entries each page of the log has, as it is asked from the first entry on."""
    counts, room = [], 0
    for it in entries:
        if not counts or room < len(it):
            counts, room = counts + [0], 100_000
        counts[-1] += 1
        room -= len(it)
    return counts


class Services(FollowCase):
    """A follower and the service."""

    def lead(self, entries: Sequence[bytes]) -> Served:
        """The service of a journal with these entries."""
        with open(self.journal, "wb") as file:
            file.write(journal_of(entries))
        return Served(self, self.journal, founded=True)

    def assert_same(self, farm: Served) -> None:
        """Holds the follower's history to be the leader's, byte for byte, and the farm to show the same."""
        self.assertEqual(held_in(self.copy), farm.history())
        shown = program("show", self.copy).stdout.splitlines()
        self.assertEqual(json.loads(shown[0]), farm.ask("/v1/farm"))
        for number, line in enumerate(shown[1:], 1):
            self.assertEqual(json.loads(line), farm.ask(f"/v1/searches/{number}"))

    def test_a_leader_is_followed_as_it_grows(self) -> None:
        farm = self.lead(self.leader)
        self.assertEqual(self.follow(farm.service.url[7:]), "followed 13 entries whole")
        self.assert_same(farm)
        for number in range(3):
            self.assertEqual(farm.ask("/v1/searches", {**OPEN, "key": f"{100 + number:032x}"})["search"], 2 + number)
            self.assertEqual(self.follow(farm.service.url[7:], 1), f"followed {14 + number} entries more")
            self.assert_same(farm)
        farm.service.close()
        promoted = Served(self, self.copy, founded=True)
        self.assertEqual(promoted.ask("/v1/farm")["entries"], 16)
        self.assertEqual(promoted.ask("/v1/searches", {**OPEN, "key": f"{102:032x}"})["search"], 4)

    def large(self) -> list[bytes]:
        """A history of several pages: searches of a thousand suspects."""
        suspects = [[commit(10_000 + it), 1] for it in range(1_000)]
        opens = [{**OPEN, "suspects": suspects[9 * number:]} for number in range(11)]
        return history(FOUNDED, *opens, *LEASES)

    def test_a_history_of_several_pages_round_by_round(self) -> None:
        self.leader = self.large()
        farm = self.lead(self.leader)
        network = Proxy(self, farm)
        counts, held, size = pages_of(self.leader), 0, 0
        self.assertGreater(len(counts), 2)
        for rounds, count in enumerate(counts, 1):
            held += count
            self.assertEqual(self.follow(network, rounds), f"followed {held} entries more")
            self.assertEqual(self.held(), held)
            self.assertGreater(os.path.getsize(self.copy), size)
            size = os.path.getsize(self.copy)
        firsts = [1 + sum(counts[:it]) for it in range(len(counts) + 1)]
        network.heard.clear()
        self.assertEqual(self.follow(network, 100), f"followed {held} entries whole")
        self.assertEqual([int(it.split()[1].removeprefix(b"/v1/log/")) for it in network.heard], firsts)
        self.assert_same(farm)

    def test_a_bad_network_costs_no_entry(self) -> None:
        self.leader = self.large()
        farm = self.lead(self.leader)
        network, dice = Proxy(self, farm), random.Random(1)
        for plan in ("rx.af.gh.53.tHd.", "k.kk.ks", *("".join(dice.choice("...afrxgh53Hti") for _ in range(12))
                                                      for _ in range(12))):
            with self.subTest(plan):
                self.hold(self.leader[:dice.choice((0, 0, 1, 5, 13))])
                before = self.held()
                network.follow(plan)
                came = self.follow(network, 100)
                self.assertGreaterEqual(self.held(), before)
                if came == f"followed {len(self.leader)} entries whole":
                    self.assert_same(farm)
                else:
                    self.assertIn(came, ("the network failed", *(f"the service answered {it}" for it in (0, 503, 507))))
                self.assertEqual(self.follow(farm.service.url[7:], 100), f"followed {len(self.leader)} entries whole")

    def test_plans_that_are_told_apart(self) -> None:
        self.leader = self.large()
        network = Proxy(self, self.lead(self.leader))
        first = pages_of(self.leader)[0]
        for plan, wanted, holds in (("rx.xxx", "the network failed", first), (".gra", "the service answered 0", first),
                                    ("f35", "the service answered 507", 0), (".4", "the service answered 404", first),
                                    ("hgH", "the network failed", 0)):
            with self.subTest(plan):
                self.hold([])
                network.follow(plan)
                self.assertEqual((self.follow(network), self.held()), (wanted, holds))

    def test_a_leader_that_was_restored_from_an_older_copy(self) -> None:
        older = self.lead(self.leader[:9])
        for held, wanted in ((9, "followed 9 entries whole"), (10, "the journal differs from the leader's at entry 9"),
                             (13, "the journal differs from the leader's at entry 9")):
            self.hold(self.leader[:held])
            self.assertEqual(self.follow(older.service.url[7:]), wanted)
            self.assertEqual(self.held(), held)
        self.hold([])
        self.assertEqual(self.follow(older.service.url[7:]), "followed 9 entries whole")

    def test_another_farm(self) -> None:
        farm = self.lead(self.leader)
        self.hold([OTHER])
        self.assertEqual(self.follow(farm.service.url[7:]), "the journal differs from the leader's at entry 0")
        self.assertEqual(held_in(self.copy), [OTHER])

    def test_a_closed_farm_and_the_one_that_follows_it(self) -> None:
        farm = self.lead(history(FOUNDED, *TWELVE, SECOND[0]))
        self.leader = farm.history()
        self.assertEqual(farm.close(), (17, b""))
        self.assertEqual(self.follow(farm.service.url[7:]), "followed 14 entries whole")
        cancelled = farm.ask("/v1/searches/2/cancel", {"key": f"{200:032x}"})
        self.assertEqual(cancelled["standing"], "cancelled")
        status, closed = farm.close()
        self.assertEqual((status, closed), (0, b"closed 0\n"))
        self.assertEqual(farm.ask("/v1/leases", {"key": f"{300:032x}", "worker": "w"}), {"refused": "Closed"})
        self.assertEqual(self.follow(farm.service.url[7:]), "followed 16 entries whole")
        self.assertEqual(held_in(self.copy)[-1][8:], b"\x09")
        self.assert_same(farm)
        new = os.path.join(self.folder, "new.journal")
        given = "".join(f"{commit(it)} {day}\n" for it, day in ((2, 1), (3, 2), (4, 2))).encode() + b"closed 3\n"
        self.assertEqual(program("inherit", new, 60_000, 10, "east:0", given=given).returncode, 0)
        heir = Served(self, new, founded=True)
        self.assertEqual(self.follow(heir.service.url[7:]), "the journal differs from the leader's at entry 0")
        self.hold([])
        self.assertEqual(self.follow(heir.service.url[7:]), "followed 4 entries whole")
        self.assert_same(heir)
        self.assertEqual([it[8:] for it in held_in(self.copy)[1:]],
                         [b"\x0a" + bytes.fromhex(commit(it)) + day.to_bytes(4, "big")
                          for it, day in ((2, 1), (3, 2), (4, 2))])


Step = tuple[str, bytes, int, list[bytes]]  # an answer's kind and bytes, and of a page its first number and entries


class Plays(FollowCase):
    """Followers beside a plain one, over random answers."""

    def plain(self, held: list[bytes], rounds: int, steps: list[Step]) -> tuple[str, list[bytes]]:
        """What a follower comes to that gets these answers, and what it holds then, by docs/FORMATS.md."""
        held, compared, tries = list(held), 0, 0
        for kind, _, first, entries in steps:
            if kind.isdigit():
                tries += 1
                if tries == 3:
                    return f"the service answered {kind}", held
                continue
            tries = 0
            if kind == "wrong" or first != compared + 1:
                return "the service answered 200", held
            if not entries and len(held) > compared:
                return f"the journal differs from the leader's at entry {compared}", held
            if not entries:
                return f"followed {len(held)} entries whole", held
            for place, it in enumerate(entries, compared):
                if place < len(held) and held[place] != it:
                    return f"the journal differs from the leader's at entry {place}", held
            compared += len(entries)
            held += entries[len(held) - compared + len(entries):] if compared > len(held) else []
            rounds -= 1
            if not rounds:
                return f"followed {len(held)} entries more", held
        raise AssertionError("the answers came to no end")

    def steps(self, dice: random.Random, rounds: int) -> list[Step]:
        """Random answers, which end in any case: at last there are no further entries."""
        steps, first = [], 1
        for _ in range(3 * rounds + 3):
            kind = dice.choice(("page",) * 12 + ("0", "503", "507", "wrong"))
            count = dice.choice((1, 2, 3, 5, 13))
            told = first + (dice.random() < 0.03)
            entries = self.leader[first - 1:first - 1 + count]
            if dice.random() < 0.05:
                entries = []
            if kind == "page":
                steps.append((kind, page(told, entries), told, entries))
                first += len(entries) if told == first else 0
            elif kind == "wrong":
                steps.append((kind, http(200, {"entries": "0", "from": first}), 0, []))
            else:
                steps.append((kind, page(first, entries)[:-1] if kind == "0" else http(int(kind), {}), 0, []))
        return steps + [("page", page(first, []), first, [])] * 3

    def test_what_followers_come_to(self) -> None:
        dice, ends = random.Random(1), set()
        forked = history(FOUNDED, *TWELVE[:5], {"do": "cancel", "search": 1})
        for turn in range(80):
            rounds = dice.randrange(1, 9)
            held = list(dice.choice((self.leader, self.leader, forked))[:dice.randrange(0, 14)])
            steps = self.steps(dice, rounds)
            wanted, holds = self.plain(held, rounds, steps)
            with self.subTest(turn):
                self.hold(held)
                leader = Scripted(self, [it[1] for it in steps])
                self.assertEqual((self.follow(leader, rounds), held_in(self.copy)), (wanted, holds))
                leader.end()
            ends.add(re.sub("[0-9]+", "N", wanted))
        self.assertEqual(len(ends), 4, ends)


if __name__ == "__main__":
    unittest.main()
