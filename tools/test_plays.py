#!/usr/bin/env python3
"""Plays of whole farms by the program, held to the farm of case_model, which is made from the definitions alone.

    CULPRIT_FINDER=PROGRAM python3 tools/test_plays.py [CLASS[.TEST]]

A play's lines are picked by seeded dice: opens of all kinds, within the limits and outside, leases, reports that flake,
skips, cancellations, orders, and keys that stood before, with what they asked for or with something else.
"""
from __future__ import annotations

import collections
import json
import os
import pathlib
import random
import struct
import subprocess
import tempfile
import unittest
from typing import Any, Iterable, Optional

import case_model
from case_model import DAY_MS, Farm, Line, Reply

PROGRAM = os.environ.get("CULPRIT_FINDER") or str(pathlib.Path(__file__).resolve().parent.parent / "finder")
PATIENCE = 600.0  # seconds that a call may take which takes a few: the machine may be slow, and loaded
START = 100_000_000
BASE = "c8" * 20

# What each kind of search asks for, beside what is picked by chance. The first are within all limits, and of these the
# first two have a budget that is soon used up.
HARD: Line = {"rate": [989, 1_000], "miss": [1, 100], "bar": [9_999, 10_000], "width": 8}
SOUND: list[Line] = [
    HARD, HARD, {"rate": [999, 1_000], "bar": [9_999, 10_000], "width": 6},
    {"count": 1, "weight": 1_000}, {"count": 1, "weight": 1_000}, {"calm": 1_000}, {"miss": [1, 20]},
    {"count": 20, "rate": [1, 100], "bar": [99, 100], "width": 8, "reruns": 3}, {"rate": [2, 20], "miss": [0, 7]}]
FAULTY: list[Line] = [
    {"count": 0}, {"count": 1_001}, {"weight": 65_536}, {"calm": 0}, {"calm": 1_000_001}, {"base": None},
    {"rate": [0, 10]}, {"rate": [500, 2_000]}, {"miss": [19, 20]}, {"miss": [9, 10]}, {"bar": [1, 2]},
    {"bar": [10, 10]}, {"width": 9}, {"reruns": 0}]

# What has to come up in the plays of a test, each by its name in a reply.
REPLIES = ["open", "lease", "report", "cancel", "revert", "search", "farm", "orders", "runs", "list", "repeat"]
FATES = ["fate counted", "fate late", "fate over", "fate skipped", "late skip"]
STANDINGS = ["searching", "verifying", "confirmed", "vindicated", "no culprit", "inconclusive", "cancelled"]
CAUSES = ["NoSuspects", "TooManySuspects", "WeightRange", "CalmRange", "RepeatedCommit", "Rate", "Miss", "Bar", "Width",
          "Reruns"]
REFUSALS = ["KeyClash", "UnknownRun", "UnknownSearch", "SearchEnded", "NoRevert", "NoRun", "DailyLimit"]
RECORDED = ("open", "lease", "report", "cancel", "revert")


def text_of(reply: Reply) -> str:
    """A reply as the program writes it."""
    return json.dumps(reply, sort_keys=True, separators=(",", ":"))


def commit(number: int) -> str:
    """The commit whose bytes are all a number."""
    return f"{number & 0xff:02x}" * 20


def call(*words: str, given: bytes = b"", status: int = 0) -> str:
    """What the program writes."""
    ran = subprocess.run([PROGRAM, *words], input=given, capture_output=True, timeout=PATIENCE, check=False)
    assert ran.returncode == status, (words, ran.returncode, ran.stderr)
    return ran.stdout.decode()


def script_of(lines: Iterable[Line]) -> bytes:
    """The lines as a script."""
    return "".join(json.dumps(it) + "\n" for it in lines).encode()


def founded(farm: Farm) -> bytes:
    """The journal of a farm that was just founded, with the orders that it carries over."""
    at = farm.at.to_bytes(8, "big")
    entries = [at + b"\x01" + farm.lease_ms.to_bytes(4, "big") + farm.daily.to_bytes(2, "big")
               + (farm.zone + 720).to_bytes(2, "big")]
    entries += [at + b"\x0a" + bytes.fromhex(it) + day.to_bytes(4, "big") for it, day in farm.carried]
    record = b"".join(entries)
    return b"\x01CulpritFinder 2\x01" + len(record).to_bytes(4, "big") + record + b"\x00"


class Player:
    """Picks the lines of a play, and asks the farm by the definitions for the reply to each."""

    def __init__(self, seed: int, farm: Farm) -> None:
        self.seed, self.farm, self.dice, self.clock = seed, farm, random.Random(seed), max(START, farm.at)
        self.lines: list[Line] = []
        self.replies: list[Reply] = []
        self.seen: collections.Counter[str] = collections.Counter()

    def play(self, steps: int) -> "Player":
        """Plays so many lines, and shows all at the end."""
        for step in range(steps):
            self.clock += self.dice.randrange(15_000)
            if self.dice.random() < 0.02:
                self.clock += self.dice.randint(1, 6) * 3_600_000
            out = [it.deadline for it in self.farm.leases[-10:] if it.reply is None and it.deadline > self.clock]
            if out and self.dice.random() < 0.05:  # just before a lease expires, or as it does
                self.clock = min(out) - self.dice.randrange(2)
                self.ask({"at": self.clock, **self.keyed({"do": "lease", "worker": "v"})})
                continue
            late = self.dice.randrange(20_000) if self.dice.random() < 0.08 else 0
            self.ask({"at": self.clock - late, **(self.opening() if step < 3 else self.line())})
        for search in range(1, len(self.farm.searches) + 2):
            self.ask({"at": self.clock, "do": "search", "search": search})
            self.ask({"at": self.clock, "do": "runs", "search": search, "from": self.dice.choice((1, 1, 2, 101))})
        for do in ("list", "list", "orders", "farm"):
            self.ask({"at": self.clock, "do": do, "from": self.dice.choice((1, 2, 1_000))})
        return self

    def ask(self, line: Line) -> None:
        """Asks for a line, and counts what it came to."""
        before = self.farm.entries
        reply = self.farm.answer(line)
        self.lines.append(line)
        self.replies.append(reply)
        self.seen.update(str(reply.get(it)) for it in ("reply", "refused", "cause", "standing"))
        self.seen["fate " + str(reply.get("fate"))] += 1
        self.seen["late skip"] += (reply.get("fate"), reply.get("verdict")) == ("late", "skip")
        self.seen["repeat"] += before == self.farm.entries and reply.get("reply") in RECORDED

    def keyed(self, line: Line) -> Line:
        """A line with a key of its own."""
        return {"key": f"{self.dice.getrandbits(128):032x}", **line}

    def opening(self, kinds: Optional[list[Line]] = None) -> Line:
        """An open of some kind."""
        dice, first = self.dice, self.dice.randrange(5)
        kind: Line = {"base": BASE, "calm": 1, "rate": [1, 10], "bar": [8, 10], "width": dice.randint(1, 3),
                      "reruns": dice.randint(1, 2), "count": dice.randint(2, 6), "weight": dice.randint(1, 3),
                      "test": dice.choice("tu"), **dice.choice(kinds or SOUND)}
        count, weight = kind.pop("count"), kind.pop("weight")
        suspects = [[commit(first + it), weight] for it in range(count)]
        return self.keyed({"do": "open", **kind, "base": kind["base"] or commit(first), "suspects": suspects})

    def fresh(self) -> Line:
        """A line with a new key."""
        pick = self.dice.randrange(20)
        if pick < 3:
            return self.opening()
        if pick < 5:
            return self.opening(FAULTY)
        if pick == 5:
            return self.keyed({"do": "cancel", "search": self.dice.randint(1, 16)})
        if pick < 8:
            return self.keyed({"do": "revert", "agent": "a"})
        return self.keyed({"do": "lease", "worker": "w"})

    def line(self) -> Line:
        """A line of any kind."""
        pick, dice = self.dice.randrange(240), self.dice
        earlier = [{name: value for name, value in it.items() if name != "at"} for it in self.lines if "key" in it]
        if pick < 106:
            return self.fresh()
        if pick < 114:
            return self.again(dice.choice(earlier))
        if pick < 120:
            return {**self.fresh(), "key": dice.choice(earlier)["key"]}
        if pick < 224:
            return self.report()
        return {"do": dice.choice(("farm", "orders", "search", "runs", "list")), "search": dice.randint(1, 24),
                "from": dice.randint(1, 4)}

    def again(self, line: Line) -> Line:
        """An earlier line; of an open, in half of the cases, with its rate, bar or base spelled in another way."""
        if line["do"] != "open" or self.dice.random() < 0.5:
            return line
        (a, b), (t, u) = line["rate"], line["bar"]
        others: list[Line] = [{"rate": [2 * a, 2 * b]}, {"bar": [2 * t, 2 * u]}, {"base": line["base"].upper()}]
        return {**line, **self.dice.choice(others)}

    def report(self) -> Line:
        """A report, mostly of one of the last runs that has none."""
        leases = self.farm.leases
        unreported = [it.number for it in leases[-10:] if it.reply is None]
        run = self.dice.randint(1, len(leases) + 2)
        if unreported and self.dice.random() < 0.9:
            run = self.dice.choice(unreported)
        return {"do": "report", "run": run, "verdict": self.verdict(run)}

    def verdict(self, run: int) -> str:
        """What a run's test says: it fails from its search's culprit on, but for a flake now and then; one position in
        six of a search can't be tested."""
        number, position = 0, 0
        if run <= len(self.farm.leases):
            number, position = self.farm.leases[run - 1].search.number, self.farm.leases[run - 1].position
        fixed = random.Random(self.seed * 10_000 + number)
        culprit = fixed.choice((99, 1, 1, 1, 2, 4))
        untestable = {it for it in range(21) if fixed.random() < 1 / 6}
        if position in untestable or self.dice.random() < 1 / 30:
            return "skip"
        return "fail" if (culprit <= position) == (self.dice.random() < 0.95) else "pass"


class Play(unittest.TestCase):
    """What the classes of plays share."""

    def setUp(self) -> None:
        folder = tempfile.TemporaryDirectory(prefix="a play ")
        self.addCleanup(folder.cleanup)
        self.journal = pathlib.Path(folder.name) / "farm.journal"

    def hold(self, said: str, lines: list[Line], replies: list[Reply]) -> None:
        """Holds what was said to lines to their replies."""
        for number, (text, line, reply) in enumerate(zip(said.splitlines(), lines, replies), 1):
            self.assertEqual(text, text_of(reply), f"line {number}: {line}")
        self.assertEqual(said.count("\n"), len(lines))

    def cut(self, player: Player) -> None:
        """Plays the lines over the journal, opened anew at several places, with the same replies."""
        count = len(player.lines)
        places = sorted(player.dice.sample(range(1, count), 4))
        for low, high in zip([0, *places], [*places, count]):
            said = call("run", str(self.journal), given=script_of(player.lines[low:high]))
            self.hold(said, player.lines[low:high], player.replies[low:high])

    def audit(self, farm: Farm) -> None:
        """Holds the audit of the journal to a legal history with the farm's numbers."""
        shown = farm.answer({"do": "farm"})
        self.assertEqual(call("audit", given=self.journal.read_bytes()),
                         "legal entries {entries} searches {searches} orders {orders}\n".format(**shown))

    def came_up(self, seen: collections.Counter[str], wanted: list[str]) -> None:
        """Holds the plays to what they are to show."""
        self.assertEqual([it for it in wanted if not seen[it]], [], "no play came to these")


class InMemory(Play):
    """Farms of a minute's leases, ten orders a day and days of UTC."""

    def test_replies_are_those_of_the_definitions_in_one_go_and_over_a_journal_that_is_opened_again(self) -> None:
        seen: collections.Counter[str] = collections.Counter()
        for seed in range(1, 9):
            with self.subTest(seed=seed):
                player = Player(seed, Farm()).play(400)
                self.hold(call("run", given=script_of(player.lines)), player.lines, player.replies)
                self.journal.write_bytes(founded(Farm()))
                self.cut(player)
                self.audit(player.farm)
                seen += player.seen
        rare = ["NoRun", "DailyLimit"]  # with leases of a minute, and ten orders a day
        self.came_up(seen, REPLIES + FATES + STANDINGS + CAUSES + [it for it in REFUSALS if it not in rare])


class Journals(Play):
    """Farms with other settings, that carry orders over, and are closed."""

    def begin(self, player: Player) -> Player:
        """The journal of a player's farm, which was just founded."""
        self.journal.write_bytes(founded(player.farm))
        return player

    def test_orders_of_a_day_by_the_farms_zone(self) -> None:
        seen: collections.Counter[str] = collections.Counter()
        for seed, zone in enumerate((60, -720, 840, 0, -210), 101):
            with self.subTest(seed=seed, zone=zone):
                farm = Farm(lease_ms=20_000 * (seed - 100), daily=seed % 3, zone=zone, founded=START)
                player = self.begin(Player(seed, farm)).play(400)
                self.cut(player)
                self.audit(farm)
                seen += player.seen
        self.came_up(seen, REPLIES + STANDINGS + REFUSALS)

    def test_farms_that_begin_with_carried_orders_are_closed_and_asked_on(self) -> None:
        seen: collections.Counter[str] = collections.Counter()
        for seed in range(201, 205):
            with self.subTest(seed=seed):
                farm = Farm(daily=1, zone=60, founded=START)
                for number in range(1, 4):
                    farm.carry(commit(number), number // 2)
                player = self.begin(Player(seed, farm)).play(300)
                self.come_to_rest(player)
                self.cut(player)
                self.hold_handed_over(farm)
                seen += player.seen
        self.came_up(seen, ["confirmed", "revert", "NoRevert"])

    def come_to_rest(self, player: Player) -> None:
        """Cancels each search, and takes an order a day."""
        farm = player.farm
        for search in range(1, len(farm.searches) + 1):
            player.ask({"at": player.clock, **player.keyed({"do": "cancel", "search": search})})
        while farm.waiting():
            player.clock += DAY_MS
            player.ask({"at": player.clock, **player.keyed({"do": "revert", "agent": "b"})})

    def hold_handed_over(self, farm: Farm) -> None:
        """Closes the journal's farm, and asks it on; a farm that inherits hands the same orders on."""
        orders = farm.carried + [(it["commit"], case_model.day_of(it["date"])) for it in farm.orders]
        handed = "".join(f"{it} {day}\n" for it, day in orders) + f"closed {len(orders)}\n"
        self.assertEqual([call("close", str(self.journal)) for _ in range(2)], [handed, handed])
        farm.close()
        self.audit(farm)
        player = Player(300, farm).play(100)
        self.hold(call("run", str(self.journal), given=script_of(player.lines)), player.lines, player.replies)
        self.assertTrue(player.seen["Closed"])
        heir = f"{self.journal}.{player.farm.entries}.{len(orders)}"
        self.assertEqual(call("inherit", heir, "60000", "1", "east:60", given=handed.encode()), "founded\n")
        self.assertEqual(call("close", heir), handed)


class Altered(Play):
    """Journals with an entry that may not stand where it does."""

    def hold_refused(self, records: list[bytes]) -> None:
        """Holds that the last of the entries, one a record, is illegal, by its history and by what is kept of it."""
        head = b"\x01CulpritFinder 2"
        parts = [b"\x01" + len(it).to_bytes(4, "big") + it for it in records]
        self.journal.write_bytes(head + b"".join(parts) + b"\x00")
        self.assertEqual(call("audit", given=self.journal.read_bytes()), f"illegal at {len(records) - 1}\n")
        ran = subprocess.run([PROGRAM, "show", self.journal], capture_output=True, timeout=PATIENCE, check=False)
        gate = len(head) + sum(map(len, parts[:-1]))
        self.assertEqual((ran.returncode, ran.stderr.decode()), (6, f"the journal is damaged at byte {gate}\n"))

    def records(self) -> list[bytes]:
        """The records of the journal."""
        found, rest = [], self.journal.read_bytes()[16:]
        while rest[0]:
            size = int.from_bytes(rest[1:5], "big")
            found.append(rest[5:5 + size])
            rest = rest[5 + size:]
        return found

    @staticmethod
    def changed(record: bytes) -> Optional[bytes]:
        """The entry with another deadline, fate or day than the rule's, where it has one."""
        last = {3: (record[-1] + 1) % 256, 4: record[-1] % 3 + 1, 6: (record[-1] + 1) % 256, 8: 3 - record[-1]}
        return record[:-1] + bytes([last[record[8]]]) if record[8] in last else None

    def test_an_entry_twice_or_too_early_or_changed_is_refused_at_its_place(self) -> None:
        seen: collections.Counter[int] = collections.Counter()
        for seed in range(401, 405):
            player = Player(seed, Farm(daily=2, founded=START))
            self.journal.write_bytes(founded(player.farm))
            player.play(200)
            call("run", str(self.journal), given=script_of(player.lines))
            records = self.records()
            self.assertEqual(len(records), player.farm.entries)
            for kind in (2, 3, 4, 5, 6, 8):
                places = [it for it in range(2, len(records)) if records[it][8] == kind]
                for place in player.dice.sample(places, min(2, len(places))):
                    with self.subTest(seed=seed, kind=kind, place=place):
                        self.hold_altered(records[:place], records[place], player.dice.choice(records[:place]))
                    seen[kind] += 1
        self.assertEqual(len(seen), 6, "some kind of entries came up in no play")

    def hold_altered(self, earlier: list[bytes], entry: bytes, again: bytes) -> None:
        """Holds that no earlier entry, and no change of the one behind them, may stand there."""
        last = earlier[-1][:8]
        before = int.from_bytes(last, "big") - 1
        self.hold_refused([*earlier, last + again[8:]])
        self.hold_refused([*earlier, before.to_bytes(8, "big") + entry[8:]])
        other = self.changed(entry)
        if other:
            self.hold_refused([*earlier, other])


class Limits(Play):
    """What a farm, a reply and a search take at most."""

    TWO: Line = {"do": "open", "test": "t", "base": BASE, "suspects": [[commit(1), 1], [commit(2), 1]], "calm": 1,
                 "rate": [1, 10], "bar": [9, 10], "width": 1, "reruns": 1}

    def lease(self, player: Player, number: int) -> None:
        """Leases a run, so many minutes after the start: when the run before has expired."""
        player.ask({"at": START + 60_000 * number, **player.keyed({"do": "lease", "worker": "w"})})

    def test_a_reply_has_100_runs_or_searches_at_most(self) -> None:
        player = Player(0, Farm())
        player.ask({"at": START, **player.keyed(self.TWO)})
        for number in range(1, 251):
            self.lease(player, number)
        for run, verdict in ((249, "fail"), (248, "skip")):
            player.ask({"at": START, "do": "report", "run": run, "verdict": verdict})
        for _ in range(120):
            player.ask({"at": START, **player.keyed(self.TWO)})
        for begin in (1, 2, 100, 101, 102, 200, 250, 251, 4_294_967_295):
            for search in (1, 2, 122):
                player.ask({"at": START, "do": "runs", "search": search, "from": begin})
            player.ask({"at": START, "do": "list", "from": begin})
        self.hold(call("run", given=script_of(player.lines)), player.lines, player.replies)
        runs = [len(it["runs"]) for it in player.replies if it.get("reply") == "runs" and it["search"] == 1]
        self.assertEqual(runs, [100, 100, 100, 100, 100, 51, 1, 0, 0])
        searches = [len(it["searches"]) for it in player.replies if it.get("reply") == "list"]
        self.assertEqual(searches, [100, 100, 22, 21, 20, 0, 0, 0, 0])

    def test_the_ninth_fail_of_a_thousand_heavy_suspects_is_over_the_budget(self) -> None:
        player = Player(0, Farm())
        many = {**self.TWO, "suspects": [[f"{it:040x}", 65_535] for it in range(1, 1_001)], "calm": 1_000_000,
                "rate": [1, 1_000], "bar": [9_999, 10_000]}
        player.ask({"at": START, **player.keyed(many)})
        for number in range(9):
            self.lease(player, number)
        for run in range(1, 10):
            player.ask({"at": START, "do": "report", "run": run, "verdict": "fail"})
        player.ask({"at": START, "do": "search", "search": 1})
        self.hold(call("run", given=script_of(player.lines)), player.lines, player.replies)
        self.assertEqual([it.get("fate") for it in player.replies[-10:-1]], ["counted"] * 8 + ["over"])

    def test_a_farm_takes_2_000_searches(self) -> None:
        player = Player(0, Farm())
        for number in range(2_001):
            player.ask({"at": START + number, **player.keyed(self.TWO)})
        player.ask(player.lines[1_999])
        player.ask({"at": START, "do": "farm"})
        self.hold(call("run", given=script_of(player.lines)), player.lines, player.replies)
        self.assertEqual(player.replies[2_000:2_002], [{"refused": "TooManySearches"}, player.replies[1_999]])

    def test_a_farm_takes_1_000_000_entries_and_then_repeats_shows_and_is_closed(self) -> None:
        opened = (START.to_bytes(8, "big") + b"\x02" + bytes(16) + b"\0\0\0\x01\x01t" + bytes.fromhex(BASE)
                  + b"\0\0\0\x01\0\x02" + b"".join(bytes.fromhex(commit(it)) + b"\0\x01" for it in (1, 2))
                  + b"\0\x01\0\x0a\0\x09\0\x0a\x01\x01")
        leases = [struct.pack(">QBQQ2sIIBHQ", START + 60_000 * it, 3, 0, it, b"\x01w", it, 1, 1, 1,
                              START + 60_000 * (it + 1)) for it in range(1, 999_997)]
        with self.journal.open("wb") as file:
            file.write(founded(Farm(founded=START))[:-1])
            for begin in range(0, len(leases), 20_000):
                record = (b"" if begin else opened) + b"".join(leases[begin:begin + 20_000])
                file.write(b"\x01" + len(record).to_bytes(4, "big") + record)
            file.write(b"\0")
        lines: list[Line] = [{"at": START + 60_000 * it, "do": "lease", "key": f"{it:032x}", "worker": "w"}
                             for it in (999_997, 999_998, 999_999, 1)]

        def leased(number: int) -> Reply:
            return {"reply": "lease", "run": number, "search": 1, "stage": "search", "position": 1, "test": "t",
                    "commit": commit(1), "deadline": START + 60_000 * (number + 1)}

        shown = {"reply": "farm", "entries": 1_000_000, "searches": 1, "searching": 1, "verifying": 0, "confirmed": 0,
                 "ended": 0, "counted": 0, "orders": 0}
        self.hold(call("run", str(self.journal), given=script_of([*lines, {"at": START, "do": "farm"}])),
                  [*lines, {"do": "farm"}], [leased(999_997), leased(999_998), {"refused": "Full"}, leased(1), shown])
        self.assertEqual(call("close", str(self.journal)), "closed 0\n")


if __name__ == "__main__":
    unittest.main()
