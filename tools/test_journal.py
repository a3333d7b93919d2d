#!/usr/bin/env python3
"""Tests of the journal's bytes beside docs/FORMATS.md, by a writer and a reader of their own: what the program writes,
which bytes it takes for entries, and where it says that a file is damaged.

    CULPRIT_FINDER=PROGRAM python3 tools/test_journal.py [CLASS[.TEST]]

`audit` and `show` read entries by code of their own each, so both are asked about each file. An entry that may not
stand where it does is `illegal` to an audit, and one that is malformed makes its record no record of entries:
`broken`. `show` says `damaged` in both cases. So the malformed entries have sound ones beside them that may stand in
their place.
"""
from __future__ import annotations

import json
import os
import pathlib
import subprocess
import tempfile
import unittest
from typing import Any, Iterator, Optional, Union

TOOLS = pathlib.Path(__file__).resolve().parent
PROGRAM = os.environ.get("CULPRIT_FINDER") or str(TOOLS.parent / "finder")
PATIENCE = 120.0  # seconds that a call may take which takes well below one: the machine may be slow, and loaded

FIRST = 86_400_000  # the first moment
LAST = 4_102_444_800_000  # the last one
AT = 100_000_000  # the moment of what has no other
MOST = 1_048_576  # the longest payload
MAGIC = b"CulpritFinder "


def u(number: int, size: int) -> bytes:
    """A number in so many bytes."""
    return number.to_bytes(size, "big")


def named(text: bytes) -> bytes:
    """A name."""
    return u(len(text), 1) + text


def entry(tag: int, *fields: bytes, at: int = AT) -> bytes:
    """An entry."""
    return u(at, 8) + u(tag, 1) + b"".join(fields)


def founded(at: int = FIRST, lease: int = 60_000, daily: int = 10, zone: int = 720) -> bytes:
    """A founding; the zone is told from the westernmost one."""
    return entry(1, u(lease, 4), u(daily, 2), u(zone, 2), at=at)


def opened(search: int = 1, key: int = 1, test: bytes = b"t", calm: int = 1, weights: tuple[int, ...] = (1, 1, 1, 1),
           commits: Optional[list[int]] = None, count: Optional[int] = None, rate: tuple[int, int] = (1, 10),
           miss: bytes = b"", bar: tuple[int, int] = (9, 10), width: int = 1, reruns: int = 1,
           tag: Optional[int] = None) -> bytes:
    """An opening above the base 0, of suspects whose commits are 1, 2 and so on where none are given."""
    ids = commits or range(1, len(weights) + 1)
    suspects = b"".join(u(commit, 20) + u(weight, 2) for commit, weight in zip(ids, weights))
    return entry(tag or (7 if miss else 2), u(key, 16), u(search, 4), named(test), u(0, 20), u(calm, 4),
                 u(len(weights) if count is None else count, 2), suspects, u(rate[0], 2), u(rate[1], 2), miss,
                 u(bar[0], 2), u(bar[1], 2), u(width, 1), u(reruns, 1))


def leased(run: int = 1, position: int = 2, stage: int = 1, search: int = 1, key: int = 2, worker: bytes = b"\x01w",
           deadline: int = AT + 60_000) -> bytes:
    """A lease; the worker is given with its length."""
    return entry(3, u(key, 16), worker, u(run, 4), u(search, 4), u(stage, 1), u(position, 2), u(deadline, 8))


def reported(run: int = 1, verdict: int = 2, fate: int = 1, at: int = AT) -> bytes:
    """A report."""
    return entry(4, u(run, 4), u(verdict, 1), u(fate, 1), at=at)


def skipped(run: int = 1, fate: int = 1) -> bytes:
    """A skip."""
    return entry(8, u(run, 4), u(fate, 1))


def cancelled(search: int = 1, key: int = 9) -> bytes:
    """A cancellation."""
    return entry(5, u(key, 16), u(search, 4))


def ordered(order: int = 1, commit: int = 1, search: int = 1, day: int = 1, key: int = 9, agent: bytes = b"a") -> bytes:
    """An order."""
    return entry(6, u(key, 16), named(agent), u(order, 4), u(commit, 20), u(search, 4), u(day, 4))


def closed() -> bytes:
    """A closing."""
    return entry(9)


def carried(commit: int = 2, day: int = 1, at: int = FIRST) -> bytes:
    """An order that was carried over."""
    return entry(10, u(commit, 20), u(day, 4), at=at)


def journal(*records: bytes, version: bytes = b"2", gate: bytes = b"\x01") -> bytes:
    """A journal of these payloads."""
    return b"\x01" + MAGIC + version + b"".join(gate + u(len(it), 4) + it for it in records) + b"\x00"


# A search that names and confirms suspect 1 by its prior, two reruns and its order: entries 2 to 7, without the order.
SURE = [opened(weights=(1000,)), leased(position=1, stage=2), reported(), leased(2, 0, 2, key=3), reported(2, 1)]

# A search of four suspects, whose first run is due at position 2.
ASKED = [opened(), leased()]

ID = "00000000-0000-0000-0000-{:012x}".format


def asks(do: str, number: int = 0, **members: Any) -> bytes:
    """A line of a script, under the key of this number."""
    return json.dumps({"at": AT, "do": do, "key": ID(number), **members}).encode() + b"\n"


def search(number: int, weights: tuple[int, ...] = (1, 1, 1, 1), **members: Any) -> bytes:
    """The line that opens a search as `opened` does."""
    given = {"test": "t", "base": f"{0:040x}", "suspects": [[f"{i:040x}", it] for i, it in enumerate(weights, 1)],
             "calm": 1, "rate": [1, 10], "bar": [9, 10], "width": 1, "reruns": 1, **members}
    return asks("open", number, **given)


Found = Union[int, list[bytes], None]


def payloads(file: bytes) -> Found:
    """The payloads of a file, or where it is damaged; None where it is unborn."""
    if len(file) <= 1 or file[0] == 0:
        return None
    for place in range(1, 16):
        if place >= len(file) or (place < 15 and file[place] != MAGIC[place - 1]):
            return place
    gate, records = 16, []
    while True:
        if gate >= len(file):
            return gate
        if file[gate] == 0:
            return records
        size = int.from_bytes(file[gate + 1:gate + 5], "big")
        record = file[gate + 5:gate + 5 + size]
        if len(file) < gate + 5 or not 1 <= size <= MOST or len(record) < size:
            return gate
        records.append(record)
        gate += 5 + size


class Case(unittest.TestCase):
    """A file J in a folder of its own."""

    def setUp(self) -> None:
        folder = tempfile.TemporaryDirectory(prefix="a journal ")
        self.addCleanup(folder.cleanup)
        self.file = pathlib.Path(folder.name) / "J"

    def call(self, *words: str, given: bytes = b"") -> tuple[int, str]:
        """The status of a call in the file's folder, and the first line that it writes, or else says."""
        ran = subprocess.run([PROGRAM, *words], input=given, capture_output=True, timeout=PATIENCE,
                             cwd=self.file.parent, check=False)
        return ran.returncode, (ran.stdout or ran.stderr).decode().split("\n")[0]

    def look(self, file: bytes) -> tuple[str, str]:
        """What an audit finds of a file; and how many entries `show` shows of it, or what it says."""
        self.file.write_bytes(file)
        audited, shown = self.call("audit", given=file), self.call("show", "J")
        self.assertEqual(audited[0], 0)
        return audited[1], f"{json.loads(shown[1])['entries']} entries" if shown[0] == 0 else shown[1]

    def hold(self, title: str, file: bytes, audited: str, shown: Union[int, str]) -> None:
        """Holds a file to what an audit finds, and to what `show` says, or where it says that the file is damaged."""
        wanted = shown if isinstance(shown, str) else f"the journal is damaged at byte {shown}"
        self.assertEqual(self.look(file), (audited, wanted), title)


class Written(Case):
    """What the program writes, entry by entry."""

    def play(self, before: bytes, script: bytes, after: bytes) -> list[str]:
        """Runs a script over a journal, and holds the file to these bytes. The replies, and what follows the last."""
        self.file.write_bytes(before)
        ran = subprocess.run([PROGRAM, "run", "J"], input=script, capture_output=True, timeout=PATIENCE,
                             cwd=self.file.parent, check=False)
        self.assertEqual((ran.returncode, ran.stderr), (0, b""))
        self.assertEqual(self.file.read_bytes().hex(), after.hex())
        return ran.stdout.decode().split("\n")

    def test_a_search_that_ends_in_an_order(self) -> None:
        """A record for each entry: an opening, leases and reports of both stages and verdicts, and an order."""
        script = search(1)
        rows = [(2, 1, "fail"), (1, 1, "pass"), (2, 1, "fail"), (2, 2, "fail"), (1, 2, "pass")]
        wanted = [founded(), opened()]
        for run, (position, stage, verdict) in enumerate(rows, 1):
            script += asks("lease", run + 1, worker="w") + asks("report", run=run, verdict=verdict)
            wanted += [leased(run, position, stage, key=run + 1), reported(run, 2 if verdict == "fail" else 1)]
        script += asks("revert", 7, agent="a")
        wanted.append(ordered(commit=2, key=7))
        replies = self.play(journal(founded()), script, journal(*wanted))
        self.assertEqual(len(replies), 13)
        self.assertEqual(len(journal(*wanted)), 618)

    def test_skips_cancellations_and_what_comes_late(self) -> None:
        """A skip taken, and a skip and a report that are late; a cancellation."""
        script = (search(1, width=2) + asks("lease", 2, worker="w~") + asks("lease", 3, worker="w~")
                  + asks("report", run=1, verdict="skip") + asks("lease", 4, worker="w~") + asks("cancel", 9, search=1)
                  + asks("report", run=2, verdict="skip") + asks("report", run=3, verdict="pass"))
        # Width 2 plans for a third and two thirds of five: 5/3 is nearest to the sum 2 of suspects 1 and 2, and 10/3
        # to that of suspects 1 to 3. After the skip at 2 the run that is due goes to 1 or 3, by the tie to 1.
        wanted = [founded(), opened(width=2), leased(1, 2, worker=b"\x02w~"), leased(2, 3, worker=b"\x02w~", key=3),
                  skipped(1), leased(3, 1, worker=b"\x02w~", key=4), cancelled(), skipped(2, 2), reported(3, 1, 2)]
        replies = self.play(journal(founded()), script, journal(*wanted))
        self.assertEqual(replies[-2], '{"fate":"late","reply":"report","run":3,"search":1,"standing":"cancelled",'
                                      '"verdict":"pass"}')

    def test_a_miss_rate_has_a_tag_of_its_own(self) -> None:
        """An opening with a miss rate, rates in lowest terms, the greatest weight, and a hyphened key."""
        key = 0x000102030405060708090a0b0c0d0e0f
        line = search(0, (1, 65535), key="00010203-0405-0607-0809-0a0b0c0d0e0f", test="net::dns", calm=1000000,
                      rate=[2, 20], miss=[2, 4], width=8)
        wanted = opened(key=key, test=b"net::dns", calm=1000000, weights=(1, 65535), miss=b"\x01\x02", width=8)
        self.assertEqual(wanted.hex(), (
            "0000000005f5e10007000102030405060708090a0b0c0d0e0f00000001086e65743a3a646e7300000000000000000000000000000"
            "00000000000000f424000020000000000000000000000000000000000000001000100000000000000000000000000000000000000"
            "02ffff0001000a01020009000a0801"))
        self.play(journal(founded()), line, journal(founded(), wanted))

    def test_a_report_over_the_budget(self) -> None:
        """The fate `over`. A pass halves the suspects in its tree, 500 beside 999, and 999 is the greatest number: 5 of
        it to the power of 11 in basis points are below 2^128, and to the power of 12 not. Twelve passes leave nobody
        below the bar, as 4,096 of 4,100 are. Where they are made is what the search says."""
        self.assertTrue(5 * 999 ** 11 * 10_000 < 2 ** 128 <= 5 * 999 ** 12 * 10_000)
        script = search(1, rate=[1, 1000], miss=[1, 2], bar=[9999, 10000])
        for run in range(1, 13):
            script += asks("lease", run + 1, worker="w") + asks("report", run=run, verdict="pass")
        told = subprocess.run([PROGRAM, "run"], input=script, capture_output=True, timeout=PATIENCE, check=True)
        leases = [it for it in map(json.loads, told.stdout.splitlines()) if it["reply"] == "lease"]
        wanted = [founded(), opened(rate=(1, 1000), miss=b"\x01\x02", bar=(9999, 10000))]
        for run, lease in enumerate(leases, 1):
            wanted += [leased(run, lease["position"], key=run + 1), reported(run, 1, 3 if run == 12 else 1)]
        replies = self.play(journal(founded()), script, journal(*wanted))
        self.assertEqual(json.loads(replies[0])["budget"], 11)
        self.assertEqual(json.loads(replies[-2])["standing"], "inconclusive")

    def test_founding(self) -> None:
        """A founding at the clock's moment, with each setting at an end of its limits."""
        for words, wanted in [(("60000", "10", "east:0"), "0000ea60000a02d0"),
                              (("1000", "0", "west:720"), "000003e800000000"),
                              (("86400000", "1000", "east:840"), "05265c0003e80618")]:
            self.assertEqual(self.call("found", "J", *words), (0, "founded"))
            file = self.file.read_bytes().hex()
            head = (b"\x01" + MAGIC + b"2\x01" + u(17, 4)).hex()
            self.assertEqual(file[:42] + file[58:], head + "01" + wanted + "00")
            self.file.unlink()


# A title, and an entry.
Row = tuple[str, bytes]

# What comes before, the entries that may come then, and malformed ones in their place.
KINDS: list[tuple[list[bytes], list[Row], list[Row]]] = [
    ([], [
        ("a founding at the first moment", founded()),
        ("a founding at the last moment", founded(at=LAST)),
        ("the shortest lease", founded(lease=1_000)),
        ("the longest lease", founded(lease=86_400_000)),
        ("no orders a day", founded(daily=0)),
        ("the most orders a day", founded(daily=1_000)),
        ("the westernmost zone", founded(zone=0)),
        ("the easternmost zone", founded(zone=1_560)),
    ], [
        ("no tag", founded()[:8]),
        ("a tag below the first", entry(0, founded()[9:], at=FIRST)),
        ("a tag above the last", entry(11, founded()[9:], at=FIRST)),
        ("the millisecond before the first moment", founded(at=FIRST - 1)),
        ("the millisecond after the last moment", founded(at=LAST + 1)),
        ("a lease that is too short", founded(lease=999)),
        ("a lease that is too long", founded(lease=86_400_001)),
        ("too many orders a day", founded(daily=1_001)),
        ("a zone too far east", founded(zone=1_561)),
    ]),
    ([founded()], [
        ("an opening", opened(weights=(1,))),
        ("the longest name", opened(test=b"~" * 200)),
        ("a name of a space", opened(test=b" ")),
        ("the least and the greatest weight", opened(weights=(1, 65_535))),
        ("the greatest calm weight", opened(calm=1_000_000)),
        ("the most suspects", opened(weights=(1,) * 1_000)),
        ("the greatest flake rate", opened(rate=(999, 1_000))),
        ("a miss rate", opened(weights=(1,), miss=b"\x01\x02")),
        ("the greatest denominator of a miss rate", opened(miss=b"\x01\x64")),
        ("a bar just above one half", opened(bar=(5_000, 9_999))),
        ("the greatest bar", opened(bar=(9_999, 10_000))),
        ("a bar in higher terms", opened(bar=(18, 20))),
        ("the greatest width and the most reruns", opened(width=8, reruns=8)),
    ], [
        ("no suspect", opened(weights=())),
        ("too many suspects", opened(weights=(1,) * 1_001)),
        ("fewer suspects than are said", opened(weights=(1, 65_535), count=3)),
        ("a weight of 0", opened(weights=(0, 65_535))),
        ("a calm weight of 0", opened(calm=0)),
        ("a calm weight that is too great", opened(calm=1_000_001)),
        ("a suspect that repeats the base", opened(weights=(1, 1), commits=[1, 0])),
        ("a suspect that repeats another", opened(weights=(1, 1), commits=[1, 1])),
        ("a flake rate of 0", opened(rate=(0, 1))),
        ("a flake rate of 1", opened(rate=(1, 1))),
        ("a flake rate in higher terms", opened(rate=(2, 20))),
        ("a flake rate with too great a denominator", opened(rate=(1, 1_001))),
        ("a miss rate where the tag says that there is none", opened(miss=b"\x01\x02", tag=2)),
        ("no miss rate where the tag says that there is one", opened(tag=7)),
        ("a miss rate of 0 that is spelled", opened(miss=b"\x00\x01")),
        ("a miss rate in higher terms", opened(miss=b"\x02\x04")),
        ("a miss rate of 1", opened(miss=b"\x01\x01")),
        ("a miss rate that does not fit the flake rate", opened(miss=b"\x09\x0a")),
        ("a miss rate with too great a denominator", opened(miss=b"\x01\x65")),
        ("a bar of one half", opened(bar=(1, 2))),
        ("a bar of 1", opened(bar=(1, 1))),
        ("a bar with too great a denominator", opened(bar=(5_001, 10_001))),
        ("a width of 0", opened(width=0)),
        ("a width that is too great", opened(width=9)),
        ("no reruns", opened(reruns=0)),
        ("too many reruns", opened(reruns=9)),
        ("an empty name", opened(test=b"")),
        ("a name that is too long", opened(test=b"~" * 201)),
    ]),
    ([founded(), opened()], [
        ("a lease", leased()),
        ("the longest worker's name", leased(worker=b"\xc8" + b"w" * 200)),
        ("a cancellation", cancelled()),
    ], [
        ("a stage below the first", leased(stage=0)),
        ("a stage above the last", leased(stage=3)),
        ("an empty name", leased(worker=b"\x00")),
        ("a name with a control character", leased(worker=b"\x02\x1fA")),
        ("a name with the character behind the last", leased(worker=b"\x02\x7fA")),
        ("a name beyond ASCII", leased(worker=b"\x02\xc3\xa9")),
        ("a name that is cut off", leased()[:25] + b"\xc8A"),
        ("a name that is too long", leased(worker=b"\xc9" + b"w" * 201)),
    ]),
    ([founded(), *ASKED], [
        ("a report of a fail", reported()),
        ("a report of a pass", reported(verdict=1)),
        ("a skip", skipped()),
    ], [
        ("a verdict below the first", reported(verdict=0)),
        ("a verdict above the last", reported(verdict=3)),
        ("a fate below the first", reported(fate=0)),
        ("a fate above the last", reported(fate=4)),
        ("a fate of a skip below the first", skipped(fate=0)),
        ("a fate of a skip above the last", skipped(fate=3)),
    ]),
    ([founded(), *SURE], [("an order", ordered())], [("an order for an empty name", ordered(agent=b""))]),
    ([founded()], [
        ("a closing", closed()),
        ("an order that was carried over", carried()),
    ], [
        ("a closing with a field", closed() + b"\x00"),
    ]),
]

# Entries that are well formed, each number at an end of its bytes, and may not stand behind a founding.
MISPLACED: list[Row] = [
    ("a second founding", founded()),
    ("an opening with another number", opened(search=2)),
    ("a lease with the greatest numbers", leased(2 ** 32 - 1, 0x0102, 2, 2, worker=b"\x02w~", deadline=2 ** 64 - 1)),
    ("a report of no run", reported(2 ** 32 - 1)),
    ("a late report", reported(fate=2)),
    ("a report over the budget", reported(fate=3)),
    ("a skip of no run", skipped(2 ** 32 - 1, 2)),
    ("a cancellation of no search", cancelled(0, 2 ** 128 - 1)),
    ("an order of no search", ordered(3, 2, 4, 20_000, agent=b" ")),
    ("an order that was carried over from the last day that has a number", carried(255, 2 ** 32 - 1)),
    ("an order that was carried over at another moment", carried(at=AT)),
]


def rows() -> Iterator[tuple[list[bytes], bool, str, bytes]]:
    """Each row: what comes before, whether the entry may come then, and its title and bytes."""
    for before, sound, malformed in KINDS:
        for title, found in sound:
            yield before, True, title, found
        for title, found in malformed:
            yield before, False, title, found


def legal(*entries: bytes) -> str:
    """What an audit finds of a legal history of these entries."""
    tags = [it[8] for it in entries]
    return f"legal entries {len(tags)} searches {sum(it in (2, 7) for it in tags)} orders {tags.count(6)}"


class Entries(Case):
    """Which bytes are entries."""

    def test_each_field_at_its_limits_and_past_them(self) -> None:
        """A sound entry is read where it may stand, and in its place a malformed one damages its record's gate."""
        for before, sound, title, found in rows():
            gate = len(journal(*before)) - 1
            file = journal(*before, found)
            if sound:
                self.hold(title, file, legal(*before, found), f"{len(before) + 1} entries")
            else:
                self.hold(title, file, f"broken at {gate}", gate)

    def test_entries_where_they_may_not_stand(self) -> None:
        """An entry that is well formed is read, and is illegal where it stands."""
        for title, found in MISPLACED:
            self.hold(title, journal(founded(), found), "illegal at 1", 38)

    def test_entries_that_are_cut_off_or_too_long(self) -> None:
        """Each beginning of an entry of each kind, and each with a byte behind it, makes its record none of entries."""
        tags: set[int] = set()
        for before, sound, title, found in rows():
            if not sound or found[8] in tags:
                continue
            tags.add(found[8])
            gate = len(journal(*before)) - 1
            for length in [*range(1, len(found)), len(found) + 1]:
                file = journal(*before, (found + b"\x00")[:length])
                self.hold(f"{title}, {length} bytes", file, f"broken at {gate}", gate)
        self.assertEqual(tags, set(range(1, 11)))

    def test_records_of_several_entries(self) -> None:
        """The history is that of all records in their order, however they share records; a record is damaged as one."""
        story = [founded(), carried(5), *SURE, ordered(), closed()]
        for records in ([b"".join(story)], story, [b"".join(story[:3]), b"".join(story[3:])]):
            self.hold("a story", journal(*records), legal(*story), "9 entries")
        wrong = reported(fate=4)
        self.hold("the second entry of the first record", journal(founded() + wrong), "broken at 16", 16)
        self.hold("the second entry of the second record", journal(founded(), carried() + wrong), "broken at 38", 38)
        self.hold("the third record", journal(founded(), carried(), wrong), "broken at 76", 76)
        self.hold("a byte behind an entry", journal(founded(), carried() + b"\x00"), "broken at 38", 38)
        self.hold("two that are wrong", journal(founded(zone=1_561) + wrong), "broken at 16", 16)
        self.hold("two foundings in one record", journal(founded() * 2), "illegal at 1", 16)
        late = journal(founded(), founded(), wrong)
        self.hold("one that may not stand, and a malformed one behind it", late, "broken at 60", 38)

    def test_the_longest_record(self) -> None:
        """A record has 1,048,576 bytes at most."""
        entries = [founded(), *(carried(commit) for commit in range(5_000, 35_000)),
                   opened(1, 1, weights=(1,) * 1_000), opened(2, 2, weights=(1,) * 1_000)]
        rest = MOST - len(b"".join(entries)) - len(opened(weights=(1,) * 652, test=b""))
        for more, wanted in [(0, ("long 30004", "30004 entries")), (1, ("broken at 16", 16))]:
            last = opened(3, 3, weights=(1,) * 652, test=b"t" * (rest + more))
            payload = b"".join([*entries, last])
            self.assertEqual(len(payload), MOST + more)
            self.hold(f"{len(payload)} bytes", journal(payload), *wanted)


class Files(Case):
    """Which bytes are a journal, and where a file is damaged."""

    STORY = [founded(), opened(weights=(1,)), leased(position=1)]

    def hold_as_read(self, title: str, file: bytes) -> None:
        """Holds a file to what the reader above finds, whose records are the first ones of the story."""
        found = payloads(file)
        if found is None:
            self.hold(title, file, "unborn", "the journal has not been founded")
        elif isinstance(found, int) or not found:
            gate = found if isinstance(found, int) else 16
            self.hold(title, file, f"broken at {gate}", gate)
        elif found == self.STORY[:len(found)]:
            self.hold(title, file, legal(*found), f"{len(found)} entries")
        else:
            self.assertEqual(self.look(file)[0][:9], "broken at", title)

    def test_each_beginning_of_a_file(self) -> None:
        """A file that was cut off anywhere is damaged there, or at the gate of the record that isn't whole."""
        file = journal(*self.STORY)
        for length in range(len(file) + 1):
            self.hold_as_read(f"the first {length} bytes", file[:length])

    def test_each_byte_of_the_form_changed(self) -> None:
        """A file where a byte of the header, a gate or a length has another value."""
        file = journal(*self.STORY)
        gates = [len(journal(*self.STORY[:count])) - 1 for count in range(len(self.STORY) + 1)]
        places = [*range(16), *(gate + i for gate in gates[:-1] for i in range(5)), gates[-1]]
        for place in places:
            for value in {0, 1, 7, 49, 255, (file[place] + 1) % 256, (file[place] - 1) % 256} - {file[place]}:
                changed = file[:place] + u(value, 1) + file[place + 1:]
                self.hold_as_read(f"byte {place} of {value}", changed)

    def test_what_follows_a_closed_gate_means_nothing(self) -> None:
        """Any bytes, also those of a record, and as many as may be, behind each closed gate."""
        for count in range(1, len(self.STORY) + 1):
            for rest in (b"\x00", b"\xff" * 6, journal(reported())[17:], b"\x00\x00\x00\x00", b"\x01" * MOST):
                self.hold_as_read(f"{len(rest)} bytes", journal(*self.STORY[:count]) + rest)


if __name__ == "__main__":
    unittest.main()
