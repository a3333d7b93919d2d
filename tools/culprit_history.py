"""The history of a farm, read from the bytes of its entries (docs/FORMATS.md, "Entries in bytes"), and what it comes
to: the searches, their runs, the orders.

Nothing here is proved, and nothing here decides: where a search stands and what its shares are is the program's to say.
"""
from __future__ import annotations

import functools
import struct
from typing import Any, Iterator, NamedTuple, Optional, Union

HEADER = b"CulpritFinder "
STAGES, VERDICTS = {1: "search", 2: "verify"}, {1: "pass", 2: "fail"}
FATES, SKIP_FATES = {1: "counted", 2: "late", 3: "over"}, {1: "skipped", 2: "late"}
WESTERNMOST = -720  # the zone that zones are counted from, in minutes east of UTC


class Unreadable(Exception):
    """The bytes are none of a history that this tool knows; the text says where and why."""


# ---- entries --------------------------------------------------------------------------------------------------------

class Founded(NamedTuple):
    """The farm was founded: its leases in milliseconds, its orders a day, its zone in minutes east of UTC."""

    at: int
    lease: int
    daily: int
    zone: int


class Opened(NamedTuple):
    """A search was opened; `suspects` are commit and prior weight of each, in order. A rate is two whole numbers."""

    at: int
    search: int
    test: str
    base: str
    calm: int
    suspects: list[tuple[str, int]]
    rate: tuple[int, int]
    miss: tuple[int, int]
    bar: tuple[int, int]
    width: int
    reruns: int


class Leased(NamedTuple):
    """A run was handed out to a worker."""

    at: int
    worker: str
    run: int
    search: int
    stage: str
    position: int
    deadline: int


class Reported(NamedTuple):
    """A run was reported; the verdict of one whose tree can't be tested is `skip`, and its fate `skipped` or `late`."""

    at: int
    run: int
    verdict: str
    fate: str


class Cancelled(NamedTuple):
    """A search was cancelled."""

    at: int
    search: int


class Ordered(NamedTuple):
    """A revert was ordered; `day` counts days of the farm's zone since 1970-01-01."""

    at: int
    agent: str
    order: int
    commit: str
    search: int
    day: int


class Carried(NamedTuple):
    """An order of a farm before this one was carried over: no farm that follows orders its commit again."""

    at: int
    commit: str
    day: int


class Closed(NamedTuple):
    """The farm was closed: it takes no more commands, and hands its orders over to the next one."""

    at: int


Entry = Union[Founded, Opened, Leased, Reported, Cancelled, Ordered, Carried, Closed]
SUSPECT = struct.Struct(">20sH")


@functools.lru_cache(None)
def _shape(form: str) -> struct.Struct:
    return struct.Struct(">" + form)


class _Bytes:
    """Bytes that are read from a place on. What isn't there raises struct.error or IndexError."""

    def __init__(self, data: bytes, at: int) -> None:
        self.data, self.at = data, at

    def take(self, form: str) -> tuple[Any, ...]:
        """The numbers and pieces of a form of `struct`, the highest byte first."""
        shape = _shape(form)
        taken = shape.unpack_from(self.data, self.at)
        self.at += shape.size
        return taken

    def name(self) -> str:
        """A name: its length in a byte, and its signs."""
        size = self.data[self.at]
        text = self.data[self.at + 1:self.at + 1 + size].decode("ascii")
        if not 1 <= size <= 200 or len(text) != size or not text.isprintable():
            raise ValueError("no name")
        self.at += 1 + size
        return text


def _opened(at: int, data: _Bytes, misses: bool) -> Opened:
    search, = data.take("16xI")
    test = data.name()
    base, calm, count = data.take("20sIH")
    end = data.at + SUSPECT.size * count
    piece = data.data[data.at:end]
    if not 1 <= count <= 1_000 or len(piece) != end - data.at:
        raise ValueError("no suspects")
    suspects = [(commit.hex(), weight) for commit, weight in SUSPECT.iter_unpack(piece)]
    data.at = end
    rate, miss = data.take("HH"), data.take("BB") if misses else (0, 1)
    return Opened(at, search, test, base.hex(), calm, suspects, rate, miss, data.take("HH"), *data.take("BB"))


def _leased(at: int, data: _Bytes) -> Leased:
    data.take("16x")
    worker = data.name()
    run, search, stage, position, deadline = data.take("IIBHQ")
    return Leased(at, worker, run, search, STAGES[stage], position, deadline)


def _ordered(at: int, data: _Bytes) -> Ordered:
    data.take("16x")
    agent = data.name()
    order, commit, search, day = data.take("I20sII")
    return Ordered(at, agent, order, commit.hex(), search, day)


def _entry(at: int, tag: int, data: _Bytes) -> Entry:
    if tag == 1:
        lease, daily, zone = data.take("IHH")
        return Founded(at, lease, daily, zone + WESTERNMOST)
    if tag in (2, 7):
        return _opened(at, data, tag == 7)
    if tag == 3:
        return _leased(at, data)
    if tag == 4:
        run, verdict, fate = data.take("IBB")
        return Reported(at, run, VERDICTS[verdict], FATES[fate])
    if tag == 5:
        return Cancelled(at, *data.take("16xI"))
    if tag == 6:
        return _ordered(at, data)
    if tag == 8:
        run, fate = data.take("IB")
        return Reported(at, run, "skip", SKIP_FATES[fate])
    return Closed(at) if tag == 9 else _carried(at, data)


def _carried(at: int, data: _Bytes) -> Carried:
    commit, day = data.take("20sI")
    return Carried(at, commit.hex(), day)


def entries_of(data: bytes, start: int = 0) -> Iterator[tuple[Entry, bytes]]:
    """The entries that bytes are made of, each with its own. `start` is where the first one stands in the whole, for
    what is said."""
    reader = _Bytes(data, 0)
    while reader.at < len(data):
        begin = reader.at
        try:
            at, tag = reader.take("QB")
            if not 1 <= tag <= 10:
                raise Unreadable(f"the entry at byte {start + begin} is of a kind, {tag}, that this tool doesn't know: "
                                 "take the tools of the program that wrote it")
            entry = _entry(at, tag, reader)
        except (struct.error, LookupError, ValueError) as fault:
            raise Unreadable(f"there is no entry at byte {start + begin}") from fault
        yield entry, data[begin:reader.at]


def entries_of_journal(data: bytes) -> Iterator[Entry]:
    """The entries of a journal's file, up to its closed gate."""
    if len(data) <= 1 or data[0] == 0:
        raise Unreadable("it has not been founded")
    if data[1:15] != HEADER or len(data) < 16:
        raise Unreadable("it is no journal")
    at = 16
    while data[at:at + 1] != b"\0":
        size = int.from_bytes(data[at + 1:at + 5], "big")
        payload = data[at + 5:at + 5 + size]
        if len(data) < at + 5 or not 1 <= size <= 1 << 20 or len(payload) < size:
            raise Unreadable(f"it is damaged at byte {min(at, len(data))}")
        yield from (entry for entry, _ in entries_of(payload, at + 5))
        at += 5 + size


# ---- what they come to ----------------------------------------------------------------------------------------------

class Run:
    """A run that was handed out, and what was reported of it; `reported` is when."""

    def __init__(self, lease: Leased) -> None:
        self.lease = lease
        self.number, self.stage, self.position, self.worker = lease.run, lease.stage, lease.position, lease.worker
        self.reported: Optional[int] = None
        self.verdict: Optional[str] = None
        self.fate: Optional[str] = None


class Search:
    """A search: what it was opened with, its runs in the order of their leases, and in that of their reports.

    `before_end` is how many were reported before it was cancelled."""

    def __init__(self, opening: Opened) -> None:
        self.opening, self.number = opening, opening.search
        self.runs: list[Run] = []
        self.told: list[Run] = []
        self.cancelled: Optional[int] = None
        self.before_end: Optional[int] = None
        self.order: Optional[Ordered] = None

    def commit(self, position: int) -> str:
        """The commit of a tree: that of the base, 0, or of a suspect."""
        return self.opening.suspects[position - 1][0] if position else self.opening.base


class History:
    """What the entries of a farm come to, in the order in which they are added."""

    def __init__(self) -> None:
        self.count = 0
        self.founding: Optional[Founded] = None
        self.searches: list[Search] = []
        self.runs: list[Run] = []
        self.orders: list[Ordered] = []
        self.carried: list[Carried] = []
        self.closed: Optional[int] = None  # the moment

    def add(self, entry: Entry) -> Optional[Search]:
        """Takes an entry in; the search that it is about, where it is about one."""
        try:
            search = self._add(entry)
        except (LookupError, ValueError) as fault:
            raise Unreadable(f"entry {self.count + 1} may not stand there") from fault
        self.count += 1
        return search

    def search(self, number: int) -> Search:
        """The search of a number; LookupError where there is none."""
        if not 1 <= number <= len(self.searches):
            raise LookupError(number)
        return self.searches[number - 1]

    def _add(self, entry: Entry) -> Optional[Search]:
        if isinstance(entry, Founded) != (self.count == 0):
            raise ValueError("founded once, and first")
        if self.closed is not None or isinstance(entry, Carried) and self.count != 1 + len(self.carried):
            raise ValueError("carried over before all else, and closed last")
        if isinstance(entry, Founded):
            self.founding = entry
        elif isinstance(entry, Carried):
            self.carried.append(entry)
        elif isinstance(entry, Closed):
            self.closed = entry.at
        else:
            return self._add_to_searches(entry)
        return None

    def _add_to_searches(self, entry: Union[Opened, Leased, Reported, Cancelled, Ordered]) -> Search:
        if isinstance(entry, Opened):
            search = Search(entry)
            self._expect(entry.search, self.searches)
            self.searches.append(search)
            return search
        return self._add_to(entry)

    def _add_to(self, entry: Union[Leased, Reported, Cancelled, Ordered]) -> Search:
        if isinstance(entry, Reported):
            return self._add_report(entry)
        search = self.search(entry.search)
        if isinstance(entry, Leased):
            self._expect(entry.run, self.runs)
            search.commit(entry.position)
            run = Run(entry)
            search.runs.append(run)
            self.runs.append(run)
        elif isinstance(entry, Cancelled):
            search.cancelled, search.before_end = entry.at, len(search.told)
        else:
            self._expect(entry.order, self.orders)
            search.order = entry
            self.orders.append(entry)
        return search

    def _add_report(self, entry: Reported) -> Search:
        if not 1 <= entry.run <= len(self.runs):
            raise LookupError(entry.run)
        run = self.runs[entry.run - 1]
        if run.reported is not None:
            raise ValueError("reported before")
        run.reported, run.verdict, run.fate = entry.at, entry.verdict, entry.fate
        search = self.search(run.lease.search)
        search.told.append(run)
        return search

    @staticmethod
    def _expect(number: int, before: list[Any]) -> None:
        if number != len(before) + 1:
            raise ValueError("another number is due")
