"""Where the history of a farm is read from: a journal's file, or a service over HTTP. Neither is ever written to."""
from __future__ import annotations

import base64
import http.client
import json
import os
import re
import shutil
import subprocess
import tempfile
import urllib.error
import urllib.parse
import urllib.request
from typing import Any, NamedTuple, Optional

from culprit_history import Entry, History, Search, Unreadable, entries_of, entries_of_journal
from culprit_lib import NoAnswer, Usage, ending, plain

MOST_BYTES = 1 << 20  # of an answer: a page of the log has 200,000 and some, a search's page some 10,000
TIMEOUT = 60.0  # seconds that an answer may take
TRIES = 20  # how often a search that moves is asked for, until its page and its entries go together
LIMIT = 4_294_967_295  # the greatest number of a search or an entry

Page = dict[str, Any]


class Found(NamedTuple):
    """A search with the history that it stands in, and the page that the program gives of it."""

    history: History
    search: Search
    page: Page


class Told(NamedTuple):
    """An entry, with the search that it is about, where it is about one."""

    entry: Entry
    search: Optional[Search]


def program_of(named: str) -> str:
    """The program itself, where the launcher is named: that looks at the sources each time that it is called."""
    if os.path.basename(named) != "finder":
        return named
    try:
        ended = subprocess.run([named, "--path"], stdin=subprocess.DEVNULL, capture_output=True, check=False)
    except OSError as fault:
        raise NoAnswer(f"{named}: {fault.strerror}") from fault
    if ended.returncode != 0:
        said = [plain(line) for line in ended.stderr.decode("utf-8", "replace").splitlines()]
        raise NoAnswer(said[0].replace("finder: ", "", 1) if said else ending(named, ended.returncode, b""))
    return os.fsdecode(ended.stdout).rstrip("\n")


# ---- a journal ------------------------------------------------------------------------------------------------------

def found_in_journal(program: str, path: str, number: int) -> Found:
    """A search of a journal. The program tells where it stands, by `show` over a copy: so a service that has the
    journal is no hindrance, and what is explained is one state of it."""
    with tempfile.TemporaryDirectory(prefix="explain-") as folder:
        copy = os.path.join(folder, "journal")
        try:
            shutil.copyfile(path, copy)
            with open(copy, "rb") as file:
                data = file.read()
        except OSError as fault:
            raise NoAnswer(f"{path}: {fault.strerror}") from fault
        lines = _shown(program, path, copy)
    history = History()
    try:
        for entry in entries_of_journal(data):
            history.add(entry)
    except Unreadable as fault:
        raise NoAnswer(f"{path}: {fault}") from fault
    farm = json.loads(lines[0])
    if (farm["entries"], farm["searches"]) != (history.count, len(history.searches)) or len(lines) <= farm["searches"]:
        raise NoAnswer(f"{path}: the program finds {farm['entries']} entries in it, and this tool {history.count}")
    return Found(history, searched(history, number), json.loads(lines[number]))


def _shown(program: str, path: str, copy: str) -> list[bytes]:
    try:
        ended = subprocess.run([program, "show", copy], stdin=subprocess.DEVNULL, capture_output=True, check=False)
    except OSError as fault:
        raise NoAnswer(f"{program}: {fault.strerror}") from fault
    if ended.returncode in (6, 7):
        raise NoAnswer(f"{path}: {ended.stderr.decode('ascii', 'replace').strip()}")
    if ended.returncode != 0:
        raise NoAnswer(ending(f"{program} show", ended.returncode, ended.stderr))
    return ended.stdout.splitlines()


def searched(history: History, number: int) -> Search:
    """The search of a number."""
    try:
        return history.search(number)
    except LookupError:
        count = len(history.searches)
        has = f"its searches are 1 to {count:,}" if count else "it has none yet"
        raise NoAnswer(f"the farm has no search {number}: {has}") from None


# ---- a service ------------------------------------------------------------------------------------------------------

class Away(NoAnswer):
    """The service can't be reached, or didn't answer: it may later."""


class Service:
    """The service at a URL, and its history as far as it was read."""

    def __init__(self, url: str) -> None:
        parts = urllib.parse.urlsplit(url if "//" in url else "//" + url, "http")
        if parts.scheme not in ("http", "https") or not parts.hostname or parts.query or parts.fragment:
            raise Usage(f"{url} is no address of a service, as http://127.0.0.1:8080 or 127.0.0.1:8080")
        host, self.fields = parts.netloc.rpartition("@")[2], {}
        if parts.username is not None:
            words = f"{urllib.parse.unquote(parts.username)}:{urllib.parse.unquote(parts.password or '')}"
            self.fields["Authorization"] = "Basic " + base64.b64encode(words.encode("utf-8")).decode("ascii")
        self.url = f"{parts.scheme}://{host}{parts.path.rstrip('/')}"
        self.history = History()
        self.last = b""  # the bytes of the last entry that was read
        self.unread: list[Told] = []  # entries that were read, and not handed on yet, as the service went away

    def ask(self, path: str, seconds: float = TIMEOUT) -> tuple[int, bytes]:
        """The status and the body at a path; each step of the answer may take so many seconds."""
        try:
            request = urllib.request.Request(self.url + path, headers=self.fields)
            try:
                answer = urllib.request.urlopen(request, timeout=seconds)
            except urllib.error.HTTPError as refusal:
                answer = refusal
            with answer:
                return answer.status, answer.read(MOST_BYTES)
        except (OSError, ValueError, http.client.HTTPException) as fault:
            reason = getattr(fault, "reason", fault)
            raise Away(f"{self.url} doesn't answer: {plain(str(reason)) or type(fault).__name__}") from fault

    def get(self, path: str) -> Optional[Page]:
        """The reply at a path; None where there is none of what it names."""
        status, body = self.ask(path)
        if status in (502, 503, 504, 507):
            raise Away(f"{self.url} answers with status {status}")
        try:
            page = json.loads(body)
            if status == 200 and page["reply"] or status == 404 and page["refused"] == "UnknownSearch":
                return page if status == 200 else None
        except (ValueError, LookupError, TypeError):
            pass
        raise NoAnswer(f"{self.url}{path} answers with status {status}, and not as this service does: "
                       "is it the right address, and its program as new as this tool?")

    def read(self) -> list[Told]:
        """The entries that are new, to the log's end."""
        while self._read_page():
            pass
        new, self.unread = self.unread, []
        return new

    def _read_page(self) -> bool:
        """Reads a page, which begins with the last entry that was read, so that another history is noticed. Whether an
        entry was new."""
        count, path = self.history.count, f"/v1/log/{max(1, self.history.count)}"
        page = self.get(path)
        try:
            data = bytes.fromhex(page["entries"] if page else "")
            if not data.startswith(self.last) or (count and not data):
                raise NoAnswer(f"{self.url} has another history than before: entry {count} isn't there any more, "
                               "or differs")
            for entry, own in entries_of(data[len(self.last):]):
                self.unread.append(Told(entry, self.history.add(entry)))
                self.last = own
        except (Unreadable, ValueError, LookupError, TypeError) as fault:
            said = str(fault) if isinstance(fault, Unreadable) else "it is no page of a log"
            raise NoAnswer(f"{self.url}{path}: {said}") from fault
        return self.history.count > count

    def found(self, number: int) -> Found:
        """A search, with a page that goes with its entries: where one came in between it is asked for again."""
        self.read()
        searched(self.history, number)
        for _ in range(TRIES):
            page = self.get(f"/v1/searches/{number}")
            if page and all(new.search is None or new.search.number != number for new in self.read()):
                return Found(self.history, searched(self.history, number), page)
        raise NoAnswer(f"search {number} of {self.url} moves too fast: explain a follower's copy (finder follow)")


def number_of(text: str, what: str) -> int:
    """The number of a search or an entry."""
    if not re.fullmatch(r"[1-9]\d{0,9}", text) or int(text) > LIMIT:
        raise Usage(f"{text} is no number of {what}, from 1 on")
    return int(text)
