"""What the tools around the program share: texts for a terminal, and the program asked line by line over pipes.

Nothing here is proved. All decisions are the program's: which tree is run next, what a run tells, who is named. What is
trusted of this module is that a reply is handed on as it came.
"""
from __future__ import annotations

import json
import os
import select
import shlex
import shutil
import subprocess
import time
import unicodedata
from typing import Any, Callable, Iterable, Optional, Sequence

EARLIEST, LATEST = 86_400_000, 4_102_444_800_000  # the moments that a farm takes, in milliseconds since 1970
LEASE = 86_400_000  # the longest lease, in milliseconds
PATIENCE = 30.0  # seconds for which the program is asked again where another one has its journal
IN_USE = 5  # its status then
ACTIVE = ("searching", "verifying")  # the standings of a search in which runs are due
MONTHS = ("Jan", "Feb", "Mar", "Apr", "May", "Jun", "Jul", "Aug", "Sep", "Oct", "Nov", "Dec")
SGR = {"bold": 1, "red": 31, "green": 32}  # the codes of styles on a terminal


class Usage(Exception):
    """The words can't be followed; the text says why. Status 2."""


class NoAnswer(Exception):
    """The tool ends without an answer; the text is the reason. What was done is kept. Status 3."""


# ---- texts ----------------------------------------------------------------------------------------------------------

def plain(text: str) -> str:
    """The text with everything that would move a cursor, as escapes and bidirectional marks, shown as `?`."""
    return "".join(sign if sign.isprintable() else " " if sign in "\t\n" else "?" for sign in text)


def columns(text: str) -> int:
    """How many columns of a terminal the text takes."""
    if text.isascii():
        return len(text)
    wide = sum(unicodedata.east_asian_width(sign) in "WF" for sign in text)
    return len(text) + wide - sum(unicodedata.combining(sign) != 0 for sign in text)


def fit(text: str, most: int, ellipsis: str = "..") -> str:
    """The text, cut to at most so many columns, with the ellipsis where it was cut and there is room for that."""
    if columns(text) <= most:
        return text
    kept, room = "", most - len(ellipsis)
    for sign in text:
        room -= columns(sign)
        if room < 0:
            break
        kept += sign
    return (kept + ellipsis)[:max(0, most)]


def padded(text: str, width: int, right: bool = False) -> str:
    """The text with blanks up to `width` columns, behind it or before it."""
    blanks = " " * max(0, width - columns(text))
    return blanks + text if right else text + blanks


def trimmed(number: float) -> str:
    """A number with at most two digits behind its point."""
    return f"{number:.2f}".rstrip("0").rstrip(".")


def percent(points: int) -> str:
    """A share in basis points, which were rounded down, for a sentence."""
    return f"{trimmed(points / 100)} %" if points > 0 else "below 0.01 %"


def figure(points: int) -> str:
    """A share in basis points for a table."""
    return f"{points / 100:.2f} %" if points > 0 else "<0.01 %"


def ratio(pair: Sequence[int]) -> str:
    """A fraction as a percentage where two digits say it exactly, and else as it is."""
    upper, lower = pair
    return f"{upper}/{lower}" if upper * 10_000 % lower else f"{trimmed(upper * 100 / lower)} %"


def many(count: int, noun: str) -> str:
    """A count with its noun."""
    return f"{count:,} {noun}" + ("" if count == 1 else "s")


def duration(seconds: float) -> str:
    """A length of time in words."""
    whole = round(seconds)
    if seconds < 9.95:
        return f"{seconds:.1f} s"
    if whole < 120:
        return f"{whole} s"
    return f"{whole // 60} min {whole % 60} s" if whole < 7200 else f"{whole // 3600} h {whole // 60 % 60} min"


def clock(seconds: float) -> str:
    """A length of time as a clock shows it."""
    hours, rest = divmod(int(seconds), 3600)
    return f"{hours}:{rest // 60:02}:{rest % 60:02}" if hours else f"{rest // 60}:{rest % 60:02}"


def day(moment: float) -> str:
    """The day of a moment in seconds since 1970, with the year where it isn't this one."""
    then = time.localtime(moment)
    year = "" if then.tm_year == time.localtime().tm_year else f" {then.tm_year}"
    return f"{then.tm_mday} {MONTHS[then.tm_mon - 1]}{year}"


def spelled(words: Sequence[str]) -> str:
    """A command as a shell reads it."""
    return " ".join(shlex.quote(word) for word in words)


def levels(shares: Sequence[int], most: int) -> list[int]:
    """The shares along the range in at most so many parts, each as high as the mean of its shares."""
    count = min(len(shares), most)
    bounds = [index * len(shares) // count for index in range(count + 1)]
    return [1_000 * sum(shares[low:high]) // (high - low) for low, high in zip(bounds, bounds[1:])]


class Look:
    """How a stream may be written to: whether it is a terminal, its signs, its colours."""

    def __init__(self, stream: Any) -> None:
        self.stream = stream
        self.terminal = bool(stream.isatty()) and os.environ.get("TERM", "") not in ("", "dumb")
        self.coloured = self.terminal and not os.environ.get("NO_COLOR")
        try:
            " ▁▂▃▄▅▆▇█·…".encode(stream.encoding or "ascii")
            self.bars, self.dot, self.ellipsis = " ▁▂▃▄▅▆▇█", " · ", "…"
        except (UnicodeError, LookupError):
            self.bars, self.dot, self.ellipsis = " .:-=+*#@", " | ", ".."

    def width(self) -> int:
        """The columns of the terminal, and 80 where it doesn't say."""
        try:
            return os.get_terminal_size(self.stream.fileno()).columns or 80
        except (OSError, ValueError):
            return 80

    def paint(self, text: str, style: str) -> str:
        """The text in a style, where the stream takes one."""
        return f"\x1b[{SGR[style]}m{text}\x1b[0m" if self.coloured else text

    def sparkline(self, shares: Sequence[int], most: int) -> str:
        """The shares along the range in at most so many signs between brackets."""
        high = levels(shares, most)
        top, last = max(high) or 1, len(self.bars) - 1
        return f"[{''.join(self.bars[level and max(1, level * last // top)] for level in high)}]"

    def table(self, rows: Sequence[Sequence[str]], rights: Iterable[int]) -> str:
        """Rows in columns, the first one as their heads; those in `rights` end where their column does."""
        widths = [max(columns(row[index]) for row in rows) for index in range(len(rows[0]))]
        right = set(rights)
        lines = ["  ".join(padded(cell, widths[index], index in right) for index, cell in enumerate(row)).rstrip()
                 for row in rows]
        for verdict, style in (("fail", "red"), ("pass", "green")):
            lines[1:] = [line.replace(f" {verdict}", f" {self.paint(verdict, style)}", 1) for line in lines[1:]]
        return "\n".join("  " + line for line in [self.paint(lines[0], "bold"), *lines[1:]])


# ---- the program ----------------------------------------------------------------------------------------------------

def program_beside(folder: str) -> Optional[str]:
    """The program of the tools in a folder: `culprit_finder` in it, else the launcher above it, else that on PATH."""
    for name in ("culprit_finder", "../finder"):
        path = os.path.normpath(os.path.join(folder, name))
        if os.path.isfile(path) and os.access(path, os.X_OK):
            return path
    return shutil.which("culprit_finder")


def ending(program: str, status: int, said: bytes) -> str:
    """How the program ended, with the last line that it wrote of it."""
    lines = said.decode("utf-8", "replace").strip().splitlines()
    return f"{program} ended with status {status}" + (f": {plain(lines[-1])}" if lines else "")


def found(program: str, journal: str, held: Sequence[int] = ()) -> None:
    """Founds a journal in a new file. The program holds the files `held` open."""
    try:
        ended = subprocess.run([program, "found", journal, str(LEASE), "0", "east:0"], stdin=subprocess.DEVNULL,
                               capture_output=True, check=False, start_new_session=True, pass_fds=held)
    except OSError as fault:
        raise NoAnswer(f"{program}: {fault.strerror}") from fault
    if ended.returncode != 0:
        raise NoAnswer(ending(program, ended.returncode, ended.stderr))


class Finder:
    """The program with a journal open. It has its own session, so Ctrl-C doesn't end it; the end of its input does."""

    def __init__(self, program: str, journal: str, latest: int, while_waiting: Callable[[], None]) -> None:
        self.program, self.journal, self.latest, self.while_waiting = program, journal, latest, while_waiting
        limit = time.monotonic() + PATIENCE
        while True:
            self._start()
            try:
                self.ask("farm")
                return
            except NoAnswer:
                if self.process.returncode != IN_USE or time.monotonic() > limit:
                    self.close()
                    raise
            time.sleep(0.1)  # another one has the journal: perhaps one whose caller was killed a moment ago
            self.while_waiting()

    def _start(self) -> None:
        try:
            self.process = subprocess.Popen([self.program, "run", self.journal], stdin=subprocess.PIPE, bufsize=0,
                                            stdout=subprocess.PIPE, stderr=subprocess.PIPE, start_new_session=True)
        except OSError as fault:
            raise NoAnswer(f"{self.program}: {fault.strerror}") from fault
        self.held = b""

    def ask(self, do: str, **fields: Any) -> dict[str, Any]:
        """The reply to one line, which tells the greatest moment so far, as a farm's time never goes back."""
        self.latest = min(LATEST, max(EARLIEST, self.latest, time.time_ns() // 1_000_000))
        line = json.dumps({"at": self.latest, "do": do, **fields}, separators=(",", ":")).encode("ascii") + b"\n"
        assert self.process.stdin and self.process.stdout
        if self.process.returncode is not None:
            raise NoAnswer(f"{self.program} has ended")
        try:
            while line:
                line = line[self.process.stdin.write(line) or 0:]
            while b"\n" not in self.held:
                while not select.select([self.process.stdout], [], [], 1.0)[0]:
                    self.while_waiting()
                more = self.process.stdout.read(65_536)
                if not more:
                    break
                self.held += more
        except OSError:  # it ended while it was written to
            pass
        reply, end, self.held = self.held.partition(b"\n")
        if not end:
            _, said = self.process.communicate()
            raise NoAnswer(ending(self.program, self.process.returncode, said))
        return json.loads(reply)

    def close(self) -> None:
        """Ends the program, and waits for that. One that doesn't end is killed, which its journal stands."""
        if self.process.returncode is None:
            try:
                self.process.communicate(timeout=5)
            except subprocess.TimeoutExpired:
                self.process.kill()
                self.process.communicate()
