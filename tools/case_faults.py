"""What tests of a failing disk share: a program that is traced, whose calls on its journal's file fail by a plan.

    ran = Traced([PROGRAM, "run", journal], journal, [Fault("sync", 2)], given=b'{"at":..}\n')
    ran.wait()                             # then ran.returncode, ran.out, ran.said and ran.calls
    ran.disk.images()                      # what a crash may leave of the file now

    served = Traced([PROGRAM, "serve", journal, address, "2", "1000"], journal)
    served.add(Fault("sync", 1, error=0, holds=True))   # the next sync, counted from now on, waits for `go`
    served.wait_until(lambda: served.held)              # by events: the tracer tells of each call
    served.go()                                         # all calls that are held go on
    served.close()

It can stand where a `Popen` does: `pid`, `poll`, `wait`, `kill` and `returncode` are alike. (A `Popen` itself must not
be waited for: that would take the tracer's events.) All threads of the program are traced, by one thread of this
process that makes every call of ptrace. The tests are skipped where tracing isn't permitted:

    @unittest.skipIf(case_faults.refused(), str(case_faults.refused()))

A call on the journal's file has a kind, and a number within its kind, from 1:

    open    it is opened, or isn't there      lock    its advisory lock is taken
    look    its size is asked for             read    bytes are read at an offset
    write   bytes are written at an offset    sync    fsync, fdatasync
    cut     it is given a size

and so has a call on something else, which is no call on the file, and stands in `others`:

    take    standard input is read            put     standard output is written to
    get     a connection's bytes are taken    send    a connection is sent to
    grow    the program asks for memory: brk, mmap, mremap, mprotect, from its first own allocation on

What a crash may leave is what docs/TRUST.md says of `file_disk`: what was synced stays, a byte over which the same one
is written stays, any other that was written or cut since may have any value, and the size is anywhere between.

The harness is trusted by the tests alone. Linux on x86-64; ptrace(2) says what is used here.
"""
from __future__ import annotations

import contextlib
import ctypes
import dataclasses
import errno
import functools
import itertools
import os
import platform
import shutil
import signal
import subprocess
import tempfile
import threading
from typing import Any, Callable, Iterator, Mapping, Optional, Sequence, Union

from case_farm import PATIENCE

# The requests and options of ptrace, the flags of wait, and the places of registers among those of a thread.
TRACEME, CONT_TO_CALL, GETREGS, SETREGS, SETOPTIONS = 0, 24, 12, 13, 0x4200
OPTIONS = 0x1 | 0x8 | 0x10 | 0x100000  # calls told from signals; threads and exec traced; killed without a tracer
WAIT = 0x40000000 | 0x20000000  # all threads of the program, and no children of other threads of this process
RAX, RDX, RSI, RDI, R10, CALL = 10, 12, 13, 14, 7, 15
AT_A_CALL = signal.SIGTRAP | 0x80

# The system's calls by their numbers: those of a file by its descriptor, and those of one by its name.
OF_A_FILE = {17: "read", 18: "write", 74: "sync", 75: "sync", 77: "cut", 73: "lock", 5: "look"}
OF_A_NAME = {2: "open", 257: "open", 4: "look", 262: "look", 332: "look"}
NOT_FOLLOWED = {0: "read", 1: "write", 19: "readv", 20: "writev", 40: "sendfile", 285: "fallocate", 295: "preadv",
                296: "pwritev", 326: "copy_file_range", 327: "preadv2", 328: "pwritev2"}
NOT_PERMITTED = (errno.EPERM, errno.EACCES, errno.ENOSYS)
OF_A_STREAM = {(0, 0): "take", (1, 1): "put"}  # of a call's number and a descriptor
OF_A_LINK = {45: "get", 44: "send"}
BRK, MMAP, MREMAP, MPROTECT = 12, 9, 25, 10
ANONYMOUS, WRITABLE, PEEK = 0x20, 0x2, 0x2
SIZED = ("read", "write", "take", "put", "get", "send")  # the kinds of calls on so many bytes
MAX_SHOWN = 4  # of so many writes since the last sync each choice is an image of its own

Regs = ctypes.c_ulonglong * 27
LIBC = ctypes.CDLL(None, use_errno=True)
LIBC.ptrace.argtypes = [ctypes.c_long, ctypes.c_long, ctypes.c_void_p, ctypes.c_void_p]
LIBC.ptrace.restype = ctypes.c_long


def ptrace(request: int, thread: int, data: Any = 0) -> bool:
    """Makes a call of ptrace. False where the thread is gone: it was killed."""
    if LIBC.ptrace(request, thread, 0, data) == -1:
        if ctypes.get_errno() == errno.ESRCH:
            return False
        raise OSError(ctypes.get_errno(), f"ptrace {request}: {os.strerror(ctypes.get_errno())}")
    return True


@dataclasses.dataclass(frozen=True)
class Fault:
    """What is done to the call of a kind with a number; where that is 0, to each that has no plan of its own. With an
    error it fails before anything of it is done, or where `keeps` is a number, once so many bytes were written, or
    where it writes none, once it is done. Without an error, `keeps` is how many bytes a write or a read takes."""
    kind: str
    number: int
    error: int = errno.EIO
    keeps: Optional[int] = None
    drops: bool = False  # of a sync: what it was to store never is, though a read still gives it
    forgets: bool = False  # the same, and from then on a read gives what was stored before
    holds: bool = False  # it waits for `go` first
    lasts: bool = False  # so does each later call of the kind fare, until `mend`


@dataclasses.dataclass
class Call:
    """A call on the file: its offset or size, the bytes that were to be written or how many were to be read, and what
    was answered to the program: a number of bytes, 0, or an error below 0; none while it isn't over. Of a call that
    asks for memory the offset is the new end of the program's data, or 0 where pages are mapped."""
    kind: str
    number: int
    at: int = 0
    data: bytes = b""
    size: int = 0
    done: int = 0  # how many of its bytes were written or read; of another call 1 where it was done
    answer: Optional[int] = None


def put(held: bytes, at: int, piece: bytes) -> bytes:
    """Bytes with others at an offset."""
    return held[:at].ljust(at, b"\0") + piece + held[at + len(piece):] if piece else held


class Disk:
    """What of a file is stored for good, and the writes and cuts since the last sync that was done."""

    def __init__(self, stored: bytes) -> None:
        self.stored = stored
        self.since: list[Call] = []

    def synced(self, calls: Sequence[Call]) -> None:
        """A sync was done that began behind these calls."""
        for call in calls:
            if call.kind == "write":
                self.stored = put(self.stored, call.at, call.data[:call.done])
            elif call.done:
                self.stored = self.stored[:call.at]
        self.since = [it for it in self.since if not any(it is call for call in calls)]

    def image(self, size: int, fill: int) -> bytes:
        """What a crash may leave, of this size or the nearest that there is, with this byte wherever any may stand."""
        least = greatest = len(self.stored)
        free: set[int] = set()
        for call in self.since:
            if call.kind == "cut":
                least = min(least, call.at)
                free.update(range(call.at, greatest))
            else:
                greatest = max(greatest, call.at + len(call.data))
                free.update(call.at + i for i, byte in enumerate(call.data)
                            if self.stored[call.at + i:call.at + i + 1] != bytes([byte]))
        whole = self.stored.ljust(greatest, bytes([fill]))[:max(least, min(size, greatest))]
        return bytes(fill if place in free else byte for place, byte in enumerate(whole))

    def images(self) -> Iterator[bytes]:
        """What a crash may leave: the four images of the least and the greatest size with 0 and with 7, and those of
        each choice of the calls since the last sync, each of them done wholly and the others not at all."""
        for size, fill in itertools.product((0, 1 << 62), (0, 7)):
            yield self.image(size, fill)
        for chosen in itertools.product((False, True), repeat=min(MAX_SHOWN, len(self.since))):
            image = self.stored
            for call in itertools.compress(self.since[-MAX_SHOWN:], chosen):
                image = put(image, call.at, call.data) if call.kind == "write" else image[:call.at]
            yield image


class Traced:
    """A program that is traced from its start."""

    def __init__(self, words: Sequence[str], journal: Union[str, os.PathLike[str]], plan: Sequence[Fault] = (),
                 given: bytes = b"", stored: Optional[bytes] = None,
                 env: Optional[Mapping[str, str]] = None) -> None:
        self.words, self.path = [os.fspath(it) for it in words], os.path.realpath(journal)
        read = b""
        if os.path.isfile(self.path):
            with open(self.path, "rb") as file:
                read = file.read()
        self.disk = Disk(read if stored is None else stored)
        self.calls: list[Call] = []
        self.others: list[Call] = []
        self.counts: dict[str, int] = {}
        self.inside: dict[int, int] = {}  # the threads that are in a call of the system, and which
        self.held: dict[int, tuple[Call, Fault]] = {}
        self.returncode: Optional[int] = None
        self.pid = 0
        self._plan = {(it.kind, it.number): it for it in plan}
        self._working: dict[int, tuple[Call, Optional[Fault], Any, list[Call]]] = {}
        self._let_go: set[int] = set()
        self._fault: Optional[BaseException] = None
        self._changed = threading.Condition()
        self.out = self.said = ""  # once it has ended, what it wrote to standard output, and to standard error
        self._given, self._env = given, env
        self._lasting: dict[str, Fault] = {}
        self._data_end, self._grows = 0, False
        self._thread = threading.Thread(target=self._trace_all, daemon=True)
        self._thread.start()
        self.wait_until(lambda: self.pid)

    # What a test asks of it, in threads of its own.

    def wait_until(self, holds: Callable[[], Any], patience: float = PATIENCE) -> None:
        """Waits until something holds of this object."""
        with self._changed:
            self._changed.wait_for(lambda: holds() or self._is_over(), patience)
            self._raise()
            assert holds(), f"{self.words}: what was waited for didn't come; its calls: {self.calls[-5:]}"

    def add(self, *faults: Fault) -> None:
        """More of a plan, its numbers counted from now on: 1 is the next call of the kind."""
        with self._changed:
            for fault in faults:
                self._plan[fault.kind, self.counts.get(fault.kind, 0) + fault.number] = fault

    def mend(self, kind: str) -> None:
        """From now on no call of this kind fails by the plan."""
        with self._changed:
            self._lasting.pop(kind, None)
            self._plan = {key: it for key, it in self._plan.items() if it.kind != kind}

    def go(self) -> None:
        """Lets the calls go on that are held."""
        with self._changed:
            self._let_go.update(self.held)
            self._changed.notify_all()

    def sleeps(self, thread: int) -> bool:
        """Whether a thread sleeps: it is in a call of the system, and not about to leave it."""
        with contextlib.suppress(OSError), open(f"/proc/{self.pid}/task/{thread}/stat", "rb") as file:
            return file.read().rpartition(b")")[2].split()[0] == b"S"
        return False

    def poll(self) -> Optional[int]:
        """The status, or the signal below 0, with which it has ended."""
        return self.returncode

    def wait(self, timeout: float = PATIENCE) -> int:
        """Waits for its end."""
        self.wait_until(self._is_over, timeout)
        self._thread.join()
        assert self.returncode is not None
        return self.returncode

    def kill(self) -> None:
        """Kills it."""
        with self._changed, contextlib.suppress(ProcessLookupError):
            if not self._is_over():
                signal.pidfd_send_signal(self._pidfd, signal.SIGKILL)

    def close(self) -> None:
        """Kills it, and waits until it is gone: from then on it holds no lock and no port."""
        self.kill()
        self.wait()

    def _is_over(self) -> bool:
        return self.returncode is not None or self._fault is not None

    def _raise(self) -> None:
        if self._fault:
            raise RuntimeError(f"{self.words} could not be traced") from self._fault

    # The tracer: all that follows runs in its one thread.

    def _trace_all(self) -> None:
        fault, status = None, None
        with tempfile.TemporaryFile() as given, tempfile.TemporaryFile() as out, tempfile.TemporaryFile() as said:
            given.write(self._given)
            given.seek(0)
            try:
                process = subprocess.Popen(self.words, stdin=given, stdout=out, stderr=said, env=self._env,
                                           preexec_fn=lambda: ptrace(TRACEME, 0) and None)
                os.waitpid(process.pid, WAIT)  # it has come to its exec
                status = process.returncode = self._trace(process.pid)
            except BaseException as raised:  # the test that waits is told; a program without its tracer is killed
                fault = raised
            for file in (out, said):
                file.seek(0)
            with self._changed:
                self.out, self.said = (it.read().decode(errors="backslashreplace") for it in (out, said))
                self._fault, self.returncode = fault, status
                if self.pid:
                    os.close(self._pidfd)
                self._changed.notify_all()

    def _trace(self, pid: int) -> int:
        """Follows the program to its end, and gives its status."""
        ptrace(SETOPTIONS, pid, OPTIONS)
        with self._changed:
            self.pid, self._pidfd, self._known = pid, os.pidfd_open(pid), {pid}
            self._changed.notify_all()
        ptrace(CONT_TO_CALL, pid)
        while True:
            thread, status = os.waitpid(-1, WAIT | (os.WNOHANG if self.held else 0))
            with self._changed:
                if thread == 0:
                    self._changed.wait(0.001)  # a call is held: either the test or another thread does something next
                for one in self._let_go & self.held.keys():
                    self._begin(one, *self.held.pop(one))
                    ptrace(CONT_TO_CALL, one)
                self._let_go.clear()
                if thread and self._stopped(thread, status):
                    return os.waitstatus_to_exitcode(status)
                self._changed.notify_all()

    def _stopped(self, thread: int, status: int) -> bool:
        """Takes what wait told of a thread, and lets it go on. Whether the program has ended."""
        if not os.WIFSTOPPED(status):
            for each in (self.inside, self.held, self._working):
                each.pop(thread, None)
            return thread == self.pid
        sent = os.WSTOPSIG(status)
        if sent == AT_A_CALL:
            if not self._at_a_call(thread):
                return False
            sent = 0
        elif status >> 16 or (thread not in self._known and sent == signal.SIGSTOP):
            sent = 0  # a new thread, or an exec
        self._known.add(thread)
        ptrace(CONT_TO_CALL, thread, sent)
        return False

    def _at_a_call(self, thread: int) -> bool:
        """Takes the beginning or the end of a call. Whether the thread may go on."""
        regs = Regs()
        if not ptrace(GETREGS, thread, ctypes.byref(regs)):
            return True
        if thread not in self.inside:
            self.inside[thread] = regs[CALL]
            call = self._call_of(regs) or self._other_of(regs)
            if call is None:
                return True
            fault = (self._plan.pop((call.kind, call.number), None) or self._lasting.get(call.kind)
                     or self._plan.get((call.kind, 0)))
            if fault and fault.lasts:
                self._lasting[call.kind] = fault
            if fault and fault.holds:
                self.held[thread] = call, fault
                return False
            self._begin(thread, call, fault)
            return True
        number = self.inside.pop(thread)
        if thread in self._working:
            self._end(thread, regs, *self._working.pop(thread))
        if number == BRK:
            self._data_end = regs[RAX]
        return True

    def _call_of(self, regs: Any) -> Optional[Call]:
        """The call on the journal's file that begins, if it is one."""
        number, first = regs[CALL], ctypes.c_int(regs[RDI]).value
        if number in OF_A_NAME:
            place = regs[RDI] if number in (2, 4) else regs[RSI]
            name = self._name_at(place)
            if name:
                mine = os.path.realpath(os.path.join(f"/proc/{self.pid}/cwd", name)) == self.path
            else:  # by its descriptor
                mine = OF_A_NAME[number] == "look" and self._is_journal(first)
            if not mine:
                return None
            kind = OF_A_NAME[number]
        elif (number in OF_A_FILE or number in NOT_FOLLOWED) and self._is_journal(first):
            if number in NOT_FOLLOWED:
                raise NotImplementedError(f"{NOT_FOLLOWED[number]} of the journal's file")
            kind = OF_A_FILE[number]
        else:
            return None
        self.counts[kind] = self.counts.get(kind, 0) + 1
        call = Call(kind, self.counts[kind])
        if kind in ("read", "write"):
            call.at, call.size = regs[R10], regs[RDX]
            call.data = self._bytes_at(regs[RSI], call.size) if kind == "write" else b""
        elif kind == "cut":
            call.at = regs[RSI]
        self.calls.append(call)
        return call

    def _other_of(self, regs: Any) -> Optional[Call]:
        """The call on a stream or a link, or for memory, that begins, if it is one. The loader's own aren't taken: what
        it asks for comes before the program's data grow first."""
        number, first = regs[CALL], regs[RDI]
        self._grows |= number == BRK and 0 < self._data_end < first
        kind, call = OF_A_STREAM.get((number, first)) or OF_A_LINK.get(number), Call("grow", 0)
        if kind == "get" and regs[R10] & PEEK:
            return None
        if kind:
            call.kind, call.size = kind, regs[RDX]
            call.data = self._bytes_at(regs[RSI], call.size) if kind in ("put", "send") else b""
        elif self._grows and number == BRK and self._data_end < first:
            call.at = first
        elif not (self._grows and (number == MMAP and regs[R10] & ANONYMOUS or number == MREMAP
                                   or number == MPROTECT and regs[RDX] & WRITABLE)):
            return None
        self.counts[call.kind] = call.number = self.counts.get(call.kind, 0) + 1
        self.others.append(call)
        return call

    def _is_journal(self, descriptor: int) -> bool:
        try:
            return os.readlink(f"/proc/{self.pid}/fd/{descriptor}").removesuffix(" (deleted)") == self.path
        except OSError:
            return False

    def _bytes_at(self, place: int, size: int) -> bytes:
        """Bytes of the program's memory; none where it was killed meanwhile, and makes no call any more."""
        with contextlib.suppress(OSError), open(f"/proc/{self.pid}/mem", "rb", buffering=0) as memory:
            return os.pread(memory.fileno(), size, place)
        return b""

    def _name_at(self, place: int) -> str:
        """The text that ends with a byte of 0. A page that can't be read may begin behind it."""
        found, piece = b"", b" " if place else b""
        while piece and b"\0" not in found:
            piece = self._bytes_at(place + len(found), 4096 - (place + len(found)) % 4096)
            found += piece
        return os.fsdecode(found.split(b"\0")[0])

    def _begin(self, thread: int, call: Call, fault: Optional[Fault]) -> None:
        """Lets a call begin, as the plan says."""
        regs = Regs()
        if not ptrace(GETREGS, thread, ctypes.byref(regs)):
            return
        self._working[thread] = call, fault, regs[RDX], list(self.disk.since)
        if call.kind in ("write", "cut"):
            self.disk.since.append(call)
        if fault is None:
            return
        if fault.keeps is not None and call.kind in SIZED:
            regs[RDX] = min(fault.keeps, regs[RDX])
        elif fault.error and not fault.keeps:
            regs[CALL] = (1 << 64) - 1  # no call of the system: nothing is done
        ptrace(SETREGS, thread, ctypes.byref(regs))

    def _end(self, thread: int, regs: Any, call: Call, fault: Optional[Fault], third: int, before: list[Call]) -> None:
        """Takes the end of a call, and changes its answer, as the plan says."""
        given = ctypes.c_longlong(regs[RAX]).value
        skipped = fault is not None and fault.error and (not fault.keeps if call.kind not in SIZED
                                                        else fault.keeps is None)
        call.done = 0 if skipped or given < 0 else given if call.kind in SIZED else 1
        if fault:
            if fault.error:
                given = self._data_end if call.kind == "grow" and call.at else -fault.error
            regs[RAX], regs[RDX] = given % (1 << 64), third
            ptrace(SETREGS, thread, ctypes.byref(regs))
        call.answer = given
        if call.kind != "sync":
            return
        if call.done:
            self.disk.synced(before)
        elif fault and (fault.drops or fault.forgets):
            if fault.forgets:
                self._forget()
            self.disk.since = [it for it in self.disk.since if it.kind == "cut"]

    def _forget(self) -> None:
        """Puts back in the file what was stored before each write since: where nothing was, there are zeros."""
        with open(self.path, "r+b") as file:
            for call in self.disk.since:
                if call.kind == "write" and call.done:
                    file.seek(call.at)
                    file.write(self.disk.stored[call.at:call.at + call.done].ljust(call.done, b"\0"))


@functools.lru_cache(None)
def refused() -> Optional[str]:
    """Why no program can be traced here, where none can."""
    if (platform.system(), platform.machine()) != ("Linux", "x86_64"):
        return f"no tracing: {platform.system()} on {platform.machine()}, and not Linux on x86_64"
    try:
        Traced([shutil.which("true") or "true"], os.devnull).wait()
    except RuntimeError as fault:
        cause = fault.__cause__
        if isinstance(cause, subprocess.SubprocessError) or getattr(cause, "errno", 0) in NOT_PERMITTED:
            return f"no tracing: it isn't permitted here ({cause})"
        raise
    return None
