"""A run of the program, kept open: requests go into one end of a socket, and their replies come out of it."""
from __future__ import annotations

import contextlib
import fcntl
import os
import select
import signal
import socket
import struct
import subprocess
import threading
import time
import weakref
from collections import deque
from typing import Any, Deque, Iterator, List, Optional, Sequence, Tuple, Union

from .errors import Closed, Ended, Error, NoProgram, OutcomeUnknown, TimedOut, UnexpectedReply, ended
from .requests import LINE, Request

PIECE = 4096  # bytes that the system takes whole or not at all
TAKEN = 65536  # bytes that are taken by one call
GRACE = 2  # seconds that a program has to end in, once it has closed its output, and once it is killed

_runs: "weakref.WeakSet[Run]" = weakref.WeakSet()


def two_ends(timeout: Optional[float] = None) -> Tuple[socket.socket, socket.socket]:
    """Ours and the program's end of a socket. Where a standard stream is closed the system gives its number to the socket, and what
    other parts of this process print would be taken for requests: ours has a number above them. Both wait, whatever time limit
    this process gives its sockets; ours so many seconds for what it takes, behind which it raises `BlockingIOError`."""
    ours, other = socket.socketpair()
    if ours.fileno() <= 2:
        with ours as low:
            ours = socket.socket(fileno=fcntl.fcntl(low, fcntl.F_DUPFD_CLOEXEC, 3))
    ours.setblocking(True)
    other.setblocking(True)
    if timeout is not None:
        limit = struct.pack("ll", int(timeout), max(1, int(timeout % 1 * 1e6)))
        ours.setsockopt(socket.SOL_SOCKET, socket.SO_RCVTIMEO, limit)
    return ours, other


def started(program: str, words: List[bytes], stream: socket.socket) -> "subprocess.Popen[bytes]":
    """Starts the program with this socket as its input and output, apart from the terminal and its signals."""
    try:
        return subprocess.Popen([program, *words], stdin=stream, stdout=stream, start_new_session=True)
    except OSError as error:
        raise NoProgram(f"{program} can't be started: {error.strerror}") from error


def status_of(process: "subprocess.Popen[bytes]") -> Optional[int]:
    """Waits for the end of a program that has closed its output; the status, a signal's number negative. None where another part
    of this process took it, which `Popen` would call 0, or it hangs. A program that doesn't end is killed."""
    late = time.monotonic() + GRACE
    while process.returncode is None:
        try:
            found, status = os.waitpid(process.pid, os.WNOHANG)
        except ChildProcessError:
            process.returncode = 0
            return None
        if found:
            process.returncode = -os.WTERMSIG(status) if os.WIFSIGNALED(status) else os.WEXITSTATUS(status)
        else:
            if time.monotonic() > late + GRACE:
                return None
            if time.monotonic() > late:
                os.kill(process.pid, signal.SIGKILL)
            time.sleep(0.0002)
    return process.returncode


def pieces(requests: Sequence[Request[Any]]) -> Iterator[bytes]:
    """Their lines, joined to pieces that go whole. So a death of this process leaves no front of a line: the program would take
    it for a line."""
    piece = b""
    for request in requests:
        if piece and len(piece) + len(request.line) > PIECE:
            yield piece
            piece = b""
        piece += request.line
    yield piece


class Run:
    """`PROGRAM WORD FILE` for as long as it lives. One thread at a time has its requests under way, the others wait."""

    def __init__(self, program: str, word: bytes, file: bytes, timeout: Optional[float] = None) -> None:
        self.records: Optional[int] = None  # once a check has counted them
        self.end: Union[Error, OSError, None] = None  # why no request is taken any more
        self._lines: Deque[bytes] = deque()  # of replies, taken and not given to a request yet
        self._rest = b""  # the front of a line
        self._refusal = b""
        self._sent = 0  # lines of the requests that are under way
        self._busy = False
        self._lock = threading.RLock()
        self._maker = os.getpid()
        self._timeout = timeout
        self._socket, other = two_ends(timeout)
        try:
            with other:
                self._process = started(program, [word, file], other)
        except BaseException:
            self._socket.close()
            raise
        self.pid = self._process.pid
        self._poll = select.poll()
        self._poll.register(self._socket, select.POLLIN | select.POLLOUT)
        _runs.add(self)

    def is_own(self) -> bool:
        """Whether this process began it, and none from which this one was forked."""
        return os.getpid() == self._maker

    def require(self) -> None:
        """Raises why no request is taken, where none is."""
        if not self.is_own():
            raise Closed("the store belongs to the process from which this one was forked")
        if self.end is not None:
            raise self.end.with_traceback(None)

    def exchange(self, requests: Sequence[Request[Any]]) -> None:
        """Sends requests, however many, and takes their replies meanwhile. Each has its answer or its error then."""
        self.require()  # before the lock, which in a forked process may be held by a thread that isn't there
        with self._lock:  # the thread that has it comes in again, by a signal's handler or by what a dump is written to
            if self._busy:
                raise Error("another request of this thread is under way")
            self.require()
            try:
                self._busy, self._sent = True, 0
                self._talk(requests)
            except (UnexpectedReply, TimedOut) as error:
                self._break_off(requests, error)
            except BaseException as error:
                self._break_off(requests, Ended(f"the conversation was broken off by {error!r}"))
                raise
            finally:
                self._busy = False

    def _talk(self, requests: Sequence[Request[Any]]) -> None:
        unsent = deque(pieces(requests))
        for request in requests:
            while True:
                line = self._line(unsent)
                if line is None:
                    self.end = ended(status_of(self._process), self._refusal)
                    return self._fail(requests, self.end, all_sent=False)
                if request.take(line):
                    break
            self.records = request.count(self.records)

    def _line(self, unsent: Deque[bytes]) -> Optional[bytes]:
        """The next line of replies; sends meanwhile what there is room for. None where the program has ended."""
        while not self._lines:
            if unsent and not self._send(unsent):
                continue
            taken = self._receive()
            if not taken:
                return None
            *lines, self._rest = (self._rest + taken).split(b"\n")
            self._lines.extend(lines)
            if len(self._rest) > LINE:
                raise UnexpectedReply(self._rest[:LINE])
        line = self._lines.popleft()
        if line.startswith(b"refused "):
            if self._refusal:
                raise UnexpectedReply(line)
            self._refusal = line
            return self._line(unsent)
        return line

    def _send(self, unsent: Deque[bytes]) -> bool:
        """Sends until nothing is left, or there is no room; whether something is there to be taken, or will be."""
        try:
            while unsent:
                count = self._socket.send(unsent[0], socket.MSG_NOSIGNAL | socket.MSG_DONTWAIT)
                self._sent += unsent[0].count(b"\n", 0, count)
                if count == len(unsent[0]):
                    unsent.popleft()
                else:
                    unsent[0] = unsent[0][count:]
        except BlockingIOError:
            found = self._poll.poll(None if self._timeout is None else self._timeout * 1000)
            if not found:
                raise TimedOut(self._timeout or 0) from None
            return any(events & ~select.POLLOUT for _, events in found)
        except ConnectionError:  # the program has ended; what it answered is still there
            unsent.clear()
        return True

    def _receive(self) -> bytes:
        try:
            return self._socket.recv(TAKEN)
        except ConnectionError:  # it ended with requests that it hadn't read
            return b""
        except BlockingIOError:
            raise TimedOut(self._timeout or 0) from None

    def _fail(self, requests: Sequence[Request[Any]], cause: Error, all_sent: bool) -> None:
        """Gives each request without an answer its error. A change may have been under way, or done: the first one, or all that
        were sent."""
        left = [(place, request) for place, request in enumerate(requests) if not request.done]
        for place, request in left:
            request.fail(cause)
            if request.changes and place < self._sent and (all_sent or request is left[0][1]):
                unknown = OutcomeUnknown(f"the change may be in the store, wholly, or not: {cause}")
                unknown.__cause__ = cause
                request.fail(unknown)

    def _break_off(self, requests: Sequence[Request[Any]], cause: Ended) -> None:
        """Takes no more replies, so nobody knows which requests are answered of those that were sent. The program is killed: it may
        be stuck, and would keep the file."""
        self.end = cause
        self._fail(requests, cause, all_sent=True)
        self._kill()

    def _kill(self) -> None:
        with contextlib.suppress(OSError):
            self._socket.shutdown(socket.SHUT_RDWR)
        with contextlib.suppress(OSError):
            self._process.kill()
        status_of(self._process)

    def close(self) -> None:
        """Ends the run, once it has left its file well. Raises how it ended, if not well and not told before."""
        if not self.is_own():
            self._socket.close()
            return
        with self._lock:
            if self._busy:
                raise Error("a request of this thread is under way")
            if self._socket.fileno() < 0:  # closed before
                return
            with contextlib.suppress(OSError):  # it may have ended before
                self._socket.shutdown(socket.SHUT_WR)  # its script ends, whoever else has the socket
            late, said = None, b""
            try:
                while len(said) <= TAKEN:  # it has nothing to say, but why it ends
                    taken = self._receive()
                    if not taken:
                        break
                    said += taken
                else:
                    self._kill()
            except TimedOut as error:
                late = error
                self._kill()
            status = status_of(self._process)
            self._socket.close()
            told, self.end = self.end is not None, Closed("the store is closed")
            if not told and (late or status):
                raise late or ended(status, self._refusal)


def _leave_runs() -> None:
    """A forked process lets go of the runs of its parent, so that they end with the parent."""
    for run in list(_runs):
        run._socket.close()
        run._process.returncode = 0  # it is nobody's to wait for here


os.register_at_fork(after_in_child=_leave_runs)
