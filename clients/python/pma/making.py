"""Files: a store is made beside its place and then put there whole, the program runs to its end, a lock is looked for."""
from __future__ import annotations

import contextlib
import errno
import fcntl
import os
import secrets
import select
import socket
from typing import Iterable, Iterator, List, NamedTuple, Optional

from .errors import DiskFault, InUse, TimedOut, UnexpectedReply, ended
from .requests import LINE
from .run import started, status_of, two_ends

SMALLEST_JOURNAL, GREATEST_JOURNAL = 4, 1024  # of a store that is made without a journal's size being given


class Output(NamedTuple):
    """How the program ended, what it said, and whether it took the whole input, as far as that is known."""

    status: Optional[int]
    said: bytes
    whole: bool


def command(program: str, words: List[bytes], text: Iterable[bytes] = (), timeout: Optional[float] = None) -> Output:
    """Runs the program to its end on this input. Where that is broken off, by an error of the input or by a signal's handler, the
    program is killed before it has the input's end."""
    ours, other = two_ends(timeout)
    with ours:
        with other:
            process = started(program, words, other)
        try:
            whole, said = _send(ours, text, timeout), b""
            with contextlib.suppress(OSError):
                ours.shutdown(socket.SHUT_WR)
            while len(said) <= LINE + 1:
                piece = _receive(ours, timeout)
                if not piece:
                    return Output(status_of(process), said, whole and piece is not None)
                said += piece
            raise UnexpectedReply(said[:LINE])
        except BaseException:
            process.kill()
            status_of(process)
            raise


def _receive(ours: socket.socket, timeout: Optional[float]) -> Optional[bytes]:
    """What the program says; None where it ended with input that it hadn't read."""
    try:
        return ours.recv(4096)
    except ConnectionError:
        return None
    except BlockingIOError:
        raise TimedOut(timeout or 0) from None


def _send(ours: socket.socket, text: Iterable[bytes], timeout: Optional[float]) -> bool:
    """Sends the input; whether all of it was sent. A program that ends, or speaks, before it has all takes no more."""
    poll = select.poll()
    poll.register(ours, select.POLLIN | select.POLLOUT)
    for piece in text:
        rest = memoryview(piece)
        while rest:
            found = poll.poll(None if timeout is None else timeout * 1000)
            if not found:
                raise TimedOut(timeout or 0)
            if any(events & ~select.POLLOUT for _, events in found):
                return False
            with contextlib.suppress(BlockingIOError, ConnectionError):
                rest = rest[ours.send(rest, socket.MSG_NOSIGNAL | socket.MSG_DONTWAIT):]
    return True


def create(program: str, file: bytes, height: int, journal: Optional[int], paired: bool, timeout: Optional[float]) -> None:
    if journal is None:
        journal = min(max(SMALLEST_JOURNAL, 2**height), GREATEST_JOURNAL) if 0 <= height <= 16 else SMALLEST_JOURNAL
    words = [b"create-paired" if paired else b"create", file, b"%d" % height, b"%d" % journal]
    status, said, _ = command(program, words, timeout=timeout)
    if status == 2:
        raise ValueError(f"no store can be made of height {height} with a journal of {journal} pages, or its name is no UTF-8")
    if status == 4:
        raise DiskFault("the store can't be made there: a call of the disk failed", status)
    if status != 0:
        raise ended(status, said.rstrip(b"\n"))


def filled(file: bytes) -> bool:
    """Whether a file is there that has bytes."""
    try:
        return os.stat(file).st_size > 0
    except FileNotFoundError:
        return False


def put_in_place(program: str, file: bytes, height: int, journal: Optional[int], paired: bool, timeout: Optional[float],
                 keep: bool, held: contextlib.ExitStack) -> None:
    """Makes a new, empty store in this file, or with `keep` only where none is. What was there is locked until `held` ends."""
    new = os.path.join(os.path.dirname(file), b".pma-" + secrets.token_hex(8).encode())
    try:
        create(program, new, height, journal, paired, timeout)
        try:
            os.link(new, file)  # which replaces nothing
        except FileExistsError:
            held.enter_context(locked(file))
            if keep and filled(file):  # another process has made it meanwhile
                return held.close()
            os.replace(new, file)
    finally:
        with contextlib.suppress(FileNotFoundError):
            os.unlink(new)
    _sync_folder(file)


def _sync_folder(file: bytes) -> None:
    folder = os.open(os.path.dirname(file), os.O_RDONLY)
    try:
        os.fsync(folder)
    finally:
        os.close(folder)


@contextlib.contextmanager
def locked(file: bytes) -> Iterator[None]:
    """Keeps every `pma` out of the file that has this name now; `InUse` where one is in it."""
    while True:
        descriptor = os.open(file, os.O_RDWR)
        try:
            _lock(descriptor, fcntl.LOCK_EX)
            if os.path.samestat(os.fstat(descriptor), os.stat(file)):  # else another file has the name by now
                yield
                return
        finally:
            os.close(descriptor)


def refuse_in_use(file: bytes) -> None:
    """Raises `InUse` where a process has the file locked, or the system's error where it can't be opened."""
    descriptor = os.open(file, os.O_RDWR)
    try:
        _lock(descriptor, fcntl.LOCK_SH)
    finally:
        os.close(descriptor)


def _lock(descriptor: int, kind: int) -> None:
    try:
        fcntl.flock(descriptor, kind | fcntl.LOCK_NB)
    except OSError as error:
        if error.errno not in (errno.EWOULDBLOCK, errno.EACCES):
            raise
        raise InUse("another process has the store open", 4) from None
