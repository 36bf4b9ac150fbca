"""What a store raises: each error comes of a reply, or of the status with which the program ended."""
from __future__ import annotations

from typing import Optional


class Error(Exception):
    """Whatever a store raises. Only `OutcomeUnknown` leaves open whether the request changed the store; after each other error
    it changed nothing."""


class Closed(Error):
    """The store, or the cursor, was closed; or the store belongs to the process from which this one was forked."""


class ReadOnly(Error):
    """The store was opened for reading, and a change was asked for."""


class NoProgram(Error):
    """The program can't be started."""


class Oversized(Error, ValueError):
    """A key, a bound, a value or the line of a batch has more bytes than `limit`."""

    def __init__(self, what: str, limit: int) -> None:
        super().__init__(what, limit)
        self.what, self.limit = what, limit

    def __str__(self) -> str:
        return f"the {self.what} has more than {self.limit} bytes"


class BadBatch(Error, ValueError):
    """A batch has more than 16 items, or one key twice."""


class NoBatch(Error):
    """The file is of version 1, which has no batches."""


class Full(Error):
    """The store holds `records` records, and has room for no other key."""

    def __init__(self, records: int) -> None:
        super().__init__(records)
        self.records = records

    def __str__(self) -> str:
        return f"the store has room for {self.records} records, and for no other one"


class TooManyCursors(Error):
    """Sixteen cursors are open; close one first."""


class OutcomeUnknown(Error):
    """The program ended, or the conversation was broken off, while this change was under way: it is in the store, wholly, or it
    isn't. Open the store again and look, or make the change again. `__cause__` tells what happened."""


class Ended(Error):
    """The program has ended, with `status`: what `wait` calls it, a signal's number negative; None where nobody knows it. The
    store must be opened again."""

    def __init__(self, text: str, status: Optional[int] = None) -> None:
        super().__init__(text, status)
        self.text, self.status = text, status

    def __str__(self) -> str:
        return self.text


class InUse(Ended):
    """Another process has the store open."""


class DiskFault(Ended):
    """A call of the disk failed. What was answered is in the file, as far as the device keeps its bytes."""


class OutOfMemory(Ended):
    """There was no memory for opening the store; the file is unchanged."""


class Refused(Ended):
    """The file is no store, or was damaged; or a text can't be loaded or merged. `line` says why."""

    def __init__(self, line: bytes) -> None:
        super().__init__(line.decode("ascii", "replace"), 3)
        self.line = line


class TimedOut(Ended):
    """The program said nothing for the seconds that the store's `timeout` has. The conversation was broken off."""

    def __init__(self, seconds: float) -> None:
        super().__init__(f"the program said nothing for {seconds:g} seconds")
        self.seconds = seconds


class UnexpectedReply(Ended):
    """The reply is none that the request has: the program is no `pma`, or one of another age. The conversation was broken off.
    `line` is the reply."""

    def __init__(self, line: bytes) -> None:
        super().__init__(f"the reply {line!r} wasn't expected")
        self.line = line


def ended(status: Optional[int], refusal: bytes = b"") -> Ended:
    """The error of a run that has ended with this status, with the line of a refusal if there was one."""
    if status == 3 and refusal:
        return Refused(refusal)
    if status == 2:
        return Ended("the program takes no such words: it is older than they are, or the file's name is no text in UTF-8", status)
    if status == 4:
        return DiskFault("a call of the disk failed, or another process has the file", status)
    if status == 7:
        return OutOfMemory("there was no memory for opening the store", status)
    if status is None:
        return Ended("the program has ended; its status was taken by another part of this process")
    if status < 0:
        return Ended(f"the program was stopped by signal {-status}", status)
    return Ended(f"the program has ended with status {status}", status)
