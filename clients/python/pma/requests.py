"""The commands of the program as requests: each makes its line, and takes the lines of its reply."""
from __future__ import annotations

import re
from typing import BinaryIO, Generic, List, NamedTuple, Optional, Tuple, TypeVar, Union
from urllib.parse import unquote_to_bytes

from .errors import Closed, Error, Full, NoBatch, Oversized, TooManyCursors, UnexpectedReply

T = TypeVar("T")
Text = Union[bytes, bytearray, memoryview, str]  # as callers give it
Record = Tuple[bytes, bytes]

LINE = 512  # bytes of a line, at most, without its line feed
ESCAPED = {bytes([byte]): b"%%%02X" % byte for byte in range(256)}
TO_ESCAPE = re.compile(rb"[\x00-\x20#%*;\x7f-\xff]")  # `;` stands between the items of a batch


def word(text: bytes) -> bytes:
    """A key or a value as a word of a line."""
    return TO_ESCAPE.sub(lambda found: ESCAPED[found[0]], text)


def bound(text: Optional[bytes]) -> bytes:
    return b"*" if text is None else word(text)


def plain(escaped: bytes) -> bytes:
    return unquote_to_bytes(escaped) if b"%" in escaped else escaped


def record_of(words: List[bytes]) -> Record:
    """The record of a line `record KEY VALUE`, or `record KEY` for the empty value."""
    return plain(words[1]), plain(words[2]) if len(words) == 3 else b""


class Check(NamedTuple):
    """What a check found: how many records, in 2^height segments."""

    records: int
    height: int


class Changes(NamedTuple):
    """What a batch or a merge changed: how many new keys it bound, present ones it bound anew, records it removed, and how many
    keys that were to be removed weren't there."""

    stored: int
    replaced: int
    removed: int
    absent: int


def changes_of(words: List[bytes]) -> Changes:
    """The numbers of a line `batch stored=A replaced=B removed=C absent=D`, or `merged ..`."""
    return Changes(*(int(number.split(b"=")[1]) for number in words[1:]))


class Request(Generic[T]):
    """A command, and its answer once that is there."""

    changes = False  # whether the store may be another one behind it

    def __init__(self, *words: bytes) -> None:
        self.line = b" ".join(words) + b"\n"
        self.done = False
        self.added = 0  # records that are in the store now and weren't before, less those that went
        self._answer: Optional[T] = None
        self._error: Optional[BaseException] = None

    def result(self) -> T:
        """The answer; raises the request's error where it has one, and `Error` where it wasn't sent yet."""
        if self._error is not None:
            raise self._error.with_traceback(None)
        if not self.done:
            raise Error("the request wasn't sent")
        return self._answer  # type: ignore[return-value]

    def take(self, line: bytes) -> bool:
        """Takes the next line of the reply; whether it was the last one."""
        try:
            if not self.read(line.split()):
                self.refuse(line)
        except (ValueError, IndexError, TypeError) as error:  # it has other words than such a reply
            raise UnexpectedReply(line) from error
        self.done = True
        return True

    def read(self, words: List[bytes]) -> bool:
        """Takes a reply of one line; whether it is one of this request's own."""
        raise UnexpectedReply(b" ".join(words))

    def refuse(self, line: bytes) -> None:
        """Takes the line by which any request may be refused."""
        words = line.split()
        if words[:1] == [b"oversized"] and len(words) == 3:
            self.fail(Oversized(words[1].decode(), int(words[2])))
        elif words[:1] == [b"full"] and len(words) == 2:
            self.fail(Full(int(words[1])))
        elif line == b"no batch":
            self.fail(NoBatch("the file is of version 1, which has no batches"))
        elif line == b"no room 16":
            self.fail(TooManyCursors("16 cursors are open"))
        elif line == b"no cursor":
            self.fail(Closed("the cursor ended with the run that had it"))
        else:
            raise UnexpectedReply(line)

    def fail(self, error: BaseException) -> None:
        self._error, self.done = error, True

    def count(self, records: Optional[int]) -> Optional[int]:
        """How many records the store has behind this request, where it was known before."""
        return None if records is None else records + self.added


class Limit(Request[int]):
    """Asks for the most bytes of a key, or of a value, by a line that has too many: it is refused in every store."""

    def __init__(self, what: bytes) -> None:
        super().__init__(b"get " + b"k" * 500 if what == b"key" else b"batch put k " + b"v" * 480 + b" ; put k")
        self._what = what

    def read(self, words: List[bytes]) -> bool:
        if words[:2] == [b"oversized", self._what]:
            self._answer = int(words[2])
        return self._answer is not None


class Get(Request[Optional[bytes]]):
    def __init__(self, key: bytes) -> None:
        super().__init__(b"get", word(key))

    def read(self, words: List[bytes]) -> bool:
        if words[0] == b"found":
            self._answer = plain(words[1]) if len(words) == 2 else b""
        return words[0] in (b"found", b"absent")


class Put(Request[bool]):
    """Answers whether the key is new."""

    changes = True

    def __init__(self, key: bytes, value: bytes) -> None:
        super().__init__(b"put", word(key), *([word(value)] if value else []))

    def read(self, words: List[bytes]) -> bool:
        self._answer = words == [b"stored"]
        self.added = int(self._answer)
        return self._answer or words == [b"replaced"]


class Remove(Request[bool]):
    """Answers whether the key was there."""

    changes = True

    def __init__(self, key: bytes) -> None:
        super().__init__(b"remove", word(key))

    def read(self, words: List[bytes]) -> bool:
        self._answer = words == [b"removed"]
        self.added = -int(self._answer)
        return self._answer or words == [b"absent"]


class BatchOf(Request[Changes]):
    changes = True

    def __init__(self, items: List[bytes]) -> None:
        super().__init__(b"batch", b" ; ".join(items))

    def read(self, words: List[bytes]) -> bool:
        if words[0] != b"batch" or len(words) != 5:
            return False
        self._answer = changes_of(words)
        self.added = self._answer.stored - self._answer.removed
        return True


class Range(Request[List[Record]]):
    def __init__(self, low: Optional[bytes], high: Optional[bytes], limit: int) -> None:
        super().__init__(b"range", bound(low), bound(high), b"%d" % limit)
        self._answer: List[Record] = []

    def take(self, line: bytes) -> bool:
        words = line.split(b" ")
        if words[0] == b"record" and len(words) in (2, 3):
            self._answer.append(record_of(words))
            return False
        return super().take(line)

    def read(self, words: List[bytes]) -> bool:
        return words == [b"end", b"%d" % len(self._answer)]


class Dump(Request[int]):
    """A range over all records, whose lines go into a file as they come; answers how many they are."""

    def __init__(self, out: BinaryIO) -> None:
        super().__init__(b"range * *")
        self._out = out
        self._answer: int = 0

    def take(self, line: bytes) -> bool:
        is_record = line.startswith(b"record ") and line.count(b" ") <= 2
        self._answer += is_record
        if not is_record and not super().take(line):
            return False
        if self._error is None:
            try:
                self._out.write(line + b"\n")
            except Exception as error:  # the other lines come all the same, and have to be taken
                self._error = error
        return not is_record

    def read(self, words: List[bytes]) -> bool:
        return words == [b"end", b"%d" % self._answer]


class CheckAll(Request[Check]):
    def __init__(self) -> None:
        super().__init__(b"check")

    def read(self, words: List[bytes]) -> bool:
        if words[:2] != [b"check", b"ok"]:
            return False
        self._answer = Check(*(int(number.split(b"=")[1]) for number in words[2:]))
        return True

    def count(self, records: Optional[int]) -> Optional[int]:
        return self._answer.records if self._answer else records


class OpenCursor(Request[None]):
    def __init__(self, name: bytes, low: Optional[bytes], high: Optional[bytes]) -> None:
        super().__init__(b"open", name, bound(low), bound(high))

    def read(self, words: List[bytes]) -> bool:
        return words == [b"opened"]


class StepCursor(Request[Optional[Record]]):
    """A step of a cursor: `next` or `prev`."""

    def __init__(self, way: bytes, name: bytes) -> None:
        super().__init__(way, name)

    def read(self, words: List[bytes]) -> bool:
        if words[0] == b"record" and len(words) in (2, 3):
            self._answer = record_of(words)
        return self._answer is not None or words == [b"end"]


class CloseCursor(Request[None]):
    def __init__(self, name: bytes) -> None:
        super().__init__(b"close", name)

    def read(self, words: List[bytes]) -> bool:
        return words in ([b"closed"], [b"no", b"cursor"])
