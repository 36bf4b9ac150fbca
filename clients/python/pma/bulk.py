"""Texts of many records, which a process of their own takes all or none of: load texts and merge texts."""
from __future__ import annotations

import contextlib
import itertools
import os
from typing import Any, BinaryIO, Callable, Iterable, Iterator, List, Mapping, Optional, Tuple, Union

from .errors import Ended, Full, OutcomeUnknown, TimedOut, UnexpectedReply, ended
from .making import command, refuse_in_use
from .requests import Changes, Text, changes_of, word

PIECE = 65536  # bytes of a text that are sent by one call
UNCHANGED = 2, 3, 5, 7, 8  # statuses behind which the store is as it was

Update = Tuple[Text, Optional[Text]]  # a key and its new value, None where its record is to go
Source = Union[str, "os.PathLike[Any]", bytes, BinaryIO, Iterable[bytes]]  # of a text, as callers give it
Updates = Union[Source, Mapping[Any, Optional[Text]], Iterable[Update]]


def load(program: str, file: bytes, text: Iterable[bytes], timeout: Optional[float]) -> None:
    _take(program, b"load", file, text, timeout)


def merge(program: str, file: bytes, text: Iterable[bytes], timeout: Optional[float]) -> Changes:
    line = _take(program, b"merge", file, text, timeout)
    try:
        if line.startswith(b"merged "):
            return changes_of(line.split())
    except (ValueError, IndexError, TypeError):  # it has other words
        pass
    raise _unknown(UnexpectedReply(line))


def _take(program: str, kind: bytes, file: bytes, text: Iterable[bytes], timeout: Optional[float]) -> bytes:
    """Has the text taken; the line that the program says then."""
    sent = Sent(text)
    try:
        status, said, whole = command(program, [kind, file], sent, timeout)
    except (TimedOut, UnexpectedReply) as cause:
        if sent.whole:
            raise _unknown(cause) from cause
        raise
    line = said.rstrip(b"\n")
    if status == 0 or said.startswith(b"merged ") and said.endswith(b"\n"):
        return line
    if status == 3 and line.startswith(b"refused full "):
        raise Full(int(line.split()[2]))
    end = ended(status, line)
    if status in UNCHANGED:
        raise end
    if whole:
        raise _unknown(end)
    if status == 4:
        refuse_in_use(file)
    raise end  # it makes nothing before it has read to the end


def _unknown(cause: Ended) -> OutcomeUnknown:
    unknown = OutcomeUnknown(f"the text may be in the store, wholly, or not: {cause}")
    unknown.__cause__ = cause
    return unknown


class Sent:
    """A text in larger pieces, and whether all of it was asked for."""

    def __init__(self, text: Iterable[bytes]) -> None:
        self._text, self.whole = text, False

    def __iter__(self) -> Iterator[bytes]:
        held: List[bytes] = []
        size = 0
        for piece in self._text:
            held.append(piece)
            size += len(piece)
            if size >= PIECE:
                yield b"".join(held)
                held, size = [], 0
        yield b"".join(held)
        self.whole = True


def _read(file: Any) -> Iterator[bytes]:
    while True:
        piece = file.read(PIECE)
        if not piece:
            return
        yield piece


@contextlib.contextmanager
def pieces_of(source: Source) -> Iterator[Iterable[bytes]]:
    """The pieces of a text: of the file with this path, of a binary file, of bytes, or the pieces themselves."""
    if isinstance(source, (str, os.PathLike)):
        with open(source, "rb") as file:
            yield _read(file)
    elif isinstance(source, (bytes, bytearray, memoryview)):
        yield [bytes(source)]
    elif hasattr(source, "read"):
        yield _read(source)
    else:
        yield source


@contextlib.contextmanager
def updates_of(updates: Updates, key: Callable[[Text], bytes], value: Callable[[Text], bytes]) -> Iterator[Iterable[bytes]]:
    """The pieces of a merge text: of a mapping, of pairs, or as it is. `key` and `value` take what the caller gives as bytes."""
    if isinstance(updates, Mapping):
        yield _lines(sorted(((key(name), new) for name, new in updates.items()), key=lambda pair: pair[0]), key, value)
    elif isinstance(updates, (str, bytes, bytearray, memoryview, os.PathLike)) or hasattr(updates, "read"):
        with pieces_of(updates) as text:  # type: ignore[arg-type]
            yield text
    else:
        rest = iter(updates)
        front: List[Any] = list(itertools.islice(rest, 1))
        whole = itertools.chain(front, rest)
        yield whole if front and isinstance(front[0], bytes) else _lines(whole, key, value)


def _lines(updates: Iterable[Update], key: Callable[[Text], bytes], value: Callable[[Text], bytes]) -> Iterator[bytes]:
    count = 0
    for update in updates:
        if isinstance(update, (str, bytes)):
            raise TypeError("an update is a pair of a key and a value")
        name, new = update
        words = [b"remove", word(key(name))] if new is None else [b"record", word(key(name)), word(value(new))]
        yield b" ".join(filter(None, words)) + b"\n"
        count += 1
    yield b"end %d\n" % count
