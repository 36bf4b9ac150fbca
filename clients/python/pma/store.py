"""A store, opened: a mapping of bytes to bytes in the order of its keys."""
from __future__ import annotations

import contextlib
import errno
import itertools
import os
import threading
import time
from typing import (Any, BinaryIO, Callable, ContextManager, ItemsView, Iterable, Iterator, MutableMapping, Optional, Sequence,
                    Tuple, TypeVar, Union, ValuesView)

from . import bulk, making
from .batch import Batch
from .cursor import Cursor
from .errors import Closed, DiskFault, Error, Oversized, ReadOnly
from .pipeline import Pipeline
from .requests import (Changes, Check, CheckAll, CloseCursor, Dump, Get, Limit, OpenCursor, Put, Range, Record, Remove, Request,
                       StepCursor, Text)
from .run import Run

T = TypeVar("T")

PAGE = 1000  # records that one request reads, of an iteration or a range
BACK = 100  # records that are read by one wait, of a range from its end on
FLAGS = "r", "w", "c", "n"
PAUSES = [2**n / 1000 for n in range(10)]  # seconds before the next try to open: who had the file may have closed it meanwhile


def bytes_of(text: Text) -> bytes:
    """A key, a bound or a value as bytes; a `str` as UTF-8, as the modules of `dbm` take it."""
    if isinstance(text, str):
        return text.encode()
    if isinstance(text, (bytes, bytearray, memoryview)):
        return bytes(text)
    raise TypeError(f"keys and values are bytes or str, not {type(text).__name__}")


def opened(program: str, file: bytes, timeout: Optional[float]) -> Tuple[Run, int, int]:
    """A run on this store, with the most bytes of a key and of a value. `InUse` if another process has it."""
    pauses = iter(PAUSES)
    while True:
        run = Run(program, b"run", file, timeout)
        key, value = Limit(b"key"), Limit(b"value")
        run.exchange([key, value])
        try:
            return run, key.result(), value.result()
        except DiskFault:
            run.close()
            making.refuse_in_use(file)
            pause = next(pauses, None)
            if pause is None:
                raise
            time.sleep(pause)
        except Error:
            run.close()
            raise


class Store(MutableMapping[bytes, bytes]):
    """A store that `open` opened. Its keys come in the order of their bytes. It may be used by several threads."""

    def __init__(self, program: str, file: bytes, reading: bool, timeout: Optional[float] = None) -> None:
        self._program, self._file, self._reading, self._timeout = program, file, reading, timeout
        self._run, self.key_limit, self.value_limit = opened(program, file, timeout)
        self._names = itertools.count(1)
        self._lock = threading.RLock()

    def __repr__(self) -> str:
        return f"<pma.Store {os.fsdecode(self._file)!r}>"

    def __enter__(self) -> Store:
        return self

    def __exit__(self, *error: object) -> None:
        self.close()

    @property
    def pid(self) -> int:
        """The number of the process that has the store open."""
        return self._run.pid

    def close(self) -> None:
        """Ends the run of the program. It raises `Ended` where the run had ended otherwise and nobody was told of it; what was
        answered is in the file all the same. A second time it does nothing."""
        with self._turn():
            self._run.close()

    # Requests

    def _turn(self) -> ContextManager[Any]:
        """One thread after the other uses the run; a forked process has no other threads, but maybe a lock of theirs."""
        return self._lock if self._run.is_own() else contextlib.nullcontext()

    def _exchange(self, requests: Sequence[Request[Any]]) -> None:
        if self._reading and any(request.changes for request in requests):
            raise ReadOnly("the store was opened for reading")
        with self._turn():
            self._run.exchange(requests)

    def _ask(self, request: Request[T]) -> T:
        self._exchange([request])
        return request.result()

    def _key(self, key: Text) -> bytes:
        found = self._bound(key)
        if not found:
            raise ValueError("a key has at least one byte")
        return found

    def _bound(self, key: Text) -> bytes:
        found = bytes_of(key)
        if len(found) > self.key_limit:
            raise Oversized("key", self.key_limit)
        return found

    def _value(self, value: Text) -> bytes:
        found = bytes_of(value)
        if len(found) > self.value_limit:
            raise Oversized("value", self.value_limit)
        return found

    # The mapping

    def __getitem__(self, key: Text) -> bytes:
        found = self._ask(Get(self._key(key)))
        if found is None:
            raise KeyError(key)
        return found

    def __setitem__(self, key: Text, value: Text) -> None:
        """Binds the key; it is in the file when this returns."""
        self._ask(Put(self._key(key), self._value(value)))

    def __delitem__(self, key: Text) -> None:
        if not self._ask(Remove(self._key(key))):
            raise KeyError(key)

    def __contains__(self, key: object) -> bool:
        return self._ask(Get(self._key(key))) is not None  # type: ignore[arg-type]

    def __iter__(self) -> Iterator[bytes]:
        """The keys in their order, read as `range` reads them."""
        return (key for key, _ in self.range())

    def __len__(self) -> int:
        """The number of records. The first time the whole store is read; from then on the replies tell what was added."""
        with self._turn():
            if self._run.records is None:
                return self.check().records
            self._run.require()
            return self._run.records

    def items(self) -> ItemsView[bytes, bytes]:
        """The records, in the order of their keys."""
        return _Items(self)

    def values(self) -> ValuesView[bytes]:
        """The values, in the order of their keys."""
        return _Values(self)

    def popitem(self) -> Record:
        """Removes and returns the record of the least key."""
        for key, value in self.range(limit=1):
            del self[key]
            return key, value
        raise KeyError("the store is empty")

    def clear(self) -> None:
        """Removes all records, one after the other."""
        while True:
            with self.pipeline() as ahead:
                removed = [ahead.remove(key) for key, _ in self.range(limit=PAGE)]
            if not removed:
                return

    # Records in their order

    def range(self, low: Optional[Text] = None, high: Optional[Text] = None, limit: Optional[int] = None,
              reverse: bool = False) -> Iterator[Record]:
        """The records with keys from `low` on and below `high`, in ascending order, at most `limit` of them.

        They are read a page of 1000 at a time, each page as the store is then: what is changed within the page meanwhile isn't
        seen, what is changed behind it is. A cursor sees each change ahead of it.

        With `reverse` they are in descending order, the last `limit` of them, and a page has 100: it is read by the steps of a
        cursor, which has to be free then.
        """
        if limit is not None and limit < 0:
            raise ValueError("limit is below 0")
        if high is not None and not bytes_of(high):
            return iter(())
        pages = self._pages_back if reverse else self._pages
        return pages(self._bound(low) if low else None, None if high is None else self._bound(high), limit)

    def _pages(self, low: Optional[bytes], high: Optional[bytes], limit: Optional[int]) -> Iterator[Record]:
        while limit is None or limit > 0:
            most = PAGE if limit is None else min(PAGE, limit)
            page = self._ask(Range(low, high, most))
            yield from page
            if len(page) < most:
                return
            low = self._above(page[-1][0])
            if low is None:
                return
            limit = None if limit is None else limit - most

    def _pages_back(self, low: Optional[bytes], high: Optional[bytes], limit: Optional[int]) -> Iterator[Record]:
        while limit is None or limit > 0:
            most = BACK if limit is None else min(BACK, limit)
            name = b"%d" % next(self._names)
            opening, steps = OpenCursor(name, low, high), [StepCursor(b"prev", name) for _ in range(most)]
            self._exchange([opening, *steps, CloseCursor(name)])
            opening.result()
            for step in steps:  # those behind the one that ended the cursor find none
                record = step.result()
                if record is None:
                    return
                yield record
                high = record[0]
            limit = None if limit is None else limit - most

    def _above(self, key: bytes) -> Optional[bytes]:
        """The least key above this one; None where there is none."""
        if len(key) < self.key_limit:
            return key + b"\0"
        front = key.rstrip(b"\xff")
        return front[:-1] + bytes([front[-1] + 1]) if front else None

    def cursor(self, low: Optional[Text] = None, high: Optional[Text] = None) -> Cursor:
        """A cursor over the records with keys from `low` on and below `high`, which gave none yet: `next` begins with the first
        of them, `prev` with the last. At most 16 are open."""
        name = b"%d" % next(self._names)
        if high is not None and not bytes_of(high):
            return Cursor(self, name, False)
        self._ask(OpenCursor(name, self._bound(low) if low else None, None if high is None else self._bound(high)))
        return Cursor(self, name, True)

    # Several changes

    def batch(self) -> Batch:
        """A context in which changes are gathered. At its end they are made, all of them or none."""
        return Batch(self)

    def pipeline(self) -> Pipeline:
        """A context in which requests are gathered. At its end they are sent ahead, so that all of them cost one wait."""
        return Pipeline(self)

    # The whole store

    def check(self) -> Check:
        """Reads the whole store; the number of its records and its height. `Refused` where it is damaged."""
        return self._ask(CheckAll())

    def dump(self, out: BinaryIO) -> int:
        """Writes all records to a binary file, as the load text that `pma dump` says; how many they are."""
        return self._ask(Dump(out))

    def load(self, text: bulk.Source) -> None:
        """Reads a load text into the store, which has no records: all of it or nothing. It comes from the file with this path,
        a binary file, bytes, or lines of them.

        The program is started anew for it, so cursors end, and another process may take the store in between: `InUse` where that
        was before, else of the next request. `Refused` has the line that says why a text isn't loaded; `Full` comes of one with
        too many records.
        """
        with bulk.pieces_of(text) as pieces:
            self._take(bulk.load, pieces)

    def merge(self, updates: bulk.Updates) -> Changes:
        """Makes any number of updates, all of them or none; what they changed.

        They are a mapping, or pairs of a key and a value in the ascending order of the keys, where the value None takes the
        record away; or a merge text, from where `load` takes one. The whole store is read and written, however few they are.

        The program is started anew for it, as for `load`. `Refused` has the line that says why a text isn't merged; `Full` comes
        where too many records would result. Behind `OutcomeUnknown` the store has all updates or none, and they may be made again.
        """
        with bulk.updates_of(updates, self._key, self._value) as pieces:
            return self._take(bulk.merge, pieces)

    def _take(self, word: Callable[[str, bytes, Iterable[bytes], Optional[float]], T], pieces: Iterable[bytes]) -> T:
        """Has a text taken by a process of its own, between two runs."""
        if self._reading:
            raise ReadOnly("the store was opened for reading")
        with self._turn():
            self._run.require()
            self._run.close()
            self._run.end = Error("a load or a merge is under way")  # for what the text is made by
            try:
                return word(self._program, self._file, pieces, self._timeout)
            finally:
                self._run.end = Closed("the store is closed")
                try:
                    self._run, self.key_limit, self.value_limit = opened(self._program, self._file, self._timeout)
                except (Error, OSError) as error:  # the text was taken, or not, all the same
                    self._run.end = error


class _Items(ItemsView[bytes, bytes]):
    def __iter__(self) -> Iterator[Record]:
        return self._mapping.range()  # type: ignore[attr-defined]


class _Values(ValuesView[bytes]):
    def __iter__(self) -> Iterator[bytes]:
        return (value for _, value in self._mapping.range())  # type: ignore[attr-defined]


def open(path: Union[str, bytes, "os.PathLike[Any]"], flag: str = "r", *, height: int = 12, journal: Optional[int] = None,
         paired: bool = True, program: str = "pma", timeout: Optional[float] = None) -> Store:
    """Opens the store in the file `path`, by a process of the program, which keeps the file locked until `close`.

    flag: 'r' a store that is there, for reading; 'w' for reading and writing; 'c' makes it where it is missing; 'n' makes a new,
    empty one in any case. height, from 0 to 16: a store that is made has room for 2^height * (64 - height) records, 212992 where
    it isn't given. journal: the pages of a journal, from 4 to max(4, 2^height); where it isn't given as many, or 1024 if that is
    less. paired: a store that is made has two journals and room for an index, so that an update takes two syncs; else it has one
    journal, and an update takes four. program: its name on the path, or where it is. timeout: the seconds for which the program
    may say nothing while it is waited for, behind which it is killed and `TimedOut` comes; a stopped program, or a disk, is
    waited for without end where it isn't given. To read or to write a large store may take a minute.
    """
    if flag not in FLAGS:
        raise ValueError("flag must be one of 'r', 'w', 'c', or 'n'")
    if timeout is not None and timeout <= 0:
        raise ValueError("timeout is not above 0")
    file = os.fsencode(os.path.realpath(path))
    with contextlib.ExitStack() as held:
        if flag == "n" or flag == "c" and not making.filled(file):
            making.put_in_place(program, file, height, journal, paired, timeout, flag == "c", held)
        elif not os.path.exists(file):
            raise FileNotFoundError(errno.ENOENT, "no store is there", os.fsdecode(file))
        return Store(program, file, flag == "r", timeout)
