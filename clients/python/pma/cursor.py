"""Cursors."""
from __future__ import annotations

from typing import TYPE_CHECKING, Iterator, Optional

from .requests import CloseCursor, Record, StepCursor

if TYPE_CHECKING:
    from .store import Store


class Cursor(Iterator[Record]):
    """A walk over the records, while other requests change the store: each step gives the record of the least key above the last
    one, or of the greatest key below it, as the store is then."""

    def __init__(self, store: Store, name: bytes, is_open: bool) -> None:
        self._store, self._name, self._open = store, name, is_open

    def next(self) -> Optional[Record]:
        """The next record; None at the end, which closes the cursor."""
        return self._step(b"next")

    def prev(self) -> Optional[Record]:
        """The previous record, at first the last one; None where there is none, which closes the cursor."""
        return self._step(b"prev")

    def _step(self, way: bytes) -> Optional[Record]:
        if not self._open:
            return None
        record = self._store._ask(StepCursor(way, self._name))
        self._open = record is not None
        return record

    def __next__(self) -> Record:
        record = self.next()
        if record is None:
            raise StopIteration
        return record

    def close(self) -> None:
        """Lets go of the cursor; so does its end."""
        if self._open:
            self._open = False
            self._store._ask(CloseCursor(self._name))

    def __enter__(self) -> Cursor:
        return self

    def __exit__(self, *error: object) -> None:
        self.close()
