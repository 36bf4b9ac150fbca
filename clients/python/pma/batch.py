"""Batches."""
from __future__ import annotations

from typing import TYPE_CHECKING, List, Optional, Type

from .errors import BadBatch, Oversized
from .requests import LINE, BatchOf, Changes, Text, word

if TYPE_CHECKING:
    from .store import Store

ITEMS = 16  # of a batch, at most


class Batch:
    """Changes that come about together. An error amid the context leaves all of them out."""

    def __init__(self, store: Store) -> None:
        self._store = store
        self._items: List[bytes] = []
        self._keys: List[bytes] = []
        self.changes: Optional[Changes] = None  # what was changed, once it is

    def put(self, key: Text, value: Text) -> None:
        """Binds a key to a value."""
        self._add(b"put", self._store._key(key), self._store._value(value))

    def remove(self, key: Text) -> None:
        """Takes the record of a key away, if it is there."""
        self._add(b"remove", self._store._key(key))

    def _add(self, kind: bytes, key: bytes, value: bytes = b"") -> None:
        if len(self._items) == ITEMS:
            raise BadBatch(f"a batch has at most {ITEMS} items")
        if key in self._keys:
            raise BadBatch(f"the batch has the key {key!r} already")
        items = self._items + [b" ".join([kind, word(key), *([word(value)] if value else [])])]
        if len(BatchOf(items).line) > LINE + 1:
            raise Oversized("line of the batch", LINE)
        self._items, self._keys = items, self._keys + [key]

    def __enter__(self) -> Batch:
        return self

    def __exit__(self, kind: Optional[Type[BaseException]], *error: object) -> None:
        items, self._items, self._keys = self._items, [], []
        if kind is None:
            self.changes = self._store._ask(BatchOf(items)) if items else Changes(0, 0, 0, 0)
