"""Requests that are sent ahead."""
from __future__ import annotations

from typing import TYPE_CHECKING, Any, List, Optional, Type, TypeVar

from .requests import Get, Put, Remove, Request, Text

if TYPE_CHECKING:
    from .store import Store

T = TypeVar("T")


class Pipeline:
    """Requests that are sent ahead. Each gives an object whose `result()` is the answer, once the context has ended. An error
    amid the context leaves all of them unsent."""

    def __init__(self, store: Store) -> None:
        self._store = store
        self._requests: List[Request[Any]] = []

    def _add(self, request: Request[T]) -> Request[T]:
        self._requests.append(request)
        return request

    def get(self, key: Text) -> Request[Optional[bytes]]:
        """The value of the key, or None."""
        return self._add(Get(self._store._key(key)))

    def put(self, key: Text, value: Text) -> Request[bool]:
        """Whether the key is new."""
        return self._add(Put(self._store._key(key), self._store._value(value)))

    def remove(self, key: Text) -> Request[bool]:
        """Whether the key was there."""
        return self._add(Remove(self._store._key(key)))

    def __enter__(self) -> Pipeline:
        return self

    def __exit__(self, kind: Optional[Type[BaseException]], *error: object) -> None:
        """Sends the requests; raises the error of the first that has one, once all are answered or failed."""
        requests, self._requests = self._requests, []
        if kind is None and requests:
            self._store._exchange(requests)
            for request in requests:
                request.result()
