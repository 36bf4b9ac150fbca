"""Ordered stores of short records, each in one file, by a process of the program `pma` for each that is open.

    with pma.open("parts.pma", "c") as store:
        store[b"bolt-m6"] = b"140"          # it is in the file when this returns
        for key, value in store.range(b"b", b"c"):
            ...
"""
from .batch import Batch
from .cursor import Cursor
from .errors import (BadBatch, Closed, DiskFault, Ended, Error, Full, InUse, NoBatch, NoProgram, OutcomeUnknown, OutOfMemory,
                     Oversized, ReadOnly, Refused, TimedOut, TooManyCursors, UnexpectedReply)
from .pipeline import Pipeline
from .requests import Changes, Check
from .store import Store, open

__all__ = [
    "BadBatch", "Batch", "Changes", "Check", "Closed", "Cursor", "DiskFault", "Ended", "Error", "Full", "InUse", "NoBatch",
    "NoProgram", "OutOfMemory", "OutcomeUnknown", "Oversized", "Pipeline", "ReadOnly", "Refused", "Store", "TimedOut",
    "TooManyCursors", "UnexpectedReply", "open",
]
