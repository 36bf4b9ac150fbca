"""How a program keeps a store open, by the client of clients/python: orders, an index of their states, and a kill.

Usage: client.py PROGRAM FILE, where FILE isn't there yet. Ends with 1 where an answer isn't the one that is due.
"""
import os
import pathlib
import signal
import sys

sys.path.insert(0, str(pathlib.Path(__file__).resolve().parent.parent / "clients" / "python"))  # where it isn't installed

import pma  # noqa: E402


def due(holds):
    if not holds:
        sys.exit("an answer isn't the one that is due")


def move(store, number, old, new):
    """Moves an order to another state: table and index change together or not at all."""
    with store.batch() as batch:
        batch.put(b"record/%06d" % number, new)
        batch.remove(b"by/%s/%06d" % (old, number))
        batch.put(b"by/%s/%06d" % (new, number), b"")


def fill(store):
    with store.pipeline() as ahead:  # all of them in one wait
        for number in range(500):
            ahead.put(b"record/%06d" % number, b"packed")
            ahead.put(b"by/packed/%06d" % number, b"")
    due(len(store) == 1000 and store[b"record/000017"] == b"packed")


def work(store):
    """Moves orders until the program dies; the first one whose move wasn't answered."""
    for number in range(500):
        if number == 300:
            os.kill(store.pid, signal.SIGKILL)  # as a power cut or an operator may
        try:
            move(store, number, b"packed", b"sent")
        except (pma.OutcomeUnknown, pma.Ended):
            return number


program, file = sys.argv[1:]
with pma.open(file, "c", height=6, program=program) as store:
    fill(store)
    stopped = work(store)
    due(stopped == 300)
with pma.open(file, "w", program=program) as store:
    move(store, stopped, b"packed", b"sent")  # whether it was made or not: twice leaves the same map
    sent = [int(key[-6:]) for key, _ in store.range(b"by/sent/", b"by/sent0")]
    due(sent == list(range(301)) and all(store[b"record/%06d" % number] == b"sent" for number in sent))
    with store.cursor(b"by/packed/", b"by/packed0") as cursor:  # a walk over what it changes
        for key, _ in cursor:
            move(store, int(key[-6:]), b"packed", b"sent")
    due(not list(store.range(b"by/packed/", b"by/packed0")) and store.check().records == 1000)
