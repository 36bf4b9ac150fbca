#!/usr/bin/env -S python3 -B
"""The Python client beside `sqlite3`, `dbm.gnu` and `lmdb` where they are there: puts, each durable by itself, and gets.

Usage: clients.py [--program PROGRAM] [--csv FOLDER] [--memory FOLDER] [--disk FOLDER] [--rounds N]

In each round each contestant gets a new store in memory, of the same random keys of 16 bytes with values of 32, and one of fewer
keys on the disk. Operations a second by the clock, the median of the rounds with the least and the greatest. Sending ahead is the
client's alone. Ends with 1 where a get answers what wasn't put.
"""
import argparse
import csv
import importlib
import os
import pathlib
import random
import statistics
import sys
import tempfile
import time

from workloads import KEYS, SEED, key, value

HERE = pathlib.Path(__file__).resolve().parent
sys.path.insert(0, str(HERE.parent / "clients" / "python"))

import pma  # noqa: E402

IN_MEMORY, ON_DISK = 10000, 300  # keys
ITEMS = 8  # puts of a batch for whose keys and values a line has room
PUT, GET, AHEAD, BATCH = "put", "get", "sent ahead", f"put, batch of {ITEMS}"


class Pma:
    name, needs = "pma", None

    def __init__(self, file, program):
        self.store = pma.open(file, "n", height=9, program=program)
        self.put, self.get = self.store.__setitem__, self.store.get
        self.ways = {PUT: self.put_each, GET: self.get_each, f"{PUT}, {AHEAD}": self.put_ahead, f"{GET}, {AHEAD}": self.get_ahead,
                     BATCH: self.put_batches}

    def put_each(self, records):
        for k, v in records:
            self.put(k, v)

    def get_each(self, records):
        return [self.get(k) for k, _ in records]

    def put_ahead(self, records):
        with self.store.pipeline() as ahead:
            for k, v in records:
                ahead.put(k, v)

    def get_ahead(self, records):
        with self.store.pipeline() as ahead:
            answers = [ahead.get(k) for k, _ in records]
        return [answer.result() for answer in answers]

    def put_batches(self, records):
        for first in range(0, len(records), ITEMS):
            with self.store.batch() as batch:
                for k, v in records[first:first + ITEMS]:
                    batch.put(k, v)

    def close(self):
        self.store.close()


class Peer(Pma):
    """A store of another module: `put` and `get`, one by one."""

    def __init__(self, file, _):
        self.open(file)
        self.ways = {PUT: self.put_each, GET: self.get_each}


class Sqlite(Peer):
    name, needs = "sqlite3", ("sqlite3", "python3")

    def open(self, file):
        import sqlite3
        self.store = sqlite3.connect(file, isolation_level=None)
        self.store.execute("pragma journal_mode=wal")
        self.store.execute("pragma synchronous=full")
        self.store.execute("create table records (k blob primary key, v blob) without rowid")

    def put(self, k, v):
        self.store.execute("insert or replace into records values (?, ?)", (k, v))

    def get(self, k):
        return self.store.execute("select v from records where k = ?", (k,)).fetchone()[0]


class Gdbm(Peer):
    name, needs = "dbm.gnu", ("dbm.gnu", "python3-gdbm")

    def open(self, file):
        import dbm.gnu
        self.store = dbm.gnu.open(file, "ns")
        self.put, self.get = self.store.__setitem__, self.store.get


class Lmdb(Peer):
    name, needs = "lmdb", ("lmdb", "python3-lmdb")

    def open(self, file):
        import lmdb
        self.store = lmdb.open(file, subdir=False, map_size=2**30)

    def put(self, k, v):
        with self.store.begin(write=True) as one:
            one.put(k, v)

    def get(self, k):
        with self.store.begin() as one:
            return one.get(k)


def there():
    found = []
    for contestant in (Pma, Sqlite, Gdbm, Lmdb):
        try:
            if contestant.needs:
                importlib.import_module(contestant.needs[0])
            found.append(contestant)
        except ImportError:
            print(f"left out: {contestant.name} isn't there (Debian: {contestant.needs[1]})")
    return found


def took(contestant, folder, program, records, gets):
    """Way -> operations a second: each way to put into a new store, and of the last one the gets, where they are wanted."""
    rates = {}
    with tempfile.TemporaryDirectory(dir=folder) as room:
        store = contestant(os.path.join(room, "first"), program)
        for way in sorted(store.ways, key=lambda way: not way.startswith(PUT)):
            if way.startswith(PUT):
                store.close()
                store = contestant(os.path.join(room, way), program)
            elif not gets:
                continue
            begun = time.perf_counter()
            found = store.ways[way](records)
            rates[way] = len(records) / (time.perf_counter() - begun)
            if way.startswith(GET) and found != [v for _, v in records]:
                sys.exit(f"{contestant.name}: a get answers what wasn't put")
        store.close()
    return rates


def main():
    parser = argparse.ArgumentParser(description=__doc__.split("\n")[0])
    parser.add_argument("--program", default=str(HERE.parent / "pma"), type=os.path.realpath)
    parser.add_argument("--csv", default=HERE / "out" / "csv", type=pathlib.Path)
    parser.add_argument("--memory", default="/dev/shm" if os.access("/dev/shm", os.W_OK) else "/tmp")
    parser.add_argument("--disk", default=HERE)
    parser.add_argument("--rounds", default=5, type=int)
    arguments = parser.parse_args()
    keys = random.Random(SEED).sample(range(KEYS), IN_MEMORY)
    records = [(key(number), value(n)) for n, number in enumerate(keys)]
    rates = {}
    contestants = there()
    for turn in range(arguments.rounds):
        first = turn % len(contestants)
        for contestant in contestants[first:] + contestants[:first]:
            places = ("memory", arguments.memory, records, True), ("disk", arguments.disk, records[:ON_DISK], False)
            for place, folder, some, gets in places:
                for way, rate in took(contestant, folder, arguments.program, some, gets).items():
                    rates.setdefault((place, way, contestant.name), []).append(rate)
    rows = [[*what, *(f"{number:.0f}" for number in (statistics.median(all_of), min(all_of), max(all_of)))]
            for what, all_of in sorted(rates.items(), key=lambda one: (one[0][0] == "disk", one[0][1]))]
    arguments.csv.mkdir(parents=True, exist_ok=True)
    with open(arguments.csv / "clients.csv", "w", newline="") as file:
        csv.writer(file, lineterminator="\n").writerows([["place", "what", "contestant", "a_second", "least", "greatest"], *rows])
    for row in rows:
        print("{:8} {:20} {:10} {:>8} a second ({} to {})".format(*row))


if __name__ == "__main__":
    main()
