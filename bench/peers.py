#!/usr/bin/env -S python3 -B
"""The program beside SQLite, LMDB and LevelDB, all behind its script language; a fourth driver keeps nothing.

Usage: peers.py [--records N[,N..]] [--program PROGRAM] [--csv FOLDER] [--memory FOLDER] [--disk FOLDER] [--rounds N]

For each number of records the stores are filled in memory, one command sent at a time, and what each reply took is kept.
Then the replies to every script are compared byte by byte, and so are the dumps, and only then is anything timed: contestants
take turns, in each round another one first. At the greatest number the stores are copied to the disk and timed by the clock,
and the blocks of a search and the charges of updates are counted. Ends with 1 where replies differ, or where a compiler or
every peer is missing.
"""
import argparse
import csv
import datetime
import filecmp
import os
import pathlib
import shutil
import statistics
import subprocess
import sys
import tempfile

from contestants import HERE, OUT, Bench, Missing, build, contestants, known, version
from workloads import BATCH, ITEMS, Workloads, charged, odd_lines, orders

TRACED = 400  # commands of which the system calls are counted


def spread(values):
    return [f"{statistics.median(values):.4g}", f"{min(values):.4g}", f"{max(values):.4g}"]


def turned(all_of, turn):
    first = turn % len(all_of)
    return all_of[first:] + all_of[:first]


class Run:
    def __init__(self, folder, there, program, words, records, rounds):
        self.work, self.records, self.rounds = Workloads(records, rounds), records, rounds
        self.folder = folder / str(records)
        self.folder.mkdir()
        self.bench = Bench(self.folder)
        self.all = contestants(there, program, words, self.work, self.folder)
        self.stores = [c for c in self.all if c.name != "nothing"]
        self.loaders = [c for c in self.all if c.bulk("load") and c.bulk("dump")]
        self.words = words
        self.mergers = self.loaders if "merge" in words else []
        self.indexed = [c for c in self.all if c.height is not None] if "quick" in words else []

    def filled(self):
        """Fills the stores: rows of the pauses, and of sizes and memory."""
        pauses, sizes = [], []
        self.bench.write(self.work.fill())
        for one in self.all:
            one.make()
            _, median, most, greatest, _, seconds, memory = self.bench.run(one.command(), tool="pauses")
            pauses.append([self.records, one.name, f"{median:.1f}", f"{most:.1f}", f"{greatest:.1f}"])
            if one.name != "nothing":
                length, taken = one.sizes()
                sizes.append([self.records, one.name, length, taken, int(memory), f"{seconds:.2f}"])
            print(f"{self.records:>8} {one.name:16} filled in {seconds:.2f} s of processor time", flush=True)
        return pauses, sizes

    def same(self, name, lines, commands=None):
        """Runs each store on these lines, or these commands, by name; the replies must be the same."""
        self.bench.write(lines)
        first = None
        for who, command in (commands or {one.name: one.command() for one in self.stores}).items():
            replies = self.folder / f"replies-{who}"
            self.bench.run(command, to=replies)
            if first and not filecmp.cmp(first, replies, shallow=False):
                raise Missing(f"REPLIES DIFFER: {name}: {first.name}, {replies.name}")
            if first:
                replies.unlink()
            first = first or replies
        first.unlink()

    def odd(self):
        files = {one: self.folder / f"odd-{one.name}" for one in self.stores}
        for one, file in files.items():
            one.make(file)
        lines = odd_lines(60 if self.work.small else 5000, self.words)
        self.same("odd lines", lines, {one.name: one.command(file) for one, file in files.items()})
        for one, file in files.items():
            one.clear(file)

    def text(self, one):
        return self.folder / f"text-{one.text}"

    def bulk(self):
        """Keeps each form of load text; all dumps of one form must be the same, and all stores that are made of them."""
        scan = [b"range * *\n"]
        for form in dict.fromkeys(one.text for one in self.loaders):
            of_form = [one for one in self.loaders if one.text == form]
            self.same("dump", [], {one.name: one.bulk("dump") for one in of_form})
            self.bench.run(of_form[0].bulk("dump"), to=self.text(of_form[0]))
        for one in self.loaders:
            if one in self.stores:
                new = self.loaded(one)
                self.same("load", scan, {one.name: one.command(), f"{one.name}-new": one.command(new)})
                one.clear(new)

    def merge(self):
        """Merges the texts of a round into a new store each; the lines that are said and the records then must be the same."""
        files = {one: self.loaded(one) for one in self.mergers if one in self.stores}
        for name, lines in self.work.merges(0) if files else ():
            self.same(name, lines, {one.name: one.bulk("merge", file) for one, file in files.items()})
            self.same(f"behind {name}", [b"range * *\n"], {one.name: one.command(file) for one, file in files.items()})
        for one, file in files.items():
            one.clear(file)

    def loaded(self, one, took=None):
        """A new store of the load text; what the load took is added."""
        new = self.folder / f"new-{one.name}"
        one.make(new)
        numbers = self.bench.run(one.bulk("load", new), of=self.text(one))
        if took is not None:
            took.append(numbers[0] * 1e3)
        return new

    def with_index(self):
        """Stores of the same records with an index in the file, which a run has left; they must answer as those without."""
        lines = [b"range * *\n", *(b"get %s\n" % k for k in self.work.keys[:1000])]
        for one in self.indexed:
            one.make(one.indexed, indexed=True)
            self.bench.run(one.command(one.indexed, "load"), of=self.text(one))
            self.bench.run(one.command(one.indexed), of=os.devnull)
            self.same("quick", lines, {one.name: one.command(), f"{one.name}-quick": one.command(one.indexed, "quick")})

    def compared(self):
        self.odd()
        self.same("fill", [b"range * *\n"])
        for name, lines in self.work.turn(0, self.words):
            self.same(name or "restored", lines)
        self.bulk()
        self.merge()
        self.with_index()

    def opened(self, turn, took):
        """Adds what a program takes that is started for one get, and the memory that it takes."""
        self.bench.write([b"get %s\n" % self.work.keys[0]])
        words = [("open, one get", one, one.command()) for one in turned(self.all, turn)]
        words += [("open, one get by quick", one, one.command(one.indexed, "quick")) for one in self.indexed]
        for name, one, command in words:
            runs = [self.bench.run(command) for _ in range(3 if self.records > 100000 else 10)]
            took.setdefault((name, one.name, "ms"), []).append(statistics.median(r[0] for r in runs) * 1e3)
            took.setdefault((f"memory of {name}", one.name, "MiB"), []).append(runs[0][2] / 1024)

    def moved(self, turn, took):
        """Adds what a load takes, the merges into what it made, and a dump, each a program of its own."""
        texts = list(self.work.merges(turn)) if self.mergers else []
        for one in turned(self.loaders, turn):
            new = self.loaded(one, took.setdefault(("bulk, load", one.name, "ms"), []))
            for name, lines in texts:
                self.bench.write(lines)
                took.setdefault((name, one.name, "ms"), []).append(self.bench.run(one.bulk("merge", new))[0] * 1e3)
            one.clear(new)
            seconds = self.bench.run(one.bulk("dump"), of=os.devnull)[0]
            took.setdefault(("bulk, dump", one.name, "ms"), []).append(seconds * 1e3)

    def timed(self):
        """Rows of processor time: microseconds a command, the opening subtracted; milliseconds of an opening, load and dump."""
        took = {}
        for turn in range(1, self.rounds + 1):
            opening = {}
            self.opened(turn, took)
            self.moved(turn, took)
            self.bench.write([])
            for one in turned(self.all, turn):
                opening[one.name] = statistics.median(self.bench.run(one.command())[0] for _ in range(5))
            for name, lines in self.work.turn(turn, self.words):
                self.bench.write(lines)
                for one in turned(self.all, turn):
                    seconds = self.bench.run(one.command())[0] - opening[one.name]
                    if name:
                        each = seconds / self.work.counted(name, lines) * 1e6
                        took.setdefault((name, one.name, "us"), []).append(each)
        self.same("the store after all rounds", [b"range * *\n"])
        order = [one.name for one in self.all]
        rows = [[self.records, *what, *spread(values)] for what, values in took.items()]
        works = list(dict.fromkeys(row[1] for row in rows))
        return sorted(rows, key=lambda row: (works.index(row[1]), order.index(row[2])))

    def traced(self):
        """(Contestant, workload) -> bytes written and syncs of an update, the median of three runs, of a merge one run's."""
        found, turn = {}, self.rounds + 1
        for one in self.stores:
            for again in range(3):
                scripts = {
                    "overwrite": self.work.overwrite(turn + 1000 * again)[:TRACED],
                    "fillrandom": self.work.fillrandom(turn)[:TRACED],
                    BATCH: self.work.batches(turn + 1000 * again)[:TRACED // ITEMS],
                }
                for name, lines in scripts.items():
                    self.bench.write(lines)
                    updates = self.work.counted(name, lines) / len(lines)
                    numbers = self.bench.traced(one.command(), one.file)
                    found.setdefault((one.name, name), []).append([n / updates for n in numbers])
                if not self.work.small:
                    self.bench.write(self.work.deleterandom(turn, TRACED))
                    self.bench.run(one.command())
            if one in self.mergers:
                new = self.loaded(one)
                for name, lines in self.work.merges(turn):
                    self.bench.write(lines)
                    numbers = self.bench.traced(one.bulk("merge", new), new, whole=True)
                    found[one.name, name] = [[n / (len(lines) - 1) for n in numbers]]
                one.clear(new)
        return {what: [f"{statistics.median(column):.4g}" for column in zip(*runs)] for what, runs in found.items()}

    def on_disk(self, disk, commands, traced):
        """Rows of durable updates a second by the clock, with bytes and syncs; that many updates over all rounds, each command sent
        when the reply before it is there, the first one when the program has opened; a merge is a program with its start."""
        each, took, rows = max(2, commands // self.rounds), {}, []
        files = {one.name: one.copied(disk) for one in self.stores}
        for turn in range(self.rounds + 2, 2 * self.rounds + 2):
            scripts = [("overwrite", self.work.overwrite(turn)[:each]), ("fillrandom", self.work.fillrandom(turn)[:each])]
            scripts += [] if self.work.small else [("deleterandom", self.work.deleterandom(turn, each))]
            scripts += [(BATCH, self.work.batches(turn)[:max(2, each // ITEMS)])]
            for name, lines in scripts:
                self.bench.write(lines)
                for one in turned(self.stores, turn):
                    microseconds = self.bench.run(one.command(files[one.name]), tool="pauses")[4]
                    took.setdefault((name, one.name), []).append(self.work.counted(name, lines) / microseconds * 1e6)
            for name, lines in self.work.merges(turn) if self.mergers else ():
                self.bench.write(lines)
                for one in turned([one for one in self.mergers if one in self.stores], turn):
                    seconds = self.bench.run(one.bulk("merge", files[one.name]))[1]
                    took.setdefault((name, one.name), []).append((len(lines) - 1) / seconds)
        for one in self.stores:
            one.clear(files[one.name])
        for name in dict.fromkeys(name for name, _ in took):
            for one in [one for one in self.stores if (name, one.name) in took]:
                rates, cost = spread(took[name, one.name]), traced.get((one.name, name), ["", ""])
                rows.append([self.records, name, one.name, *rates, *cost])
        return rows

    def blocks(self):
        """Rows of the blocks that a search touches, by size of block, beside a binary search over as many fences."""
        rows, pma = [], self.all[0]
        keys = self.work.keys[:1000]
        for power in range(13):
            size = 2**power
            self.bench.write([b"probe %s %d\n" % (k, size) for k in keys])
            replies = self.folder / "probes"
            self.bench.run(pma.command(), to=replies)
            found = [[int(w.split("=")[1]) for w in line.split()[1:]] for line in replies.read_text().splitlines()]
            nodes = found[0][1]
            searched = [binary_blocks(segment, 2**nodes, size) for segment, *_ in found]
            touched = [blocks for _, _, blocks, _ in found]
            rows.append([self.records, nodes, size, max(touched), f"{statistics.mean(touched):.2f}", found[0][3],
                         max(searched), f"{statistics.mean(searched):.2f}"])
        return rows

    def charges(self):
        """Rows of the charge of an update over that many puts into an empty store, by their order, beside the proved bound."""
        marks = [10**n for n in range(2, 7) if 10**n <= self.records] or [self.records]
        rows, pma, new, replies = [], self.all[0], self.folder / "charges", self.folder / "costs"
        for order, numbers in orders(marks[-1]):
            pma.make(new)
            self.bench.write(charged(numbers, marks))
            self.bench.run(pma.command(new), to=replies)
            with open(replies) as lines:
                costs = [[int(w.split("=")[1]) for w in line.split()[1:]] for line in lines if line.startswith("cost ")]
            rows += [[order, updates, f"{charge / updates:.2f}", f"{bound / updates:.2f}"] for updates, charge, bound in costs]
        pma.clear(new)
        replies.unlink()
        return rows

    def cleared(self):
        for one in self.all:
            one.clear()
            one.clear(one.indexed)
        for form in {one.text for one in self.loaders}:
            (self.folder / f"text-{form}").unlink()


def binary_blocks(segment, count, size):
    """How many blocks of that many fences a binary search for this segment touches, over a sorted array of fences."""
    low, high, blocks = 0, count, set()
    while high - low > 1:
        middle = (low + high) // 2
        blocks.add((middle - 1) // size)
        low, high = (middle, high) if segment >= middle else (low, middle)
    return len(blocks)


def mounted(folder):
    done = subprocess.run(["df", "--output=source,fstype", str(folder)], capture_output=True, text=True)
    return " ".join(done.stdout.split("\n")[1].split()) if done.returncode == 0 else str(folder)


def setup(arguments, disk, sizes):
    model = [line.split(":", 1)[1].strip() for line in open("/proc/cpuinfo") if line.startswith("model name")]
    memory = os.sysconf("SC_PAGE_SIZE") * os.sysconf("SC_PHYS_PAGES") / 2**30
    return [
        ["machine", f"{model[0] if model else 'unknown'}, {os.cpu_count()} processors, {memory:.0f} GiB"],
        ["system", f"{os.uname().sysname} {os.uname().release}"],
        ["load at the end", f"{os.getloadavg()[0]:.1f}"],
        ["date", datetime.date.today().isoformat()],
        ["files in memory", mounted(arguments.memory).split()[-1]],
        ["disk", mounted(disk)],
        ["rounds", arguments.rounds],
        ["commands", "`make bench-peers CSV=docs/bench" + (f" RECORDS={sizes}" if sizes else "") + "`, `make bench-plots`"],
    ]


HEADS = {
    "times": "records,workload,contestant,unit,median,least,greatest",
    "pauses": "records,contestant,median_us,of_99_in_100_us,greatest_us",
    "sizes": "records,contestant,length_bytes,taken_bytes,memory_kib,fill_s",
    "puts": "records,workload,contestant,a_second,least,greatest,bytes_a_put,syncs_a_put",
    "charges": "order,updates,charge,bound",
    "blocks": "records,nodes,block_nodes,most,mean,bound,binary_most,binary_mean",
    "contestants": "contestant,version,settings",
    "setup": "what,value",
}


def write_csv(folder, tables):
    folder.mkdir(parents=True, exist_ok=True)
    for name, rows in tables.items():
        with open(folder / f"{name}.csv", "w", newline="") as file:
            writer = csv.writer(file, lineterminator="\n")
            writer.writerow(HEADS[name].split(","))
            writer.writerows(rows)


def measured(arguments, there, folder, disk):
    tables = {name: [] for name in HEADS}
    sizes = sorted(int(n) for n in arguments.records.split(","))
    can_trace = shutil.which("strace") is not None
    if not can_trace:
        print("left out: bytes and syncs, since strace isn't there (Debian: strace)")
    words = known(arguments.program, folder)
    for word, what in (("cursors", "cursor"), ("prev", "cursor back"), ("merge", "merge"), ("quick", "open, one get by quick"),
                       ("create-paired", "the store with two journals")):
        if word not in words:
            print(f"left out: {what}, since this program doesn't know {word}")
    for tool in ("mdb_load", "mdb_dump"):
        if "lmdb" in there and not shutil.which(tool):
            print(f"left out: bulk and merge of lmdb, since {tool} isn't there (Debian: lmdb-utils)")
    for records in sizes:
        run = Run(folder, there, arguments.program, words, records, arguments.rounds)
        pauses, taken = run.filled()
        run.compared()
        print(f"{records:>8} the replies are the same", flush=True)
        tables["pauses"] += pauses
        tables["sizes"] += taken
        tables["times"] += run.timed()
        traced = run.traced() if can_trace else {}
        if records == sizes[-1]:
            tables["puts"] = run.on_disk(disk, 2000 if records > 100000 else 100, traced)
            tables["blocks"] = run.blocks()
            tables["charges"] = run.charges()
            tables["contestants"] = [[one.name, version(one, arguments.program), one.settings] for one in run.all]
        run.cleared()
    tables["setup"] = setup(arguments, disk, "" if arguments.records == EVERY else arguments.records)
    return tables


EVERY = "60,10000,1000000"


def main():
    parser = argparse.ArgumentParser(description=__doc__.split("\n")[0])
    parser.add_argument("--records", default=EVERY)
    parser.add_argument("--program", default=str(HERE.parent / "pma"), type=os.path.realpath)
    parser.add_argument("--csv", default=OUT / "csv", type=pathlib.Path)
    parser.add_argument("--memory", default="/dev/shm" if os.access("/dev/shm", os.W_OK) else "/tmp")
    parser.add_argument("--disk", default=HERE)
    parser.add_argument("--rounds", default=5, type=int)
    arguments = parser.parse_args()
    arguments.records = arguments.records or EVERY
    try:
        there = build()
        if not os.access(arguments.program, os.X_OK):
            raise Missing(f"no program: {arguments.program} isn't there")
        if not os.path.isdir(arguments.disk):
            raise Missing(f"no folder on a disk: {arguments.disk} isn't there")
        folder = tempfile.TemporaryDirectory
        with folder(dir=arguments.memory) as memory, folder(dir=arguments.disk) as disk:
            tables = measured(arguments, there, pathlib.Path(memory), disk)
    except Missing as missing:
        print(missing)
        return 1
    write_csv(arguments.csv, tables)
    for row in tables["times"]:
        print("{:>8} {:24} {:16} {:>10} {} ({} to {})".format(row[0], row[1], row[2], row[4], row[3], row[5], row[6]))
    print(f"the numbers are in {arguments.csv}")
    return 0


if __name__ == "__main__":
    sys.exit(main())
