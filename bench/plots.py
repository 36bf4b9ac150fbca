#!/usr/bin/env -S python3 -B
"""Draws the pictures of docs/bench and writes the tables of docs/BENCHMARKS.md between its two marks, from the CSVs there.

Usage: plots.py FOLDER DOCUMENT. The same CSVs give the same bytes. A picture whose CSV isn't there is left out, and so is a
table. Ends with 1 where gnuplot is missing.
"""
import pathlib
import shutil
import sys
import textwrap

from numbers_of_runs import BATCH, CONTESTANTS, MEMORY, MERGES, OPEN, QUICK, QUICK_MEMORY, READS, UPDATES, WORKLOADS
from numbers_of_runs import Numbers, by_contestant, number, unit, where
from pictures import draw_all

BEGIN, END = "<!-- numbers of docs/bench: begin -->", "<!-- numbers of docs/bench: end -->"
NO_RUN = "No run is kept here yet: `make bench-peers CSV=docs/bench` makes one, `make bench-plots` its tables and pictures."


def table(head, rows):
    lines = ["| " + " | ".join(head) + " |", "|" + "---|" * len(head)]
    return "\n".join(lines + ["| " + " | ".join(str(cell) for cell in row) + " |" for row in rows])


def wrapped(text):
    """A paragraph in lines of at most 130 columns; tables, headings and pictures as they stand."""
    return text if text.startswith(("|", "#", "![")) else textwrap.fill(text, 130, break_on_hyphens=False)


def columns(rows, words, numeric, scale=1):
    """Rows of a table: words as they stand, numbers with three digits."""
    return [[*(row[c] for c in words), *(number(float(row[c]) / scale) if row[c] else "" for c in numeric)] for row in rows]


# ---- where the program loses ----


OURS = "pma", "pma-paired", "pma-1024"


def lost(kind, what, unit_of, values, cause, more=False):
    """The row of one number where a peer has the better one, with the factor and the cause; none where the program has."""
    peers = {name: value for name, value in values.items() if not name.startswith("pma") and name != "nothing"}
    if "pma" not in values or not peers:
        return []
    best = (max if more else min)(peers, key=peers.get)
    factor = peers[best] / values["pma"] if more else values["pma"] / peers[best]
    ours = [number(values[name]) if name in values else "" for name in OURS]
    return [(factor, (kind, unit_of, cause), what, [*ours, f"{best}: {number(peers[best])}"])] if factor > 1 else []


def one_a_cause(rows):
    """Of the rows of one kind with one cause that with the greatest factor; the others are named beside it."""
    groups = {}
    for row in rows:
        groups.setdefault(row[1], []).append(row)
    for (kind, unit_of, cause), group in groups.items():
        _, _, worst, cells = max(group)
        others = [what for _, _, what, _ in group if what != worst]
        yield [f"{kind}: {worst}" + (f"; less: {', '.join(others)}" if others else ""), unit_of, *cells, cause]


def lost_on_disk(numbers):
    rows = []
    causes = dict.fromkeys(("overwrite", "fillrandom", "deleterandom"), "four syncs, one after the other; with two journals two")
    causes[BATCH] = "as many syncs a batch, and each segment of an item is written whole, twice"
    causes |= dict.fromkeys(MERGES, "a merge reads and writes the whole store, however few the updates are")
    for work, cause in causes.items():
        rates = by_contestant(where(numbers.puts, workload=work), "a_second")
        rows += lost("durable on a disk", work, "a second", rates, cause, more=True)
    put = where(numbers.puts, workload="overwrite")
    syncs, written = by_contestant(put, "syncs_a_put"), by_contestant(put, "bytes_a_put")
    rows += lost("a put", "syncs of an overwrite", "syncs", syncs, "the journal, its gate, the segment, the gate")
    return rows + lost("a put", "bytes of an overwrite", "bytes", written, "a segment is written whole, twice")


def lost_space(numbers):
    sizes, rows = where(numbers.sizes, records=numbers.greatest), []
    for what, column, cause in (
        ("its length", "length_bytes", "HEIGHT and JOURNAL set it when the store is made"),
        ("its bytes that are taken", "taken_bytes", "two regions, and gaps among the records"),
    ):
        rows += lost("the file", what, "MB", {name: value / 1e6 for name, value in by_contestant(sizes, column).items()}, cause)
    for memory in (MEMORY, QUICK_MEMORY):
        values = beside_opening(numbers, memory, MEMORY)
        rows += lost("memory", memory.removeprefix("memory of "), "MiB", values, "the journal's pages and the index")
    pauses = by_contestant(where(numbers.pauses, records=numbers.greatest), "greatest_us")
    return rows + lost("a filling", "the greatest pause of a put", "us", pauses, "a growth writes the whole array")


def beside_opening(numbers, work, opening):
    """What the program takes in this work, beside what the peers take in an opening: `quick` is the program's own."""
    values = numbers.time(numbers.greatest, work)
    return values and numbers.time(numbers.greatest, opening) | values


def lost_time(numbers):
    rows = []
    for work, cause in (
        (OPEN, "an opening reads the whole region and makes the index"),
        (QUICK, "an opening reads the index of the file, and the run writes it anew"),
    ):
        rows += lost("processor time", work, "ms", beside_opening(numbers, work, OPEN), cause)
    reads = "each segment is read by a system call and validated whole"
    updates = "a segment is validated and edited whole, and written twice"
    causes = {work: reads for work in READS} | {work: updates for work in UPDATES}
    causes |= {"half and half": updates, "mostly scans": reads}
    causes[BATCH] = "each item's segment is validated and edited whole, and written twice"
    causes |= {
        "cursor": "each `next` looks for its key anew, in a segment that is read and validated whole",
        "cursor back": "each `next` looks for its key anew, in a segment that is read and validated whole",
    }
    causes |= {"bulk, load": "records are packed and then spread, so each segment is written twice", "bulk, dump": reads}
    causes |= dict.fromkeys(MERGES, "the whole store is read and written, however few the updates are")
    causes["fillseq"] = "ascending keys all come into one segment, whose window is spread again and again"
    for work, cause in causes.items():
        rows += lost("processor time", work, unit(work), numbers.time(numbers.greatest, work), cause)
    return rows


def losses(numbers):
    rows = lost_on_disk(numbers) + lost_space(numbers) + lost_time(numbers)
    return [
        "## Where `pma` loses",
        f"At {numbers.greatest} records, beside the best of the peers in each row. Of several workloads with one cause the "
        "one with the greatest factor has the numbers.",
        table(["what", "unit", "`pma`", "two journals", "JOURNAL 1024", "take instead", "the cause"], one_a_cause(rows)),
        "A batch of `pma` is one command in a crash, of 16 items at most, and has the syncs of a put if its segments fit into the "
        "journal and no item needs a rebalance. `merge` makes any number of updates together, and reads and writes the whole store "
        "for them: if they are few for the store, take one of the peers, whose transactions have no limit.",
    ]


# ---- tables ----


def described(numbers):
    return [
        "## Beside peers",
        "[How peers are run](#how-peers-are-run), below, says what each workload is.",
        table(["what", ""], [[row["what"], row["value"]] for row in numbers.setup]),
        table(["contestant", "version", "settings"], [list(row.values()) for row in numbers.contestants]),
        "![Processor time of reads and scans](bench/reads.svg)",
        "![Processor time of get, put and a range of 100 against the number of records](bench/growth.svg)",
    ]


def processor_time(numbers, records):
    present = {row["contestant"] for row in where(numbers.times, records=records)}
    who = [name for name in CONTESTANTS if name in present]
    rows = []
    for work in WORKLOADS:
        three = [numbers.time(records, work, column) for column in ("median", "least", "greatest")]
        if three[0]:
            cells = [[number(values[name]) for values in three if name in values] for name in who]
            texts = ["{} ({} to {})".format(*cell) if cell else "" for cell in cells]
            rows.append([f"{work}, {unit(work)}", *texts])
    text = ("A command's, the median of the rounds with the least and the greatest, the opening subtracted; of a batch an "
            "item's, of a cursor and the range beside it a record's; an opening's, a load's, a merge's and a dump's by itself. "
            "`nothing` keeps no record and answers alike: this is what the script language costs.")
    if int(records) < 1000:
        text += (" Each put of a new key is followed by its removal, and the two are two commands. LevelDB keeps what was "
                 "removed until it compacts, and its ranges pass over that.")
    return [f"### Processor time at {records} records, files in memory", text, table(["workload", *who], rows)]


def durable(numbers):
    numeric = ["a_second", "least", "greatest", "bytes_a_put", "syncs_a_put"]
    rows = columns(numbers.puts, ["workload", "contestant"], numeric)
    return [
        f"### Durable updates by the clock, on a disk, at {numbers.puts[0]['records']} records",
        "Bytes and syncs are those of an update, in a batch of an item, by `strace`; a write through a descriptor opened with "
        "`O_DSYNC` is a sync too. "
        "What a store does in the background meanwhile is in them: LevelDB's compactions, SQLite's checkpoints.",
        "![Durable puts a second with their syncs](bench/puts.svg)",
        table(["workload", "contestant", "a second", "least", "greatest", "bytes written", "syncs"], rows),
    ]


def paused(numbers):
    rows = columns(numbers.pauses, ["records", "contestant"], ["median_us", "of_99_in_100_us", "greatest_us"])
    return [
        "### What one put may take",
        "Microseconds by the clock to each reply while a store is filled in memory, one command sent at a time.",
        table(["records", "contestant", "the median", "99 of 100", "the greatest"], rows),
    ]


def sized(numbers):
    bytes_of = columns(numbers.sizes, ["records", "contestant"], ["length_bytes", "taken_bytes"], 1e6)
    memory = columns(numbers.sizes, [], ["memory_kib"], 1024)
    seconds = columns(numbers.sizes, [], ["fill_s"])
    head = ["records", "contestant", "length, MB", "taken, MB", "most memory, MiB", "processor time, s"]
    rows = [a + b + c for a, b, c in zip(bytes_of, memory, seconds)]
    return ["### Files after the filling, and what it took", table(head, rows)]


def charged(numbers):
    return [
        "## Charges of updates",
        "What an update is charged, by `cost`, over that many puts of new keys into an empty store. A charge counts images of "
        "segments, of 4096 bytes, that are written. At one place each key comes between the two that were put before it.",
        "![Charge of an update against the number of updates](bench/charges.svg)",
        table(["order", "updates", "charge of an update", "proved bound"],
              columns(numbers.charges, ["order", "updates"], ["charge", "bound"])),
    ]


def touched(numbers):
    first = numbers.blocks[0]
    names = ["block_nodes", "most", "mean", "bound", "binary_most", "binary_mean"]
    return [
        "## Blocks that a search touches",
        f"Of 1000 searches in a store of {first['records']} records, whose paths have {first['nodes']} nodes, by `probe`; beside "
        "them a binary search over as many fences in a sorted array.",
        "![Blocks that a search touches against the size of a block](bench/blocks.svg)",
        table(["nodes in a block", "the most", "the mean", "proved bound", "binary search, the most", "the mean"],
              [[row[name] for name in names] for row in numbers.blocks]),
    ]


def by_clients(numbers):
    who = list(dict.fromkeys(row["contestant"] for row in numbers.clients))
    rows = []
    for place, what in dict.fromkeys((row["place"], row["what"]) for row in numbers.clients):
        found = {row["contestant"]: row for row in where(numbers.clients, place=place, what=what)}
        cells = [f"{r['a_second']} ({r['least']} to {r['greatest']})" if (r := found.get(name)) else "" for name in who]
        rows.append([f"{what}, {'in memory' if place == 'memory' else 'on a disk'}", *cells])
    return [
        "## The client of Python beside modules",
        "Operations a second by the clock; [below](#the-python-client) is how they are run.",
        table(["what", *who], rows),
    ]


def sections(numbers):
    text = losses(numbers) + described(numbers) if numbers.times else []
    for records in numbers.records:
        text += processor_time(numbers, records)
    for rows, section in (
        (numbers.puts, durable),
        (numbers.pauses, paused),
        (numbers.sizes, sized),
        (numbers.clients, by_clients),
        (numbers.charges, charged),
        (numbers.blocks, touched),
    ):
        text += section(numbers) if rows else []
    return text or [NO_RUN]


def main():
    folder, document = pathlib.Path(sys.argv[1]), pathlib.Path(sys.argv[2])
    if not shutil.which("gnuplot"):
        print("gnuplot isn't there (Debian: gnuplot-nox)")
        return 1
    folder.mkdir(parents=True, exist_ok=True)
    numbers = Numbers(folder)
    draw_all(numbers)
    before, rest = document.read_text().split(BEGIN)
    after = rest.split(END)[1]
    document.write_text(before + BEGIN + "\n\n" + "\n\n".join(map(wrapped, sections(numbers))) + "\n\n" + END + after)
    return 0


if __name__ == "__main__":
    sys.exit(main())
