"""The CSVs of a folder, and how a number is written."""
import csv

READS = ["readrandom", "readmissing", "seekrandom 10", "seekrandom 100", "readseq", "cursor", "cursor back", "cursor, by range"]
BATCH = "batch of 16"
UPDATES = ["fillrandom", "fillseq", "overwrite", "deleterandom", BATCH, "batch of 16, by puts"]
OPEN, QUICK = "open, one get", "open, one get by quick"
MEMORY, QUICK_MEMORY = "memory of open, one get", "memory of open, one get by quick"
MERGES = ["merge 0.1 %", "merge 10 %", "merge 100 %"]
BULK = ["bulk, load", *MERGES, "bulk, dump"]
WORKLOADS = [*UPDATES, *READS, "half and half", "mostly scans", *BULK, OPEN, QUICK]
CONTESTANTS = [
    "pma", "pma-1024", "pma-paired", "sqlite-delete", "sqlite-wal", "sqlite-wal-cache", "lmdb", "leveldb", "leveldb-cache",
    "nothing",
]
TABLES = ["times", "pauses", "sizes", "puts", "charges", "blocks", "clients", "contestants", "setup"]


def number(text):
    """Three digits, and no power of ten."""
    value = float(text)
    if abs(value) >= 100:
        return f"{value:.0f}"
    return f"{value:.3g}" if abs(value) >= 0.001 else "0"


def unit(workload):
    return "ms" if workload in ("readseq", OPEN, QUICK, *BULK) else "us"


def where(rows, **same):
    """The rows that are alike in these columns."""
    return [row for row in rows if all(row[column] == value for column, value in same.items())]


def by_contestant(rows, column):
    """(Contestant, number) of a column, in the order of contestants; rows without it are left out."""
    found = {row["contestant"]: float(row[column]) for row in rows if row[column]}
    return {name: found[name] for name in CONTESTANTS if name in found}


class Numbers:
    """Each CSV by its name, a list of rows; an empty list where it isn't there."""

    def __init__(self, folder):
        self.folder = folder
        for name in TABLES:
            file = folder / f"{name}.csv"
            setattr(self, name, list(csv.DictReader(file.open(newline=""))) if file.exists() else [])
        self.records = sorted({row["records"] for row in self.times}, key=int)
        self.greatest = self.records[-1] if self.records else ""

    def time(self, records, workload, column="median"):
        """Contestant -> processor time in the unit of the workload."""
        found = by_contestant(where(self.times, records=records, workload=workload), column)
        return {name: value / (1000 if workload == "readseq" else 1) for name, value in found.items()}
