"""The program and its peers: how each is built, made, run and measured."""
import os
import pathlib
import re
import shutil
import subprocess

HERE = pathlib.Path(__file__).resolve().parent
OUT = HERE / "out"
CACHE_FROM = 100000  # records from which the data is larger than what a peer keeps in memory as shipped


class Missing(Exception):
    pass


def compiled(name, libraries=(), shared=True):
    """Builds a C file of this folder; False where its header or library isn't there."""
    compiler = os.environ.get("CC", "cc")
    if not shutil.which(compiler):
        raise Missing(f"no C compiler: {compiler} isn't there (Debian: gcc libc6-dev)")
    OUT.mkdir(exist_ok=True)
    sources = [HERE / f"{name}.c"] + ([HERE / "script.c"] if shared else [])
    words = [compiler, "-O3", "-o", OUT / name, *sources, *("-l" + library for library in libraries)]
    return subprocess.run(words, stderr=subprocess.DEVNULL).returncode == 0


def build():
    """Builds the drivers; the names of those that could be built, without the one that keeps nothing."""
    for tool in ("timed", "pauses"):
        if not compiled(tool, shared=False):
            raise Missing(f"{tool}.c can't be built (Debian: gcc libc6-dev)")
    if not compiled("nothing"):
        raise Missing("nothing.c can't be built (Debian: gcc libc6-dev)")
    there = []
    for name, package in (("sqlite", "libsqlite3-dev"), ("lmdb", "liblmdb-dev"), ("leveldb", "libleveldb-dev")):
        if compiled(name, ["sqlite3" if name == "sqlite" else name]):
            there.append(name)
        else:
            print(f"left out: {name} isn't there (Debian: {package})")
    if not there:
        raise Missing("no peer is there (Debian: libsqlite3-dev liblmdb-dev libleveldb-dev)")
    return there


def known(program, folder):
    """Which of the words that came later this program knows: cursors, prev, merge, quick and create-paired."""
    file, found = str(folder / "probe"), set()
    subprocess.run([program, "create", file, "0"], check=True)
    done = subprocess.run([program, "run", file], input=b"open c * *\nprev c\n", stdout=subprocess.PIPE, check=True)
    if done.stdout.startswith(b"opened\n"):
        found.add("cursors")
    if done.stdout == b"opened\nend\n":
        found.add("prev")
    nothing = subprocess.DEVNULL
    if subprocess.run([program, "merge", file], input=b"end 0\n", stdout=nothing).returncode == 0:
        found.add("merge")
    os.unlink(file)
    if subprocess.run([program, "create-indexed", file, "0"], stdout=nothing).returncode == 0:
        if subprocess.run([program, "quick", file], stdin=nothing, stdout=nothing).returncode == 0:
            found.add("quick")
        os.unlink(file)
    if subprocess.run([program, "create-paired", file, "0"], stdout=nothing).returncode == 0:
        found.add("create-paired")
        os.unlink(file)
    return found


class Contestant:
    def __init__(self, name, command, file, settings, height=None, journal=None, maker="create"):
        self.name, self.words, self.file, self.settings = name, command, pathlib.Path(file), settings
        self.height, self.journal, self.maker = height, journal, maker
        self.indexed = self.file.with_name(name + "-indexed")
        self.text = {"lmdb": "lmdb", "nothing": "nothing"}.get(name, "records")  # the form of its load text

    def command(self, file=None, word="run"):
        file = str(file or self.file)
        if self.height is not None:
            return [self.words[0], word, file]
        return [self.words[0], file, *self.words[1:]]

    def bulk(self, word, file=None):
        """The command that loads a text into the store, merges it or dumps the store; none where its tool isn't there."""
        file = str(file or self.file)
        if self.height is not None:
            return self.command(file, word)
        if self.name == "lmdb" and word != "merge":
            tool = shutil.which(f"mdb_{word}")
            return tool and [tool, "-n", file]
        return [self.words[0], file, *(self.words[1:] or [""]), word]

    def make(self, file=None, indexed=False):
        """Makes the store anew; with `indexed` one whose file has room for an index in any case."""
        file = pathlib.Path(file or self.file)
        self.clear(file)
        if self.height is not None:
            journal = [] if self.journal is None else [str(self.journal)]
            maker = "create-indexed" if indexed and self.maker == "create" else self.maker
            subprocess.run([self.words[0], maker, str(file), str(self.height), *journal], check=True)

    def files(self, file=None):
        file = pathlib.Path(file or self.file)
        beside = [file.with_name(file.name + end) for end in ("", "-journal", "-wal", "-shm", "-lock")]
        return [f for f in beside if f.is_file()] + (sorted(f for f in file.iterdir()) if file.is_dir() else [])

    def clear(self, file=None):
        file = pathlib.Path(file or self.file)
        for one in self.files(file):
            one.unlink()
        if file.is_dir():
            file.rmdir()

    def copied(self, folder):
        """The store, copied to this folder and synced."""
        to = pathlib.Path(folder) / self.file.name
        self.clear(to)
        for one in self.files():
            place = pathlib.Path(folder) / one.relative_to(self.file.parent)
            place.parent.mkdir(exist_ok=True)
            shutil.copyfile(one, place)
        os.sync()
        return to

    def sizes(self):
        """(Length, bytes taken) of all its files."""
        status = [f.stat() for f in self.files()]
        return sum(s.st_size for s in status), sum(s.st_blocks * 512 for s in status)


def height_for(records):
    for height in range(17):
        if 2**height * (64 - height) >= records:
            return height
    raise Missing(f"no store holds {records} records")


def contestants(there, program, words, workloads, folder):
    records, most = workloads.records, workloads.most_records()
    height, cache = height_for(most), max(16, most * 160 >> 20)
    large = records >= CACHE_FROM
    found = []

    def add(name, command, settings, height=None, journal=None, maker="create"):
        found.append(Contestant(name, command, folder / name, settings, height, journal, maker))

    add("pma", [program], f"HEIGHT {height}, default JOURNAL", height)
    if 2**height > 1024:
        add("pma-1024", [program], f"HEIGHT {height}, JOURNAL 1024", height, 1024)
    if "create-paired" in words:
        add("pma-paired", [program], f"HEIGHT {height}, two journals, default JOURNAL", height, maker="create-paired")
    if "sqlite" in there:
        driver = str(OUT / "sqlite")
        table = "prepared statements, `WITHOUT ROWID`, `synchronous=FULL`, a load in one transaction, journal mode "
        add("sqlite-delete", [driver, "delete"], table + "`delete`")
        add("sqlite-wal", [driver, "wal"], table + "`wal`")
        if large:
            add("sqlite-wal-cache", [driver, f"wal,{cache}"], table + f"`wal`, cache of {cache} MiB")
    if "lmdb" in there:
        add("lmdb", [str(OUT / "lmdb")], "map of 4 GiB, read transaction and cursor renewed, no flags that weaken a commit, "
            "`mdb_load` and `mdb_dump`")
    if "leveldb" in there:
        driver = str(OUT / "leveldb")
        table = "`sync`, bloom filter of 10 bits, a get before each put, for its reply, a load in batches of 1000"
        add("leveldb", [driver], table)
        if large:
            add("leveldb-cache", [driver, str(cache)], table + f", cache of {cache} MiB")
    add("nothing", [str(OUT / "nothing"), str(records)], "reads the script and says lines as long")
    return found


def commit_of(part):
    """The last commit that changed this part of the checkout, marked where it has changed since; nothing outside a checkout."""
    def said(*words):
        words = ["git", "-C", HERE.parent, *words, "--", part]
        return subprocess.run(words, capture_output=True, text=True).stdout.strip()
    return said("log", "-1", "--format=%h") + "-dirty" * bool(said("status", "--porcelain"))


def version(contestant, program):
    if contestant.height is not None:
        return "pma " + (commit_of("crates") or "of this folder")
    done = subprocess.run([contestant.words[0]], capture_output=True, text=True, check=True)
    return re.sub(r":.*", "", done.stdout.strip())


class Bench:
    """Runs contestants on scripts, with scripts, replies and reports in this folder."""

    def __init__(self, folder):
        self.script, self.report = folder / "script", folder / "report"

    def write(self, lines):
        with open(self.script, "wb") as file:
            file.writelines(lines)

    def run(self, command, to=os.devnull, tool="timed", of=None):
        """The numbers of the report of a run on this file, or on the script that was written last."""
        with open(of or self.script, "rb") as script, open(to, "wb") as replies:
            words = [str(OUT / tool), str(self.report), *command]
            # mdb_load tells of a line that it doesn't know, and that mdb_dump wrote.
            errors = subprocess.DEVNULL if "mdb_load" in command[0] else None
            done = subprocess.run(words, stdin=script, stdout=replies, stderr=errors)
        if done.returncode:
            raise Missing(f"{' '.join(command)} ended with {done.returncode}")
        return [float(n) for n in self.report.read_text().split()]

    def traced(self, command, file, whole=False):
        """(Bytes written, syncs) of a command, by strace, from the first reply to the last, or of the whole program."""
        log = self.report.with_name("trace")
        calls = "openat,write,pwrite64,writev,pwritev,fsync,fdatasync,msync"
        with open(self.script, "rb") as script:
            words = ["strace", "-f", "-qq", "-y", "-s", "0", "-e", f"trace={calls}", "-o", str(log), *command]
            subprocess.run(words, stdin=script, stdout=subprocess.DEVNULL, check=True)
        written = syncs = 0
        synced, at_replies = set(), []
        for name, descriptor, path, answer, line in returned(log):
            if name == "openat":
                (synced.add if "O_DSYNC" in line else synced.discard)(answer)
            elif name in ("fsync", "fdatasync", "msync"):
                syncs += 1
            elif path and path.startswith(str(file)):
                written += int(answer)
                syncs += descriptor in synced  # such a write is a sync too
            elif descriptor == "1":
                at_replies.append((written, syncs))
        if whole:
            return [written, syncs]
        return [(last - first) / (len(at_replies) - 1) for first, last in zip(at_replies[0], at_replies[-1])]


def returned(log):
    """The calls of a trace in the order of their returns: name, descriptor, its path, answer, line."""
    begun = {}
    for line in log.read_text(errors="replace").splitlines():
        process, _, line = line.partition(" ")
        if line.rstrip().endswith("<unfinished ...>"):
            begun[process] = line.rstrip().removesuffix("<unfinished ...>")
            continue
        if "resumed>" in line:
            line = begun.pop(process, "") + line.split("resumed>", 1)[1]
        call = re.match(r"\s*(\w+)\((\d+|AT_FDCWD)(?:<([^>]*)>)?.*= (-?\d+)(?:<[^>]*>)?\s*$", line)
        if call:
            yield *call.groups(), line
