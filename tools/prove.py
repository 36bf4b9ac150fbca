#!/usr/bin/env python3
"""Proves the crates that the program stands on, side by side, and builds the program, crates/pma_cli/out/pma_cli.

Usage: tools/prove.py [JOBS], at most that many processors being used; without it all of them, or fewer where there aren't 3 GB of
memory for each. A line a crate says how far it is; all else goes into out/make/CRATE.log, which is named where a proof fails. What
is proved stays, so a run that was interrupted goes on where it was.

One `rt` keeps others out of all crates below its own. So each crate is proved in a checkout of its own, out/make/CRATE, with the
libraries below it, and what that kept is then moved to where `rt` looks for it. Nothing rests on that: the last step is `rt run`,
which takes a library only if it was proved of the text that is there, and proves it else.
"""
from __future__ import annotations

import fcntl
import hashlib
import os
import pathlib
import re
import shutil
import signal
import subprocess
import sys
import time

PROGRAM = "pma_cli"
PARTS = "src", "specs", "proofs"
KEPT = "rlib", "incremental"
ENDING = signal.SIGINT, signal.SIGTERM, signal.SIGHUP
top = pathlib.Path(__file__).resolve().parent.parent
crates, room = top / "crates", top / "out" / "make"


def stands_on() -> dict[str, list[str]]:
    """The program's crate and those below it, each with the crates that it stands on, lowest first."""
    lines = [x.partition(":") for x in (top / "crates.txt").read_text().splitlines() if not x.startswith("#") and x.strip()]
    listed = {name.split()[0]: libraries.split() for name, _, libraries in lines}
    below = {name: [x for x in libraries if x in listed] for name, libraries in listed.items()}
    return {name: below[name] for name in sorted({PROGRAM, *below[PROGRAM]}, key=lambda x: (len(below[x]), x))}


def files_of(crate: str) -> list[pathlib.Path]:
    return sorted(f for part in PARTS for f in (crates / crate / part).rglob("*") if f.is_file())


def sum_of(crate: str, below: list[str], version: str) -> str:
    """A sum of all that a library is made from."""
    found = hashlib.sha256(version.encode())
    for f in (f for name in [*below, crate] for f in files_of(name)):
        found.update(repr((str(f.relative_to(top)), f.read_bytes())).encode())
    return found.hexdigest()


def link(one: str, other: str) -> None:
    try:
        os.link(one, other)
    except OSError:
        shutil.copy2(one, other)


def has(crate: str, wanted: str) -> bool:
    """Whether the library was proved of this text."""
    mark = room / f"{crate}.proved"
    return mark.is_file() and mark.read_text() == wanted and (crates / crate / "out" / "rlib" / "stamp").is_file()


def bring_back(crate: str) -> None:
    """Moves what a proof kept out of its checkout to where `rt` looks for it, once no `rt` works there."""
    made = room / crate / "crates" / crate
    if made.is_dir():
        held = os.open(made, os.O_RDONLY)
        fcntl.flock(held, fcntl.LOCK_EX)
        for part in KEPT:
            if (made / "out" / part).is_dir():
                to = crates / crate / "out" / part
                shutil.rmtree(to, ignore_errors=True)
                to.parent.mkdir(exist_ok=True)
                (made / "out" / part).rename(to)
        os.close(held)
    shutil.rmtree(room / crate, ignore_errors=True)


def checkout(crate: str, below: list[str]) -> pathlib.Path:
    """Makes the checkout in which a crate is proved, with what was kept of it, and returns the crate's folder there."""
    for name in [*below, crate]:
        for part in (*PARTS, *["out/rlib"] * (name != crate)):
            if (crates / name / part).is_dir():
                shutil.copytree(crates / name / part, room / crate / "crates" / name / part, copy_function=link)
    named = re.compile(rf"({'|'.join([*below, crate])})\b.*:")
    lines = (top / "crates.txt").read_text().splitlines(keepends=True)
    (room / crate / "crates.txt").write_text("".join(x for x in lines if named.match(x)))
    shutil.copy2(top / "HANDLES", room / crate / "HANDLES")
    folder = room / crate / "crates" / crate
    (folder / "out").mkdir()
    for part in KEPT:
        if (crates / crate / "out" / part).is_dir():
            (crates / crate / "out" / part).rename(folder / "out" / part)
    return folder


def begin(crate: str, below: list[str], jobs: int) -> subprocess.Popen:
    """Starts the proof of a library in a checkout of its own; of the program in place, with what makes a first store."""
    words, folder = ["rt", "lib", "--jobs", str(jobs)], crates / crate
    if crate == PROGRAM:
        words = ["rt", "run", "--", "create", "out/first.pma", "0"]
        (folder / "out" / "first.pma").unlink(missing_ok=True)
    else:
        try:
            folder = checkout(crate, below)
        except BaseException:
            bring_back(crate)
            raise
    with open(room / f"{crate}.log", "w") as log:
        return subprocess.Popen(words, cwd=folder, stdin=subprocess.DEVNULL, stdout=log, stderr=subprocess.STDOUT)


def behind(below: dict[str, list[str]]) -> dict[str, int]:
    """Of each crate the lines of the longest chain that waits for it, its own among them."""
    chain: dict[str, int] = {}
    for crate in reversed(below):
        lines = sum(f.read_bytes().count(b"\n") for f in files_of(crate))
        chain[crate] = lines + max((chain[x] for x in chain if crate in below[x]), default=0)
    return chain


def processors() -> int:
    memory = re.search(r"MemAvailable: +(\d+)", pathlib.Path("/proc/meminfo").read_text())
    return max(1, min(len(os.sched_getaffinity(0)), int(memory[1]) // 3_000_000))


def told(seconds: float) -> str:
    minutes, seconds = divmod(round(seconds), 60)
    return f"{minutes} min {seconds} s" if minutes else f"{seconds} s"


def to_start(below: dict[str, list[str]], done: list[str], running: dict, chain: dict[str, int], lanes: int) -> list[tuple[str, int]]:
    """The crates to be started now, those first on which most waits, and how many processors each gets."""
    ready = [x for x in below if x not in done and x not in running and set(below[x]) <= set(done)]
    most = max(chain[x] for x in below if x not in done)
    idle, found = lanes - sum(jobs for _, jobs, _ in running.values()), []
    for place, crate in enumerate(sorted(ready, key=lambda x: -chain[x])):
        if idle > 0:
            # (that on which most waits gets half of all at least: its chain takes longest)
            found.append((crate, max(-(-idle // (len(ready) - place)), lanes // 2 if chain[crate] == most else 1)))
            idle -= found[-1][1]
    return found


def end(crate: str, proof: subprocess.Popen) -> bool:
    """Ends a proof, brings back what it kept, and returns whether it is one."""
    proof.wait()
    if crate != PROGRAM:
        bring_back(crate)
    return proof.returncode == 0


def prove(below: dict[str, list[str]], sums: dict[str, str], lanes: int) -> int:
    """Proves what isn't proved yet, each crate once those below it are."""
    for crate in below:
        bring_back(crate)
    done = [crate for crate in below if crate != PROGRAM and has(crate, sums[crate])]
    chain, running, failed = behind(below), {}, False
    print(f"{len(below)} crates, {len(done)} of them proved before; what the prover says goes into out/make/", flush=True)
    try:
        while len(done) < len(below) and (running or not failed):
            for crate, jobs in [] if failed else to_start(below, done, running, chain, lanes):
                running[crate] = begin(crate, below[crate], jobs), jobs, time.monotonic()
            time.sleep(0.2)
            for crate in [x for x in running if running[x][0].poll() is not None]:
                proof, _, start = running.pop(crate)
                if end(crate, proof):
                    (room / f"{crate}.proved").write_text(sums[crate])
                    done.append(crate)
                    print(f"{len(done)} of {len(below)}  {crate}  {told(time.monotonic() - start)}", flush=True)
                else:
                    failed = True
                    print(f"{crate} failed after {told(time.monotonic() - start)}: see out/make/{crate}.log", flush=True)
    finally:
        for it in ENDING:
            signal.signal(it, signal.SIG_IGN)
        for proof, _, _ in running.values():
            proof.terminate()
        for crate in running:
            end(crate, running[crate][0])
    return int(failed)


def main() -> int:
    for it in ENDING:
        # (what `nohup` has ignored stays so)
        if signal.getsignal(it) != signal.SIG_IGN:
            signal.signal(it, lambda number, _: sys.exit(128 + number))
    if not shutil.which("rt"):
        sys.exit("the toolchain's command rt isn't on the path")
    room.mkdir(parents=True, exist_ok=True)
    held = os.open(room, os.O_RDONLY)
    fcntl.flock(held, fcntl.LOCK_EX)
    below = stands_on()
    version = subprocess.run(["rt", "version"], capture_output=True, text=True, check=True).stdout
    sums = {crate: sum_of(crate, below[crate], version) for crate in below}
    return prove(below, sums, int(sys.argv[1]) if len(sys.argv) > 1 else processors())


if __name__ == "__main__":
    sys.exit(main())
