#!/usr/bin/env python3
"""The goals that cost the prover most, by the steps that it counted.

Usage: tools/dear-goals.py [MILLIONS [CRATE..]], for goals of at least that many million steps: 1, and all crates of
crates.txt, where none is given. The steps are the same in each check; a million took about 0.4 seconds of one processor.

It reads what `rt check` keeps in crates/NAME/out, so check first. A line has the steps in millions, the crate, the module
and the goal: under `Proof` the goals for which the prover searched, under `Answers` those with a line. What a goal cost that
is gone, or by an answer that is, stays there until `out` is removed. The records are the kit's own, and another kit may
keep others.
"""

import json
import re
import signal
import sys
from pathlib import Path

ROOT = Path(__file__).resolve().parent.parent
BEGIN = re.compile(r'\[\{"aux"')


def declarations(record):
    """What a record says of each declaration of its module."""
    text = record.read_bytes().decode("utf-8", "replace")
    for begin in BEGIN.finditer(text):
        yield from json.JSONDecoder().raw_decode(text, begin.start())[0]


def answered(crate, module):
    """The goals of a function that have a line, where the module is that of its searches."""
    if not module.endswith(".Proof"):
        return set()
    answers = ROOT.joinpath("crates", crate, "proofs", *module.split(".")[:-1], "Answers.antt")
    return set(re.findall(r"^pub (\S+) :", answers.read_text(), re.M)) if answers.exists() else set()


def costs(crate):
    """The steps, the crate, the module and the name of each declaration of its proofs."""
    kept = ROOT / "crates" / crate / "out" / "incremental"
    for record in kept.glob(f"*/records/Rattle-{crate}-proofs.*.decls.oantt"):
        module = record.name[len(f"Rattle-{crate}-proofs.") : -len(".decls.oantt")]
        lines = answered(crate, module)
        for declaration in declarations(record):
            if declaration["name"] not in lines:
                yield declaration["steps"][0], crate, module, declaration["name"]


def main():
    signal.signal(signal.SIGPIPE, signal.SIG_DFL)
    least = float(sys.argv[1]) if len(sys.argv) > 1 else 1
    listed = (ROOT / "crates.txt").read_text()
    crates = sys.argv[2:] or re.findall(r"^([a-z_0-9]+).*:", listed, re.M)
    found = sorted((cost for crate in crates for cost in costs(crate)), reverse=True)
    if not found:
        sys.exit("nothing is kept of a check, or in another form")
    for steps, crate, module, name in found:
        if steps >= least * 1e6:
            print(f"{steps / 1e6:8.1f}  {crate}  {module}  {name}")


main()
