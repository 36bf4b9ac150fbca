#!/usr/bin/env python3
"""The examples of the documents: runs each line behind `$` in README, MANUAL, FORMAT and pma(1), and compares what comes.

Usage: tools/doc-examples.py [PROGRAM], the program being ./pma where none is named. Ends with 1 where an example is wrong.
An example is a line behind `$ ` in a block, with the lines that its quotes keep open; what stands behind it, up to the next `$ ` or
the end of the block, is what must come on standard output and standard error. The examples of a section are run by `sh` in their
order, in one folder that is empty at first, with the program as `pma` on the path.
"""
import os
import pathlib
import re
import subprocess
import sys
import tempfile

top = pathlib.Path(__file__).resolve().parent.parent
SECONDS = 60  # that a line may take
MARKDOWN = ["README.md", "docs/MANUAL.md", "docs/FORMAT.md"]


def sections_of_markdown(text: str) -> list[tuple[str, list[list[str]]]]:
    """The sections of a document: heading, and the blocks below it, each as its lines."""
    sections, block = [("", [])], None
    for line in text.splitlines():
        if line.startswith("```"):
            block = [] if block is None else None
            if block is not None:
                sections[-1][1].append(block)
        elif block is not None:
            block.append(line)
        elif line.startswith("## "):
            sections.append((line[3:], []))
    return sections


def sections_of_page(text: str) -> list[tuple[str, list[list[str]]]]:
    """The sections of a manual page likewise: a block is what stands between `.nf` and `.fi`, without its escapes."""
    sections, block = [("", [])], None
    for line in text.splitlines():
        if line in (".nf", ".fi"):
            block = [] if line == ".nf" else None
            if block is not None:
                sections[-1][1].append(block)
        elif block is not None:
            block.append(re.sub(r"\\(f[BIRP]|&|e|-|\(aq)", lambda m: {"e": "\\", "-": "-", "(aq": "'"}.get(m[1], ""), line))
        elif line.startswith(".SH "):
            sections.append((line[4:], []))
    return sections


def is_open(command: str) -> bool:
    """Whether a quote, or what else the shell waits for, is still open."""
    said = subprocess.run(["sh", "-n", "-c", command], capture_output=True, text=True)
    return said.returncode != 0 and bool(re.search("[Uu]nterminated|unexpected (EOF|end)|end of file", said.stderr))


def examples_of(block: list[str]) -> list[tuple[str, str]]:
    """The examples of a block: what is run, and what must come."""
    examples, command, wanted = [], None, []
    for line in block + ["$ "]:
        if command is not None and not wanted and is_open(command):
            command += "\n" + line
        elif line.startswith("$ "):
            if command:
                examples.append((command, "".join(x + "\n" for x in wanted)))
            command, wanted = line[2:], []
        elif command is not None:
            wanted.append(line)
    return examples


def came(command: str, folder: str, path: str) -> str:
    """What comes of an example, run in the folder."""
    try:
        ran = subprocess.run(["sh", "-c", command], cwd=folder, env={**os.environ, "PATH": path}, timeout=SECONDS,
                             stdin=subprocess.DEVNULL, stdout=subprocess.PIPE, stderr=subprocess.STDOUT)
    except subprocess.TimeoutExpired:
        return f"nothing after {SECONDS} seconds\n"
    return ran.stdout.decode(errors="replace")


def wrong_in(document: str, sections: list, path: str) -> int:
    """Runs the examples of a document, says which are wrong, and how many were run."""
    count = wrong = 0
    for heading, blocks in sections:
        with tempfile.TemporaryDirectory() as folder:
            for command, wanted in (example for block in blocks for example in examples_of(block)):
                count += 1
                said = came(command, folder, path)
                if said != wanted:
                    wrong += 1
                    print(f"{document}, {heading}:\n$ {command}\n-- wanted\n{wanted}-- came\n{said}--")
    print(f"{document}: {count} examples, {wrong} wrong")
    return wrong or int(count == 0)


def main() -> int:
    program = pathlib.Path(sys.argv[1] if len(sys.argv) > 1 else "./pma").resolve()
    with tempfile.TemporaryDirectory() as shelf:
        (pathlib.Path(shelf) / "pma").symlink_to(program)
        path = f"{shelf}:{os.environ['PATH']}"
        wrong = sum([wrong_in(name, sections_of_markdown((top / name).read_text()), path) for name in MARKDOWN])
        wrong += wrong_in("docs/pma.1", sections_of_page((top / "docs/pma.1").read_text()), path)
    return 1 if wrong else 0


if __name__ == "__main__":
    sys.exit(main())
