#!/usr/bin/env python3
"""Makes the sections of docs/PROMISES.md that stand between markers: the promises of a crate, out of the comments of its contracts.

Usage: tools/promises.py [--check]. With --check nothing is written, and it ends with 1 where a section isn't what the code says, or a
clause has no words. What is taken, crate by crate:
  of a public function the comment above each group of its `ensures` clauses; for clauses before the first such comment the first
    sentence of the function's doc comment;
  of a public record that such a clause names, or a field of such a record, the comment above each group of its fields, and else
    the comment above the record.
A comment ends at the next one, or at an empty line. Clauses of impls of a trait are taken where they have a comment: else they are
the trait's.
"""
from __future__ import annotations

import pathlib
import re
import sys

TOP = pathlib.Path(__file__).resolve().parent.parent
PROMISES = TOP / "docs" / "PROMISES.md"
SECTION = re.compile(r"(<!-- promises of (\w+): begin -->\n).*?(<!-- promises of \2: end -->\n)", re.S)
FUNCTION = re.compile(r"( *)(pub )?(?:final )?(?:const )?(?:unsafe )?fn (\w+)")
CLAUSE = re.compile(r" +ensures\*? ?(?:([\w-]+) )?\{")
BLOCK = re.compile(r"(?:pub )?(?:unsafe )?(impl|trait)\b(?:<.*?>)? ?(.*?)(?:<| where| \{|$)")
TRAITS = "As the trait says."  # of a clause that an impl only repeats
RECORD = re.compile(r"pub record (\w+)")
FIELD = re.compile(r"  pub ([\w'-]+) :")


def sentence(lines: list[str]) -> str:
    """The first sentence of a doc comment."""
    text = " ".join(lines).split("  ")[0]
    return re.split(r"(?<=\.)\s(?=[A-Z`])", text, maxsplit=1)[0].rstrip(" :")


def table(rows: list[tuple[str, str]]) -> str:
    """Rows of a table, those with the same words as one."""
    places: dict[str, list[str]] = {}
    for words, place in rows:
        places.setdefault(words[:1].upper() + words[1:].rstrip(".").replace("|", "\\|"), []).append(place)
    return "\n".join(f"| {words} | {'; '.join(where)} |" for words, where in places.items())


def exported(root: pathlib.Path) -> set[str]:
    """What a crate's root makes public of its modules, and its own public items; of a program all that a module does."""
    text = root.read_text() if root.name == "lib.rt" else "".join(f.read_text() for f in root.parent.glob("*.rt"))
    lists = re.findall(r"(?m)^pub use [\w:]*?(?:(\w+)|\{([^}]*)\});", text)
    names = {name.strip().split(" as ")[0] for one, many in lists for name in [one, *many.split(",")]}
    return names | set(re.findall(r"(?m)^pub (?:fn|struct|enum|trait) (\w+)", text))


class Contracts:
    """What the public functions of a file promise, in words."""

    def __init__(self, path: pathlib.Path, public: set[str]):
        self.rows: list[tuple[str, str]] = []  # words, and where they stand
        self.named: set[str] = set()
        self.missing: list[str] = []
        doc: list[str] = []
        words, labels = "", []  # the group that is being read
        holder, by_trait, in_trait, name, in_doc, foreign = "", False, False, "", True, False
        inside = 0  # how many braces of a clause are open, which may take several lines
        for line in path.read_text().splitlines():
            text = line.strip()
            if inside > 0:
                self.named.update(re.findall(r"\b[A-Z]\w+\b", line))
                inside += line.count("{") - line.count("}")
                continue
            if block := BLOCK.match(line):
                kind, of = block[1], block[2]
                by_trait = kind == "impl" and " for " in line
                holder = re.sub(r".* for ", "", line.split("{")[0]).strip().split("<")[0] if by_trait else of.split("<")[0].strip()
                in_trait = kind == "trait"
            elif line == "}":
                holder, by_trait, in_trait = "", False, False
            if head := FUNCTION.match(line):
                self.close(name, words, labels)
                words, labels = "", []
                of = holder if holder and head[1] else head[3]
                said = (head[2] or by_trait or in_trait) and of in public
                name = (f"{holder}::{head[3]}" if of == holder else head[3]) if said else ""
                words, in_doc, foreign = sentence(doc), True, by_trait
                doc = []
            elif name and text.startswith("// "):
                goes_on = not labels and not in_doc
                self.close(name, words, labels)
                words, labels, in_doc, foreign = (words + " " if words and goes_on else "") + text[3:], [], False, False
            elif name and (clause := CLAUSE.match(line)):
                inside = line.count("{") - line.count("}")
                if not foreign:
                    labels.append(clause[1] or "")
                self.named.update(re.findall(r"\b[A-Z]\w+\b", line))
            elif name and not text:
                self.close(name, words, labels)
                words, labels, in_doc = "", [], False
            elif text == "{" or text.endswith(" {") and not CLAUSE.match(line):
                self.close(name, words, labels)
                words, labels, name = "", [], ""
            elif name and labels:
                self.named.update(re.findall(r"\b[A-Z]\w+\b", line))
            if text.startswith("/// ") or text == "///":
                doc.append(text[4:] if text != "///" else " ")
            elif not text.startswith("#[") and not FUNCTION.match(line):
                doc = []
        self.close(name, words, labels)

    def close(self, name: str, words: str, labels: list[str]) -> None:
        """Ends a group of clauses."""
        if not name or not labels:
            return
        if not words:
            self.missing.append(f"{name}: {', '.join(labels)}")
            return
        named = [f"`{label}`" for label in labels if label]
        if words != TRAITS:
            self.rows.append((words, f"`{name}`" + (f": {', '.join(named)}" if named else "")))
        labels.clear()


def records_of(path: pathlib.Path) -> dict[str, tuple[list[tuple[str, str]], set[str]]]:
    """The public records of a file: their rows, and what else their fields name."""
    found: dict[str, tuple[list[tuple[str, str]], set[str]]] = {}
    above: list[str] = []
    name, words, fields, whole, rows, named = "", "", [], "", [], set()

    def close() -> None:
        nonlocal fields
        if name and fields and words:
            rows.append((words, f"`{name}.{fields[0]}`" + "".join(f", `.{f}`" for f in fields[1:])))
        fields = []

    for line in [*path.read_text().splitlines(), "end"]:
        if line.startswith("--"):
            above.append(line[3:])
            continue
        if record := RECORD.match(line):
            name, words, fields, whole, rows, named = record[1], "", [], " ".join(above), [], set()
        elif name and line.startswith("  -- "):
            close() if fields else None
            words = (words + " " if words and not fields and below else "") + line[5:]
            below = True
            continue
        elif name and (field := FIELD.match(line)):
            fields.append(field[1])
            named.update(re.findall(r"\b[A-Z]\w+\b", line))
        elif name and line.startswith("      "):
            named.update(re.findall(r"\b[A-Z]\w+\b", line))
        elif name and not line:
            close()
            words = ""
        if name and line and not line.startswith(" ") and not RECORD.match(line):
            close()
            found[name] = (([(whole, f"`{name}`")] if whole and rows else []) + rows, named)
            name = ""
        if name and not line:
            found[name] = (([(whole, f"`{name}`")] if whole and rows else []) + rows, named)
        below = False
        above = []
    return found


def section(crate: str) -> tuple[str, list[str]]:
    """A crate's section, and the clauses without words."""
    folder = TOP / "crates" / crate
    root = next(f for f in (folder / "src" / "lib.rt", folder / "src" / "main.rt") if f.exists())
    lines = root.read_text().splitlines()
    public = exported(root)
    about = " ".join(line[4:] for line in lines[: next(i for i, x in enumerate(lines) if not x.startswith("//! "))])
    rows, named, missing = [], set(), []
    for path in sorted((folder / "src").glob("**/*.rt")):
        contracts = Contracts(path, public)
        rows += contracts.rows
        named |= contracts.named
        missing += [f"{crate}/{path.name}: {m}" for m in contracts.missing]
    records: dict[str, tuple[list[tuple[str, str]], set[str]]] = {}
    short: dict[str, set[str]] = {}  # what an abbreviation names
    for path in sorted((folder / "specs").glob("*.antt")):
        records.update(records_of(path))
        for name, body in re.findall(r"(?m)^(?:abbrev |unfoldable )?pub (\w+) : .*\n((?:.+\n)+)", path.read_text()):
            short[name] = set(re.findall(r"\b[A-Z]\w+\b", body)) - {name}
    cited = {name: names for name, (_, names) in records.items()} | short
    reached = [n for n in cited if n in named]
    for name in reached:
        reached += [n for n in cited if n in cited[name] and n not in reached]
    rows += [r for n in records if n in reached for r in records[n][0]]
    return f"### {crate}\n\n{about}\n\n| promise | where |\n|---|---|\n" + table(rows) + "\n", missing


def main() -> int:
    text, missing = PROMISES.read_text(), []

    def made(found: re.Match[str]) -> str:
        is_now, lacks = section(found[2])
        missing.extend(lacks)
        return f"{found[1]}{is_now}{found[3]}"

    now = SECTION.sub(made, text)
    for lack in missing:
        print(f"no words: {lack}")
    if "--check" not in sys.argv[1:]:
        PROMISES.write_text(now)
    elif now != text:
        print("docs/PROMISES.md isn't what the code says: make promises")
    return 1 if missing or "--check" in sys.argv[1:] and now != text else 0


if __name__ == "__main__":
    sys.exit(main())
