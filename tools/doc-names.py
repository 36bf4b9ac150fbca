#!/usr/bin/env python3
"""Names in the documents: each name between backticks stands in the source, in specs/, in an edit or in the Makefile.

Usage: tools/doc-names.py. Ends with 1 where a name is gone. What stands between backticks is taken for
  a path, where it has a `/` or ends as a file does: such a file or folder is there, or its end is that of one that is, a part in
    capitals and a `*` standing for any;
  a name, where words are joined by `.` or `::`, as `Ran.left`: all of them stand in one file, a crate's name counting for its files,
    and what follows a record, a struct or a function behind a `.` is a field or a clause of one with this name;
  a formula, where it has digits, operators and single letters or words in capitals: its other words alone are looked for;
  a line, as `refused line N`: each word is looked for, but one in capitals, which stands for any.
Blocks of lines between ``` are passed over. Comments of the source don't count.
"""
import functools
import pathlib
import re
import sys

DOCUMENTS = ["README.md"] + [f"docs/{name}.md" for name in ("PROMISES", "DEFINITIONS", "ARCHITECTURE", "DECISIONS", "FORMAT")]
WORD = re.compile(r"[^\W\d][\w']*(?:-[^\W\d][\w']*)*")
PATH = re.compile(r"[\w.*-]+(?:/[\w.*-]*)+|[\w-]+\.(?:rt|antt|md|sh|py|edit|txt|c)")
NAME = re.compile(r"\.?[^\W\d][\w'-]*(?:(?:\.|::)[^\W\d][\w'-]*)*")
FREE = re.compile(r"[A-Z]+|\w")  # stands for any word, or for a number
MADE = "./pma", "out/"  # by `make`
HOLDER = re.compile(r"(?m)^ *(?:pub(?:\(crate\))? )?(?:record|struct|fn) ([\w'-]+)")  # what has fields or clauses
MEMBER = re.compile(r"(?m)^ +(?:pub(?:\(crate\))? )?(?:(?:ensures|requires) ([\w'-]+) \{|([\w'-]+) ?: )")
GIVEN = {"rt", "std", "strace", "libc"}  # the toolchain's, and the system's

top = pathlib.Path(__file__).resolve().parent.parent


def code_of(path: pathlib.Path) -> str:
    """The text of a file without its comments."""
    text = path.read_text()
    return re.sub(r"(?m)^\s*(--|//|///|#) .*$" if path.suffix in (".rt", ".antt") else r"(?m)^\s*#[ !].*$", "", text)


class Sources:
    """The words of each file that counts, and all paths of the checkout."""

    def __init__(self):
        crates = top / "crates"
        files = [f for s in ("*/src/**/*.rt", "*/specs/**/*.antt", "*/must-fail/*.edit", "*/args") for f in sorted(crates.glob(s))]
        files += [top / "Makefile", top / "crates.txt"]
        self.words = {f: set(f.relative_to(top).with_suffix("").parts) for f in files}
        self.members: dict[str, set[str]] = {}
        for f, words in self.words.items():
            words.update(WORD.findall(code_of(f)), re.findall(r"\w+", code_of(f)))
            if f.suffix in (".rt", ".antt"):
                self.add_members(HOLDER.split(code_of(f)))
        self.words[top] = {f.name for f in top.iterdir()}
        self.paths = [str(f.relative_to(top)) for f in top.rglob("*") if not {".git", "out"} & set(f.relative_to(top).parts)]

    def add_members(self, pieces: list[str]):
        """From the text of a file, cut at the names of what has fields or clauses."""
        for holder, text in zip(pieces[1::2], pieces[2::2]):
            self.members.setdefault(holder, set()).update(a or b for a, b in MEMBER.findall(text))

    def has_path(self, path: str) -> bool:
        ending = re.sub(r"\\\*|\b[A-Z]+\b(?!\\\.md)", "[^/]+", re.escape(path.removeprefix("./").strip("/")))
        return path.startswith(MADE) or any(re.search(rf"(^|/){ending}$", p) for p in self.paths)

    @functools.cache
    def has_name(self, name: str) -> bool:
        parts = [p for p in re.split(r"\.|::", name) if p]
        pairs = re.findall(r"([\w'-]+)\.(?=([\w'-]+))", name)
        if any(holder in self.members and member not in self.members[holder] for holder, member in pairs):
            return False
        return any(set(parts) <= words for words in self.words.values())

    @functools.cache
    def lacks(self, said: str) -> list[str]:
        """What a piece between backticks names that stands nowhere."""
        if PATH.fullmatch(said):
            return [] if self.has_path(said) else [said]
        if NAME.fullmatch(said):
            return [] if said in GIVEN or self.has_name(said) else [said]
        if said.startswith("rattle-kit-"):  # the toolchain's line
            return []
        words = [w for w in re.findall(r"(?:[^\W\d][\w'-]*(?:\.|::))*[^\W\d][\w'-]*", said) if not FREE.fullmatch(w)]
        return [w for w in words if w not in GIVEN and not self.has_name(w)]


def main() -> int:
    sources, wrong, count = Sources(), 0, 0
    for document in DOCUMENTS:
        text = re.sub(r"(?ms)^```.*?^```", lambda m: "\n" * m[0].count("\n"), (top / document).read_text())
        for m in re.finditer(r"`([^`]+)`", text):
            count += 1
            for gone in sources.lacks(re.sub(r"\s+", " ", m[1])):
                wrong += 1
                print(f"{document}:{text.count(chr(10), 0, m.start()) + 1}: {gone} stands nowhere: `{m[1]}`")
    print(f"{count} pieces between backticks, {wrong} names gone")
    return 1 if wrong else 0


if __name__ == "__main__":
    sys.exit(main())
