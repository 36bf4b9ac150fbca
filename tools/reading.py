#!/usr/bin/env python3
"""What there is to read behind a clause: the definitions that it names, and what these cite, one definition at a time.

    tools/reading.py CHECKOUT [CLAUSE] [--list] [--requires] [--no-traits] [--until NAME]... [--why NAME]
    tools/reading.py CHECKOUT --order [--list]

CLAUSE is a clause of `run_words` (`headline` by default) or CRATE::FUNCTION.CLAUSE; `*` in a clause's place is all of them.
Printed are definitions and lines by crate: of code, of code folded at 100 columns, of comment. A type of the code is read
as the logic sees it, so one with a model by its values alone; a trait by its contracts. Names of the library and of the
kit's crates are counted, not followed. A definition of `--until` is taken at its word: it is counted, and what it cites isn't.
`hidden` are definitions whose name is bound otherwise where it stands.

`--order` reads docs/DEFINITIONS.md: how many citations there are between definitions of different rows, and how many of them
point forward, to a row that stands later. A word that no row has is read where it is cited, so what it cites counts there. A
name is defined by the first cell of a row, or else by a paragraph that begins with a name between backticks; it is that of the
file, or of the crate, that its row or its heading names.
"""
from __future__ import annotations

import argparse
import re
from functools import cache
from pathlib import Path

WORD = re.compile(r"(?<![\w.)])([^\W\d][\w'-]*)((?:\.[\w'-]+)*)")
BINDER = re.compile(r"[({]((?:[\w']+ )+): |λ ([^.]*)\.|\blet ([^=:]*)[=:]|\|([^|↦]*)↦|^ +(?:pub )?([\w'-]+)(?= : )", re.M)
FIELD_SET = re.compile(r"([{;]|^) *[\w'-]+ = ", re.M)
COMMENT = re.compile(r"\s*(--|//)")
ITEM = re.compile(r"^(?:pub(?:\(\w+\))? )?(struct|enum|const|trait) (\w+)", re.M)
MODEL = r"impl[^\n]* Model for %s\b.*?(    ghost Value = \{([^\n]*)\};)"
GIVEN = set("""Type Unit record data pub abbrev unfoldable let in if then else where as elim omega λ self Self result old new now
    u8 u16 u32 u64 u128 usize bool str Option Result Vec String true false Some None Ok Err""".split())


class Definition:
    """What is read as one thing: a definition, a type or a trait of the code, or the clause itself."""

    def __init__(self, unit: Unit, name: str, line: int, lines: list[str], kind: str, says: str | None = None, bound=()):
        code = [x for x in lines if x.strip() and not COMMENT.match(x) and not x.startswith("#[")]
        self.unit, self.name, self.line, self.kind, self.bound = unit, name, line, kind, {name, *bound}
        self.text = re.sub(r'\s(--|//) .*|"[^"]*"', "", "\n".join(code) if says is None else says)
        self.size = len(code), sum(-(-len(x) // 100) for x in code), sum(bool(COMMENT.match(x)) for x in lines)


class Unit:
    """A file: what its `use` lines bring into scope, its definitions, and those that its constructors make."""

    def __init__(self, crate: str, path: Path):
        self.crate, self.path, self.defs, self.made_by = crate, path, {}, {}
        self.lines = path.read_text().splitlines()
        plain = "\n".join(x for x in self.lines if not COMMENT.match(x)).replace("::", ".")
        uses = re.findall(r"^ *(?:pub )?(?:ghost )?use ([\w.]+(?:\{[^}]*\})?(?: as \w+)?)", plain, re.M)
        self.scope = {alias: path for u in uses for alias, path in leaves(u)}
        (self.read_code if path.suffix == ".rt" else self.read_logic)()

    def read_logic(self) -> None:
        above: list[str] = []
        spans: list[tuple] = []
        for n, x in enumerate(self.lines, 1):
            first = re.match(r"(?:abbrev |unfoldable |pub )*(record |data )?([^\s:({}]+)", x)
            if x.startswith("--") or not x.strip() or re.match(r"(pub )?(use|mod) ", x):
                above = above + [x] if x.startswith("--") else []
                continue
            if first and first[2] != "unfolding" and not (spans and first[2] == spans[-1][0]):
                spans.append((first[2], n, [], (first[1] or "term").strip()))
            spans[-1][2].extend(above + [x])
            above = []
        for name, n, lines, kind in spans:
            self.defs[name] = d = Definition(self, name, n, lines, kind)
            self.made_by.update({c: d for c in re.findall(r"^  ([\w'-]+) : ", d.text, re.M) if kind == "data"})

    def read_code(self) -> None:
        text = "\n".join(self.lines)
        for m in ITEM.finditer(text):
            kind, name, first = m[1], m[2], text.count("\n", 0, m.start())
            top = stop = first
            while not re.search(r"[;}]$" if stop == first else r"^[\])}]", self.lines[stop]):
                stop += 1
            while self.lines[top - 1].startswith(("///", "#[")):
                top -= 1
            lines, value = self.lines[top:stop + 1], re.search(MODEL % name, text, re.S)
            body = "\n".join(re.sub(r"//.*|#\[.*", "", x) for x in self.lines[first:stop + 1])[len(m[0]):]
            says = re.sub(r"^ +(pub(\(\w+\))? )?\w+(?=[ ,({:])|[<(]'\w+", "", body, flags=re.M)
            if kind == "struct" and value:
                lines, says = self.lines[top:first + 1] + [value[1]], value[2]
            elif kind == "trait":
                says = "\n".join(re.findall(r"(?:requires|ensures|ghost)[ :\w]*\{((?:[^{}]|\{[^{}]*\})*)\}", body))
            self.defs[name] = Definition(self, name, first + 1, lines, kind, says, re.findall(r"(\w+): ", body))


def leaves(use: str) -> list[tuple[str, tuple[str, ...]]]:
    """The names that a `use` brings, each with its path."""
    front, _, names = use.rstrip("}").partition("{")
    pairs = [(front + n.strip()).split(" as ") for n in names.split(",") if n.strip()] if names else [use.split(" as ")]
    return [(p[-1].rsplit(".", 1)[-1], tuple(p[0].strip().removeprefix("Rattle.").split("."))) for p in pairs]


class House:
    """The checkout: what stands where, and what cites what."""

    def __init__(self, top: Path):
        self.top, self.unit = top, cache(Unit)

    @cache
    def code(self, crate: str) -> list[Unit]:
        return [self.unit(crate, f) for f in sorted((self.top / "crates" / crate / "src").rglob("*.rt"))]

    @cache
    def at(self, path: tuple[str, ...], crate: str) -> Definition | str | None:
        """What a path names: a definition, a name outside of the checkout, or nothing."""
        home = crate if path[0] in ("crate", "super", "self") else path[0]
        if not (self.top / "crates" / home).is_dir():
            return ".".join(path)
        if path[1:2] in (("specs",), ("proofs",)) and path[2] != "declared":
            files = [self.top / "crates" / home / Path(*path[1:n]).with_suffix(".antt") for n in (-1, -2) if len(path) + n > 2]
            unit = next((self.unit(home, f) for f in files if f.is_file()), None)
            return unit and (unit.defs.get(path[-1]) or unit.made_by.get(path[-1]))
        name = path[-3] if path[-2:-1] == ("TheVariants",) else path[-1]
        found = [u for u in self.code(home) if name in u.defs]
        again = [u.scope[name] for u in self.code(home) if u.scope.get(name, ("crate",))[0] not in ("crate", "super", "self", home)]
        return min(found, key=lambda u: u.path.stem not in path).defs[name] if found else self.at(again[0], home) if again else None

    def cites(self, d: Definition) -> tuple[dict[Definition, None], set[str], set[str], set[str]]:
        """What a definition cites, the names outside, the definitions that it hides, and what resolves to nothing."""
        u = d.unit

        def look(word: str, tail: str = "") -> tuple[Definition | str | None, bool]:
            """What a word names, and whether it can't be bound: it is qualified, or makes a value."""
            path, thing = u.scope.get(word, ()), u.defs.get(word) or u.made_by.get(word)
            if path and tail and (inner := self.at(path + (tail.split(".")[1],), u.crate)) and not self.at(path, u.crate):
                return inner, True
            thing = thing or (self.at(path, u.crate) if path else None)
            made = isinstance(thing, Definition) and (thing.kind == "data" and thing.name != word or "TheVariants" in path)
            return thing, made or isinstance(thing, str) and bool(re.match(r"[A-Z]|(true|false|suc|zero)$", word))

        heads = [x.split(" = ")[0] for x in d.text.split("\n") if x.startswith(d.name + " ") and not x.startswith(d.name + " : ")]
        binders = heads + [g for groups in BINDER.findall(d.text) for g in groups]
        bound = d.bound | {w for b in binders for w, tail in WORD.findall(b) if not tail and not look(w)[1]}
        inner, outer, hidden, lost = {}, set(), set(), set()
        for word, tail in WORD.findall(FIELD_SET.sub(r"\1", d.text)):
            thing, free = look(word, tail)
            if word in bound and not free:
                hidden |= {f"{word} in {d.name}"} if isinstance(thing, Definition) and thing is not d else set()
            elif isinstance(thing, Definition):
                inner[thing] = None
            elif thing or word not in GIVEN:
                (outer if thing else lost).add(thing or f"{word}{tail} in {d.name}")
        outer |= {".".join(p) for name, p in u.scope.items() if "◌" in name and all(x in d.text for x in name.split("◌"))}
        return inner, outer, hidden, lost


def clause(house: House, asked: str, conditions: bool) -> Definition:
    """The clause that is asked for, in the scope of its file, with what its function's parameters are called."""
    crate, function, name = re.fullmatch(r"(?:(\w+)::(\w+)\.)?(\w+|\*)", asked).groups()
    for u in house.code(crate or "pma_engine"):
        text = "\n".join(u.lines)
        for m in re.finditer(rf"fn {function or 'run_words'}\b(.*?)(?=requires|ensures|\n *\{{)", text, re.S):
            said, at = [], m.end()
            while c := re.compile(r"\s*(?://[^\n]*\n\s*)*(requires|ensures)\s*(\w*)\s*\{").match(text, at):
                depth, at = 1, c.end()
                while depth:
                    depth, at = depth + {"{": 1, "}": -1}.get(text[at], 0), at + 1
                said.append((c[1], c[2], text[c.end():at - 1].split("\n")))
            if any(name in (n, "*") for _, n, _ in said):
                bounds = re.findall(r"(\w+): (\w+)", m[1].partition("(")[0])
                u.scope.update({v: u.scope[b] for v, b in bounds if b in u.scope})
                lines = [x for kind, n, xs in said if name in (n, "*") or conditions and kind == "requires" for x in xs]
                return Definition(u, asked, text.count("\n", 0, m.start()) + 1, lines, "clause", bound=re.findall(r"(\w+): ", m[1].partition("(")[2]))
    raise SystemExit(f"no clause {asked}")


class Document:
    """The rows and paragraphs of docs/DEFINITIONS.md that define a name, in their order, and what they define."""

    def __init__(self, house: House):
        self.house, self.named = house, {}
        for f in sorted(f for d in ("specs/**/*.antt", "src/**/*.rt") for f in (house.top / "crates").glob(f"*/{d}")):
            u = house.unit(f.relative_to(house.top / "crates").parts[0], f)
            for name, d in u.defs.items():
                self.named.setdefault(name, []).append(d)
        lines = (house.top / "docs/DEFINITIONS.md").read_text().split("\n")
        self.row: dict[Definition, int] = {}
        self.homeless: list[tuple[int, str]] = []
        rows, texts, heading, table = [], [], "", False
        for n, x in enumerate(lines, 1):
            if x.startswith("#"):
                heading, table = x, False
            elif x.startswith("|"):
                cells = x.strip("|").split(" | ")
                table = table or cells[0].split() == ["name"]
                if table:
                    rows.append((n, cells[0], cells[1] if len(cells) > 2 else "", heading))
            else:
                table = False
                if re.match(r"(\*\*)?`[\w'-]+`", x) and not lines[n - 2].strip():
                    said = " ".join(lines[n - 1:next(m for m in range(n, len(lines)) if not lines[m].strip())])
                    texts.append((n, said, said, heading))
        for n, names, file, heading in rows + texts:
            for name in re.findall(r"`([\w'-]+)(?: [A-Z])?`", names):
                self.define(n, name, file, heading)

    def define(self, n: int, name: str, file: str, heading: str) -> None:
        """Gives the name its row: the definition in a file that is named beside it, or above it, or else in a crate that is."""
        found = [d for d in self.named.get(name, []) if d not in self.row]
        crates = set(re.findall(r"\w+", file + heading))
        at_home, near = [d for d in found if d.unit.crate in crates], []
        for hints in (file, heading):
            paths = re.findall(r"[\w/]+\.(?:antt|rt)", hints)
            near = near or [d for d in at_home if any(f"/{d.unit.path}".endswith(f"/{p}") for p in paths)]
        self.row.update({d: n for d in (near or at_home)[:1]})
        self.homeless += [] if near or at_home else [(n, name)]

    def cited(self, d: Definition) -> set[Definition]:
        """The definitions with a row that one cites, by itself or by words that have none."""
        queue = [d]
        for e in queue:
            if e is d or e not in self.row:
                queue += [x for x in self.house.cites(e)[0] if x not in queue]
        return {e for e in queue[1:] if e in self.row}


def order(house: House, listed: bool) -> None:
    page = Document(house)
    pairs = [(d, e) for d in page.row for e in page.cited(d) if page.row[e] != page.row[d]]
    forward = sorted((page.row[d], page.row[e], d.name, e.name) for d, e in pairs if page.row[e] > page.row[d])
    print(f"names: {len(page.row)}; citations: {len(pairs)}; forward: {len(forward)}; names that are no definition: {len(page.homeless)}")
    if listed:
        print("\n".join(f"{n}: {name} cites {other} of {m}" for n, m, name, other in forward))
        print("no definition:", ", ".join(f"{name} ({n})" for n, name in sorted(page.homeless)))


def main() -> None:
    p = argparse.ArgumentParser(description=__doc__, formatter_class=argparse.RawDescriptionHelpFormatter)
    p.add_argument("checkout", type=Path)
    p.add_argument("clause", nargs="?", default="headline", help="NAME, CRATE::FUNCTION.NAME, or * for a NAME")
    p.add_argument("--list", action="store_true", help="each definition with file, line, and lines of code and of comment")
    p.add_argument("--requires", action="store_true", help="the function's conditions are read with the clause")
    p.add_argument("--no-traits", action="store_true", help="stop at `S.view` and `I.view`, whose contracts stay unread")
    p.add_argument("--until", metavar="NAME", action="append", default=[], help="a definition that is taken at its word, as Means")
    p.add_argument("--order", action="store_true", help="how many citations of docs/DEFINITIONS.md point forward")
    p.add_argument("--why", metavar="NAME", help="the chain of citations by which a definition is met")
    a = p.parse_args()
    house = House(a.checkout)
    if a.order:
        return order(house, a.list)
    start = clause(house, a.clause, a.requires)
    met: dict[Definition, Definition | None] = {start: None}
    queue, seen = [start], [set(), set(), set()]
    for d in queue:
        if d.name in a.until:
            continue
        inner, *more = house.cites(d)
        seen = [known | new for known, new in zip(seen, more)]
        for e in inner:
            if e not in met and not (a.no_traits and e.kind == "trait"):
                met[e] = d
                queue.append(e)
    found = sorted(queue[1:], key=lambda d: (d.unit.crate, str(d.unit.path), d.line))
    by = {c: [d for d in found if d.unit.crate == c] for c in {d.unit.crate: None for d in found}}
    print(f"{'crate':16} {'defs':>5} {'code':>6} {'folded':>6} {'comment':>7}")
    for c, ds in sorted(by.items(), key=lambda x: -sum(d.size[0] for d in x[1])) + [("total", found)]:
        print(f"{c:16} {len(ds):5} {sum(d.size[0] for d in ds):6} {sum(d.size[1] for d in ds):6} {sum(d.size[2] for d in ds):7}")
    print(f"the clause: {start.size[0]} lines; files: {len({d.unit.path for d in found})}; names outside: {len(seen[0])}")
    if a.list:
        for d in found:
            print(f"{d.unit.path.relative_to(a.checkout)}:{d.line}: {d.kind} {d.name}, {d.size[0]} + {d.size[2]}")
        print("outside:", ", ".join(sorted(seen[0])))
    for d in (d for d in found if d.name == a.why):
        chain = [d]
        while met[chain[-1]]:
            chain.append(met[chain[-1]])
        print(" <- ".join(x.name for x in chain))
    for what, names in zip(("hidden", "unresolved"), seen[1:]):
        print(f"{what}: {', '.join(sorted(names)) or 'none'}")


if __name__ == "__main__":
    main()
