"""The scripts of the workloads, by the names that users of the peers know: seeded, keys of 16 bytes, values of 32."""
import random

SEED = 7
KEYS = 10**10  # random keys are numbers below, ascending ones stand above
ITEMS = 16  # of a batch
WALKED = 100000  # records that a cursor goes over, where there are that many
BATCH, BY_PUTS = "batch of 16", "batch of 16, by puts"
CURSOR, BACK, BY_RANGE = "cursor", "cursor back", "cursor, by range"
MERGES = {"merge 0.1 %": 1000, "merge 10 %": 10, "merge 100 %": 1}  # one update of a text for that many records


def key(number):
    return b"%016d" % number


def value(n):
    return b"%032x" % (n * 0x9E3779B97F4A7C15F39CC0605CEDC835 % (1 << 128))


def short_value(n):
    """Of 7 bytes: so long they may be for a line to have room for a batch of 16."""
    return b"%07x" % (n * 0x9E3779B1 % (1 << 28))


class Workloads:
    """Scripts for a store of that many records. Those of a round leave the store with the same keys as they found it."""

    def __init__(self, records, rounds):
        self.records, self.rounds = records, rounds
        self.small = records < 1000
        self.gets = 100000 if records > 100000 else 20000
        self.updates = 20000 if records > 100000 else 4000 if self.small else 2000
        self.scans = self.gets // 5
        self.walked = min(WALKED, records)
        self.walks = max(1, self.gets // self.walked)
        fresh = 2 if self.small else self.updates + self.scans // 20 + 1
        count, added = records + fresh * (2 * rounds + 3) + 1000, sum(n // 10 for n in self.merged().values())
        numbers = random.Random(SEED).sample(range(KEYS), count + added)
        self.keys = [key(n) for n in numbers[:records]]
        starts = [records + fresh * turn for turn in range(2 * rounds + 3)]
        self.fresh = [[key(n) for n in numbers[start:start + fresh]] for start in starts]
        self.missing = [key(n) for n in numbers[count - 1000:count]]
        self.added = [key(n) for n in numbers[count:]]
        total, self.skew = 0.0, []
        for rank in range(records):
            total += 1 / (rank + 1) ** 0.99
            self.skew.append(total)

    def most_records(self):
        """How many records a store has at any moment."""
        return self.records + (1 if self.small else self.updates + self.scans // 20 + 1)

    def fill(self):
        for n, k in enumerate(self.keys):
            yield b"put " + k + b" " + value(n) + b"\n"

    def in_pairs(self, keys):
        """A store of a few records has no room for many new ones: each put of a new key is followed by its removal."""
        return [line for n, k in enumerate(keys) for line in (b"put %s %s\n" % (k, value(n)), b"remove %s\n" % k)]

    def fillrandom(self, turn):
        if self.small:
            return self.in_pairs([self.fresh[turn][n % 2] for n in range(self.updates // 2)])
        return [b"put %s %s\n" % (k, value(n)) for n, k in enumerate(self.fresh[turn][:self.updates])]

    def fillseq(self):
        keys = [key(KEYS + n) for n in range(self.updates)]
        if self.small:
            return self.in_pairs(keys[:self.updates // 2])
        return [b"put %s %s\n" % (k, value(n)) for n, k in enumerate(keys)]

    def overwrite(self, turn):
        r = random.Random(SEED + turn)
        return [b"put %s %s\n" % (r.choice(self.keys), value(turn * 1000003 + n)) for n in range(self.updates)]

    def deleterandom(self, turn, lines=None):
        keys = self.fresh[turn][:lines or self.updates]
        return [b"remove %s\n" % k for k in random.Random(SEED + turn).sample(keys, len(keys))]

    def half_and_half(self, turn):
        r = random.Random(SEED + 100 + turn)
        keys = r.choices(self.keys, cum_weights=self.skew, k=self.updates)
        return [b"put %s %s\n" % (k, value(turn * 1000033 + n)) if n % 2 else b"get %s\n" % k for n, k in enumerate(keys)]

    def mostly_scans(self, turn):
        r = random.Random(SEED + 200 + turn)
        lines, new = [], iter(self.fresh[turn][self.updates:])
        again = self.fresh[turn][0]
        for n in range(self.scans):
            if n % 20 == 10 and self.small:
                lines.append(b"put %s %s\n" % (again, value(n)) if n % 40 == 10 else b"remove %s\n" % again)
            elif n % 20 == 10:
                lines.append(b"put %s %s\n" % (next(new), value(n)))
            else:
                lines.append(b"range %s * %d\n" % (r.choice(self.keys), r.randint(1, 100)))
        return lines

    def items(self, turn):
        """Lists of 16 present keys, no two alike in one list."""
        r = random.Random(SEED + 400 + turn)
        return [r.sample(self.keys, ITEMS) for _ in range(self.updates // ITEMS)]

    def batches(self, turn):
        lines = []
        for n, keys in enumerate(self.items(turn)):
            puts = [b"put %s %s" % (k, short_value(turn * 1000033 + n + place)) for place, k in enumerate(keys)]
            lines.append(b"batch " + b" ; ".join(puts) + b"\n")
        return lines

    def by_puts(self, turn, value_of):
        keys = [k for some in self.items(turn) for k in some]
        return [b"put %s %s\n" % (k, value_of(turn * 1000037 + n)) for n, k in enumerate(keys)]

    def walk(self, step):
        return ([b"open c * *\n"] + [step + b" c\n"] * self.walked + [b"close c\n"]) * self.walks

    def counted(self, name, lines):
        """How many a script counts as: a batch as its items, a walk and its range as the records; else each line as one."""
        if name in (CURSOR, BACK, BY_RANGE):
            return self.walks * self.walked
        return len(lines) * (ITEMS if name == BATCH else 1)

    def merged(self):
        """How many updates each merge text has, by its name; none where it would have none."""
        return {name: self.records // each for name, each in MERGES.items() if self.records >= each}

    def merges(self, turn):
        """(Name, lines) of the merge texts of a round, one after the other: of ten updates eight bind a present key, one binds a
        new one, and one removes a present one, so that there are never more records than before."""
        order = random.Random(SEED + 500 + turn).sample(self.keys, self.records)
        start = 0
        for name, count in self.merged().items():
            some, end = count // 10, start + count // 10
            lines = [b"remove %s\n" % k for k in order[start:end]]
            bound = self.added[start:end] + order[self.records - count + 2 * some:]
            lines += [b"record %s %s\n" % (k, value(turn * 1000039 + n)) for n, k in enumerate(bound)]
            yield name, sorted(lines, key=lambda line: line.split()[1]) + [b"end %d\n" % count]
            start = end

    def restored(self, turn):
        """Takes away what `fillseq` and `mostly scans` added."""
        if self.small:
            return [b"remove %s\n" % self.fresh[turn][0]]
        return [b"remove %s\n" % k for k in [key(KEYS + n) for n in range(self.updates)] + self.fresh[turn][self.updates:]]

    def turn(self, turn, words):
        """(Name, lines) in order, of one round, by the words that came later; what has no name isn't timed."""
        r = random.Random(SEED + 300 + turn)
        some = [r.choice(self.keys) for _ in range(self.gets)]
        yield "readrandom", [b"get %s\n" % k for k in some]
        yield "readmissing", [b"get %s\n" % r.choice(self.missing) for _ in some]
        yield "seekrandom 10", [b"range %s * 10\n" % k for k in some[:self.gets // 2]]
        yield "seekrandom 100", [b"range %s * 100\n" % k for k in some[:self.gets // 5]]
        yield "readseq", [b"range * *\n"] * max(5, 100000 // self.records)
        if "cursors" in words:
            yield CURSOR, self.walk(b"next")
        if "prev" in words:
            yield BACK, self.walk(b"prev")
        yield BY_RANGE, [b"range * * %d\n" % self.walked] * self.walks
        yield BATCH, self.batches(turn)
        yield BY_PUTS, self.by_puts(turn, short_value)
        yield None, self.by_puts(turn, value)
        yield "overwrite", self.overwrite(turn)
        yield "half and half", self.half_and_half(turn)
        yield "mostly scans", self.mostly_scans(turn)
        yield "fillrandom", self.fillrandom(turn)
        if not self.small:
            yield "deleterandom", self.deleterandom(turn)
        yield "fillseq", self.fillseq()
        yield None, self.restored(turn)


def orders(count):
    """(Name, numbers of keys) of the orders in which that many keys are put: at one place, each comes between the two before it."""
    yield "random", random.Random(SEED).sample(range(KEYS), count)
    yield "ascending", range(count)
    yield "descending", range(count, 0, -1)
    yield "one place", [KEYS - n // 2 if n % 2 else n // 2 for n in range(count)]


def charged(numbers, marks):
    """Puts of these keys without values, with `cost` behind each count of puts that is marked."""
    for n, number in enumerate(numbers, 1):
        yield b"put " + key(number) + (b"\ncost\n" if n in marks else b"\n")


def odd_lines(count, words):
    """Escapes, sizes at the limits, and each refused line, of cursors too where the words that came later have them: what a
    driver must answer as the program does."""
    r = random.Random(SEED)
    parts = [b"a", b"b", b"%00", b"%2A", b"*", b"#", b"%", b"%4", b"%zz", b"%fF", b"\x80", b"\t", b"~", b"k%20k"]
    limits = [b"", b" 3", b" 0", b" 01", b" 4294967295", b" 4294967296", b" -1", b" x"]

    def word(most):
        return b"".join(r.choice(parts) for _ in range(r.randint(1, most)))

    def item():
        return r.choice([b"put " + word(2), b"put " + word(2) + b" " + word(6), b"remove " + word(2), b"remove " + word(1)])

    def many():
        return b" ; ".join(b"put k%d" % (n % r.choice([17, 17, 9])) for n in range(r.choice([2, 15, 16, 17])))

    steps = [b"next ", b"prev "] if "prev" in words else [b"next "]
    asked = [
        lambda: b"open " + word(1) + b" " + word(1) + b" " + word(1),
        lambda: b"open " + word(1) + b" * *",
        lambda: b"open " + word(1) + b" " + b"k" * r.choice([1, 24, 25]) + b" " + word(1) + r.choice([b"", b" x"]),
        lambda: b"open " + b"n" * r.randint(20, 25) + b" * " + word(3),
        lambda: b"open c%d * *" % r.randint(0, 20),
        lambda: r.choice([b"close ", *steps, *steps]) + b"c%d" % r.randint(0, 20),
        lambda: b"close " + word(1),
        *[lambda: r.choice(steps) + word(1)] * 6,
    ]
    kinds = [
        lambda: b"put " + word(4) + b" " + word(6),
        lambda: b"put " + word(4),
        lambda: b"  remove   " + word(4) + b" ",
        lambda: b"get " + word(4),
        lambda: b"range " + word(2) + b" " + word(2) + r.choice(limits),
        lambda: b"range * * " + b"%d" % r.randint(0, 9),
        lambda: b"range " + b"k" * 25 + b" a x",
        lambda: b"put " + b"k" * r.choice([23, 24, 25]) + b" " + b"v" * r.choice([31, 32, 33]),
        lambda: b"get " + b"k" * r.choice([507, 508, 509, 600, 5000]),
        lambda: b"#" + word(4),
        lambda: b"",
        lambda: b" ".join(word(2) for _ in range(r.randint(1, 6))),
        lambda: b"batch " + b" ; ".join(item() for _ in range(r.randint(1, 4))),
        lambda: b"batch " + b" ".join(r.choice([b"put", b"remove", b";", b"a"]) for _ in range(r.choice([2, 3, 5, 80]))),
        lambda: b"batch put " + b"k" * r.choice([23, 24, 25]) + b" " + b"v" * r.choice([31, 32, 33]) + b" ; remove ;",
        lambda: b"batch " + many(),
    ]
    kinds += asked if "cursors" in words else []
    return [r.choice(kinds)() + r.choice([b"", b"", b"\r"]) + b"\n" for _ in range(count)] + [b"get a\r"]
