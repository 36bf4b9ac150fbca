"""Ranges, cursors, batches, requests sent ahead, dumps and loads, and what is refused."""
import io
import os
import random
import threading
import unittest

from common import PROGRAM, StoreCase, pma


class StoreTest(StoreCase):
    def test_all_bytes_come_back(self):
        with self.open() as store:
            for first in range(0, 256, 16):
                store[bytes(range(first, first + 16))] = bytes(range(255 - first, 239 - first, -1))
            for first in range(0, 256, 16):
                self.assertEqual(store[bytes(range(first, first + 16))], bytes(range(255 - first, 239 - first, -1)))

    def test_range(self):
        with self.open(height=8) as store, store.pipeline() as ahead:
            for n in range(2500):
                ahead.put(b"%04d" % n, b"%d" % n)
        with self.open("r") as store:
            everything = [(b"%04d" % n, b"%d" % n) for n in range(2500)]
            self.assertEqual(list(store.range()), everything)
            self.assertEqual(list(store.range(b"0100", b"2400")), everything[100:2400])
            self.assertEqual(list(store.range("0100", limit=1500)), everything[100:1600])
            self.assertEqual(list(store.range(high=b"0003")), everything[:3])
            for empty in (store.range(b"1", b"0"), store.range(limit=0), store.range(high=b""), store.range(b"*", b"*")):
                self.assertEqual(list(empty), [])
            self.assertRaises(ValueError, store.range, limit=-1)
            self.assertEqual(len(store), 2500)

    def test_range_goes_on_behind_the_longest_keys(self):
        keys = [b"\xff" * 23 + bytes([last]) for last in (0, 1, 254, 255)] + [b"a" + b"\xff" * 23, b"b"]
        with self.open() as store:
            store.update({key: b"" for key in keys})
            for key in keys:
                above = store._above(key)
                found = [] if above is None else list(store.range(above))
                self.assertEqual(found, [(k, b"") for k in sorted(keys) if k > key])

    def test_cursor_lives_through_changes(self):
        with self.open() as store:
            store.update({b"a": b"1", b"b": b"2", b"c": b"3"})
            with store.cursor() as cursor:
                self.assertEqual(cursor.next(), (b"a", b"1"))
                store[b"aa"] = b"9"
                del store[b"b"]
                self.assertEqual(list(cursor), [(b"aa", b"9"), (b"c", b"3")])
                self.assertIsNone(cursor.next())
            self.assertEqual([list(store.cursor(b"b", high)) for high in (b"d", b"")], [[(b"c", b"3")], []])
            cursors = [store.cursor() for _ in range(16)]
            self.assertRaises(pma.TooManyCursors, store.cursor)
            cursors[3].close()
            self.assertEqual(next(store.cursor()), (b"a", b"1"))

    def test_cursor_goes_both_ways(self):
        with self.open() as store:
            store.update({key: b"" for key in (b"a", b"b", b"c", b"d")})
            with store.cursor() as cursor:
                steps = [cursor.prev, cursor.prev, cursor.next, cursor.prev]
                self.assertEqual([step()[0] for step in steps], [b"d", b"c", b"d", b"c"])
                del store[b"b"]
                self.assertEqual(cursor.prev(), (b"a", b""))
                self.assertIsNone(cursor.prev())
                self.assertIsNone(cursor.next())

    def test_range_from_its_end_on(self):
        with self.open() as store:
            keys = [b"%04d" % n for n in range(350)]
            store.update({key: b"" for key in keys})
            for low, high, limit in ((None, None, None), (b"0010", b"0310", None), (b"0010", None, 100), (None, b"0200", 250),
                                     (None, b"", 3), (None, None, 0)):
                found = [key for key, _ in store.range(low, high, limit, reverse=True)]
                within = [key for key in keys if (low is None or low <= key) and (high is None or key < high)]
                self.assertEqual(found, within[::-1][:limit])
            for _ in range(17):  # one that is broken off leaves no cursor open
                self.assertEqual(next(store.range(reverse=True)), (b"0349", b""))
            cursors = [store.cursor() for _ in range(16)]
            self.assertRaises(pma.TooManyCursors, next, store.range(reverse=True))
            cursors[3].close()
            self.assertEqual(next(store.range(high=b"0200", reverse=True)), (b"0199", b""))

    def test_batch(self):
        with self.open() as store:
            store[b"old"] = b"x"
            with store.batch() as batch:
                batch.put(b"a;", b"1")
                batch.put(b";", b"")
                batch.remove(b"old")
                batch.remove(b"gone")
            self.assertEqual(batch.changes, pma.Changes(stored=2, replaced=0, removed=1, absent=1))
            self.assertEqual(dict(store), {b"a;": b"1", b";": b""})
            with store.batch():
                pass

    def test_batch_is_refused_before_it_is_sent(self):
        with self.open() as store:
            with self.assertRaises(pma.BadBatch), store.batch() as batch:
                for n in range(17):
                    batch.put(b"%d" % n, b"")
            with self.assertRaises(pma.BadBatch), store.batch() as batch:
                batch.put(b"a", b"")
                batch.remove(b"a")
            with self.assertRaises(pma.Oversized) as caught, store.batch() as batch:
                for n in range(16):
                    batch.put(b"%024d" % n, b"v" * 32)
            self.assertEqual(caught.exception.limit, 512)
            with self.assertRaises(ZeroDivisionError), store.batch() as batch:
                batch.put(b"a", b"")
                1 / 0
            self.assertEqual(len(store), 0)

    def test_pipeline(self):
        with self.open(height=12) as store:
            with store.pipeline() as ahead:
                new = [ahead.put(b"%d" % n, b"%d" % (n * n)) for n in range(50000)]  # more than the system keeps on its way
                found = [ahead.get(b"%d" % n) for n in range(50001)]
                with self.assertRaisesRegex(pma.Error, "wasn't sent"):
                    new[0].result()
            self.assertTrue(all(answer.result() for answer in new))
            self.assertEqual([answer.result() for answer in found], [b"%d" % (n * n) for n in range(50000)] + [None])
            self.assertEqual(len(store), 50000)
            with store.pipeline() as ahead:
                gone = [ahead.remove(b"%d" % n) for n in range(49990, 50010)]
            self.assertEqual([answer.result() for answer in gone], [True] * 10 + [False] * 10)
            self.assertEqual(len(store), 49990)
            with self.assertRaises(ZeroDivisionError), store.pipeline() as ahead:
                ahead.put(b"0", b"changed")
                1 / 0
            self.assertEqual(store[b"0"], b"0")

    def test_full(self):
        with self.open(height=0) as store:
            with self.assertRaises(pma.Full) as caught, store.pipeline() as ahead:
                answers = [ahead.put(b"%d" % n, b"") for n in range(66)]
            self.assertEqual(caught.exception.records, 64)
            self.assertTrue(all(answer.result() for answer in answers[:64]))
            self.assertRaises(pma.Full, answers[65].result)
            with self.assertRaises(pma.Full), store.batch() as batch:
                batch.put(b"one more", b"")
            self.assertEqual(len(store), 64)
            store.clear()
            self.assertEqual((len(store), list(store)), (0, []))

    def test_sizes(self):
        with self.open() as store:
            self.assertEqual((store.key_limit, store.value_limit), (24, 32))
            with self.assertRaises(pma.Oversized) as caught:
                store[b"k" * 25] = b""
            self.assertEqual((caught.exception.what, caught.exception.limit), ("key", 24))
            self.assertRaises(pma.Oversized, store.__setitem__, b"k", b"v" * 33)
            self.assertRaises(pma.Oversized, store.get, b"k" * 25)
            self.assertRaises(pma.Oversized, store.range, b"k" * 25)
            self.assertRaises(ValueError, store.get, b"")
            self.assertRaises(TypeError, store.get, 5)
        pma.making.command(PROGRAM, [b"upgrade", os.fsencode(self.file)])
        with self.open() as store:
            self.assertEqual((store.key_limit, store.value_limit), (40, 80))
            store[b"k" * 40] = b"\xff" * 80
            self.assertEqual(list(store.items()), [(b"k" * 40, b"\xff" * 80)])

    def test_count_is_that_of_a_check(self):
        r = random.Random(7)
        with self.open() as store:
            for n in range(300):
                key = b"%d" % r.randrange(40)
                if r.random() < 0.3:
                    store.pop(key, None)
                elif r.random() < 0.5:
                    store[key] = b"%d" % n
                else:
                    with store.batch() as batch:
                        batch.put(key, b"")
                        batch.remove(b"1" + key)
                if n % 10 == 0:
                    self.assertEqual(len(store), len(list(store)))
            counted = len(store)
            self.assertEqual(store.check().records, counted)

    def test_dump_and_load(self):
        with self.open() as store:
            store.update({b"a b": b"100%", b"c": b""})
            text = io.BytesIO()
            self.assertEqual(store.dump(text), 2)
            self.assertEqual(text.getvalue(), b"record a%20b 100%25\nrecord c\nend 2\n")
            text.seek(0)
            with self.assertRaises(pma.Refused) as caught:
                store.load(text)
            self.assertEqual(caught.exception.line, b"refused not-empty 2")
            self.assertEqual(len(store), 2)
        with self.open("n") as store:
            with self.assertRaises(pma.Refused):
                store.load([b"record b\n", b"record a\n", b"end 2\n"])
            self.assertEqual(len(store), 0)
            with self.assertRaises(ZeroDivisionError):
                store.load(b"record %d\n" % (1 // n) for n in (1, 0))
            self.assertEqual(len(store), 0)
            text.seek(0)
            store.load(text)
            self.assertEqual(dict(store), {b"a b": b"100%", b"c": b""})

    def test_dump_to_what_fails(self):
        class Broken(io.BytesIO):
            def write(self, line):
                raise ZeroDivisionError
        with self.open() as store:
            store.update({b"a": b"", b"b": b""})
            self.assertRaises(ZeroDivisionError, store.dump, Broken())
            self.assertEqual(list(store), [b"a", b"b"])

    def test_flags_and_files_in_use(self):
        with self.open("n") as store:
            store[b"a"] = b"1"
            for flag in "rwcn":
                self.assertRaises(pma.InUse, self.open, flag)
            self.assertEqual(store[b"a"], b"1")
        with self.open("c") as store:
            self.assertEqual(dict(store), {b"a": b"1"})
        os.truncate(self.file, 0)
        with self.open("c") as store:  # an empty file is a store that isn't made yet
            self.assertEqual(len(store), 0)
        with open(self.file, "wb") as file:
            file.write(b"x" * 5000)
        with self.assertRaises(pma.Refused) as caught:
            self.open("c")
        self.assertEqual(caught.exception.line, b"refused identity 3072")
        self.open("n").close()
        self.assertEqual(os.listdir(self.folder), ["store.pma"])

    def test_made_by_many_at_once(self):
        def make(number):
            while True:
                try:
                    with pma.open(self.file, "c", height=4, program=PROGRAM) as store:
                        store[b"%d" % number] = b""
                    return
                except pma.InUse:
                    pass
        threads = [threading.Thread(target=make, args=(number,)) for number in range(8)]
        for thread in threads:
            thread.start()
        for thread in threads:
            thread.join()
        self.assertEqual(list(self.open("r")), [b"%d" % number for number in range(8)])
        self.assertEqual(os.listdir(self.folder), ["store.pma"])

    def test_symbolic_links_stay(self):
        link = os.path.join(self.folder, "link")
        os.symlink("store.pma", link)
        self.open("c", link).close()
        self.open("n", link).close()
        self.assertTrue(os.path.islink(link))
        self.open("r").close()

    def test_what_can_be_opened_nowhere(self):
        self.assertRaises(IsADirectoryError, self.open, "r", self.folder)
        self.assertRaises(IsADirectoryError, self.open, "n", self.folder)
        self.assertRaises(pma.NoProgram, self.open, "c", program="no such program")
        for height, journal in ((17, None), (-1, None), (4, 17), (4, 3)):
            self.assertRaises(ValueError, self.open, "n", height=height, journal=journal)
        self.assertRaises(pma.DiskFault, self.open, "c", os.path.join(self.folder, "missing", "store"))
        self.assertEqual(os.listdir(self.folder), [])

    def test_which_store_is_made(self):
        for more, version in (({}, 4), ({"paired": True}, 4), ({"paired": False}, 2)):
            with self.open("n", **more) as store:
                store[b"k"] = b"v"
            with open(self.file, "rb") as file:
                self.assertEqual(file.read()[3080], version)
            with self.open("c", paired=not more.get("paired", True)) as store:  # what is there is opened as it is
                self.assertEqual(store[b"k"], b"v")


if __name__ == "__main__":
    unittest.main()
