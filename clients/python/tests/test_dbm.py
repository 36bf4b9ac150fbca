"""The cases of CPython's `test_dbm_dumb` that speak of the interface, by their names there. Those of its own files are left out,
and that of files which can't be written: the program opens a store for writing even if the caller only reads."""
import operator
import os
import random
import unittest
from functools import partial

from common import PathLike, StoreCase, pma


class DbmTest(StoreCase):
    _dict = {
        b"0": b"",
        b"a": b"Python:",
        b"b": b"Programming",
        b"c": b"the",
        b"d": b"way",
        b"f": b"Guido",
        b"g": b"intended",
        "\u00fc".encode(): b"!",
    }

    def init_db(self):
        with self.open("n") as f:
            for k in self._dict:
                f[k] = self._dict[k]

    def keys_helper(self, f):
        keys = list(f.keys())
        self.assertEqual(keys, sorted(self._dict))
        return keys

    def read_helper(self, f):
        self.keys_helper(f)
        for key in self._dict:
            self.assertEqual(self._dict[key], f[key])

    def test_dumbdbm_creation(self):
        with self.open("c") as f:
            self.assertEqual(list(f.keys()), [])
            for key in self._dict:
                f[key] = self._dict[key]
            self.read_helper(f)

    def test_dumbdbm_creation_mode(self):
        before = os.umask(0o027)
        try:
            self.open("c").close()
        finally:
            os.umask(before)
        self.assertEqual(os.stat(self.file).st_mode & 0o777, 0o640)

    def test_close_twice(self):
        f = self.open("c")
        f[b"a"] = b"b"
        self.assertEqual(f[b"a"], b"b")
        f.close()
        f.close()

    def test_dumbdbm_modification(self):
        self.init_db()
        with self.open("w") as f:
            self._dict = dict(self._dict)
            self._dict[b"g"] = f[b"g"] = b"indented"
            self.read_helper(f)
            self.assertEqual(f.setdefault(b"xxx", b"foo"), b"foo")
            self.assertEqual(f[b"xxx"], b"foo")

    def test_dumbdbm_read(self):
        self.init_db()
        with self.open("r") as f:
            self.read_helper(f)
            with self.assertRaisesRegex(pma.ReadOnly, "opened for reading"):
                f[b"g"] = b"x"
            with self.assertRaisesRegex(pma.ReadOnly, "opened for reading"):
                del f[b"a"]
            self.assertEqual(f.get(b"a"), self._dict[b"a"])
            self.assertEqual(f.get(b"xxx", b"foo"), b"foo")
            self.assertIsNone(f.get(b"xxx"))
            with self.assertRaises(KeyError):
                f[b"xxx"]

    def test_dumbdbm_keys(self):
        self.init_db()
        with self.open("r") as f:
            self.keys_helper(f)

    def test_write_contains(self):
        with self.open("c") as f:
            f[b"1"] = b"hello"
            self.assertIn(b"1", f)

    def test_write_write_read(self):
        with self.open("c") as f:
            f[b"1"] = b"hello"
            f[b"1"] = b"hello2"
        with self.open("r") as f:
            self.assertEqual(f[b"1"], b"hello2")

    def test_str_read(self):
        self.init_db()
        with self.open("r") as f:
            self.assertEqual(f["\u00fc"], self._dict["\u00fc".encode()])

    def test_str_write_contains(self):
        self.init_db()
        with self.open("w") as f:
            f["\u00fc"] = b"!"
            f["1"] = "a"
        with self.open("r") as f:
            self.assertIn("\u00fc", f)
            self.assertEqual(f["\u00fc".encode()], self._dict["\u00fc".encode()])
            self.assertEqual(f[b"1"], b"a")

    def test_random(self):
        r, d = random.Random(7), {}
        for _ in range(5):
            with self.open("c") as f:
                for _ in range(100):
                    k = r.choice("abcdefghijklm")
                    if r.random() < 0.2:
                        if k in d:
                            del d[k]
                            del f[k]
                    else:
                        d[k] = f[k] = r.choice((b"a", b"b", b"c")) * r.randrange(33)
                        self.assertEqual(f[k], d[k])
            with self.open("r") as f:
                self.assertEqual(sorted((k.encode(), v) for k, v in d.items()), list(f.items()))

    def test_context_manager(self):
        with self.open("c") as db:
            db["a context manager"] = "context manager"
        with self.open("r") as db:
            self.assertEqual(list(db.keys()), [b"a context manager"])
        with self.assertRaises(pma.Closed):
            list(db.keys())

    def test_check_closed(self):
        f = self.open("c")
        f.close()
        for method in (partial(operator.delitem, f), partial(operator.setitem, f, "b"), partial(operator.getitem, f),
                       partial(operator.contains, f)):
            with self.assertRaisesRegex(pma.Closed, "the store is closed"):
                method("test")
        for method in (lambda: list(f.keys()), lambda: list(f.items()), lambda: len(f), lambda: f.check(), lambda: f.cursor(),
                       lambda: f.load([])):
            with self.assertRaisesRegex(pma.Closed, "the store is closed"):
                method()

    def test_create_new(self):
        self.init_db()
        with self.open("n") as f:
            self.assertEqual(list(f.keys()), [])

    def test_missing_data(self):
        for flag in ("r", "w"):
            with self.assertRaises(FileNotFoundError):
                self.open(flag)
        self.assertEqual(os.listdir(self.folder), [])

    def test_invalid_flag(self):
        for flag in ("x", "rf", None):
            with self.assertRaisesRegex(ValueError, "flag must be one of 'r', 'w', 'c', or 'n'"):
                self.open(flag)

    def test_nonascii_filename(self):
        file = os.path.join(self.folder, "\u00e6\u00f8-st\u00f8re")
        with self.open("c", file) as db:
            db[b"key"] = b"value"
        with self.open("r", file) as db:
            self.assertEqual(list(db.keys()), [b"key"])
            self.assertEqual(db[b"key"], b"value")

    def test_open_with_pathlib_path(self):
        self.open("c", PathLike(self.file)).close()

    def test_open_with_bytes_path(self):
        self.open("c", os.fsencode(self.file)).close()

    def test_open_with_pathlib_bytes_path(self):
        self.open("c", PathLike(os.fsencode(self.file))).close()


if __name__ == "__main__":
    unittest.main()
