"""Loads and merges: what they take and answer, why they are refused, and what stops them."""
import contextlib
import io
import os
import random
import signal
import threading
import time
import unittest
from unittest import mock

from common import PROGRAM, PathLike, StoreCase, alarms_to, close_anyhow, interrupt, pma

SEED, KILLS = 7, 18
LINES = [b"record a 9\n", b"remove b\n", b"record c\n", b"remove d\n", b"end 4\n"]
MERGED = {b"a": b"9", b"c": b""}
CHANGES = pma.Changes(stored=1, replaced=1, removed=1, absent=1)
# Has the file "$2" for two seconds, from behind this line on.
HOLD = (f'({{ echo check; sleep 2; }} | "{PROGRAM}" run "$2" >"$2.held") </dev/null >/dev/null & '
        'until [ -s "$2.held" ]; do sleep 0.05; done')


class Pieces:
    """A file that gives a text in pieces of 5 bytes."""

    def __init__(self, text):
        self._text = io.BytesIO(text)

    def read(self, _):
        return self._text.read(5)


class BulkTest(StoreCase):
    def pretend(self, script, timeout=None):
        """A store on the program, in whose place these shell lines stand for all words but `run`."""
        self.open("c").close()
        program = self.pretender(f'[ "$1" = run ] && exec "{PROGRAM}" "$@"\n{script}')
        store = pma.Store(program, os.fsencode(self.file), False, timeout)
        self.addCleanup(close_anyhow, store)
        return store

    def open_once_free(self):
        for _ in range(200):
            try:
                return self.open("w")
            except pma.InUse:
                time.sleep(0.05)
        return self.open("w")

    def test_what_a_merge_takes(self):
        text, path = b"".join(LINES), os.path.join(self.folder, "text")
        with open(path, "wb") as file:
            file.write(text)
        pairs = [(b"a", b"9"), (b"b", None), ("c", ""), ("d", None)]
        for updates in (text, bytearray(text), LINES, iter(LINES), io.BytesIO(text), Pieces(text), [text[:20], text[20:]], path,
                        PathLike(path), pairs, iter(pairs), [list(pair) for pair in pairs], dict(pairs[::-1])):
            with self.open("n") as store:
                store.update({b"a": b"1", b"b": b"2"})
                self.assertEqual(store.merge(updates), CHANGES)
                self.assertEqual(dict(store), MERGED)
                self.assertEqual(len(store), 2)
                store[b"x"] = b"y"
                self.assertEqual((len(store), store[b"x"]), (3, b"y"))
        with open(path, "rb") as file, self.open("n") as store:
            self.assertEqual(store.merge(file), pma.Changes(2, 0, 0, 2))
            for nothing in ({}, [], iter(()), b"# a note\n\nend 0"):
                self.assertEqual(store.merge(nothing), pma.Changes(0, 0, 0, 0))
            self.assertEqual(dict(store), MERGED)

    def test_what_a_load_takes(self):
        text, path = b"record a 9\nrecord c\nend 2\n", os.path.join(self.folder, "text")
        with open(path, "wb") as file:
            file.write(text)
        for source in (text, io.BytesIO(text), Pieces(text), text.splitlines(True), path, PathLike(path)):
            with self.open("n") as store:
                store.load(source)
                self.assertEqual(dict(store), MERGED)

    def test_all_bytes_come_back(self):
        rows = {bytes(range(first, first + 16)): bytes(range(255 - first, 239 - first, -1)) for first in range(0, 256, 16)}
        with self.open() as store:
            self.assertEqual(store.merge(rows).stored, 16)
            self.assertEqual(dict(store), rows)
            self.assertEqual(store.merge((key, None) for key in sorted(rows)).removed, 16)
            self.assertEqual(len(store), 0)

    def test_a_dump_is_a_merge_text(self):
        with self.open(height=8) as store, self.open("n", self.file + "2", height=8) as other:
            store.merge({b"%04d" % n: b"%d" % n for n in range(0, 3000, 2)})
            other.merge({b"%04d" % n: b"%d" % n for n in range(0, 3000, 3)})
            text = io.BytesIO()
            store.dump(text)
            text.seek(0)
            self.assertEqual(other.merge(text), pma.Changes(stored=1000, replaced=500, removed=0, absent=0))
            self.assertEqual(store.merge(other), pma.Changes(stored=500, replaced=1500, removed=0, absent=0))
            self.assertEqual(list(store.items()), [(b"%04d" % n, b"%d" % n) for n in range(3000) if n % 2 == 0 or n % 3 == 0])
            self.assertEqual(store.check().records, 2000)

    def test_what_is_refused_changes_nothing(self):
        with self.open() as store:
            store[b"m"] = b"1"
            for updates, line in (
                    ([b"record b\n", b"record a\n", b"end 2\n"], 2), ([b"record a\n"], 2), (b"record a\nend 2\n", 2), (b"", 1),
                    (b"record " + b"k" * 600, 1), (b"put a\nend 1\n", 1), (io.BytesIO(), 1), ([(b"b", b""), (b"a", b"")], 2),
                    ([(b"a", b""), (b"a", None)], 2), (b"end 0\nrecord a\n" * 100000, 2)):
                with self.assertRaises(pma.Refused) as caught:
                    store.merge(updates)
                self.assertEqual((caught.exception.line, caught.exception.status), (b"refused line %d" % line, 3))
            for updates, error in (
                    ([(b"a", b"1"), (b"k" * 25, b"")], pma.Oversized), ({b"a": b"1", b"k": b"v" * 33}, pma.Oversized),
                    ([(b"a", b"1"), (b"", b"")], ValueError), ([(b"a", b"1"), 5], TypeError), (["ab"], TypeError), (7, TypeError),
                    ([b"record a\n", "end 1\n"], TypeError), (io.StringIO("record a\nend 1\n"), TypeError),
                    ([(b"a", 1)], TypeError), (self.file + ".missing", FileNotFoundError), ((b"record %d\n" % (1 // n) for n in (1, 0)), ZeroDivisionError),
                    (((b"%d" % (1 // n), b"") for n in (1, 0)), ZeroDivisionError)):
                with self.assertRaises(error):
                    store.merge(updates)
            self.assertEqual(dict(store), {b"m": b"1"})
        with self.open("r") as store:
            self.assertRaises(pma.ReadOnly, store.merge, {b"a": b""})
        store = self.open()
        store.close()
        self.assertRaises(pma.Closed, store.merge, {b"a": b""})

    def test_an_error_behind_the_end_of_the_text(self):
        """Nothing is made before the program has read to the end, though it has all lines that count."""
        def text(lines, error):
            yield from lines
            yield from [b"#" * 500 + b"\n"] * 1000
            time.sleep(0.2)
            raise error  # as where it comes from a socket
        loaded = [b"record a\n", b"end 1\n"]
        with self.open() as store:
            for error in ConnectionResetError, BlockingIOError, KeyboardInterrupt, pma.Error:
                self.assertRaises(error, store.merge, text(LINES, error))
                self.assertRaises(error, store.load, text(loaded, error))
                self.assertEqual(len(store), 0)
            store.merge([*LINES, *[b"#" * 500 + b"\n"] * 1000])
            self.assertEqual(dict(store), MERGED)

    def test_full(self):
        with self.open(height=0) as store:
            self.assertEqual(store.merge({b"%02d" % n: b"" for n in range(64)}).stored, 64)
            for updates in ({b"x": b""}, {b"%02d" % n: b"1" for n in range(65)}):
                with self.assertRaises(pma.Full) as caught:
                    store.merge(updates)
                self.assertEqual(caught.exception.records, 64)
            self.assertEqual(store.merge({b"00": None, b"x": b"", b"y": None}), pma.Changes(1, 0, 1, 1))
            self.assertEqual((len(store), store[b"01"]), (64, b""))
        with self.open("n", height=0) as store:
            self.assertRaises(pma.Full, store.load, [b"record %02d\n" % n for n in range(65)] + [b"end 65\n"])
            self.assertEqual(len(store), 0)

    def test_cursors_and_pages_end(self):
        with self.open() as store:
            store.update({b"a": b"1", b"b": b"2"})
            cursor, found = store.cursor(), store.range()
            self.assertEqual((next(cursor), next(found)), ((b"a", b"1"),) * 2)
            store.merge({b"c": b"3"})
            self.assertRaises(pma.Closed, cursor.next)
            self.assertEqual(list(found), [(b"b", b"2")])  # of a page that was read before
            self.assertEqual(next(store.cursor()), (b"a", b"1"))

    def test_a_text_that_asks_its_store(self):
        with self.open() as store:
            store.update({b"a": b"1", b"b": b"2"})
            with self.assertRaisesRegex(pma.Error, "under way"):
                store.merge((key, store[key]) for key in (b"a", b"b"))
            self.assertEqual(store.merge({key: b"3" for key in store}).replaced, 2)
            self.assertEqual(dict(store), {b"a": b"3", b"b": b"3"})

    def test_threads_wait_for_a_merge(self):
        def ask():
            while not done.is_set():
                found.append(store[b"0000"])
                begun.set()
        begun, done, found = threading.Event(), threading.Event(), []
        with self.open(height=8) as store:
            store[b"0000"] = b"0"
            threads = [threading.Thread(target=ask) for _ in range(3)]
            for thread in threads:
                thread.start()
            begun.wait()
            try:
                for turn in range(1, 6):
                    store.merge({b"%04d" % n: b"%d" % turn for n in range(2000)})
            finally:
                done.set()
                for thread in threads:
                    thread.join()
        self.assertEqual(found, sorted(found))
        self.assertLessEqual({b"0"}, set(found))

    def test_kills(self):
        """Behind each kill of a merge the store has all of its updates, or none."""
        r, told, processes = random.Random(SEED), [], []

        def started(*words, start=pma.making.started):
            processes.append(start(*words))
            return processes[-1]

        def killed_amid(updates, places):
            """The updates; the program is killed a moment after so many of them, if not before."""
            for place, pair in enumerate([*sorted(updates.items()), (b"x", b"")]):
                if place == places:
                    killer = threading.Timer(r.uniform(0, 0.005), kill_anyhow, (processes[-1].pid,))
                    killer.start()
                    self.addCleanup(killer.join)
                yield pair

        for turn in range(KILLS):
            with self.open(height=8) as store, mock.patch.object(pma.making, "started", started):
                held, updates = dict(store), {b"%04d" % n: b"%d" % r.randrange(10**6) for n in r.sample(range(5000), 3000)}
                after = {**held, **updates, b"x": b""}
                try:
                    store.merge(killed_amid(updates, 3000 if turn % 3 else r.randrange(3000)))
                    due = [after]
                except pma.OutcomeUnknown as error:
                    self.assertEqual(error.__cause__.status, -signal.SIGKILL)
                    due = [held, after]
                except pma.Ended as error:
                    self.assertEqual(error.status, -signal.SIGKILL)
                    due = [held]
                found = dict(store)
                self.assertIn(found, due)
                self.assertEqual(store.check().records, len(found))
                told.append(("done" if found == after else "not done") if len(due) == 1 else "new" if found == after else "old")
                store.merge({**updates, b"x": b""})  # again
                self.assertEqual(dict(store), after)
                store.merge({key: None for key in r.sample(sorted(after), 1000)})
        print(f"test_bulk, merges that are killed: told as done or not, or unknown and found old or new: {', '.join(told)}")

    def test_statuses(self):
        unread = (("exit 4", pma.DiskFault), ("kill -9 $$", pma.Ended), ("exit 2", pma.Ended),
                  ("yes 2>/dev/null", pma.UnexpectedReply), ("echo refused slot 3 4; exit 3", pma.Refused),
                  ("exec <&- >&-; sleep 60", pma.Ended))
        read = (("exit 4", pma.OutcomeUnknown), ("kill -9 $$", pma.OutcomeUnknown), ("exit 7", pma.OutOfMemory),
                ("exit 8", pma.Ended), ("exit 6", pma.OutcomeUnknown), ("printf 'merged stored=1'; exit 4", pma.OutcomeUnknown),
                ("echo merged", pma.OutcomeUnknown), ("", pma.OutcomeUnknown), ("yes 2>/dev/null", pma.OutcomeUnknown))
        for script, error in (*unread, *(("cat >/dev/null; " + script, error) for script, error in read)):
            store = self.pretend(script)
            updates = ((b"%06d" % n, b"") for n in range(50000 if error is pma.UnexpectedReply else 1))
            begun = time.monotonic()
            with self.assertRaises(error), mock.patch.object(pma.run, "GRACE", 0.2):
                store.merge(updates)
            self.assertLess(time.monotonic() - begun, 10)
            self.assertEqual(len(store), 0)  # the store is open again
            store.close()

    def test_what_was_answered_is_done_whatever_comes_behind(self):
        for script in ("exit 4", "kill -9 $$", "exec <&- >&-; sleep 60"):
            store = self.pretend(f"cat >/dev/null; echo merged stored=1 replaced=2 removed=3 absent=4; {script}")
            with mock.patch.object(pma.run, "GRACE", 0.2):
                self.assertEqual(store.merge({b"a": b""}), pma.Changes(1, 2, 3, 4))
            store.close()

    def test_a_merge_of_a_store_that_is_in_use_by_then(self):
        store = self.pretend(f'{HOLD}; exec "{PROGRAM}" "$@"')
        self.assertRaises(pma.InUse, store.merge, {b"a": b"1"})
        self.assertRaises(pma.InUse, len, store)
        self.assertRaises(pma.InUse, store.__setitem__, b"a", b"1")
        store.close()
        self.assertEqual(len(self.open_once_free()), 0)

    def test_a_store_that_is_taken_behind_a_merge(self):
        store = self.pretend(f'"{PROGRAM}" "$@"; {HOLD}')
        self.assertEqual(store.merge({b"a": b"1"}), pma.Changes(1, 0, 0, 0))  # it is made
        self.assertRaises(pma.InUse, store.get, b"a")
        store.close()
        store.close()
        self.assertEqual(dict(self.open_once_free()), {b"a": b"1"})

    def test_a_program_that_is_gone(self):
        store = self.pretend("exit 9")
        os.unlink(store._program)
        for _ in range(2):
            self.assertRaises(pma.NoProgram, store.merge, {b"a": b"1"})
        self.assertRaises(pma.NoProgram, store.get, b"a")
        store.close()
        self.assertEqual(len(self.open()), 0)

    def test_an_older_program(self):
        store = self.pretend('[ "$1" = merge ] && exit 2')
        with self.assertRaisesRegex(pma.Ended, "older"):
            store.merge({b"a": b"1"})
        self.assertEqual(len(store), 0)

    def test_a_merge_that_is_interrupted(self):
        store = self.pretend("sleep 60")
        with alarms_to(interrupt):
            for updates in ({b"a": b""}, {b"%06d" % n: b"" for n in range(50000)}):
                signal.setitimer(signal.ITIMER_REAL, 0.2)
                begun = time.monotonic()
                self.assertRaises(KeyboardInterrupt, store.merge, updates)
                self.assertLess(time.monotonic() - begun, 10)
                self.assertEqual(len(store), 0)

    def test_timeout(self):
        for script, rows, error in (("sleep 60", 50000, pma.TimedOut), ("cat >/dev/null; sleep 60", 1, pma.OutcomeUnknown)):
            store = self.pretend(script, 1)
            with self.assertRaises(error):
                store.merge((b"%06d" % n, b"") for n in range(rows))
            self.assertEqual(len(store), 0)
            store.close()

    def test_no_descriptor_and_no_child_is_left(self):
        with self.open() as store:
            before = len(os.listdir("/proc/self/fd"))
            store.merge({b"a": b"1"})
            self.assertRaises(pma.Refused, store.merge, b"record a\n")
            self.assertRaises(TypeError, store.merge, [5])
            self.assertEqual(len(os.listdir("/proc/self/fd")), before)
        self.assertRaises(ChildProcessError, os.waitpid, -1, os.WNOHANG)


def kill_anyhow(number):
    with contextlib.suppress(ProcessLookupError):
        os.kill(number, signal.SIGKILL)


if __name__ == "__main__":
    unittest.main()
