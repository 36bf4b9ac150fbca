"""The program's death, each status, replies cut off, signals, forks, threads: nothing hangs, and what is said is so."""
import contextlib
import io
import os
import signal
import socket
import subprocess
import sys
import threading
import time
import unittest
from unittest import mock

from common import PROGRAM, PYTHON, StoreCase, alarms_to, close_anyhow, interrupt, pma

OPENED = "printf 'oversized key 24\\noversized value 32\\n'\n"  # what an opening is answered


def sent_ahead(store, count):
    with store.pipeline() as ahead:
        for n in range(count):
            ahead.put(b"%d" % n, b"x")


def once_sent(store, count, do, *words):
    """Does this a moment after so many lines of the next requests were sent."""
    def wait():
        for _ in range(2000):
            if store._run._sent >= count:
                break
            time.sleep(0.01)
        time.sleep(0.05)
        do(*words)
    store._run._sent = 0
    thread = threading.Thread(target=wait)
    thread.start()
    return thread


class FaultTest(StoreCase):
    def pretend(self, script):
        """A store on a program of these shell lines, once it is opened."""
        open(self.file, "w").close()
        program = self.pretender(OPENED + script)
        store = pma.Store(program, os.fsencode(self.file), False)
        self.addCleanup(close_anyhow, store)
        return store

    def test_killed_while_idle(self):
        store = self.open()
        store[b"a"] = b"1"
        os.kill(store.pid, signal.SIGKILL)
        time.sleep(0.1)
        for _ in range(2):
            with self.assertRaises(pma.Ended) as caught:
                store[b"a"] = b"2"
            self.assertEqual(caught.exception.status, -signal.SIGKILL)
        store.close()
        self.assertEqual(dict(self.open("r")), {b"a": b"1"})

    def test_death_that_nobody_met_is_told_by_close(self):
        store = self.open()
        os.kill(store.pid, signal.SIGKILL)
        self.assertRaises(pma.Ended, store.close)
        store.close()

    def test_outcome_unknown(self):
        store = self.pretend("head -n 3 >/dev/null; printf 'sto'; exit 4")
        with self.assertRaises(pma.OutcomeUnknown) as caught:
            store[b"a"] = b"1"
        self.assertIsInstance(caught.exception.__cause__, pma.DiskFault)
        self.assertRaises(pma.DiskFault, store.get, b"a")
        store.close()

    def test_read_under_way(self):
        store = self.pretend("head -n 3 >/dev/null; printf 'found 1'; kill -9 $$")
        with self.assertRaises(pma.Ended) as caught:
            store.get(b"a")
        self.assertEqual(caught.exception.status, -signal.SIGKILL)

    def test_pipeline_cut_off(self):
        store = self.pretend("head -n 5 >/dev/null; printf 'stored\\nreplaced\\nst'; exit 4")
        with self.assertRaises(pma.OutcomeUnknown), store.pipeline() as ahead:
            answers = [ahead.put(b"%d" % n, b"") for n in range(5)]
        self.assertEqual([answer.result() for answer in answers[:2]], [True, False])
        self.assertRaises(pma.OutcomeUnknown, answers[2].result)
        for answer in answers[3:]:
            self.assertRaises(pma.DiskFault, answer.result)

    def test_stopped_and_killed_amid_a_request(self):
        for request, error in ((lambda store: store.update(a=b"2"), pma.OutcomeUnknown), (lambda store: store[b"a"], pma.Ended),
                               (list, pma.Ended), (lambda store: store.cursor(), pma.Ended), (len, pma.Ended)):
            store = self.open()
            store[b"a"] = b"1"
            os.kill(store.pid, signal.SIGSTOP)
            killer = once_sent(store, 1, os.kill, store.pid, signal.SIGKILL)
            with self.assertRaises(error) as caught:
                request(store)
            killer.join()
            self.assertEqual((caught.exception.__cause__ or caught.exception).status, -signal.SIGKILL)
            self.assertRaises(pma.Ended, store.get, b"a")
            store.close()
            with self.open("r") as store:
                self.assertIn(dict(store), ({b"a": b"1"}, {b"a": b"2"}))

    def test_stopped_for_a_while(self):
        with self.open() as store:
            os.kill(store.pid, signal.SIGSTOP)
            going = threading.Timer(0.2, os.kill, (store.pid, signal.SIGCONT))
            going.start()
            store[b"a"] = b"1"
            going.join()
            self.assertEqual(dict(store), {b"a": b"1"})

    def test_a_limit_on_what_a_stopped_program_takes(self):
        for request, error in ((lambda store: store.update(a=b"2"), pma.OutcomeUnknown), (lambda store: store[b"a"], pma.TimedOut),
                               (len, pma.TimedOut), (lambda store: store.close(), pma.TimedOut),
                               (lambda store: sent_ahead(store, 100000), pma.OutcomeUnknown)):
            with self.open(height=12) as store:
                store[b"a"] = b"1"
            store = self.open(height=12, timeout=1)
            os.kill(store.pid, signal.SIGSTOP)
            begun = time.monotonic()
            with self.assertRaises(error) as caught:
                request(store)
            self.assertLess(time.monotonic() - begun, 10)
            self.assertIsInstance(caught.exception.__cause__ or caught.exception, pma.TimedOut)
            with self.open() as other:  # the program is gone
                self.assertIn(other[b"a"], (b"1", b"2"))
            store.close()
        self.assertRaises(ValueError, self.open, timeout=0)
        with self.open(timeout=60) as store, store.pipeline() as ahead:
            for n in range(1000):
                ahead.put(b"%d" % n, b"")

    def test_reply_in_pieces(self):
        pieces = "for piece in sto red '\\n'; do printf $piece; sleep 0.05; done"
        with self.pretend(f"head -n 3 >/dev/null; {pieces}; cat >/dev/null") as store:
            store[b"a"] = b"1"

    def test_a_full_pipe(self):
        """100,000 requests are sent ahead to a program that reads none of them, and dies."""
        with self.open() as store:
            store[b"a"] = b"1"
        store = self.open("w")
        os.kill(store.pid, signal.SIGSTOP)
        pipeline = store.pipeline()
        answers = [pipeline.put(b"%d" % n, b"x") for n in range(100000)]
        killer = once_sent(store, 100, os.kill, store.pid, signal.SIGKILL)
        self.assertRaises(pma.OutcomeUnknown, pipeline.__exit__, None, None, None)
        killer.join()
        self.assertRaises(pma.OutcomeUnknown, answers[0].result)
        for answer in answers[1:]:
            self.assertIsInstance(answer._error, pma.Ended)
        store.close()
        self.assertIn(dict(self.open("r")), ({b"a": b"1"}, {b"a": b"1", b"0": b"x"}))

    def test_a_full_pipe_that_is_given_up(self):
        """The same, where the caller is interrupted: all that may have come to the program is unknown."""
        store = self.open()
        os.kill(store.pid, signal.SIGSTOP)
        pipeline = store.pipeline()
        answers = [pipeline.put(b"%d" % n, b"x") for n in range(100000)]
        with alarms_to(interrupt):
            killer = once_sent(store, 100, os.kill, os.getpid(), signal.SIGALRM)
            self.assertRaises(KeyboardInterrupt, pipeline.__exit__, None, None, None)
        kinds = [type(answer._error) for answer in answers]
        sent = kinds.count(pma.OutcomeUnknown)
        self.assertEqual(kinds, [pma.OutcomeUnknown] * sent + [pma.Ended] * (100000 - sent))
        self.assertTrue(100 <= sent < 100000, sent)
        killer.join()
        begun = time.monotonic()
        store.close()  # though the program is stopped
        self.assertLess(time.monotonic() - begun, 10)
        self.assertEqual(len(self.open("r")), 0)

    def test_interrupted_by_the_terminal(self):
        # What a shell starts with `&` begins with SIGINT ignored.
        script = ("import os, signal, sys; sys.path[:0] = sys.argv[1:2]; import pma\n"
                  "signal.signal(signal.SIGINT, signal.default_int_handler)\n"
                  "try:\n"
                  "    with pma.open(sys.argv[2], 'c', height=4, program=sys.argv[3]) as store:\n"
                  "        store[b'a'] = b'1'\n"
                  "        os.kill(store.pid, signal.SIGSTOP)\n"
                  "        print('here', flush=True)\n"
                  "        store[b'a'] = b'2'\n"
                  "except KeyboardInterrupt: pass\n"
                  "with pma.open(sys.argv[2], 'w', program=sys.argv[3]) as store: print(store[b'a'].decode())\n")
        words = [sys.executable, "-c", script, PYTHON, self.file, PROGRAM]
        with subprocess.Popen(words, stdout=subprocess.PIPE, start_new_session=True) as caller:
            self.assertEqual(caller.stdout.readline(), b"here\n")
            time.sleep(0.5)
            os.killpg(caller.pid, signal.SIGINT)  # as the terminal does
            said, _ = caller.communicate(timeout=20)
        self.assertEqual((said, caller.returncode), (b"1\n", 0))

    def test_output_that_is_closed(self):
        for word in ("", "head -n 3 >/dev/null; "):
            with mock.patch.object(pma.run, "GRACE", 0.2):
                store = self.pretend(word + "exec <&- >&-; sleep 60")
                begun = time.monotonic()
                with self.assertRaises(pma.Error):
                    store[b"a"] = b"1"
                self.assertLess(time.monotonic() - begun, 10)
                self.assertRaises(pma.Ended, store.get, b"a")
                store.close()

    def test_programs_that_are_none(self):
        open(self.file, "w").close()
        for script in ("yes", "yes refused x", "echo hello; sleep 60", "yes | tr -d '\\n'"):
            script = f"exec 2>/dev/null; {script}"
            begun = time.monotonic()
            self.assertRaises(pma.UnexpectedReply, pma.Store, self.pretender(script), os.fsencode(self.file), False)
            self.assertLess(time.monotonic() - begun, 10)
        self.assertRaises(pma.UnexpectedReply, self.open, "n", program=self.pretender("yes 2>/dev/null"))
        self.assertRaises(pma.Ended, self.pretend("cat >/dev/null; yes 2>/dev/null").close)
        self.assertRaises(pma.NoProgram, self.open, "n", program=os.path.join(self.folder, "none"))
        self.assertRaises(pma.NoProgram, self.open, "n", program=self.folder)
        self.assertRaises(pma.NoProgram, self.open, "n", program=self.file)  # no program

    def test_damage_amid_a_run(self):
        store = self.pretend("head -n 3 >/dev/null; printf 'record a\\nrefused slot 3 4\\n'; exit 3")
        with self.assertRaises(pma.Refused) as caught:
            next(iter(store))
        self.assertEqual(caught.exception.line, b"refused slot 3 4")

    def test_statuses_of_an_opening(self):
        for script, error in (("exit 7", pma.OutOfMemory), ("exit 4", pma.DiskFault), ("exit 8", pma.Ended), ("", pma.Ended),
                              ("echo refused length 0; exit 3", pma.Refused), ("kill -9 $$", pma.Ended),
                              ("echo hello", pma.UnexpectedReply), ("cat", pma.UnexpectedReply), ("yes 2>/dev/null", pma.UnexpectedReply)):
            open(self.file, "w").close()
            with self.assertRaises(error):
                pma.Store(self.pretender(script), os.fsencode(self.file), False)

    def test_replies_that_are_none(self):
        for reply in ("hello", "found", "stored 1", "batch x", "", "oversized", "full x", "x" * 5000):
            store = self.pretend(f"head -n 3 >/dev/null; printf '{reply}\\n'; cat >/dev/null")
            with self.assertRaises(pma.OutcomeUnknown) as caught:
                store[b"a"] = b"1"
            self.assertIsInstance(caught.exception.__cause__, pma.UnexpectedReply)
            self.assertRaises(pma.UnexpectedReply, store.get, b"a")
            store.close()

    def test_ranges_that_are_none(self):
        for reply in ("record", "record a b c", "record a\\nend 2", "end"):
            for ask in (lambda store: next(store.range()), lambda store: store.dump(io.BytesIO())):
                with self.pretend(f"head -n 3 >/dev/null; printf '{reply}\\n'; cat >/dev/null") as store:
                    self.assertRaises(pma.UnexpectedReply, ask, store)

    def test_steps_that_are_none(self):
        for reply in ("record", "record a b c", "end 0", "closed"):
            for ask in (lambda store: store.cursor().next(), lambda store: store.cursor().prev(),
                        lambda store: next(store.range(reverse=True))):
                with self.pretend(f"head -n 3 >/dev/null; printf 'opened\\n{reply}\\n'; cat >/dev/null") as store:
                    self.assertRaises(pma.UnexpectedReply, ask, store)

    def test_a_run_that_ends_amid_steps(self):
        with self.pretend("head -n 3 >/dev/null; printf 'opened\\nrecord b\\nrecord a\\nrec'; exit 4") as store:
            found = store.range(reverse=True)
            self.assertEqual([next(found), next(found)], [(b"b", b""), (b"a", b"")])
            self.assertRaises(pma.DiskFault, next, found)
            self.assertRaises(pma.DiskFault, store.cursor)

    def test_broken_pipe_where_the_signal_kills(self):
        script = ("import os, signal, sys, time; sys.path[:0] = sys.argv[1:2]; import pma\n"
                  "signal.signal(signal.SIGPIPE, signal.SIG_DFL)\n"
                  "store = pma.open(sys.argv[2], 'c', height=4, program=sys.argv[3])\n"
                  "os.kill(store.pid, 9); time.sleep(0.1)\n"
                  "try: store[b'a'] = b'1'\n"
                  "except pma.Ended: print('told')\n")
        words = [sys.executable, "-c", script, PYTHON, self.file, PROGRAM]
        self.assertEqual(subprocess.run(words, stdout=subprocess.PIPE, check=True).stdout, b"told\n")

    def test_signals_that_are_handled(self):
        count = []
        with alarms_to(lambda *_: count.append(1)):
            signal.setitimer(signal.ITIMER_REAL, 0.0005, 0.0005)
            with self.open() as store:
                for n in range(2000):
                    store[b"%d" % (n % 50)] = b"%d" % n
                self.assertEqual([store[b"%d" % n] for n in range(50)], [b"%d" % (1950 + n) for n in range(50)])
        self.assertTrue(count)

    def test_signal_that_raises_breaks_off(self):
        store = self.pretend("cat >/dev/null")
        with alarms_to(interrupt):
            signal.setitimer(signal.ITIMER_REAL, 0.05)
            pipeline = store.pipeline()
            answers = [pipeline.put(b"%d" % n, b"") for n in range(3)] + [pipeline.get(b"a")]
            self.assertRaises(KeyboardInterrupt, pipeline.__exit__, None, None, None)
        for answer in answers[:3]:  # the replies to some may have been on their way
            self.assertRaises(pma.OutcomeUnknown, answer.result)
        self.assertRaises(pma.Ended, answers[3].result)
        self.assertRaises(pma.Ended, store.get, b"a")
        store.close()

    def test_handler_that_asks_the_same_store(self):
        caught = []

        def ask(*_):
            try:
                store.get(b"a")
            except pma.Error as error:
                caught.append(str(error))
        store = self.pretend("head -n 3 >/dev/null; sleep 0.2; echo absent; cat >/dev/null")
        with alarms_to(ask):
            signal.setitimer(signal.ITIMER_REAL, 0.05)
            self.assertIsNone(store.get(b"b"))
        self.assertEqual(caught, ["another request of this thread is under way"])
        store.close()

    def test_fork(self):
        store = self.open()
        store[b"a"] = b"1"
        cursor = store.cursor()
        for request in (lambda: store.__setitem__(b"a", b"2"), lambda: store.get(b"a"), lambda: len(store), lambda: list(store),
                        lambda: store.merge({b"a": b"2"}), cursor.next, cursor.close, lambda: sent_ahead(store, 9)):
            child = os.fork()
            if child == 0:
                with contextlib.suppress(OSError):
                    os.write(store._run._socket.fileno(), b"remove a\n")  # it has no way to the program
                try:
                    request()
                except pma.Closed:
                    store.close()
                    os._exit(0)
                os._exit(1)
            self.assertEqual(os.waitpid(child, 0)[1], 0)
        self.assertEqual(cursor.next(), (b"a", b"1"))
        self.assertEqual(store[b"a"], b"1")
        lasting = os.fork()
        if lasting == 0:
            time.sleep(60)
            os._exit(0)
        try:
            begun = time.monotonic()
            store.close()  # the child doesn't keep the run
            self.assertLess(time.monotonic() - begun, 10)
            self.assertEqual(dict(self.open("r")), {b"a": b"1"})
        finally:
            os.kill(lasting, signal.SIGKILL)
            os.waitpid(lasting, 0)

    def test_a_parent_that_is_killed_lets_go(self):
        script = ("import os, sys, time; sys.path[:0] = sys.argv[1:2]; import pma\n"
                  "store = pma.open(sys.argv[2], 'c', height=4, program=sys.argv[3])\n"
                  "store[b'a'] = b'1'\n"
                  "if os.fork() == 0: os.close(1); time.sleep(30); os._exit(0)\n"
                  "os.kill(os.getpid(), 9)\n")
        words = [sys.executable, "-c", script, PYTHON, self.file, PROGRAM]
        self.assertEqual(subprocess.run(words).returncode, -signal.SIGKILL)
        for _ in range(100):
            try:
                store = self.open("w")
                break
            except pma.InUse:
                time.sleep(0.05)
        self.assertEqual(dict(store), {b"a": b"1"})

    def test_another_part_of_the_process_waits_for_all_children(self):
        store = self.open()
        store[b"a"] = b"1"
        os.kill(store.pid, signal.SIGKILL)
        os.waitpid(-1, 0)
        with self.assertRaises(pma.Ended) as caught:
            store[b"b"] = b"1"
        self.assertIsNone(caught.exception.status)
        other = subprocess.Popen(["true"])
        before = signal.signal(signal.SIGCHLD, signal.SIG_IGN)
        try:
            with self.open() as store:
                self.assertEqual(dict(store), {b"a": b"1"})
        finally:
            signal.signal(signal.SIGCHLD, before)
        other.wait()

    def test_threads(self):
        def work(part):
            for n in range(300):
                store[b"%d/%d" % (part, n)] = b"%d" % n
                wrong.extend([n] * (store[b"%d/%d" % (part, n)] != b"%d" % n))
        wrong = []
        with self.open() as store:
            threads = [threading.Thread(target=work, args=(part,)) for part in range(4)]
            for thread in threads:
                thread.start()
            for thread in threads:
                thread.join()
            self.assertEqual((wrong, len(store)), ([], 1200))

    def test_no_descriptor_and_no_child_is_left(self):
        before = len(os.listdir("/proc/self/fd"))
        for _ in range(3):
            with self.open() as store:
                store[b"a"] = b"1"
                self.assertRaises(pma.InUse, self.open)
            self.assertRaises(pma.NoProgram, self.open, program="no such program")
        self.assertEqual(len(os.listdir("/proc/self/fd")), before)
        self.assertRaises(ChildProcessError, os.waitpid, -1, os.WNOHANG)

    def test_time_limits_of_other_sockets(self):
        socket.setdefaulttimeout(0.01)
        try:
            with self.pretend("head -n 3 >/dev/null; sleep 0.1; echo stored; cat >/dev/null") as store:
                store[b"a"] = b"1"
        finally:
            socket.setdefaulttimeout(None)

    def test_starting_from_closed_streams(self):
        script = ("import os, sys; sys.path[:0] = sys.argv[1:2]; import pma\n"
                  "os.close(0); os.close(1); os.close(2)\n"
                  "with pma.open(sys.argv[2], 'c', height=4, program=sys.argv[3]) as store:\n"
                  "    store[b'a'] = b'1'\n"
                  "    for stream in range(3):\n"
                  "        try: os.write(stream, b'remove a\\n')\n"
                  "        except OSError: pass\n"
                  "with pma.open(sys.argv[2], 'r', program=sys.argv[3]) as store: sys.exit(dict(store) != {b'a': b'1'})\n")
        words = [sys.executable, "-c", script, PYTHON, self.file, PROGRAM]
        self.assertEqual(subprocess.run(words).returncode, 0)


if __name__ == "__main__":
    unittest.main()
