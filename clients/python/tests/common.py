"""What the tests share: the program of the environment's PMA, and a folder of each test's own."""
import contextlib
import faulthandler
import os
import signal
import stat
import sys
import tempfile
import unittest

PYTHON = os.path.dirname(os.path.dirname(os.path.abspath(__file__)))  # where the package is
sys.path.insert(0, PYTHON)

import pma  # noqa: E402

PROGRAM = os.path.abspath(os.environ.get("PMA", "pma"))
faulthandler.dump_traceback_later(110, exit=True)  # a client that hangs is one that fails
MEMORY = "/dev/shm" if os.access("/dev/shm", os.W_OK) else None  # syncs cost nothing there


class StoreCase(unittest.TestCase):
    def setUp(self):
        folder = tempfile.TemporaryDirectory(dir=MEMORY)
        self.addCleanup(folder.cleanup)
        self.folder = folder.name
        self.file = os.path.join(folder.name, "store.pma")

    def open(self, flag="c", file=None, **more):
        more.setdefault("program", PROGRAM)
        more.setdefault("height", 6)
        store = pma.open(file or self.file, flag, **more)
        self.addCleanup(close_anyhow, store)
        return store

    def pretender(self, script):
        """A program of a few shell lines that takes the place of pma, in a folder from which programs may be run."""
        folder = tempfile.TemporaryDirectory()
        self.addCleanup(folder.cleanup)
        name = os.path.join(folder.name, "pretender")
        with open(name, "w") as out:
            out.write("#!/bin/sh\n" + script)
        os.chmod(name, stat.S_IRWXU)
        return name


def close_anyhow(store):
    try:
        store.close()
    except pma.Error:
        pass


class PathLike:
    def __init__(self, path):
        self._path = path

    def __fspath__(self):
        return self._path


@contextlib.contextmanager
def alarms_to(handler):
    """Has this function take the alarms meanwhile, of which none comes later."""
    before = signal.signal(signal.SIGALRM, handler)
    try:
        yield
    finally:
        signal.setitimer(signal.ITIMER_REAL, 0)
        signal.signal(signal.SIGALRM, before)


def interrupt(*_):
    raise KeyboardInterrupt
