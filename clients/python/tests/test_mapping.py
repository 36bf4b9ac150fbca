"""CPython's own test of a mapping, over a store."""
import os
import tempfile
import unittest

from common import MEMORY, PROGRAM, close_anyhow, pma

try:
    from test import mapping_tests
except ImportError:
    print("test_mapping: left out, since this Python has no test.mapping_tests (Debian: libpython3-testsuite)")
else:
    class MappingTest(mapping_tests.BasicTestMappingProtocol):
        def _reference(self):
            return {b"1": b"2", b"key1": b"value1", b"key2": b"value2"}

        def _empty_mapping(self):
            folder = tempfile.TemporaryDirectory(dir=MEMORY)
            store = pma.open(os.path.join(folder.name, "store.pma"), "n", height=2, program=PROGRAM)
            self.addCleanup(folder.cleanup)
            self.addCleanup(close_anyhow, store)
            return store


if __name__ == "__main__":
    unittest.main()
