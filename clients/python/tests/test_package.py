"""The package installs without a network, by nothing but the standard library."""
import os
import subprocess
import sys
import tempfile
import unittest

from common import PYTHON


class PackageTest(unittest.TestCase):
    def test_install(self):
        if subprocess.run([sys.executable, "-m", "pip", "--version"], stdout=subprocess.DEVNULL, stderr=subprocess.DEVNULL).returncode:
            self.skipTest("this Python has no pip")
        with tempfile.TemporaryDirectory() as folder:
            words = ["-m", "pip", "install", "-q", "--no-index", "--no-compile", "--target", folder, PYTHON]
            quiet = {"PYTHONDONTWRITEBYTECODE": "1", "PIP_ROOT_USER_ACTION": "ignore", "PIP_DISABLE_PIP_VERSION_CHECK": "1"}
            subprocess.run([sys.executable, *words], check=True, env={**os.environ, **quiet})
            self.assertEqual(sorted(os.listdir(folder)), ["pma", "pma-1.0.0.dist-info"])
            self.assertEqual(sorted(os.listdir(os.path.join(folder, "pma"))),
                             sorted(name for name in os.listdir(os.path.join(PYTHON, "pma")) if name != "__pycache__"))
            subprocess.run([sys.executable, "-B", "-c", "import pma; pma.open"], check=True, cwd=folder)


if __name__ == "__main__":
    unittest.main()
