"""Each script of tests/ and tools/ is executable, and says its usage."""

import glob
import os
import subprocess
import unittest

from front import VERSION
from front.engine import TOP

# It is run by whoever makes a release, and has no words.
WITHOUT = {"release"}


class Scripts(unittest.TestCase):
    """All of them, as a user would ask."""

    def test_version(self) -> None:
        with open(os.path.join(TOP, "VERSION"), encoding="ascii") as it:
            self.assertEqual(it.read().strip(), VERSION)
        with open(os.path.join(TOP, "packaging", "debian", "changelog"), encoding="utf-8") as it:
            self.assertTrue(it.readline().startswith(f"roskubel ({VERSION}) "))

    def test_usage(self) -> None:
        for path in sorted(glob.glob(os.path.join(TOP, "tests", "*.sh")) + glob.glob(os.path.join(TOP, "tools", "*"))):
            if os.path.isdir(path) or os.path.basename(path) in WITHOUT:
                continue
            self.assertTrue(os.access(path, os.X_OK), path)
            done = subprocess.run([path, "--help"], capture_output=True, text=True, timeout=20, check=False)
            self.assertEqual((done.returncode, done.stderr), (0, ""), path)
            self.assertIn("usage:", done.stdout, path)


if __name__ == "__main__":
    unittest.main()
