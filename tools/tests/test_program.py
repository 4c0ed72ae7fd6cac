"""The proved program itself where standard output takes no more: what came out is the beginning of the listing, and it says so."""

import os
import subprocess
import unittest
from pathlib import Path

ROOT = Path(__file__).resolve().parent.parent.parent
CUBE = ROOT / "crates" / "vectors" / "data" / "cube-32-steps"
INCOMPLETE = b"tessellate: write failed, the listing is incomplete\n"


class FailedWrite(unittest.TestCase):
    """A listing that is longer than the program's buffer and than a pipe."""

    @classmethod
    def setUpClass(cls):
        # the tool builds the program where it is missing
        cls.listing = subprocess.run([ROOT / "tools" / "tessellate", CUBE], stdout=subprocess.PIPE, check=True).stdout
        cls.program = ROOT / "crates" / "tessellate" / "out" / "tessellate"

    def said(self, output):
        """What the program says on standard error with this output."""
        with open(CUBE, "rb") as cube:
            return subprocess.run([self.program], stdin=cube, stdout=output, stderr=subprocess.PIPE, timeout=60).stderr

    def test_whole(self):
        self.assertEqual(self.said(subprocess.DEVNULL), b"")

    def test_full_device(self):
        with open("/dev/full", "wb") as full:
            self.assertEqual(self.said(full), INCOMPLETE)

    def test_reader_that_pauses(self):
        reading, writing = os.pipe()
        os.set_blocking(writing, False)
        self.assertEqual(self.said(writing), INCOMPLETE)
        os.close(writing)
        with open(reading, "rb") as pipe:
            came = pipe.read()
        self.assertTrue(0 < len(came) < len(self.listing))
        self.assertTrue(self.listing.startswith(came))


if __name__ == "__main__":
    unittest.main()
