"""include/rusketja.h and examples/square.c: clean under strict warnings, and right where the static library is there."""

import shutil
import subprocess
import tempfile
import unittest
from pathlib import Path

ROOT = Path(__file__).resolve().parent.parent.parent
EXAMPLE = ROOT / "examples" / "square.c"
HEADER = ROOT / "include" / "rusketja.h"
ARCHIVE = ROOT / "crates" / "capi" / "out" / "libcapi.a"
STRICT = ["-Wall", "-Wextra", "-Wconversion", "-Werror"]


class Example(unittest.TestCase):
    def compiles(self, compiler, *words):
        if shutil.which(compiler) is None:
            self.skipTest(f"no {compiler}")
        done = subprocess.run([compiler, *STRICT, "-I", HEADER.parent, *words], capture_output=True, text=True)
        self.assertEqual((done.returncode, done.stderr), (0, ""))

    def test_header(self):
        self.compiles("cc", "-std=c99", "-pedantic", "-fsyntax-only", "-x", "c", HEADER)

    def test_header_in_another_language(self):
        self.compiles("c++", "-pedantic", "-fsyntax-only", "-x", "c++", HEADER)

    def test_example(self):
        self.compiles("cc", "-std=c99", "-pedantic", "-fsyntax-only", EXAMPLE)

    @unittest.skipUnless(ARCHIVE.is_file(), "no crates/capi/out/libcapi.a: `rt lib` in crates/capi writes it")
    def test_run(self):
        with tempfile.TemporaryDirectory() as folder:
            self.compiles("cc", "-std=c99", EXAMPLE, ARCHIVE, "-o", f"{folder}/square")
            done = subprocess.run([f"{folder}/square"], capture_output=True, text=True)
        self.assertEqual(done.returncode, 0, done.stdout)


if __name__ == "__main__":
    unittest.main()
