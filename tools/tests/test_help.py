"""The tools that write data or run long: help and wrong words change nothing, and start nothing."""

import subprocess
import sys
import unittest
from pathlib import Path

ROOT = Path(__file__).resolve().parent.parent.parent


def times(folder):
    """When each file of a folder was last written."""
    return {path: path.stat().st_mtime_ns for path in sorted((ROOT / folder).rglob("*"))}


class Writers(unittest.TestCase):
    def test_help_and_wrong_words(self):
        for name, folder in (("trials", "crates/trials"), ("vectors", "crates/vectors"), ("example_last", "examples")):
            for word, status in (("--help", 0), ("-h", 0), ("--wrong", 2), ("wrong", 2)):
                with self.subTest(name=name, word=word):
                    before = times(folder)
                    done = subprocess.run([sys.executable, "-B", ROOT / "tools" / f"{name}.py", word], capture_output=True)
                    self.assertEqual(done.returncode, status)
                    self.assertIn(b"usage:", done.stderr if status else done.stdout)
                    self.assertEqual(times(folder), before)

    def test_help_and_wrong_words_of_the_long_runs(self):
        for name in ("outside", "benchmark"):
            for word, status in (("--help", 0), ("-h", 0), ("--wrong", 2)):
                with self.subTest(name=name, word=word):
                    done = subprocess.run([ROOT / "tools" / name, word], capture_output=True, timeout=10)
                    self.assertEqual(done.returncode, status)
                    self.assertTrue(done.stderr if status else done.stdout)

    def test_help_and_wrong_words_of_the_commands(self):
        for name in ("tessellate", "obj2mesh", "listing2obj", "preview", "explain", "survey"):
            version = ("--version", 0, f"{name} 0.1\n")
            for word, status, words in (("--help", 0, "exit status:"), ("-h", 0, "usage:"), version, ("--wrong", 2, "usage:")):
                with self.subTest(name=name, word=word):
                    done = subprocess.run([ROOT / "tools" / name, word], capture_output=True, text=True, timeout=10)
                    self.assertEqual(done.returncode, status)
                    self.assertIn(words, done.stderr if status else done.stdout)
                    self.assertEqual(done.stdout if status else done.stderr, "")

    def test_help_shows_an_example(self):
        """Each help ends with an example of the command."""
        for name in ("obj2mesh", "listing2obj", "preview", "explain", "survey"):
            shown = subprocess.run([ROOT / "tools" / name, "--help"], capture_output=True, text=True).stdout
            self.assertIn(f"tools/{name} ", shown.partition("example:")[2])


if __name__ == "__main__":
    unittest.main()
