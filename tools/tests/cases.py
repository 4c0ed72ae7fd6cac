"""What the tests of the commands have in common: a folder of its own for each test, the commands run in it, and their code."""

import os
import subprocess
import sys
import tempfile
import unittest
from importlib.machinery import SourceFileLoader
from importlib.util import module_from_spec, spec_from_loader
from pathlib import Path

ROOT = Path(__file__).resolve().parent.parent.parent
TOOLS = ROOT / "tools"
VECTORS = ROOT / "crates" / "vectors"
EXAMPLES = ROOT / "examples"
SQUARE = ROOT / "crates" / "tessellate" / "stdin"
SQUARE_LINES = (ROOT / "crates" / "tessellate" / "stdout").read_bytes()

sys.path.insert(0, str(TOOLS))


def vector(name):
    """The path of a vector's file."""
    return VECTORS / "data" / name


def loaded(name):
    """The code of a command, as a module."""
    loader = SourceFileLoader(name, str(TOOLS / name))
    module = module_from_spec(spec_from_loader(name, loader))
    sys.modules[name] = module
    loader.exec_module(module)
    return module


class Case(unittest.TestCase):
    """A folder of its own for each test."""

    def setUp(self):
        folder = tempfile.TemporaryDirectory()
        self.addCleanup(folder.cleanup)
        self.folder = Path(folder.name)

    def run_command(self, command, *words, environment=None, **more):
        """The exit status, standard output and standard error of a run."""
        if "input" not in more:
            more.setdefault("stdin", subprocess.DEVNULL)
        more.setdefault("stdout", subprocess.PIPE)
        path = command if os.path.isabs(command) else TOOLS / command
        done = subprocess.run([path, *words], cwd=self.folder, env=environment, stderr=subprocess.PIPE, timeout=1200, **more)
        error = done.stderr.decode()
        self.assertNotIn("Traceback", error)
        return done.returncode, done.stdout, error

    def done(self, command, *words, **more):
        """What a run prints that goes well, and says nothing."""
        status, output, error = self.run_command(command, *words, **more)
        self.assertEqual((status, error), (0, ""))
        return output

    def file(self, name, content):
        """A file in the folder."""
        path = self.folder / name
        path.write_bytes(content if isinstance(content, bytes) else content.encode())
        return path

    def files(self):
        """The names of the files in the folder, but for those of programs."""
        return sorted(path.name for path in self.folder.iterdir() if path.name != "program")


class Writing:
    """What every command that writes a file does; for a case with `words`, those of a run but for -o, and `source`, its file to read."""

    def written(self):
        """The bytes that it writes."""
        self.assertEqual(self.run_command(*self.words, "-o", "fresh")[:2], (0, b""))
        content = (self.folder / "fresh").read_bytes()
        (self.folder / "fresh").unlink()
        return content

    def test_not_overwritten(self):
        self.file("out", b"old")
        before = self.files()
        status, output, error = self.run_command(*self.words, "-o", "out")
        self.assertEqual((status, output, error.splitlines()[-1]), (2, b"", f"{self.words[0]}: out: exists; -f overwrites it"))
        self.assertEqual(((self.folder / "out").read_bytes(), self.files()), (b"old", before))

    def test_overwritten_by_force(self):
        content = self.written()
        self.file("out", b"old")
        self.assertEqual(self.run_command(*self.words, "-f", "-o", "out")[0], 0)
        self.assertEqual((self.folder / "out").read_bytes(), content)

    def test_usual_rights_and_nothing_beside(self):
        before = self.files()
        self.assertEqual(self.run_command(*self.words, "-o", "out")[0], 0)
        self.assertEqual(self.files(), sorted([*before, "out"]))
        self.assertEqual((self.folder / "out").stat().st_mode, self.file("usual", b"").stat().st_mode)

    def test_not_over_its_input(self):
        content = self.source.read_bytes()
        status, _, error = self.run_command(*self.words, "-f", "-o", self.source)
        self.assertEqual((status, error.splitlines()[-1]), (2, f"{self.words[0]}: {self.source}: is a file to read; it was not written"))
        self.assertEqual(self.source.read_bytes(), content)

    def test_where_nothing_can_be_written(self):
        before = self.files()
        irregular = "is not a regular file"
        for name, words in (("missing/out", "No such file or directory"), ("/dev/null", irregular), (".", irregular), ("out/", irregular)):
            status, _, error = self.run_command(*self.words, "-f", "-o", name)
            self.assertEqual((status, error.splitlines()[-1]), (2, f"{self.words[0]}: {name}: {words}; it was not written"))
        self.assertEqual(self.files(), before)

    def test_rights_are_kept(self):
        self.file("out", b"old").chmod(0o600)
        self.assertEqual(self.run_command(*self.words, "-f", "-o", "out")[0], 0)
        self.assertEqual((self.folder / "out").stat().st_mode & 0o777, 0o600)

    def test_not_to_standard_output(self):
        status, output, error = self.run_command(*self.words, "-o", "-")
        self.assertEqual((status, output, error), (2, b"", f"{self.words[0]}: -: OUT is a file, not standard output\n"))

    def test_long_name(self):
        self.assertEqual(self.run_command(*self.words, "-o", "o" * 255)[0], 0)

    def test_input_that_is_not_there(self):
        words = [word if word != str(self.source) else "missing" for word in map(str, self.words)]
        status, _, error = self.run_command(*words, "-o", "out")
        self.assertEqual((status, error), (2, f"{self.words[0]}: missing: No such file or directory\n"))
        self.assertNotIn("out", self.files())

    def test_standard_input(self):
        content = self.written()
        words = [word if word != str(self.source) else "-" for word in map(str, self.words)]
        status, _, _ = self.run_command(*words, "-o", "out", input=self.source.read_bytes())
        self.assertEqual((status, (self.folder / "out").read_bytes()), (0, content))
