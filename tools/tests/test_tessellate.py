"""tools/tessellate: each exit status, what is printed where, and what is left behind."""

import os
import re
import shutil
import signal
import subprocess
import sys
import time
import tty
import unittest
from pathlib import Path

import cases
from cases import ROOT, SQUARE, SQUARE_LINES, VECTORS

TOOL = ROOT / "tools" / "tessellate"


class Case(cases.Case):
    """The tool run with a program of its own, and programs."""

    def run_tool(self, *words, program=None, tool=TOOL, environment=(), **more):
        """The exit status, standard output and standard error of a run."""
        usual = {key: value for key, value in os.environ.items() if key != "TESSELLATE_PROGRAM"}
        given = {} if program is None else {"TESSELLATE_PROGRAM": str(program)}
        return self.run_command(tool, *words, environment={**usual, **given, **dict(environment)}, **more)

    def script(self, text, name="program"):
        """A program of these lines of Python."""
        path = self.folder / name
        path.write_text(f"#!{sys.executable}\nimport os, sys\n{text}\n")
        path.chmod(0o755)
        return path

    def printing(self, output, status=0):
        """A program that reads its input and prints these bytes."""
        return self.script(f"sys.stdin.buffer.read()\nsys.stdout.buffer.write({output!r})\nsys.stdout.flush()\nos._exit({status})")


class Whole(Case):
    """The proved program on files that are accepted: 0."""

    def test_file(self):
        self.assertEqual(self.run_tool(SQUARE), (0, SQUARE_LINES, ""))

    def test_standard_input(self):
        self.assertEqual(self.run_tool(input=SQUARE.read_bytes()), (0, SQUARE_LINES, ""))
        self.assertEqual(self.run_tool("-", input=SQUARE.read_bytes()), (0, SQUARE_LINES, ""))

    def test_slow_standard_input(self):
        content = SQUARE.read_bytes()
        feeding = self.script(f"import time\nfor x in {content!r}:\n    os.write(1, bytes([x])); time.sleep(0.001)")
        with subprocess.Popen([feeding], stdout=subprocess.PIPE) as source:
            self.assertEqual(self.run_tool(stdin=source.stdout), (0, SQUARE_LINES, ""))

    def test_many_lines(self):
        status, output, error = self.run_tool(VECTORS / "data" / "cube-16-steps")
        self.assertEqual((status, error), (0, ""))
        self.assertEqual(output.count(b"\n"), 1 + 6 * 17**2)

    def test_to(self):
        self.assertEqual(self.run_tool(SQUARE, "--to", "out"), (0, b"", ""))
        self.assertEqual((self.folder / "out").read_bytes(), SQUARE_LINES)
        self.assertEqual(self.files(), ["out"])

    def test_to_replaces(self):
        (self.folder / "out").write_bytes(b"old")
        self.assertEqual(self.run_tool(SQUARE, "--to", "out"), (0, b"", ""))
        self.assertEqual((self.folder / "out").read_bytes(), SQUARE_LINES)

    def test_to_has_the_usual_rights(self):
        (self.folder / "usual").write_bytes(b"")
        self.run_tool(SQUARE, "--to", "out")
        self.assertEqual((self.folder / "out").stat().st_mode, (self.folder / "usual").stat().st_mode)

    def test_to_through_a_link(self):
        (self.folder / "link").symlink_to("out")
        self.assertEqual(self.run_tool(SQUARE, "--to", "link"), (0, b"", ""))
        self.assertTrue((self.folder / "link").is_symlink())
        self.assertEqual((self.folder / "out").read_bytes(), SQUARE_LINES)


class Refused(Case):
    """Files that are refused: 1, the line on standard output, the meaning on standard error."""

    def test_each_number(self):
        names = (VECTORS / "args").read_text().split()
        by_number = {re.search(r"-refused-(\d+)$", name)[1]: name for name in names if "-refused-" in name}
        self.assertLessEqual({"1", *map(str, range(3, 12)), "14", "15"}, by_number.keys())
        for number, name in by_number.items():
            with self.subTest(name):
                path = VECTORS / "data" / name
                status, output, error = self.run_tool(path)
                self.assertEqual((status, output), (1, f"refused {number}\n".encode()))
                self.assertIn(f"tessellate: {path}: refused {number}: ", error)
                self.assertIn("tessellate: the repair: ", error)

    def test_words(self):
        _, _, error = self.run_tool(VECTORS / "data" / "bow-tie-refused-9")
        self.assertIn("refused 9: the corners at a vertex are not one fan, closed or open\n", error)

    def test_no_bytes(self):
        status, output, error = self.run_tool(input=b"")
        self.assertEqual((status, output), (1, b"refused 15\n"))
        self.assertIn("tessellate: standard input: refused 15: ", error)

    def test_more_than_a_pipe_holds(self):
        status, output, _ = self.run_tool(input=SQUARE.read_bytes().ljust(1 << 22, b"\0"))
        self.assertEqual((status, output), (1, b"refused 15\n"))

    def test_to_writes_nothing(self):
        status, output, error = self.run_tool("--to", "out", input=b"")
        self.assertEqual((status, output), (1, b""))
        self.assertIn("refused 15: ", error)
        self.assertEqual(self.files(), [])

    def test_to_keeps_what_was_there(self):
        (self.folder / "out").write_bytes(b"old")
        self.assertEqual(self.run_tool("--to", "out", input=b"")[0], 1)
        self.assertEqual((self.folder / "out").read_bytes(), b"old")

    def test_number_without_words(self):
        status, output, error = self.run_tool(SQUARE, program=self.printing(b"refused 99\n"))
        self.assertEqual((status, output), (1, b"refused 99\n"))
        self.assertIn("refused 99: docs/REFUSALS.md does not say", error)


class Usage(Case):
    """Wrong words, and files that cannot be read or written: 2, with the file's name."""

    def failed(self, *words, **more):
        status, output, error = self.run_tool(*words, **more)
        self.assertEqual((status, output), (2, b""))
        return error

    def test_words(self):
        self.assertIn("usage:", self.failed("--wrong"))
        self.assertIn("usage:", self.failed("one", "two"))
        self.assertIn("usage:", self.failed("--to"))

    def test_help_and_version(self):
        status, output, error = self.run_tool("--help")
        self.assertEqual((status, error), (0, ""))
        self.assertIn(b"exit status:", output)
        self.assertEqual(self.run_tool("--version"), (0, b"tessellate 0.1\n", ""))

    def test_missing_file(self):
        self.assertEqual(self.failed("missing"), "tessellate: missing: No such file or directory\n")

    def test_folder(self):
        self.assertIn(f"tessellate: {self.folder}: ", self.failed(self.folder))

    def test_read_error(self):
        self.assertEqual(self.failed("/proc/self/mem"), "tessellate: /proc/self/mem: Input/output error\n")

    def test_read_error_behind_the_sizes(self):
        reading, writing = os.openpty()
        self.addCleanup(os.close, reading)
        tty.setraw(writing)
        os.write(writing, SQUARE.read_bytes())
        os.close(writing)
        self.assertEqual(self.failed("--to", "out", stdin=reading), "tessellate: standard input: Input/output error\n")
        self.assertEqual(self.files(), [])

    def test_missing_program(self):
        self.assertIn("missing-program: No such file", self.failed(SQUARE, program=self.folder / "missing-program"))

    def test_to_that_cannot_be_written(self):
        self.assertIn("tessellate: missing/out: No such file or directory", self.failed(SQUARE, "--to", "missing/out"))
        self.assertIn("tessellate: /dev/null: is not a regular file", self.failed(SQUARE, "--to", "/dev/null"))
        self.assertIn("tessellate: .: is not a regular file", self.failed(SQUARE, "--to", "."))
        self.assertIn("tessellate: out/: is not a regular file", self.failed(SQUARE, "--to", "out/"))
        self.assertEqual(self.files(), [])
        self.assertTrue(Path("/dev/null").is_char_device())

    def test_to_the_file_itself(self):
        shutil.copy(SQUARE, self.folder / "mesh")
        self.assertIn("mesh: is the file to read", self.failed("mesh", "--to", "mesh"))
        self.assertEqual((self.folder / "mesh").read_bytes(), SQUARE.read_bytes())


class Damaged(Case):
    """A listing that is not whole: 2."""

    def failed(self, output, words, status=0, file=SQUARE):
        program = self.printing(output, status)
        found, shown, error = self.run_tool(file, program=program)
        self.assertEqual((found, shown), (2, output))
        self.assertIn(f"tessellate: {file}: {words}", error)
        found, shown, error = self.run_tool(file, "--to", "out", program=program)
        self.assertEqual((found, shown), (2, b""))
        self.assertIn(f"tessellate: {file}: {words}", error)
        self.assertEqual(self.files(), [])

    def test_nothing(self):
        self.failed(b"", "the listing is not whole: there is none")

    def test_cut_in_a_line(self):
        self.failed(SQUARE_LINES[:-1], "the listing is not whole: it breaks off in line 5")
        self.failed(SQUARE_LINES[:18], "the listing is not whole: it breaks off in line 2")
        self.failed(b"4 1 4 4", "the listing is not whole: it breaks off in line 1")

    def test_cut_between_lines(self):
        cut = b"".join(SQUARE_LINES.splitlines(True)[:-1])
        self.failed(cut, "the listing is not whole: it has 4 lines, and 5 are due")

    def test_line_too_many(self):
        self.failed(SQUARE_LINES + b"\n", "the listing is not whole: it has 6 lines, and 5 are due")

    def test_other_last_line(self):
        last = "the listing is not whole: its last line is not that of face 0 at (1, 1)"
        for other in (b"1 1 1", b"0 0 1", b"0 1 0"):
            self.failed(SQUARE_LINES.replace(b"0 1 1 5376 5376 0", other + b" 5376 5376 0"), last)
        self.failed(SQUARE_LINES.replace(b"0 1 1 5376 5376 0", b"0 1 1 5376 5376"), last)
        self.failed(SQUARE_LINES.replace(b"0 1 1 5376 5376 0", b"0 1 1 5376 5376 x"), last)

    def test_other_first_line(self):
        first = "the listing is not whole: its first line is not V F E B with V = 4, F = 1"
        self.failed(SQUARE_LINES.replace(b"4 1 4 4", b"4 2 4 4"), first)
        self.failed(SQUARE_LINES.replace(b"4 1 4 4", b"4 1 4"), first)
        self.failed(b"refused\n", first)
        self.failed(b"refused 3\nrefused 4\n", first)
        self.failed(b"refused 3", first)
        self.failed(b"refused 3\n" + SQUARE_LINES, first)

    def test_long_line(self):
        self.failed(b"4" * 1000 + b"\n", "the listing is not whole: its first line")

    def test_no_sizes(self):
        (self.folder / "short").write_bytes(b"abc")
        program = self.printing(SQUARE_LINES)
        status, _, error = self.run_tool("short", program=program)
        self.assertEqual(status, 2)
        self.assertIn("tessellate: short: the listing is not whole: the file has 3 bytes", error)

    def test_status_of_the_program(self):
        self.failed(SQUARE_LINES, "the program ended with status 3; the listing is incomplete", status=3)

    def test_program_that_is_ended(self):
        program = self.script("os.kill(os.getpid(), 9)")
        status, output, error = self.run_tool(SQUARE, program=program)
        self.assertEqual((status, output), (2, b""))
        self.assertIn("the program was ended by signal 9", error)

    def test_what_the_program_says(self):
        program = self.script("sys.stderr.write('tessellate: write failed, the listing is incomplete\\n')")
        status, _, error = self.run_tool(SQUARE, program=program)
        self.assertEqual(status, 2)
        self.assertTrue(error.startswith("tessellate: write failed, the listing is incomplete\n"))

    def test_program_that_does_not_read(self):
        program = self.script(f"os.write(1, {SQUARE_LINES!r})")
        self.assertEqual(self.run_tool(SQUARE, program=program), (0, SQUARE_LINES, ""))
        self.assertEqual(self.run_tool(input=SQUARE.read_bytes() * 100000, program=program), (0, SQUARE_LINES, ""))


# A program that prints without end.
ENDLESS = "while True:\n    os.write(1, b'0 0 0 0 0 0\\n' * 1000)"


class Pipes(Case):
    """Standard output that takes no more: 2; and signals."""

    def test_broken_pipe(self):
        reading, writing = os.pipe()
        os.close(reading)
        self.addCleanup(os.close, writing)
        status, _, error = self.run_tool(SQUARE, stdout=writing)
        self.assertEqual((status, error), (2, f"tessellate: {SQUARE}: standard output: Broken pipe; the listing is incomplete\n"))

    def test_pipe_that_breaks_later(self):
        program = self.script(ENDLESS)
        with subprocess.Popen(["head", "-n", "1"], stdin=subprocess.PIPE, stdout=subprocess.DEVNULL) as head:
            status, _, error = self.run_tool(SQUARE, program=program, stdout=head.stdin)
        self.assertEqual((status, error), (2, f"tessellate: {SQUARE}: standard output: Broken pipe; the listing is incomplete\n"))

    def test_full_device(self):
        with open("/dev/full", "wb") as full:
            status, _, error = self.run_tool(SQUARE, stdout=full)
        self.assertEqual((status, error), (2, f"tessellate: {SQUARE}: standard output: No space left on device; the listing is incomplete\n"))

    def test_closed_output(self):
        done = subprocess.run(["sh", "-c", '"$0" "$1" >&-', TOOL, SQUARE], stderr=subprocess.PIPE)
        self.assertEqual((done.returncode, done.stderr), (2, f"tessellate: {SQUARE}: standard output is closed\n".encode()))

    def test_closed_input(self):
        done = subprocess.run(["sh", "-c", '"$0" <&-', TOOL], capture_output=True)
        self.assertEqual((done.returncode, done.stderr), (2, b"tessellate: standard input is closed\n"))

    def test_signal_leaves_nothing(self):
        program = self.script(ENDLESS)
        for number in (signal.SIGINT, signal.SIGTERM):
            environment = {**os.environ, "TESSELLATE_PROGRAM": str(program)}
            tool = subprocess.Popen([TOOL, SQUARE, "--to", "out"], cwd=self.folder, env=environment)
            until = time.monotonic() + 60
            while not any((self.folder / name).stat().st_size for name in self.files()) and time.monotonic() < until:
                time.sleep(0.01)
            tool.send_signal(number)
            self.assertEqual(tool.wait(60), -number)
            self.assertEqual(self.files(), [])


# An `rt` that notes how it was called and links the program that copies the square's lines.
RT = """\
root = os.path.dirname(os.path.dirname(os.getcwd()))
open(f"{root}/calls", "a").write(" ".join([os.path.basename(os.getcwd()), *sys.argv[1:]]) + "\\n")
if os.path.exists(f"{root}/broken"):
    print("one\\ntwo\\nthree\\nfour")
    sys.exit(1)
os.makedirs("out", exist_ok=True)
open("out/stamp", "w").close()
if not os.path.exists("out/tessellate"):
    os.symlink(PROGRAM, "out/tessellate")
"""


class Building(Case):
    """In a copy of the repository's outline, with an `rt` that proves nothing: when the program is built, and how that fails."""

    def setUp(self):
        super().setUp()
        self.tool = self.folder / "tools" / "tessellate"
        for name in ("tools", "docs", "crates/mesh", "crates/tessellate", "bin"):
            (self.folder / name).mkdir(parents=True)
        for name in ("tessellate", "command.py"):
            shutil.copy(TOOL.with_name(name), self.folder / "tools")
        (self.folder / "crates.txt").write_text("")
        (self.folder / "crates" / "mesh" / "lib.rt").write_text("")
        self.script(RT.replace("PROGRAM", repr(str(self.printing(SQUARE_LINES)))), "bin/rt")

    def built(self):
        """Runs the tool, and returns how many times it has called `rt` so far."""
        found = self.run_tool(SQUARE, tool=self.tool, environment={"PATH": f"{self.folder / 'bin'}:{os.environ['PATH']}"})
        self.assertEqual(found, (0, SQUARE_LINES, ""))
        calls = (self.folder / "calls").read_text().splitlines()
        self.assertEqual(set(calls), {"tessellate run"})
        return len(calls)

    def test_missing_or_older(self):
        self.assertEqual(self.built(), 1)
        self.assertEqual(self.built(), 1)
        later = time.time() + 2
        os.utime(self.folder / "program", (later - 4, later - 4))
        os.utime(self.folder / "crates" / "mesh" / "lib.rt", (later - 3, later - 3))
        self.assertEqual(self.built(), 2)
        self.assertEqual(self.built(), 2)
        (self.folder / "crates" / "mesh" / "to-nowhere").symlink_to("nothing")
        self.assertEqual(self.built(), 2)
        # what rt leaves is no source
        os.utime(self.folder / "crates" / "tessellate" / "out" / "stamp", (later + 9, later + 9))
        self.assertEqual(self.built(), 2)

    def test_build_that_fails(self):
        (self.folder / "broken").write_text("")
        path = f"{self.folder / 'bin'}:{os.environ['PATH']}"
        status, output, error = self.run_tool(SQUARE, "--to", "out", tool=self.tool, environment={"PATH": path})
        self.assertEqual((status, output), (2, b""))
        self.assertEqual(error, "tessellate: crates/tessellate/out/tessellate cannot be built: rt run ended with 1\ntwo\nthree\nfour\n")
        self.assertNotIn("out", self.files())

    def test_no_toolchain(self):
        bare = self.folder / "bare"
        bare.mkdir()
        (bare / "python3").symlink_to(sys.executable)
        status, _, error = self.run_tool(SQUARE, tool=self.tool, environment={"PATH": str(bare)})
        self.assertEqual((status, error), (2, "tessellate: crates/tessellate/out/tessellate cannot be built: rt: No such file or directory\n"))


if __name__ == "__main__":
    unittest.main()
