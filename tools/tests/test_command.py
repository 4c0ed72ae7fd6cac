"""tools/command.py: what is written is whole or not there, whoever takes the name meanwhile; and a fault of a command is its own."""

import io
import os
import unittest
from contextlib import redirect_stderr
from unittest import mock

from cases import Case

import command


class Written(Case):
    def test_name_that_is_taken_meanwhile(self):
        """A file that appears while another is written stays as it is without force."""
        target = self.folder / "out"
        with self.assertRaisesRegex(command.Failure, "out: exists; -f overwrites it; it was not written$"):
            with command.written(str(target), force=False) as put:
                put(b"new")
                target.write_bytes(b"old")
        self.assertEqual((target.read_bytes(), self.files()), (b"old", ["out"]))

    def test_file_system_without_links(self):
        with mock.patch("os.link", side_effect=PermissionError(1, "Operation not permitted")):
            with command.written(str(self.folder / "out"), force=False) as put:
                put(b"new")
            with self.assertRaisesRegex(command.Failure, "taken: exists; -f overwrites it; it was not written$"):
                with command.written(str(self.folder / "taken"), force=False) as put:
                    self.file("taken", b"old")
        self.assertEqual(((self.folder / "out").read_bytes(), (self.folder / "taken").read_bytes()), (b"new", b"old"))
        self.assertEqual(self.files(), ["out", "taken"])

    def test_writes_in_parts(self):
        whole = os.write
        with mock.patch("os.write", side_effect=lambda place, data: whole(place, data[:3])):
            with command.written(str(self.folder / "out")) as put:
                put(bytes(range(200)))
        self.assertEqual((self.folder / "out").read_bytes(), bytes(range(200)))

    def test_write_that_fails(self):
        with mock.patch("os.write", side_effect=OSError(28, "No space left on device")):
            with self.assertRaisesRegex(command.Failure, "out: No space left on device; it was not written$"):
                with command.written(str(self.folder / "out")) as put:
                    put(b"new")
        self.assertEqual(self.files(), [])

    def test_fault_on_the_way(self):
        for fault in (ValueError, command.Stopped, command.Unusable):
            with self.assertRaises(fault):
                with command.written(str(self.folder / "out")) as put:
                    put(b"new")
                    raise fault()
            self.assertEqual(self.files(), [])


class Statuses(unittest.TestCase):
    def status(self, fault):
        """The exit status of a command that ends by a fault, and what it says."""

        def raising():
            raise fault

        with redirect_stderr(io.StringIO()) as said, mock.patch("signal.signal"):
            return command.run(raising), said.getvalue()

    def test_statuses(self):
        self.assertEqual(self.status(command.Unusable("one", "two")), (1, f"{command.NAME}: one\n{command.NAME}: two\n"))
        self.assertEqual(self.status(command.Failure("one")), (2, f"{command.NAME}: one\n"))
        self.assertEqual(self.status(OSError(5, "Input/output error"))[0], 2)
        status, said = self.status(ZeroDivisionError())
        self.assertEqual((status, said.splitlines()[-1]), (2, "ZeroDivisionError"))

    def test_counts(self):
        self.assertEqual([command.plural(count, "face") for count in (0, 1, 2)], ["0 faces", "1 face", "2 faces"])
        self.assertEqual([command.plural(count, "vertex", "vertices") for count in (1, 2)], ["1 vertex", "2 vertices"])


if __name__ == "__main__":
    unittest.main()
