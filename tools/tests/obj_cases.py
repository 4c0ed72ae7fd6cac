"""What the tests of tools/obj2mesh have in common: OBJ files of shapes, and their conversion."""

from cases import Case

from mesh_files import FileReading

QUAD = "f 1 2 3 4\n"


def vertices(*points):
    return "".join(f"v {' '.join(map(str, point))}\n" for point in points)


# The square of rule X1, in micrometres.
CORNERS = ((0, 0, 0), (21, 0, 0), (21, 21, 0), (0, 21, 0))
SQUARE_OBJ = vertices(*CORNERS) + QUAD


def obj(shape, size=1000):
    """A shape with its vertices at places of their own, millimetres apart for a model in micrometres."""
    points = [(size * (p % 23), size * (p // 23), size * (p * p % 7)) for p in range(shape.vertices)]
    return vertices(*points) + "".join(f"f {' '.join(str(p + 1) for p in face)}\n" for face in shape.faces)


class Converting(Case):
    def converted(self, text, *words, unit="um", n="1"):
        """The status, the mesh file if there is one, and the lines on standard error."""
        self.file("in.obj", text)
        status, output, error = self.run_command("obj2mesh", "in.obj", "-n", n, "--unit", unit, "-o", "out", "-f", *words)
        self.assertEqual(output, b"")
        written = FileReading((self.folder / "out").read_bytes()) if status == 0 else None
        self.assertEqual("out" in self.files(), status == 0)
        return status, written, error.splitlines()

    def mesh(self, text, *words, says=(), **more):
        """The mesh that a model becomes, with these lines on standard error."""
        status, written, error = self.converted(text, *words, **more)
        self.assertEqual((status, error), (0, [f"obj2mesh: {line}" for line in says]))
        self.assertEqual(len(written.content), 6 + 13 * written.v + 8 * written.f)
        return written.reading.mesh

    def unusable(self, text, *lines, words=()):
        """That a model cannot be converted, for these reasons."""
        (self.folder / "out").unlink(missing_ok=True)
        self.assertEqual(self.converted(text, *words), (1, None, [f"obj2mesh: {line}" for line in lines]))
