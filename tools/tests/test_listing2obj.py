"""tools/listing2obj: its decimals, the vertices that faces share, damaged listings; and the way from an OBJ file to an OBJ file."""

import random
import re
import unittest
from collections import Counter
from fractions import Fraction
from unittest import mock

from cases import EXAMPLES, SQUARE_LINES, Case, Writing, loaded, vector

import listings
import obj_files
from mesh_files import UNITS, FileMesh, FileReading
from meshes import numbered
from shapes import closed_fan, cube, join, notched, open_fan, ring, square, strip, torus

listing2obj = loaded("listing2obj")

SEED = 20250702

# The square of rule X1, in millimetres.
SQUARE_OBJ = """\
# 4 samples of 1 face, N = 1, in mm
v 0.00000000000 0.00000000000 0.00000000000
v 0.02100000000 0.00000000000 0.00000000000
v 0.00000000000 0.02100000000 0.00000000000
v 0.02100000000 0.02100000000 0.00000000000
g face-0
f 1 2 4 3
"""


def edges(model):
    """How many faces of a model go along each pair of vertices, that way round."""
    return Counter((face.vertices[s - 1], p) for face in model.faces for s, p in enumerate(face.vertices))


class Converting(Case):
    def converted(self, listing, *words, says=()):
        """The model that a listing becomes, with these lines on standard error."""
        self.file("in.txt", listing)
        status, output, error = self.run_command("listing2obj", "in.txt", "-o", "out.obj", "-f", *words)
        self.assertEqual((status, output, error.splitlines()), (0, b"", [f"listing2obj: in.txt: {line}" for line in says]))
        return obj_files.parsed("out.obj", (self.folder / "out.obj").read_bytes())

    def assert_samples(self, model, listing, unit="mm"):
        """That the model's faces are the cells of the listing's, at its very samples, with its edges shared as it says."""
        read = listings.parsed("in.txt", listing)
        n, scale = read.n, 256 * UNITS[unit]
        cells = [(f, a, b) for f in range(read.counts[1]) for b in range(n) for a in range(n)]
        self.assertEqual(len(model.faces), len(cells))
        for face, (f, a, b) in zip(model.faces, cells):
            corners = [read.samples[f][a + i, b + j] for i, j in ((0, 0), (1, 0), (1, 1), (0, 1))]
            self.assertEqual([tuple(scale * x for x in model.vertices[p].point) for p in face.vertices], corners)
        v, f, e, b = read.counts
        self.assertEqual(len(model.vertices), v + e * (n - 1) + f * (n - 1) ** 2)
        ways = edges(model)
        self.assertEqual(set(ways.values()), {1})
        self.assertEqual(sum(way[::-1] not in ways for way in ways), b * n)


class Listings(Converting):
    def test_square(self):
        self.converted(SQUARE_LINES)
        self.assertEqual((self.folder / "out.obj").read_text(), SQUARE_OBJ)

    def test_decimals(self):
        """Each unit has the places that carry 1/256 micrometre."""
        listing = SQUARE_LINES.replace(b"5376", b"1").replace(b"0 0 0 0 0 0", b"0 0 0 -268435455 255 -1")
        for unit, first in (
            ("um", "v -1048575.99609375 0.99609375 -0.00390625"),
            ("mm", "v -1048.57599609375 0.00099609375 -0.00000390625"),
            ("m", "v -1.04857599609375 0.00000099609375 -0.00000000390625"),
        ):
            model = self.converted(listing, "--unit", unit)
            self.assertEqual((self.folder / "out.obj").read_text().splitlines()[1], first)
            self.assert_samples(model, listing, unit)
            self.assertEqual(model.vertices[0].point[0], Fraction(-268435455, 256 * UNITS[unit]))

    def test_vectors(self):
        closed = ("cube-16-steps", "torus-3-by-3", "two-cubes-apart")
        for name in (*closed, "cube-without-a-face", "grid-3-by-3-with-a-hole", "reentrant-3-steps", "ring-3"):
            with self.subTest(name):
                listing = self.done("tessellate", vector(name))
                self.assert_samples(self.converted(listing), listing)

    def test_seams_that_lie_on_each_other(self):
        """Two squares side by side, each with vertices of its own at the edge between them."""
        points = [(0, 0), (9, 0), (9, 9), (0, 9), (9, 0), (18, 0), (18, 9), (9, 9)]
        mesh = numbered(join(square(), square()))
        mesh.positions = [x for point in points for x in (*point, 0)]
        listing = self.done("tessellate", "-", input=FileMesh(**vars(mesh), n=3).bytes())
        says = "warning: 2 boundary half-edges of the mesh lie on others, and each two that do are one edge in OUT"
        model = self.converted(listing, says=[says])
        self.assertEqual(len(model.vertices), 7 * 4)

    def test_two_cubes_in_one_place(self):
        mesh = numbered(join(cube(), cube()))
        mesh.positions[24:] = mesh.positions[:24]
        listing = self.done("tessellate", "-", input=FileMesh(**vars(mesh), n=2).bytes())
        says = "warning: more than two sides lie on each other; which of them are one edge in OUT is a choice"
        self.assertEqual(set(edges(self.converted(listing, says=[says])).values()), {1})

    def test_face_that_is_folded(self):
        """Two sides of one face that lie on each other stay two."""
        mesh = numbered(square())
        mesh.positions = [0, 0, 0, 9, 0, 0, 0, 0, 0, 0, 9, 0]
        listing = self.done("tessellate", "-", input=FileMesh(**vars(mesh), n=3).bytes())
        self.assert_samples(self.converted(listing), listing)

    def test_no_mesh_is_taken_for_damaged(self):
        """Shapes with few places for their vertices, so that many sides lie on each other."""
        chance = random.Random(SEED)
        shapes = (cube(), torus(3, 3), strip(4), ring(5), notched(3, 3), closed_fan(5), open_fan(4), join(cube(), square(), square()))
        warned = 0
        for shape in shapes * 8:
            mesh = numbered(shape)
            mesh.positions = [chance.choice((0, 40)) for _ in mesh.positions]
            content = "".join(f"{line}\n" for line in FileReading(FileMesh(**vars(mesh), n=2).bytes()).lines()).encode()
            listing = listings.parsed("in.txt", content)
            others = listing2obj.matches(listing.samples, 2)
            listing2obj.assert_matched("in.txt", listing, others)
            _, points = listing2obj.numbered(listing.samples, 2, listing2obj.paired(others))
            with mock.patch.object(listing2obj, "say") as say:
                listing2obj.assert_counted("in.txt", listing, others, len(points))
            warned += say.called
        self.assertTrue(10 < warned < 60)

    def test_all_in_one_place(self):
        """A closed mesh with an odd number of faces and all vertices at one point: sides stay alone, and the listing is not damaged."""
        mesh = numbered(torus(3, 3))
        mesh.positions = [7] * len(mesh.positions)
        listing = self.done("tessellate", "-", input=FileMesh(**vars(mesh), n=2).bytes())
        says = "warning: more than two sides lie on each other; which of them are one edge in OUT is a choice"
        self.assertEqual(len(self.converted(listing, says=[says]).faces), 36)


class Damaged(Converting):
    def unusable(self, listing, *lines):
        self.file("in.txt", listing)
        status, output, error = self.run_command("listing2obj", "in.txt", "-o", "out.obj")
        self.assertEqual((status, output, error.splitlines()[: len(lines)]), (1, b"", [f"listing2obj: in.txt{line}" for line in lines]))
        self.assertEqual(self.files(), ["in.txt"])
        return error.splitlines()[len(lines) :]

    def test_refused(self):
        words = ": is the listing of a refused file, 9: the corners at a vertex are not one fan, closed or open"
        more = self.unusable(b"refused 9\n", words)
        self.assertEqual([line.partition(": ")[2].partition(":")[0] for line in more], ["the usual fault", "the repair"])

    def test_first_line(self):
        words = ":1: the first line is not V F E B: is this what tools/tessellate printed?"
        for first in (b"4 1 4", b"4 1 4 4 4", b"x", b"", b"4 1 4 -4", b"4 1 4 4\r"):
            self.unusable(SQUARE_LINES.replace(b"4 1 4 4", first), words)
        self.unusable(b"", words)
        self.unusable(vector("cube-1-steps").read_bytes(), words)

    def test_counts(self):
        words = ":1: V F E B are not those of a mesh: 4F + B = 2E for each, and B is at most 4F"
        for first in (b"4 1 4 2", b"4 1 5 4", b"4 1 5 6", b"4 2 4 4"):
            self.unusable(SQUARE_LINES.replace(b"4 1 4 4", first), words)
        self.unusable(SQUARE_LINES.replace(b"4 1 4 4", b"5 1 4 4"), ":1: V = 5, and the samples are those of a mesh with V = 4")

    def test_cut_off(self):
        self.unusable(SQUARE_LINES[:-1], ":5: the last line has no line end: the listing is not whole")
        self.unusable(SQUARE_LINES[:9], ":2: the last line has no line end: the listing is not whole")
        self.unusable(b"4 1 4 4", ":1: the last line has no line end: the listing is not whole")
        lines = SQUARE_LINES.splitlines(True)
        for kept in (1, 2, 4):
            count = f"{kept - 1} line{'s' if kept != 2 else ''} of samples for 1 face"
            self.unusable(b"".join(lines[:kept]), f": {count}: it is not whole, for no N is F (N + 1)^2 that number")
        self.unusable(b"4 0 0 0\n", ": 0 lines of samples for 0 faces: it is not whole, for no N is F (N + 1)^2 that number")

    def test_lines(self):
        for old, new in ((b"0 1 0 5376", b"0 1 0 x"), (b"0 1 0 5376", b"0 1 0 5376 5"), (b"0 1 0 ", b"0 0 1 "), (b"0 1 0 ", b"1 1 0 ")):
            self.unusable(SQUARE_LINES.replace(old, new, 1), ":3: this is not the line of face 0 at (1, 0), N = 1")

    def test_seam_that_differs(self):
        listing = self.done("tessellate", vector("cube-1-steps"))
        number = re.search(rb"\n(0 0 0 (-?\d+)) ", listing)
        moved = listing.replace(number[1], b"0 0 0 %d" % (int(number[2]) + 1), 1)
        words = "no other face has the samples of side 0 of face 0, which begins here; there are 4 such sides"
        self.unusable(moved, f":2: {words}, and B = 0 is the number of those at the boundary")
        lines = listing.split(b"\n")
        lines[-2] = lines[-2] + b"0"
        words = "no other face has the samples of side 3 of face 1, which begins here; there are 4 such sides"
        self.unusable(b"\n".join(lines), f":8: {words}, and B = 0 is the number of those at the boundary")


class Run(Writing, Case):
    def setUp(self):
        super().setUp()
        self.source = self.file("in.txt", SQUARE_LINES)
        self.words = ("listing2obj", self.source)

    def test_words(self):
        for words in (("in.txt",), ("in.txt", "-o", "out", "--unit", "cm"), ("-o", "out"), ("in.txt", "more", "-o", "out")):
            status, output, error = self.run_command("listing2obj", *words)
            self.assertEqual((status, output), (2, b""), words)
            self.assertIn("usage:", error)


class RoundTrip(Converting):
    """From an OBJ file to a mesh file, its listing, an OBJ file of its samples, and once more."""

    def through(self, source, n, *corners):
        """The mesh file of a model, the listing, and the model of its samples."""
        self.done("obj2mesh", source, "-n", str(n), "--unit", "mm", *corners, "-o", "mesh", "-f")
        listing = self.done("tessellate", "mesh")
        model = self.converted(listing)
        self.assert_samples(model, listing)
        return FileReading((self.folder / "mesh").read_bytes()), listing, model

    def again(self, listing):
        """The samples as a model of their own, which is accepted, with the counts that the cells have."""
        self.done("obj2mesh", "out.obj", "-n", "1", "--unit", "mm", "-o", "again", "-f")
        v, f, e, b = map(int, listing.split(b"\n")[0].split())
        counts = self.done("tessellate", "again").split(b"\n")[0]
        self.assertEqual([int(word) for word in counts.split()], [v, f, e, b])

    def test_closed(self):
        for n in (1, 5):
            read, listing, model = self.through(EXAMPLES / "last.obj", n)
            self.assertTrue(listing.startswith(b"166 164 328 0\n"))
            ways = edges(model)
            self.assertTrue(all(way[::-1] in ways for way in ways))
            original = obj_files.parsed("last.obj", (EXAMPLES / "last.obj").read_bytes())
            self.assertEqual([1000 * x for vertex in original.vertices for x in vertex.point], read.reading.mesh.positions)
            self.assertEqual([p for face in original.faces for p in face.vertices], read.reading.mesh.faces)
            if n == 1:
                self.again(listing)

    def test_open_with_tags(self):
        for n in (1, 4):
            read, listing, model = self.through(EXAMPLES / "last-open.obj", n, "--corners", EXAMPLES / "last-open.corners")
            self.assertTrue(listing.startswith(b"161 153 313 14\n"))
            # a tagged vertex is a sample itself, and another on the boundary is not
            points = {tuple(1000 * x for x in vertex.point) for vertex in model.vertices}
            tagged = {tuple(point) for point, tag in zip(read.reading.points, read.reading.mesh.tags) if tag}
            self.assertEqual(len(tagged), 6)
            self.assertLessEqual(tagged, points)
            boundary = {tuple(read.reading.points[p]) for p, inner in read.reading.inner.items() if not inner}
            self.assertEqual(boundary & points, tagged)
            if n == 1:
                self.again(listing)

    def test_open_without_tags(self):
        _, listing, model = self.through(EXAMPLES / "last-open.obj", 4)
        _, tagged_listing, _ = self.through(EXAMPLES / "last-open.obj", 4, "--corners", EXAMPLES / "last-open.corners")
        self.assertNotEqual(listing, tagged_listing)


if __name__ == "__main__":
    unittest.main()
