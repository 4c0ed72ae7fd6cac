"""tools/obj2mesh: what of an OBJ file comes into the mesh, how it is rounded, which vertices are tagged, and what is left behind."""

import unittest

from cases import EXAMPLES, SQUARE, Case, Writing
from obj_cases import CORNERS, QUAD, SQUARE_OBJ, Converting, obj, vertices

import example_last
from shapes import cube, grid, square, strip

# What is said of every model as small as the square.
SMALL = "in.obj: warning: the whole model is 21 micrometres across: is --unit right?"


class Models(Converting):
    """What comes into the mesh."""

    def test_square(self):
        self.mesh(SQUARE_OBJ, says=[SMALL])
        self.assertEqual((self.folder / "out").read_bytes(), SQUARE.read_bytes())

    def test_units(self):
        for unit, digits in (("mm", 3), ("m", 6)):
            text = vertices(*([f"{x / 10**digits:.{digits}f}" for x in corner] for corner in CORNERS)) + QUAD
            self.mesh(text, unit=unit, says=[SMALL])
            self.assertEqual((self.folder / "out").read_bytes(), SQUARE.read_bytes())

    def test_rounding(self):
        """Halves to even, from the decimal that is written and not from the double next to it."""
        cases = {"0.5": 0, "1.5": 2, "2.5": 2, "-0.5": 0, "-1.5": -2, "-2.5": -2, "2.50000000000000000000000000000001": 3, "2.49": 2}
        cases.update({"25e-1": 2, "+.5E0": 0, "35.e-1": 4, "1048576.5": 1048576, "-7": -7, "1e-300": 0})
        for text, whole in cases.items():
            mesh = self.mesh(vertices((text, 0, 0), (99999, 0, 0), (99999, 99999, 0), (0, 99999, 0)) + QUAD)
            self.assertEqual(mesh.positions[0], whole, text)
        mesh = self.mesh(vertices(("0.0005", "0.0015", "0.0025"), (99, 0, 0), (99, 99, 0), (0, 99, 0)) + QUAD, unit="mm")
        self.assertEqual(mesh.positions[:3], [0, 2, 2])

    def test_references(self):
        expected = self.mesh(obj(strip(2)))
        text = obj(strip(2)).replace("f 1 3 4 2", "f 1/7/9 3//5 4/6 2/1/").replace("f 3 5 6 4", "f -4 -2/1/1 -1//3 -3/2")
        self.assertNotEqual(text, obj(strip(2)))
        self.assertEqual(self.mesh(text), expected)

    def test_negative_references_count_from_their_own_line(self):
        more = vertices((9000, 0, 0), (9000, 9000, 0))
        text = vertices((0, 0, 0), (5000, 0, 0), (5000, 5000, 0), (0, 5000, 0)) + "f -4 -3 -2 -1\n" + more + "f -5 -2 -1 -4\n"
        self.assertEqual(self.mesh(text).faces, [0, 1, 2, 3, 1, 4, 5, 2])

    def test_references_forward(self):
        self.assertEqual(self.mesh(QUAD + vertices((0, 0, 0), (5000, 0, 0), (5000, 5000, 0), (0, 5000, 0))).faces, [0, 1, 2, 3])

    def test_other_statements(self):
        plain = obj(cube())
        more = "mtllib a.mtl\no box\ng one two\nusemtl red\ns off\nvn 0 0 1\nvt 0 0\nvp 1\n# f 1 2 3\nl 1 2\np 3\nxyzzy 1 2\n\n   \n"
        text = more + plain.replace("\nf", "\ng three\nf", 2).replace("v 0 0 0", "  v\t0 0 0 1.0   # the first")
        self.assertEqual(self.mesh(text), self.mesh(plain))

    def test_line_ends_and_runs_on(self):
        plain = self.mesh(obj(cube()))
        self.assertEqual(self.mesh(obj(cube()).replace("\n", "\r\n")), plain)
        self.assertEqual(self.mesh(obj(cube()).replace("\n", "\r")), plain)
        self.assertEqual(self.mesh("\ufeff" + obj(cube())), plain)
        self.assertEqual(self.mesh(obj(cube()).rstrip("\n")), plain)
        self.assertEqual(self.mesh(obj(cube()).replace("f 1 4 3 2", "f 1 4 \\\n  3 \\\n2")), plain)

    def test_colours_and_weights(self):
        self.assertEqual(self.mesh(obj(cube()).replace("v 0 0 0", "v 0 0 0 0.5 0.5 0.5")), self.mesh(obj(cube())))

    def test_unused_vertices(self):
        """They are left out with a note, and the others move up."""
        text = vertices((8, 8, 8)) + obj(square()).replace("f 1 2 3 4", "f 2 3 4 5") + vertices((9, 9, 9))
        mesh = self.mesh(text, says=["in.obj:1: note: no face uses this vertex and 1 more: left out"])
        self.assertEqual(mesh, self.mesh(obj(square())))
        self.mesh(obj(square()) + vertices((8, 8, 8)), says=["in.obj:6: note: no face uses this vertex: left out"])

    def test_steps(self):
        for n in (1, 32):
            self.assertEqual(self.mesh(obj(cube()), n=str(n)).n, n)


class Corners(Converting):
    """Corner tags from a list and from a group."""

    def tags(self, text, *words, says=()):
        return [p for p, tag in enumerate(self.mesh(text, *words, says=says).tags) if tag]

    def test_list(self):
        self.file("corners", "1, 3\t# two of them\n\n   5\n# 6\n3\n")
        self.assertEqual(self.tags(obj(strip(2)), "--corners", "corners"), [0, 2, 4])

    def test_list_counts_as_the_model(self):
        """A vertex that is left out before one does not move its number."""
        self.file("corners", "5")
        text = vertices((8, 8, 8)) + obj(square()).replace("f 1 2 3 4", "f 2 3 4 5")
        self.assertEqual(self.tags(text, "--corners", "corners", says=["in.obj:1: note: no face uses this vertex: left out"]), [3])

    def test_list_of_a_vertex_that_is_left_out(self):
        self.file("corners", "1 5 6")
        says = [
            "in.obj:6: note: no face uses this vertex and 1 more: left out",
            "in.obj:6: warning: this vertex is tagged as a corner and has no face, nor has 1 other tagged vertex: left out",
        ]
        self.assertEqual(self.tags(obj(square()) + vertices((8, 8, 8), (9, 9, 9)), "--corners", "corners", says=says), [0])

    def test_list_that_is_wrong(self):
        for text, line, words in (
            ("1\nx\n", 2, "x is not the number of a vertex"),
            ("1\n2\n0", 3, "there is no vertex 0: in.obj has 4, counted from 1"),
            ("5", 1, "there is no vertex 5: in.obj has 4, counted from 1"),
            ("-1", 1, "-1 is not the number of a vertex"),
            ("1.0", 1, "1.0 is not the number of a vertex"),
        ):
            self.file("corners", text)
            self.unusable(obj(square()), f"corners:{line}: {words}", words=("--corners", "corners"))

    def test_points_and_lines_of_a_group(self):
        text = obj(strip(3)) + "g rim other\np 1 -8\nl 3 5\ng\np 7\n"
        self.assertEqual(self.tags(text, "--corner-group", "rim"), [0, 2, 4])
        self.assertEqual(self.tags(text, "--corner-group", "other"), [0, 2, 4])
        self.assertEqual(self.tags(text.replace("g\n", "g #\n").replace("f", "g all#1\nf", 1), "--corner-group", "default"), [6])
        self.assertEqual(len(self.tags(text, "--corner-group", "default")), 8)
        self.assertEqual(self.tags(text), [])

    def test_faces_of_a_group(self):
        """Those of their vertices that lie on the boundary."""
        faces = obj(grid(3, 3)).splitlines(True)
        text = "".join(faces[:16]) + "g rim\n" + "".join(faces[16:18]) + "g rest\n" + "".join(faces[18:])
        self.assertEqual(self.tags(text, "--corner-group", "rim"), [0, 1, 2, 4])

    def test_list_and_group(self):
        self.file("corners", "4")
        self.assertEqual(self.tags(obj(strip(2)) + "g rim\np 1\n", "--corners", "corners", "--corner-group", "rim"), [0, 3])

    def test_nothing_tagged(self):
        says = ["in.obj: warning: no corner is tagged: the list or group names no vertex, or its faces none of the boundary"]
        self.file("corners", "# none\n")
        self.assertEqual(self.tags(obj(square()), "--corners", "corners", says=says), [])
        self.assertEqual(self.tags(obj(cube()) + "g rim\n", "--corner-group", "rim", says=says), [])
        self.assertEqual(self.tags(obj(cube()), "--corner-group", "default", says=says), [])

    def test_list_as_text_files_are(self):
        self.file("corners", "\ufeff1\r\n\x0c3\r\n")
        self.assertEqual(self.tags(obj(strip(2)), "--corners", "corners"), [0, 2])

    def test_group_that_is_not_there(self):
        known = "in.obj: there is no group c; the groups are: a, b, default"
        self.unusable(obj(square()) + "g a b\n", known, words=("--corner-group", "c"))
        self.unusable(obj(square()), "in.obj: there is no group ; the groups are: default", words=("--corner-group", ""))

    def test_inner_corner(self):
        """A point of a group is taken as it is named: the mesh will be refused."""
        words = "an inner vertex is tagged as a corner: vertex 5 is inner and tagged as a corner"
        says = f"in.obj:5: warning: the mesh will be refused (11), since {words}"
        self.tags(obj(grid(2, 2)) + "g rim\np 5\n", "--corner-group", "rim", says=[says])


class Run(Writing, Case):
    def setUp(self):
        super().setUp()
        self.source = self.file("in.obj", obj(cube()))
        self.words = ("obj2mesh", self.source, "-n", "4", "--unit", "um")

    def test_words(self):
        for words in (
            ("in.obj", "--unit", "mm", "-o", "out"),
            ("in.obj", "-n", "4", "-o", "out"),
            ("in.obj", "-n", "4", "--unit", "mm"),
            ("in.obj", "-n", "4", "--unit", "cm", "-o", "out"),
            *(("in.obj", f"-n={n}", "--unit", "mm", "-o", "out") for n in ("0", "33", "x", "4.0", "-4", "", "\u0664")),
        ):
            status, output, error = self.run_command("obj2mesh", *words)
            self.assertEqual((status, output), (2, b""), words)
            self.assertIn("usage:", error)
        self.assertEqual(self.files(), ["in.obj"])

    def test_standard_input_twice(self):
        words = ("obj2mesh", "-", "-n", "4", "--unit", "mm", "--corners", "-", "-o", "out")
        status, _, error = self.run_command(*words, input=obj(cube()).encode())
        self.assertEqual((status, error), (2, "obj2mesh: -: standard input can be one file, not two\n"))

    def test_what_a_terminal_would_not_show(self):
        words = [word if word != self.source else "-" for word in self.words]
        status, _, error = self.run_command(*words, "-o", "out", input=b"v \x1b[31m 0 0\n")
        self.assertEqual((status, error), (1, "obj2mesh: standard input:1: \\x1b[31m is not a decimal number\n"))

    def test_corners_that_cannot_be_read(self):
        self.assertEqual(self.run_command(*self.words, "--corners", "", "-o", "out")[0], 2)
        status, _, error = self.run_command(*self.words, "--corners", "missing", "-o", "out")
        self.assertEqual((status, error), (2, "obj2mesh: missing: No such file or directory\n"))

    def test_not_over_its_corners(self):
        self.file("corners", "# none\n")
        status, _, error = self.run_command(*self.words, "--corners", "corners", "-f", "-o", "corners")
        self.assertEqual((status, error), (2, "obj2mesh: corners: is a file to read; it was not written\n"))
        self.assertEqual((self.folder / "corners").read_text(), "# none\n")


class Examples(unittest.TestCase):
    def test_written_anew(self):
        closed, _ = example_last.text()
        opened, corners = example_last.text(opened=True)
        self.assertEqual((EXAMPLES / "last.obj").read_text(), closed)
        self.assertEqual((EXAMPLES / "last-open.obj").read_text(), opened)
        self.assertEqual([int(word) for word in (EXAMPLES / "last-open.corners").read_text().split("\n", 1)[1].split()], corners)


if __name__ == "__main__":
    unittest.main()
