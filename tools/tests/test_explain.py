"""tools/explain: its numbers against those of the proved program on every vector, the places that it names, accepted files."""

import os
import re
import subprocess
import unittest

from cases import ROOT, SQUARE, VECTORS, Case, loaded, vector

from mesh_files import FileMesh
from meshes import Mesh, changed, numbered
from shapes import Shape, cube, flipped, glue, grid, isolated, join, open_fan, pillow, square

explain = loaded("explain")


def file(shape, n=1, **changes):
    """The bytes of a mesh file."""
    mesh = changed(shape if isinstance(shape, Mesh) else numbered(shape), **changes)
    return FileMesh(**vars(mesh), n=n).bytes()


def said(content):
    """The lines of an explanation, without what docs/REFUSALS.md says."""
    _, lines = explain.explained(content)
    return [line.strip() for line in lines if not re.match(r"  the (usual fault|repair): ", line)]


class Program(unittest.TestCase):
    """The proved program on every vector."""

    @classmethod
    def setUpClass(cls):
        # the tool builds the program where it is missing
        subprocess.run([ROOT / "tools" / "tessellate", SQUARE], stdout=subprocess.DEVNULL, check=True)
        cls.program = ROOT / "crates" / "tessellate" / "out" / "tessellate"

    def test_every_vector(self):
        names = (VECTORS / "args").read_text().split()
        self.assertEqual(sorted(names), sorted(os.listdir(VECTORS / "data")))
        accepted = 0
        for name in names:
            with self.subTest(name):
                content = vector(name).read_bytes()
                printed = subprocess.run([self.program], input=content, stdout=subprocess.PIPE, check=True).stdout
                first, lines = printed.partition(b"\n")[0].decode(), printed.count(b"\n")
                number, said = explain.explained(content)
                if number is None:
                    accepted += 1
                    counts = re.match(r"  counts: V = (\d+) vertices, F = (\d+) faces?, E = (\d+) edges, B = (\d+) boundary", said[1])
                    self.assertEqual(first, " ".join(counts.groups()))
                    self.assertRegex(said[0], rf"^accepted, with N = \d+: the listing has 1 \+ {lines - 1} lines$")
                    self.assertEqual("closed" in said[2], counts[4] == "0")
                else:
                    self.assertEqual(first, f"refused {number}")
                    self.assertRegex(said[0], rf"^refused {number}: \w")
        self.assertGreater(accepted, 50)
        self.assertGreater(len(names) - accepted, 150)


class Places(unittest.TestCase):
    """The first place at fault, with the others counted."""

    def first(self, content, number, place):
        lines = said(content)
        self.assertRegex(lines[0], rf"^refused {number}: ")
        self.assertEqual(lines[1], place)
        return lines[2:]

    def test_sizes(self):
        self.assertEqual(self.first(b"abc", 15, "the file has 3 bytes, and its sizes alone take 6"), [])
        self.assertEqual(self.first(b"", 15, "the file has 0 bytes, and its sizes alone take 6"), [])
        self.assertEqual(self.first(SQUARE.read_bytes() + b"\0", 15, "the file has 67 bytes, and V = 4, F = 1 ask for 66"), [])
        self.assertEqual(self.first(file(join(grid(16, 16), square())), 1, "V is 293, F is 257"), [])
        self.assertEqual(self.first(b"\xff" * 6, 1, "V is 65535, F is 65535"), [])

    def test_coordinate(self):
        content = file(cube(), positions={23: -1048577, 4: 1048577, 5: 7000000})
        rest = self.first(content, 3, "vertex 1 has y = 1,048,577 micrometres; 1 more vertex at fault")
        self.assertEqual(rest, ["vertex 1 is at (0.021, 1048.577, 7000.000) mm"])
        self.first(file(cube(), positions={6: 1048576, 7: -1048576, 8: -1048577}), 3, "vertex 2 has z = -1,048,577 micrometres")

    def test_tag(self):
        self.first(file(square(), tags={2: 255, 3: 2}), 4, "vertex 2 has the tag 255; 1 more vertex at fault")

    def test_vertex_that_is_not_there(self):
        place = "face 2 names vertex 9, and the vertices are those from 0 to 7; 1 more face at fault"
        rest = self.first(file(cube(), faces={10: 9, 23: 8}), 5, place)
        self.assertEqual(rest[0], "its vertex 0 is at (0.000, 0.000, 0.000) mm")
        self.first(file(square(), faces=[4, 5, 6, 7]), 5, "face 0 names vertex 4, and the vertices are those from 0 to 3")

    def test_vertices_that_are_not_there_have_no_faults(self):
        faces = [0, 1, 2, 3, 9, 4, 5, 6, 9, 7, 3, 2]
        place = "face 1 names vertex 9, and the vertices are those from 0 to 7; 1 more face at fault"
        rest = self.first(file(join(square(), square()), f=3, faces=faces), 5, place)
        self.assertEqual(rest, ["its vertex 4 is at (0.084, 0.016, -0.004) mm"])

    def test_text(self):
        hint = f"  {explain.TEXT}"
        for text in ("# Blender v3.6 \u00fc\nv 0 0 0\n" * 40, "4 1 4 4\r\n0 0 0 0 0 0\r\n", "solid last\n"):
            number, lines = explain.explained(text.encode())
            self.assertEqual((number, lines[-1]), (1, hint))
        for content in (b"abc", SQUARE.read_bytes(), b"\xff" * 66, b"\x01\x02\x03" * 22):
            self.assertNotIn(hint, explain.explained(content)[1])

    def test_vertex_twice(self):
        rest = self.first(file(join(cube(), Shape([(2, 0, 1, 0)]))), 6, "face 6 names vertex 8 twice")
        self.assertEqual(rest[0], "its vertex 8 is at (0.168, 0.064, -0.008) mm")
        self.first(file(Shape([(3, 3, 3, 1), (0, 1, 2, 3)])), 6, "face 0 names vertex 3 3 times")

    def test_half_edge(self):
        place = "face 5 has half-edge 20, from vertex 7 to vertex 4, and face 1 has it too; 3 more half-edges at fault"
        rest = self.first(file(flipped(cube(), 5)), 7, place)
        self.assertEqual(rest, ["vertex 7 is at (0.147, 0.049, -0.007) mm", "broken as well: 9 (4 vertices)"])

    def test_loose_vertex(self):
        self.first(file(join(square(), isolated(), square(), isolated())), 8, "vertex 4 is in no face; 1 more vertex at fault")

    def test_fans(self):
        self.first(file(glue(cube(), glue(square(), square()))), 9, "the 5 corners at vertex 0 form 3 fans")

    def test_valences(self):
        self.first(file(pillow()), 10, "vertex 0 is inner and has 2 faces; 3 more vertices at fault")
        self.first(file(open_fan(9)), 10, "vertex 0 is on the boundary and has 9 faces")

    def test_inner_corner(self):
        self.first(file(grid(3, 3), tags={0: 1, 5: 1, 10: 1}), 11, "vertex 5 is inner and tagged as a corner; 1 more vertex at fault")

    def test_steps(self):
        self.assertEqual(self.first(file(square(), 33), 14, "N is 33"), [])

    def test_causes_beside_the_first(self):
        rest = self.first(file(pillow(), 0, tags={1: 1}), 10, "vertex 0 is inner and has 2 faces; 3 more vertices at fault")
        self.assertEqual(rest[1], "broken as well: 11 (1 vertex), 14")


class Accepted(unittest.TestCase):
    def test_closed(self):
        lines = said(vector("last-1-step").read_bytes())
        self.assertEqual(lines[0], "accepted, with N = 1: the listing has 1 + 656 lines")
        self.assertEqual(lines[1], "counts: V = 166 vertices, F = 164 faces, E = 328 edges, B = 0 boundary half-edges")
        self.assertEqual(lines[2:4], ["1 part, closed: no boundary", "inner vertices: 14 of valence 3, 146 of valence 4, 6 of valence 5"])
        self.assertEqual([line.split()[0] for line in lines[4:]], ["x", "y", "z"])

    def test_open(self):
        frame = Shape(grid(3, 3).faces[:4] + grid(3, 3).faces[5:])
        lines = said(file(frame, 2, tags={0: 1, 3: 1}))
        self.assertEqual(lines[2], "1 part, open: 2 loops of boundary, of 4, 12 half-edges")
        self.assertEqual(lines[3:5], ["inner vertices: none", "boundary vertices by the number of their faces: 4 of 1, 8 of 2, 4 of 3"])
        self.assertEqual(lines[5], "tagged as corners: 2")
        self.assertEqual(lines[6], "x from 0.000 to 0.315 mm")

    def test_parts(self):
        self.assertEqual(said(file(join(cube(), square(), cube())))[2], "3 parts, open: 1 loop of boundary, of 4 half-edges")
        self.assertEqual(said(file(join(cube(), cube())))[2], "2 parts, closed: no boundary")


class Run(Case):
    """Exit statuses, and what is printed where."""

    def test_accepted(self):
        status, output, error = self.run_command("explain", SQUARE)
        self.assertEqual((status, error), (0, ""))
        self.assertTrue(output.startswith(f"{SQUARE}: accepted, with N = 1".encode()))

    def test_refused(self):
        status, output, error = self.run_command("explain", "-", input=vector("bow-tie-refused-9").read_bytes())
        self.assertEqual((status, error), (1, ""))
        self.assertTrue(output.startswith(b"standard input: refused 9: the corners at a vertex are not one fan"))
        self.assertIn(b"  the repair: Split the vertex", output)

    def test_names_that_are_no_text(self):
        name = b"\xff.mesh"
        os.rename(self.file("mesh", SQUARE.read_bytes()), os.path.join(os.fsencode(self.folder), name))
        for environment in (None, {**os.environ, "LC_ALL": "C", "PYTHONUTF8": "0", "PYTHONCOERCECLOCALE": "0"}):
            status, output, error = self.run_command("explain", name, environment=environment)
            self.assertEqual((status, output.partition(b",")[0], error), (0, name + b": accepted", ""))

    def test_failures(self):
        self.assertEqual(self.run_command("explain", "missing"), (2, b"", "explain: missing: No such file or directory\n"))
        self.assertEqual(self.run_command("explain")[0], 2)
        with open("/dev/full", "wb") as full:
            status, _, error = self.run_command("explain", SQUARE, stdout=full)
        self.assertEqual((status, error), (2, "explain: standard output: No space left on device; not all of it was written\n"))


if __name__ == "__main__":
    unittest.main()
