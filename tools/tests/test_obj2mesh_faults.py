"""tools/obj2mesh on models that cannot be mesh files, each with its line, and on models that are written with a warning."""

import unittest

from obj_cases import CORNERS, QUAD, SQUARE_OBJ, Converting, obj, vertices

from shapes import Shape, cube, flipped, grid, isolated, join, pillow, square

WHAT_TO_DO = (
    "what to do: join triangles to quads in the modeller, or subdivide once, which makes quads of any faces; export without triangulating"
)


class Unusable(Converting):
    """Models that cannot be mesh files, each with its line."""

    def test_other_faces(self):
        self.unusable(obj(square()) + "f 1 2 3\n", "in.obj:6: this face has 3 corners, and only quads are taken", WHAT_TO_DO)
        more = "; 2 other faces are no quads either"
        text = obj(square()) + "\nf 1 2 3 4 1\nf 1 2\nf 1 2 3\n"
        self.unusable(text, f"in.obj:7: this face has 5 corners, and only quads are taken{more}", WHAT_TO_DO)
        more = "; 1 other face is no quad either"
        self.unusable(obj(square()) + "f 1\nf\n", f"in.obj:6: this face has 1 corner, and only quads are taken{more}", WHAT_TO_DO)

    def test_no_face(self):
        words = "in.obj: there is no face in it: an OBJ file of a mesh has lines that begin with f"
        for text in ("", vertices(*CORNERS), "solid\nfacet normal 0 0 1\n", bytes(range(256)) * 4):
            self.unusable(text, words)

    def test_references(self):
        words = "is no reference to a vertex: v, v/vt, v//vn or v/vt/vn"
        for word in ("x", "1.0", "1/2/3/4", "/1", "1//x", "--1", "1234567890"):
            self.unusable(vertices(*CORNERS) + f"f 1 2 3 {word}\n", f"in.obj:5: {word} {words}")
        self.unusable(vertices(*CORNERS) + "f 1 2 3 0\n", "in.obj:5: there is no vertex 0, with 4 before this line")
        self.unusable(vertices(*CORNERS) + "f 1 2 3 -5\n", "in.obj:5: there is no vertex -5, with 4 before this line")
        self.unusable(QUAD + "f 1 2 3 5\n" + vertices(*CORNERS), "in.obj:2: there is no vertex 5: the file has 4")
        self.unusable(SQUARE_OBJ + "p 9\n", "in.obj:6: there is no vertex 9: the file has 4")

    def test_coordinates(self):
        for word in ("x", "nan", "inf", "1,5", "0x10", "1e", "1_000", "\u0661", "1e1000", "9" * 401):
            self.unusable(f"v 0 0 {word}\n{QUAD}", f"in.obj:1: {word[:40]} is not a decimal number")
        self.unusable(f"# two\nv 0 0\n{QUAD}", "in.obj:2: a vertex has three coordinates, and here are 2")

    def test_line_that_runs_on(self):
        self.unusable(vertices(*CORNERS) + "# more\nf 1 \\\n2 \\\n3 \\\n9\n" + QUAD, "in.obj:6: there is no vertex 9: the file has 4")
        self.unusable(vertices(*CORNERS) + "f 1 \\\n2 3 9\\", "in.obj:5: there is no vertex 9: the file has 4")

    def test_room_of_the_file(self):
        far = "this vertex is kilometres away, and a mesh file has no room for that: is --unit right?"
        for x in ("2147483647.5", "-2147483648.51", "1e300"):
            self.unusable(vertices((0, 0, 0), (9, 0, 0), (9, x, 0), (0, 9, 0)) + QUAD, f"in.obj:3: {far}")
        many = "a mesh file has room for 65535 of each, and the mesh program takes 4 to 512 vertices and 1 to 256 faces: reduce the model"
        self.unusable(obj(square()) + QUAD * 65535, f"in.obj: 4 vertices and 65536 faces: {many}")


class Warnings(Converting):
    """Models that are written, and what is wrong with them."""

    def test_vertices_that_should_be_one(self):
        apart = vertices(*[(9000 * x, 9000 * y, 0) for x, y in ((0, 0), (1, 0), (1, 1), (0, 1))])
        words = "{} is within a micrometre of {} and not the same: the surface will be open there{}; merge them by distance in the modeller"
        near, far = [("9000", "0"), ("9000.6", "0.8"), ("9001", "0")], [("9000.6", "0.9"), ("9001.001", "0")]
        for x, y in near + far:
            text = apart + vertices((x, y, 0), (18000, 0, 0), (18000, 9000, 0), (9000, 9005, 0)) + QUAD + "f 5 6 7 8\n"
            self.mesh(text, says=["in.obj:5: warning: " + words.format("vertex 5", "vertex 2", "")] if (x, y) in near else [])
        text = apart + vertices((9000, "-0.5", 0), (18000, 0, 0), (18000, 9000, 0), ("9000.25", "8999.75", 0)) + QUAD + "f 5 6 7 8\n"
        self.mesh(text, says=["in.obj:5: warning: " + words.format("vertex 5", "vertex 2", "; 1 more vertex is near another")])

    def test_vertices_of_one_face(self):
        """A short edge is no open seam; near another face it is."""
        self.mesh(vertices((0, 0, 0), ("0.9", 0, 0), (9000, 9000, 0), (0, 9000, 0)) + QUAD)

    def test_vertices_that_are_left_out_do_not_count(self):
        text = obj(square()) + vertices((0, 0, 0))
        self.mesh(text, says=["in.obj:6: note: no face uses this vertex: left out"])

    def test_small(self):
        self.mesh(obj(cube(), 142), says=["in.obj: warning: the whole model is 994 micrometres across: is --unit right?"])
        self.mesh(obj(cube(), 143))
        text = vertices((0, 0, 0), ("0.002", 0, 0), ("0.002", "0.003", 0), (0, "0.003", 0)) + QUAD
        self.mesh(text, unit="mm", says=["in.obj: warning: the whole model is 3 micrometres across: is --unit right?"])

    def test_large(self):
        takes = "the mesh program takes 4 to 512 vertices and 1 to 256 faces, and will refuse this mesh (1)"
        self.mesh(obj(join(grid(16, 16), square())), says=[f"in.obj: warning: 293 vertices and 257 faces: {takes}"])
        self.mesh(obj(join(*[square()] * 129)), says=[f"in.obj: warning: 516 vertices and 129 faces: {takes}"])
        self.mesh(obj(join(*[square()] * 128)))
        self.mesh(obj(grid(16, 16)))

    def refused(self, text, line, number, words):
        self.mesh(text, says=[f"in.obj:{line}: warning: the mesh will be refused ({number}), since {words}"])

    def test_refusals(self):
        twice = "one half-edge occurs twice the same way round: the face of line 14 has the half-edge, from vertex 8 to vertex 5, and"
        self.refused(obj(flipped(cube(), 5)), 14, 7, f"{twice} the face of line 10 has it too; 3 more half-edges at fault")
        why = "an inner vertex has fewer than 3 or more than 16 faces, or a boundary vertex more than 8"
        self.refused(obj(pillow()), 1, 10, f"{why}: vertex 1 is inner and has 2 faces; 3 more vertices at fault")
        text = obj(cube()).replace("v 1000 0 1000", "v 1048576.51 0 1000")
        self.refused(text, 2, 3, "a coordinate is beyond 1,048,576 micrometres either way: vertex 2 has x = 1,048,577 micrometres")
        text = obj(join(cube(), Shape([(0, 1, 2, 3)]))).replace("f 9 10 11 12", "f 9 10 11 10")
        note = "in.obj:12: note: no face uses this vertex: left out"
        words = "a face names one vertex twice: the face of line 19 names vertex 10 twice"
        self.mesh(text, says=[note, f"in.obj:19: warning: the mesh will be refused (6), since {words}"])

    def test_refusal_names_the_model_s_own_numbers(self):
        text = obj(join(isolated(), pillow()))
        why = "an inner vertex has fewer than 3 or more than 16 faces, or a boundary vertex more than 8: vertex 2 is inner and has 2 faces"
        says = ["in.obj:1: note: no face uses this vertex: left out"]
        self.mesh(text, says=[*says, f"in.obj:2: warning: the mesh will be refused (10), since {why}; 3 more vertices at fault"])


if __name__ == "__main__":
    unittest.main()
