"""docs/COMPATIBILITY.md: the exact surface beside Catmull-Clark's limit, where the page has them the same and where it has them differ.

A mesh is subdivided three times by Catmull-Clark's rules, in fractions. The boundary is a curve of its own there, and a vertex with one face is
kept (EDGE_AND_CORNER). Each vertex has a limit then, a point of the limit surface at a place of the face that it lies in.
"""

import random
import sys
import unittest
from fractions import Fraction
from itertools import product
from pathlib import Path

sys.path.insert(0, str(Path(__file__).resolve().parent.parent))

from patches import Surface, exact_samples, side_place
from shapes import closed_fan, cube, grid, notched, open_fan, ring, square, strip, torus

LEVELS = 3
STEPS = 2**LEVELS
CORNERS = ((0, 0), (1, 0), (1, 1), (0, 1))


def mixed(divisor, *terms):
    """The sum of the terms, each a weight and the points that have it, over the divisor."""
    assert divisor == sum(weight * len(points) for weight, points in terms)
    return [sum(weight * point[k] for weight, points in terms for point in points) / Fraction(divisor) for k in range(3)]


class Level:
    """Points by vertex, and faces, each with the face of the first mesh that it lies in and its place there."""

    def __init__(self, points, faces):
        self.points, self.faces = points, faces
        self.about, self.beside = {}, {}
        for face, _ in faces:
            for s, p in enumerate(face):
                self.about.setdefault(p, []).append(face)
                self.beside.setdefault(frozenset((p, face[(s + 1) % 4])), []).append(face)

    def at(self, vertices):
        return [self.points[p] for p in vertices]

    def neighbours(self, p, boundary):
        """The points that edges join to p: of boundary edges, or of all."""
        edges = [edge for edge, faces in self.beside.items() if p in edge and (len(faces) == 1 or not boundary)]
        return self.at(q for edge in edges for q in edge if q != p)

    def across(self, p):
        return self.at(face[(face.index(p) + 2) % 4] for face in self.about[p])

    def vertex_rule(self, p, inner, boundary):
        """A rule for inner vertices, by n, and one for boundary vertices, by the weight of p; a vertex with one face stays."""
        ends, n = self.neighbours(p, True), len(self.about[p])
        if ends and n == 1:
            return self.points[p]
        if ends:
            return mixed(boundary + 2, (boundary, self.at([p])), (1, ends))
        own, edges, faces = inner(n)
        return mixed(own + n * (edges + faces), (own, self.at([p])), (edges, self.neighbours(p, False)), (faces, self.across(p)))

    def moved(self, p):
        """Where p goes in a step."""
        return self.vertex_rule(p, lambda n: (4 * n * n - 7 * n, 6, 1), 6)

    def limit(self, p):
        return self.vertex_rule(p, lambda n: (n * n, 4, 1), 4)

    def edge_point(self, edge):
        faces, ends = self.beside[edge], self.at(edge)
        return mixed(2, (1, ends)) if len(faces) == 1 else mixed(4, (1, ends), (1, [self.face_point(face) for face in faces]))

    def face_point(self, face):
        return mixed(4, (1, self.at(face)))

    def refined(self):
        """The next level: a face of it for each corner of each face."""
        points, faces = {}, []
        for face, (root, a, b) in self.faces:
            edges = [frozenset((face[s], face[(s + 1) % 4])) for s in range(4)]
            points[face] = self.face_point(face)
            points.update({edge: self.edge_point(edge) for edge in edges})
            points.update({(p,): self.moved(p) for p in face})
            q, e = [(p,) for p in face], edges
            parts = ((q[0], e[0], face, e[3]), (e[0], q[1], e[1], face), (face, e[1], q[2], e[2]), (e[3], face, e[2], q[3]))
            faces += [(part, (root, 2 * a + i, 2 * b + j)) for part, (i, j) in zip(parts, CORNERS)]
        return Level(points, faces)


def limits(points, faces):
    """The limit at each place of each face."""
    level = Level(dict(enumerate(points)), [(face, (root, 0, 0)) for root, face in enumerate(faces)])
    for _ in range(LEVELS):
        level = level.refined()
    found = [{} for _ in faces]
    for face, (root, a, b) in level.faces:
        found[root].update({(a + i, b + j): level.limit(p) for p, (i, j) in zip(face, CORNERS)})
    return found


def both(shape):
    """The limit and the exact surface of each face of a shape with random points."""
    source = random.Random(20250610)
    points = [[source.randint(-99, 99) for _ in range(3)] for _ in range(shape.vertices)]
    surface = Surface(points, [0] * shape.vertices, shape.faces)
    patches = [[x for j, i in product(range(4), repeat=2) for x in surface.point(face, i, j)] for face in shape.faces]
    return list(zip(limits(points, shape.faces), (exact_samples(patch, STEPS) for patch in patches)))


class Compatibility(unittest.TestCase):
    def test_regular(self):
        """Inner vertices with four faces, boundary vertices with two or one."""
        for shape in (torus(3, 3), ring(4), square(), strip(3), grid(2, 2), grid(3, 3)):
            for limit, exact in both(shape):
                self.assertEqual(limit, exact)

    def test_other_valences(self):
        """A face differs exactly where it has a vertex of another valence."""
        for shape, about in ((notched(3, 3), 10), (closed_fan(5), 0), (open_fan(3), 0)):
            for face, (limit, exact) in zip(shape.faces, both(shape)):
                self.assertEqual(limit == exact, about not in face)

    def test_corner_points(self):
        for shape in (cube(), closed_fan(3), closed_fan(7), open_fan(1), open_fan(4), notched(2, 2)):
            for limit, exact in both(shape):
                for a, b in CORNERS:
                    self.assertEqual(limit[STEPS * a, STEPS * b], exact[STEPS * a, STEPS * b])

    def test_boundary_curve(self):
        for shape in (square(), open_fan(5), notched(2, 2), grid(3, 2)):
            sides = [(face[s], face[(s + 1) % 4]) for face in shape.faces for s in range(4)]
            for face, (limit, exact) in zip(shape.faces, both(shape)):
                for s in range(4):
                    if (face[(s + 1) % 4], face[s]) not in sides:
                        for t in range(STEPS + 1):
                            self.assertEqual(limit[side_place(s, t, STEPS)], exact[side_place(s, t, STEPS)])


if __name__ == "__main__":
    unittest.main()
