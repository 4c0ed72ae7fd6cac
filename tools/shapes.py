"""The shapes of the trials and the vectors: a number of vertices and a list of faces, each four vertex numbers."""

from dataclasses import dataclass


@dataclass
class Shape:
    faces: list
    vertices: int = 0

    def __post_init__(self):
        self.vertices = self.vertices or 1 + max(max(face) for face in self.faces)


def join(*shapes):
    """The shapes side by side, the vertices of each numbered after those before it."""
    faces, vertices = [], 0
    for shape in shapes:
        faces += [tuple(vertices + p for p in face) for face in shape.faces]
        vertices += shape.vertices
    return Shape(faces, vertices)


def glue(one, other):
    """Two shapes with vertex 0 in common."""
    rename = lambda p: p + one.vertices - 1 if p else 0
    return Shape(one.faces + [tuple(map(rename, face)) for face in other.faces])


def square():
    return Shape([(0, 1, 2, 3)])


def cube():
    return Shape([(0, 3, 2, 1), (4, 5, 6, 7), (0, 1, 5, 4), (1, 2, 6, 5), (2, 3, 7, 6), (3, 0, 4, 7)])


def strip(n):
    """n faces in a row, vertices 2i below and 2i + 1 above."""
    return Shape([(2 * i, 2 * i + 2, 2 * i + 3, 2 * i + 1) for i in range(n)])


def ring(n):
    """A strip of n faces whose ends are joined."""
    return Shape([tuple(p % (2 * n) for p in face) for face in strip(n).faces])


def moebius(n):
    """A strip of n faces whose ends are joined after half a twist."""
    twist = {2 * n: 1, 2 * n + 1: 0}
    return Shape([tuple(twist.get(p, p) for p in face) for face in strip(n).faces])


def grid(n, m):
    """n by m faces."""
    corners = lambda i, j: ((i, j), (i + 1, j), (i + 1, j + 1), (i, j + 1))
    return Shape([tuple(a + (n + 1) * b for a, b in corners(i, j)) for j in range(m) for i in range(n)])


def notched(n, m):
    """n by m faces without the last one, so that three are left about the vertex before it."""
    return Shape(grid(n, m).faces[:-1])


def torus(n, m):
    """n by m faces, joined left to right and top to bottom."""
    corners = lambda i, j: ((i, j), (i + 1, j), (i + 1, j + 1), (i, j + 1))
    return Shape([tuple(a % n + n * (b % m) for a, b in corners(i, j)) for j in range(m) for i in range(n)])


def open_fan(k):
    """k faces in a row about vertex 0."""
    return Shape([(0, 2 * i + 1, 2 * i + 2, 2 * i + 3) for i in range(k)])


def closed_fan(n):
    """n faces all round vertex 0."""
    return Shape([(0, 2 * i + 1, 2 * i + 2, (2 * i + 2) % (2 * n) + 1) for i in range(n)])


def trapezohedron(n):
    """A closed shape: n faces about each of two poles, 0 and 1, and three about each vertex between."""
    between = lambda i: 2 + i % (2 * n)
    above = [(0, between(2 * i), between(2 * i + 1), between(2 * i + 2)) for i in range(n)]
    below = [(1, between(2 * i + 3), between(2 * i + 2), between(2 * i + 1)) for i in range(n)]
    return Shape(above + below)


def across_twice():
    """A closed shape with two faces that have the vertices 0 and 1 across from each other, and five faces between them on each side."""

    def five(a, b, v):
        """The faces within 0, a, 1, b: one in the middle, and one at each side."""
        return [(0, a, v + 1, v), (a, 1, v + 2, v + 1), (1, b, v + 3, v + 2), (b, 0, v, v + 3), (v, v + 1, v + 2, v + 3)]

    return Shape([(0, 2, 1, 3), (0, 4, 1, 5)] + five(3, 4, 6) + five(5, 2, 10))


def with_inset(shape, f):
    """The shape with a face inside face f: four faces join it to the old sides, so each old corner has one face more."""
    old, v = shape.faces[f], shape.vertices
    new = tuple(range(v, v + 4))
    between = [(old[s], old[(s + 1) % 4], new[(s + 1) % 4], new[s]) for s in range(4)]
    return Shape(shape.faces[:f] + [new] + shape.faces[f + 1 :] + between)


def pillow():
    return Shape([(0, 1, 2, 3), (3, 2, 1, 0)])


def bow_tie():
    return glue(square(), square())


def isolated():
    return Shape([], 1)


def flipped(shape, f):
    """The shape with face f turned over."""
    return Shape([face[::-1] if i == f else face for i, face in enumerate(shape.faces)])


def begun_later(shape):
    """The shape with each face begun one corner later than the one before."""
    return Shape([face[i % 4 :] + face[: i % 4] for i, face in enumerate(shape.faces)])


def renumbered(shape):
    """The shape with its vertices numbered from the other end."""
    return Shape([tuple(shape.vertices - 1 - p for p in face) for face in shape.faces])
