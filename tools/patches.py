"""The rules of docs/SPECIFICATION.md read once more: control points as fractions, samples, marks, seams, renumbering and mirror images.

A mask is read off its rule (B6 to B11), over the sets of vertices and faces that the rule names; there are no half-edges,
twins or fans here. tools/meshes.py, tools/trial_forms.py with the trials, and tools/vectors.py use it.
"""

from dataclasses import dataclass
from fractions import Fraction
from itertools import product

# The places of a patch, x, y and z of each of its points, and their number.
PATCH = 48
POINTS = 16


def whole(point):
    """Whether rounding leaves nothing in any coordinate of a point."""
    return all(x.denominator == 1 for x in point)


class Surface:
    """What rules B1 to B12 say of the patches of an accepted mesh, given its vertices, tags and faces."""

    def __init__(self, points, tags, faces):
        self.points, self.tags, self.faces = points, tags, faces
        # The faces that have a vertex, those that have a side between two vertices, and the vertices that a side joins to one.
        self.about, self.beside, self.joined = {}, {}, {}
        for face in faces:
            for s, p in enumerate(face):
                q = face[(s + 1) % 4]
                self.about.setdefault(p, []).append(face)
                self.beside.setdefault(frozenset((p, q)), []).append(face)
                self.joined.setdefault(p, set()).add(q)
                self.joined.setdefault(q, set()).add(p)

    def boundary_neighbours(self, p):
        """The far ends of the boundary half-edges at p; none where p is inner."""
        return {q for q in self.joined[p] if len(self.beside[frozenset((p, q))]) == 1}

    def weight(self, p):
        """The weight w of rule B4: the number of faces; on the boundary twice that, or 4 where there is one."""
        n = len(self.about[p])
        if not self.boundary_neighbours(p):
            return n
        return 4 if n == 1 else 2 * n

    @staticmethod
    def across(face, p):
        return face[(face.index(p) + 2) % 4]

    def neighbours(self, face, p):
        """The neighbours of p in a face."""
        return set(face) - {p, self.across(face, p)}

    def mask(self, divisor, *terms):
        """The sum of the terms, each a weight and the vertices that have it, over the divisor: x, y and z."""
        assert divisor == sum(weight * len(vertices) for weight, vertices in terms)
        total = lambda k: sum(weight * self.points[q][k] for weight, vertices in terms for q in vertices)
        return [Fraction(total(k), divisor) for k in range(3)]

    def interior_point(self, face, p):
        w = self.weight(p)
        return self.mask(w + 5, (w, [p]), (2, self.neighbours(face, p)), (1, [self.across(face, p)]))

    def edge_point(self, p, q):
        """The edge point on the edge from p to q, near p."""
        faces, w = self.beside[frozenset((p, q))], self.weight(p)
        if len(faces) == 1:
            return self.mask(3, (2, [p]), (1, [q]))
        others = [a for face in faces for a in self.neighbours(face, p) - {q}]
        return self.mask(2 * w + 10, (2 * w, [p]), (4, [q]), (2, others), (1, [self.across(face, p) for face in faces]))

    def corner_point(self, p):
        n, boundary = len(self.about[p]), self.boundary_neighbours(p)
        if not boundary:
            return self.mask(n * (n + 5), (n * n, [p]), (4, self.joined[p]), (1, [self.across(face, p) for face in self.about[p]]))
        if self.tags[p] == 1 or n == 1:
            return self.mask(1, (1, [p]))
        return self.mask(6, (4, [p]), (1, boundary))

    def point(self, face, i, j):
        """Point b(i,j) of the face's patch, near the corner that is nearest: q0 at (0,0), q1 at (3,0), q2 at (3,3), q3 at (0,3)."""
        q0, q1, q2, q3 = face
        near_u, near_v = i >= 2, j >= 2
        corner = lambda far_u, far_v: ((q0, q3), (q1, q2))[far_u][far_v]
        p = corner(near_u, near_v)
        if i in (1, 2) and j in (1, 2):
            return self.interior_point(face, p)
        if i in (1, 2):
            return self.edge_point(p, corner(not near_u, near_v))
        if j in (1, 2):
            return self.edge_point(p, corner(near_u, not near_v))
        return self.corner_point(p)

    def controls(self, f):
        """The control points of patch f in 1/256 micrometre before they are rounded, b(i,j) at place i + 4j."""
        return [[256 * x for x in self.point(self.faces[f], i, j)] for j, i in product(range(4), repeat=2)]

    def patch(self, f):
        """The control values of patch f, each rounded once; Python's round takes halves to even."""
        return [round(x) for point in self.controls(f) for x in point]

    def marks(self, f):
        """The marks of patch f (rule B13), a byte a point: 1 where rounding left nothing in any coordinate, else 0."""
        return [int(whole(point)) for point in self.controls(f)]


def points(marks):
    """The marks of a patch by the places of its points, {(i, j): mark}."""
    return {(i, j): marks[i + 4 * j] for j, i in product(range(4), repeat=2)}


# ---- Samples.


def exact_samples(patch, n):
    """The samples of a patch, {(a, b): [x, y, z]}, before they are rounded."""
    weights = [((n - a) ** 3, 3 * a * (n - a) ** 2, 3 * a**2 * (n - a), a**3) for a in range(n + 1)]
    total = lambda u, v, k: sum(u[i] * v[j] * patch[3 * (i + 4 * j) + k] for i in range(4) for j in range(4))
    places = product(range(n + 1), repeat=2)
    return {(a, b): [Fraction(total(weights[a], weights[b], k), n**6) for k in range(3)] for b, a in places}


def rounded(samples):
    return {place: [round(x) for x in sample] for place, sample in samples.items()}


def sample_mark(marks, sample):
    """The mark of a sample (rule S7), from the bytes of its patch and the sample before it is rounded: 1 where it is exact, else 0."""
    return int(marks == [1] * POINTS and whole(sample))


def sample_marks(marks, samples):
    return {place: sample_mark(marks, sample) for place, sample in samples.items()}


def side_place(s, t, n):
    """Place t of side s of a face."""
    return ((t, 0), (n, t), (n - t, n), (0, n - t))[s]


def assert_seams(samples, twins, n):
    """That the samples of each face, as a list, are the same along each half-edge and its twin."""
    for side, twin in enumerate(twins):
        for t in range(n + 1 if twin is not None else 0):
            there = samples[twin // 4][side_place(twin % 4, n - t, n)]
            assert samples[side // 4][side_place(side % 4, t, n)] == there, (side, twin, t)


# ---- Renumbering.


@dataclass
class Renumbering:
    """The new number of each vertex, the old face at each place of the new order, and how many corners later each of those begins."""

    vertices: list
    order: list
    starts: list

    def moved(self, entries):
        """Entries by vertex, taken along."""
        old = dict(zip(self.vertices, entries))
        return [old[p] for p in range(len(entries))]

    def faces(self, faces):
        """The faces in their new order, with the new numbers, each begun where it begins now."""
        turned = [faces[f][s:] + faces[f][:s] for f, s in zip(self.order, self.starts)]
        return [tuple(self.vertices[p] for p in face) for face in turned]

    def assert_same(self, old, new, n):
        """That the samples of each face, as a list, or their marks are the same at the places that match."""
        for g, (f, start) in enumerate(zip(self.order, self.starts)):
            for place, sample in old[f].items():
                a, b = place
                for _ in range(start):
                    a, b = b, n - a
                assert new[g][a, b] == sample, (f, place)


def shuffled(random, vertices, faces):
    """A renumbering of so many vertices and faces."""
    starts = [random.randrange(4) for _ in range(faces)]
    return Renumbering(random.sample(range(vertices), vertices), random.sample(range(faces), faces), starts)


# ---- Mirror images: u and v change places, and x its sign.


def mirrored_side(side):
    """The side of a mesh that a side of its image runs along, backwards; and the side of the image for one of the mesh."""
    return side - side % 4 + 3 - side % 4


def mirrored_point(point):
    x, y, z = point
    return [-x, y, z]


def mirrored_patch(patch):
    """The patch of a face in the image: point b(i,j) is what b(j,i) was, with x negated."""
    point = lambda i, j: patch[3 * (i + 4 * j) : 3 * (i + 4 * j) + 3]
    return [x for j, i in product(range(4), repeat=2) for x in mirrored_point(point(j, i))]


def mirrored_marks(marks):
    """The marks of a face in the image: that of b(i,j) is what that of b(j,i) was."""
    return [marks[j + 4 * i] for j, i in product(range(4), repeat=2)]


def mirrored_samples(samples):
    """The samples of a face in the image: sample (a,b) is what sample (b,a) was, with x negated."""
    return {(a, b): mirrored_point(samples[b, a]) for a, b in samples}
