"""The tangent vectors of a face (rules D7 to D11 of docs/SPECIFICATION.md), computed once more.

A vector is written here by its place in one of the two tangent patches, u(i,j) or v(i,j), from the control points b(i,j) and the vertices
q0 to q3, as in section 3 of Loop and Schaefer; there are no half-edges and no twins. All is in fractions, and each vector is rounded once,
halves to the even number. Beside it stands the vector with the cosines themselves, in decimals.
tools/tangent_trials.py and tools/tests/test_tangents.py use it.
"""

from fractions import Fraction
from itertools import product

from cosines import SCALE, cosine, edge_weight, face_weight, in_digits, real_edge_weight, real_face_weight
from patches import Surface

# The places of the vectors u(i,j) and of the vectors v(i,j), each as (i, j), in the order of the list; and the list's length.
U_PLACES = [(i, j) for j, i in product(range(4), range(3))]
V_PLACES = [(i, j) for j, i in product(range(3), range(4))]
TANGENTS = 3 * len(U_PLACES + V_PLACES)

# How far the sum across an edge may be from twice the cosine term, in units.
ACROSS = 7


# ---- The two corrected vectors on a side, before they are rounded: c0 and c1 are the cosines at its start and its end.


def first_term(c0, c1, u0, u1):
    """The cosine term near the start."""
    return (2 * c0 * u1 - c1 * u0) / 3


def second_term(c0, c1, u1, u2):
    """The cosine term near the end."""
    return (c0 * u2 - 2 * c1 * u1) / 3


# ---- The vectors of a face.


class TangentSurface(Surface):
    """The tangent patches of the faces of an accepted mesh."""

    def valence(self, p):
        return len(self.about[p])

    def ring(self, p, q):
        """The neighbours of an inner vertex p from q on, each with the vertex across from p in the face between it and the next one."""
        # In a face p comes after the one neighbour and before the other.
        following = {face[(face.index(p) + 1) % 4]: (self.across(face, p), face[face.index(p) - 1]) for face in self.about[p]}
        found = []
        for _ in self.about[p]:
            across, after = following[q]
            found.append((q, across))
            q = after
        return found

    def weighted(self, p, q, edge, face):
        """The sum over the ring of p from q on, with these weights of the neighbours and of the vertices across: x, y and z."""
        n = self.valence(p)
        terms = [term for i, (e, a) in enumerate(self.ring(p, q)) for term in ((edge(n, i), self.points[e]), (face(n, i), self.points[a]))]
        return [sum(weight * point[k] for weight, point in terms) for k in range(3)]

    def corner_vector(self, p, q):
        """The vector at p along the edge to q."""
        return [round(Fraction(256 * x, SCALE)) for x in self.weighted(p, q, edge_weight, face_weight)]

    @in_digits
    def real_corner_vector(self, p, q):
        """The same by equation (2)."""
        return [256 * x for x in self.weighted(p, q, real_edge_weight, real_face_weight)]

    def cosine_at(self, p):
        return Fraction(cosine(self.valence(p)), SCALE)

    def tangent_patches(self, f, b, t):
        """One coordinate of the vectors u(i,j) and v(i,j) of face f by (i, j), from its control values b by (i, j) and from its corner
        vectors t by their two vertices."""
        q0, q1, q2, q3 = self.faces[f]
        c0, c1, c2, c3 = map(self.cosine_at, self.faces[f])
        # Equation (1): differences of control points.
        u = {(i, j): 3 * (b[i + 1, j] - b[i, j]) for i, j in U_PLACES}
        v = {(i, j): 3 * (b[i, j + 1] - b[i, j]) for i, j in V_PLACES}
        # Equation (2): the corners, with the other sign at the far end of an edge.
        u[0, 0], u[2, 0], u[0, 3], u[2, 3] = t[q0, q1], -t[q1, q0], t[q3, q2], -t[q2, q3]
        v[0, 0], v[0, 2], v[3, 0], v[3, 2] = t[q0, q3], -t[q3, q0], t[q1, q2], -t[q2, q1]
        # The corrected vectors of the sides q0 q1 and q0 q3.
        v[1, 0] = round(first_term(c0, c1, u[0, 0], u[1, 0]) + 3 * (b[1, 1] - b[1, 0]))
        v[2, 0] = round(second_term(c0, c1, u[1, 0], u[2, 0]) + 3 * (b[2, 1] - b[2, 0]))
        u[0, 1] = round(first_term(c0, c3, v[0, 0], v[0, 1]) + 3 * (b[1, 1] - b[0, 1]))
        u[0, 2] = round(second_term(c0, c3, v[0, 1], v[0, 2]) + 3 * (b[1, 2] - b[0, 2]))
        # Those of the sides q3 q2 and q1 q2: from the side inwards, and then with the other sign.
        v[1, 2] = -round(first_term(c3, c2, u[0, 3], u[1, 3]) + 3 * (b[1, 2] - b[1, 3]))
        v[2, 2] = -round(second_term(c3, c2, u[1, 3], u[2, 3]) + 3 * (b[2, 2] - b[2, 3]))
        u[2, 1] = -round(first_term(c1, c2, v[3, 0], v[3, 1]) + 3 * (b[2, 1] - b[3, 1]))
        u[2, 2] = -round(second_term(c1, c2, v[3, 1], v[3, 2]) + 3 * (b[2, 2] - b[3, 2]))
        return u, v

    def tangents(self, f):
        """The list of face f: the vectors u(i,j) and then the vectors v(i,j), x, y and z of each."""
        face, patch = self.faces[f], self.patch(f)
        edges = [(face[s], face[e]) for s in range(4) for e in ((s + 1) % 4, s - 1)]
        corners = {edge: self.corner_vector(*edge) for edge in edges}
        found = []
        for k in range(3):
            b = {(i, j): patch[3 * (i + 4 * j) + k] for i, j in product(range(4), repeat=2)}
            u, v = self.tangent_patches(f, b, {edge: vector[k] for edge, vector in corners.items()})
            found.append([u[place] for place in U_PLACES] + [v[place] for place in V_PLACES])
        return [x for three in zip(*found) for x in three]


# ---- What the call answers.


def on_boundary(reading, g):
    """Whether face g of a mesh, if there is one, has a corner on the boundary."""
    return g < len(reading.quads) and not all(reading.inner[p] for p in reading.quads[g])


def tangent_causes(reading, g, length):
    """The numbers of all causes that the call on a mesh, a face number and a list of this length meets, in order."""
    met = {12: g >= reading.mesh.f, 18: on_boundary(reading, g) or length != TANGENTS}
    return reading.causes() + [number for number, holds in met.items() if holds]


def tangents_after(reading, g, tangents):
    """The list after the call."""
    if tangent_causes(reading, g, len(tangents)):
        return tangents
    return TangentSurface(reading.points, reading.mesh.tags, reading.faces).tangents(g)


# ---- The list of a face, seen from its corners, and from its sides.


def vector(tangents, kind, i, j):
    """The vector u(i,j) or v(i,j) in a list."""
    at = 3 * U_PLACES.index((i, j)) if kind == "u" else 3 * (len(U_PLACES) + V_PLACES.index((i, j)))
    return tangents[at : at + 3]


def negated(numbers):
    return [-x for x in numbers]


def begun_one_later(tangents):
    """The list of the same face begun one corner later: its u runs where v ran, and its v against u."""
    u = [vector(tangents, "v", 3 - j, i) for i, j in U_PLACES]
    v = [negated(vector(tangents, "u", 2 - j, i)) for i, j in V_PLACES]
    return [x for found in u + v for x in found]


def mirror_image(tangents):
    """The list of the face in the mirror image: u and v change places, and x its sign."""
    found = [vector(tangents, "v", j, i) for i, j in U_PLACES] + [vector(tangents, "u", j, i) for i, j in V_PLACES]
    return [number for x, y, z in found for number in (-x, y, z)]


# The vectors on each side of a face: the three along it, which run with the side where the sign is 1, and the two corrected ones, near its
# start and near its end, which point into the face where the sign is 1.
SIDES = (
    (1, ("u", 0, 0), ("u", 1, 0), ("u", 2, 0), 1, ("v", 1, 0), ("v", 2, 0)),
    (1, ("v", 3, 0), ("v", 3, 1), ("v", 3, 2), -1, ("u", 2, 1), ("u", 2, 2)),
    (-1, ("u", 2, 3), ("u", 1, 3), ("u", 0, 3), -1, ("v", 2, 2), ("v", 1, 2)),
    (-1, ("v", 0, 2), ("v", 0, 1), ("v", 0, 0), 1, ("u", 0, 2), ("u", 0, 1)),
)


def side_vectors(tangents, s):
    """The vectors on side s: the three along it, the one at its start first; and the two into the face."""
    along, *three, into, near_start, near_end = SIDES[s]
    turned = lambda sign, place: [sign * x for x in vector(tangents, *place)]
    return [turned(along, place) for place in three], [turned(into, place) for place in (near_start, near_end)]


def across(own, other, s, t, c0, c1):
    """At either end of an edge, the sum of the two vectors that point away from it into both faces, less twice the cosine term.

    The edge is side s of a face with the list `own` and side t of one with the list `other`; c0 and c1 are the cosines at the start and
    the end of side s. Returns x, y and z near its start, and those near its end.
    """
    (u0, u1, u2), (near_start, near_end) = side_vectors(own, s)
    _, (other_start, other_end) = side_vectors(other, t)
    at_start = [a + b - 2 * first_term(c0, c1, x, y) for a, b, x, y in zip(near_start, other_end, u0, u1)]
    at_end = [a + b - 2 * second_term(c0, c1, x, y) for a, b, x, y in zip(near_end, other_start, u1, u2)]
    return at_start, at_end
