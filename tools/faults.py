"""Where a mesh breaks a rule, in words: the place of a fault that tools/meshes.py found, by the names that the reader knows it by."""

from command import plural
from meshes import COORDINATES

# What the places of a cause are, one of them and several.
VERTEX, FACE, HALF_EDGE = ("vertex", "vertices"), ("face", "faces"), ("half-edge", "half-edges")
KINDS = {3: VERTEX, 4: VERTEX, 5: FACE, 6: FACE, 7: HALF_EDGE, 8: VERTEX, 9: VERTEX, 10: VERTEX, 11: VERTEX}


class Names:
    """The names of vertices and faces: their numbers in the mesh file."""

    def vertex(self, p):
        return f"vertex {p}"

    def face(self, f):
        return f"face {f}"

    def half_edge(self, c):
        return f"half-edge {c}"


def far_coordinate(reading, p, names):
    far = [(name, x) for name, x in zip("xyz", reading.points[p]) if x not in COORDINATES]
    return f"{names.vertex(p)} has {far[0][0]} = {far[0][1]:,} micrometres"


def other_tag(reading, p, names):
    return f"{names.vertex(p)} has the tag {reading.mesh.tags[p]}"


def no_vertex(reading, f, names):
    missing = next(p for p in reading.quads[f] if p >= reading.mesh.v)
    return f"{names.face(f)} names vertex {missing}, and the vertices are those from 0 to {reading.mesh.v - 1}"


def vertex_twice(reading, f, names):
    quad = reading.quads[f]
    p = max(quad, key=quad.count)
    often = {2: "twice"}.get(quad.count(p), f"{quad.count(p)} times")
    return f"{names.face(f)} names {names.vertex(p)} {often}"


def same_half_edge(reading, c, names):
    p, q = reading.sides[c]
    before = reading.sides.index((p, q)) // 4
    half_edge = f"{names.half_edge(c)}, from {names.vertex(p)} to {names.vertex(q)}"
    return f"{names.face(c // 4)} has {half_edge}, and {names.face(before)} has it too"


def no_face(_, p, names):
    return f"{names.vertex(p)} is in no face"


def several_fans(reading, p, names):
    return f"the {len(reading.corners[p])} corners at {names.vertex(p)} form {len(reading.fans[p])} fans"


def valence(reading, p, names):
    where = "inner" if reading.inner[p] else "on the boundary"
    return f"{names.vertex(p)} is {where} and has {plural(len(reading.corners[p]), 'face')}"


def inner_corner(reading, p, names):
    return f"{names.vertex(p)} is inner and tagged as a corner"


WORDS = {
    3: far_coordinate,
    4: other_tag,
    5: no_vertex,
    6: vertex_twice,
    7: same_half_edge,
    8: no_face,
    9: several_fans,
    10: valence,
    11: inner_corner,
}


def first_fault(reading, number, names):
    """The first place where a cause from 3 to 11 is met, with the others counted."""
    first, *others = reading.faults()[number]
    more = f"; {plural(len(others), *(f'more {word}' for word in KINDS[number]))} at fault" if others else ""
    return WORDS[number](reading, first, names) + more


def first_vertex(reading, number):
    """A vertex of the first place where a cause from 3 to 11 is met; none where a face has none that is there."""
    first, kind = reading.faults()[number][0], KINDS[number]
    if kind is HALF_EDGE:
        return reading.sides[first][0]
    if kind is VERTEX:
        return first
    quad = [p for p in reading.quads[first] if p < reading.mesh.v]
    return max(quad, key=quad.count, default=None)
