"""The rules of docs/SPECIFICATION.md read once more: their limits, the check of a mesh, and the patches and samples of an accepted one.

A mesh is read by sets and dictionaries over the whole of it, its control points and samples by fractions in patches.py.
tools/trial_forms.py, with the trials, and tools/vectors.py use it.
"""

import struct
from dataclasses import dataclass
from functools import cached_property

from patches import Surface, assert_seams, exact_samples, rounded, sample_marks
from shapes import Shape, bow_tie, cube, isolated, join, pillow, square

# The limits of rules M1 to M3, T3, T6, B3 and S1.
VERTICES = range(4, 512 + 1)
FACES = range(1, 256 + 1)
COORDINATES = range(-1048576, 1048576 + 1)
TAGS = range(0, 1 + 1)
INNER_VALENCES = range(3, 16 + 1)
BOUNDARY_FACES = range(1, 8 + 1)
NO_TWIN = 65535
CONTROL = 268435456
CONTROLS = range(-CONTROL, CONTROL + 1)
STEPS = range(1, 32 + 1)


@dataclass
class Mesh:
    v: int
    f: int
    positions: list
    tags: list
    faces: list

    def packed(self):
        """The three lists as bytes, each number with its low byte first."""
        positions = struct.pack(f"<{len(self.positions)}i", *self.positions)
        return positions + bytes(self.tags) + struct.pack(f"<{len(self.faces)}H", *self.faces)


def numbered(shape):
    """A shape with positions of its own, smooth."""
    n = shape.vertices
    positions = [x for p in range(n) for x in (21 * p, p * p % 1009, -p)]
    return Mesh(n, len(shape.faces), positions, [0] * n, [p for face in shape.faces for p in face])


def changed(mesh, **changes):
    """A mesh with other numbers: v=5, positions={place: value} for an entry, and so on."""
    for name, change in changes.items():
        old = getattr(mesh, name)
        setattr(mesh, name, [change.get(i, x) for i, x in enumerate(old)] if isinstance(change, dict) else change)
    return mesh


def mirrored(mesh):
    """The mirror image of a mesh: x with the other sign, tags as they are, each face from its first corner the other way round."""
    points = zip(*[iter(mesh.positions)] * 3)
    quads = zip(*[iter(mesh.faces)] * 4)
    positions = [coordinate for x, y, z in points for coordinate in (-x, y, z)]
    return Mesh(mesh.v, mesh.f, positions, list(mesh.tags), [p for q0, q1, q2, q3 in quads for p in (q0, q3, q2, q1)])


# ---- What the rules say of a mesh.


class MeshReading:
    """The check of a mesh."""

    def __init__(self, mesh):
        self.mesh = mesh
        self.quads = [mesh.faces[c : c + 4] for c in range(0, len(mesh.faces) - 3, 4)]
        # The two ends of half-edge 4f + s, and the twin of each.
        self.sides = [(quad[s], quad[(s + 1) % 4]) for quad in self.quads for s in range(4)]
        number = {ends: c for c, ends in enumerate(self.sides)}
        self.twins = [number.get((b, a)) for a, b in self.sides]
        # The corners at each vertex, and whether every half-edge that leaves it has a twin.
        self.corners = {}
        for c, (p, _) in enumerate(self.sides):
            self.corners.setdefault(p, []).append(c)
        self.fans = {p: self.parted(corners) for p, corners in self.corners.items()}
        self.inner = {p: all(self.twins[c] is not None for c in corners) for p, corners in self.corners.items()}

    def parted(self, corners):
        """The corners at a vertex, parted into sets that turning about the vertex joins."""
        fans = [{c} for c in corners]
        for c in corners:
            # On to the corner that begins the twin of the entering half-edge.
            after = self.twins[c - c % 4 + (c + 3) % 4]
            joined = [fan for fan in fans if c in fan or after in fan]
            fans = [fan for fan in fans if fan not in joined] + [set().union(*joined)]
        return fans

    def whole(self):
        """The vertices whose corners form one turn or one chain, each with the number of its corners."""
        return [(p, len(fans[0])) for p, fans in self.fans.items() if len(fans) == 1]

    def lent_short(self):
        """Whether a lent list is too short; here none is lent."""
        return False

    def faults(self):
        """Where each cause is met, by its number: vertices, faces (5, 6) or sides (7), in order; nothing is said of where for 1 and 2."""
        t = self.mesh
        lengths = (len(t.positions), len(t.tags), len(t.faces))
        first = {ends: c for c, ends in reversed(list(enumerate(self.sides)))}
        return {
            1: [None] if t.v not in VERTICES or t.f not in FACES or lengths != (3 * t.v, t.v, 4 * t.f) else [],
            2: [None] if self.lent_short() else [],
            3: sorted({place // 3 for place, x in enumerate(t.positions) if x not in COORDINATES}),
            4: [p for p, tag in enumerate(t.tags) if tag not in TAGS],
            5: sorted({c // 4 for c, p in enumerate(t.faces) if p >= t.v}),
            6: [f for f, quad in enumerate(self.quads) if len(set(quad)) < 4],
            7: [c for c, ends in enumerate(self.sides) if first[ends] != c],
            8: [p for p in range(t.v) if p not in self.fans],
            9: sorted(p for p, fans in self.fans.items() if p < t.v and len(fans) > 1),
            10: sorted(p for p, count in self.whole() if p < t.v and count not in (INNER_VALENCES if self.inner[p] else BOUNDARY_FACES)),
            11: sorted(p for p in self.fans if self.inner[p] and t.tags[p : p + 1] == [1]),
        }

    def causes(self):
        """The numbers of all causes that are met, in order; the answer is the first."""
        return [number for number, places in self.faults().items() if places]

    def counts(self):
        """V, F, E and B of an accepted mesh."""
        t = self.mesh
        edges, boundary = len({frozenset(ends) for ends in self.sides}), self.twins.count(None)
        assert 4 * t.f + boundary == 2 * edges
        return [t.v, t.f, edges, boundary]


class PatchReading(MeshReading):
    """The patches and the samples of a mesh that has the N of rule S1 too, and the marks of both."""

    def __init__(self, mesh):
        super().__init__(mesh)
        self.points = [tuple(mesh.positions[c : c + 3]) for c in range(0, len(mesh.positions) - 2, 3)]
        self.faces = [tuple(quad) for quad in self.quads]

    @cached_property
    def surface(self):
        return Surface(self.points, self.mesh.tags, self.faces)

    @cached_property
    def patches(self):
        """The patch of each face; none of a refused mesh."""
        if self.causes():
            return []
        patches = [self.surface.patch(f) for f in range(self.mesh.f)]
        assert all(x in CONTROLS for patch in patches for x in patch)
        return patches

    @cached_property
    def marks(self):
        """The marks of each patch; none of a refused mesh."""
        return [self.surface.marks(f) for f in range(len(self.patches))]

    @cached_property
    def exact(self):
        """The samples of each face, before they are rounded."""
        return [exact_samples(patch, self.mesh.n) for patch in self.patches]

    @cached_property
    def samples(self):
        samples = [rounded(exact) for exact in self.exact]
        if samples:
            assert_seams(samples, self.twins, self.mesh.n)
        return samples

    @cached_property
    def marked(self):
        """The mark of each sample of each face."""
        return [sample_marks(marks, exact) for marks, exact in zip(self.marks, self.exact)]


# ---- Meshes that are refused.

# A fault for each cause that looks at a mesh of the right sizes, as a word for a name.
MESH_FAULTS = {
    3: "far-coordinate",
    4: "tag-2",
    5: "vertex-v",
    6: "vertex-twice",
    7: "same-face-twice",
    8: "isolated-vertex",
    9: "bow-tie",
    10: "pillow",
    11: "inner-tag",
}


def spoiled(causes, *more):
    """A mesh that meets these causes, the later ones earlier in the lists, with more shapes behind them."""
    shapes = {
        11: cube(),
        10: pillow(),
        9: bow_tie(),
        8: isolated(),
        7: Shape(square().faces * 2),
        6: Shape([(0, 1, 2, 1)]),
    }
    shape = join(*[shapes[n] for n in sorted(causes, reverse=True) if n in shapes], square(), *more)
    mesh = numbered(shape)
    last = shape.vertices - 1
    if 11 in causes:
        changed(mesh, tags={0: 1})
    if 5 in causes:
        changed(mesh, faces={4 * mesh.f - 1: shape.vertices})
    if 4 in causes:
        changed(mesh, tags={last: 2})
    if 3 in causes:
        changed(mesh, positions={3 * last: 1048577})
    return mesh
