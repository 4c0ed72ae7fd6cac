"""The trials of the tangent call, which tools/trials.py writes: meshes with every valence, and every refusal with what it leaves.

What is expected comes from tangents.py. The program prints the list of the face that a trial names, and of an accepted one then the sums of
the list of every face of the mesh, so a trial shows which faces of its mesh have tangents too.
"""

import random
import struct
from dataclasses import dataclass
from fractions import Fraction
from itertools import product

from cosines import SCALE, edge_weight, face_weight
from last import last
from meshes import FACES, INNER_VALENCES, MESH_FAULTS, PatchReading, changed
from patches import shuffled
from shapes import Shape, begun_later, closed_fan, cube, grid, join, square, torus, trapezohedron, with_inset
from tangents import TANGENTS, TangentSurface, begun_one_later, tangent_causes, tangents_after
from trial_forms import FAULTS, FILLING, PLACES, TANGENT, MeshTrial, lengthened, mesh, shortened, spaced, tagged, two_sums, with_faults

# The coordinates that no trial names, the meshes and the renumberings.
RANDOM = random.Random(20250616)

# The limit of a coordinate.
LIMIT = 1048576

# The numbers to a line: those of u, or those of v.
LINE = 36


# ---- The form of these trials.


@dataclass
class TangentTrial(MeshTrial):
    """The arguments of the call: the mesh, whose twins nobody reads, the face number, and the length of the lent list."""

    g: int
    lent: int

    def bytes(self):
        """The trial's file, as crates/trials/src/reading.rt has it."""
        return struct.pack("<HQH", TANGENT, self.g, self.lent) + super().bytes()

    def answer(self):
        return TangentAnswer(self)


class TangentAnswer:
    """What the rules say of the call."""

    def __init__(self, trial):
        self.trial, self.reading = trial, PatchReading(trial)

    def causes(self):
        """The numbers of all causes that are met, in order; the answer is the first."""
        return tangent_causes(self.reading, self.trial.g, self.trial.lent)

    def said(self, g, length):
        """The answer for a face and a list of this length, and the list afterwards."""
        causes = tangent_causes(self.reading, g, length)
        return ["refused", causes[0]] if causes else ["done"], tangents_after(self.reading, g, [FILLING] * length)

    def line(self):
        """What the program prints after the trial's name."""
        t = self.trial
        words, after = self.said(t.g, t.lent)
        lines = [spaced(words), spaced([" tangents"], two_sums(after))]
        lines += [spaced([""], after[at : at + LINE]) for at in range(0, t.lent, LINE)]
        for g in range(t.f if words == ["done"] else 0):
            words, after = self.said(g, TANGENTS)
            lines.append(spaced([" face"], words, two_sums(after)))
        return "\n".join(lines)


def tangent(trial, g=0, lent=TANGENTS):
    """A mesh trial as one of the tangent call."""
    return TangentTrial(**{**vars(trial), "twins": 0}, g=g, lent=lent)


def positioned(shape, points, g=0):
    """A shape with the vertices at these points."""
    return tangent(changed(mesh(shape), positions=[x for point in points for x in point]), g)


def varied(shape, g=0):
    """A shape with coordinates of either sign, small ones along one axis and large ones along another."""
    sizes = RANDOM.sample((30, 3000, LIMIT), 3)
    return positioned(shape, [[RANDOM.randint(-size, size) for size in sizes] for _ in range(shape.vertices)], g)


# ---- Meshes.


def grown(random, shape, n, *about):
    """A closed shape with insets, in faces that have all the vertices `about`, until the first of these has n faces."""
    count = lambda p: sum(p in face for face in shape.faces)
    while count(about[0]) < n:
        can = [f for f, face in enumerate(shape.faces) if {*about} <= {*face} and all(count(p) < INNER_VALENCES[-1] for p in face)]
        shape = with_inset(shape, random.choice(can))
    return shape


def cube_by_bits():
    """The points and the faces of a cube, its vertices by x, y and z."""
    points = [[24 * (2 * (p >> k & 1) - 1) for k in range(3)] for p in range(8)]
    return points, [(7, 6, 4, 5), (0, 2, 3, 1), (0, 1, 5, 4), (2, 6, 7, 3), (0, 4, 6, 2), (1, 3, 7, 5)]


def boxes():
    """The points and the faces of three boxes in the shape of an L, with corner (x,y,z) at (31x + 2yz, 29y + 3z, 37z + 5xy)."""
    corners = ["000", "001", "011", "010", "100", "101", "111", "110", "120", "121", "021", "020", "200", "210", "211", "201"]
    points = [[31 * x + 2 * y * z, 29 * y + 3 * z, 37 * z + 5 * x * y] for x, y, z in (map(int, corner) for corner in corners)]
    faces = "0 1 2 3, 0 4 5 1, 1 5 6 2, 0 3 7 4, 7 8 9 6, 3 2 10 11, 11 10 9 8, 2 6 9 10, 3 11 8 7"
    faces += ", 12 13 14 15, 7 6 14 13, 4 12 15 5, 5 15 14 6, 4 7 13 12"
    return points, [tuple(map(int, face.split())) for face in faces.split(",")]


def flat_grid():
    """The points and the faces of a flat grid of 5 by 5 parallelograms."""
    a, b, origin = (33, -12, 6), (9, 21, -30), (100, -200, 300)
    points = [[origin[k] + i * a[k] + j * b[k] for k in range(3)] for j, i in product(range(6), repeat=2)]
    return points, grid(5, 5).faces


# ---- Faces that have tangents.


def worked():
    """The meshes of rule X16, and a flat one."""
    for name, (points, faces), g in (("cube", cube_by_bits(), 0), ("boxes", boxes(), 2), ("flat-grid", flat_grid(), 12)):
        yield f"tangents-{name}", positioned(Shape(faces), points, g)


def valences():
    """Every valence, at each corner of a face in turn, beside others; and the largest at both ends of a side."""
    for n in INNER_VALENCES:
        shape = grown(RANDOM, cube(), n, 0)
        g = RANDOM.choice([f for f, face in enumerate(shape.faces) if 0 in face])
        turn = (shape.faces[g].index(0) - n) % 4
        shape.faces[g] = shape.faces[g][turn:] + shape.faces[g][:turn]
        assert shape.faces[g][n % 4] == 0
        yield f"tangents-valence-{n}-at-corner-{n % 4}", varied(shape, g)
    both = begun_later(grown(RANDOM, cube(), 16, 0, 1))
    yield "tangents-valence-16-at-both-ends", varied(both, next(f for f, face in enumerate(both.faces) if {0, 1} <= {*face}))
    yield "tangents-trapezohedron-16", varied(trapezohedron(16), 31)


def shapes():
    """Four faces about each vertex; and models of some 160 faces, one of them open, with tags on the boundary."""
    yield "tangents-torus-3-by-3", varied(torus(3, 3), 4)
    yield "tangents-torus-4-by-5-begun-anywhere", varied(begun_later(torus(4, 5)), 19)
    shape, points = last(RANDOM)
    yield "tangents-model", positioned(shape, points, 100)
    shape, points = last(RANDOM, opened=True)
    opened = positioned(shape, points)
    inner = PatchReading(opened).inner
    assert all(inner[p] for p in shape.faces[0])
    yield "tangents-model-with-an-opening-tagged", tagged(opened, *[p for p in inner if not inner[p]][::3])


def limits():
    """Coordinates at the limit; with the signs of the weights the vector along an edge is as long as it can be."""
    for word, sign in (("", 1), ("minus-", -1)):
        yield f"tangents-every-coordinate-{word}{LIMIT}", positioned(cube(), [[sign * LIMIT] * 3] * 8)
    for n in (3, 5, 16):
        # Vertices 2, 3 and so on are in turn a neighbour of vertex 0 and one across from it.
        sized = [LIMIT if weight(n, i) >= 0 else -LIMIT for i in range(n) for weight in (edge_weight, face_weight)]
        yield f"tangents-longest-of-valence-{n}", positioned(trapezohedron(n), [[LIMIT] * 3] * 2 + [[x, -x, x] for x in sized])
    shape = grown(RANDOM, cube(), 16, 0, 1)
    g = next(f for f, face in enumerate(shape.faces) if {0, 1} <= {*face})
    # x is as far as it can be in u(0,0), y in u(1,0) and z in v(1,0).
    alone = [positioned(shape, [[LIMIT * (p == q)] * 3 for q in range(shape.vertices)]) for p in range(shape.vertices)]
    numbers = [tangents_after(PatchReading(trial), g, [0] * TANGENTS) for trial in alone]
    points = [[LIMIT if found[m] >= 0 else -LIMIT for m in (0, 4, 41)] for found in numbers]
    yield "tangents-longest-of-a-side", positioned(shape, points, g)
    shape = grown(RANDOM, cube(), 16, 0)
    points = [[RANDOM.choice((-LIMIT, LIMIT)) for _ in range(3)] for _ in range(shape.vertices)]
    yield "tangents-every-coordinate-at-a-limit", positioned(shape, points, 5)


def halves():
    """Corner vectors at a half, of either sign, above an even number and above an odd one."""
    trial = positioned(torus(4, 5), [[0, 0, 0], [2048, -2048, 3 * 2048]] + [[0, 0, 0]] * 18)
    reading = PatchReading(trial)
    surface = TangentSurface(reading.points, trial.tags, reading.faces)
    exact = [Fraction(256 * x, SCALE) for p, q in reading.sides for x in surface.weighted(p, q, edge_weight, face_weight)]
    assert len({(x > 0, x // 1 % 2) for x in exact if x.denominator == 2}) == 4
    yield "tangents-halves-at-a-corner", trial


def numbers():
    """The first face and the last one, and the most faces; of every face number from there on: 12."""
    for name, g in (("first", 0), ("last", 5)):
        yield f"tangents-{name}-face-of-6", varied(cube(), g)
    shape = cube()
    while len(shape.faces) <= FACES[-1] - 4:
        count = [sum(p in face for face in shape.faces) for p in range(shape.vertices)]
        can = [f for f, face in enumerate(shape.faces) if all(count[p] < INNER_VALENCES[-1] for p in face)]
        shape = with_inset(shape, RANDOM.choice(can))
    yield f"tangents-last-face-of-{len(shape.faces)}", varied(shape, len(shape.faces) - 1)
    yield "tangents-last-face-of-256", varied(torus(16, 16), 255)
    for g in (6, 7, 2**32, 2**63, 2**64 - 1):
        yield f"tangents-face-{g}-of-6-refused-12", varied(cube(), g)
    # 4g is a multiple of 2^64; 4 more than one.
    yield "tangents-face-whose-start-wraps-to-0-refused-12", varied(cube(), 2**62)
    yield "tangents-face-whose-start-wraps-to-4-refused-12", varied(cube(), 2**62 + 1)


def renumbered():
    """A mesh with other numbers; the lists of its faces are those of the mesh, turned."""
    trial = varied(grown(RANDOM, cube(), 7, 0), 3)
    old = PatchReading(trial)
    change = shuffled(RANDOM, trial.v, trial.f)
    other = positioned(Shape(change.faces(old.faces)), change.moved(old.points), change.order.index(3))
    new = PatchReading(other)
    for g, (f, start) in enumerate(zip(change.order, change.starts)):
        expected = TangentSurface(old.points, trial.tags, old.faces).tangents(f)
        for _ in range(start):
            expected = begun_one_later(expected)
        assert TangentSurface(new.points, other.tags, new.faces).tangents(g) == expected
    yield "tangents-valence-7", trial
    yield "tangents-valence-7-renumbered", other


# ---- Faces that have none.


def without(*removed):
    """A torus of 5 by 5 faces without these, each as (i, j)."""
    faces = torus(5, 5).faces
    return Shape([face for f, face in enumerate(faces) if (f % 5, f // 5) not in removed])


def boundary():
    """Corners on the boundary, of the face at (2, 2): 18."""
    around = [(1, 1), (3, 1), (3, 3), (1, 3)]
    middle = lambda shape: shape.faces.index(torus(5, 5).faces[12])
    for s, place in enumerate(around):
        shape = without(place)
        yield f"tangents-boundary-at-corner-{s}-refused-18", varied(shape, middle(shape))
    for s, place in enumerate([(2, 1), (3, 2), (2, 3), (1, 2)]):
        shape = without(place)
        yield f"tangents-boundary-along-side-{s}-refused-18", varied(shape, middle(shape))
    for word, removed in (("two-opposite", around[::2]), ("three", around[1:]), ("four", around)):
        shape = without(*removed)
        yield f"tangents-boundary-at-{word}-corners-refused-18", varied(shape, middle(shape))
    shape = without(around[0])
    # The farthest face has inner corners.
    yield "tangents-inner-face-of-an-open-mesh", varied(shape, shape.faces.index(torus(5, 5).faces[18]))
    yield "tangents-square-refused-18", varied(square())
    yield "tangents-closed-fan-5-refused-18", varied(closed_fan(5), 4)
    yield "tangents-boundary-in-another-part", varied(join(square(), cube()), 1)


def lists():
    """A list of another length: 18."""
    for length in (0, 24, 71, 73, 144):
        yield f"tangents-list-{length}-refused-18", changed(varied(cube(), 2), lent=length)


def refused():
    """The causes that concern the mesh, by themselves, and with a face number and a list that are wrong too: the lowest number wins."""
    trials = {
        "vertices-3-refused-1": changed(mesh(square()), v=3, positions=[0] * 9, tags=[0] * 3),
        "faces-257-refused-1": mesh(join(torus(16, 16), square())),
        "faces-0-refused-1": changed(mesh(square()), f=0, faces=[]),
        "positions-one-short-refused-1": shortened(mesh(cube()), "positions"),
        "faces-one-long-refused-1": lengthened(mesh(cube()), "faces"),
    }
    for name, trial in trials.items():
        yield f"tangents-{name}", tangent(trial)
    for which, one in enumerate((1, *MESH_FAULTS)):
        yield f"tangents-{FAULTS[one]}-refused-{one}", tangent(with_faults({one}))
        length = (71, 73, 0)[which % 3]
        trial = tangent(with_faults({one}), 2**64 - 1, length)
        assert trial.answer().causes()[0] == one and trial.answer().causes()[-2:] == [12, 18], one
        yield f"tangents-largest-face-list-{length}-and-{FAULTS[one]}-refused-{one}", trial
    every = tangent(with_faults({1, *MESH_FAULTS}), 2**64 - 1, 0)
    assert every.answer().causes() == [1, *MESH_FAULTS, 12, 18]
    yield "tangents-every-cause-refused-1", every
    yield "tangents-every-cause-from-3-refused-3", tangent(with_faults({*MESH_FAULTS}), 2**64 - 1, 0)
    for length in (0, 71, 73):
        yield f"tangents-face-6-of-6-list-{length}-refused-12", changed(varied(cube(), 6), lent=length)
    yield "tangents-boundary-corner-list-71-refused-18", changed(varied(grid(3, 3), 0), lent=71)


GROUPS = (worked, valences, shapes, limits, halves, numbers, renumbered, boundary, lists, refused)


# ---- Files that are no trial.


def files():
    """Files that are no tangent trial, with what the program says of them."""
    whole = tangent(mesh(cube())).bytes()
    yield f"tangents-list-{PLACES + 1}-too-long", tangent(mesh(cube()), lent=PLACES + 1).bytes(), "too long"
    for words, content in (
        ("first-number-only", whole[:2]),
        ("head-one-byte-short", whole[:11]),
        ("head-only", whole[:12]),
        ("one-byte-short", whole[:-1]),
        ("one-byte-long", whole + b"\0"),
    ):
        yield f"tangents-file-{words}-not-whole", content, "not whole"
