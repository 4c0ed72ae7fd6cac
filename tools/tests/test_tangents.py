"""tools/tangents.py held against worked numbers, against the laws of the vectors, and against the cosines themselves."""

import random
import sys
import unittest
from decimal import Decimal
from itertools import product
from pathlib import Path

sys.path.insert(0, str(Path(__file__).resolve().parent.parent))

import tangents
from cosines import SCALE, edge_weight, face_weight, real_cosine
from meshes import FACES, INNER_VALENCES, MeshReading, PatchReading, changed, mirrored, numbered, spoiled
from patches import shuffled
from shapes import Shape, closed_fan, cube, grid, torus, trapezohedron
from tangent_trials import boxes, cube_by_bits, flat_grid, grown
from tangents import ACROSS, TANGENTS, U_PLACES, V_PLACES, TangentSurface, across, begun_one_later, mirror_image, side_vectors, vector

# What is left of 0 in sums of decimals.
NOTHING = Decimal(10) ** -25

# The meshes that no test names.
SEED = 20250616


def surface(points, faces):
    return TangentSurface(points, [0] * len(points), faces)


def random_points(random, count, size):
    return [[random.randint(-size, size) for _ in range(3)] for _ in range(count)]


def random_meshes(size):
    """A closed mesh for each valence that an inner vertex may have, with other valences beside it and coordinates up to a size."""
    rng = random.Random(SEED)
    for n in INNER_VALENCES:
        shape = grown(rng, rng.choice((cube(), trapezohedron(min(n, 5)))) if n < 8 else cube(), n, 0)
        faces = [face[s:] + face[:s] for face in shape.faces for s in [rng.randrange(4)]]
        yield rng, random_points(rng, shape.vertices, size), faces


def twins(faces):
    """For each edge the face and the side that have it, and those that have it the other way."""
    place = {(face[s], face[(s + 1) % 4]): (f, s) for f, face in enumerate(faces) for s in range(4)}
    return [(place[p, q], place[q, p]) for p, q in place if (q, p) in place]


class Worked(unittest.TestCase):
    def test_cube(self):
        """Face 0: u along x, v along y, both downwards."""
        found = surface(*cube_by_bits()).tangents(0)
        corner, corrected, plain = (-7076, 3538, 3538), (-6322, 1893, 7502), (-9216, 0, 0)
        for i, j in U_PLACES:
            x, y, z = plain if i == 1 else corner if j in (0, 3) else corrected
            # From one end of u to the other y and z change their signs, and from one end of v to the other y does.
            y, z = y if (i == 0) == (j < 2) else -y, z if i == 0 else -z
            self.assertEqual(vector(found, "u", i, j), [x, y, z], (i, j))
            # v(j,i) is u(i,j) with x and y exchanged.
            self.assertEqual(vector(found, "v", j, i), [y, x, z], (i, j))
        self.assertEqual(sum(found), -180912)

    def test_boxes(self):
        """All numbers of face 2, whose corners have valences 3, 4, 5 and 4."""
        about = surface(*boxes())
        self.assertEqual([about.valence(p) for p in about.faces[2]], [3, 4, 5, 4])
        u = "4505 -1916 2831, 6912 -417 780, 7936 0 213, 4601 -1749 5308, 6879 -927 372, 7964 422 983"
        u += ", 4069 -853 5124, 8781 744 1068, 7256 1682 1058, 4224 384 5376, 8730 0 1407, 5911 -264 -2309"
        v = "-2032 4496 2831, -2016 4747 5308, -1068 4098 5124, 256 4096 5376, -123 6543 780, -543 6495 372"
        v += ", 1359 8166 1068, 561 8166 1407, 427 7424 213, 945 7465 983, 2257 6681 1058, 170 5444 -2309"
        self.assertEqual(about.tangents(2), [int(x) for vectors in (u, v) for three in vectors.split(",") for x in three.split()])

    def test_every_face(self):
        """The sum of the numbers of each face, and that of each number times its place counted from 1."""
        about = surface(*boxes())
        lists = [about.tangents(f) for f in range(14)]
        sums = "142667 144183 193310 122950 124718 180955 155906 130057 167873 149592 125759 178628 130703 168103"
        placed = "5432520 6318531 7075505 5289287 4706896 6918108 5128164 3554356 5954331 5174839 3434088 6380924 4353247 6699375"
        self.assertEqual([sum(found) for found in lists], [int(x) for x in sums.split()])
        self.assertEqual([sum(at * x for at, x in enumerate(found, 1)) for found in lists], [int(x) for x in placed.split()])

    def test_across(self):
        """Face 2 and its four neighbours: both vectors near the start of the side, and twice the cosine term over 3 * 2^20."""
        expected = {
            0: ((-2016, -2592, -14495514624), (4747, -4469, 874512384), (5308, -5828, -1635778560)),
            1: ((-7964, 7909, -165902336), (-422, -422, -2654437376), (-983, -128, -3483949056)),
            2: ((-2257, -1336, -11315057760), (-6681, 6681, 0), (-1058, 478, -1823629584)),
            3: ((4069, -4208, -447741952), (-853, -1621, -7784628224), (5124, -5198, -223346688)),
        }
        about = surface(*boxes())
        for (f, s), (g, t) in twins(about.faces):
            if f == 2:
                own, other = about.tangents(f), about.tangents(g)
                c0, c1 = (about.cosine_at(about.faces[f][(s + end) % 4]) for end in (0, 1))
                _, (near, _) = side_vectors(own, s)
                _, (_, beyond) = side_vectors(other, t)
                off, _ = across(own, other, s, t, c0, c1)
                terms = [(a + b - x) * 3 * SCALE for a, b, x in zip(near, beyond, off)]
                self.assertEqual(tuple(zip(near, beyond, terms)), expected.pop(s))
        self.assertEqual(expected, {})


class Laws(unittest.TestCase):
    def test_places(self):
        """u(i,j) has number i + 3j, v(i,j) number 12 + i + 4j."""
        self.assertEqual(TANGENTS, 72)
        numbers = list(range(TANGENTS))
        for i, j in product(range(3), range(4)):
            self.assertEqual(vector(numbers, "u", i, j), [3 * (i + 3 * j) + k for k in range(3)])
        for i, j in product(range(4), range(3)):
            self.assertEqual(vector(numbers, "v", i, j), [3 * (12 + i + 4 * j) + k for k in range(3)])

    def test_turned(self):
        """A face that is begun one corner later; after four times the list is as it was."""
        for rng, points, faces in random_meshes(3000):
            f = rng.randrange(len(faces))
            found = surface(points, faces).tangents(f)
            turned = surface(points, faces[:f] + [faces[f][1:] + faces[f][:1]] + faces[f + 1 :]).tangents(f)
            self.assertEqual(turned, begun_one_later(found))
            self.assertNotEqual(turned, found)
            for _ in range(3):
                turned = begun_one_later(turned)
            self.assertEqual(turned, found)

    def test_renumbered(self):
        """Other numbers of vertices, another order of faces and other first corners."""
        for rng, points, faces in random_meshes(1048576):
            change = shuffled(rng, len(points), len(faces))
            old, new = surface(points, faces), surface(change.moved(points), change.faces(faces))
            for g, (f, start) in enumerate(zip(change.order, change.starts)):
                expected = old.tangents(f)
                for _ in range(start):
                    expected = begun_one_later(expected)
                self.assertEqual(new.tangents(g), expected)

    def test_mirrored(self):
        for _, points, faces in random_meshes(3000):
            flat = lambda lists: [x for entry in lists for x in entry]
            image = PatchReading(mirrored(changed(numbered(Shape(faces)), positions=flat(points))))
            old, new = surface(points, faces), surface(image.points, image.faces)
            for f in range(0, len(faces), 5):
                self.assertEqual(new.tangents(f), mirror_image(old.tangents(f)))

    def test_either_way_round(self):
        """The ring of a vertex the other way: the same corner vector."""
        for _, points, faces in random_meshes(1048576):
            about = surface(points, faces)
            for p, q in {(face[0], face[1]) for face in faces}:
                n, ring = about.valence(p), about.ring(p, q)
                back = [(ring[-i][0], ring[-i - 1][1]) for i in range(n)]
                total = lambda k, ring: sum(edge_weight(n, i) * points[e][k] + face_weight(n, i) * points[a][k] for i, (e, a) in enumerate(ring))
                self.assertEqual([total(k, back) for k in range(3)], [total(k, ring) for k in range(3)])

    def test_across(self):
        """On every edge, at both ends, within 7 units; in fact within 4, and farther than 3."""
        farthest = 0
        for size in (30, 3000, 1048576):
            for _, points, faces in random_meshes(size):
                about = surface(points, faces)
                lists = [about.tangents(f) for f in range(len(faces))]
                for (f, s), (g, t) in twins(faces):
                    c0, c1 = (about.cosine_at(faces[f][(s + end) % 4]) for end in (0, 1))
                    off = [abs(x) for end in across(lists[f], lists[g], s, t, c0, c1) for x in end]
                    farthest = max(farthest, *off)
        self.assertLess(farthest, ACROSS)
        self.assertTrue(3 < farthest < 4, float(farthest))


class Cosines(unittest.TestCase):
    def off(self, size):
        """How far a corner vector is from that of equation (2), at the farthest, and for which valence."""
        found = []
        for _, points, faces in random_meshes(size):
            about = surface(points, faces)
            for face in faces:
                pairs = zip(about.corner_vector(*face[:2]), about.real_corner_vector(*face[:2]))
                found.append((max(abs(x - real) for x, real in pairs), about.valence(face[0])))
        return max(found)

    def test_close(self):
        """So far off at the farthest, for so many faces: by rounding alone where a mesh is small, by 3 micrometres where it is 2 m wide."""
        for size, farthest in ((30, ("0.506", 6)), (3000, ("2.051", 15)), (1048576, ("672.152", 16))):
            off, n = self.off(size)
            self.assertEqual((str(round(off, 3)), n), farthest)

    def test_bound(self):
        """The weights of n faces are within 0.73 and 0.64 units, so no vector is off by more than 1.37 n for each micrometre of 2^20."""
        for size in (30, 3000, 1048576):
            self.assertLess(self.off(size)[0], Decimal(256 * size) / SCALE * 16 * Decimal("1.37") + Decimal("0.5"))

    def test_unique_plane(self):
        """Equation (3): of three edges in a row the outer vectors add up to twice the cosine times the one between."""
        for _, points, faces in random_meshes(30):
            about = surface(points, faces)
            p, q = faces[0][:2]
            n, ring = about.valence(p), about.ring(p, q)
            before, after = ring[-1][0], ring[1][0]
            for k in range(3):
                real = [about.real_corner_vector(p, e)[k] for e in (before, q, after)]
                self.assertLess(abs(real[0] + real[2] - 2 * real_cosine(1, n) * real[1]), NOTHING)
                whole = [about.corner_vector(p, e)[k] for e in (before, q, after)]
                self.assertLess(abs(whole[0] + whole[2] - 2 * about.cosine_at(p) * whole[1]), 3)


class Halves(unittest.TestCase):
    def test_corner(self):
        """One neighbour at 2048 or thrice that, and all else at 0: half the weight 349525, or thrice so much; halves go to the even number."""
        self.assertEqual(edge_weight(4, 0), 349525)
        points = [[0, 0, 0], [2048, -2048, 3 * 2048]] + [[0, 0, 0]] * 7
        self.assertEqual(surface(points, closed_fan(4).faces).corner_vector(0, 1), [174762, -174762, 524288])


class Regular(unittest.TestCase):
    def test_flat(self):
        """A flat grid of parallelograms, with every vertex of a face inner: all vectors along an edge are that edge."""
        points, faces = flat_grid()
        about = surface(points, faces)
        a, b = ([to - at for at, to in zip(points[0], points[p])] for p in (1, 6))
        for f in (6, 7, 8, 11, 12, 13, 16, 17, 18):
            expected = [256 * x for edge in (a, b) for _ in range(12) for x in edge]
            self.assertEqual(about.tangents(f), expected)

    def test_torus(self):
        """Four faces about each vertex: the cosines are 0, so a vector is a difference of control points; at a corner it is near one."""
        rng = random.Random(SEED)
        about = surface(random_points(rng, 20, 1000), torus(4, 5).faces)
        for f in range(20):
            patch, found = about.patch(f), about.tangents(f)
            point = lambda i, j: patch[3 * (i + 4 * j) : 3 * (i + 4 * j) + 3]
            for kind, places, (di, dj) in (("u", U_PLACES, (1, 0)), ("v", V_PLACES, (0, 1))):
                for i, j in places:
                    corner = (i, j) in ((0, 0), (2, 0), (0, 3), (2, 3)) if kind == "u" else (i, j) in ((0, 0), (3, 0), (0, 2), (3, 2))
                    off = [x - 3 * (to - at) for x, to, at in zip(vector(found, kind, i, j), point(i + di, j + dj), point(i, j))]
                    self.assertLessEqual(max(map(abs, off)), 4 if corner else 0, (f, kind, i, j))


class Answers(unittest.TestCase):
    def causes(self, mesh, g, length=TANGENTS):
        return tangents.tangent_causes(MeshReading(mesh), g, length)

    def test_faces(self):
        """In a grid of 4 by 4 the four faces in the middle have inner corners alone."""
        for f in range(16):
            self.assertEqual(self.causes(numbered(grid(4, 4)), f), [] if f in (5, 6, 9, 10) else [18])
        for g in (16, 17, 2**63, 2**64 - 1):
            self.assertEqual(self.causes(numbered(grid(4, 4)), g), [12])
            self.assertEqual(self.causes(numbered(grid(4, 4)), g, 71), [12, 18])

    def test_lengths(self):
        for length in (0, 71, 73, 144):
            self.assertEqual(self.causes(numbered(cube()), 5, length), [18])

    def test_mesh_first(self):
        for cause in range(3, 12):
            found = self.causes(spoiled({cause}), FACES[-1], 0)
            self.assertEqual((found[0], found[-2:]), (cause, [12, 18]))

    def test_list(self):
        """A refusal leaves the list alone, and what is accepted fills it."""
        reading = PatchReading(numbered(closed_fan(5)))
        self.assertEqual(tangents.tangents_after(reading, 0, [7] * TANGENTS), [7] * TANGENTS)
        reading = PatchReading(numbered(cube()))
        self.assertEqual(tangents.tangents_after(reading, 0, [7] * (TANGENTS - 1)), [7] * (TANGENTS - 1))
        self.assertEqual(tangents.tangents_after(reading, 3, [7] * TANGENTS), TangentSurface(reading.points, [0] * 8, reading.faces).tangents(3))


if __name__ == "__main__":
    unittest.main()
