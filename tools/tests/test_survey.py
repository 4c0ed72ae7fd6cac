"""tools/survey: its bounds against the surface itself, and its table; and the samples of tools/grids.py against those of the rules."""

import random
import subprocess
import unittest
from math import dist

from cases import EXAMPLES, SQUARE, VECTORS, Case, loaded, vector

import grids
import patches
from mesh_files import FileReading
from meshes import PatchReading, changed, numbered
from sample_forms import random_patches
from shapes import grid

survey = loaded("survey")

SEED = 20250701


def point(patch, u, v):
    """A point of a patch, by de Casteljau's steps."""

    def along(points, t):
        while len(points) > 1:
            points = [[x + (y - x) * t for x, y in zip(p, q)] for p, q in zip(points, points[1:])]
        return points[0]

    return along([along(row, u) for row in grids.control_points(patch)], v)


def off_line(p, q, r):
    """How far r is from the line through p and q."""
    return survey.across(grids.minus(r, p), grids.minus(q, p))


def measured(patch, n, finer=8):
    """How far the curves of a patch are from the lines through their samples, at some places between each two."""
    most = 0.0
    for a in range(n):
        for b in range(n + 1):
            for turn in (False, True):
                at = lambda t: point(patch, *((b / n, t / n) if turn else (t / n, b / n)))
                start, end = at(a), at(a + 1)
                most = max([most, *(off_line(start, end, at(a + step / finer)) for step in range(1, finer))])
    return most


def of_vector(name):
    return FileReading(vector(name).read_bytes()).reading.patches


class Grids(unittest.TestCase):
    def test_samples(self):
        chance = random.Random(SEED)
        for n in (1, 2, 3, 4, 7, 16, 32):
            numbers = random_patches(chance, 1) if n > 4 else random_patches(chance, 2)
            for patch in zip(*[iter(numbers)] * 48):
                expected = patches.rounded(patches.exact_samples(patch, n))
                self.assertEqual({place: list(sample) for place, sample in grids.samples(patch, n).items()}, expected)

    def test_halves(self):
        for total, whole in ((1, 0), (3, 2), (5, 2), (-1, 0), (-3, -2), (-5, -2), (4, 2), (-4, -2)):
            self.assertEqual(grids.rounded(total, 2), whole)
        self.assertEqual([grids.rounded(x, 3) for x in (-2, -1, 0, 1, 2)], [-1, 0, 0, 0, 1])

    def test_listing(self):
        """The samples of the last as the vectors have them."""
        lines = (VECTORS / "stdout").read_text().split("last-2-steps\n")[1].split("\n")[1 : 1 + 164 * 9]
        faces = [grids.samples(patch, 2) for patch in of_vector("last-2-steps")]
        self.assertEqual(lines, [f"{f} {a} {b} {x} {y} {z}" for f, face in enumerate(faces) for (a, b), (x, y, z) in face.items()])


class Chords(unittest.TestCase):
    """The largest distance of a chord: no point is farther off, and one is nearly as far."""

    def test_bound(self):
        for name, finer in (("cube-2-steps", 8), ("last-1-step", 4)):
            surfaces = of_vector(name)
            for n in (2, 4):
                bound = survey.on_lines(surfaces, n)
                most = max(measured(patch, n, finer) for patch in surfaces)
                self.assertLessEqual(most, bound.value * (1 + 1e-9), (name, n))
                self.assertGreater(most, bound.value * 0.5, (name, n))

    def test_bound_of_any_patch(self):
        chance = random.Random(SEED)
        for n in (1, 2, 5):
            for patch in zip(*[iter(random_patches(chance, 5))] * 48):
                most, bound = measured(patch, n), survey.on_lines([patch], n)
                self.assertLessEqual(most, bound.value * (1 + 1e-9))

    def test_faces_that_are_passed_over(self):
        """The faces that are not looked at have no larger one."""
        surfaces = of_vector("last-1-step")
        for n in (3, 8):
            lines = [points for patch in surfaces for way in (patch, survey.turned(patch)) for points in survey.curves(way, n)]
            self.assertEqual(survey.on_lines(surfaces, n).value, max(off for points in lines for off in survey.chords(points, n)))

    def test_half_as_far_apart(self):
        values = [survey.on_lines(of_vector("last-1-step"), n).value for n in (4, 8, 16)]
        for one, other in zip(values, values[1:]):
            self.assertTrue(3 < one / other < 5)

    def test_flat(self):
        """A flat mesh with uneven steps has none."""
        uneven = [x for j in range(4) for i in range(4) for x in (1000 * i * i, 0, 700 * j * (j + 1))]
        mesh = changed(numbered(grid(3, 3)), positions=uneven)
        surfaces = PatchReading(mesh).patches
        # the control points are rounded, so that the curves are flat to a unit
        self.assertLess(survey.on_lines(surfaces, 4).value, 2)
        step, cell = survey.in_cells(surfaces, 4)
        self.assertLess(cell.value, 1)
        self.assertGreater(step.value, 100000)

    def test_parabola(self):
        """An arch with points at 0, 4000, 4000 and 0: the chord of N = 1 is off by its height, those of N = 2 by a quarter, leaning."""
        patch = [x for j in range(4) for i in range(4) for x in (0, 3000 * j, 0)]
        for i, height in enumerate((0, 4000, 4000, 0)):
            for j in range(4):
                patch[3 * (i + 4 * j)], patch[3 * (i + 4 * j) + 2] = 4000 * i, height
        self.assertAlmostEqual(survey.on_lines([patch], 1).value, 3000)
        self.assertAlmostEqual(measured(patch, 1), 3000)
        self.assertRegex(survey.least_steps([patch], 3000 / 256), "is 1: ")
        self.assertRegex(survey.least_steps([patch], 2999 / 256), "is 2: ")
        # a chord of N = 2 goes 6000 along and 3000 up
        self.assertAlmostEqual(survey.on_lines([patch], 2).value, 750 * 2 / 5**0.5)


class Cells(unittest.TestCase):
    def test_off_plane(self):
        self.assertEqual(survey.off_plane((0, 0, 0), (4, 0, 0), (4, 4, 0), (0, 4, 0)), 0)
        self.assertAlmostEqual(survey.off_plane((0, 0, 0), (4, 0, 0), (4, 4, 8), (0, 4, 0)), 2 / 3**0.5)
        self.assertEqual(survey.off_plane((0, 0, 1), (4, 0, -1), (4, 4, 1), (0, 4, -1)), 1)
        self.assertEqual(survey.off_plane((0, 0, 0), (0, 0, 8), (0, 0, 0), (0, 0, 8)), 4)

    def test_within_the_plane(self):
        """The four corners are as far as that from a plane."""
        chance = random.Random(SEED)
        for _ in range(200):
            corners = [tuple(chance.uniform(-9, 9) for _ in range(3)) for _ in range(4)]
            p, q, r, s = corners
            normal = grids.cross(grids.minus(r, p), grids.minus(s, q))
            middle = [sum(axis) / 4 for axis in zip(*corners)]
            apart = [abs(grids.dot(grids.minus(corner, middle), normal)) / grids.length(normal) for corner in corners]
            for distance in apart:
                self.assertAlmostEqual(distance, survey.off_plane(*corners))

    def test_longest_step(self):
        surfaces = of_vector("cube-2-steps")
        step, _ = survey.in_cells(surfaces, 3)
        grid_of = [[[point(patch, a / 3, b / 3) for a in range(4)] for b in range(4)] for patch in surfaces]
        lines = [line for face in grid_of for line in (*face, *zip(*face))]
        self.assertAlmostEqual(step.value, max(dist(p, q) for line in lines for p, q in zip(line, line[1:])))


class Run(Case):
    def test_table(self):
        lines = self.done("survey", vector("cube-32-steps")).decode().splitlines()
        self.assertEqual(lines[0].split(), ["N", "samples", "step,", "mm", "face", "chord,", "um", "face", "cell,", "um", "face"])
        self.assertEqual([line.split()[:2] for line in lines[1:]], [["4", "150"], ["8", "486"], ["16", "1734"], ["32", "6534"]])
        surfaces = of_vector("cube-32-steps")
        for line in lines[1:]:
            n = int(line.split()[0])
            (step, cell), chord = survey.in_cells(surfaces, n), survey.on_lines(surfaces, n)
            shown = [f"{step.value / 256000:.3f}", f"{chord.value / 256:.3f}", f"{cell.value / 256:.3f}"]
            self.assertEqual(line.split()[2::2], shown)

    def test_least_steps(self):
        surfaces = of_vector("cube-32-steps")
        for within in ("0.1", "0.5", "7"):
            last = self.done("survey", vector("cube-32-steps"), "--within", within).decode().splitlines()[-1]
            n = int(last.split(" is ")[1].partition(":")[0])
            self.assertLessEqual(survey.on_lines(surfaces, n).value, 256 * float(within))
            self.assertTrue(n == 1 or survey.on_lines(surfaces, n - 1).value > 256 * float(within))
        last = self.done("survey", vector("cube-32-steps"), "--within", "1e-3").decode().splitlines()[-1]
        self.assertRegex(last, r"^no N up to 32 has chords within 0\.001 um: with that one they are off by up to 0\.006 um$")

    def test_numbering_plays_no_part(self):
        """The same numbers for the last and the last renumbered; the faces are others."""
        one, other = (self.done("survey", vector(name)).decode().splitlines() for name in ("last-1-step", "last-renumbered-1-step"))
        self.assertEqual([line.split()[:3] + line.split()[4::2] for line in one], [line.split()[:3] + line.split()[4::2] for line in other])

    def test_steps_of_the_file_play_no_part(self):
        self.assertEqual(self.done("survey", vector("cube-1-steps")), self.done("survey", vector("cube-32-steps")))

    def test_standard_input(self):
        self.assertEqual(self.done("survey", "-", input=SQUARE.read_bytes()), self.done("survey", SQUARE))

    def test_refused(self):
        status, output, error = self.run_command("survey", vector("pillow-refused-10"))
        self.assertEqual((status, output), (1, b""))
        self.assertIn("refused 10: an inner vertex has fewer than 3", error)
        self.assertIn("survey: tools/explain - says where\n", self.run_command("survey", "-", input=b"")[2])
        self.file("a b", b"")
        self.assertIn("survey: tools/explain 'a b' says where\n", self.run_command("survey", "a b")[2])
        self.assertIn("survey: this is a text file: tools/obj2mesh makes", self.run_command("survey", EXAMPLES / "last.obj")[2])

    def test_words(self):
        for words in ((), (SQUARE, "--within", "x"), (SQUARE, "--within", "0"), (SQUARE, "--within", "nan"), (SQUARE, "--within", "-1")):
            status, output, error = self.run_command("survey", *words)
            self.assertEqual((status, output), (2, b""), words)
            self.assertIn("usage:", error)
        self.assertEqual(self.run_command("survey", "missing"), (2, b"", "survey: missing: No such file or directory\n"))
        done = subprocess.run(["sh", "-c", '"$0" "$1" >&-', survey.__file__, SQUARE], stderr=subprocess.PIPE)
        self.assertEqual((done.returncode, done.stderr), (2, b"survey: standard output is closed\n"))


if __name__ == "__main__":
    unittest.main()
