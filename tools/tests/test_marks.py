"""The marks of a patch and the marked sample held against worked numbers, against the exact surface, and against renumbered and mirrored meshes."""

import random
import sys
import unittest
from itertools import product
from math import gcd
from pathlib import Path

sys.path.insert(0, str(Path(__file__).resolve().parent.parent))

from meshes import CONTROL, PatchReading, changed, mirrored
from patches import PATCH, POINTS, exact_samples, mirrored_marks, points, shuffled
from sample_forms import MarkedTrial, random_patches, with_number
from shapes import Shape, across_twice, closed_fan, cube, grid, join, notched, open_fan, ring, square, strip, torus, trapezohedron
from trial_forms import FAULTS, FILLING, joined, patched, placed, scattered, tagged, the_cube, the_square, the_strip, with_faults

# The meshes that no test names.
SEED = 20250620

SHAPES = (square(), strip(3), grid(2, 2), grid(3, 3), notched(3, 3), cube(), Shape(cube().faces[1:]), ring(4), torus(3, 3), across_twice())
FANS = [closed_fan(n) for n in (3, 4, 5, 6, 7)] + [open_fan(k) for k in (2, 3, 4, 5)]
OTHERS = (trapezohedron(5), join(square(), cube(), square()))

ALL = [1] * POINTS


def strip_with_a_rest(n=2):
    """The strip with z of vertex 2 at 10."""
    return changed(the_strip(n), positions={8: 10})


def divisor(shape):
    """A multiple of every divisor of the shape's control points, 256 taken out."""
    multiple = 18
    for n in {sum(p in face for face in shape.faces) for p in range(shape.vertices)}:
        for d in (n * (n + 5), 2 * n + 5):
            multiple = multiple * d // gcd(multiple, d)
    return multiple


def coarse(rng, shape, n):
    """A shape with coordinates that are whole multiples, so that its points are exact, but for the coordinates of a few vertices."""
    unit = divisor(shape) * rng.choice((1, 1, n if n < 6 else 1))
    size = min(40, 1048575 // unit)
    trial = placed(shape, [[unit * rng.randint(-size, size) for _ in range(3)] for _ in range(shape.vertices)], n)
    for place in rng.sample(range(3 * shape.vertices), rng.choice((0, 0, 1, 2))):
        changed(trial, positions={place: trial.positions[place] + rng.choice((-1, 1))})
    return trial


def random_meshes():
    """Accepted meshes with points of either kind, some vertices on the boundary tagged."""
    rng = random.Random(SEED)
    for shape, n in product((*SHAPES, *FANS, *OTHERS), (1, 2, 3, 4, 6)):
        trial = coarse(rng, shape, n) if rng.random() < 0.8 else scattered(rng, shape, n)
        boundary = [p for p, inner in trial.answer().inner.items() if not inner]
        trial = tagged(trial, *[p for p in boundary if rng.random() < 0.2])
        assert trial.answer().causes() == []
        yield rng, trial


def marked(trial, f=0, n=2, a=1, b=1):
    """The marked sample of a mesh: its coordinates and its mark."""
    found = trial.answer()
    answer = MarkedTrial(joined(found.patches), f, n, a, b, joined(found.marks)).answer()
    return answer.sample(), answer.mark()


class Worked(unittest.TestCase):
    def test_strip(self):
        self.assertEqual(the_strip().answer().marks, [ALL, ALL])

    def test_strip_with_a_rest(self):
        """Nothing is left in x and y; along the side that is shared and at the far end something is left in z."""
        found = strip_with_a_rest().answer()
        self.assertEqual(found.marks, [[1, 1, 1, 0] * 3 + ALL[:4], [0, 0, 0, 1] + [0] * 8 + ALL[:4]])
        self.assertEqual(found.patches[0][9:12], [2304, 0, 427])

    def test_cube(self):
        """Denominators of 24 at most, and coordinates of 24."""
        self.assertEqual(the_cube().answer().marks, [ALL] * 6)

    def test_square(self):
        """Thirds of 20 are not whole, in x alone."""
        self.assertEqual(the_square().answer().marks, [ALL])
        self.assertEqual(changed(the_square(), positions={3: 20, 6: 20}).answer().marks, [[1, 0, 0, 1] * 4])

    def test_samples(self):
        self.assertEqual(marked(the_strip()), ([1152, 1152, 24], 1))
        self.assertEqual(marked(the_strip(), n=3), ([768, 768, 9], 0))
        self.assertEqual(marked(strip_with_a_rest(), n=1, a=0, b=0), ([0, 0, 0], 0))
        for n, a, b, at in ((2, 1, 0, [2688, 0, 0]), (2, 1, 1, [2688, 2688, 0]), (7, 1, 1, [768, 768, 0])):
            self.assertEqual(marked(the_square(), n=n, a=a, b=b), (at, 1))

    def test_bytes(self):
        """A byte 2 is not 1, nor is one that the point's weight of 0 leaves out of the sample."""
        numbers = the_square().answer().patches[0]
        for place, byte in product(range(POINTS), (0, 2, 255)):
            for n, a, b in ((2, 1, 1), (1, 0, 0), (1, 1, 0), (1, 1, 1), (1, 0, 1)):
                answer = MarkedTrial(numbers, 0, n, a, b, with_number(ALL, place, byte)).answer()
                self.assertEqual(answer.mark(), 0, (place, byte, n, a, b))

    def test_other_faces(self):
        """The bytes of a face are those from 16f on."""
        for f, place in product(range(3), range(3 * POINTS)):
            answer = MarkedTrial([5] * (3 * PATCH), f, marks=with_number(ALL * 3, place, 0)).answer()
            self.assertEqual(answer.mark(), int(place // POINTS != f))

    def test_one_coordinate(self):
        """A rest in one coordinate is enough, of a point and of a sample."""
        for k in range(3):
            trial = placed(square(), [[9 * x + (p == 1 and k == other) for other, x in enumerate((p, p * p, -p))] for p in range(4)])
            # Vertex 1 has a part in the thirds along its two sides and in the ninths of the inner points.
            self.assertEqual(trial.answer().marks, [[1, 0, 0, 1, 1, 0, 0, 0, 1, 0, 0, 0, 1, 1, 1, 1]])
            numbers = with_number([64] * PATCH, k, 65)
            self.assertEqual(MarkedTrial(numbers).answer().mark(), 0)


class Surface(unittest.TestCase):
    def test_points(self):
        """A mark is 1 precisely where the point is as it was before it was rounded."""
        seen = set()
        for _, trial in random_meshes():
            found = trial.answer()
            for f, (marks, patch) in enumerate(zip(found.marks, found.patches)):
                for place, (mark, point) in enumerate(zip(marks, found.surface.controls(f))):
                    self.assertEqual(mark, int(patch[3 * place : 3 * place + 3] == point))
                    seen.add((place, mark))
        self.assertEqual(seen, {*product(range(POINTS), (0, 1))})

    def test_samples(self):
        """A marked sample is a point of the exact surface; and of the others most are not."""
        counts = {}
        for _, trial in random_meshes():
            found = trial.answer()
            for f, exact_marks in enumerate(found.marked):
                surface = exact_samples(joined(found.surface.controls(f)), trial.n)
                for place, mark in exact_marks.items():
                    on = found.samples[f][place] == surface[place]
                    self.assertTrue(on or not mark, (f, place))
                    kind = trial.n, found.marks[f] == ALL, mark, on
                    counts[kind] = counts.get(kind, 0) + 1
        for n in (1, 2, 3, 4, 6):
            self.assertGreater(counts[n, True, 1, True], 50)
            self.assertGreater(counts[n, False, 0, False], 50)
            # With all bytes 1 the sample's own division decides.
            self.assertNotIn((n, True, 0, True), counts)
        for n in (3, 6):
            self.assertGreater(counts[n, True, 0, False], 50)


    def test_one_by_one(self):
        """The marked sample of a list at a place, by Bernstein's polynomials, is that of the face's samples together."""
        for rng, trial in random_meshes():
            found, f = trial.answer(), rng.randrange(trial.f)
            for a, b in ((0, trial.n), (rng.randint(0, trial.n), rng.randint(0, trial.n))):
                expected = found.samples[f][a, b], found.marked[f][a, b]
                self.assertEqual(marked(trial, f, trial.n, a, b), expected)


class Carried(unittest.TestCase):
    def test_renumbered(self):
        """A renumbering carries the marks of the points and of the samples."""
        for rng, trial in random_meshes():
            old, change = trial.answer(), shuffled(rng, trial.v, trial.f)
            moved = placed(Shape(change.faces(old.faces)), change.moved(old.points), trial.n)
            new = changed(moved, tags=change.moved(trial.tags)).answer()
            change.assert_same(old.marked, new.marked, trial.n)
            change.assert_same(*([points(marks) for marks in answer.marks] for answer in (old, new)), 3)

    def test_turned(self):
        """A face begun one corner later: the mark of b(i,j) turns up at b(j,3-i)."""
        first = strip_with_a_rest().answer()
        later = changed(strip_with_a_rest(), faces=[1, 4, 5, 0, 1, 2, 3, 4]).answer()
        self.assertEqual(later.marks[0], [0, 0, 0, 1] + [1] * 12)
        self.assertEqual(later.marks[0], [first.marks[0][3 - j + 4 * i] for j, i in product(range(4), repeat=2)])

    def test_mirrored(self):
        """In the image the mark of b(i,j) is that of b(j,i), and that of sample (a,b) that of sample (b,a)."""
        for _, trial in random_meshes():
            image = mirrored(trial)
            image.n = trial.n
            old, new = trial.answer(), PatchReading(image)
            self.assertEqual(new.marks, [mirrored_marks(marks) for marks in old.marks])
            self.assertEqual(new.marked, [{(a, b): marks[b, a] for a, b in marks} for marks in old.marked])


class Answers(unittest.TestCase):
    def causes(self, numbers, marks, **place):
        return MarkedTrial(numbers, marks=marks, **place).answer().causes()

    def test_lengths(self):
        """12 where either list ends before the face does."""
        numbers, marks = random_patches(random.Random(SEED), 3), ALL * 3
        for f, short, few in product(range(4), range(3), range(3)):
            found = self.causes(numbers[: PATCH * (f + 1) - short], marks[: POINTS * (f + 1) - few], f=f)
            self.assertEqual(found, [12] if short or few or f == 3 else [])
        for f in (2**60 - 1, 2**60, 2**64 - 1):
            self.assertEqual(self.causes(numbers, marks, f=f), [12])

    def test_order(self):
        numbers = random_patches(random.Random(SEED), 1)
        off = with_number(numbers, 47, -CONTROL - 1)
        self.assertEqual(self.causes(numbers, ALL), [])
        self.assertEqual(self.causes(numbers, ALL[:15]), [12])
        self.assertEqual(self.causes(off, ALL[:15]), [12, 13])
        self.assertEqual(self.causes(off, ALL[:15], n=33), [12, 13, 14])
        self.assertEqual(self.causes(off, ALL, n=33), [13, 14])
        for place in ({"n": 0}, {"n": 33}, {"a": 3}, {"b": 3}):
            self.assertEqual(self.causes(numbers, ALL, **place), [14])
            self.assertEqual(self.causes(numbers, ALL[1:], **place), [12, 14])

    def test_bytes_refuse_nothing(self):
        """Whatever the bytes are, the sample is the sample."""
        rng = random.Random(SEED)
        numbers = random_patches(rng, 1)
        for _ in range(20):
            answer = MarkedTrial(numbers, n=3, marks=[rng.randrange(256) for _ in range(POINTS)]).answer()
            self.assertEqual((answer.causes(), answer.sample()), ([], MarkedTrial(numbers, n=3).answer().sample()))

    def test_line(self):
        """What the trial program has to print: the sample needs no marks."""
        line = lambda marks: MarkedTrial([64] * PATCH, marks=marks).answer().line()
        self.assertEqual(line(ALL), "64 64 64 mark 1 sample 64 64 64")
        self.assertEqual(line([0] * POINTS), "64 64 64 mark 0 sample 64 64 64")
        self.assertEqual(line(ALL[1:]), "refused 12 sample 64 64 64")


class PatchCall(unittest.TestCase):
    def test_list(self):
        """Sixteen bytes a face; places from 16F on are as they were."""
        for more in (0, 1, 40):
            trial = changed(strip_with_a_rest(), marks=32 + more)
            _, _, marks = trial.answer().lists()
            self.assertEqual(marks, [1, 1, 1, 0] * 3 + ALL[:4] + [0, 0, 0, 1] + [0] * 8 + ALL[:4] + [FILLING] * more)

    def test_short(self):
        for length in (0, 1, 16, 31):
            answer = changed(the_strip(), marks=length).answer()
            self.assertEqual((answer.causes(), answer.lists()[2]), ([2], [FILLING] * length))
        self.assertEqual(changed(the_strip(), marks=32, patches=95).answer().causes(), [2])
        self.assertEqual(changed(the_strip(), marks=32, twins=7).answer().causes(), [2])

    def test_refused(self):
        """Every refusal leaves the list as it was, and a short list is named after 1 and before 3 to 11."""
        for one in FAULTS:
            answer = patched(with_faults({one})).answer()
            self.assertEqual(answer.causes()[0], one)
            self.assertEqual({*answer.lists()[2]}, {FILLING})
            trial = patched(with_faults({one}))
            causes = changed(trial, marks=POINTS * trial.f - 1).answer().causes()
            self.assertEqual(causes[:2], [1, 2] if one == 1 else [2, *causes[1:2]])
            self.assertIn(one, causes)

    def test_line(self):
        """The printed lines of the marks: those of the points, and the sums of those of the samples."""
        lines = strip_with_a_rest().answer().line().split("\n")
        self.assertIn(" marks 1 1 1 0 1 1 1 0 1 1 1 0 1 1 1 1 0 0 0 1 0 0 0 0 0 0 0 0 1 1 1 1 7 7 7", lines)
        self.assertTrue(lines[-1].endswith(" marked 0 0"))
        # All nine samples: 1 to 9 on the way.
        self.assertTrue(the_strip().answer().line().endswith(" marked 9 45"))


if __name__ == "__main__":
    unittest.main()
