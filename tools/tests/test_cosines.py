"""tools/cosines.py held against other ways to the same numbers, and the tables of crates/cosine against tools/cosines.py."""

import math
import re
import sys
import unittest
from decimal import Decimal
from fractions import Fraction
from pathlib import Path

ROOT = Path(__file__).resolve().parent.parent.parent
sys.path.insert(0, str(ROOT / "tools"))

import cosines
from cosines import COSINES, ROW, SCALE, cosine, edge_weight, face_weight, multiple_cosines, real_cosine
from meshes import INNER_VALENCES

# What is left of 0 in sums of decimals, which have 28 digits here.
NOTHING = Decimal(10) ** -25


def product(p, q):
    """The product of two polynomials, each a list of coefficients from the lowest on."""
    found = [0] * (len(p) + len(q) - 1)
    for i, x in enumerate(p):
        for j, y in enumerate(q):
            found[i + j] += x * y
    return found


def multiple_angle(m):
    """The polynomial in cos x that is cos mx, from the real part of (cos x + i sin x)^m."""
    found = [0] * (m + 1)
    for k in range(0, m + 1, 2):
        term = [math.comb(m, k)]
        for factor in [[0, 1]] * (m - k) + [[-1, 0, 1]] * (k // 2):
            term = product(term, factor)
        found = [x + y for x, y in zip(found, term)]
    return found


def divided(p, root):
    """A polynomial without the factor of a root, and the rest: what it is there."""
    found, rest = [], 0
    for x in reversed(p):
        found.append(rest)
        rest = rest * root + x
    return found[:0:-1], rest


def beyond_roots(p, x):
    """Whether x is above each root of a polynomial that has only real ones, the highest coefficient above 0: about x each is above 0."""
    p = [Fraction(coefficient) for coefficient in p]
    while p:
        p, coefficient = divided(p, x)
        if coefficient <= 0:
            return False
    return True


class Cosines(unittest.TestCase):
    def test_largest_root(self):
        """Of cos mx = 1, the largest root below 1 is the cosine of a turn over m: half a unit above c it is passed, half below not."""
        for m in COSINES:
            others, rest = divided([x - (i == 0) for i, x in enumerate(multiple_angle(m))], 1)
            self.assertEqual((rest, len(others)), (0, m))
            for sign in (1, -1):
                self.assertEqual(beyond_roots(others, Fraction(2 * cosine(m) + sign, 2 * SCALE)), sign > 0, m)

    def test_doubles(self):
        for m in COSINES:
            self.assertEqual(cosine(m), round(SCALE * math.cos(2 * math.pi / m)))

    def test_known(self):
        """The cosines that are fractions, and those that a root gives."""
        self.assertEqual([cosine(m) for m in (3, 4, 6)], [-SCALE // 2, 0, SCALE // 2])
        for m, x in ((5, (Decimal(5).sqrt() - 1) / 4), (8, Decimal("0.5").sqrt()), (10, (Decimal(5).sqrt() + 1) / 4), (12, Decimal("0.75").sqrt())):
            self.assertEqual(cosine(m), round(SCALE * x), m)

    def test_off_range(self):
        for m in (0, 1, 2, 33, 34, 64, 2**32 + 5, 2**64 - 1):
            self.assertEqual(cosine(m), 0)

    def test_digits(self):
        """Pi as it is known, the squares of cosine and sine, and the sum about a turn."""
        self.assertEqual(str(cosines.pi())[:52], "3.14159265358979323846264338327950288419716939937510")
        for m in COSINES:
            for i in range(m + 1):
                # The sine is the cosine of what is left to a quarter of a turn.
                square = real_cosine(i, m) ** 2 + real_cosine(m - 4 * i, 4 * m) ** 2
                self.assertLess(abs(square - 1), NOTHING)
            self.assertLess(abs(sum(real_cosine(i, m) for i in range(m))), NOTHING)

    def test_no_half_is_near(self):
        for x in ("0.5", "-7.5", "1048575.5", "0.5" + 41 * "0" + "1", "0.4" + 42 * "9"):
            with self.assertRaises(AssertionError):
                cosines.nearest(Decimal(x))
        self.assertEqual([cosines.nearest(Decimal(x)) for x in ("0.4" + 35 * "9", "0.5" + 35 * "0" + "1", "-0.4999", "-7.5001")], [0, 1, 0, -8])


class Weights(unittest.TestCase):
    def nearest(self, num, den, r):
        """That r is num / den rounded; a half is never met, so it does not matter here to which side one goes."""
        self.assertLess(2 * abs(num - r * den), den)

    def test_multiples(self):
        for m in COSINES:
            found = multiple_cosines(m)
            self.assertEqual(sorted(found), list(range(m + 1)))
            self.assertEqual((found[0], found[1], found[m]), (SCALE, cosine(m), SCALE))
            for i in range(m + 1):
                self.assertEqual(found[i], found[m - i])
            for i in range(1, m // 2):
                self.nearest(2 * cosine(m) * found[i], SCALE, found[i + 1] + found[i - 1])

    def test_rounded(self):
        """R and the weights by inequalities of whole numbers."""
        for n in INNER_VALENCES:
            h, r = cosine(2 * n), cosines.hypotenuse(n)
            self.assertTrue(r * r <= 2**42 + h * h < (r + 1) ** 2)
            for i in range(n):
                self.nearest((r + h) * multiple_cosines(n)[i], n * r, edge_weight(n, i))
                self.nearest(SCALE * multiple_cosines(2 * n)[2 * i + 1], n * r, face_weight(n, i))

    def test_symmetry(self):
        for n in INNER_VALENCES:
            for i in range(n):
                self.assertEqual(edge_weight(n, (n - i) % n), edge_weight(n, i))
                self.assertEqual(face_weight(n, n - 1 - i), face_weight(n, i))

    def test_close(self):
        """Each weight is within a unit of equation (2): so far off at the farthest place, for 14 and for 9 faces."""
        for weight, real, farthest in (
            (edge_weight, cosines.real_edge_weight, (Decimal("0.7299"), 14)),
            (face_weight, cosines.real_face_weight, (Decimal("0.6355"), 9)),
        ):
            off, n = max((abs(weight(n, i) - SCALE * real(n, i)), n) for n in INNER_VALENCES for i in range(n))
            self.assertEqual((round(off, 4), n), farthest)

    def test_equation(self):
        """The weights of equation (2) for four faces are those of a bicubic B-spline: thirds and twelfths."""
        for i, (edge, face) in enumerate(((4, 1), (0, -1), (-4, -1), (0, 1))):
            self.assertLess(abs(12 * cosines.real_edge_weight(4, i) - edge), NOTHING)
            self.assertLess(abs(12 * cosines.real_face_weight(4, i) - face), NOTHING)

    def test_sums(self):
        """The weights of equation (2) add up to 0, and those of n faces miss that by less than n units."""
        for n in INNER_VALENCES:
            for weight, real in ((edge_weight, cosines.real_edge_weight), (face_weight, cosines.real_face_weight)):
                self.assertLess(abs(sum(real(n, i) for i in range(n))), NOTHING)
                self.assertLess(abs(sum(weight(n, i) for i in range(n))), n)

    def test_off_range(self):
        large = (2**16, 2**32 + 1, 2**64 - 1)
        for weight in (edge_weight, face_weight):
            for n in INNER_VALENCES:
                self.assertFalse(any(weight(n, i) for i in (n, n + 1, 16, 17, *large)))
            for n in (0, 1, 2, 17, 18, *large):
                self.assertFalse(any(weight(n, i) for i in (*range(18), *large)))


class Tables(unittest.TestCase):
    def table(self, file, name, length):
        """The numbers of a table in the code."""
        code = (ROOT / "crates" / "cosine" / "src" / file).read_text(encoding="utf-8")
        found = re.search(rf"^pub\(crate\) static {name}: \[i32; (?:{length}|TABLE_LENGTH)\] = \[\n((?:    -?\d+,(?: -?\d+,)*\n)*)\];$", code, re.MULTILINE)
        self.assertIsNotNone(found, name)
        return [int(x) for x in found[1].replace(",", " ").split()]

    def test_cosines(self):
        self.assertEqual(self.table("cosine_table.rt", "COSINES", 33), [cosine(m) for m in range(33)])

    def test_weights(self):
        length = ROW * len(INNER_VALENCES)
        self.assertEqual(length, 224)
        for file, name, weight in (("edge_table.rt", "EDGE_WEIGHTS", edge_weight), ("face_table.rt", "FACE_WEIGHTS", face_weight)):
            self.assertEqual(self.table(file, name, length), cosines.listed(weight))


if __name__ == "__main__":
    unittest.main()
