"""Samples of patches as grids of points, fast: in whole numbers, as rule S3 of docs/SPECIFICATION.md has them.

tools/preview and tools/survey use it.
"""

from itertools import product
from math import sqrt


def weights(n):
    """The four weights of each of the n + 1 places along a side, over n^3."""
    return [((n - a) ** 3, 3 * a * (n - a) ** 2, 3 * a * a * (n - a), a**3) for a in range(n + 1)]


def rounded(total, divisor):
    """A fraction rounded to the nearest whole number, halves to even."""
    quotient, rest = divmod(total, divisor)
    return quotient + (2 * rest > divisor or 2 * rest == divisor and quotient % 2)


def blended(points, weight):
    """The sum of four points by four weights."""
    w0, w1, w2, w3 = weight
    (x0, y0, z0), (x1, y1, z1), (x2, y2, z2), (x3, y3, z3) = points
    return (w0 * x0 + w1 * x1 + w2 * x2 + w3 * x3, w0 * y0 + w1 * y1 + w2 * y2 + w3 * y3, w0 * z0 + w1 * z1 + w2 * z2 + w3 * z3)


def control_points(patch):
    """The sixteen control points of a patch, point i + 4j at [j][i]."""
    points = list(zip(*[iter(patch)] * 3))
    return [points[4 * j : 4 * j + 4] for j in range(4)]


def lines(patch, n):
    """For each b the control points of the curve of that row, times n^3."""
    columns = list(zip(*control_points(patch)))
    return [[blended(column, weight) for column in columns] for weight in weights(n)]


def samples(patch, n):
    """The samples of a patch, {(a, b): (x, y, z)}."""
    at, divisor = weights(n), n**6
    curves = lines(patch, n)
    return {(a, b): tuple(rounded(x, divisor) for x in blended(curves[b], at[a])) for b, a in product(range(n + 1), repeat=2)}


# ---- Points as vectors.


def minus(p, q):
    return (p[0] - q[0], p[1] - q[1], p[2] - q[2])


def dot(p, q):
    return p[0] * q[0] + p[1] * q[1] + p[2] * q[2]


def cross(p, q):
    return (p[1] * q[2] - p[2] * q[1], p[2] * q[0] - p[0] * q[2], p[0] * q[1] - p[1] * q[0])


def length(p):
    return sqrt(dot(p, p))
