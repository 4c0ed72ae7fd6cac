"""The cosines c(m) and the weights of the tangents (rules D1 to D5 of docs/SPECIFICATION.md), computed once more.

c comes from the series of the cosine in decimals, and not from the terms of rule D1. The weights come from c in fractions that are
rounded once, halves to the even number. Beside them stand the weights that they are to approach, equation (2) of Loop and Schaefer, in decimals.
tools/weight_trials.py and tools/tests/test_cosines.py use it.
"""

from decimal import Context, Decimal, localcontext
from fractions import Fraction
from functools import lru_cache, wraps
from math import isqrt

from meshes import INNER_VALENCES

# What stands for the cosine 1, the m of the cosines, and the places of each n in a list of weights.
SCALE = 2**20
COSINES = range(3, 32 + 1)
ROW = 16

# Decimals have so many digits, a series breaks off at a term below the smallest number here, and a number to be rounded is farther than the
# margin from any half.
DIGITS = 60
SMALLEST = Decimal(10) ** -DIGITS
MARGIN = Decimal(10) ** -40


# ---- Decimals.


def in_digits(function):
    """The function, with its decimals computed to so many digits."""

    @wraps(function)
    def computed(*numbers):
        with localcontext(Context(prec=DIGITS)):
            return function(*numbers)

    return computed


def series(term, ratio):
    """The sum of a series that begins with this term; term k times ratio(k) is the next one."""
    total, k = Decimal(0), 0
    while abs(term) > SMALLEST:
        total, term, k = total + term, term * ratio(k), k + 1
    return total


def arctangent(q):
    """The angle whose tangent is 1 / q."""
    return series(Decimal(1) / q, lambda k: Decimal(-2 * k - 1) / ((2 * k + 3) * q * q))


@lru_cache(maxsize=None)
@in_digits
def pi():
    """Machin's formula."""
    return 16 * arctangent(5) - 4 * arctangent(239)


@lru_cache(maxsize=None)
@in_digits
def real_cosine(i, m):
    """The cosine of i turns over m."""
    angle = 2 * pi() * i / m
    return series(Decimal(1), lambda k: -angle * angle / ((2 * k + 1) * (2 * k + 2)))


@in_digits
def nearest(x):
    """The whole number nearest to a decimal, which is not so near a half that the digits which it lacks could decide."""
    found = int(x.to_integral_value())
    assert abs(abs(x - found) - Decimal("0.5")) > MARGIN
    return found


# ---- The cosines.


@lru_cache(maxsize=None)
@in_digits
def cosine(m):
    """c(m); 0 off the range."""
    return nearest(SCALE * real_cosine(1, m)) if m in COSINES else 0


@lru_cache(maxsize=None)
def multiple_cosines(m):
    """C(m, i) by i, from 0 to m: by the recurrence as far as half of m, and the same numbers backwards from m."""
    found = {0: SCALE, 1: cosine(m)}
    for i in range(1, m // 2):
        found[i + 1] = round(Fraction(2 * cosine(m) * found[i], SCALE)) - found[i - 1]
    return {**found, **{m - i: x for i, x in found.items()}}


# ---- The weights.


def half_cosine(n):
    """H."""
    return cosine(2 * n)


def hypotenuse(n):
    """R."""
    return isqrt(2**42 + half_cosine(n) ** 2)


def weighed(n, i):
    """Whether n faces have a weight at place i."""
    return n in INNER_VALENCES and i in range(n)


def edge_weight(n, i):
    """A(n, i); 0 off the range."""
    if not weighed(n, i):
        return 0
    r = hypotenuse(n)
    return round(Fraction((r + half_cosine(n)) * multiple_cosines(n)[i], n * r))


def face_weight(n, i):
    """B(n, i); 0 off the range."""
    if not weighed(n, i):
        return 0
    return round(Fraction(SCALE * multiple_cosines(2 * n)[2 * i + 1], n * hypotenuse(n)))


def listed(weight):
    """All weights of a kind in a list, so many places to each n."""
    return [weight(n, i) for n in INNER_VALENCES for i in range(ROW)]


# ---- What the weights approach.


@in_digits
def real_hypotenuse(n):
    return (4 + real_cosine(1, 2 * n) ** 2).sqrt()


@in_digits
def real_edge_weight(n, i):
    """The weight of the far end of an edge in equation (2)."""
    return (1 + real_cosine(1, 2 * n) / real_hypotenuse(n)) / n * real_cosine(i, n)


@in_digits
def real_face_weight(n, i):
    """The weight of the vertex across a face in equation (2)."""
    return real_cosine(2 * i + 1, 2 * n) / (n * real_hypotenuse(n))
