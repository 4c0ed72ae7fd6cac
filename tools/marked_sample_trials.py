"""The trials of the marked sample, which tools/trials.py writes: exact samples and others, bytes that are not 1, and every refusal.

What is expected is computed in fractions (sample_forms.py): a sample is exact where its sixteen bytes are 1 and its three fractions are whole.
"""

import random
from itertools import product

from meshes import CONTROL, STEPS, changed
from patches import PATCH, POINTS
from sample_forms import MarkedTrial, limits, patch, random_patches, with_number
from trial_forms import PLACES, joined, the_square, the_strip

# The control values that no trial names.
RANDOM = random.Random(20250619)

# The places of a patch's points, along u first.
PLACES_OF_POINTS = [(i, j) for j, i in product(range(4), repeat=2)]

# The marks of a patch whose points are all exact.
ALL = [1] * POINTS


def exact(trial):
    assert trial.answer().mark() == 1
    return trial


def inexact(trial):
    assert trial.answer().mark() == 0
    return trial


def worked():
    """The samples of rule X17."""
    patches, marks = (lambda trial: joined(trial.answer().patches)), (lambda trial: joined(trial.answer().marks))
    strip, other = the_strip(), changed(the_strip(), positions={8: 10})
    yield "marked-strip-2-steps", exact(MarkedTrial(patches(strip), marks=marks(strip)))
    yield "marked-strip-3-steps", inexact(MarkedTrial(patches(strip), n=3, marks=marks(strip)))
    yield "marked-strip-z-10-first-corner", inexact(MarkedTrial(patches(other), n=1, a=0, b=0, marks=marks(other)))
    for n, a, b in ((2, 1, 0), (2, 1, 1), (7, 1, 1)):
        yield f"marked-square-{n}-steps-place-{a}-{b}", exact(MarkedTrial(patches(the_square()), n=n, a=a, b=b))
    yield "marked-square-byte-2", inexact(MarkedTrial(patches(the_square()), marks=with_number(ALL, 5, 2)))
    yield "marked-square-15-marks-refused-12", MarkedTrial(patches(the_square()), marks=ALL[:15])


def bytes_of_points():
    """Bytes that are not 1: at each place, whatever the weight of its point is, and other numbers than 0; all else is exact."""
    flat = [7, -8, 9] * POINTS
    for i, j in PLACES_OF_POINTS:
        marks = with_number(ALL, i + 4 * j, 0)
        yield f"marked-byte-0-at-{i}-{j}", inexact(MarkedTrial(flat, marks=marks))
        # The sample at the far corner has no part of this point.
        a, b = 0 if i > 1 else 1, 0 if j > 1 else 1
        yield f"marked-byte-0-at-{i}-{j}-weight-0", inexact(MarkedTrial(flat, n=1, a=a, b=b, marks=marks))
    for byte, place in ((2, 0), (3, 15), (127, 3), (128, 12), (129, 10), (254, 6), (255, 9)):
        yield f"marked-byte-{byte}-at-place-{place}", inexact(MarkedTrial(flat, marks=with_number(ALL, place, byte)))
    for byte in (0, 1, 2, 255):
        yield f"marked-bytes-all-{byte}", (exact if byte == 1 else inexact)(MarkedTrial(flat, marks=[byte] * POINTS))


def bytes_of_faces():
    """The bytes of the face, and those of the others, which tell nothing of it."""
    numbers = [1, 2, 3] * (3 * POINTS)
    for f, word in enumerate(("first", "middle", "last")):
        own = [1 if place // POINTS == f else 0 for place in range(3 * POINTS)]
        yield f"marked-{word}-face-of-3-alone", exact(MarkedTrial(numbers, f=f, marks=own))
        yield f"marked-every-face-of-3-but-the-{word}", inexact(MarkedTrial(numbers, f=f, marks=[1 - x for x in own]))
        for edge, place in (("first", POINTS * f), ("last", POINTS * f + POINTS - 1)):
            yield f"marked-{word}-face-of-3-{edge}-byte-0", inexact(MarkedTrial(numbers, f=f, marks=with_number(ALL * 3, place, 0)))
    for place in (0, 15, 32, 47):
        yield f"marked-middle-face-of-3-byte-{place}-of-another", exact(MarkedTrial(numbers, f=1, marks=with_number(ALL * 3, place, 2)))


def divisions():
    """The sample's own division: whole, and with a rest in one coordinate alone; every byte is 1."""
    for (k, axis), (n, a, divisor) in product(enumerate("xyz"), ((2, 1, 64), (3, 2, 729))):
        # With N = 2 the sample (1, 1) has a 64th of b(0,0), with N = 3 the sample (2, 2) has a 729th of it.
        at = lambda rest: patch({(0, 0): [5 * divisor + (rest if k == other else 0) for other in range(3)]})
        yield f"marked-{axis}-whole-{divisor}ths", exact(MarkedTrial(at(-11 * divisor), n=n, a=a, b=a))
        for word, rest in (("1", 1), ("a-half-of", divisor // 2), ("minus-1", -10 * divisor - 1), ("minus-all-but-1", 1 - 11 * divisor)):
            yield f"marked-{axis}-{word}-{divisor}ths", inexact(MarkedTrial(at(rest), n=n, a=a, b=a))
    # Parts of two points that make up a whole number together.
    yield "marked-rests-that-cancel", exact(MarkedTrial(patch({(0, 0): (1, -1, 32), (3, 3): (-1, 1, 32)})))
    yield "marked-rests-in-every-coordinate", inexact(MarkedTrial(patch({(1, 2): (1, 1, 1)})))


def steps():
    """For each N a flat patch, whose samples are all exact, or a random one at a corner, where it is, or at another place."""
    for n in STEPS:
        a, b = RANDOM.randint(0, n), RANDOM.randint(0, n)
        if n % 3 == 0:
            yield f"marked-flat-{n}-steps", exact(MarkedTrial([CONTROL, -CONTROL, 12345677] * POINTS, n=n, a=a, b=b))
        elif n % 3 == 1:
            a, b = RANDOM.choice((0, n)), RANDOM.choice((0, n))
            yield f"marked-corner-{n}-steps", exact(MarkedTrial(random_patches(RANDOM, 1), n=n, a=a, b=b))
        else:
            yield f"marked-random-{n}-steps", MarkedTrial(random_patches(RANDOM, 1), n=n, a=a, b=b)
    for (word, numbers), (n, a, b) in zip(limits(RANDOM), ((1, 1, 0), (2, 1, 1), (3, 1, 2), (5, 0, 3), (31, 15, 16), (32, 1, 31))):
        yield f"marked-limits-{word}-{n}-steps", MarkedTrial(numbers, n=n, a=a, b=b)


def lengths():
    """The lengths of both lists: 12."""
    three = random_patches(RANDOM, 3)
    for places, bytes_, f, suffix in (
        (48, 16, 0, ""),
        (48, 17, 0, ""),
        (48, 15, 0, "-refused-12"),
        (47, 16, 0, "-refused-12"),
        (47, 15, 0, "-refused-12"),
        (48, 0, 0, "-refused-12"),
        (0, 16, 0, "-refused-12"),
        (0, 0, 0, "-refused-12"),
        (144, 16, 1, "-refused-12"),
        (144, 31, 1, "-refused-12"),
        (144, 32, 1, ""),
        (144, 47, 2, "-refused-12"),
        (144, 48, 2, ""),
        (143, 48, 2, "-refused-12"),
        (95, 48, 1, "-refused-12"),
        (96, 32, 1, ""),
        (144, 48, 3, "-refused-12"),
    ):
        yield f"marked-{places}-numbers-{bytes_}-marks-face-{f}{suffix}", MarkedTrial(three[:places], f=f, marks=(ALL * 3)[:bytes_])
    longest = random_patches(RANDOM, 43)[:PLACES]
    yield f"marked-{PLACES}-numbers-face-41", MarkedTrial(longest, f=41, marks=ALL * 42)
    yield f"marked-{PLACES}-numbers-face-41-one-mark-short-refused-12", MarkedTrial(longest, f=41, marks=(ALL * 42)[:-1])
    yield "marked-4096-marks-face-2", MarkedTrial(three, f=2, marks=ALL * 256)
    # Numbers of faces with 16f + 16 or 16f a multiple of 2^64, where 48f + 48 or 48f is one too; the largest, and half of it.
    for word, f in (("end-wraps-to-0", 2**60 - 1), ("start-wraps-to-0", 2**60), ("start-wraps-to-16", 2**60 + 1)):
        yield f"marked-face-whose-{word}-refused-12", MarkedTrial(three, f=f, marks=ALL * 3)
    yield "marked-face-largest-refused-12", MarkedTrial(three, f=2**64 - 1, marks=ALL * 3)
    yield "marked-face-half-the-largest-refused-12", MarkedTrial(three, f=2**63, marks=ALL * 3)


def refused():
    """Control values, and N and the place: 13 and 14, whatever the bytes are; what is off in another face is not looked at."""
    one, three = random_patches(RANDOM, 1), random_patches(RANDOM, 3)
    for word, sign in (("", 1), ("minus-", -1)):
        for where, place in (("first", 0), ("last", 47)):
            beyond = with_number(three, PATCH + place, sign * (CONTROL + 1))
            yield f"marked-control-{word}268435457-{where}-refused-13", MarkedTrial(beyond, f=1, marks=ALL * 3)
            yield f"marked-control-{word}268435457-{where}-bytes-0-refused-13", MarkedTrial(beyond, f=1, marks=[0] * 48)
    for where, place in (("before", PATCH - 1), ("after", 2 * PATCH)):
        yield f"marked-number-off-just-{where}-the-face", MarkedTrial(with_number(three, place, 2**31 - 1), f=1, marks=ALL * 3)
    for name, n, a, b in (
        ("steps-0", 0, 0, 0),
        ("steps-33", 33, 1, 1),
        ("steps-largest", 2**64 - 1, 1, 1),
        ("a-above-n", 2, 3, 1),
        ("b-above-n", 2, 1, 3),
        ("a-largest", 2, 2**64 - 1, 1),
        ("b-4294967296", 2, 1, 2**32),
    ):
        yield f"marked-{name}-refused-14", MarkedTrial(one, n=n, a=a, b=b)
        yield f"marked-{name}-bytes-0-refused-14", MarkedTrial(one, n=n, a=a, b=b, marks=[0] * POINTS)


def together():
    """Several causes together: the lowest number wins, 12 of either list."""
    one = random_patches(RANDOM, 1)
    beyond = with_number(one, 47, CONTROL + 1)
    few = ALL[:15]
    for name, trial, causes in (
        ("15-marks-and-control-off", MarkedTrial(beyond, marks=few), [12, 13]),
        ("no-marks-and-control-off", MarkedTrial(beyond, marks=[]), [12, 13]),
        ("15-marks-and-steps-0", MarkedTrial(one, n=0, marks=few), [12, 14]),
        ("15-marks-and-steps-33", MarkedTrial(one, n=33, marks=few), [12, 14]),
        ("15-marks-and-a-above-n", MarkedTrial(one, a=3, marks=few), [12, 14]),
        ("15-marks-and-all-else-off", MarkedTrial(beyond, n=33, marks=few), [12, 13, 14]),
        ("47-numbers-one-off", MarkedTrial([CONTROL + 1] + one[:46]), [12, 13]),
        ("47-numbers-and-steps-33", MarkedTrial(one[:47], n=33), [12, 14]),
        ("47-numbers-15-marks-and-all-else-off", MarkedTrial(beyond[1:], n=0, marks=few), [12, 13, 14]),
        ("control-off-and-steps-0", MarkedTrial(beyond, n=0), [13, 14]),
        ("control-off-and-b-above-n", MarkedTrial(beyond, b=3), [13, 14]),
    ):
        assert trial.answer().causes() == causes, name
        yield f"marked-{name}-refused-{causes[0]}", trial


GROUPS = (worked, bytes_of_points, bytes_of_faces, divisions, steps, lengths, refused, together)


# ---- Files that are no trial.


def files():
    """Files that are no trial of the marked sample, with what the program says of them."""
    one = random_patches(RANDOM, 1)
    whole = MarkedTrial(one).bytes()
    yield f"marked-{PLACES + 1}-numbers-too-long", MarkedTrial([0] * (PLACES + 1)).bytes(), "too long"
    for words, content in (
        ("first-number-only", whole[:2]),
        ("head-one-byte-short", whole[:35]),
        ("head-only", whole[:36]),
        ("marks-one-short", whole[:51]),
        ("one-byte-short", whole[:-1]),
        ("one-byte-long", whole + b"\0"),
    ):
        yield f"marked-file-{words}-not-whole", content, "not whole"
