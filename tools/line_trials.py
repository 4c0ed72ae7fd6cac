"""The trials of the line call, which tools/trials.py writes: lines for every N, and every refusal with what it leaves.

What is expected of a line is computed sample by sample (sample_forms.py), so a trial shows that each place has the number that the
sample call has to give.
"""

import random
from itertools import product

from meshes import CONTROL, STEPS, changed
from patches import PATCH
from sample_forms import LineTrial, cross, limits, patch, random_patches, with_number
from trial_forms import PLACES

# The control values that no trial names.
RANDOM = random.Random(20250612)


def line(numbers, f=0, n=2, b=1, more=0):
    """A line trial with a list that has so many places more than the line."""
    return LineTrial(numbers, f, n, b, lent=3 * (n + 1) + more)


# ---- Lines that are written.


def every_steps():
    """For every N a list as long as the line, and one that is a place shorter: 17."""
    for n in STEPS:
        numbers, ends_and_middle = random_patches(RANDOM, 1), (0, n // 2, n)
        b, other = ends_and_middle[n % 3], ends_and_middle[(n + 1) % 3]
        yield f"line-{n}-steps-b-{b}", line(numbers, n=n, b=b)
        yield f"line-{n}-steps-b-{other}-one-short-refused-17", line(numbers, n=n, b=other, more=-1)


def longer():
    """Lists that are longer than the line, whose places behind it are left alone."""
    for n, b, more in ((1, 1, 1), (2, 0, 2), (3, 2, 3), (5, 5, 4), (15, 7, 48), (32, 32, 1)):
        yield f"line-{n}-steps-b-{b}-{more}-more", line(random_patches(RANDOM, 1), n=n, b=b, more=more)
    yield f"line-32-steps-{PLACES}-places", changed(line(random_patches(RANDOM, 1), n=32), lent=PLACES)


def affine(origin, along_u, along_v):
    """A patch with point b(i,j) at origin + i along_u + j along_v, so sample (a, b) is origin + 3 (a along_u + b along_v) / N."""
    point = lambda i, j: [o + i * u + j * v for o, u, v in zip(origin, along_u, along_v)]
    return patch({(i, j): point(i, j) for i, j in product(range(4), repeat=2)})


def shapes():
    """Patches whose x differs along u alone, y along v alone, and z along both."""
    numbers = affine((1, 2, 3), (1000, 0, 20), (0, -1000, 50000))
    for n, b in ((3, 1), (5, 4)):
        yield f"line-x-along-u-y-along-v-{n}-steps-b-{b}", line(numbers, n=n, b=b)


def all_halves(trial):
    """A trial that has coordinates at a half, of either sign, above an even number and above an odd one."""
    assert len({(x > 0, x // 1 % 2) for x in trial.answer().exact() if x.denominator == 2}) == 4
    return trial


def rounding():
    """Coordinates at a half; and such as are another number where they are rounded along u and again along v, or the other way round."""
    for n, b in ((4, 1), (32, 5)):
        yield f"line-halves-along-u-{n}-steps", all_halves(line(affine((0, 0, -24), (n // 2, -n // 2, 8), (0, 0, 0)), n=n, b=b))
    large = CONTROL - 144
    yield "line-halves-everywhere-32-steps", all_halves(line(affine((0, -large, large), (32, -32, 32), (16, -16, 16)), n=32, b=31))
    yield "line-rounded-once-up", line(cross((8, 4, 4, 8)))
    yield "line-rounded-once-down", line(cross((0, 5, 5, 0)))


def at_limits():
    """Every control value at the limit."""
    for (word, numbers), (n, b) in zip(limits(RANDOM), ((1, 0), (2, 1), (3, 2), (5, 3), (31, 16), (32, 31))):
        yield f"line-limits-{word}-{n}-steps", line(numbers, n=n, b=b)


# ---- The refusals, and what is just not refused.


def faces():
    """The face number and the length of the patch list: 12."""
    three = random_patches(RANDOM, 3)
    yield "line-middle-face-of-3", line(three, f=1)
    yield "line-last-face-of-3", line(three, f=2)
    yield "line-face-3-of-3-refused-12", line(three, f=3)
    yield "line-face-largest-refused-12", line(three, f=2**64 - 1)
    # 48f + 48 and 48f are multiples of 2^64.
    yield "line-face-whose-end-wraps-to-0-refused-12", line(three, f=2**60 - 1)
    yield "line-face-whose-start-wraps-to-0-refused-12", line(three, f=2**60)
    yield "line-no-numbers-refused-12", line([])
    yield "line-47-numbers-refused-12", line(three[:47])
    yield "line-95-numbers-face-1-refused-12", line(three[:95], f=1)


def controls():
    """The control values of the face, and of the others: 13."""
    three = random_patches(RANDOM, 3)
    with_middle = lambda place, value: line(with_number(three, PATCH + place, value), f=1)
    for word, sign in (("", 1), ("minus-", -1)):
        for where, place in (("first", 0), ("last", 47)):
            yield f"line-control-{word}268435457-{where}-refused-13", with_middle(place, sign * (CONTROL + 1))
    yield "line-control-minus-2147483648-refused-13", with_middle(22, -(2**31))
    yield "line-number-off-just-before-the-face", with_middle(-1, CONTROL + 1)
    yield "line-number-off-just-after-the-face", with_middle(PATCH, -CONTROL - 1)
    yield "line-every-number-off-but-the-face", line([2**31 - 1] * PATCH + three[:PATCH] + [-(2**31)] * PATCH, f=1)


def places():
    """N and b: 14. The lists are as long as a line of that N, where one can be."""
    one = random_patches(RANDOM, 1)
    yield "line-steps-0-refused-14", line(one, n=0, b=0)
    yield "line-steps-33-refused-14", line(one, n=33)
    yield "line-steps-4294967298-refused-14", changed(line(one), n=2**32 + 2)
    # 3(N + 1) is 2^64 + 2.
    yield "line-steps-whose-line-wraps-to-2-refused-14", changed(line(one), n=(2**64 - 1) // 3)
    yield "line-steps-largest-refused-14", changed(line(one), n=2**64 - 1)
    for n in (1, 5, 32):
        yield f"line-{n}-steps-b-above-n-refused-14", line(one, n=n, b=n + 1)
    yield "line-b-4294967296-refused-14", line(one, b=2**32)
    yield "line-b-largest-refused-14", line(one, b=2**64 - 1)


def short():
    """Lists that are far too short: 17."""
    one = random_patches(RANDOM, 1)
    yield "line-empty-refused-17", line(one, more=-9)
    yield "line-a-sample-short-refused-17", line(one, more=-3)


def together():
    """Several causes together: the lowest number wins, whatever the list has room for."""
    one = random_patches(RANDOM, 1)
    off = with_number(one, 47, CONTROL + 1)
    cut = [CONTROL + 1] + one[:46]
    for name, trial, causes in (
        ("47-numbers-one-off", line(cut), [12, 13]),
        ("face-1-of-1-and-steps-33", line(one, f=1, n=33), [12, 14]),
        ("face-1-of-1-and-one-short", line(one, f=1, more=-1), [12, 17]),
        ("control-off-and-steps-0", line(off, n=0, b=0), [13, 14]),
        ("control-off-and-b-above-n", line(off, b=3), [13, 14]),
        ("control-off-and-one-short", line(off, more=-1), [13, 17]),
        ("steps-33-and-one-short", line(one, n=33, more=-1), [14, 17]),
        ("b-above-n-and-one-short", line(one, b=3, more=-1), [14, 17]),
        ("face-1-of-1-and-empty", line(one, f=1, more=-9), [12, 17]),
        ("control-off-and-empty", line(off, more=-9), [13, 17]),
        ("steps-0-and-empty", line(one, n=0, b=0, more=-3), [14, 17]),
        ("b-above-n-and-empty", line(one, b=3, more=-9), [14, 17]),
        ("every-cause-and-empty", line(cut, n=33, b=34, more=-102), [12, 13, 14, 17]),
    ):
        assert trial.answer().causes() == causes, name
        yield f"line-{name}-refused-{causes[0]}", trial


GROUPS = (every_steps, longer, shapes, rounding, at_limits, faces, controls, places, short, together)


# ---- Files that are no trial.


def files():
    """Files that are no line trial, with what the program says of them."""
    one = random_patches(RANDOM, 1)
    whole = line(one).bytes()
    yield f"line-{PLACES + 1}-places-too-long", changed(line(one), lent=PLACES + 1).bytes(), "too long"
    yield f"line-{PLACES + 1}-numbers-too-long", line([0] * (PLACES + 1)).bytes(), "too long"
    for words, content in (
        ("first-number-only", whole[:2]),
        ("head-one-byte-short", whole[:27]),
        ("one-byte-short", whole[:-1]),
        ("one-byte-long", whole + b"\0"),
    ):
        yield f"line-file-{words}-not-whole", content, "not whole"
