#!/usr/bin/env python3
"""Writes the trials of crates/trials: data/ (a file a trial), args (their names) and stdout (what the program has to print).

What is expected is computed in trial_forms.py and sample_forms.py from an independent reading of the rules. A trial's name says what
it is, and ends in -refused-N where the call says no. The trials of the mirror call are in mirror_trials.py, those of the line call in
line_trials.py, those of circulating, which the mesh check does, in fan_trials.py, those of the cosines and weights in weight_trials.py,
those of the tangent call in tangent_trials.py, those of the marks of the patch call in mark_trials.py, and those of the marked sample in
marked_sample_trials.py.
"""

import argparse
import random
from itertools import chain, count, product
from pathlib import Path

import fan_trials
import line_trials
import mark_trials
import marked_sample_trials
import mirror_trials
import tangent_trials
import weight_trials
from meshes import BOUNDARY_FACES, CONTROL, INNER_VALENCES, STEPS, changed
from patches import PATCH
from sample_forms import SampleTrial, cross, limits, patch, random_patches, with_number
from shapes import (
    Shape,
    across_twice,
    begun_later,
    bow_tie,
    closed_fan,
    cube,
    flipped,
    glue,
    grid,
    isolated,
    join,
    moebius,
    notched,
    open_fan,
    pillow,
    renumbered,
    ring,
    square,
    strip,
    torus,
    trapezohedron,
)
from trial_forms import (
    FAULTS,
    PATCH_PLACES,
    PLACES,
    MeshTrial,
    lengthened,
    mesh,
    patched,
    placed,
    renumbered_too,
    scattered,
    shortened,
    tagged,
    the_cube,
    the_reentrant,
    the_square,
    the_strip,
    with_faults,
)

CRATE = Path(__file__).resolve().parent.parent / "crates" / "trials"

# The control values of the sample trials, where no others are named; and the coordinates and renumberings of the patch trials.
RANDOM = random.Random(20250607)
PATCH_RANDOM = random.Random(20250608)


# ---- Control values, and coordinates.


def halves(trial):
    """A trial whose three coordinates lie halfway between whole numbers."""
    assert all(x.denominator == 2 for x in trial.answer().exact())
    return trial


def varied(shape, n):
    return scattered(PATCH_RANDOM, shape, n)


def with_renumbered(name, trial):
    return renumbered_too(PATCH_RANDOM, name, trial)


# ---- The trials of the mesh check.


def accepted():
    """Meshes that the check takes."""
    yield "square", mesh(square())
    yield "strip-2", mesh(strip(2))
    yield "grid-2-by-2", mesh(grid(2, 2))
    yield "grid-5-by-3", mesh(grid(5, 3))
    yield "cube", mesh(cube())
    yield "cube-turned-inside-out", mesh(Shape([face[::-1] for face in cube().faces]))
    yield "cube-faces-begun-anywhere", mesh(begun_later(cube()))
    yield "cube-renumbered", mesh(renumbered(cube()))
    yield "ring-3", mesh(ring(3))
    yield "torus-3-by-3", mesh(torus(3, 3))
    yield "two-cubes-apart", mesh(join(cube(), cube()))
    yield "cube-without-a-face", mesh(Shape(cube().faces[1:]))
    yield "grid-3-by-3-with-a-hole", mesh(Shape(grid(3, 3).faces[:4] + grid(3, 3).faces[5:]))
    for n in INNER_VALENCES:
        yield f"closed-fan-{n}", mesh(closed_fan(n))
    for k in BOUNDARY_FACES:
        yield f"open-fan-{k}", mesh(open_fan(k))
    yield "trapezohedron-3", mesh(trapezohedron(3))
    yield "trapezohedron-16", mesh(trapezohedron(16))


def sizes():
    """V, F and the lengths of the lists: 1."""
    yield "vertices-0-refused-1", changed(mesh(square()), v=0, positions=[], tags=[])
    yield "vertices-3-refused-1", changed(mesh(Shape([(0, 1, 2, 0)])), twins=7)
    yield "vertices-4-square", mesh(square())
    yield "vertices-512-strip", mesh(strip(255))
    yield "vertices-512-faces-256-ring", mesh(ring(256))
    yield "vertices-513-refused-1", mesh(join(grid(2, 2), *[square()] * 126))
    yield "vertices-65534-refused-1", changed(mesh(square()), v=65534)
    yield "faces-0-refused-1", changed(mesh(square()), f=0, faces=[])
    yield "faces-1-square", mesh(square())
    yield "faces-256-torus", mesh(torus(16, 16))
    yield "faces-257-refused-1", mesh(join(torus(16, 16), square()))
    yield "faces-65535-refused-1", changed(mesh(square()), f=65535)
    yield "nothing-at-all-refused-1", MeshTrial(0, 0, [], [], [], 0)
    for name in ("positions", "tags", "faces"):
        yield f"{name}-one-short-refused-1", shortened(mesh(cube()), name)
        yield f"{name}-one-long-refused-1", lengthened(mesh(cube()), name)
        yield f"{name}-empty-refused-1", changed(mesh(cube()), **{name: []})
    yield "vertices-one-less-than-positions-refused-1", changed(mesh(cube()), v=7)
    yield "faces-one-less-than-listed-refused-1", changed(mesh(cube()), f=5)
    yield "positions-2048-refused-1", changed(mesh(square()), positions=[0] * PLACES)
    yield "tags-2049-refused-1", changed(mesh(square()), tags=[0] * (PLACES + 1))
    yield "faces-2048-refused-1", changed(mesh(square()), faces=[0] * PLACES)


def lent():
    """The lent list: 2."""
    yield "twins-empty-refused-2", changed(mesh(square()), twins=0)
    yield "twins-one-short-refused-2", changed(mesh(cube()), twins=23)
    yield "twins-exact", changed(mesh(cube()), twins=24)
    yield "twins-one-long", changed(mesh(cube()), twins=25)
    yield "twins-2048", changed(mesh(cube()), twins=PLACES)
    yield "twins-exact-bow-tie-refused-9", changed(mesh(bow_tie()), twins=8)


def entries():
    """Coordinates, tags, vertex numbers and faces: 3 to 6."""
    for where, at in (("", 0), ("-last-z", 23)):
        for word, sign in (("", 1), ("minus-", -1)):
            yield f"coordinate-{word}1048576{where}", changed(mesh(cube()), positions={at: sign * 1048576})
            yield f"coordinate-{word}1048577{where}-refused-3", changed(mesh(cube()), positions={at: sign * 1048577})
    yield "coordinate-1048577-y-refused-3", changed(mesh(cube()), positions={10: 1048577})
    yield "coordinate-2147483647-refused-3", changed(mesh(cube()), positions={4: 2147483647})
    yield "coordinate-minus-2147483648-refused-3", changed(mesh(cube()), positions={4: -2147483648})
    yield "every-coordinate-1048576", changed(mesh(cube()), positions=[1048576] * 24)
    yield "tag-2-first-vertex-refused-4", changed(mesh(square()), tags={0: 2})
    yield "tag-2-last-vertex-refused-4", changed(mesh(square()), tags={3: 2})
    yield "tag-255-refused-4", changed(mesh(grid(2, 2)), tags={3: 255})
    yield "tag-2-inner-vertex-refused-4", changed(mesh(grid(2, 2)), tags={4: 2})
    yield "tag-1-boundary-vertex", changed(mesh(grid(2, 2)), tags={1: 1})
    yield "tag-1-every-boundary-vertex", changed(mesh(grid(2, 2)), tags=[1, 1, 1, 1, 0, 1, 1, 1, 1])
    yield "face-names-vertex-v-first-refused-5", changed(mesh(grid(2, 2)), faces={0: 9})
    yield "face-names-vertex-v-last-refused-5", changed(mesh(grid(2, 2)), faces={15: 9})
    yield "face-names-vertex-65535-refused-5", changed(mesh(square()), faces={2: 65535})
    yield "vertices-512-strip-renumbered", mesh(renumbered(strip(255)))
    yield "face-names-vertex-512-of-512-refused-5", changed(mesh(strip(255)), faces={700: 512})
    yield "vertex-twice-adjacent-refused-6", changed(mesh(square()), faces={2: 1})
    yield "vertex-twice-adjacent-across-the-end-refused-6", changed(mesh(square()), faces={3: 0})
    yield "vertex-twice-opposite-refused-6", changed(mesh(square()), faces={2: 0})
    yield "vertex-twice-opposite-late-refused-6", changed(mesh(square()), faces={3: 1})
    yield "vertex-twice-last-face-refused-6", changed(mesh(grid(2, 2)), faces={15: 5})
    yield "vertex-four-times-refused-6", changed(mesh(square()), faces=[2, 2, 2, 2])
    yield "closed-fan-1-refused-6", mesh(Shape(closed_fan(1).faces, 4))


def half_edges():
    """One side twice the same way round: 7."""
    yield "same-face-twice-refused-7", mesh(Shape(square().faces * 2))
    yield "same-face-twice-begun-elsewhere-refused-7", mesh(Shape([(0, 1, 2, 3), (2, 3, 0, 1)]))
    yield "half-edge-twice-refused-7", mesh(Shape([(0, 1, 2, 3), (0, 1, 4, 5)]))
    yield "half-edge-twice-first-and-last-side-refused-7", mesh(Shape([(0, 1, 2, 3), (4, 5, 6, 7), (1, 8, 9, 0)]))
    yield "edge-with-three-faces-refused-7", mesh(Shape([(0, 1, 2, 3), (1, 0, 4, 5), (1, 0, 6, 7)]))
    yield "strip-2-one-face-flipped-refused-7", mesh(flipped(strip(2), 1))
    yield "cube-first-face-flipped-refused-7", mesh(flipped(cube(), 0))
    yield "cube-last-face-flipped-refused-7", mesh(flipped(cube(), 5))
    yield "moebius-3-refused-7", mesh(moebius(3))
    yield "moebius-9-refused-7", mesh(moebius(9))
    yield "moebius-9-flipped-refused-7", mesh(flipped(moebius(9), 0))
    yield "torus-2-by-3-refused-7", mesh(torus(2, 3))


def vertices():
    """A vertex in no face, broken fans, valences and tags of inner vertices: 8 to 11."""
    yield "isolated-first-vertex-refused-8", mesh(join(isolated(), cube()))
    yield "isolated-middle-vertex-refused-8", mesh(join(square(), isolated(), square()))
    yield "isolated-last-vertex-refused-8", mesh(join(cube(), isolated()))
    yield "isolated-508-vertices-refused-8", mesh(join(square(), *[isolated()] * 508))
    yield "bow-tie-refused-9", mesh(bow_tie())
    yield "bow-tie-last-vertex-refused-9", mesh(renumbered(bow_tie()))
    yield "bow-tie-of-strips-refused-9", mesh(glue(strip(3), strip(3)))
    yield "faces-across-two-vertices-refused-9", mesh(Shape([(0, 1, 2, 3), (0, 4, 2, 5)]))
    yield "three-squares-at-a-vertex-refused-9", mesh(glue(bow_tie(), square()))
    yield "two-closed-fans-at-a-vertex-refused-9", mesh(glue(closed_fan(3), closed_fan(4)))
    yield "two-cubes-at-a-vertex-refused-9", mesh(glue(cube(), cube()))
    yield "closed-and-open-fan-at-a-vertex-refused-9", mesh(glue(cube(), square()))
    yield "open-and-closed-fan-at-a-vertex-refused-9", mesh(glue(open_fan(2), closed_fan(5)))
    yield "pillow-refused-10", mesh(pillow())
    yield "closed-fan-2-refused-10", mesh(closed_fan(2))
    yield "closed-fan-17-refused-10", mesh(closed_fan(17))
    yield "closed-fan-255-refused-10", mesh(closed_fan(255))
    yield "open-fan-9-refused-10", mesh(open_fan(9))
    yield "open-fan-16-refused-10", mesh(open_fan(16))
    yield "open-fan-255-refused-10", mesh(open_fan(255))
    yield "trapezohedron-2-refused-10", mesh(trapezohedron(2))
    yield "trapezohedron-17-refused-10", mesh(trapezohedron(17))
    yield "tag-1-inner-vertex-refused-11", changed(mesh(grid(2, 2)), tags={4: 1})
    yield "tag-1-every-vertex-refused-11", changed(mesh(grid(2, 2)), tags=[1] * 9)
    yield "tag-1-cube-last-vertex-refused-11", changed(mesh(cube()), tags={7: 1})
    yield "tag-1-pole-16-refused-11", changed(mesh(trapezohedron(16)), tags={0: 1})


def pairs():
    """Every two causes together, and from each cause on all of them: the lowest number wins."""
    for one in FAULTS:
        for other in range(one + 1, 12):
            trial = with_faults({one, other})
            assert {one, other} <= set(trial.answer().causes()), (one, other)
            yield f"{FAULTS[one]}-and-{FAULTS[other]}-refused-{one}", trial
    for one in range(1, 11):
        trial = with_faults(set(range(one, 12)))
        assert trial.answer().causes() == list(range(one, 12)), one
        yield f"{FAULTS[one]}-and-every-later-refused-{one}", trial


# ---- The trials of the sample call and of the reading.


def sample_faces():
    """The face number and the length of the list: 12."""
    three = random_patches(RANDOM, 3)
    yield "sample-first-face-of-3", SampleTrial(three, f=0)
    yield "sample-middle-face-of-3", SampleTrial(three, f=1)
    yield "sample-last-face-of-3", SampleTrial(three, f=2)
    yield "sample-face-3-of-3-refused-12", SampleTrial(three, f=3)
    yield "sample-face-4-of-3-refused-12", SampleTrial(three, f=4)
    yield "sample-face-4294967296-refused-12", SampleTrial(three, f=2**32)
    yield "sample-face-largest-refused-12", SampleTrial(three, f=2**64 - 1)
    # 48f below 2^64 and 48f + 48 not; 48f + 48, 48f and 48f - 48 multiples of 2^64; half the largest.
    yield "sample-face-whose-end-overflows-refused-12", SampleTrial(three, f=2**64 // PATCH)
    yield "sample-face-whose-end-wraps-to-0-refused-12", SampleTrial(three, f=2**60 - 1)
    yield "sample-face-whose-start-wraps-to-0-refused-12", SampleTrial(three, f=2**60)
    yield "sample-face-whose-start-wraps-to-48-refused-12", SampleTrial(three, f=2**60 + 1)
    yield "sample-face-half-the-largest-refused-12", SampleTrial(three, f=2**63)
    yield "sample-no-numbers-refused-12", SampleTrial([])
    yield "sample-1-number-refused-12", SampleTrial(three[:1])
    for length, f, suffix in (
        (47, 0, "-refused-12"),
        (48, 0, ""),
        (48, 1, "-refused-12"),
        (49, 0, ""),
        (49, 1, "-refused-12"),
        (95, 0, ""),
        (95, 1, "-refused-12"),
        (96, 1, ""),
        (143, 2, "-refused-12"),
    ):
        yield f"sample-{length}-numbers-face-{f}{suffix}", SampleTrial(three[:length], f=f)
    longest = random_patches(RANDOM, 43)[:PLACES]
    yield "sample-2048-numbers-face-41", SampleTrial(longest, f=41)
    yield "sample-2048-numbers-face-42-refused-12", SampleTrial(longest, f=42)


def sample_controls():
    """The control values of the face, and of the others: 13."""
    one, three = random_patches(RANDOM, 1), random_patches(RANDOM, 3)
    for where, place in (("first", 0), ("middle", 23), ("last", 47)):
        for word, sign in (("", 1), ("minus-", -1)):
            at, beyond = sign * CONTROL, sign * (CONTROL + 1)
            yield f"sample-control-{word}268435456-{where}", SampleTrial(with_number(one, place, at))
            yield f"sample-control-{word}268435457-{where}-refused-13", SampleTrial(with_number(one, place, beyond))
            # The same place of the middle one of three faces.
            middle = with_number(three, PATCH + place, at), with_number(three, PATCH + place, beyond)
            yield f"sample-control-{word}268435456-{where}-middle-face", SampleTrial(middle[0], f=1)
            yield f"sample-control-{word}268435457-{where}-middle-face-refused-13", SampleTrial(middle[1], f=1)
    yield "sample-control-2147483647-refused-13", SampleTrial(with_number(one, 10, 2**31 - 1))
    yield "sample-control-minus-2147483648-refused-13", SampleTrial(with_number(one, 10, -(2**31)))
    yield "sample-every-control-off-refused-13", SampleTrial([CONTROL + 1] * PATCH)
    for word, off in (("", 2**31 - 1), ("minus-", -(2**31)), ("just-", CONTROL + 1)):
        yield f"sample-number-{word}off-first-of-the-list", SampleTrial(with_number(three, 0, off), f=1)
        yield f"sample-number-{word}off-just-before-the-face", SampleTrial(with_number(three, 47, off), f=1)
        yield f"sample-number-{word}off-just-after-the-face", SampleTrial(with_number(three, 96, off), f=1)
        yield f"sample-number-{word}off-last-of-the-list", SampleTrial(with_number(three, 143, off), f=1)
        yield f"sample-number-{word}off-after-the-only-face", SampleTrial(one + [off])
    yield "sample-every-number-off-but-the-face", SampleTrial([2**31 - 1] * PATCH + one + [-(2**31)] * PATCH, f=1)


def sample_places():
    """N, a and b: 14."""
    one = random_patches(RANDOM, 1)
    yield "sample-steps-0-refused-14", SampleTrial(one, n=0, a=0, b=0)
    yield "sample-steps-0-place-1-1-refused-14", SampleTrial(one, n=0)
    yield "sample-steps-1", SampleTrial(one, n=1)
    yield "sample-steps-32", SampleTrial(one, n=32, a=17, b=6)
    yield "sample-steps-33-refused-14", SampleTrial(one, n=33)
    yield "sample-steps-33-place-0-0-refused-14", SampleTrial(one, n=33, a=0, b=0)
    yield "sample-steps-256-refused-14", SampleTrial(one, n=256)
    yield "sample-steps-4294967298-refused-14", SampleTrial(one, n=2**32 + 2)
    yield "sample-steps-largest-refused-14", SampleTrial(one, n=2**64 - 1)
    for n in (1, 5, 32):
        yield f"sample-{n}-steps-a-at-n", SampleTrial(one, n=n, a=n, b=1)
        yield f"sample-{n}-steps-b-at-n", SampleTrial(one, n=n, a=1, b=n)
        yield f"sample-{n}-steps-both-at-n", SampleTrial(one, n=n, a=n, b=n)
        yield f"sample-{n}-steps-a-above-n-refused-14", SampleTrial(one, n=n, a=n + 1, b=0)
        yield f"sample-{n}-steps-b-above-n-refused-14", SampleTrial(one, n=n, a=0, b=n + 1)
        yield f"sample-{n}-steps-both-above-n-refused-14", SampleTrial(one, n=n, a=n + 1, b=n + 1)
    for word, place in (("4294967296", 2**32), ("largest", 2**64 - 1)):
        yield f"sample-a-{word}-refused-14", SampleTrial(one, a=place)
        yield f"sample-b-{word}-refused-14", SampleTrial(one, b=place)


def sample_pairs():
    """Two causes together: the lower number wins."""
    one = random_patches(RANDOM, 1)
    off = with_number(one, 47, CONTROL + 1)
    together = {
        "sample-face-1-of-1-and-steps-33-refused-12": (SampleTrial(one, f=1, n=33), [12, 14]),
        "sample-face-1-of-1-and-a-above-n-refused-12": (SampleTrial(one, f=1, a=3), [12, 14]),
        "sample-no-numbers-and-steps-0-refused-12": (SampleTrial([], n=0), [12, 14]),
        "sample-control-off-and-steps-33-refused-13": (SampleTrial(off, n=33), [13, 14]),
        "sample-control-off-and-steps-0-refused-13": (SampleTrial(off, n=0), [13, 14]),
        "sample-control-off-and-b-above-n-refused-13": (SampleTrial(off, b=3), [13, 14]),
        "sample-47-numbers-one-off-refused-12": (SampleTrial([CONTROL + 1] + one[:46]), [12, 13]),
        "sample-47-numbers-one-off-and-steps-33-refused-12": (SampleTrial([CONTROL + 1] + one[:46], n=33), [12, 13, 14]),
    }
    for name, (trial, causes) in together.items():
        assert trial.answer().causes() == causes, name
        yield name, trial


def sample_rounding():
    """Samples of either sign, zero and odd ones, and fractions at and beside a half."""
    yield "sample-all-zero", SampleTrial(patch({}))
    yield "sample-all-one", SampleTrial([1] * PATCH, n=3, a=1, b=2)
    yield "sample-all-minus-one", SampleTrial([-1] * PATCH, n=3, a=1, b=2)
    yield "sample-odd", SampleTrial([7, -7, 12345679] * 16, n=5, a=2, b=3)
    yield "sample-even", SampleTrial([8, -8, 12345678] * 16, n=5, a=2, b=3)
    yield "sample-cancelled-to-zero", SampleTrial(patch({(0, 0): (64, -64, 1), (3, 3): (-64, 64, -1)}))
    for word, sign in (("", 1), ("minus-", -1)):
        # With N = 2 the point (1, 0) has an eighth of b(0,0) and of b(3,0), and (1, 1) has a 64th of b(0,0).
        for odd in (1, 7):
            controls = [sign * 4 * (odd + more) for more in (0, 2, 4)]
            yield f"sample-{word}halves-from-{odd}", halves(SampleTrial(patch({(0, 0): controls}), b=0))
        controls = [sign * (CONTROL - 4 * odd) for odd in (1, 3, 5)]
        yield f"sample-{word}halves-of-large-controls", halves(SampleTrial(patch({(3, 0): controls}), b=0))
        for control in (32, 96, 160):
            controls = [sign * (control + more) for more in (-1, 0, 1)]
            yield f"sample-{word}half-{control}-64ths-and-beside", SampleTrial(patch({(0, 0): controls}))
        controls = [sign * x for x in (364, 365, 1094)]
        yield f"sample-{word}beside-a-half-729ths", SampleTrial(patch({(3, 3): controls}), n=3)
        controls = [sign * x for x in (256, 768, 1280)]
        yield f"sample-{word}halves-4-steps", halves(SampleTrial(patch({(0, 0): controls}), n=4, a=2))
        controls = [sign * x for x in (32, 96, 160)]
        yield f"sample-{word}halves-32-steps", halves(SampleTrial(patch({(0, 0): controls}), n=32, a=16, b=16))
    # Rounded along u and again along v x would be another number, and the other way round y.
    yield "sample-rounded-once-up", SampleTrial(cross((8, 4, 4, 8)))
    yield "sample-rounded-once-down", SampleTrial(cross((0, 5, 5, 0)))


def sample_random():
    """Random control values at the corners of a patch, on its edges and inside, and for each N at a random place."""
    for n in (1, 2, 3, 5, 32):
        two = random_patches(RANDOM, 2)
        for b, a in product(sorted({0, 1, n - 1, n}), repeat=2):
            yield f"sample-random-{n}-steps-place-{a}-{b}", SampleTrial(two, f=1, n=n, a=a, b=b)
    for n in STEPS:
        yield f"sample-random-{n}-steps", SampleTrial(random_patches(RANDOM, 1), n=n, a=RANDOM.randint(0, n), b=RANDOM.randint(0, n))


def sample_limits():
    """Every control value at the limit."""
    for word, numbers in limits(RANDOM):
        for n, a, b in ((1, 1, 0), (2, 1, 1), (3, 1, 2), (5, 0, 3), (31, 15, 16), (32, 1, 31)):
            yield f"sample-limits-{word}-{n}-steps", SampleTrial(numbers, n=n, a=a, b=b)


# ---- The trials of the patch call.


def patch_examples():
    """The square, the cube and the strip of rules X1, X3 and X6, some with tags (rule X7)."""
    for n in (1, 2, 32):
        yield f"patch-square-{n}-steps", the_square(n)
        yield f"patch-cube-{n}-steps", the_cube(n)
        yield f"patch-strip-{n}-steps", the_strip(n)
    yield "patch-square-one-tag", tagged(the_square(), 1)
    yield "patch-strip-one-tag", tagged(the_strip(), 1)
    yield "patch-strip-all-tags", tagged(the_strip(), *range(6))


def patch_shapes():
    """Closed and open fans of every valence, tags on boundary vertices, and other shapes; each N is among them."""
    steps = (1 + 7 * i % 32 for i in count())
    for n in INNER_VALENCES:
        yield f"patch-closed-fan-{n}", varied(closed_fan(n), next(steps))
    for k in BOUNDARY_FACES:
        yield f"patch-open-fan-{k}", varied(open_fan(k), next(steps))
        yield f"patch-open-fan-{k}-tagged", tagged(varied(open_fan(k), next(steps)), 0)
    yield "patch-closed-fan-5-tagged", tagged(varied(closed_fan(5), next(steps)), 1, 2, 7)
    yield "patch-closed-fan-4-all-tags", tagged(varied(closed_fan(4), next(steps)), *range(1, 9))
    yield "patch-grid-3-by-3", varied(grid(3, 3), next(steps))
    yield "patch-grid-3-by-2-tagged", tagged(varied(grid(3, 2), next(steps)), 0, 1, 7)
    yield "patch-ring-4", varied(ring(4), next(steps))
    yield "patch-torus-3-by-3", varied(torus(3, 3), next(steps))
    yield "patch-trapezohedron-5", varied(trapezohedron(5), next(steps))
    yield "patch-across-twice", varied(across_twice(), next(steps))
    yield "patch-two-cubes-apart", varied(join(cube(), cube()), 4)
    for word, x in (("", 1048576), ("minus-", -1048576)):
        yield f"patch-every-coordinate-{word}1048576", placed(closed_fan(3), [(x, x, x)] * 7, 3)
    signs = [[PATCH_RANDOM.choice((-1048576, 1048576)) for _ in range(3)] for _ in range(13)]
    yield "patch-every-coordinate-at-a-limit", placed(closed_fan(6), signs, 4)


def patch_twice():
    """Each of these, and renumbered."""
    for name, trial in (*patch_examples(), *patch_shapes()):
        yield from with_renumbered(name, trial)


def patch_largest():
    """256 faces; there are samples at a half of either sign, above an even number and above an odd one."""
    trial = varied(grid(16, 16), 2)
    samples = [x for exact in trial.answer().exact for sample in exact.values() for x in sample]
    assert len({(x > 0, x // 1 % 2) for x in samples if x.denominator == 2}) == 4
    yield "patch-faces-256-grid", trial


def patch_lent():
    """The two lent lists: 2."""
    yield "patch-list-exact", changed(patched(mesh(cube())), patches=288)
    yield "patch-list-longest", changed(patched(mesh(cube())), patches=PATCH_PLACES)
    yield "patch-twins-exact", changed(patched(mesh(cube())), twins=24)
    yield "patch-list-one-short-refused-2", changed(patched(mesh(cube())), patches=287)
    yield "patch-list-empty-refused-2", changed(patched(mesh(square())), patches=0)
    yield "patch-list-a-patch-short-refused-2", changed(patched(mesh(cube())), patches=240)
    yield "patch-twins-one-short-refused-2", changed(patched(mesh(cube())), twins=23)
    yield "patch-twins-empty-refused-2", changed(patched(mesh(square())), twins=0)
    yield "patch-both-lists-one-short-refused-2", changed(patched(mesh(cube())), twins=23, patches=287)
    yield "patch-list-one-short-twins-exact-refused-2", changed(patched(mesh(cube())), twins=24, patches=287)
    yield "patch-both-lists-empty-faces-0-refused-1", changed(patched(mesh(square())), f=0, faces=[], twins=0, patches=0)
    yield "patch-faces-257-refused-1", changed(patched(mesh(grid(257, 1))), patches=48, marks=16)


def patch_refused():
    """Each cause by itself, which leaves the patch list alone, and with a patch list that is too short; the lowest number wins."""

    def short(causes):
        trial = patched(with_faults(causes))
        return changed(trial, patches=PATCH * trial.f - 1)

    for one, fault in FAULTS.items():
        yield f"patch-{fault}-refused-{one}", patched(with_faults({one}))
        yield f"patch-list-short-and-{fault}-refused-{min(one, 2)}", short({one})
    later = set(range(3, 12))
    yield "patch-every-cause-from-3-refused-3", patched(with_faults(later))
    yield "patch-list-short-and-every-cause-from-3-refused-2", short(later)
    yield "patch-twins-short-and-every-cause-from-3-refused-2", patched(with_faults(later | {2}))


def patch_boundary():
    """Boundary vertices with one face, alone and beside those with two and three, whose weights are 4, 4 and 6; and renumbered."""
    yield from with_renumbered("patch-square-3-steps", the_square(3))
    for n in (1, 2, 3):
        yield from with_renumbered(f"patch-reentrant-{n}-steps", the_reentrant(n))
    for p in (0, 1, 4):
        yield from with_renumbered(f"patch-reentrant-tag-at-{p}", tagged(the_reentrant(), p))
    yield from with_renumbered("patch-strip-of-five", varied(strip(5), 5))
    yield from with_renumbered("patch-squares-apart", varied(join(square(), square(), square()), 6))
    yield from with_renumbered("patch-grid-3-by-3-notched", varied(notched(3, 3), 7))


# ---- Files that are no trial.


def files():
    """Files that are no trial, with what the program says of them."""
    whole = mesh(square()).bytes()
    sample = SampleTrial(random_patches(RANDOM, 1)).bytes()
    yield "positions-2049-too-long", changed(mesh(square()), positions=[0] * (PLACES + 1)).bytes(), "too long"
    yield "faces-2049-too-long", changed(mesh(square()), faces=[0] * (PLACES + 1)).bytes(), "too long"
    yield "twins-2049-too-long", changed(mesh(square()), twins=PLACES + 1).bytes(), "too long"
    yield "sample-2049-numbers-too-long", SampleTrial([0] * (PLACES + 1)).bytes(), "too long"
    yield "file-empty-not-whole", b"", "not whole"
    yield "file-one-byte-short-not-whole", whole[:-1], "not whole"
    yield "file-one-byte-long-not-whole", whole + b"\0", "not whole"
    yield "sample-file-first-number-only-not-whole", sample[:2], "not whole"
    yield "sample-file-head-one-byte-short-not-whole", sample[:33], "not whole"
    yield "sample-file-one-byte-short-not-whole", sample[:-1], "not whole"
    yield "sample-file-two-bytes-short-not-whole", sample[:-2], "not whole"
    yield "sample-file-one-byte-long-not-whole", sample + b"\0", "not whole"
    head = placed(square(), [(0, 0, 0)] * 4).bytes()
    yield "patch-12292-numbers-too-long", changed(patched(mesh(square())), patches=PATCH_PLACES + 1).bytes(), "too long"
    yield "patch-file-first-number-only-not-whole", head[:2], "not whole"
    yield "patch-file-head-one-byte-short-not-whole", head[:7], "not whole"
    yield "patch-file-head-only-not-whole", head[:8], "not whole"
    yield "patch-file-one-byte-short-not-whole", head[:-1], "not whole"
    yield "patch-file-one-byte-long-not-whole", head + b"\0", "not whole"
    yield "file-missing", None, "no file"


# ---- All of them.

MESHES = (accepted, sizes, lent, entries, half_edges, vertices, pairs)
SAMPLES = (sample_faces, sample_controls, sample_places, sample_pairs, sample_rounding, sample_random, sample_limits)
PATCHES = (patch_twice, patch_largest, patch_lent, patch_refused, patch_boundary)


def trials(groups):
    """The trials of these groups: the name, the file, and what the program prints after the name."""
    for group in groups:
        for name, trial in group():
            answer = trial.answer()
            assert name.partition("-refused-")[2] == "".join(map(str, answer.causes()[:1])), name
            yield name, trial.bytes(), answer.line()


def write(contents):
    """Writes data, args and stdout anew; None stands for a file that is missing."""
    written, lines = {}, []
    for name, content, line in contents:
        assert name not in written, name
        written[name] = content
        lines.append(f"{name} {line}\n")
    data = CRATE / "data"
    data.mkdir(parents=True, exist_ok=True)
    for old in data.iterdir():
        old.unlink()
    for name, content in written.items():
        if content is not None:
            (data / name).write_bytes(content)
    (CRATE / "args").write_text("".join(f"{name}\n" for name in written))
    (CRATE / "stdout").write_text("".join(lines))


def main():
    about = argparse.ArgumentParser(
        description=__doc__,
        epilog="There are no other words: without any, crates/trials/data, args and stdout are written anew.",
        formatter_class=argparse.RawDescriptionHelpFormatter,
    )
    about.parse_args()
    mirrors, lines, fans = trials(mirror_trials.GROUPS), trials(line_trials.GROUPS), trials(fan_trials.GROUPS)
    earlier = chain(trials(MESHES + SAMPLES + PATCHES), files(), mirrors, mirror_trials.files(), lines, line_trials.files(), fans)
    weights, tangents = trials(weight_trials.GROUPS), trials(tangent_trials.GROUPS)
    marks, samples = trials(mark_trials.GROUPS), trials(marked_sample_trials.GROUPS)
    later = chain(marks, mark_trials.files(), samples, marked_sample_trials.files())
    write(chain(earlier, weights, weight_trials.files(), tangents, tangent_trials.files(), later))


if __name__ == "__main__":
    main()
