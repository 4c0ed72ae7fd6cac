"""The trials of the marks of the patch call, which tools/trials.py writes: meshes whose points are exact in part, and lent lists of marks.

What is expected is computed in fractions (patches.py): a point is exact where its three fractions are whole. The trials of the marked sample are
in marked_sample_trials.py.
"""

import random

from meshes import BOUNDARY_FACES, FACES, INNER_VALENCES, changed
from patches import POINTS
from shapes import across_twice, closed_fan, cube, grid, join, notched, open_fan, ring, square, torus
from trial_forms import (
    FAULTS,
    MARK_PLACES,
    PATCH_PLACES,
    PLACES,
    mesh,
    mirroring,
    patched,
    placed,
    renumbered_too,
    tagged,
    the_cube,
    the_reentrant,
    the_square,
    the_strip,
    with_faults,
)

# The coordinates that no trial names, and the renumberings.
RANDOM = random.Random(20250618)


# ---- Meshes of whose points some are exact.


def multiples(shape, unit, n=2):
    """A shape with coordinates that are multiples of a number."""
    return placed(shape, [[unit * RANDOM.randint(-30, 30) for _ in range(3)] for _ in range(shape.vertices)], n)


def off(trial, p, k):
    """A trial with coordinate k of vertex p larger by 1."""
    return changed(trial, positions={3 * p + k: trial.positions[3 * p + k] + 1})


def mixed(trial):
    """A trial that has points of either kind."""
    assert {mark for marks in trial.answer().marks for mark in marks} == {0, 1}
    return trial


def whole(trial):
    """A trial whose points are all exact."""
    assert all(mark == 1 for marks in trial.answer().marks for mark in marks)
    return trial


def examples():
    """The meshes of rule X17, and others of the worked ones."""
    for n in (1, 2, 3):
        yield f"strip-z-10-{n}-steps", mixed(changed(the_strip(n), positions={8: 10}))
        yield f"square-x-20-{n}-steps", mixed(changed(the_square(n), positions={3: 20, 6: 20}))
    yield "strip-3-steps", whole(the_strip(3))
    yield "square-7-steps", whole(the_square(7))
    yield "cube-3-steps", whole(the_cube(3))
    yield "reentrant-9-steps", whole(the_reentrant(9))
    # Vertex 1 has the corner point (4p + r + r')/6, and p itself where it has a tag.
    for words, corners in (("", ()), ("-tag-at-1", (1,)), ("-all-tags", range(6))):
        yield f"strip-thirds-along-y{words}", mixed(tagged(changed(the_strip(), positions={4: 1}), *corners))


def along_an_axis():
    """One vertex that is off along one axis; every other coordinate is a multiple of 9, so its points are exact."""
    for k, axis in enumerate("xyz"):
        yield f"grid-3-by-3-{axis}-off", mixed(off(multiples(grid(3, 3), 9), 5, k))
        yield f"corner-{axis}-off", mixed(off(multiples(grid(2, 2), 9, 3), 0, k))


def every_valence():
    """Fans whose points would all be exact, with the end of a spoke or another vertex off."""
    for n in INNER_VALENCES:
        trial = whole(multiples(closed_fan(n), 18 * n * (n + 5)))
        yield f"closed-fan-{n}-one-off", mixed(off(trial, RANDOM.choice((1, 2, n + 1)), RANDOM.randrange(3)))
    for k in BOUNDARY_FACES:
        trial = off(multiples(open_fan(k), 18 * (2 * k + 5)), k + 1, RANDOM.randrange(3))
        yield f"open-fan-{k}-one-off", mixed(tagged(trial, *[0] * (k % 2)))


def shapes():
    """Faces whose points are all exact and others in one mesh, and a mesh with a vertex across from another twice."""
    apart = multiples(join(square(), square(), square()), 9, 4)
    yield "squares-apart-middle-one-off", mixed(off(apart, 5, 1))
    yield "torus-3-by-4-one-off", mixed(off(multiples(torus(3, 4), 9, 3), 7, 2))
    yield "ring-5-one-off", mixed(off(multiples(ring(5), 9, 5), 3, 0))
    yield "grid-3-by-3-notched", mixed(off(multiples(notched(3, 3), 99, 6), 2, 1))
    yield "across-twice-one-off", mixed(off(multiples(across_twice(), 360), 0, 0))


def every_steps():
    """A grid with all points exact: samples of either kind where N is no power of 2."""
    for n in (1, 2, 3, 5, 6, 8, 9, 16, 27, 32):
        trial = whole(multiples(grid(2, 2), 9 * 64, n))
        kinds = {mark for marks in trial.answer().marked for mark in marks.values()}
        assert 1 in kinds and (0 in kinds or 64 % n == 0), n
        yield f"grid-2-by-2-{n}-steps", trial
    yield "grid-2-by-2-every-sample-exact-3-steps", whole(multiples(grid(2, 2), 9 * 729, 3))


def marked_meshes():
    """The marks of each of these; and of some renumbered, and of their mirror images."""
    for group in (every_valence, every_steps):
        for name, trial in group():
            yield f"patch-marks-{name}", trial
    for group in (examples, along_an_axis, shapes):
        for name, trial in group():
            yield from renumbered_too(RANDOM, f"patch-marks-{name}", trial)
            yield f"mirror-marks-{name}", mirroring(trial)


# ---- The lent list of marks.


def lent():
    """The lent list of marks: 2 where it is too short, and what is behind the marks is left alone."""
    cubes = lambda **lengths: changed(patched(mesh(cube())), **lengths)
    yield "patch-marks-list-exact", cubes(marks=96)
    yield "patch-marks-list-one-long", cubes(marks=97)
    yield "patch-marks-list-longest", cubes(marks=MARK_PLACES)
    yield "patch-every-list-exact", cubes(marks=96, patches=288, twins=24)
    yield "patch-marks-list-one-short-refused-2", cubes(marks=95)
    yield "patch-marks-list-one-short-others-exact-refused-2", cubes(marks=95, patches=288, twins=24)
    yield "patch-marks-list-one-short-others-longest-refused-2", cubes(marks=95, patches=PATCH_PLACES, twins=PLACES)
    yield "patch-marks-list-a-patch-short-refused-2", cubes(marks=80)
    yield "patch-marks-list-empty-refused-2", cubes(marks=0)
    yield "patch-marks-exact-list-one-short-refused-2", cubes(marks=96, patches=287)
    yield "patch-marks-exact-twins-one-short-refused-2", cubes(marks=96, twins=23)
    yield "patch-every-list-one-short-refused-2", cubes(marks=95, patches=287, twins=23)
    yield "patch-every-list-empty-refused-2", cubes(marks=0, patches=0, twins=0)
    yield "patch-marks-list-exact-square", changed(patched(mesh(square())), marks=16)
    yield "patch-marks-list-one-short-square-refused-2", changed(patched(mesh(square())), marks=15)
    yield "patch-marks-list-empty-faces-0-refused-1", changed(patched(mesh(square())), f=0, faces=[], marks=0)
    largest = lambda length: changed(multiples(grid(16, 16), 9, 1), marks=length)
    most = POINTS * FACES[-1]
    yield "patch-marks-faces-256-list-exact", largest(most)
    yield "patch-marks-faces-256-list-one-short-refused-2", largest(most - 1)


def lent_and_refused():
    """A list of marks that is too short and another cause: the lower number wins, and the list stays as it was."""
    for one, fault in FAULTS.items():
        trial = patched(with_faults({one}))
        yield f"patch-marks-short-and-{fault}-refused-{min(one, 2)}", changed(trial, marks=POINTS * trial.f - 1)
        yield f"patch-marks-exact-and-{fault}-refused-{one}", changed(patched(with_faults({one})), marks=POINTS * trial.f)
    trial = patched(with_faults(set(range(3, 12))))
    yield "patch-marks-short-and-every-cause-from-3-refused-2", changed(trial, marks=POINTS * trial.f - 1)


GROUPS = (marked_meshes, lent, lent_and_refused)


# ---- Files that are no trial.


def files():
    """Files that are no patch trial for their list of marks, with what the program says of them."""
    yield f"patch-{MARK_PLACES + 1}-marks-too-long", changed(the_square(), marks=MARK_PLACES + 1).bytes(), "too long"
