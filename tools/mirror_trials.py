"""The trials of the mirror call, which tools/trials.py writes: meshes that have an image, and every refusal with what it leaves.

What is expected of an image is computed from the mesh that was mirrored (trial_forms.py), so a trial shows that each sample of the
image is that of the mesh with a and b exchanged, and x negated.
"""

import random

from last import last
from meshes import FACES, MESH_FAULTS, VERTICES, PatchReading, changed
from shapes import Shape, across_twice, begun_later, closed_fan, cube, grid, join, open_fan, ring, square, torus, trapezohedron
from trial_forms import (
    FAULTS,
    PLACES,
    PatchTrial,
    image_of,
    lengths,
    mesh,
    mirroring,
    patched,
    placed,
    scattered,
    shortened,
    shuffled_trial,
    tagged,
    the_cube,
    the_square,
    the_strip,
    with_faults,
)

# The coordinates that no trial names, and the renumberings.
RANDOM = random.Random(20250610)

# The three lent lists, in their order.
LISTS = ("positions", "tags", "faces")


def varied(shape, n):
    return scattered(RANDOM, shape, n)


# ---- Meshes that have an image.


def examples():
    """The meshes of rules X1, X3 and X6, some with tags (rule X7)."""
    for n in (1, 2, 32):
        yield f"strip-{n}-steps", the_strip(n)
    yield "strip-one-tag", tagged(the_strip(), 1)
    yield "strip-all-tags", tagged(the_strip(3), *range(6))
    yield "square-1-step", the_square(1)
    yield "square-one-tag", tagged(the_square(5), 1)
    yield "cube-2-steps", the_cube()


def fans():
    """Closed and open fans, some with tags: at the centre of an open one, at the end of a spoke, at an outer vertex."""
    for n, steps in ((3, 4), (5, 3), (16, 2)):
        yield f"closed-fan-{n}", varied(closed_fan(n), steps)
    for n, steps in ((4, 6), (7, 2)):
        yield f"closed-fan-{n}-tagged", tagged(varied(closed_fan(n), steps), 1, 2, 2 * n)
    for k, steps in ((2, 7), (8, 2)):
        yield f"open-fan-{k}", varied(open_fan(k), steps)
    for k, steps in ((1, 9), (2, 8), (3, 5), (8, 3)):
        yield f"open-fan-{k}-tagged", tagged(varied(open_fan(k), steps), 0, 2)


def shapes():
    """Grids, tori and other shapes."""
    yield "grid-3-by-2-tagged", tagged(varied(grid(3, 2), 4), 0, 1, 7)
    yield "grid-4-by-4", varied(grid(4, 4), 2)
    yield "torus-3-by-3", varied(torus(3, 3), 3)
    yield "torus-3-by-5", varied(torus(3, 5), 2)
    yield "across-twice", varied(across_twice(), 3)
    yield "trapezohedron-5", varied(trapezohedron(5), 2)
    yield "two-cubes-apart", varied(join(cube(), cube()), 1)
    yield "cube-faces-begun-anywhere", varied(begun_later(cube()), 5)
    yield "cube-without-a-face-tagged", tagged(varied(Shape(cube().faces[1:]), 3), 1, 2)


def limits():
    """Coordinates at the limit, and the most vertices and faces."""
    for word, sign in (("", 1), ("minus-", -1)):
        yield f"x-{word}1048576", changed(the_cube(3), positions={0: sign * 1048576})
        yield f"every-coordinate-{word}1048576", placed(closed_fan(3), [[sign * 1048576] * 3] * 7, 2)
    signs = [[RANDOM.choice((-1048576, 1048576)) for _ in range(3)] for _ in range(13)]
    yield "every-coordinate-at-a-limit", placed(closed_fan(6), signs, 4)
    largest = varied(ring(256), 2)
    assert (largest.v, largest.f) == (VERTICES[-1], FACES[-1])
    # There are samples with x at a half, of either sign, above an even number and above an odd one.
    middles = [sample[0] for exact in largest.answer().exact for sample in exact.values() if sample[0].denominator == 2]
    assert len({(x > 0, x // 1 % 2) for x in middles}) == 4
    yield "vertices-512-faces-256-ring", largest


def lasts():
    """A closed last, and one with an opening that has tags."""
    yield "last-1-step", placed(*last(RANDOM), 1)
    opened = placed(*last(RANDOM, opened=True), 2)
    boundary = [p for p, inner in PatchReading(opened).inner.items() if not inner]
    yield "last-with-an-opening-tagged", tagged(opened, *boundary[::3])


def renumbered():
    """Renumbered meshes."""
    for name, trial in (
        ("strip-one-tag", tagged(the_strip(), 1)),
        ("closed-fan-5-tagged", tagged(varied(closed_fan(5), 3), 1, 2, 7)),
        ("open-fan-4-tagged", tagged(varied(open_fan(4), 4), 0)),
        ("cube", varied(cube(), 2)),
    ):
        yield f"{name}-renumbered", shuffled_trial(RANDOM, trial)[1]


# The meshes whose images are mirrored too.
AGAIN = ("strip-all-tags", "closed-fan-7-tagged", "open-fan-3-tagged", "grid-3-by-2-tagged", "torus-3-by-3", "across-twice")


def done():
    """Each of these has an image; and that of the image is the mesh again."""
    for group in (examples, fans, shapes, limits, lasts, renumbered):
        for name, trial in group():
            yield f"mirror-{name}", mirroring(trial)
            if name in AGAIN:
                image = image_of(trial)
                assert image_of(image) == trial, name
                yield f"mirror-image-of-{name}", mirroring(image)


# ---- Refused meshes.


def refused():
    """The causes that concern the mesh; the lent lists are as long as those of the mesh, and no image needs patches or marks."""
    trials = {
        "vertices-0-refused-1": changed(mesh(square()), v=0, positions=[], tags=[]),
        "vertices-3-refused-1": changed(mesh(square()), v=3, positions=[0] * 9, tags=[0] * 3),
        "vertices-513-refused-1": mesh(join(grid(2, 2), *[square()] * 126)),
        "faces-0-refused-1": changed(mesh(square()), f=0, faces=[]),
        "faces-257-refused-1": mesh(join(torus(16, 16), square())),
        "coordinate-minus-2147483648-refused-3": changed(mesh(cube()), positions={0: -2147483648}),
        "tag-1-every-vertex-refused-11": changed(mesh(grid(2, 2)), tags=[1] * 9),
    }
    for name in LISTS:
        trials[f"{name}-one-short-refused-1"] = shortened(mesh(cube()), name)
    for one in (1, *MESH_FAULTS):
        trials[f"{FAULTS[one]}-refused-{one}"] = with_faults({one})
    for name, trial in trials.items():
        yield f"mirror-{name}", changed(mirroring(patched(trial)), patches=0, marks=0)


# ---- The lent lists.


def with_lent(trial, **longer):
    """A mirror trial of a patch trial, with each lent list by so many places longer than the mesh's."""
    own = dict(zip(LISTS, lengths(trial)))
    return changed(mirroring(trial), lent=[length + longer.get(name, 0) for name, length in own.items()])


def lent():
    """A lent list of another length: 16."""
    for name, length in zip(LISTS, lengths(the_strip())):
        for word, longer in (("one-short", -1), ("one-long", 1), ("empty", -length), ("twice-as-long", length)):
            yield f"mirror-lent-{name}-{word}-refused-16", with_lent(the_strip(), **{name: longer})
    all_three = lambda longer: with_lent(the_cube(), positions=longer, tags=longer, faces=longer)
    yield "mirror-lent-all-three-one-short-refused-16", all_three(-1)
    yield "mirror-lent-all-three-one-long-refused-16", all_three(1)
    yield "mirror-lent-all-three-empty-refused-16", changed(mirroring(the_cube()), lent=[0, 0, 0])
    yield "mirror-lent-positions-one-long-faces-one-short-refused-16", with_lent(the_strip(), positions=1, faces=-1)
    yield f"mirror-lent-all-three-{PLACES}-places-refused-16", changed(mirroring(the_cube()), lent=[PLACES] * 3)
    yield "mirror-lent-lengths-exchanged-refused-16", changed(mirroring(the_strip()), lent=lengths(the_strip())[::-1])
    yield "mirror-lent-for-one-vertex-more-refused-16", with_lent(the_cube(), positions=3, tags=1)
    yield "mirror-lent-for-one-face-less-refused-16", with_lent(the_cube(), faces=-4)


def lent_and_refused():
    """A lent list of another length and a cause that concerns the mesh, which is the answer."""
    for at, one in enumerate((1, *MESH_FAULTS)):
        name, longer = LISTS[at % 3], (-1, 1)[at % 2]
        trial = with_lent(patched(with_faults({one})), **{name: longer})
        assert trial.answer().causes()[0] == one and trial.answer().causes()[-1] == 16, one
        yield f"mirror-lent-{name}-{('one-long', 'one-short')[longer < 0]}-and-{FAULTS[one]}-refused-{one}", trial
    for one in (1, 3):
        causes = {one, *MESH_FAULTS}
        trial = changed(mirroring(patched(with_faults(causes))), lent=[0, 0, 0])
        assert trial.answer().causes() == [*sorted(causes), 16], one
        yield f"mirror-lent-empty-and-every-cause-from-{one}-refused-{one}", trial
    trial = with_lent(patched(with_faults({1})), tags=-1)
    assert trial.lent == [3 * trial.v, trial.v, 4 * trial.f]
    yield "mirror-lent-for-the-sizes-and-long-tags-refused-1", trial
    nothing = PatchTrial(0, 0, [], [], [], twins=0, n=1, patches=0, marks=0)
    yield "mirror-lent-places-and-nothing-at-all-refused-1", changed(mirroring(nothing), lent=[3, 1, 4])


GROUPS = (done, refused, lent, lent_and_refused)


# ---- Files that are no trial.


def files():
    """Files that are no mirror trial, with what the program says of them."""
    whole = mirroring(the_square()).bytes()
    for at, name in enumerate(LISTS):
        content = changed(mirroring(the_square()), lent={at: PLACES + 1}).bytes()
        yield f"mirror-lent-{name}-{PLACES + 1}-too-long", content, "too long"
    for words, content in (
        ("first-number-only", whole[:2]),
        ("head-one-byte-short", whole[:15]),
        ("head-only", whole[:16]),
        ("one-byte-short", whole[:-1]),
        ("one-byte-long", whole + b"\0"),
    ):
        yield f"mirror-file-{words}-not-whole", content, "not whole"
