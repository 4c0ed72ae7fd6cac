"""The trials of circulating, which tools/trials.py writes: fans from each of their corners, and vertices with several fans.

The check begins to circulate about a vertex at the last corner there, in the order of the list of faces. In these trials that is each
corner of a fan in turn: of an open one the first, those in the middle and the last. A trial's name says from which one, as places in
the order of circulating. What is expected comes from meshes.py, which begins nowhere: it parts the corners at a vertex into sets.
"""

from functools import reduce
from itertools import cycle

from meshes import BOUNDARY_FACES, FACES, INNER_VALENCES, VERTICES
from shapes import Shape, begun_later, closed_fan, glue, join, open_fan
from trial_forms import mesh, tagged

# ---- Fans with another corner last.


def from_face(shape, f):
    """The shape with face f last in the list and those behind it first."""
    return Shape(shape.faces[f + 1 :] + shape.faces[: f + 1])


def shifted(shape, by):
    """The shape with each vertex number larger by so much, those beyond the last one from 0 on; so vertex 0 gets this number."""
    return Shape([tuple((p + by) % shape.vertices for p in face) for face in shape.faces])


def place(answer, centre, start):
    """The place of the last corner at a vertex in its fan: how many steps it is from the corner whose half-edge ends at `start`."""
    c, steps = answer.corners[centre][-1], 0
    while answer.sides[c][1] != start:
        # Back to the corner behind the twin.
        twin = answer.twins[c]
        c, steps = twin - twin % 4 + (twin + 1) % 4, steps + 1
    return steps


def alone(fan, f):
    """A trial of one fan, with the corner at place f last at its centre, vertex 0; each face is begun at another corner."""
    trial = mesh(begun_later(from_face(fan, f)))
    assert place(trial.answer(), 0, 1) == f
    return trial


def apart(fan, places):
    """A trial of a fan for each of these places, none touching another, with the corner at that place last at its centre."""
    trial = mesh(begun_later(join(*[from_face(fan, f) for f in places])))
    answer, centres = trial.answer(), range(0, trial.v, fan.vertices)
    assert [place(answer, centre, centre + 1) for centre in centres] == list(places)
    assert trial.v in VERTICES and trial.f in FACES
    return trial


# ---- One fan, from each of its corners.


def from_every_corner():
    """Fans of every valence, from each of their corners."""
    for n in INNER_VALENCES[:-1]:
        yield f"closed-fan-{n}-from-every-corner", apart(closed_fan(n), range(n))
    # The sixteen of the largest valence have more vertices than a mesh may have.
    for places in (range(8), range(8, 16)):
        yield f"closed-fan-16-from-corners-{places[0]}-to-{places[-1]}", apart(closed_fan(16), places)
    for k in BOUNDARY_FACES:
        yield f"open-fan-{k}-from-every-corner", apart(open_fan(k), range(k))
        trial = apart(open_fan(k), range(k))
        yield f"open-fan-{k}-from-every-corner-all-tags", tagged(trial, *range(trial.v))


def off_range():
    """Fans just off the range of valences, and open ones of every valence that a closed one may have: 10."""
    for n, places in ((2, range(2)), (17, (0, 8, 16))):
        for f in places:
            yield f"closed-fan-{n}-from-corner-{f}-refused-10", alone(closed_fan(n), f)
    for k in range(BOUNDARY_FACES[-1] + 1, INNER_VALENCES[-1] + 1):
        for f in range(k) if k == 9 else (0, k // 2, k - 1) if k == 16 else [k // 2]:
            yield f"open-fan-{k}-from-corner-{f}-refused-10", alone(open_fan(k), f)


def tagged_centres():
    """Closed fans of every valence with tag 1 at the centre: 11."""
    for n in INNER_VALENCES:
        for f in sorted({0, n // 2, n - 1}) if n in (3, 4, 9, 16) else [n // 2]:
            yield f"tag-1-closed-fan-{n}-from-corner-{f}-refused-11", tagged(alone(closed_fan(n), f), 0)


# ---- Several fans at one vertex.

# The number of the common vertex, in a mesh of v vertices.
CENTRES = {"first": lambda v: 0, "middle": lambda v: v // 2, "last": lambda v: v - 1}


def together(fans, one, f, centre):
    """A trial of several fans about a common vertex of this number, with the corner at place f of this one last at it: 9."""
    before = fans[:one]
    shape = begun_later(from_face(reduce(glue, fans), sum(len(fan.faces) for fan in before) + f))
    vertices = shape.vertices
    number = CENTRES[centre](vertices)
    trial = mesh(shifted(shape, number))
    answer = trial.answer()
    # That vertex alone has several fans, and no other cause is met.
    assert answer.causes() == [9] and [p for p, parts in answer.fans.items() if len(parts) > 1] == [number]
    assert sorted(map(len, answer.fans[number])) == sorted(len(fan.faces) for fan in fans)
    # The vertices of each fan but the centre are numbered after those before it.
    start = 1 + sum(fan.vertices - 1 for fan in before)
    assert place(answer, number, (number + start) % vertices) == f
    return trial


# Two or three fans at one vertex, each by a word and the number of its faces. Circulating wrongly from one of them would meet as many
# corners as there are at the vertex.
SEVERAL = (
    # One corner besides those of a fan, where the corner that it begins with is counted twice.
    "open-2-open-1",
    "open-3-open-1",
    "open-8-open-1",
    "closed-3-open-1",
    "closed-16-open-1",
    # As many corners as those of a fan, or one less, where the fan is counted twice, on and back, with that corner or without it.
    "open-2-open-2",
    "open-3-open-2",
    "open-8-open-8",
    "closed-3-closed-3",
    "closed-4-closed-3",
    "closed-16-closed-16",
    "closed-3-open-3",
    "closed-3-open-2",
    "closed-4-open-3",
    # The same of three fans.
    "open-3-open-2-open-1",
    "open-4-open-2-open-2",
    "closed-3-open-2-open-1",
    "closed-4-closed-3-open-1",
    "closed-6-closed-3-closed-3",
)


def named_fans(words):
    """The fans that such words stand for, each with its own words."""
    kinds, sizes = words.split("-")[::2], map(int, words.split("-")[1::2])
    return [(f"{kind}-{size}", {"open": open_fan, "closed": closed_fan}[kind](size)) for kind, size in zip(kinds, sizes)]


def named_corners(name, size):
    """Places of a fan, each with words: either end and the middle of an open one, where they differ, one corner of a closed one."""
    if size == 1 or name.startswith("closed"):
        return {size // 2: name}
    return {0: f"first-of-{name}", size // 2: f"middle-of-{name}", size - 1: f"last-of-{name}"}


def several():
    """Several fans at the first vertex, one in the middle or the last, from each of the fans; of equal ones from the last."""
    centres = cycle(CENTRES)
    for words in SEVERAL:
        fans = named_fans(words)
        shapes = [shape for _, shape in fans]
        for name, one in {name: one for one, (name, _) in enumerate(fans)}.items():
            for f, corner in named_corners(name, len(shapes[one].faces)).items():
                centre = next(centres)
                yield f"fans-{words}-at-{centre}-vertex-from-{corner}-refused-9", together(shapes, one, f, centre)


# ---- Several of these causes, at two vertices or at one.


def orders():
    """Each cause looks at every vertex before the next begins: the lowest number wins, at a late vertex and at an early one."""
    two, inner = from_face(glue(open_fan(2), open_fan(1)), 0), from_face(closed_fan(4), 1)
    valence_9, valence_17 = from_face(open_fan(9), 4), from_face(closed_fan(17), 8)
    for name, trial, causes in (
        ("two-fans-behind-valence-17", mesh(join(valence_17, two)), [9, 10]),
        ("two-fans-before-valence-17", mesh(join(two, valence_17)), [9, 10]),
        ("two-fans-behind-inner-tag", tagged(mesh(join(inner, two)), 0), [9, 11]),
        ("two-fans-before-inner-tag", tagged(mesh(join(two, inner)), two.vertices), [9, 11]),
        ("valence-9-behind-inner-tag", tagged(mesh(join(inner, valence_9)), 0), [10, 11]),
        ("valence-9-before-inner-tag", tagged(mesh(join(valence_9, inner)), valence_9.vertices), [10, 11]),
        ("two-closed-fans-at-a-tagged-vertex", tagged(mesh(glue(inner, inner)), 0), [9, 11]),
        ("valence-17-at-a-tagged-vertex", tagged(mesh(valence_17), 0), [10, 11]),
    ):
        assert trial.answer().causes() == causes, name
        yield f"{name}-refused-{causes[0]}", trial


GROUPS = (from_every_corner, off_range, tagged_centres, several, orders)
