#!/usr/bin/env python3
"""Writes the vectors of crates/vectors: data/ (a file a vector), args (their names) and stdout (what the program has to print).

A vector is a file (rule F1 of docs/SPECIFICATION.md). What is expected is computed from its bytes here, in meshes.py and in
patches.py, and not as the library does it, so the gate compares two readings of the rules. A vector's name says what it is, and ends
in -refused-N where the file is refused. The coordinates that no vector names are random, from a fixed seed.
"""

import argparse
import random
import struct
from itertools import combinations
from pathlib import Path

from last import last
from mesh_files import SIZES, FileMesh, FileReading
from meshes import BOUNDARY_FACES, INNER_VALENCES, MESH_FAULTS, PatchReading, changed, numbered, spoiled
from patches import shuffled
from shapes import (
    Shape,
    across_twice,
    begun_later,
    bow_tie,
    closed_fan,
    cube,
    flipped,
    glue,
    grid,
    isolated,
    join,
    moebius,
    notched,
    open_fan,
    pillow,
    ring,
    square,
    strip,
    torus,
    trapezohedron,
)

CRATE = Path(__file__).resolve().parent.parent / "crates" / "vectors"

RANDOM = random.Random(20250609)

# The places of the program's buffer, and the bytes of the square's file.
BUFFER = 65536
SQUARE = 66


# ---- Files.


def file(mesh, n=2):
    """The file of a mesh."""
    return FileMesh(**vars(mesh), n=n).bytes()


def placed(shape, points):
    """A shape with the vertices at these points."""
    return changed(numbered(shape), positions=[x for point in points for x in point])


def varied(shape):
    """A shape with coordinates of either sign, small ones along one axis and large ones along another."""
    sizes = RANDOM.sample((30, 3000, 1048576), 3)
    return placed(shape, [[RANDOM.randint(-size, size) for size in sizes] for _ in range(shape.vertices)])


def tagged(mesh, *corners):
    return changed(mesh, tags={p: 1 for p in corners})


def the_square():
    """The square of rule X1."""
    return placed(square(), [(0, 0, 0), (21, 0, 0), (21, 21, 0), (0, 21, 0)])


def the_cube():
    """The cube of rule X3."""
    at = [(24 * x, 24 * y, 24 * z) for z in (-1, 1) for x, y in ((-1, -1), (1, -1), (1, 1), (-1, 1))]
    return placed(cube(), at)


def the_reentrant():
    """The three faces about a vertex of rule X14."""
    return placed(notched(2, 2), [(99 * x, 99 * y, 0) for y in range(3) for x in range(3)][:8])


def with_halves(content):
    """A file with samples halfway between whole numbers, of either sign, above an even number and above an odd one."""
    samples = [x for exact in FileReading(content).reading.exact for sample in exact.values() for x in sample]
    assert len({(x > 0, x // 1 % 2) for x in samples if x.denominator == 2}) == 4
    return content


# ---- The vectors.


def examples():
    """The meshes of rules X1, X3, X5 and X14."""
    for n in (1, 2, 3, 32):
        yield f"square-{n}-steps", file(the_square(), n)
    for n in (1, 2, 16, 32):
        yield f"cube-{n}-steps", file(the_cube(), n)
    yield "reentrant-3-steps", file(the_reentrant(), 3)
    yield "pillow-refused-10", file(numbered(pillow()))
    yield "same-face-twice-refused-7", file(numbered(Shape(square().faces * 2)))
    yield "bow-tie-refused-9", file(numbered(bow_tie()))


def edges():
    """The limits of rule X9, and what stands beside them."""
    yield "vertices-3-refused-1", file(changed(the_square(), v=3, positions=[0] * 9, tags=[0] * 3))
    yield "vertices-4", file(the_square())
    yield "vertices-512-faces-256-ring", file(varied(ring(256)), 1)
    yield "vertices-513-refused-1", file(numbered(join(grid(2, 2), *[square()] * 126)))
    yield "faces-256-grid", file(varied(grid(16, 16)), 1)
    yield "faces-257-refused-1", file(numbered(join(torus(16, 16), square())))
    for word, sign in (("", 1), ("minus-", -1)):
        for where, at in (("", 0), ("-last-z", 23)):
            yield f"coordinate-{word}1048576{where}", file(changed(the_cube(), positions={at: sign * 1048576}))
            yield f"coordinate-{word}1048577{where}-refused-3", file(changed(the_cube(), positions={at: sign * 1048577}))
        yield f"every-coordinate-{word}1048576", file(changed(the_cube(), positions=[sign * 1048576] * 24))
    signs = [RANDOM.choice((-1048576, 1048576)) for _ in range(39)]
    yield "every-coordinate-at-a-limit", file(changed(numbered(closed_fan(6)), positions=signs), 3)
    for n in INNER_VALENCES:
        yield f"inner-valence-{n}", file(varied(closed_fan(n)))
    yield "inner-valence-17-refused-10", file(varied(closed_fan(17)))
    yield "inner-valence-2-refused-10", file(varied(closed_fan(2)))
    for k in BOUNDARY_FACES:
        yield f"rim-faces-{k}", file(varied(open_fan(k)))
        yield f"rim-faces-{k}-tagged", file(tagged(varied(open_fan(k)), 0))
    yield "rim-faces-9-refused-10", file(varied(open_fan(9)))
    yield "steps-32-two-faces", file(varied(strip(2)), 32)
    for n in (0, 33, 256, 8192, 65535):
        yield f"square-{n}-steps-refused-14", file(the_square(), n)
    yield "cube-33-steps-refused-14", file(the_cube(), 33)
    yield "cube-0-steps-refused-14", file(the_cube(), 0)


def accepted():
    """Other meshes that are accepted, and other N."""
    for n in (3, 5, 7, 11, 13, 17, 24, 31):
        yield f"random-square-{n}-steps", file(varied(square()), n)
    yield "square-one-tag", file(tagged(the_square(), 1), 3)
    yield "strip-2-all-tags", file(tagged(varied(strip(2)), *range(6)), 4)
    yield "closed-fan-4-all-tags", file(tagged(varied(closed_fan(4)), *range(1, 9)), 3)
    yield "grid-3-by-2-tagged", file(tagged(varied(grid(3, 2)), 0, 1, 7), 4)
    yield "grid-3-by-3-with-a-hole", file(varied(Shape(grid(3, 3).faces[:4] + grid(3, 3).faces[5:])), 3)
    yield "cube-faces-begun-anywhere", file(varied(begun_later(cube())), 5)
    yield "cube-turned-inside-out", file(varied(Shape([face[::-1] for face in cube().faces])), 3)
    yield "cube-without-a-face", file(tagged(varied(Shape(cube().faces[1:])), 1, 2), 3)
    yield "ring-3", file(varied(ring(3)), 6)
    yield "torus-3-by-3", file(varied(torus(3, 3)), 3)
    yield "trapezohedron-16", file(varied(trapezohedron(16)))
    yield "across-twice", file(varied(across_twice()), 3)
    yield "two-cubes-apart", file(varied(join(cube(), cube())))


def lasts():
    """A closed model like a last; the same one renumbered; and with an opening, a vertex with each k tagged there."""
    closed = placed(*last(RANDOM))
    shown = PatchReading(closed)
    assert {len(corners) for corners in shown.corners.values()} == {3, 4, 5} and all(shown.inner.values())
    yield "last-1-step", file(closed, 1)
    yield "last-2-steps", with_halves(file(closed, 2))
    # a listing that fills the program's buffer some twenty times
    yield "last-16-steps", file(closed, 16)
    change = shuffled(RANDOM, closed.v, closed.f)
    yield "last-renumbered-1-step", file(placed(Shape(change.faces(shown.faces)), change.moved(shown.points)), 1)
    opened = placed(*last(RANDOM, opened=True))
    shown = PatchReading(opened)
    boundary = {len(corners): p for p, corners in shown.corners.items() if not shown.inner[p]}
    assert boundary.keys() == {1, 2, 3}
    yield "last-with-an-opening-1-step", file(opened, 1)
    yield "last-with-an-opening-2-steps", file(opened, 2)
    yield "last-with-an-opening-tagged-2-steps", file(tagged(opened, *boundary.values()), 2)


def short():
    """Fewer than 6 bytes: 15, whatever the sizes are as far as they are there."""
    for n in range(SIZES):
        yield f"bytes-{n}-refused-15", file(the_square())[:n]
    for n in range(1, SIZES):
        yield f"bytes-{n}-all-0-refused-15", bytes(n)
        yield f"bytes-{n}-all-255-refused-15", b"\xff" * n


def sizes():
    """V or F off its range: 1, of files of the length that the sizes say and of another."""
    for v in (0, 1, 3, 513, 1024, 65535):
        yield f"vertices-{v}-in-the-square-refused-1", file(changed(the_square(), v=v))
    for f in (0, 257, 512, 65535):
        yield f"faces-{f}-in-the-square-refused-1", file(changed(the_square(), f=f))
    yield "vertices-0-refused-1", file(changed(the_square(), v=0, positions=[], tags=[]))
    yield "faces-0-refused-1", file(changed(the_square(), f=0, faces=[]))
    yield "bytes-6-all-0-refused-1", bytes(SIZES)
    yield "bytes-6-all-255-refused-1", b"\xff" * SIZES
    yield "bytes-6-only-steps-refused-1", struct.pack("<3H", 0, 0, 2)


def lengths():
    """Another length than the sizes say: 15."""
    whole, longest = file(the_square()), file(varied(ring(256)), 1)
    assert len(whole) == SQUARE
    yield "bytes-6-refused-15", whole[:SIZES]
    for bytes_off in (1, 2, 8, 13):
        yield f"square-{bytes_off}-bytes-short-refused-15", whole[:-bytes_off]
        yield f"square-{bytes_off}-bytes-long-refused-15", whole + bytes(bytes_off)
    yield "square-twice-refused-15", whole * 2
    yield "vertices-5-in-the-square-refused-15", file(changed(the_square(), v=5))
    yield "faces-2-in-the-square-refused-15", file(changed(the_square(), f=2))
    yield "longest-one-byte-short-refused-15", longest[:-1]
    yield "longest-one-byte-long-refused-15", longest + b"\0"
    for size in (BUFFER, BUFFER + SQUARE):
        yield f"bytes-{size}-refused-15", whole.ljust(size, b"\0")
    yield f"longest-in-{BUFFER + len(longest)}-bytes-refused-15", longest.ljust(BUFFER + len(longest), b"\0")


def entries():
    """Coordinates, tags, vertex numbers and faces: 3 to 6."""
    for x in (2147483647, -2147483648, 16777216):
        yield f"coordinate-{x}-refused-3", file(changed(the_cube(), positions={4: x}))
    for where, p in (("first", 0), ("last", 3)):
        for tag in (2, 255):
            yield f"tag-{tag}-{where}-vertex-refused-4", file(changed(the_square(), tags={p: tag}))
    yield "tag-2-inner-vertex-refused-4", file(changed(the_cube(), tags={7: 2}))
    for place, p in ((0, 8), (23, 8), (10, 256), (10, 65535)):
        yield f"vertex-{p}-of-8-at-{place}-refused-5", file(changed(the_cube(), faces={place: p}))
    yield "vertex-twice-and-nothing-else-refused-6", file(numbered(join(cube(), Shape([(0, 0, 1, 2)]))))
    for one, other in combinations(range(4), 2):
        behind = numbered(join(cube(), square()))
        yield f"vertex-twice-at-{one}-and-{other}-refused-6", file(changed(behind, faces={24 + other: 8 + one}))


def sides():
    """One side twice the same way round: 7."""
    yield "same-face-twice-begun-elsewhere-refused-7", file(numbered(Shape([(0, 1, 2, 3), (2, 3, 0, 1)])))
    yield "side-twice-refused-7", file(numbered(Shape([(0, 1, 2, 3), (0, 1, 4, 5)])))
    yield "side-twice-and-nothing-else-refused-7", file(numbered(Shape([(0, 1, 2, 3), (0, 3, 4, 1), (0, 1, 5, 6)])))
    yield "edge-with-three-faces-refused-7", file(numbered(Shape([(0, 1, 2, 3), (1, 0, 4, 5), (1, 0, 6, 7)])))
    yield "cube-last-face-flipped-refused-7", file(numbered(flipped(cube(), 5)))
    yield "moebius-9-refused-7", file(numbered(moebius(9)))


def vertices():
    """A vertex in no face, broken turns, valences and tags of inner vertices: 8 to 11."""
    yield "isolated-first-vertex-refused-8", file(numbered(join(isolated(), cube())))
    yield "isolated-last-vertex-refused-8", file(numbered(join(cube(), isolated())))
    yield "isolated-508-vertices-refused-8", file(numbered(join(square(), *[isolated()] * 508)))
    yield "faces-across-two-vertices-refused-9", file(numbered(Shape([(0, 1, 2, 3), (0, 4, 2, 5)])))
    yield "two-cubes-at-a-vertex-refused-9", file(numbered(glue(cube(), cube())))
    yield "closed-and-open-fan-at-a-vertex-refused-9", file(numbered(glue(cube(), square())))
    yield "trapezohedron-17-refused-10", file(numbered(trapezohedron(17)))
    yield "tag-1-inner-vertex-refused-11", file(tagged(numbered(grid(2, 2)), 4))
    yield "tag-1-every-vertex-refused-11", file(tagged(numbered(grid(2, 2)), *range(9)))
    yield "tag-1-cube-last-vertex-refused-11", file(tagged(the_cube(), 7))


# A fault for each cause, as a word for a name, in the file's order.
FAULTS = {1: "faces-257", 15: "one-byte-long", **MESH_FAULTS, 14: "steps-33"}


def with_faults(causes):
    """A file that meets these causes."""
    few = spoiled(causes)
    mesh = spoiled(causes, torus(16, 15), strip(17 - few.f)) if 1 in causes else few
    return file(mesh, 33 if 14 in causes else 2) + (b"\0" if 15 in causes else b"")


def pairs():
    """Every two causes together, and from each cause on all of them: the first in the file's order wins."""
    order = list(FAULTS)

    def named(one, word, causes, content):
        met = FileReading(content).causes()
        assert met == sorted(met, key=order.index) and set(causes) <= set(met), (causes, met)
        return f"{FAULTS[one]}-and-{word}-refused-{one}", content

    for at, one in enumerate(order):
        for other in order[at + 1 :]:
            yield named(one, FAULTS[other], [one, other], with_faults({one, other}))
        if order[at + 2 :]:
            yield named(one, "every-later", order[at:], with_faults(set(order[at:])))
    for one in order[2:]:
        whole = with_faults({one})
        assert FileReading(whole).causes()[0] == one
        yield f"one-byte-short-and-{FAULTS[one]}-refused-15", whole[:-1]
    for one in MESH_FAULTS:
        yield named(one, "steps-0", [one, 14], file(spoiled({one}), 0))


def main():
    about = argparse.ArgumentParser(
        description=__doc__,
        epilog="There are no other words: without any, crates/vectors/data, args and stdout are written anew.",
        formatter_class=argparse.RawDescriptionHelpFormatter,
    )
    about.parse_args()
    written, lines, alone = {}, [], set()
    for group in (examples, edges, accepted, lasts, short, sizes, lengths, entries, sides, vertices, pairs):
        for name, content in group():
            assert name not in written, name
            reading = FileReading(content)
            assert name.partition("-refused-")[2] == "".join(map(str, reading.causes()[:1])), name
            written[name] = content
            lines += [name, *reading.lines()]
            alone |= set(reading.causes()) if len(reading.causes()) == 1 else set()
    # Each number is met without another.
    assert alone == set(FAULTS), alone
    data = CRATE / "data"
    data.mkdir(parents=True, exist_ok=True)
    for old in data.iterdir():
        old.unlink()
    for name, content in written.items():
        (data / name).write_bytes(content)
    (CRATE / "args").write_text("".join(f"{name}\n" for name in written))
    (CRATE / "stdout").write_text("".join(f"{line}\n" for line in lines))


if __name__ == "__main__":
    main()
