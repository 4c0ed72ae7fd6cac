#!/usr/bin/env python3
"""Writes examples/last.obj and, with an opening at the top, examples/last-open.obj and examples/last-open.corners, as a modeller would.

The faces are those of tools/last.py; the vertices lie on the outlines below, in millimetres, so that the steps of its solid become a slope.
"""

import argparse
from pathlib import Path

from last import HEIGHTS, MIDDLES, WIDTH, surface

EXAMPLES = Path(__file__).resolve().parent.parent / "examples"

# The outline seen from the side: x and z along the sole, and along the ridge by (i, k), from the heel to the toe.
SOLE = ((6, 24), (30, 19), (57, 15), (84, 10), (110, 5), (136, 2), (162, 0), (188, 0), (213, 3), (238, 8), (261, 15))
RIDGE = {
    (0, 4): (14, 104), (1, 4): (34, 107), (2, 4): (55, 106), (3, 4): (75, 101),
    (3, 3): (96, 90), (4, 3): (114, 79), (5, 3): (132, 69),
    (5, 2): (149, 61), (6, 2): (167, 54), (7, 2): (186, 48), (8, 2): (205, 43),
    (8, 1): (223, 39), (9, 1): (244, 34), (10, 1): (264, 27),
}  # fmt: skip

# Half the width of the sole; the widths of the sides and of the ridge, for that of the sole; how far the back of the heel bulges, by k.
HALF_WIDTHS = (20, 27, 29, 28, 28, 32, 38, 41, 38, 29, 15)
SIDES = 1.12
TOPS = (0.55, 0.52, 0.5, 0.5, 0.55, 0.62, 0.68, 0.72, 0.76, 0.78, 0.8)
HEEL = (0, -11, -11, -5, 0)

# The corners of the opening, on top of the cells.
OPENING = ((0, 0), (0, WIDTH), (3, WIDTH), (3, 1), (2, 1), (2, 0))

# How far the middle of the ridge rises above its sides, and the middle of the sole.
CROWN, ARCH = 6, 2


def foot(i):
    """The height of the ridge at the end of a cell, or where there is a step that of its foot."""
    return min(HEIGHTS[column] for column in (i - 1, i) if 0 <= column < len(HEIGHTS))


def outline(i, k):
    """x and z of the side's outline, and how high between the sole and the ridge this is, from 0 to 1."""
    if k >= foot(i):
        return (*RIDGE[i, k], 1.0)
    part = k / foot(i)
    (x0, z0), (x1, z1) = SOLE[i], RIDGE[i, foot(i)]
    bulge = HEEL[k] if i == 0 else 0
    return (x0 + (x1 - x0) * part + bulge, z0 + (z1 - z0) * part, part)


def place(i, j, k):
    """The place of a corner."""
    x, z, part = outline(i, k)
    side = j - WIDTH / 2
    wide = HALF_WIDTHS[i] * (TOPS[i] if part == 1 else SIDES if part > 0 else 1)
    middle = 1 - (2 * side / WIDTH) ** 2
    rise = CROWN * middle * (part == 1) + ARCH * middle * (part == 0)
    return (x, MIDDLES[i] + wide * 2 * side / WIDTH, z + rise)


def text(opened=False):
    """The lines of the OBJ file, and the numbers of the vertices at the corners of the opening."""
    shape, corners = surface(opened)
    lines = ["# A last, in millimetres.", "o last"]
    lines += ["v " + " ".join(f"{x:.3f}" for x in place(*corner)) for corner in corners]
    lines += ["s 1"] + ["f " + " ".join(str(p + 1) for p in face) for face in shape.faces]
    return "".join(f"{line}\n" for line in lines), sorted(1 + corners.index((i, j, HEIGHTS[0])) for i, j in OPENING)


def main():
    about = argparse.ArgumentParser(description=__doc__, formatter_class=argparse.RawDescriptionHelpFormatter)
    about.parse_args()
    (EXAMPLES / "last.obj").write_text(text()[0])
    opened, corners = text(opened=True)
    (EXAMPLES / "last-open.obj").write_text(opened)
    numbers = "".join(f"{p}\n" for p in corners)
    (EXAMPLES / "last-open.corners").write_text(f"# The corners of the opening, as last-open.obj counts its vertices.\n{numbers}")


if __name__ == "__main__":
    main()
