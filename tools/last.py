"""A model like a last, for the vectors: the surface of a solid of cells, pulled into shape.

tools/vectors.py uses it, and tools/example_last.py the surface without its places.

The solid is as wide everywhere, and lower from the heel to the toe. Its surface has a vertex of valence 3 at each convex corner, one of
valence 5 at either end of each step's foot, and valence 4 elsewhere.
"""

from shapes import Shape

# The cells of the solid: how many stand on each other, from the heel to the toe, and how many beside each other.
HEIGHTS = (4, 4, 4, 3, 3, 2, 2, 2, 1, 1)
WIDTH = 4

# At each end of the cells, from the heel to the toe, in millimetres: half the width, the middle, the sole, and the height of a cell.
HALF_WIDTHS = (22, 30, 32, 31, 32, 36, 41, 44, 42, 33, 16)
MIDDLES = (0, 0, -1, -2, -4, -5, -4, -1, 4, 10, 17)
SOLES = (24, 21, 14, 6, 1, 0, 0, 1, 4, 9, 15)
CELLS = (30, 30, 29, 28, 28, 27, 26, 25, 24, 20, 12)

# The cells whose upper face an opening takes away: those of the top, but for one at the front corner.
OPENED = [(i, j) for i in range(3) for j in range(WIDTH) if (i, j) != (2, 0)]


def cell_faces():
    """The faces between a cell and none: the cell, the axis across the face and its direction, and the corners counterclockwise."""
    cells = {(i, j, k) for i, height in enumerate(HEIGHTS) for j in range(WIDTH) for k in range(height)}
    for cell in sorted(cells):
        for axis in range(3):
            for way in (0, 1):
                beyond = list(cell)
                beyond[axis] += 2 * way - 1
                if tuple(beyond) in cells:
                    continue
                corners = [moved(cell, axis, way, u, v) for u, v in ((0, 0), (1, 0), (1, 1), (0, 1))]
                yield cell, axis, way, corners if way else corners[::-1]


def moved(cell, axis, along, u, v):
    """The corner of a cell that is so many steps along the axis and along the two that follow it."""
    corner = list(cell)
    for more, step in enumerate((along, u, v)):
        corner[(axis + more) % 3] += step
    return tuple(corner)


def place(random, i, j, k):
    """The place of a corner in micrometres, a little off."""
    x = 27000 * i + 1000 * k * (4 - i)
    y = 1000 * MIDDLES[i] + (j - WIDTH // 2) * HALF_WIDTHS[i] * 500 * (12 - k) // 12
    z = 1000 * (SOLES[i] + k * CELLS[i])
    return [value + random.randint(-900, 900) for value in (x, y, z)]


def surface(opened):
    """The shape, closed or with an opening at the top, and the corner of the cells that each of its vertices is."""
    is_open = lambda cell, axis, way: opened and (axis, way) == (2, 1) and cell[:2] in OPENED
    faces = [corners for cell, axis, way, corners in cell_faces() if not is_open(cell, axis, way)]
    corners = sorted({corner for face in faces for corner in face})
    number = {corner: p for p, corner in enumerate(corners)}
    return Shape([tuple(number[corner] for corner in face) for face in faces]), corners


def last(random, opened=False):
    """The shape and the places of its vertices."""
    shape, corners = surface(opened)
    return shape, [place(random, *corner) for corner in corners]
