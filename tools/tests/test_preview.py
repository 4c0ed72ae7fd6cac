"""tools/preview: the picture's bytes, what is seen from where, what hides what, and both kinds of input."""

import random
import struct
import time
import unittest
import zlib

from cases import SQUARE, SQUARE_LINES, Case, Writing, loaded, vector

from mesh_files import FileMesh
from meshes import Mesh, numbered
from pictures import Canvas, png
from shapes import grid

preview = loaded("preview")

SEED = 20250703


class Picture:
    """A PNG file read back: three bytes a point, filter 2."""

    def __init__(self, content):
        assert content[:8] == b"\x89PNG\r\n\x1a\n"
        parts, at = [], 8
        while at < len(content):
            (size,) = struct.unpack_from(">I", content, at)
            kind, data = content[at + 4 : at + 8], content[at + 8 : at + 8 + size]
            assert struct.unpack_from(">I", content, at + 8 + size) == (zlib.crc32(kind + data),)
            parts.append((kind, data))
            at += 12 + size
        assert [kind for kind, _ in parts] == [b"IHDR", b"IDAT", b"IEND"]
        self.width, self.height, *form = struct.unpack(">IIBBBBB", parts[0][1])
        assert form == [8, 2, 0, 0, 0]
        data = zlib.decompress(parts[1][1])
        stride = 1 + 3 * self.width
        assert len(data) == stride * self.height
        self.rows, before = [], bytes(3 * self.width)
        for y in range(self.height):
            row = data[y * stride : (y + 1) * stride]
            assert row[0] == 2
            before = bytes((x + b) & 255 for x, b in zip(row[1:], before))
            self.rows.append(before)

    def at(self, x, y):
        """The colour at a part of the width and of the height."""
        column, row = int(x * (self.width - 1)), int(y * (self.height - 1))
        return tuple(self.rows[row][3 * column : 3 * column + 3])

    def count(self, test):
        return sum(test(*row[3 * x : 3 * x + 3]) for row in self.rows for x in range(self.width))


def is_paper(red, green, blue):
    return (red, green, blue) == (255, 255, 255)


def is_warm(red, green, blue):
    return red > blue + 25


def is_cool(red, green, blue):
    return blue > red + 25


def is_dark(red, green, blue):
    return red + green + blue < 400


def box(size, inside_out=False, open_above=False):
    """The mesh file of a box with so many cells along each axis, all of whose faces are squares, so that it stays near a box."""
    faces, points = [], {}
    number = lambda point: points.setdefault(point, len(points))
    for axis in range(3):
        for way in (0, 1):
            if open_above and (axis, way) == (2, 1):
                continue
            u, v = (axis + 1) % 3, (axis + 2) % 3
            for i in range(size[u]):
                for j in range(size[v]):
                    corners = []
                    for a, b in ((0, 0), (1, 0), (1, 1), (0, 1)):
                        point = [0, 0, 0]
                        point[axis], point[u], point[v] = size[axis] * way, i + a, j + b
                        corners.append(number(tuple(point)))
                    faces.append(corners if way != inside_out else corners[::-1])
    positions = [9000 * x for point in points for x in point]
    return FileMesh(**vars(Mesh(len(points), len(faces), positions, [0] * len(points), [p for face in faces for p in face])), n=3).bytes()


def flat_mesh(n, height=0):
    """A flat square of n by n faces."""
    mesh = numbered(grid(n, n))
    mesh.positions = [x for j in range(n + 1) for i in range(n + 1) for x in (60000 * i // n, 60000 * j // n, height)]
    return mesh


def flat(n, more=None):
    """The mesh file of a flat square, with another behind it."""
    mesh = flat_mesh(n)
    if more is not None:
        mesh.faces += [mesh.v + p for p in more.faces]
        mesh = Mesh(mesh.v + more.v, mesh.f + more.f, mesh.positions + more.positions, mesh.tags + more.tags, mesh.faces)
    return FileMesh(**vars(mesh), n=4).bytes()


class Seen(Case):
    """What is seen of boxes and squares."""

    def picture(self, content, *words):
        self.file("in", content)
        self.done("preview", "in", "-o", "out.png", "-f", *words)
        return Picture((self.folder / "out.png").read_bytes())

    def test_outer_side(self):
        picture = self.picture(box((4, 3, 2)), "--size", "120")
        self.assertGreater(picture.count(is_warm), picture.width * picture.height // 4)
        self.assertEqual(picture.count(is_cool), 0)
        self.assertTrue(is_paper(*picture.at(0, 0)))

    def test_inside_out(self):
        picture = self.picture(box((4, 3, 2), inside_out=True), "--size", "120")
        self.assertGreater(picture.count(is_cool), picture.width * picture.height // 4)
        self.assertEqual(picture.count(is_warm), 0)

    def test_opening(self):
        """From above the inner side is seen through it, from the front it is hidden."""
        above = self.picture(box((4, 4, 3), open_above=True), "--size", "120", "--view", "top")
        self.assertGreater(above.count(is_cool), 3000)
        front = self.picture(box((4, 4, 3), open_above=True), "--size", "120", "--view", "front")
        self.assertEqual(front.count(is_cool), 0)

    def test_views(self):
        """A box of 6 by 4 by 2: from each side another outline."""
        for view, up, (across, high) in (
            ("front", "z", (6, 2)),
            ("side", "z", (4, 2)),
            ("top", "z", (6, 4)),
            ("front", "y", (6, 4)),
            ("side", "y", (2, 4)),
            ("top", "y", (6, 2)),
        ):
            picture = self.picture(box((6, 4, 2)), "--size", "200", "--view", view, "--up", up)
            self.assertEqual(picture.width, 200)
            rows = [y for y, row in enumerate(picture.rows) if set(row) != {255}]
            columns = [x for x in range(200) if any(row[3 * x : 3 * x + 3] != b"\xff\xff\xff" for row in picture.rows)]
            shape = (columns[-1] - columns[0]) / (rows[-1] - rows[0])
            self.assertAlmostEqual(shape / (across / high), 1, delta=0.15, msg=(view, up))

    def test_which_way_round(self):
        """A square that leans: its low corner is seen low, its left one at the left, the nearer of two before the other."""
        names = {}
        for view, point in (("front", (9000, 0, 0)), ("front", (0, 0, 9000)), ("side", (0, 9000, 0)), ("top", (0, 9000, 0))):
            right, up, _ = preview.VIEWS[view].seen(point)
            names[view, point] = (round(right), round(up))
        self.assertEqual(list(names.values()), [(9000, 0), (0, 9000), (9000, 0), (0, 9000)])
        self.assertLess(preview.VIEWS["front"].seen((0, 1, 0))[2], 0)
        self.assertGreater(preview.VIEWS["side"].seen((1, 0, 0))[2], 0)
        self.assertGreater(preview.VIEWS["top"].seen((0, 0, 1))[2], 0)
        for view in preview.VIEWS.values():
            self.assertAlmostEqual(preview.dot(preview.cross(view.right, view.up), view.near), 1)
        self.assertEqual(preview.turned_up((1, 2, 3), "y"), (1, -3, 2))
        self.assertTrue(all(part > 0 for part in preview.VIEWS["iso"].near[::2]) and preview.VIEWS["iso"].near[1] < 0)

    def test_edges(self):
        """The edges of four faces cross in the middle of a flat square, and nowhere in that of one face."""
        one = self.picture(flat(1), "--view", "top", "--size", "101")
        four = self.picture(flat(2), "--view", "top", "--size", "101")
        self.assertTrue(is_warm(*one.at(0.5, 0.5)))
        self.assertLess(sum(four.at(0.5, 0.5)), sum(one.at(0.5, 0.5)) - 200)
        self.assertEqual(one.at(0.25, 0.4), four.at(0.25, 0.4))
        # all four sides, a margin of 16 points from the picture's own
        for x, y in ((0.5, 0.16), (0.16, 0.5), (0.5, 0.84), (0.84, 0.5)):
            near = [sum(one.at(x + i / 100, y + j / 100)) for i in range(-2, 3) for j in range(-2, 3)]
            self.assertLess(min(near), sum(one.at(0.5, 0.5)) - 200)

    def test_edges_of_a_slope(self):
        """Each edge is drawn throughout on a surface that leans, from every side."""
        counts = {view: self.picture(flat(3), "--view", view, "--size", "200").count(is_dark) for view in ("top", "iso")}
        self.assertGreater(counts["iso"], counts["top"] // 3)
        self.assertGreater(counts["top"], 8 * 150)

    def test_edges_behind(self):
        """Those of faces that lie a little behind another are hidden."""
        both = flat(1, more=flat_mesh(3, height=-1500))
        pictures = [self.picture(content, "--view", "top", "--size", "101") for content in (both, flat(1))]
        self.assertEqual(pictures[0].rows, pictures[1].rows)

    def test_light(self):
        """It comes from above, the left and the front."""
        picture = self.picture(box((2, 2, 2)), "--view", "front", "--size", "120")
        self.assertGreater(sum(picture.at(0.35, 0.35)), sum(picture.at(0.65, 0.65)) + 60)

    def test_listing_and_mesh_alike(self):
        content = vector("last-16-steps").read_bytes()
        mesh = self.picture(content, "--size", "160")
        listing = self.picture(self.done("tessellate", "-", input=content), "--size", "160")
        self.assertEqual((mesh.width, mesh.height), (listing.width, listing.height))
        differing = sum(abs(x - y) > 24 for one, other in zip(mesh.rows, listing.rows) for x, y in zip(one, other))
        self.assertLess(differing, 3 * mesh.width * mesh.height // 20)

    def test_listings_of_any_steps(self):
        """Both faces at an edge are drawn by the same samples of it, whatever N is."""
        for n in range(1, 33):
            for most in range(4, 33):
                places = preview.spread(n, most)
                self.assertEqual([n - place for place in places][::-1], places)
                self.assertEqual((places[0], places[-1]), (0, n))
                self.assertTrue(n > most or places == list(range(n + 1)))
        self.picture(SQUARE_LINES)

    def test_nothing_to_see(self):
        """All vertices at one place, and a square seen along itself."""
        self.picture(vector("every-coordinate-1048576").read_bytes(), "--size", "64")
        self.picture(SQUARE.read_bytes(), "--view", "front", "--size", "64")

    def test_time_of_the_last(self):
        content = vector("last-16-steps").read_bytes()
        begun = time.monotonic()
        self.picture(content)
        self.assertLess(time.monotonic() - begun, 10)


class Square:
    """A frame that leaves points where they are."""

    lift = 1.0

    @staticmethod
    def placed(point):
        return point


class Drawing(unittest.TestCase):
    """The canvas."""

    def test_edges_and_sides(self):
        """Edges on the side that is turned away are drawn over the inner side alone."""
        grid = [[(1.0, 1.0, 0.0), (6.0, 1.0, 0.0)], [(1.0, 6.0, 0.0), (6.0, 6.0, 0.0)]]
        for facing, tone, is_drawn in ((1, 100, True), (1, 200, True), (1, 0, True), (-1, 100, False), (-1, 200, True), (-1, 0, False)):
            canvas = Canvas(8, 8)
            canvas.tones[:] = bytes([tone]) * 64
            preview.draw_edges(canvas, Square, [grid], {point: (0.0, 0.0, facing) for row in grid for point in row})
            self.assertEqual(preview.EDGE in canvas.tones, is_drawn, (facing, tone))

    def test_nearer_hides(self):
        for order in (1, -1):
            canvas = Canvas(8, 8)
            far = [(0, 0, 1, 10), (7, 0, 1, 10), (0, 7, 1, 10)]
            near = [(0, 0, 2, 20), (3, 0, 2, 20), (0, 3, 2, 20)]
            for triangle in (far, near)[::order]:
                canvas.triangle(triangle)
            self.assertEqual((canvas.tones[0], canvas.tones[6], canvas.tones[63]), (20, 10, 0))

    def test_between_the_corners(self):
        canvas = Canvas(9, 9)
        canvas.triangle([(0, 0, 0, 10), (8, 0, 8, 90), (0, 8, 0, 10)])
        self.assertEqual((canvas.depths[4], canvas.tones[4], canvas.depths[9 + 4]), (4.0, 50, 4.0))

    def test_slivers(self):
        """Triangles of next to no width, or of none, have no other tones than between those of their corners."""
        chance = random.Random(SEED)
        for _ in range(8000):
            canvas = Canvas(24, 24)
            x, y, along, down = (round(chance.uniform(-20, 40)) for _ in range(4))
            part, width = chance.uniform(-1, 2), 10 ** chance.uniform(-17, -2)
            third = (x + along * part + width * chance.uniform(-1, 1), y + down * part + width * chance.uniform(-1, 1))
            tones = [chance.uniform(2, 127) for _ in range(3)]
            points = ((x, y), (x + along, y + down), third)
            canvas.triangle([(*point, chance.uniform(-9, 9), tone) for point, tone in zip(points, tones)])
            drawn = [tone for tone in canvas.tones if tone]
            self.assertTrue(all(min(tones) - 1 <= tone <= max(tones) for tone in drawn), (points, tones))

    def test_beside_the_canvas(self):
        canvas = Canvas(4, 4)
        canvas.triangle([(-9, -9, 1, 7), (30, -9, 1, 7), (-9, 30, 1, 7)])
        canvas.line((-3, -3, 2), (9, 9, 2), 1, {7}, 2)
        self.assertEqual(canvas.tones[3], 7)
        self.assertEqual(canvas.tones[5], 1)

    def test_lines_behind(self):
        canvas = Canvas(4, 4)
        canvas.triangle([(0, 0, 5, 7), (30, 0, 5, 7), (0, 30, 5, 7)])
        canvas.line((0, 0, 4), (3, 3, 4), 1, {7}, 1)
        self.assertEqual(set(canvas.tones), {7})
        canvas.line((0, 0, 6), (3, 3, 6), 1, {8}, 1)
        self.assertEqual(set(canvas.tones), {7})
        canvas.line((0, 0, 6), (3, 3, 6), 1, {7}, 1)
        self.assertEqual([canvas.tones[5 * i] for i in range(4)], [1] * 4)

    def test_means(self):
        canvas = Canvas(2, 2)
        canvas.tones[:] = bytes([0, 1, 1, 1])
        self.assertEqual(list(canvas.rows([(200, 0, 4)] + [(100, 8, 0)] * 255, 2)), [bytes([125, 6, 1])])

    def test_png(self):
        rows = [bytes([1, 2, 3, 4, 5, 6]), bytes([255, 0, 9, 9, 9, 9]), bytes(6)]
        picture = Picture(png(2, rows))
        self.assertEqual((picture.width, picture.height, picture.rows), (2, 3, rows))


class Run(Writing, Case):
    def setUp(self):
        super().setUp()
        self.source = self.file("in", SQUARE.read_bytes())
        self.words = ("preview", self.source, "--size", "64")

    def test_words(self):
        for more in ((), ("-o", "out", "--view", "back"), ("-o", "out", "--size", "63"), ("-o", "out", "--size", "2049")):
            words = ("in", *more)
            status, output, error = self.run_command("preview", *words)
            self.assertEqual((status, output), (2, b""), words)
            self.assertIn("usage:", error)

    def test_refused(self):
        status, output, error = self.run_command("preview", vector("bow-tie-refused-9"), "-o", "out")
        self.assertEqual((status, output), (1, b""))
        self.assertIn("refused 9: the corners at a vertex are not one fan", error)
        self.assertIn(f"tools/explain {vector('bow-tie-refused-9')} says where", error)
        self.file("cut", SQUARE_LINES[:-3])
        status, _, error = self.run_command("preview", "cut", "-o", "out")
        self.assertEqual((status, error), (1, "preview: cut:5: the last line has no line end: the listing is not whole\n"))
        self.assertEqual(self.files(), ["cut", "in"])


if __name__ == "__main__":
    unittest.main()
