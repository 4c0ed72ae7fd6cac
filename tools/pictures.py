"""Pictures: triangles and lines into a buffer by depth, and the buffer as the bytes of a PNG file. tools/preview uses it.

A canvas holds for each of its points the depth of what is nearest, larger being nearer, and a tone: an index into a list of colours. It is
some times finer than the picture, whose colours are the means of its points.
"""

import struct
import zlib
from array import array
from itertools import product
from math import ceil, floor, inf

TONES = 256

# Twice the area, in points, below which a triangle shows nothing, and its depths and tones would be those of rounding errors.
SLIVER = 1e-6


class Canvas:
    """width by height points, each with a depth and a tone, which is 0 where there is nothing."""

    def __init__(self, width, height):
        self.width, self.height = width, height
        self.depths = array("d", [-inf]) * (width * height)
        self.tones = bytearray(width * height)

    def triangle(self, corners):
        """Fills a triangle of three corners (x, y, depth, tone), the tone as a number between its neighbours."""
        (x0, y0, z0, t0), (x1, y1, z1, t1), (x2, y2, z2, t2) = sorted(corners, key=lambda corner: corner[1])
        area = (x1 - x0) * (y2 - y0) - (x2 - x0) * (y1 - y0)
        if abs(area) < SLIVER:
            return
        # How depth and tone change for a step to the right and a step down.
        dzx = ((z1 - z0) * (y2 - y0) - (z2 - z0) * (y1 - y0)) / area
        dzy = ((z2 - z0) * (x1 - x0) - (z1 - z0) * (x2 - x0)) / area
        dtx = ((t1 - t0) * (y2 - y0) - (t2 - t0) * (y1 - y0)) / area
        dty = ((t2 - t0) * (x1 - x0) - (t1 - t0) * (x2 - x0)) / area
        for y in range(max(0, ceil(y0)), min(self.height - 1, floor(y2)) + 1):
            long = x0 + (x2 - x0) * (y - y0) / (y2 - y0)
            short = x0 + (x1 - x0) * (y - y0) / (y1 - y0) if y < y1 else x1 + (x2 - x1) * (y - y1) / (y2 - y1) if y2 > y1 else x1
            left, right = (long, short) if long < short else (short, long)
            start, end = max(0, ceil(left)), min(self.width - 1, floor(right))
            if start <= end:
                depth, tone = z0 + dzx * (start - x0) + dzy * (y - y0), t0 + dtx * (start - x0) + dty * (y - y0)
                self.span(y * self.width + start, end - start + 1, depth, dzx, tone, dtx)

    def span(self, place, count, depth, depth_step, tone, tone_step):
        """Fills points of a row, from a place on."""
        depths, tones = self.depths, self.tones
        for at in range(place, place + count):
            if depth > depths[at]:
                depths[at] = depth
                tones[at] = int(tone)
            depth += depth_step
            tone += tone_step

    def line(self, start, end, tone, over, width):
        """Draws a line between two points (x, y, depth) over these tones, where its middle is not behind anything; depths stay."""
        (x0, y0, z0), (x1, y1, z1) = start, end
        steps = max(1, ceil(max(abs(x1 - x0), abs(y1 - y0))))
        offsets = range(-(width // 2), width - width // 2)
        for step in range(steps + 1):
            part = step / steps
            x, y, depth = round(x0 + (x1 - x0) * part), round(y0 + (y1 - y0) * part), z0 + (z1 - z0) * part
            if self.holds(x, y) and depth >= self.depths[y * self.width + x]:
                for column, row in product(offsets, repeat=2):
                    at = (y + row) * self.width + x + column
                    if self.holds(x + column, y + row) and self.tones[at] in over:
                        self.tones[at] = tone

    def holds(self, x, y):
        """Whether there is such a point."""
        return 0 <= x < self.width and 0 <= y < self.height

    def rows(self, colours, finer):
        """The rows of the picture as bytes, red, green and blue: each point the mean of finer by finer of the canvas."""
        table = [tuple(colour) for colour in colours]
        area = finer * finer
        for top in range(0, self.height, finer):
            row = bytearray()
            bands = [self.tones[y * self.width : (y + 1) * self.width] for y in range(top, top + finer)]
            for left in range(0, self.width, finer):
                block = b"".join(band[left : left + finer] for band in bands)
                if block.count(block[0]) == area:
                    row += bytes(table[block[0]])
                else:
                    row += bytes(sum(channel) // area for channel in zip(*(table[tone] for tone in block)))
            yield bytes(row)


# ---- PNG.


def chunk(kind, content):
    """A part of a PNG file: its length, its kind, its content and their checksum."""
    return struct.pack(">I", len(content)) + kind + content + struct.pack(">I", zlib.crc32(kind + content))


def filtered(row, before):
    """A row by its differences from the row before it, which compress well; the first byte says so."""
    return b"\x02" + bytes((x - y) & 255 for x, y in zip(row, before))


def png(width, rows):
    """The bytes of a PNG file of these rows, three bytes a point."""
    before, packed, height = bytes(3 * width), [], 0
    for row in rows:
        packed.append(filtered(row, before))
        before, height = row, height + 1
    header = struct.pack(">IIBBBBB", width, height, 8, 2, 0, 0, 0)
    data = zlib.compress(b"".join(packed), 9)
    return b"\x89PNG\r\n\x1a\n" + chunk(b"IHDR", header) + chunk(b"IDAT", data) + chunk(b"IEND", b"")
