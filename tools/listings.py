"""Listings: the lines that the mesh program prints of a file, read back. tools/listing2obj and tools/preview use it."""

import re
from dataclasses import dataclass
from math import isqrt

from command import Unusable, meaning, plural

COUNTS = re.compile(rb"[0-9]{1,9}(?: [0-9]{1,9}){3}")
SAMPLE = re.compile(rb"([0-9]{1,9}) ([0-9]{1,9}) ([0-9]{1,9}) (-?[0-9]{1,12}) (-?[0-9]{1,12}) (-?[0-9]{1,12})")
REFUSED = re.compile(rb"refused ([0-9]{1,3})\n?")


@dataclass
class Listing:
    """V, F, E and B; N; and the samples of each face, {(a, b): (x, y, z)} in 1/256 micrometre."""

    counts: list
    n: int
    samples: list


def is_listing(content):
    """Whether these bytes begin as a listing does, and not as a mesh file."""
    first = content.partition(b"\n")[0]
    return bool(COUNTS.fullmatch(first) or REFUSED.fullmatch(first))


def steps(name, lines, faces):
    """N, from the number of the lines behind the first."""
    side = isqrt(lines // faces) if faces else 0
    if side < 2 or faces * side**2 != lines:
        count = f"{plural(lines, 'line')} of samples for {plural(faces, 'face')}"
        raise Unusable(f"{name}: {count}: it is not whole, for no N is F (N + 1)^2 that number")
    return side - 1


def counts_of(name, line):
    """V, F, E and B of the first line."""
    if not COUNTS.fullmatch(line):
        raise Unusable(f"{name}:1: the first line is not V F E B: is this what tools/tessellate printed?")
    v, f, e, b = map(int, line.split())
    if 4 * f + b != 2 * e or b > 4 * f:
        raise Unusable(f"{name}:1: V F E B are not those of a mesh: 4F + B = 2E for each, and B is at most 4F")
    return [v, f, e, b]


def parsed(name, content):
    """The listing in the bytes of a file of this name."""
    refused = REFUSED.fullmatch(content)
    if refused:
        cause, *repair = meaning(int(refused[1]))
        raise Unusable(f"{name}: is the listing of a refused file, {int(refused[1])}: {cause}", *repair)
    first, *lines = content.split(b"\n")
    counts = counts_of(name, first)
    if not lines or lines.pop():
        raise Unusable(f"{name}:{1 + content.count(10)}: the last line has no line end: the listing is not whole")
    n = steps(name, len(lines), counts[1])
    samples = [{} for _ in range(counts[1])]
    places = ((f, a, b) for f in range(counts[1]) for b in range(n + 1) for a in range(n + 1))
    for number, (line, place) in enumerate(zip(lines, places), 2):
        found = SAMPLE.fullmatch(line)
        f, *at, x, y, z = map(int, found.groups()) if found else (None,) * 6
        if (f, *at) != place:
            raise Unusable(f"{name}:{number}: this is not the line of face {place[0]} at ({place[1]}, {place[2]}), N = {n}")
        samples[f][tuple(at)] = (x, y, z)
    return Listing(counts, n, samples)
