"""Mesh files: their bytes, and what rules F1 to F10 of docs/SPECIFICATION.md say of them.

tools/vectors.py and the commands that read or write a mesh file use it.
"""

import shlex
import struct
from dataclasses import dataclass
from functools import cached_property

from command import Unusable, meaning, shown
from meshes import FACES, STEPS, VERTICES, Mesh, PatchReading

# The bytes of the sizes.
SIZES = 6

# The micrometres of each unit of length that models come in.
UNITS = {"um": 1, "mm": 1000, "m": 1000000}


@dataclass
class FileMesh(Mesh):
    n: int

    def bytes(self):
        return struct.pack("<3H", self.v, self.f, self.n) + self.packed()


def length(v, f):
    """The length of a file with these sizes."""
    return SIZES + 13 * v + 8 * f


def parsed(content, v, f, n):
    """The mesh in a file of these sizes; what stands behind it is left out."""
    tags_at, faces_at, end = SIZES + 12 * v, SIZES + 13 * v, length(v, f)
    positions = struct.unpack(f"<{3 * v}i", content[SIZES:tags_at])
    faces = struct.unpack(f"<{4 * f}H", content[faces_at:end])
    return FileMesh(v, f, list(positions), list(content[tags_at:faces_at]), list(faces), n)


class FileReading:
    """What rules F1 to F10 say of a file."""

    def __init__(self, content):
        self.content = content
        self.v, self.f, self.n = struct.unpack_from("<3H", content) if len(content) >= SIZES else (None, None, None)

    @cached_property
    def reading(self):
        """What the rules say of the mesh in the file; nothing where the file is too short for it."""
        is_there = self.v is not None and len(self.content) >= length(self.v, self.f)
        return PatchReading(parsed(self.content, self.v, self.f, self.n)) if is_there else None

    def size_faults(self):
        """Whether 1 and 15 are met, in the form of all faults; the mesh is not looked at."""
        if self.v is None:
            return {15: [None]}
        sizes = self.v in VERTICES and self.f in FACES
        return {1: [] if sizes else [None], 15: [] if len(self.content) == length(self.v, self.f) else [None]}

    def faults(self):
        """Where each cause is met, by its number in the file's order; those of the mesh are as MeshReading has them."""
        mesh = {number: places for number, places in self.reading.faults().items() if number > 1} if self.reading else {}
        steps = {14: [] if self.n in STEPS else [None]} if self.v is not None else {}
        return {**self.size_faults(), **mesh, **steps}

    def causes(self):
        """The numbers of all causes that are met, in the file's order; the answer is the first."""
        return [number for number, places in self.faults().items() if places]

    def refusal(self):
        """The number of the refusal; none of an accepted file. The mesh is looked at only where its sizes are right."""
        of_sizes = [number for number, places in self.size_faults().items() if places]
        return next(iter(of_sizes or self.causes()), None)

    def lines(self):
        """The lines that are printed."""
        causes = self.causes()
        if causes:
            return [f"refused {causes[0]}"]
        places = range(self.n + 1)
        samples = enumerate(self.reading.samples)
        rows = [[f, a, b, *at[a, b]] for f, at in samples for b in places for a in places]
        return [" ".join(map(str, row)) for row in [self.reading.counts(), *rows]]


# What is said of a file that is no mesh file at all.
TEXT = "this is a text file: tools/obj2mesh makes a mesh file of a model, and tools/preview and tools/listing2obj take whole listings"


def is_text(content):
    """Whether these bytes begin as text does; an accepted mesh file does not, with a 0 among its sizes."""
    front = content[:512]
    text = front.decode(errors="ignore")
    # a letter of several bytes may be cut off at the end
    return len(content) >= SIZES and len(text.encode()) > len(front) - 4 and all(c.isprintable() or c.isspace() for c in text)


def accepted(name, content):
    """The reading of the file of this name, - for standard input, that has to be accepted."""
    file = FileReading(content)
    number = file.refusal()
    if number is not None:
        hint = TEXT if is_text(content) else f"tools/explain {shlex.quote(name)} says where"
        raise Unusable(f"{shown(name)}: refused {number}: {meaning(number)[0]}", hint)
    return file
