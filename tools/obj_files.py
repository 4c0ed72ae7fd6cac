"""OBJ files: vertices and faces with the lines that they stand in, read exactly. tools/obj2mesh uses it.

Read are `v`, `f`, `g`, and the vertices of `p` and `l`; every other statement is passed over. A vertex reference is v, v/vt, v//vn or
v/vt/vn, its number counted from 1, or, where it is negative, backwards from the vertex before it. A statement may run on behind a \\ at
the end of a line.
"""

import re
from dataclasses import dataclass, field
from fractions import Fraction

from command import Unusable

# A decimal of at most so many digits, and of an exponent that a fraction can carry.
DECIMAL = re.compile(r"[+-]?(?:[0-9]+\.?[0-9]*|\.[0-9]+)(?:[eE][+-]?[0-9]{1,3})?")
LONGEST = 400
COMMENT = re.compile(r"(?:^|\s)#.*")
REFERENCE = re.compile(r"([+-]?[0-9]{1,9})(?:/(?:[+-]?[0-9]{1,9})?){0,2}")


@dataclass
class Vertex:
    """The coordinates in the file's own unit, and the line."""

    point: tuple
    line: int


@dataclass
class Element:
    """A face, point or line: its kind, its vertices as places in the list, counted from 0, and the line."""

    kind: str
    vertices: list
    line: int


@dataclass
class Model:
    name: str
    vertices: list = field(default_factory=list)
    faces: list = field(default_factory=list)
    # The elements of each group, by its name.
    groups: dict = field(default_factory=dict)

    def unusable(self, line, words):
        """What is wrong with a line of the file."""
        return Unusable(f"{self.name}:{line}: {words}")


def lines(content):
    """The lines of a text file, each with its number and without its comment, which a # begins at the line's begin or behind a blank."""
    text = content.decode("utf-8-sig", errors="replace")
    return enumerate((COMMENT.sub("", line).rstrip() for line in re.split("\r\n|\r|\n", text)), 1)


def statements(content):
    """The words of each statement, and the line that it begins in."""
    start, words = None, []
    for number, code in lines(content):
        start = start or number
        words += code.rstrip("\\").split()
        if code.endswith("\\"):
            continue
        if words:
            yield start, words
        start, words = None, []
    if words:
        yield start, words


def number(model, line, word):
    """A coordinate as a fraction."""
    if len(word) > LONGEST or not DECIMAL.fullmatch(word):
        raise model.unusable(line, f"{word[:40]} is not a decimal number")
    return Fraction(word)


def vertex(model, line, words):
    """The vertex of a `v` statement; a weight or colours behind the coordinates are passed over."""
    if len(words) < 3:
        raise model.unusable(line, f"a vertex has three coordinates, and here are {len(words)}")
    return Vertex(tuple(number(model, line, word) for word in words[:3]), line)


def reference(model, line, word):
    """The place of the vertex that a reference names, counted from 0; whether there is such a vertex is told at the end."""
    found = REFERENCE.fullmatch(word)
    if not found:
        raise model.unusable(line, f"{word[:40]} is no reference to a vertex: v, v/vt, v//vn or v/vt/vn")
    index = int(found[1])
    place = index - 1 if index > 0 else len(model.vertices) + index
    if index == 0 or place < 0:
        raise model.unusable(line, f"there is no vertex {index}, with {len(model.vertices)} before this line")
    return place


def assert_named(model, elements):
    """That every vertex that these elements name is in the file."""
    for element in elements:
        for place in element.vertices:
            if place >= len(model.vertices):
                raise model.unusable(element.line, f"there is no vertex {place + 1}: the file has {len(model.vertices)}")


def parsed(name, content):
    """The model in the bytes of a file of this name."""
    model, current, elements = Model(name), ["default"], []
    for line, (keyword, *words) in statements(content):
        if keyword == "v":
            model.vertices.append(vertex(model, line, words))
        elif keyword == "g":
            current = words or ["default"]
            for group in current:
                model.groups.setdefault(group, [])
        elif keyword in ("f", "p", "l"):
            elements.append(Element(keyword, [reference(model, line, word) for word in words], line))
            for group in current:
                model.groups.setdefault(group, []).append(elements[-1])
    assert_named(model, elements)
    model.faces = [element for element in elements if element.kind == "f"]
    return model
