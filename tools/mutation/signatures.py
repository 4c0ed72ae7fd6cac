"""The types of the arguments of functions and definitions, by name: arguments of two types are not exchanged, as that is no program.

A name that stands for several lists of types has none. A type variable may be any type.
"""

import re

from mutation.tokens import CODE, DEFINITIONS, OPENING, closing, parts, tokens, top_level

SIGNATURE = re.compile(r"^(?:(?:abbrev|unfoldable|pub|private) )*(\S+) :\s(.*(?:\n[ \t]+\S.*)*)", re.MULTILINE)
VARIABLE = re.compile(r"[A-Z]$")

# Functions of the kit.
KIT = {"get_or": ("List A", "ℕ", "A"), "take": ("ℕ", "List A"), "drop": ("ℕ", "List A"), "replicate": ("ℕ", "A"), "sets": ("List A", "ℕ", "List A")}


def one_blank(words, start, stop):
    """Words with one blank between."""
    return " ".join(words[at].text for at in range(start, stop))


def of_code(text):
    """The names of the functions of a file, each with the types of its arguments."""
    words = tokens(CODE, text)
    for at, word in enumerate(words[:-2]):
        if word.text == "fn" and words[at + 2].text == "(":
            colons = [(a, b, [c for c in top_level(words, a, b) if words[c].text == ":"]) for a, b in parts(words, at + 3, closing(words, at + 2))]
            yield words[at + 1].text, tuple(one_blank(words, found[0] + 1, b) if found else "self" for a, b, found in colons)


def argument_types(words, start, stop):
    """The types of the arguments that a stretch of a signature before an arrow has: of a bracket with names, once for each name; none if implicit."""
    if words[start].text not in OPENING:
        return [one_blank(words, start, stop)]
    colon = [at for at in top_level(words, start + 1, stop - 1) if words[at].text == ":"]
    if words[start].text == "{" or closing(words, start) != stop - 1:
        return [] if words[start].text == "{" else [one_blank(words, start, stop)]
    return (colon[0] - start - 1) * [one_blank(words, colon[0] + 1, stop - 1)] if colon else [one_blank(words, start, stop)]


def of_definitions(text):
    """The names of the definitions of a file, each with the types of its arguments."""
    for match in SIGNATURE.finditer(text):
        words = tokens(DEFINITIONS, match[2])
        stretches = list(parts(words, 0, len(words), "→"))[:-1]
        yield match[1], tuple(one for start, stop in stretches for one in argument_types(words, start, stop))


def collected(pairs):
    """Pairs of a name and its types by name; None where there are several."""
    found = {}
    for name, types in pairs:
        found[name] = types if found.get(name, types) == types else None
    return found


def of_repository(root):
    """What the code and what the definitions of a repository have."""
    code = (pair for path in sorted(root.glob("crates/*/src/**/*.rt")) for pair in of_code(path.read_text(encoding="utf-8")))
    specs = (pair for path in sorted(root.glob("crates/*/specs/**/*.antt")) for pair in of_definitions(path.read_text(encoding="utf-8")))
    return collected(code), {**KIT, **collected(specs)}


def can_change_places(types, name, number):
    """Whether the argument of this number and the next one may be of one type, for all that is known."""
    given = types.get(name)
    if given is None or number + 1 >= len(given):
        return True
    one, other = given[number : number + 2]
    return one == other or bool(VARIABLE.match(one) or VARIABLE.match(other))
