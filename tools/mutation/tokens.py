"""The words of the two languages, each with its place in the text, and the brackets among them."""

import re
from typing import NamedTuple

CODE = re.compile(
    r"""(?P<comment>//[^\n]*)
      | (?P<string>b?"(?:\\.|[^"\\])*"|b?'(?:\\.|[^'\\\n])')
      | (?P<number>0x[0-9a-fA-F_]+|\d[\d_]*(?:\.\d[\d_]*)?(?:[iuf]\d+|usize|isize)?)
      | (?P<name>[^\W\d]\w*)
      | (?P<mark>\.\.=|\.\.|::|->|=>|&&|\|\||<<=|>>=|<<|>>|[<>=!+\-*/%&|^]=|\S)""",
    re.VERBOSE,
)

DEFINITIONS = re.compile(r"(?P<comment>--[^\n]*)|(?P<mark>[(){};,])|(?P<word>[^\s(){};,]+)")

OPENING, CLOSING = frozenset("([{"), frozenset(")]}")


class Token(NamedTuple):
    """A word of a text: its kind, itself, and where it starts."""

    kind: str
    text: str
    start: int

    @property
    def end(self):
        return self.start + len(self.text)


def tokens(language, text):
    """The words of a text but for its comments."""
    found = (Token(m.lastgroup, m[0], m.start()) for m in language.finditer(text))
    return [token for token in found if token.kind != "comment"]


def closing(words, at):
    """The place of the bracket that closes the one at this place."""
    depth = 0
    for place in range(at, len(words)):
        if words[place].text in OPENING:
            depth += 1
        elif words[place].text in CLOSING:
            depth -= 1
            if depth == 0:
                return place
    raise ValueError(f"{words[at].text} at {words[at].start} is not closed")


def top_level(words, start, stop):
    """The places from start to stop that are in no further bracket; an opening bracket counts, what it holds and its end do not."""
    at = start
    while at < stop:
        yield at
        at = closing(words, at) + 1 if words[at].text in OPENING else at + 1


def parts(words, start, stop, mark=","):
    """What stands between marks, from start to stop, as pairs of places; nothing behind a last mark counts as nothing."""
    begin = start
    for at in top_level(words, start, stop):
        if words[at].text == mark:
            yield begin, at
            begin = at + 1
    if begin < stop:
        yield begin, stop
