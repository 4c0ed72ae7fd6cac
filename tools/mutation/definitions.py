"""What one edit makes of a definition (.antt): of the right-hand sides of its clauses, and of the types of a record's fields.

operators    + - * / % ^, those of integers, && and ||, < and ≤, also as `◌+◌`; ≡ and the connectives of types stay
tests        ltb and leb, any_below and all_below, min and max, true and false; `not` left out
numbers      one up and one down; `suc` left out
arguments    two that stand side by side, exchanged, unless they are known to be of two types: of `cond` the branches among them
corners      next, prev and across, as functions and as fields

Of a right-hand side with more than 40 numbers 8 of them are taken, and 8 pairs of arguments, chosen by the seed. The arguments of eqb, min, max and
example, whose order says nothing, stay.
A name that the file does not have yet is brought in by one more `use` line. Patterns, signatures, `use` lines and data types stay as they are.
"""

import random
import re
from types import MappingProxyType
from typing import NamedTuple

from mutation.signatures import can_change_places
from mutation.tokens import DEFINITIONS, OPENING, closing, tokens, top_level

# The words of the kit and the folds of the repository, by where a file has them from.
PRELUDE, FOLD = "Rattle.std.specs.Prelude", "Rattle.finite.specs.Fold"

OPERATORS = {
    "+": "-",
    "-": "+",
    "*": "+",
    "/": "*",
    "%": "/",
    "^": "*",
    "<": "≤",
    "≤": "<",
    "+ℤ": "-ℤ",
    "-ℤ": "+ℤ",
    "*ℤ": "+ℤ",
    "&&": "||",
    "||": "&&",
}

# What stands for an operand where an operator is named.
HOLE = "◌"

NAMES = {
    "ltb": ("leb", PRELUDE),
    "leb": ("ltb", PRELUDE),
    "true": ("false", PRELUDE),
    "false": ("true", PRELUDE),
    "min": ("max", PRELUDE),
    "max": ("min", PRELUDE),
    "any_below": ("all_below", FOLD),
    "all_below": ("any_below", FOLD),
}

TURNS = ("next", "prev", "across")
CORNER = "Rattle.corner.specs.Corner"

LEFT_OUT = ("not", "suc")
SYMMETRIC = ("eqb", "min", "max", "example")

FEW_NUMBERS, CHOSEN = 40, 8

# Words that are no part of an application, and symbols that are.
BREAKS = frozenset(("let", "in", "where", "λ", "record", "=", ":", "."))
SYMBOLS = frozenset(("[]", "⊥", "⊤", "∅"))

SIGNATURE = re.compile(r"(?:(?:abbrev|unfoldable|pub|private)\s+)*(\S+)\s+:\s")
RECORD = re.compile(r"(?:pub\s+)?record\s+(\S+)")
FIELD = re.compile(r"  (?:pub\s+)?(\S+)\s+:\s")
SKIPPED = ("use ", "mod ", "pub mod ", "data ", "pub data ", "unfolding ", "--")


class Item(NamedTuple):
    """A right-hand side or the type of a field: the name of what it defines, and its stretch of the text."""

    name: str
    start: int
    end: int


class Edit(NamedTuple):
    """A change of a text: as of the code, and a `use` line that it needs."""

    start: int
    end: int
    text: str
    name: str
    chosen: bool = True
    line: str = ""


# ---- The items of a file.


def stretches(text, pattern):
    """The stretches of a text that begin where this pattern is, each to the next one."""
    starts = [match.start() for match in re.finditer(pattern, text, re.MULTILINE)]
    return list(zip(starts, starts[1:] + [len(text)]))


def fields(text, start, end, record):
    """The types of the fields of a record."""
    for begin, stop in stretches(text[start:end], r"^  \S"):
        match = FIELD.match(text, start + begin, start + stop)
        if match:
            yield Item(f"{record}.{match[1]}", match.end(), start + stop)


def right_hand_side(text, start, end):
    """Where the right-hand side of a clause starts; None for another line."""
    words = tokens(DEFINITIONS, text[start:end])
    for at in top_level(words, 0, len(words)):
        if words[at].text == "=":
            return start + words[at].end
    return None


def items(text):
    """The right-hand sides and the fields' types of a file."""
    name = None
    for start, end in stretches(text, r"^[^\s})]"):
        record, signature = RECORD.match(text, start, end), SIGNATURE.match(text, start, end)
        if text.startswith(SKIPPED, start):
            continue
        if record:
            yield from fields(text, start, end, record[1])
        elif signature:
            name = signature[1]
        elif name is not None:
            side = right_hand_side(text, start, end)
            if side is not None:
                yield Item(name, side, end)


# ---- One word for another.


def use_line(text, name, module):
    """The line that brings a name into a file, empty where it has the name: by a `use` line or as its own."""
    brought = re.search(rf"^use [^\n]*[{{ ,]{re.escape(name)}[}}, ]", text, re.MULTILINE)
    own = re.search(rf"^(?:(?:abbrev|unfoldable|pub) )*{re.escape(name)} :", text, re.MULTILINE)
    return "" if brought or own else f"use {module}.{{{name}}}"


def around(operator):
    """The name of an operator."""
    return f"{HOLE}{operator}{HOLE}"


def other_words(words, at):
    """What may stand for the word at this place, each with the name and the module that it needs."""
    text, before = words[at].text, words[at - 1].text if at else ""
    if text.isdigit():
        return [] if before == "Type" else [(str(other), None) for other in (int(text) + 1, int(text) - 1) if other >= 0]
    if text in OPERATORS:
        return [(OPERATORS[text], (around(OPERATORS[text]), PRELUDE))]
    if text.strip(HOLE) in OPERATORS and text == around(text.strip(HOLE)):
        other = around(OPERATORS[text.strip(HOLE)])
        return [(other, (other, PRELUDE))]
    if text in NAMES:
        other, module = NAMES[text]
        return [(other, (other, module))]
    owner, dot, turn = text.rpartition(".")
    if turn in TURNS:
        others = [other for other in TURNS if other != turn]
        return [(f"{owner}.{other}", None) if dot else (other, (other, CORNER)) for other in others]
    return [("", None)] if text in LEFT_OUT else []


def is_label(words, at):
    """Whether the word at this place names a field that is given a value, or what a `let` binds."""
    return at + 1 < len(words) and words[at + 1].text == "="


def numbers(words):
    """The places of the numbers among words."""
    return [at for at, word in enumerate(words) if word.text.isdigit()]


def some(found, item, seed):
    """As many of those found as are taken of a right-hand side with many numbers, chosen by the seed."""
    return random.Random(f"{seed} {item.name} {len(found)}").sample(found, min(CHOSEN, len(found)))


def passed_over(words, item, seed):
    """The places of the numbers that are left alone where there are many."""
    found = numbers(words)
    return set(found) - set(some(found, item, seed)) if len(found) > FEW_NUMBERS else set()


def words_changed(text, words, item, seed):
    """Each word of an item as another one."""
    alone = passed_over(words, item, seed)
    for at, word in enumerate(words):
        for other, needed in () if is_label(words, at) else other_words(words, at):
            yield Edit(word.start, word.end, other, item.name, at not in alone, use_line(text, *needed) if needed else "")


# ---- Arguments.


def is_atom(word):
    """Whether a word can be a function or an argument."""
    return word.text in SYMBOLS or (word.text[0].isalnum() or word.text[0] in ("_", HOLE)) and word.text not in BREAKS


def is_binder(words, at, end):
    """Whether a bracket holds names with their type."""
    return words[at].text == "{" or any(words[place].text == ":" for place in top_level(words, at + 1, end))


def applications(words, start, stop):
    """The applications from start to stop, those in brackets too: each as the stretches of the function and its arguments."""
    spine, at = [], start
    while at < stop:
        end = closing(words, at) + 1 if words[at].text in OPENING else at + 1
        if end > at + 1:
            yield from applications(words, at + 1, end - 1)
        if end > at + 1 and not is_binder(words, at, end - 1) or is_atom(words[at]) and not is_bound(words, at):
            # the field of what a bracket holds stands right behind it
            if end > at + 1 and end < stop and words[end].text[0] == ".":
                end += 1
            spine.append((at, end))
        else:
            yield spine
            spine = []
        at = end
    yield spine


def is_bound(words, at):
    """Whether the word at this place is bound by a λ, and no argument."""
    if words[at].text[-1] == ".":
        return True
    while at and is_atom(words[at - 1]) and words[at - 1].text[-1] != ".":
        at -= 1
    return bool(at) and words[at - 1].text == "λ"


def one_word(words, stretch):
    """The word that a stretch is; nothing where it is several."""
    return words[stretch[0]].text if stretch[1] == stretch[0] + 1 else ""


def arguments_exchanged(text, words, item, types):
    """Two neighbours among the arguments of each application exchanged."""
    for spine in applications(words, 0, len(words)):
        head = one_word(words, spine[0]) if spine else ""
        for number, ((a, b), (c, d)) in enumerate(zip(spine[1:], spine[2:])):
            if head in SYMMETRIC or not can_change_places(types, head, number):
                continue
            start, middle, end = words[a].start, (words[b - 1].end, words[c].start), words[d - 1].end
            first, second = text[start : middle[0]], text[middle[1] : end]
            if first != second:
                yield Edit(start, end, second + text[slice(*middle)] + first, item.name)


# ---- All of it.


def edits(text, seed=0, types=MappingProxyType({})):
    """All changes of the definitions of a file, in the order of the text; types has those of the arguments of definitions, by name."""
    made = []
    for item in items(text):
        words = [word._replace(start=word.start + item.start) for word in tokens(DEFINITIONS, text[item.start : item.end])]
        made.extend(words_changed(text, words, item, seed))
        pairs = list(arguments_exchanged(text, words, item, types))
        chosen = some(pairs, item, seed) if len(numbers(words)) > FEW_NUMBERS else pairs
        made.extend(edit._replace(chosen=edit in chosen) for edit in pairs)
    return sorted(made, key=lambda edit: edit[:3])
