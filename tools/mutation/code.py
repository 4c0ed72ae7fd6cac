"""What one edit makes of a function body or of a constant of the code (.rt); contracts, imports and declarations stay as they are.

operators    + - * / % && || & | << >> and their assignments each as another one; a comparison as its neighbour
numbers      one up and one down; 0 down only where it is written as a signed number
booleans     true and false
signs        a `!` and a `-` of one operand left out
arguments    two of a call that stand side by side, exchanged, unless they are known to be of two types
statements   left out: an early return, an `if` without `else`, a loop, an assignment, a call; a `let` only where its name is bound before. The only
             statement of an `if` or a loop goes with it
corners      next, prev and across, as functions of the crate `corner`, as fields, as variables
ranges       `..` as `..=` and the other way round
constants    all of these in the value; in a table of more than 8 entries 4 of them, chosen by the seed. Entries that are neither numbers nor booleans
             change places with the next one
"""

import random
import re
from types import MappingProxyType

from mutation.items import Edit, items
from mutation.signatures import can_change_places
from mutation.statements import statements_left_out
from mutation.tokens import CODE, closing, parts, tokens

OPERATORS = {
    "+": "-",
    "-": "+",
    "*": "+",
    "/": "*",
    "%": "/",
    "&&": "||",
    "||": "&&",
    "&": "|",
    "|": "&",
    "<<": ">>",
    ">>": "<<",
    "<": "<=",
    "<=": "<",
    ">": ">=",
    ">=": ">",
    "==": "!=",
    "!=": "==",
    "+=": "-=",
    "-=": "+=",
    "*=": "+=",
    "..": "..=",
    "..=": "..",
}

ASSIGNING = ("+=", "-=", "*=")
RANGES = ("..", "..=")

TURNS = ("next", "prev", "across")
CORNERS = tuple(f"{turn}_corner" for turn in TURNS)

KEYWORDS = frozenset("as break const continue else fn for if impl in let loop match move mut pub ref return unsafe use while".split())

NUMBER = re.compile(r"(0x[0-9a-fA-F_]+|[\d_]+)(\.[\d_]+)?([iuf]\d+|usize|isize)?$")

FEW_ENTRIES, CHOSEN = 8, 4


# ---- One word for another.


def is_operand(token):
    """Whether a word can end what an operator joins."""
    return token.kind in ("number", "string") or token.text in (")", "]") or token.kind == "name" and token.text not in KEYWORDS


def number_by(text, step):
    """A number of the code so many further, with its suffix; None where it would be below 0 and its type is not known to have that."""
    whole, rest, suffix = NUMBER.match(text).groups()
    value = int(whole.replace("_", ""), 0 if whole.startswith("0x") else 10) + step
    if value < 0 and not (suffix or "").startswith("i"):
        return None
    return f"{value}{rest or ''}{suffix or ''}"


def other_numbers(text):
    """A number one up and one down."""
    return [other for other in (number_by(text, 1), number_by(text, -1)) if other is not None]


def is_binary(words, at):
    """Whether the mark at this place joins two operands."""
    return words[at].text in ASSIGNING + RANGES or is_operand(words[at - 1])


def other_words(words, at):
    """What may stand for the word at this place: another operator, number or truth."""
    text, kind = words[at].text, words[at].kind
    if kind == "number" and words[at - 1].text != ".":
        return other_numbers(text)
    if kind == "mark" and text in OPERATORS and is_binary(words, at):
        return (OPERATORS[text],)
    if text in ("true", "false"):
        return ("false" if text == "true" else "true",)
    return ("",) if text in ("!", "-") else ()


def words_changed(words, item):
    """Each word of an item as another one."""
    for at in range(item.start, item.stop):
        for other in other_words(words, at):
            yield Edit(words[at].start, words[at].end, other, item.name)


# ---- Corners.


def reached(name, words):
    """The name of a function of `corner` where the file has it, else with its crate."""
    return name if any(word.text == name and words[at - 1].text in ("::", "fn") for at, word in enumerate(words)) else f"corner::{name}"


def is_variable(words, at):
    """Whether the name at this place can be that of a variable: no field, no path, no label, no call."""
    return words[at - 1].text not in (".", "::") and words[at + 1].text not in (":", "(", "::")


def corners_changed(words, item):
    """next, prev and across for one another."""
    bound = {words[at].text for at in range(item.first, item.stop) if words[at - 1].text not in (".", "::")}
    for at in range(item.start, item.stop):
        text = words[at].text
        for other in CORNERS if text in CORNERS else TURNS if text in TURNS else ():
            is_field = words[at - 1].text == "." and words[at + 1].text != "("
            if other == text or text in TURNS and not (is_field or is_variable(words, at) and other in bound):
                continue
            qualified = text in CORNERS and words[at - 1].text != "::"
            yield Edit(words[at].start, words[at].end, reached(other, words) if qualified else other, item.name)


# ---- Arguments.


def exchanged(text, words, one, other, name):
    """Two stretches of words in each other's place."""
    (a, b), (c, d) = one, other
    start, middle, stop = words[a].start, (words[b - 1].end, words[c].start), words[d - 1].end
    first, second = text[start : middle[0]], text[middle[1] : stop]
    return [] if first == second else [Edit(start, stop, second + text[slice(*middle)] + first, name)]


def arguments_exchanged(text, words, item, types):
    """Two neighbours among the arguments of each call exchanged."""
    for at in range(item.start, item.stop - 1):
        if words[at].kind == "name" and words[at].text not in KEYWORDS and words[at + 1].text == "(":
            given = list(parts(words, at + 2, closing(words, at + 1)))
            for number, (one, other) in enumerate(zip(given, given[1:])):
                if words[at - 1].text == "." or can_change_places(types, words[at].text, number):
                    yield from exchanged(text, words, one, other, item.name)


# ---- Constants.


def entries(words, item):
    """The entries of a table as pairs of places; none of another value."""
    if words[item.start].text != "[" or closing(words, item.start) != item.stop - 1:
        return []
    return list(parts(words, item.start + 1, item.stop - 1))


def table_changed(text, words, item, found, seed):
    """The entries of a table changed, of a long one some chosen: a number or a truth as another, any other entry for the next one."""
    chosen = range(len(found))
    if len(found) > FEW_ENTRIES:
        chosen = random.Random(f"{seed} {item.name} {len(found)}").sample(chosen, CHOSEN)
    for number in range(len(found)):
        one = item._replace(start=found[number][0], stop=found[number][1])
        changed = list(words_changed(words, one))
        if not changed and number + 1 < len(found):
            changed = exchanged(text, words, found[number], found[number + 1], item.name)
        yield from (edit._replace(chosen=number in chosen) for edit in changed)


# ---- All of it.


def edits(text, seed=0, types=MappingProxyType({})):
    """All changes of the functions and constants of a file, in the order of the text; types has those of the arguments of functions, by name."""
    words = tokens(CODE, text)
    made = []
    for item in items(words):
        table = entries(words, item) if item.kind == "const" else []
        if table:
            made.extend(table_changed(text, words, item, table, seed))
            continue
        made.extend(words_changed(words, item))
        made.extend(corners_changed(words, item))
        made.extend(arguments_exchanged(text, words, item, types))
        if item.kind == "fn":
            made.extend(statements_left_out(words, item))
    return sorted(made, key=lambda edit: edit[:3])
