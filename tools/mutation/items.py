"""The functions and constants of a file of the code, and what a change of one is."""

from typing import NamedTuple

from mutation.tokens import CODE, closing, tokens, top_level

CONTRACTS = ("requires", "ensures", "invariant", "decreases")


class Item(NamedTuple):
    """A function or a constant, a `static` among them: its kind, its name, where its words start, and where those of its body or value start and stop."""

    kind: str
    name: str
    first: int
    start: int
    stop: int


class Edit(NamedTuple):
    """A change of a text: from where, to where, what stands there then, the item that it is in, and whether it is among those to make."""

    start: int
    end: int
    text: str
    name: str
    chosen: bool = True


def clause(words, at):
    """Where the brace of the clause of a contract at this place is, which may have a name; None where there is none."""
    if words[at].text not in CONTRACTS:
        return None
    return next((place for place in (at + 1, at + 2) if words[place].text == "{" and (place == at + 1 or words[at + 1].kind == "name")), None)


def function_body(words, at):
    """Where the brace of the body of the function at this place is; None for one without a body."""
    while at < len(words):
        brace = clause(words, at)
        if brace is not None:
            at = closing(words, brace) + 1
        elif words[at].text == "{":
            return at
        elif words[at].text == ";":
            return None
        else:
            at = closing(words, at) + 1 if words[at].text in "([" else at + 1
    return None


def constant_value(words, at):
    """Where the value of the constant at this place starts, and where the mark behind it is."""
    here = [place for place in top_level(words, at, len(words)) if words[place].text in ("=", ";")]
    return here[0] + 1, here[1]


def owner_of(words, at, brace):
    """The name of the type of the `impl` at this place, whose body begins at the brace."""
    depth, name = 0, ""
    for word in words[at + 1 : brace]:
        depth += word.text.count("<") - word.text.count(">")
        if depth == 0 and word.kind == "name":
            name = word.text
    return name


def items(words, start=0, stop=None, owner=""):
    """The functions and constants of a file, those of an `impl` with the name of its type."""
    at, stop = start, len(words) if stop is None else stop
    while at < stop:
        text = words[at].text
        if text == "fn":
            name, body = owner + words[at + 1].text, function_body(words, at)
            if body is None:
                at += 1
                continue
            end = closing(words, body)
            yield Item("fn", name, at, body, end + 1)
            at = end + 1
        elif text in ("const", "static") and words[at + 1].text != "fn":
            begin, end = constant_value(words, at)
            yield Item("const", owner + words[at + 1].text, at, begin, end)
            at = end + 1
        elif text == "impl":
            brace = function_body(words, at)
            yield from items(words, brace + 1, closing(words, brace), f"{owner_of(words, at, brace)}::")
            at = closing(words, brace) + 1
        else:
            at = closing(words, at) + 1 if text in ("{", "(", "[") else at + 1


def function_lines(text):
    """The functions of a text of the code by name, each with its first and its last line."""
    words = tokens(CODE, text)
    found = ((item.name, (words[item.first].start, words[item.stop - 1].start)) for item in items(words) if item.kind == "fn")
    return {name: tuple(1 + text.count("\n", 0, place) for place in places) for name, places in found}
