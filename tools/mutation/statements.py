"""The statements of a function body, each left out."""

from mutation.items import Edit
from mutation.tokens import closing, top_level

HEADED = ("if", "while", "for", "match", "loop")


def blocks(words, start, stop):
    """The places of the braces that open blocks of statements: behind a condition, `else` or an arrow; no literal and no arms of a match."""
    waiting = []
    for at in range(start, stop):
        text = words[at].text
        if text in HEADED:
            waiting.append(text)
        elif text == "{" and waiting:
            if waiting.pop() != "match":
                yield at
        elif text == "{" and (at == start or words[at - 1].text in ("else", "=>")):
            yield at


def headed_end(words, at):
    """Where an `if`, a loop or a `match` ends, with its `else`."""
    while words[at].text != "{":
        at = closing(words, at) + 1 if words[at].text in "([" else at + 1
    end = closing(words, at) + 1
    return headed_end(words, end) if words[end].text == "else" else end


def statement_end(words, at, stop):
    """Where the statement at this place ends, and whether it is one, not the value of its block."""
    if words[at].text in HEADED:
        end = headed_end(words, at)
        return end, end < stop or words[at].text in ("for", "while") or words[at].text == "if" and "else" not in texts(words, at, end)
    for end in top_level(words, at, stop):
        if words[end].text == ";":
            return end + 1, True
    return stop, False


def texts(words, start, stop):
    """The words from start to stop that are in no further bracket."""
    return [words[at].text for at in top_level(words, start, stop)]


def statements(words, brace):
    """The statements of the block that a brace opens, as pairs of places."""
    at, stop = brace + 1, closing(words, brace)
    while at < stop:
        end, is_one = statement_end(words, at, stop)
        if is_one:
            yield at, end
        at = end


def binds_anew(words, item, at):
    """Whether the `let` at this place binds a name that is bound before it."""
    name = words[at + 2 if words[at + 1].text == "mut" else at + 1].text
    before = range(item.first, at)
    return any(words[b].text == name and (words[b + 1].text == ":" or words[b - 1].text in ("let", "mut", "for")) for b in before)


def alone(words, brace, found):
    """Whether the statement found is all that an `if` without `else` or a loop has: it goes with it."""
    end = closing(words, brace)
    return found == [(brace + 1, end)] and words[brace - 1].text not in ("else", "=>") and words[end + 1].text != "else"


def statements_left_out(words, item):
    """Each statement left out."""
    for brace in blocks(words, item.start, item.stop):
        found = list(statements(words, brace))
        if brace != item.start and alone(words, brace, found):
            continue
        for start, stop in found:
            if words[start].text != "let" or binds_anew(words, item, start):
                yield Edit(words[start].start, words[stop - 1].end, "", item.name)
