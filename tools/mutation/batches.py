"""Several mutants in one run: one of the body of each of several functions of a crate.

The proof of a function cites the contracts of those that it calls and never their bodies, so what is wrong with a body is said at its own function.
A run over several says of a mutant that it is refused only on evidence of its own:

1. A message of the compiler in the lines of its function: no program.
2. Messages of proofs, where each is of one of the changed functions: in a file of its proof, in its lines of the code, or by its name. They are
   judged as those of a run over one (verdicts), but that a text that no longer fits says nothing of a function that calls another one of the run.
3. Anything else says nothing: those mutants are tried again, as halves or alone.

Constants and definitions, which several functions read, and the edits of tools/edits/ are tried alone, as are mutants that are known to survive.
"""

import re
from pathlib import PurePosixPath
from typing import NamedTuple

from mutation.items import function_lines
from mutation.verdicts import FALSE, MISFIT, NONE, Verdict, messages, of_compiler, of_proofs

MOST = 12


# ---- Which mutants go together.


def together(mutants, most):
    """The mutants of functions of one crate, at most so many in a batch, and one of a function. Functions with about as many mutants go together."""
    functions = {}
    for mutant in mutants:
        functions.setdefault((mutant.path, mutant.function), []).append(mutant)
    waiting = sorted(functions.values(), key=len, reverse=True)
    for start in range(0, len(waiting), most):
        group = waiting[start : start + most]
        for number in range(len(group[0])):
            yield [own[number] for own in group if number < len(own)]


def batches(mutants, most=MOST, alone=frozenset()):
    """The mutants in batches: those of functions together, crate by crate, but for keys that are to be alone, and then each other one alone."""
    grouped = [mutant for mutant in mutants if mutant.function and mutant.key not in alone]
    for crate in dict.fromkeys(mutant.crate for mutant in grouped):
        yield from together([mutant for mutant in grouped if mutant.crate == crate], most)
    kept = {mutant.key for mutant in grouped}
    yield from ([mutant] for mutant in mutants if mutant.key not in kept)


def merged(text, mutants):
    """A text after the changes that mutants make in several of its functions."""
    for start, end, new in sorted((mutant.change for mutant in mutants), reverse=True):
        text = text[:start] + new + text[end:]
    return text


# ---- Which messages are of which function.


class Place(NamedTuple):
    """Where the messages of a function are: its name in the prover's lines, the folder of its proof (if it calls itself, another one), its file of the
    code, and its lines there; and whether it calls another one of the batch. Folder and file are of the crate, as the prover names them."""

    name: str
    proofs: tuple
    path: str
    lines: tuple
    is_calling: bool


def in_crate(path):
    """The path in its crate of a file of the repository."""
    return PurePosixPath(*PurePosixPath(path).parts[2:])


def modules(path):
    """The modules of a file of the code, from the root of its crate."""
    parts = in_crate(path).with_suffix("").parts[1:]
    return parts[:-1] if parts[-1] in ("lib", "main", "mod") else parts


def places(batch, texts):
    """The places of the functions of a batch by the mutants' keys, in the texts by path that have all its changes."""
    lines = {path: function_lines(text) for path, text in texts.items()}
    names = {mutant.function.rpartition("::")[2] for mutant in batch}
    found = {}
    for mutant in batch:
        parts = (*modules(mutant.path), *mutant.function.split("::"))
        first, last = lines[mutant.path][mutant.function]
        body = "\n".join(texts[mutant.path].split("\n")[first - 1 : last])
        called = names & set(re.findall(r"\w+", body)) - {parts[-1]}
        proofs = tuple("/".join(("proofs", *parts[:-1], name)) for name in (parts[-1], f"+{parts[-1]}"))
        found[mutant.key] = Place("::".join((mutant.crate, *parts)), proofs, str(in_crate(mutant.path)), (first, last), bool(called))
    return found


def owner(message, known):
    """The key of the mutant whose function a message is of; None where it is of none of them."""
    for key, place in known.items():
        here = message.file == place.path and place.lines[0] <= message.line <= place.lines[1]
        if here or message.file == place.name or str(PurePosixPath(message.file).parent) in place.proofs:
            return key
    return None


# ---- What a run says.


def decided(status, output, known):
    """The verdicts that a run over mutants at these places gives, by their keys, and whether it came to the proofs."""
    found = messages(output)
    compiler = of_compiler(found, output)
    if status != 1 or compiler:
        refused = [(owner(message, known), message.words) for message in reversed(compiler)] if status == 1 else []
        return {key: Verdict(NONE, words) for key, words in refused if key is not None}, False
    of_functions = [(owner(message, known), message) for message in found]
    if "logic=not-proved" not in output or any(key is None for key, _ in of_functions):
        return {}, True
    own = {key: of_proofs([message for other, message in of_functions if other == key]) for key, _ in of_functions}
    return {key: one for key, one in own.items() if one.kind == FALSE or one.kind == MISFIT and not known[key].is_calling}, True


def left(batch, found, is_proved, came_to_proofs):
    """What a run leaves to be tried, in parts: with a verdict of others each alone, or together where the others are no programs; else the halves."""
    rest = [mutant for mutant in batch if mutant.key not in found]
    if found and not came_to_proofs:
        return [rest] if rest else []
    if found or is_proved:
        return [[mutant] for mutant in rest]
    half = len(rest) // 2
    return [rest[:half], rest[half:]]
