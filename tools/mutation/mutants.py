"""Mutants: wrong programs that one edit makes, each with a key that edits elsewhere do not change.

A key is the crate, the file, the function or definition, the number of this change among the equal ones there (made or not), and the line before
and after it (a statement of several lines as one). A long one is cut in the middle, and has a sum of the whole.
"""

import hashlib
import random
import re
from dataclasses import dataclass
from functools import lru_cache
from pathlib import Path
from types import MappingProxyType

from mutation import code, definitions, signatures
from mutation.items import function_lines

CODE, DEFINITIONS, EDITS = KINDS = ("code", "definitions", "edits")

LONGEST = 240

# The module that a crate names which prints.
PRINTS = "std::io"


@dataclass(frozen=True)
class Mutant:
    """A change of a file: its key, the crate, the file's path in the repository, its whole text afterwards, and what it is of.

    One of the body of a function has the function's name, and its change: from where, to where, and what stands there then.
    """

    key: str
    crate: str
    path: str
    text: str
    kind: str
    function: str = ""
    change: tuple = ()


# ---- The crates.


def crates(root):
    """The crates with what each stands on, in the order of crates.txt; a name may have words behind it, such as `staticlib`."""
    lines = (line.partition("#")[0] for line in (root / "crates.txt").read_text(encoding="utf-8").splitlines())
    pairs = (line.partition(":") for line in lines if line.strip())
    return {name.split()[0]: below.split() for name, _, below in pairs}


def above(listed, crate):
    """The crates that stand on a crate, by whatever way, in the order in which they are listed."""
    found = {crate}
    for name, below in listed.items():
        if found & set(below):
            found.add(name)
    return [name for name in listed if name in found and name != crate]


def is_program(root, crate):
    """Whether a crate is a program."""
    return (root / "crates" / crate / "src" / "main.rt").exists()


@lru_cache(maxsize=None)
def is_printing(root, crate):
    """Whether the code of a crate writes: what it writes is no part of a contract."""
    return any(PRINTS in path.read_text(encoding="utf-8") for path in (root / "crates" / crate / "src").rglob("*.rt"))


def sum_of(root, crate):
    """A short sum of a crate's own files: of its code, its definitions and its proofs."""
    files = (path for folder in ("src", "specs", "proofs") for path in (root / "crates" / crate / folder).rglob("*") if path.is_file())
    lines = [f"{path.relative_to(root).as_posix()} {hashlib.sha256(path.read_bytes()).hexdigest()}\n" for path in sorted(files)]
    return hashlib.sha256("".join(lines).encode()).hexdigest()[:10]


# ---- The keys.


def one_line(text):
    """A text with its blanks and line ends as one blank each, cut in the middle where it is long."""
    line = " ".join(text.split())
    if len(line) <= LONGEST:
        return line
    return f"{line[:120]} .. {line[-60:]} [{hashlib.sha256(line.encode()).hexdigest()[:8]}]"


def changed_lines(text, edit):
    """The lines that an edit touches, before and after it."""
    start, end = text.rfind("\n", 0, edit.start) + 1, text.find("\n", edit.end)
    end = len(text) if end < 0 else end
    return one_line(text[start:end]), one_line(text[start : edit.start] + edit.text + text[edit.end : end])


def applied(text, edit):
    """A text after an edit, with the line that it needs before its `use` lines."""
    after = text[: edit.start] + edit.text + text[edit.end :]
    line = getattr(edit, "line", "")
    return re.sub(r"^(?=use )", f"{line}\n", after, count=1, flags=re.MULTILINE) if line else after


def of_file(crate, path, text, seed, kind, types=MappingProxyType({})):
    """The mutants of a file, each text once; types has those of the arguments of functions or definitions."""
    seen, numbers, made = {text}, {}, []
    functions = function_lines(text) if kind == CODE else {}
    for edit in (code if kind == CODE else definitions).edits(text, seed, types):
        after = applied(text, edit)
        if after in seen:
            continue
        seen.add(after)
        old, new = changed_lines(text, edit)
        place = (edit.name, old, new)
        numbers[place] = numbers.get(place, 0) + 1
        if not edit.chosen:
            continue
        inner = Path(path).relative_to(f"crates/{crate}")
        key = f"{crate} {inner} {edit.name} #{numbers[place]}: {old} => {new or '(left out)'}"
        own = (edit.name, tuple(edit[:3])) if edit.name in functions else ()
        made.append(Mutant(key, crate, str(path), after, kind, *own))
    return made


@lru_cache(maxsize=1)
def all_types(root):
    """The types of the arguments of the functions and of the definitions of a repository, read once."""
    return signatures.of_repository(root)


def of_crate(root, crate, seed, specs, cited=None):
    """The mutants of a crate: of its code, and with specs of its definitions; where it is said which files of definitions are cited, of these alone."""
    made = []
    types = dict(zip((CODE, DEFINITIONS), all_types(root)))
    for kind, folder, pattern in ((CODE, "src", "*.rt"), (DEFINITIONS, "specs", "*.antt"))[: 1 + specs]:
        for path in sorted((root / "crates" / crate / folder).rglob(pattern)):
            if kind == DEFINITIONS and cited is not None and f"{crate}/{path.stem}" not in cited:
                continue
            made.extend(of_file(crate, path.relative_to(root), path.read_text(encoding="utf-8"), seed, kind, types[kind]))
    return made


def sample(mutants, size, seed):
    """At most so many mutants, chosen by the seed, in their order."""
    if size is None or len(mutants) <= size:
        return mutants
    return [mutants[at] for at in sorted(random.Random(seed).sample(range(len(mutants)), size))]
