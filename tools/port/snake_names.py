#!/usr/bin/env python3
"""Brings the names that specs/ and proofs/ declare to snake case: run once, at the top, right after port.py.

A name such as halfEven becomes half_even, nearestℕ becomes nearest_ℕ; types, facts and modules keep their capital. In src/ only ghost text has such
names, since the code's own are in snake case already. A lemma that would fall together with a definition gets _lem.
"""

import pathlib
import re

DECLARED = re.compile(r"^\s*(?:(?:abbrev|unfoldable|pub|record|data|ruleset|private)\s+)*([^\s:(){}]+)(?:\s+[({][^)}]*[)}])*\s*:\s")
LOCAL = {"innerFar", "innerNear", "atEnd", "weighedOf", "hypotenuseOf", "correctedBy", "signedBy", "negℤ"}  # written without a declaration of their own
LEMMAS = {"edge_in": "edge_in_lem"}  # beside the definition edgeIn
WORD = re.compile(r"(?<![\w'])[A-Za-zℕℤ_][\w']*")
CAMEL = re.compile(r"[a-z]\w*[A-Zℕℤ]|[a-z]+[ℕℤ]")


def snake(word):
    word = re.sub(r"(?<=[a-z0-9])([A-Z])", lambda m: "_" + m.group(1).lower(), word)
    return re.sub(r"(?<=[a-z0-9])([ℕℤ])", r"_\1", word)


def files():
    for crate in sorted(pathlib.Path("crates").iterdir()):
        for kind, pattern in (("src", "*.rt"), ("specs", "*.antt"), ("proofs", "*.antt")):
            yield from sorted((crate / kind).rglob(pattern))


def declared():
    names = set(LOCAL)
    for path in files():
        if path.suffix != ".antt":
            continue
        for line in path.read_text(encoding="utf-8").split("\n"):
            found = DECLARED.match(line)
            if found and not line.lstrip().startswith("--"):
                names.update(part for part in found.group(1).split("-") if re.match("[a-z]", part))
    return {name: snake(name) for name in names if name != snake(name) and CAMEL.match(name)}


def main():
    names = declared()
    for path in files():
        old = path.read_text(encoding="utf-8")
        new = WORD.sub(lambda m: LEMMAS.get(m.group(0)) if m.group(0) in LEMMAS else names.get(m.group(0), m.group(0)), old)
        if new != old:
            path.write_text(new, encoding="utf-8")
    for old, new in sorted(names.items()):
        print(old, new)


if __name__ == "__main__":
    main()
