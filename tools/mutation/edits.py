"""The edits that tools/edits/ keeps, and the mutants that it names as equivalent.

tools/edits/CRATE/NAME.edit has the form of a must-fail edit: a comment, then `file:`, `old:` (text of one line that occurs once) and `new:`, perhaps
more than once. tools/edits/equivalent.txt has a line for each mutant that may survive: its key, ` ## `, and the reason.
"""

from command import Unusable, read
from mutation.mutants import EDITS, Mutant

SEPARATOR = " ## "


def replacements(name, lines):
    """The file, the old text and the new text of each replacement of an edit."""
    file = old = None
    found = []
    for line in lines:
        if line.startswith("file: "):
            file = line[6:]
        elif line.startswith("old: "):
            old = line[5:]
        elif line.startswith("new:"):
            if not file or not old or not file.startswith(("src/", "specs/", "proofs/")) or ".." in file.split("/"):
                raise Unusable(f"{name}: a new: without a file: of the crate and an old: before it")
            found.append((file, old, line[4:][line[4:5] == " " :]))
            old = None
    if not found or any(one[0] != found[0][0] for one in found):
        raise Unusable(f"{name}: an edit changes one file, by one old: and new: or more")
    return found


def edited(root, crate, path):
    """The mutant that an edit makes."""
    name = f"tools/edits/{crate}/{path.name}"
    found = replacements(name, read(path).decode().splitlines())
    file = f"crates/{crate}/{found[0][0]}"
    text = read(root / file).decode()
    for _, old, new in found:
        if text.count(old) != 1:
            raise Unusable(f"{name}: the old: text occurs {text.count(old)} times in {file}, not once: {old.strip()}")
        text = text.replace(old, new)
    return Mutant(f"{crate} edit {path.stem}", crate, file, text, EDITS)


def of_crate(root, crate):
    """The edits of a crate, as mutants."""
    return [edited(root, crate, path) for path in sorted((root / "tools" / "edits" / crate).glob("*.edit"))]


def equivalents(path):
    """The keys of the mutants that may survive, each with its reason."""
    found = {}
    for number, line in enumerate(read(path).decode().splitlines(), 1):
        if not line.strip() or line.startswith("#"):
            continue
        key, separator, reason = line.partition(SEPARATOR)
        if not separator or not reason.strip():
            raise Unusable(f"{path}:{number}: a line is a key,{SEPARATOR}and the reason")
        if key in found:
            raise Unusable(f"{path}:{number}: this key is named before")
        found[key] = reason.strip()
    return found
