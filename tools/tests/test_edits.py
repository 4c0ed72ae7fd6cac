"""The must-fail edits: each call has two wrong programs in the gate, and each edit fits its file.

A wrong program, an edit of src/, has a line `# wrong: CRATE::FUNCTION, ..` directly before `file:`. It names the public functions of its crate whose
result the edit makes wrong. An edit of a definition has none.
"""

import unittest
from typing import NamedTuple

from cases import ROOT

from mutation.edits import replacements
from mutation.items import items
from mutation.mutants import crates
from mutation.tokens import CODE, tokens

MARK = "# wrong: "

LEAST = 2


class Code(NamedTuple):
    """What a crate's code says: its public functions, the bodies in each file by name and place, and what each body names of the crate."""

    public: set
    bodies: dict
    named: dict


class Edit(NamedTuple):
    """An edit: its crate, its name, its lines."""

    crate: str
    name: str
    lines: list


def is_public(words, at):
    """Whether the function at this place is public, for Rust or for C."""
    before = [word.text for word in words[max(at - 3, 0) : at]]
    return before[-1:] == ["pub"] or before == ["pub", "extern", '"C"']


def called(words, at):
    """Whether the name at this place is called, with its types or without them."""
    return words[at + 1].text == "(" or [word.text for word in words[at + 1 : at + 3]] == ["::", "<"]


def within(words, item, names, others):
    """The functions that a body calls and the constants that it names, but for those of other crates; of a method each of its name."""
    found = set()
    for at in range(item.start, item.stop):
        word, before = words[at].text, [word.text for word in words[max(at - 2, 0) : at]]
        owner = before[0] if before[1:] == ["::"] else None
        if f"{owner}::{word}" in names:
            found.add(f"{owner}::{word}")
        elif (before[-1:] == ["."] or owner and owner not in others) and called(words, at) or owner == "Self":
            found |= {name for name in names if name.endswith(f"::{word}")}
        elif before[-1:] != ["."] and owner not in others and (names.get(word) == "const" or names.get(word) == "fn" and called(words, at)):
            found.add(word)
    return found


def span(text, words, item):
    """From where to where a function's body goes, and a constant from the beginning of its line on."""
    if item.kind == "fn":
        return words[item.start].start, words[item.stop - 1].end
    return text.rfind("\n", 0, words[item.first].start) + 1, words[item.stop].end


def code_of(texts, others):
    """The code of a crate, from the texts of its files by path; others are the crates that it may name."""
    read = [(path, words, item) for path, text in texts.items() for words in [tokens(CODE, text)] for item in items(words)]
    names = {item.name: item.kind for _, _, item in read}
    found = Code(set(), {path: [] for path in texts}, {name: set() for name in names})
    for path, words, item in read:
        found.bodies[path].append((item.name, *span(texts[path], words, item)))
        found.named[item.name] |= within(words, item, names, others)
        if item.kind == "fn" and is_public(words, item.first):
            found.public.add(item.name)
    return found


def reached(code, name):
    """What a function comes to by the calls and constants of its crate, itself among them."""
    found, waiting = set(), [name]
    while waiting:
        one = waiting.pop()
        if one not in found:
            found.add(one)
            waiting.extend(code.named.get(one, ()))
    return found


def wrongs(edit):
    """The names in the line of an edit that says what it makes wrong; None where there is no such line."""
    place = next(at for at, line in enumerate(edit.lines) if line.startswith("file: "))
    marked = [at for at, line in enumerate(edit.lines) if line.startswith(MARK.strip())]
    if not marked:
        return None
    return edit.lines[place - 1][len(MARK) :].split(", ") if marked == [place - 1] else []


def unfit(edit, texts):
    """What is said against the old texts of an edit: each occurs once, in the file as the changes before left it."""
    found, name = [], f"{edit.crate}/{edit.name}"
    for path, old, new in replacements(name, edit.lines):
        count = texts.get(path, "").count(old)
        if count != 1:
            found.append(f"{name}: the old text occurs {count} times: {old.strip()}")
        texts = {**texts, path: texts.get(path, "").replace(old, new)}
    return found


def changed(code, text, edit):
    """The functions and constants in whose bodies the old texts of an edit stand; None for one that stands in no body."""
    found = []
    for path, old, _ in replacements(edit.name, edit.lines):
        at = text.find(old)
        # an old text may begin with the blanks before the body's first word
        first, last = at + len(old) - len(old.lstrip()), at + len(old.rstrip())
        found.append(next((name for name, start, stop in code.bodies.get(path, ()) if start <= first and last <= stop), None))
    return found


def misnamed(edit, code, texts):
    """What is said against the names in an edit's line."""
    where, named = f"{edit.crate}/{edit.name}", wrongs(edit)
    path = replacements(where, edit.lines)[0][0]
    if not path.startswith("src/"):
        return [] if named is None else [f"{where}: a definition is no wrong program"]
    if not named:
        return [f"{where}: no line `{MARK.strip()}` directly before `file:`"]
    found = [f"{where}: {name} is no public function of {edit.crate}" for name in named if name not in {f"{edit.crate}::{one}" for one in code.public}]
    places = changed(code, texts[path], edit)
    ways = {name: reached(code, name.partition("::")[2]) for name in named}
    found += [f"{where}: {name} does not come to what is changed" for name, way in ways.items() if not way & set(places)]
    return found + [f"{where}: none of the calls comes to {place}" for place in places if not any(place in way for way in ways.values())]


def lacking(edits, codes):
    """The public functions that fewer edits than two name, each with the number."""
    named = [name for edit in edits for name in set(wrongs(edit) or ())]
    calls = [f"{crate}::{name}" for crate, code in codes.items() for name in sorted(code.public)]
    return [f"{call}: {named.count(call)}" for call in calls if named.count(call) < LEAST]


def faults(edits, codes, texts):
    """All that is said against the edits of the gate."""
    found = [fault for edit in edits for fault in unfit(edit, texts[edit.crate]) or misnamed(edit, codes[edit.crate], texts[edit.crate])]
    return found + lacking(edits, codes)


def files(crate):
    """The texts of the code, the definitions and the proofs of a crate, by path."""
    folder = ROOT / "crates" / crate
    paths = (path for name in ("src", "specs", "proofs") for path in (folder / name).rglob("*") if path.suffix in (".rt", ".antt"))
    return {path.relative_to(folder).as_posix(): path.read_text(encoding="utf-8") for path in paths}


def read(paths, crate):
    """The edits at these paths, of a crate."""
    return [Edit(crate, path.stem, path.read_text(encoding="utf-8").splitlines()) for path in sorted(paths)]


class Edits(unittest.TestCase):
    @classmethod
    def setUpClass(cls):
        cls.maxDiff = None
        listed = crates(ROOT)
        cls.texts = {name: files(name) for name in listed}
        sources = {name: {path: text for path, text in cls.texts[name].items() if path.startswith("src/")} for name in listed}
        cls.codes = {name: code_of(sources[name], set(listed) - {name}) for name in listed}
        cls.libraries = {name: cls.codes[name] for name in listed if "src/lib.rt" in sources[name]}
        cls.gate = [edit for name in listed for edit in read((ROOT / "crates" / name / "must-fail").glob("*.edit"), name)]
        cls.kept = [edit for name in listed for edit in read((ROOT / "tools" / "edits" / name).glob("*.edit"), name)]

    def test_all_are_read(self):
        gate, kept = (len(list(ROOT.glob(form))) for form in ("crates/*/must-fail/*.edit", "tools/edits/*/*.edit"))
        self.assertEqual((len(self.gate), len(self.kept)), (gate, kept))
        self.assertGreater(min(gate, kept), 0)

    def test_two_for_each_call(self):
        self.assertEqual(lacking(self.gate, self.libraries), [])

    def test_names(self):
        self.assertEqual([fault for edit in self.gate for fault in misnamed(edit, self.codes[edit.crate], self.texts[edit.crate])], [])

    def test_old_texts(self):
        self.assertEqual([fault for edit in self.gate + self.kept for fault in unfit(edit, self.texts[edit.crate])], [])

    def test_each_once(self):
        """No change is made twice, and no name stands in the gate and outside of it."""
        changes = [(edit.crate, *replacements(edit.name, edit.lines)) for edit in self.gate + self.kept]
        self.assertEqual([change for change in changes if changes.count(change) > 1], [])
        names = [(edit.crate, edit.name) for edit in self.gate + self.kept]
        self.assertEqual([name for name in names if names.count(name) > 1], [])


# ---- What the tests are there to find, on a crate of two files.

LIB = """
const LIMIT: usize = 4;

impl<'a> Size<'a> {
    pub const MOST: usize = 9;

    fn twice(&self) -> usize {
        2 * self.n
    }
}

pub fn first(n: usize) -> bool
    ensures { result ≡ ltb n 4 }
{
    below(n, LIMIT)
}

pub fn second(n: usize) -> usize {
    let q = other::third(n).twice();
    Found { below: n.below, most: Size::MOST + q }
}

pub(crate) fn below(n: usize, m: usize) -> bool {
    n < m
}
"""

MORE = """
#[no_mangle]
pub extern "C" fn third(n: usize) -> usize {
    fourth(n) + 1
}

fn fourth(n: usize) -> usize {
    n * 2
}
"""

TEXTS = {"src/lib.rt": LIB, "src/more.rt": MORE, "specs/Size.antt": "most = 9\n"}


def edit(name, path, old, new, wrong=None):
    """An edit of the crate of two files."""
    return Edit("one", name, ["# A fact.", *([MARK + wrong] if wrong else []), f"file: {path}", f"old: {old}", f"new: {new}"])


GOOD = (
    edit("at-the-limit", "src/lib.rt", "    n < m", "    n <= m", "one::first"),
    edit("limit-5", "src/lib.rt", "usize = 4;", "usize = 5;", "one::first"),
    edit("most-8", "src/lib.rt", "MOST: usize = 9;", "MOST: usize = 8;", "one::second"),
    edit("without-q", "src/lib.rt", "Size::MOST + q", "Size::MOST + n", "one::second"),
    edit("two-more", "src/more.rt", "    fourth(n) + 1", "    fourth(n) + 2", "one::third"),
    edit("three-times", "src/more.rt", "    n * 2", "    n * 3", "one::third"),
    edit("definition-most", "specs/Size.antt", "most = 9", "most = 8"),
)


class Faults(unittest.TestCase):
    def setUp(self):
        self.code = code_of({path: TEXTS[path] for path in ("src/lib.rt", "src/more.rt")}, {"other"})

    def said(self, edits, texts=None):
        return faults(edits, {"one": self.code}, {"one": texts or TEXTS})

    def test_code(self):
        self.assertEqual(self.code.public, {"first", "second", "third"})
        self.assertEqual(reached(self.code, "first"), {"first", "below", "LIMIT"})
        self.assertEqual(reached(self.code, "second"), {"second", "Size::MOST", "Size::twice"})
        self.assertEqual(reached(self.code, "third"), {"third", "fourth"})

    def test_nothing(self):
        self.assertEqual(self.said(GOOD), [])

    def test_each_is_needed(self):
        for at, one in enumerate(GOOD[:-1]):
            (fault,) = self.said(GOOD[:at] + GOOD[at + 1 :])
            self.assertEqual(fault, f"{one.lines[1][len(MARK) :]}: 1")

    def test_named(self):
        for wrong, words in (
            ("one::below", "one::below is no public function of one"),
            ("two::first", "two::first is no public function of one"),
            ("one::third", "one::third does not come to what is changed"),
            ("one::first one::second", "one::first one::second is no public function of one"),
            (None, "no line `# wrong:` directly before `file:`"),
        ):
            said = self.said((*GOOD, edit("more", "src/lib.rt", "    n < m", "    n > m", wrong)))
            self.assertIn(f"one/more: {words}", said)

    def test_line_elsewhere(self):
        for lines in (
            [MARK + "one::first", "# A fact.", "file: src/lib.rt", "old:     n < m", "new:     n > m"],
            ["# A fact.", "file: src/lib.rt", MARK + "one::first", "old:     n < m", "new:     n > m"],
        ):
            self.assertEqual(self.said((*GOOD, Edit("one", "more", lines))), ["one/more: no line `# wrong:` directly before `file:`"])

    def test_place(self):
        for old in ("ltb n 4", "pub(crate) fn"):
            said = self.said((*GOOD, edit("more", "src/lib.rt", old, "", "one::first")))
            self.assertIn("one/more: none of the calls comes to None", said)

    def test_definition_named(self):
        said = self.said((*GOOD, edit("more", "specs/Size.antt", "most = 9", "most = 7", "one::second")))
        self.assertEqual(said, ["one/more: a definition is no wrong program"])

    def test_old_texts(self):
        for old, count in (("n <= m", 0), ("usize)", 3)):
            said = self.said((*GOOD, edit("more", "src/lib.rt", old, "n", "one::first")))
            self.assertEqual(said, [f"one/more: the old text occurs {count} times: {old}"])


if __name__ == "__main__":
    unittest.main()
