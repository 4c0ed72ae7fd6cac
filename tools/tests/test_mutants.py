"""tools/mutants: the wrong programs that it makes, their keys, the edits that it keeps, and the mutants that may survive."""

import re
import unittest

from cases import ROOT, TOOLS, Case

import command
from mutation import code, definitions, edits, mutants, reports, signatures
from mutation.verdicts import FALSE, SURVIVED

EQUIVALENT = TOOLS / "edits" / "equivalent.txt"

CONTRACT = "    requires { n < 7 }\n    ensures sum { result ≡ record { a = 1 + n } }\n"


def function(body, signature="fn f(n: usize, m: usize) -> usize"):
    """A function with a contract, and with this body."""
    lines = "".join(f"    {line}\n" for line in body.split("\n"))
    return f"use corner::next_corner;\nuse corner::prev_corner;\n\n// Adds 1 to n.\npub {signature}\n{CONTRACT}{{\n{lines}}}\n"


def bodies(body, **more):
    """The bodies that one edit makes of this one, each on one line."""
    text = function(body, **more)
    found = []
    for edit in code.edits(text):
        after = mutants.applied(text, edit)
        start = after.index("{\n", after.index(" }\n{")) + 2
        found.append(" ".join(after[start : after.rindex("}")].split()))
    return found


def sides(text):
    """The last lines of the texts that one edit makes of definitions."""
    return [mutants.applied(text, edit).splitlines()[-1].strip() for edit in definitions.edits(text)]


def defined(side, before="use Rattle.std.specs.Prelude.{ℕ, ◌+◌, ◌*◌}"):
    """A file with one definition."""
    return f"{before}\n\n-- 3 + 4\nunfoldable pub f : ℕ → ℕ\nf n = {side}\n"


# ---- Code.


class Code(unittest.TestCase):
    def test_operators(self):
        pairs = (("+", "-"), ("-", "+"), ("*", "+"), ("/", "*"), ("%", "/"), ("&&", "||"), ("||", "&&"), ("&", "|"), ("|", "&"), ("<<", ">>"))
        for one, other in pairs + (("<", "<="), ("<=", "<"), (">", ">="), (">=", ">"), ("==", "!="), ("!=", "==")):
            self.assertEqual(bodies(f"n {one} m"), [f"n {other} m"], one)

    def test_unary_marks_stay(self):
        for body in ("f(-n)", "&n", "*n", "return -n;", "&faces[n]"):
            self.assertFalse(any("+" in after or "|" in after for after in bodies(body)), body)

    def test_signs(self):
        self.assertEqual(bodies("-n"), ["n"])
        self.assertEqual(bodies("n - -m"), ["n + -m", "n - m"])

    def test_assigning_operators(self):
        self.assertEqual(bodies("n += m;\nm"), ["m", "n -= m; m"])

    def test_casts_are_operands(self):
        self.assertEqual(bodies("n as i64 * m as i64"), ["n as i64 + m as i64"])

    def test_numbers(self):
        self.assertEqual(bodies("4"), ["3", "5"])
        self.assertEqual(bodies("1_000u16"), ["1001u16", "999u16"])
        self.assertEqual(bodies("256.0"), ["255.0", "257.0"])
        self.assertEqual(bodies("0x10"), ["15", "17"])

    def test_nothing_below_zero_but_signed_numbers(self):
        self.assertEqual(bodies("0"), ["1"])
        self.assertEqual(bodies("0i64"), ["-1i64", "1i64"])

    def test_places_of_tuples_stay(self):
        self.assertEqual(bodies("n.0"), [])

    def test_truths(self):
        self.assertEqual(bodies("true"), ["false"])
        self.assertEqual(bodies("!n"), ["n"])

    def test_ranges(self):
        after = bodies("for i in 0..n {\n    g(i);\n}\nm")
        self.assertEqual(after, ["m", "for i in 1..n { g(i); } m", "for i in 0..=n { g(i); } m"])

    def test_arguments(self):
        self.assertEqual(bodies("g(n, m, n)"), ["g(m, n, n)", "g(n, n, m)"])
        self.assertEqual(bodies("g(n, n)"), [])
        self.assertEqual(bodies("g(\n    n,\n    h(m, n),\n)"), ["g( h(m, n), n, )", "g( n, h(n, m), )"])

    def test_early_returns(self):
        self.assertEqual(bodies("if g(n) {\n    return n;\n}\nm"), ["m"])
        after = bodies("if g(n) {\n    h(m);\n    return n;\n}\nm")
        self.assertEqual(after, ["m", "if g(n) { return n; } m", "if g(n) { h(m); } m"])

    def test_statements(self):
        self.assertEqual(bodies("g(n);\nlist[n] = m;\nm"), ["list[n] = m; m", "g(n); m"])

    def test_branches_of_a_value_stay(self):
        self.assertEqual(bodies("if g(n) { n } else { m }"), [])
        self.assertEqual(bodies("let a = if g(n) { n } else { m };\na"), [])

    def test_last_statements_without_a_value(self):
        after = bodies("for i in n {\n    g(i);\n}", signature="fn f(n: usize)")
        self.assertEqual(after, [""])

    def test_let_only_where_its_name_is_bound(self):
        self.assertEqual(bodies("let a = n;\na"), [])
        self.assertEqual(bodies("let n = m;\nn"), ["n"])

    def test_arms_and_literals_are_no_statements(self):
        self.assertEqual(bodies("match n {\n    A => m,\n    B => n,\n}"), [])
        self.assertEqual(bodies("P { a: n, b: m }"), [])

    def test_corners(self):
        after = bodies("next_corner(n)")
        self.assertEqual(after, ["corner::across_corner(n)", "prev_corner(n)"])
        self.assertEqual(bodies("a.next"), ["a.across", "a.prev"])
        self.assertEqual(bodies("P { next: n }"), [])
        self.assertEqual(bodies("next", signature="fn f(next: i32, prev: i32)"), ["prev"])

    def test_constants(self):
        text = "pub const A: usize = 4;\n\nimpl Mesh {\n    pub const B: u8 = 2 * A;\n}\n"
        made = [(edit.name, mutants.changed_lines(text, edit)[1]) for edit in code.edits(text)]
        self.assertEqual(made[:2], [("A", "pub const A: usize = 3;"), ("A", "pub const A: usize = 5;")])
        self.assertEqual({name for name, _ in made[2:]}, {"Mesh::B"})
        self.assertIn("pub const B: u8 = 2 + A;", [line for _, line in made])

    def test_few_entries_of_a_long_table(self):
        text = f"const T: [u8; 30] = [{', '.join(str(i) for i in range(100, 130))}];\n"
        chosen = [[edit for edit in code.edits(text, seed) if edit.chosen] for seed in (1, 1, 2)]
        self.assertEqual([len(edits) for edits in chosen], 3 * [2 * code.CHOSEN])
        self.assertEqual(chosen[0], chosen[1])
        self.assertNotEqual(chosen[0], chosen[2])

    def test_tables_of_names(self):
        text = "const T: [Part; 3] = [\n    Part::A,\n    Part::B,\n    Part::A,\n];\n"
        made = [" ".join(mutants.applied(text, edit).split()) for edit in code.edits(text)]
        self.assertEqual(made, [f"const T: [Part; 3] = [ {entries}, ];" for entries in ("Part::B, Part::A, Part::A", "Part::A, Part::A, Part::B")])

    def test_names_of_the_items(self):
        text = "fn g() -> u8 {\n    1\n}\n\nimpl A {\n    fn h(n: u8) -> u8 {\n        2\n    }\n}\n"
        self.assertEqual([edit.name for edit in code.edits(text)], ["g", "g", "A::h", "A::h"])

    def test_declarations_stay(self):
        self.assertEqual(code.edits("pub struct A {\n    pub a: [u8; 4],\n}\n\npub enum B {\n    C(u8),\n}\n\nuse a::b;\n"), [])


# ---- Definitions.


class Definitions(unittest.TestCase):
    def test_operators(self):
        pairs = (("+", "-"), ("-", "+"), ("*", "+"), ("/", "*"), ("%", "/"), ("^", "*"), ("<", "≤"), ("≤", "<"), ("&&", "||"), ("||", "&&"))
        for one, other in pairs + (("+ℤ", "-ℤ"), ("-ℤ", "+ℤ"), ("*ℤ", "+ℤ")):
            self.assertEqual(sides(defined(f"n {one} m")), [f"f n = n {other} m"], one)
        self.assertIn("f n = g ◌-◌ n", sides(defined("g ◌+◌ n")))
        self.assertEqual(sides(defined("n ≡ m")), [])

    def test_names_that_are_brought_in(self):
        text = defined("n + m")
        after = mutants.applied(text, definitions.edits(text)[0])
        self.assertEqual(after.splitlines()[:2], ["use Rattle.std.specs.Prelude.{◌-◌}", "use Rattle.std.specs.Prelude.{ℕ, ◌+◌, ◌*◌}"])
        text = defined("n * m")
        self.assertEqual(mutants.applied(text, definitions.edits(text)[0]), text.replace("n * m", "n + m"))

    def test_numbers(self):
        self.assertEqual(sides(defined("4")), ["f n = 3", "f n = 5"])
        self.assertEqual(sides(defined("0")), ["f n = 1"])
        self.assertEqual(sides(defined("g (suc n)")), ["f n = g ( n)"])

    def test_some_of_many_numbers(self):
        made = definitions.edits(defined(" ∷ ".join(str(i) for i in range(100, 200))))
        self.assertEqual((len(made), sum(edit.chosen for edit in made)), (200, 2 * definitions.CHOSEN))

    def test_some_of_many_arguments(self):
        text = defined(" ∷ ".join(f"g {i} {i + 1}" for i in range(100, 150)))
        made = [edit for edit in definitions.edits(text) if " " in edit.text]
        self.assertEqual((len(made), sum(edit.chosen for edit in made)), (50, definitions.CHOSEN))

    def test_tests_and_truths(self):
        self.assertEqual(sides(defined("not true")), ["f n =  true", "f n = not false"])
        self.assertIn("f n = leb n 4", sides(defined("ltb n 4")))
        self.assertIn("f n = all_below p n", sides(defined("any_below p n")))

    def test_arguments(self):
        self.assertEqual(sides(defined("cond b x y")), ["f n = cond x b y", "f n = cond b y x"])
        self.assertEqual(sides(defined("g (h a b) c")), ["f n = g c (h a b)", "f n = g (h b a) c"])
        after = ("(g b a).den * h c d", "(g a b).den + h c d", "(g a b).den * h d c")
        self.assertEqual(sides(defined("(g a b).den * h c d")), [f"f n = {s}" for s in after])
        self.assertEqual(sides(defined("g (h a).den b")), ["f n = g b (h a).den"])
        self.assertEqual(sides(defined("g a.num ◌+◌")), [f"f n = {s}" for s in ("g ◌+◌ a.num", "g a.num ◌-◌")])
        self.assertEqual(sides(defined("eqb a b")), [])

    def test_bound_names_are_no_arguments(self):
        self.assertEqual(sides(defined("g (λ a b. h b a)")), ["f n = g (λ a b. h a b)"])
        self.assertEqual(sides(defined("let a = b in c")), [])

    def test_corners(self):
        self.assertEqual(sides(defined("next n")), ["f n = across n", "f n = prev n"])
        self.assertEqual(sides(defined("a.next")), ["f n = a.across", "f n = a.prev"])
        self.assertEqual(sides(defined("(g n).next")), ["f n = (g n).across", "f n = (g n).prev"])
        self.assertEqual(sides(defined("record { next = n }")), [])

    def test_patterns_and_signatures_stay(self):
        text = "use A.{b}\n\nabbrev pub f : {A : Type 0} → g 1 2 3\nunfolding h\nf (suc zero) = a\nf (x + 1) = a\n"
        self.assertEqual(definitions.edits(text), [])

    def test_several_clauses(self):
        text = "abbrev pub f : ℕ → ℕ\nf zero = 1\nf (suc n) =\n    2\n"
        self.assertEqual([mutants.changed_lines(text, edit)[1] for edit in definitions.edits(text)], ["f zero = 0", "f zero = 2", "1", "3"])

    def test_records(self):
        text = "pub record R (n : ℕ) : Type 0 where\n  -- 5 of them\n  pub few : n ≤ 4\n  pub all : (c : ℕ) (d : ℕ)\n      → c < n\n"
        made = [(edit.name, mutants.changed_lines(text, edit)[1]) for edit in definitions.edits(text)]
        self.assertEqual(made[0], ("R.few", "pub few : n < 4"))
        self.assertEqual([line for name, line in made if name == "R.all"], ["→ c ≤ n"])

    def test_names_that_begin_like_a_keyword(self):
        self.assertEqual(sides("abbrev pub used : ℕ\nused = 4\n"), ["used = 3", "used = 5"])

    def test_data_types_stay(self):
        self.assertEqual(definitions.edits("pub data D (A : Type 0) : Type 0 where\n  one : f 1 2 → D A\n"), [])


class Signatures(unittest.TestCase):
    def test_code(self):
        text = "fn f(a: &mut [u16; 4], mut n: usize) -> u8 {\n    1\n}\n\npub fn g() {}\n"
        self.assertEqual(dict(signatures.of_code(text)), {"f": ("& mut [ u16 ; 4 ]", "usize"), "g": ()})

    def test_definitions(self):
        text = "abbrev pub f : {A : Type 0} → List A → (ℕ → A)\n    → (k l : ℕ) → A\nf a b c d = e\nunfoldable pub g : ℕ\n"
        self.assertEqual(dict(signatures.of_definitions(text)), {"f": ("List A", "( ℕ → A )", "ℕ", "ℕ"), "g": ()})

    def test_several_of_one_name(self):
        self.assertEqual(signatures.collected([("f", ("a",)), ("g", ("a",)), ("f", ("b",)), ("f", ("a",))]), {"f": None, "g": ("a",)})

    def test_arguments_of_two_types_stay(self):
        types = {"g": ("List ℕ", "ℕ", "ℕ"), "h": ("ℕ", "A")}
        for name, number, can in (("g", 0, False), ("g", 1, True), ("g", 2, True), ("h", 0, True), ("unknown", 0, True)):
            self.assertEqual(signatures.can_change_places(types, name, number), can)
        text = defined("g a b c")
        self.assertEqual([edit.text for edit in definitions.edits(text, types=types)], ["c b"])
        text = function("g(a, b, c)")
        self.assertEqual([edit.text for edit in code.edits(text, types={"g": ("u8", "u8", "usize")})], ["b, a"])


# ---- The repository's own files.


class Repository(unittest.TestCase):
    def test_contracts_stay(self):
        """No line of a contract, an import, a comment or a declaration of a file changes, in any mutant."""
        kept = re.compile(r"^\s*(//|use |ghost use |pub use |mod |pub mod |requires |ensures |pub struct|pub enum)")
        for crate in ("corner", "limits", "mask", "entries", "integer"):
            made = mutants.of_crate(ROOT, crate, 0, False)
            self.assertGreater(len(made), 20)
            for mutant in made:
                before = (ROOT / mutant.path).read_text(encoding="utf-8").splitlines()
                after = mutant.text.splitlines()
                self.assertEqual([line for line in before if kept.match(line)], [line for line in after if kept.match(line)], mutant.key)

    def test_definitions_only_gain_a_line(self):
        """No signature, comment or `use` line goes."""
        kept = re.compile(r"^(--|use |abbrev |unfoldable |pub )")
        for mutant in mutants.of_crate(ROOT, "mask", 0, True):
            if mutant.kind == mutants.DEFINITIONS:
                before = [line for line in (ROOT / mutant.path).read_text(encoding="utf-8").splitlines() if kept.match(line)]
                after = [line for line in mutant.text.splitlines() if kept.match(line)]
                self.assertIn(len(after) - len(before), (0, 1))
                self.assertLessEqual(set(before), set(after))

    def test_every_file_can_be_read(self):
        """Every crate's mutants are made, each key is of one, and the equivalent ones are among them."""
        made = [mutant for crate in mutants.crates(ROOT) for mutant in mutants.of_crate(ROOT, crate, 0, True)]
        keys = {mutant.key for mutant in made}
        self.assertEqual(len(keys), len(made))
        self.assertEqual(set(edits.equivalents(EQUIVALENT)) - keys, set())

    def test_edits_fit(self):
        for crate in mutants.crates(ROOT):
            edits.of_crate(ROOT, crate)


# ---- Keys, edits and names.


class Keys(unittest.TestCase):
    def keys(self, text):
        return [mutant.key for mutant in mutants.of_file("a", "crates/a/src/lib.rt", text, 0, mutants.CODE)]

    def test_parts(self):
        self.assertEqual(self.keys("fn f() -> u8 {\n    4\n}\n"), [f"a src/lib.rt f #1: 4 => {new}" for new in (3, 5)])

    def test_equal_changes_are_counted(self):
        found = self.keys("fn f() -> u8 {\n    g(0);\n    g(0);\n    h(0)\n}\n")
        self.assertEqual([key for key in found if "g(1)" in key], [f"a src/lib.rt f #{n}: g(0); => g(1);" for n in (1, 2)])
        self.assertIn("a src/lib.rt f #2: g(0); => (left out)", self.keys("fn f() -> u8 {\n    g(0);\n    h(1);\n    g(0);\n    1\n}\n"))

    def test_entries_keep_their_numbers_whatever_is_chosen(self):
        """An entry of a long table has one key, by every seed that chooses it."""
        text = "const T: [u8; 20] = [\n" + 20 * "    7,\n" + "];\n"
        keys = {}
        for seed in range(40):
            for mutant in mutants.of_file("a", "crates/a/src/lib.rt", text, seed, mutants.CODE):
                self.assertEqual(keys.setdefault(mutant.key, mutant.text), mutant.text)
        self.assertEqual(len(keys), 40)

    def test_same_text_is_made_once(self):
        """Leaving out one of two equal statements side by side makes one program."""
        text = "fn f() -> u8 {\n    g();\n    g();\n    n\n}\n"
        texts = [mutant.text for mutant in mutants.of_file("a", "crates/a/src/lib.rt", text, 0, mutants.CODE)]
        self.assertEqual(len(texts), len(set(texts)))

    def test_other_functions_do_not_change_them(self):
        text = function("n + 4")
        self.assertLess(set(self.keys(text)), set(self.keys(f"fn g() -> u8 {{\n    4\n}}\n\n{text}")))

    def test_statements_are_one_line_and_long_ones_are_cut(self):
        long = "\n".join(f"    g{i}(n);" for i in range(99))
        found = self.keys(f"fn f() -> u8 {{\n    if n {{\n{long}\n    }}\n    n\n}}\n")
        whole = [key for key in found if key.startswith("a src/lib.rt f #1: if n { g0(n);")]
        self.assertEqual(len(whole), 1)
        self.assertLess(len(whole[0]), 300)
        self.assertRegex(whole[0], r" \[[0-9a-f]{8}\] => \(left out\)$")

    def test_samples(self):
        made = list(range(100))
        self.assertEqual(mutants.sample(made, None, 0), made)
        self.assertEqual(mutants.sample(made, 200, 0), made)
        chosen = mutants.sample(made, 9, 5)
        self.assertEqual((len(chosen), chosen), (9, sorted(chosen)))
        self.assertEqual(chosen, mutants.sample(made, 9, 5))

    def test_crates_above(self):
        listed = {"a": [], "b": ["a"], "c": [], "d": ["b", "c", "io"], "e": ["c"]}
        self.assertEqual(mutants.above(listed, "a"), ["b", "d"])
        self.assertEqual(mutants.above(listed, "c"), ["d", "e"])


class Edits(Case):
    def edit(self, *lines):
        """An edit of a crate a with these lines."""
        for folder in ("crates/a/src", "tools/edits/a"):
            (self.folder / folder).mkdir(parents=True, exist_ok=True)
        self.file("crates/a/src/lib.rt", "one\n  two\ntwo\n")
        self.file("tools/edits/a/wrong.edit", "".join(f"{line}\n" for line in lines))
        return edits.of_crate(self.folder, "a")

    def test_edit(self):
        found = self.edit("# Why.", "file: src/lib.rt", "old:   two", "new:   three")
        self.assertEqual([(one.key, one.path, one.text, one.kind) for one in found], [("a edit wrong", "crates/a/src/lib.rt", "one\n  three\ntwo\n", "edits")])

    def test_line_left_out(self):
        self.assertEqual(self.edit("file: src/lib.rt", "old: one", "new:")[0].text, "\n  two\ntwo\n")

    def test_bad_edits(self):
        for lines, words in (
            (("file: src/lib.rt", "old: two", "new: three"), "occurs 2 times"),
            (("file: src/lib.rt", "old: four", "new: three"), "occurs 0 times"),
            (("old: one", "new: three"), "without a file:"),
            (("file: src/../../b", "old: one", "new: three"), "without a file:"),
            (("file: src/lib.rt", "new: three"), "and an old: before it"),
            (("# nothing",), "one old: and new: or more"),
        ):
            with self.assertRaisesRegex(command.Unusable, words):
                self.edit(*lines)

    def test_no_edits(self):
        self.assertEqual(edits.of_crate(self.folder, "b"), [])


class Equivalents(Case):
    def test_lines(self):
        path = self.file("e.txt", "# comment\n\na src/lib.rt f #1: x => y ## It is filled before it is read.\n")
        self.assertEqual(edits.equivalents(path), {"a src/lib.rt f #1: x => y": "It is filled before it is read."})

    def test_wrong_lines(self):
        for text, words in (("key without reason\n", "e.txt:1: a line is a key"), ("k ## \n", "e.txt:1: a line"), ("k ## r\nk ## s\n", "e.txt:2: this key")):
            with self.assertRaisesRegex(command.Unusable, words):
                edits.equivalents(self.file("e.txt", text))

    def test_columns(self):
        self.assertEqual(reports.column("k", SURVIVED, {"k": "r"}), reports.EQUIVALENT)
        self.assertEqual(reports.column("k", SURVIVED, {}), SURVIVED)
        self.assertEqual(reports.column("k", FALSE, {"k": "r"}), FALSE)


if __name__ == "__main__":
    unittest.main()
