"""tools/mutants: several mutants in one run, what its output says of each, and the files of definitions that are cited."""

import unittest

from cases import ROOT
from test_mutants_runs import Fake

from mutation import batches, cited, mutants, runs
from mutation.verdicts import FALSE, MISFIT, NONE, SURVIVED, UNKNOWN

CODE = "fn f(n: u8) -> u8 {\n    g(4)\n}\n\nfn g(n: u8) -> u8 {\n    if n < 5 {\n        return 6;\n    }\n    7\n}\n\nconst C: u8 = 8;\n"
WALK = "fn h() -> u8 {\n    5\n}\n"


def made():
    """The mutants of a crate with the functions f and g, and h in a module."""
    return [one for name, text in (("lib", CODE), ("walk", WALK)) for one in mutants.of_file("a", f"crates/a/src/{name}.rt", text, 0, mutants.CODE)]


def of(function, number=0):
    """A mutant of a function."""
    return [mutant for mutant in made() if mutant.function == function][number]


# ---- Which go together.


class Together(unittest.TestCase):
    def functions(self, **more):
        return [[mutant.function for mutant in batch] for batch in batches.batches(made(), **more)]

    def test_one_of_each_function(self):
        self.assertEqual(self.functions(), [list("gfh"), list("gfh"), *(["g"] for _ in range(6)), [""], [""]])

    def test_each_once(self):
        for most in (1, 2, 12):
            keys = [mutant.key for batch in batches.batches(made(), most) for mutant in batch]
            self.assertEqual((len(keys), set(keys)), (len(made()), {mutant.key for mutant in made()}))
            self.assertLessEqual(max(len(batch) for batch in batches.batches(made(), most)), most)

    def test_those_that_are_to_be_alone(self):
        found = list(batches.batches(made(), alone={of("g").key}))
        self.assertIn([of("g")], found)
        self.assertEqual(sum(of("g") in batch for batch in found), 1)

    def test_crates_apart(self):
        other = [mutants.Mutant("b k", "b", "p", "t", mutants.CODE, "f", (0, 1, ""))]
        self.assertEqual([len({mutant.crate for mutant in batch}) for batch in batches.batches(made() + other)], 11 * [1])

    def test_repository(self):
        """Each mutant of a function makes alone the text that it has, and the changes of a batch touch other stretches."""
        for crate in ("limits", "mesh"):
            texts = {}
            for batch in batches.batches(mutants.of_crate(ROOT, crate, 0, False)):
                for mutant in batch:
                    before = texts.setdefault(mutant.path, (ROOT / mutant.path).read_text(encoding="utf-8"))
                    if mutant.function:
                        self.assertEqual(batches.merged(before, [mutant]), mutant.text)
                own = [(mutant.path, *mutant.change[:2]) for mutant in batch if mutant.change]
                for one, other in zip(sorted(own), sorted(own)[1:]):
                    self.assertTrue(one[0] != other[0] or one[2] <= other[1], batch)

    def test_merged(self):
        both = batches.merged(CODE, [of("f"), of("g", -1)])
        self.assertEqual(both, CODE.replace("g(4)", "g(3)").replace("    7\n", "    8\n"))


# ---- What a run says.

PROOF = "./proofs"
TAIL = "fn a::f: not proved\nlogic=not-proved\n"


def omega(folder):
    return f"{PROOF}/{folder}/Answers.antt:23:21: error: `part-end`: `omega`: the goal does not follow from what it read\n"


def gone(folder):
    return f"{PROOF}/{folder}/Invariants.antt:13:14: error: `n`: record `Rattle.a.proofs.{folder}.Lts.Start` has no field `before`\n"


def compiler(line, file="lib"):
    return f"src/{file}.rt:{line}:17: error[mismatched-types]: expected `bool`, found `usize`\n"


def search(name, file, line):
    return (
        f"note: src/{file}.rt:{line}:1: it is not proved that what the function ensures holds when it returns (`returns`)\n"
        f"fn a::{name}: no proof: expected answers in {PROOF}/{name}/Answers.antt; `search` did not prove `returns`\n"
    )


class Decided(unittest.TestCase):
    def setUp(self):
        self.batch = [of("f"), of("g"), of("h")]
        texts = {"crates/a/src/lib.rt": batches.merged(CODE, self.batch[:2]), "crates/a/src/walk.rt": self.batch[2].text}
        self.known = batches.places(self.batch, texts)

    def kinds(self, output, status=1):
        """The kinds of the verdicts by function."""
        found, _ = batches.decided(status, output, self.known)
        return {mutant.function: found[mutant.key].kind for mutant in self.batch if mutant.key in found}

    def test_places(self):
        self.assertEqual([place.name for place in self.known.values()], ["a::f", "a::g", "a::walk::h"])
        proofs = [path for place in self.known.values() for path in place.proofs]
        self.assertEqual(proofs, [f"proofs/{name}" for name in ("f", "+f", "g", "+g", "walk/h", "walk/+h")])
        # the mutant of g leaves out three lines
        self.assertEqual([place.lines for place in self.known.values()], [(1, 3), (5, 8), (1, 3)])
        self.assertEqual([place.is_calling for place in self.known.values()], [True, False, False])

    def test_each_by_its_own(self):
        self.assertEqual(self.kinds(omega("f") + gone("g") + omega("walk/h") + TAIL), {"f": FALSE, "g": MISFIT, "h": FALSE})
        self.assertEqual(self.kinds(gone("g") + TAIL), {"g": MISFIT})
        self.assertEqual(self.kinds(omega("+g") + TAIL), {"g": FALSE})
        self.assertEqual(self.kinds(search("g", "lib", 5) + search("walk::h", "walk", 1) + TAIL), {"g": FALSE, "h": FALSE})

    def test_a_text_that_no_longer_fits_where_another_is_called(self):
        self.assertEqual(self.kinds(gone("f") + omega("g") + TAIL), {"g": FALSE})

    def test_what_follows_from_others(self):
        later = f"{PROOF}/f/Answers.antt:9:5: error: 1 declaration that depends on `close`, which was rejected, was not checked: returns\n"
        calls = "fn a::f: no proof: it calls `a::g`, which is not proved\n"
        for follows in (later, calls):
            self.assertEqual(self.kinds(omega("g") + follows + TAIL), {"g": FALSE})

    def test_messages_of_others_say_nothing(self):
        """A law, a function that was not changed, lines between: then nothing is said of any."""
        for folder in ("walk", "other", "walk/f", "+f+g"):
            self.assertEqual(self.kinds(omega("f") + omega(folder) + TAIL), {})
        self.assertEqual(self.kinds(omega("f") + f"{PROOF}/GLaws.antt:1:1: error: `g`: `omega`: it fails\n" + TAIL), {})
        self.assertEqual(self.kinds(search("f", "lib", 4) + TAIL), {})

    def test_no_program(self):
        """Only those with a message in their own lines."""
        self.assertEqual(self.kinds(compiler(2)), {"f": NONE})
        self.assertEqual(self.kinds(compiler(7) + compiler(2, "walk")), {"g": NONE, "h": NONE})
        self.assertEqual(self.kinds(compiler(4)), {})
        self.assertEqual(self.kinds(compiler(2) + omega("g") + TAIL), {"f": NONE})

    def test_other_ends_say_nothing(self):
        for status in (0, 2, 3, None, -9):
            self.assertEqual(self.kinds(omega("f") + compiler(2) + TAIL, status), {})
        self.assertEqual(self.kinds(TAIL), {})

    def test_what_is_left(self):
        one, two, three = self.batch
        for found, is_proved, came, parts in (
            ([one], False, True, [[two], [three]]),
            ([one], False, False, [[two, three]]),
            ([], True, True, [[one], [two], [three]]),
            ([], False, True, [[one], [two, three]]),
            ([one, two, three], False, False, []),
        ):
            self.assertEqual(batches.left(self.batch, {mutant.key: None for mutant in found}, is_proved, came), parts)


# ---- Runs over a prover that looks for words in the code: g(3) in f and 6 in h are refused, 7 returned in g is no program, and 6 in g takes all time.

PROVER = """#!/bin/sh
echo run >>{runs}
proof() { grep -qs "$2" src/$1.rt && { echo "./proofs/$3/Answers.antt:1:1: error: omega"; bad=1; }; }
line=$(grep -n 'return 7' src/lib.rt | cut -d: -f1)
[ "$line" ] && { echo "src/lib.rt:$line:1: error[wrong]: 7"; exit 1; }
grep -qs '^    6' src/lib.rt && sleep 60
proof lib 'g(3)' f
proof walk 6 walk/h
[ "$bad" ] && { echo logic=not-proved; exit 1; }
exit 0
"""


class Batches(Fake):
    def setUp(self):
        super().setUp()
        for name, text in (("lib", CODE), ("walk", WALK)):
            (self.root / f"crates/a/src/{name}.rt").write_text(text)
        self.file("bin/rt", PROVER.replace("{runs}", str(self.folder / "runs")))

    def tried(self, *batch, limit=20):
        """The kinds of the verdicts on the mutants of a batch, and the number of runs but for that without an edit."""
        outcomes = runs.outcomes(self.root, [list(batch)], 2, lambda mutant: False, limit)
        found = {mutant.function: outcome.verdict.kind for mutant, outcome in outcomes}
        return found, (self.folder / "runs").read_text().count("\n") - 1

    def test_all_are_refused(self):
        self.assertEqual(self.tried(of("f"), of("h", 1)), ({"f": FALSE, "h": FALSE}, 1))
        for name, text in (("lib", CODE), ("walk", WALK)):
            self.assertEqual((self.root / f"crates/a/src/{name}.rt").read_text(), text)

    def test_survivor_is_tried_alone(self):
        self.assertEqual(self.tried(of("f"), of("h")), ({"f": FALSE, "h": SURVIVED}, 2))
        self.assertEqual(of("h").text, WALK.replace("5", "4"))

    def test_all_survive(self):
        self.assertEqual(self.tried(of("f", 1), of("h")), ({"f": SURVIVED, "h": SURVIVED}, 3))

    def test_no_program(self):
        wrong = next(mutant for mutant in made() if "return 7" in mutant.text)
        self.assertEqual(self.tried(of("f"), wrong, of("h", 1)), ({"f": FALSE, "g": NONE, "h": FALSE}, 2))

    def test_time_limit(self):
        slow = next(mutant for mutant in made() if "\n    6\n" in mutant.text)
        found, _ = self.tried(of("f"), slow, of("h", 1), limit=1)
        self.assertEqual(found, {"f": FALSE, "g": UNKNOWN, "h": FALSE})


class Waits(unittest.TestCase):
    def test_order(self):
        """One stays with its crate while another begins the next, and helps in the end; what is of no function comes last."""
        names = ("af1", "af2", "af3", "bf1", "cf1", "cf2", "cf3", "a1", "a2")
        batch = {name: [mutants.Mutant(name, name[0], "p", "t", mutants.CODE, name[1:2].strip("12"))] for name in names}
        waiting = runs.Waiting(batch.values())
        took = (("", "af1"), ("", "bf1"), ("af1", "af2"), ("bf1", "cf1"), ("cf1", "cf2"), ("af2", "af3"), ("af3", "a1"), ("a1", "a2"), ("a2", "cf3"))
        for last, name in (*took, ("cf2", ""), ("cf3", "")):
            self.assertEqual(waiting.taken(batch.get(last)), batch.get(name), name)


# ---- The files that are cited.


class Cited(unittest.TestCase):
    PAGE = """# Trust

| mask | Before 3 | no |

## What a reader must believe

| crate | files of specs/ with their lines | what they say |
|---|---|---|
| mask | Mask 66, FractionOf 6 | the masks |
| line | Line 59 | a line of 3 samples |

- mesh/specs/WellFormed.antt has acceptance.

| crate | files of specs/ |
|---|---|
| line | Differences, Points |

## What else

| text | Text 5 | no |
"""

    def test_table(self):
        self.assertEqual(cited.files(self.PAGE), {"mask/Mask", "mask/FractionOf", "line/Line"})

    def test_repository(self):
        found = cited.of_repository(ROOT)
        self.assertIn("mesh/Fan", found)
        self.assertNotIn("mesh/Walk", found)
        for name in found:
            crate, file = name.split("/")
            self.assertTrue((ROOT / "crates" / crate / "specs" / f"{file}.antt").is_file(), name)

    def test_mutants_of_cited_files_alone(self):
        made_of = mutants.of_crate(ROOT, "line", 0, True, {"line/Line"})
        self.assertEqual({mutant.path for mutant in made_of if mutant.kind == mutants.DEFINITIONS}, {"crates/line/specs/Line.antt"})


if __name__ == "__main__":
    unittest.main()
