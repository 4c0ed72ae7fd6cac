"""tools/mutants: what it reads from the prover's output, its report and table, and its runs over a prover that is not one."""

import os
import shutil
import signal
import subprocess
import tempfile
import time
import unittest
from pathlib import Path

from cases import TOOLS, Case, loaded

import command
from mutation import mutants, reports, runs
from mutation.verdicts import FALSE, MISFIT, NONE, SURVIVED, UNKNOWN, Verdict, messages, verdict

# ---- What the prover says. The lines are its own, cut short.

PROOF = "./proofs/face_corners/Answers.antt"
TAIL = "fn corner::wide: proved\nlogic=not-proved\n"

OMEGA = f"{PROOF}:23:21: error: `overflow_add-e`: `omega`: the goal does not follow from what it read. All of that holds, and the goal fails, at `f`\n"
TYPES = f"{PROOF}:26:13: error: `returns`: expected type `Reads.Post (tt {{0}})`\n  but this has type `mathlib.Core.Path.◌≡◌ (take 4 faces)`\n"
SIDES = f"{PROOF}:26:31: error: `returns`: as printed, the two types first differ where one has `3` (expected)\n  and the other has `4` (found)\n"
SHOWN = f"{PROOF}:63:21: error: `refused`: expected type `a ≡ some k`, but this has type `b ≡ ?8 M d e`\n  here `?8` is implicit; `k` is not in scope here\n"
GOAL = f"{PROOF}:9:28: error: `returns-a`: `goal.returns-a`: module `Rattle.corner.proofs.face_corners.Goals` has no `returns-a` that can be named from here\n"
GONE_FIELD = f"{PROOF}:26:46: error: `returns`: record `Rattle.corner.proofs.face_corners.Lts.Start` has no field `before`\n"
TWO_LINES = f"{PROOF}:26:46: error: `next-is`: record `Rattle.entries.proofs.vertex_twice.Lts.After-across_corner`\n  has no field `next_corner`\n"
INVARIANT = f"{PROOF}:9:9: error: `mul-n`: this is applied to an argument but has type `Type 0`, which is not a function or extension (path) type\n"
GRIND = f"{PROOF}:13:26: error: `nonzero_div-quotient`: `grind`: the goal does not follow. The hypotheses hold, and the goal fails at `n` = `0`\n"
AFTER = f"{PROOF}:27:5: error: 1 declaration that depends on `returns-a`, which was rejected, was not checked: overflow_add-result\n"
LATER = f"{PROOF}:64:5: error: 10 declarations that depend on `nearest`, which was not admitted, were not checked: nearest-is and 9 more\n"
LAW = "./proofs/FaceLaws.antt:14:5: error: `corners-some`: as printed, the two types differ only where one has `5` (expected)\n"
SEARCH = (
    "note: src/lib.rt:14:1: it is not proved that what the function ensures holds when it returns (`returns`)\n"
    "fn corner::next_corner: no proof: expected answers in ./proofs/next_corner/Answers.antt; `search` did not prove `returns`\n"
    "note: `returns` of proofs/next_corner/Answers.antt must prove: c.args.c / 4 * 4 + (c.args.c % 4 + 1) % 3 ≡ next c.args.c\n"
)
FALSIFIED = SEARCH.replace("(`returns`)\n", "(`returns`); the facts known there allow values at which this goal is false\n")
CALLER = "fn corner::face: no proof: it calls `corner::next_corner`, which is not proved\n"
TYPE_ERROR = "src/lib.rt:41:17: error[mismatched-types]: expected `bool`, found `usize`\n"
UNKNOWN_NAME = "src/lib.rt:42:26: error[unknown-name]: cannot find value `e` in this scope\n"
DEFINITION = (
    "./specs/Corner.antt:23:15: error: `prev`: expected type `ℕ`, but this has type `Bool`\n"
    "./proofs/FaceLaws.antt:17:5: error: 2 declarations that depend on `prev`, which was not admitted, were not checked: prev-is, prev-of\n"
    "fn corner::wide: not proved\n"
)


class Verdicts(unittest.TestCase):
    def assert_kind(self, kind, output, status=1):
        self.assertEqual(verdict(status, output).kind, kind, output)

    def test_false_facts(self):
        for output in (OMEGA, TYPES, SIDES, SHOWN, GRIND, SEARCH, SEARCH + CALLER, LAW + LATER, OMEGA + AFTER):
            self.assert_kind(FALSE, output + TAIL)

    def test_text_that_no_longer_fits(self):
        for output in (GOAL, GONE_FIELD, TWO_LINES, INVARIANT, GOAL + TYPES, TWO_LINES + TYPES, GOAL + SIDES, GOAL + GONE_FIELD + AFTER, GOAL + SEARCH):
            self.assert_kind(MISFIT, output + TAIL)

    def test_false_fact_beside_a_text_that_no_longer_fits(self):
        """What a tactic says of a goal counts in such a file, every message of another file, and a goal that is known to be false."""
        for output in (GOAL + OMEGA, GOAL + GRIND, GOAL + LAW, GOAL + FALSIFIED):
            self.assert_kind(FALSE, output + TAIL)

    def test_no_program(self):
        for output in (TYPE_ERROR, UNKNOWN_NAME, DEFINITION + TAIL):
            self.assert_kind(NONE, output)

    def test_survivors(self):
        self.assert_kind(SURVIVED, "fn corner::wide: proved\nlogic=proved functions=5\n", 0)

    def test_what_cannot_be_told(self):
        self.assert_kind(UNKNOWN, "", None)
        self.assert_kind(UNKNOWN, "rt: crates.txt: a is not listed\n", 2)
        self.assert_kind(UNKNOWN, "logic=unknown\n", 3)
        self.assert_kind(UNKNOWN, "")
        self.assert_kind(UNKNOWN, TAIL)

    def test_messages(self):
        self.assertEqual([message.file for message in messages(OMEGA + AFTER + LATER + CALLER + TAIL)], ["proofs/face_corners/Answers.antt"])
        self.assertEqual(verdict(1, SEARCH + TAIL).words, "it is not proved that what the function ensures holds when it returns (`returns`)")
        self.assertTrue(verdict(1, TYPES + GOAL + TAIL).words.startswith("`returns-a`"))


# ---- Reports.


class Reports(unittest.TestCase):
    def test_rows(self):
        mutant = mutants.Mutant("a k", "a", "p", "t", mutants.CODE)
        row = reports.row(mutant, runs.Outcome(Verdict(FALSE, "x\ty"), "b", 1.25), "5a")
        self.assertEqual(reports.rows(f"a\tline\n{row}\nhalf a li"), [reports.Row(Verdict(FALSE, "x y"), "b", "a k", "5a")])

    def test_table(self):
        found = [reports.Found(*one) for one in (("a", mutants.CODE, FALSE), ("b", mutants.EDITS, NONE), ("a", mutants.CODE, SURVIVED))]
        lines = [" ".join(line.split()) for line in reports.table(found)]
        columns = "mutants false fact text no longer fits no program equivalent survived could not tell"
        self.assertEqual(lines, [f"code {columns}", "a 2 1 0 0 0 1 0", "all 2 1 0 0 0 1 0", f"edits {columns}", "b 1 0 0 1 0 0 0", "all 1 0 0 1 0 0 0"])

    def test_summary(self):
        """By the last line of each, with what may survive by what is named now."""
        keys = ("a src/lib.rt f #1: 4 => 3", "b specs/B.antt g #1: 4 => 3", "b edit wrong")
        pairs = ((keys[0], FALSE), (keys[1], SURVIVED), (keys[2], NONE), (keys[0], SURVIVED))
        text = "".join(f"{kind}\t1.0\ta\t{key}\twords\t5a\n" for key, kind in pairs)
        found = reports.summed(text, {keys[0]: "It may."})
        self.assertEqual(found, [("a", mutants.CODE, reports.EQUIVALENT), ("b", mutants.DEFINITIONS, SURVIVED), ("b", mutants.EDITS, NONE)])

    def test_lines(self):
        mutant = mutants.Mutant("a k", "a", "p", "t", mutants.CODE)
        self.assertEqual(reports.line(mutant, Verdict(SURVIVED), "a", SURVIVED), "survived: a k")
        self.assertEqual(reports.line(mutant, Verdict(MISFIT, "gone"), "b", MISFIT), "text no longer fits [in b]: a k\n    gone")


# ---- Runs, over a prover that only looks for words in the files of a crate.

PROVER = """#!/bin/sh
# check refuses what is wrong, a line 5, and in a library above what is below in the crate a; what is slow takes its time. run links a program that prints
# the line that is below.
[ -f ../../crates.txt ] && [ "$2 $3" = "--jobs 1" ] || exit 2
file=src/lib.rt name=${PWD##*/}
refused() { echo "./$file:1:1: error: omega"; echo logic=not-proved; exit 1; }
grep -qs slow $file && sleep 60
case $1 in
check)
    grep -qsE 'wrong|^    5' $file && refused
    [ $name != a ] && [ ! -f src/main.rt ] && grep -qs below ../a/$file && refused ;;
run)
    mkdir -p out
    printf '#!/bin/sh\\necho "%s"\\ncat "$@"\\n' "$(grep -hs below ../a/$file)" >out/$name
    chmod +x out/$name ;;
esac
exit 0
"""


class Fake(Case):
    """A repository of two crates, and a prover that is found first."""

    def setUp(self):
        super().setUp()
        for name in ("bin", "r/crates/a/src", "r/crates/b/src", "r/crates/a/out", "r/crates/a/must-fail"):
            (self.folder / name).mkdir(parents=True)
        self.root = self.folder / "r"
        files = {"crates.txt": "a:\nb: a # over it\n", "crates/a/src/lib.rt": "fine\n", "crates/b/src/lib.rt": "fine\n"}
        for name, text in files.items():
            (self.root / name).write_text(text)
        self.file("bin/rt", PROVER).chmod(0o755)
        path = os.environ["PATH"]
        self.addCleanup(os.environ.__setitem__, "PATH", path)
        os.environ["PATH"] = f"{self.folder / 'bin'}:{path}"

    def program(self, name):
        """Makes a crate a program: it prints a line, which is empty where nothing is below, and what it is given."""
        (self.root / "crates" / name / "src/main.rt").write_text("fine\n")
        for file, text in (("stdin", "given\n"), ("stdout", "\ngiven\n"), ("status", "0\n")):
            (self.root / "crates" / name / file).write_text(text)


class Runs(Fake):
    def mutant(self, text, crate="a", kind=mutants.CODE):
        return mutants.Mutant(f"{crate} {text}", crate, f"crates/{crate}/src/lib.rt", text, kind)

    def outcomes(self, *texts, jobs=1, limit=20, climbs=lambda mutant: True, kind=mutants.CODE):
        """The kind and the crate of each."""
        made = [self.mutant(text, kind=kind) for text in texts]
        return {mutant.text: (found.verdict.kind, found.crate) for mutant, found in runs.outcomes(self.root, [[one] for one in made], jobs, climbs, limit)}

    def test_verdicts(self):
        for jobs in (1, 3):
            found = self.outcomes("wrong", "good", "below", "wrong too", jobs=jobs)
            self.assertEqual(found, {"wrong": (FALSE, "a"), "wrong too": (FALSE, "a"), "good": (SURVIVED, "a"), "below": (FALSE, "b")})
        self.assertEqual((self.root / "crates/a/src/lib.rt").read_text(), "fine\n")

    def test_named_survivors_do_not_climb(self):
        self.assertEqual(self.outcomes("below", climbs=lambda mutant: False), {"below": (SURVIVED, "a")})

    def test_copies_are_as_they_were(self):
        copy = runs.Copy(self.root)
        self.addCleanup(copy.remove)
        copy.tried(self.mutant("below"), True)
        self.assertEqual((copy.folder / "crates/a/src/lib.rt").read_text(), (self.root / "crates/a/src/lib.rt").read_text())
        self.assertEqual([path.name for path in (copy.folder / "crates/a").iterdir()], ["src"])
        copy.remove()
        self.assertFalse(copy.folder.exists())

    def test_time_limit(self):
        began = time.monotonic()
        self.assertEqual(self.outcomes("slow", limit=1), {"slow": (UNKNOWN, "a")})
        self.assertLess(time.monotonic() - began, 15)

    def test_base_that_does_not_pass(self):
        (self.root / "crates/a/src/lib.rt").write_text("wrong\n")
        with self.assertRaisesRegex(command.Failure, "^a: rt check does not pass before any edit: logic=not-proved$"):
            self.outcomes("good")

    def test_programs_are_run(self):
        """A survivor of a program is judged by what it writes: it is run over its file stdin, with the words of its file args, beside the files of data/."""
        self.program("a")
        self.assertEqual(self.outcomes("good", "below"), {"good": (SURVIVED, "a"), "below": (FALSE, "a")})
        for name, text in (("stdin", "other\n"), ("status", "3\n"), ("stdout", "")):
            self.program("a")
            (self.root / "crates/a" / name).write_text(text)
            self.assertEqual(self.outcomes("good"), {"good": (FALSE, "a")}, name)

    def test_words_and_files_of_a_program(self):
        self.program("a")
        (self.root / "crates/a/data").mkdir()
        (self.root / "crates/a/data/one").write_text("1\n")
        (self.root / "crates/a/args").write_text("one\n-\n")
        self.assertEqual(self.outcomes("good"), {"good": (FALSE, "a")})
        (self.root / "crates/a/stdout").write_text("\n1\ngiven\n")
        self.assertEqual(self.outcomes("good"), {"good": (SURVIVED, "a")})

    def test_program_that_is_not_linked(self):
        self.program("a")
        self.file("bin/rt", "#!/bin/sh\nexit 0\n")
        self.assertEqual(self.outcomes("good"), {"good": (UNKNOWN, "a")})

    def test_programs_above_are_run_for_constants(self):
        """No contract says how large the buffers of a program are; of a definition a program sees nothing that its libraries do not."""
        self.program("b")
        self.assertEqual(self.outcomes("below"), {"below": (FALSE, "b")})
        self.assertEqual(self.outcomes("below", kind=mutants.DEFINITIONS), {"below": (SURVIVED, "a")})

    def test_end_of_a_run_that_is_left(self):
        """What is under way ends with the run, and the copies go."""
        before, began = set(Path(tempfile.gettempdir()).glob("mutants.*")), time.monotonic()
        found = runs.outcomes(self.root, [[self.mutant("wrong")], [self.mutant("slow")]], 1, lambda mutant: True, 50)
        next(found)
        self.assertEqual(len(set(Path(tempfile.gettempdir()).glob("mutants.*")) - before), 1)
        found.close()
        self.assertLess(time.monotonic() - began, 15)
        self.assertEqual(set(Path(tempfile.gettempdir()).glob("mutants.*")) - before, set())


class Whole(Fake):
    """The command over a repository of two crates, whose only function gives 4: 5 is refused, and 3 survives."""

    SURVIVOR = "a src/lib.rt f #1: 4 => 3"

    def setUp(self):
        super().setUp()
        (self.root / "crates/a/src/lib.rt").write_text("fn f() -> u8 {\n    4\n}\n")
        for folder in ("tools/edits/a", "docs"):
            (self.root / folder).mkdir(parents=True)
        (self.root / "docs/TRUST.md").write_text("## What a reader must believe\n\n| a | A 2 | all |\n")
        for name in ("mutants", "command.py"):
            shutil.copy(TOOLS / name, self.root / "tools")
        shutil.copytree(TOOLS / "mutation", self.root / "tools/mutation", ignore=shutil.ignore_patterns("__pycache__"))
        self.name("")

    def name(self, *keys):
        """Writes the file of the mutants that may survive."""
        (self.root / "tools/edits/equivalent.txt").write_text("".join(f"{key} ## It may.\n" for key in keys if key))

    def tried(self, *words):
        """The exit status, the printed lines with one blank between words, and what was said."""
        status, output, error = self.run_command(str(self.root / "tools/mutants"), *words)
        return status, [" ".join(line.split()) for line in output.decode().splitlines()], error

    def test_survivor(self):
        status, lines, error = self.tried("a")
        self.assertEqual((status, lines[0], lines[-1]), (1, f"survived: {self.SURVIVOR}", "all 2 1 0 0 0 1 0"))
        self.assertEqual(error, "mutants: 2 mutants of 1 crate\n")

    def test_survivor_that_is_named(self):
        self.name(self.SURVIVOR)
        status, lines, _ = self.tried("a", "--jobs", "2")
        self.assertEqual((status, lines[0], lines[-1]), (0, f"equivalent: {self.SURVIVOR}", "all 2 1 0 0 1 0 0"))

    def test_function_that_prints(self):
        """What it prints is no part of its contract: the programs above show it."""
        self.program("b")
        for named, status in (("", 1), ("use std::io;\n", 0)):
            (self.root / "crates/a/src/lib.rt").write_text(f"{named}fn f() -> u8 {{\n    4 // below\n}}\n")
            self.assertEqual(self.tried("a")[0], status)

    def test_named_mutant_that_is_refused_or_is_none(self):
        self.name(self.SURVIVOR, "a src/lib.rt f #1: 4 => 5", "a src/lib.rt gone #1: 4 => 5")
        status, _, error = self.tried("--specs")
        self.assertEqual(status, 0)
        self.assertIn("names a mutant that is refused: a src/lib.rt f #1: 4 => 5\n", error)
        self.assertIn("names no mutant: a src/lib.rt gone #1: 4 => 5\n", error)

    def test_edits(self):
        for new, status in (("5", 0), ("6", 1), ("6 // below", 1)):
            (self.root / "tools/edits/a/one.edit").write_text(f"# Why.\nfile: src/lib.rt\nold:     4\nnew:     {new}\n")
            self.assertEqual(self.tried("a", "--sample", "0")[0], status)

    def test_report_is_gone_on_with(self):
        self.assertEqual(self.tried("a", "--report", "report")[0], 1)
        before = (self.folder / "report").read_bytes()
        self.assertEqual(before.count(b"\n"), 2)
        self.file("bin/rt", "#!/bin/sh\nexit 2\n")
        self.name(self.SURVIVOR)
        status, lines, _ = self.tried("a", "--report", "report")
        self.assertEqual((status, lines[-1], (self.folder / "report").read_bytes()), (0, "all 2 1 0 0 1 0 0", before))

    def test_what_could_not_be_told_is_tried_again(self):
        self.file("report", f"could not tell\t1.0\ta\t{self.SURVIVOR}\tthe time limit\t{mutants.sum_of(self.root, 'a')}\n")
        self.assertEqual(self.tried("a", "--report", "report")[1][-1], "all 2 1 0 0 0 1 0")

    def test_crate_that_changed_is_tried_again(self):
        """Whatever file of it changed; one of another crate does not matter."""
        self.file("report", "half a li")
        for name, lines in (("crates/b/src/lib.rt", 3), ("crates/b/src/lib.rt", 3), ("crates/a/proofs/f/Answers.antt", 5), ("crates/a/specs/Lib.antt", 7)):
            (self.root / name).parent.mkdir(parents=True, exist_ok=True)
            (self.root / name).write_text("fine, too\n")
            self.tried("a", "--report", "report")
            self.assertEqual((self.folder / "report").read_bytes().count(b"\n"), lines)

    def test_summary(self):
        whole = self.tried("a", "--report", "report")
        self.file("bin/rt", "#!/bin/sh\nexit 2\n")
        self.assertEqual(self.tried("--summary", "report"), (1, whole[1][1:], ""))

    def test_signals(self):
        """A run that is asked to end leaves the lines that it has, whole, and no copy."""
        self.file("bin/rt", PROVER.replace("grep -qs slow", "grep -qs '^    5'"))
        for number in (signal.SIGINT, signal.SIGTERM):
            folder, report = self.folder / f"tmp{number}", self.folder / f"report{number}"
            folder.mkdir()
            words = [self.root / "tools/mutants", "a", "--report", report]
            with subprocess.Popen(words, env={**os.environ, "TMPDIR": str(folder)}, stderr=subprocess.PIPE, stdout=subprocess.DEVNULL) as child:
                self.wait_for(folder, "    5")
                child.send_signal(number)
                self.assertEqual((child.wait(20), b"Traceback" in child.stderr.read()), (-number, False))
            self.assertEqual(list(folder.iterdir()), [])
            self.assertRegex(report.read_text(), rf"\Asurvived\t[\d.]+\ta\t{self.SURVIVOR}\t\t[0-9a-f]{{10}}\n\Z")

    def wait_for(self, folder, line):
        """Waits until a copy in a folder has a file of the code with this line, and is tried."""
        for _ in range(400):
            if any(line in path.read_text() for path in folder.glob("*/crates/a/src/lib.rt")):
                return time.sleep(0.2)
            time.sleep(0.05)
        self.fail("no copy has it")

    def test_programs_and_examples_are_left_out(self):
        (self.root / "crates.txt").write_text("a:\nb: a\nexamples: a\n")
        (self.root / "crates/examples/src").mkdir(parents=True)
        for name in ("b/src/main", "examples/src/lib"):
            (self.root / f"crates/{name}.rt").write_text("fn g() -> u8 {\n    4\n}\n")
        listed = [{line.split()[0] for line in self.tried(*words, "--list")[1]} for words in ([], ["b"], ["examples", "a"])]
        self.assertEqual(listed, [{"a"}, {"b"}, {"examples", "a"}])

    def test_private_definitions_are_left_out(self):
        (self.root / "crates/a/specs").mkdir()
        for name in ("A", "B"):
            (self.root / f"crates/a/specs/{name}.antt").write_text("abbrev pub f : ℕ\nf = 0\n")
        listed = [{line.split()[1] for line in self.tried("a", *words, "--list")[1]} for words in ([], ["--specs"], ["--specs", "--private"])]
        self.assertEqual(listed, [{"src/lib.rt"}, {"src/lib.rt", "specs/A.antt"}, {"src/lib.rt", "specs/A.antt", "specs/B.antt"}])

    def test_crate_that_is_not_proved(self):
        (self.root / "crates/a/src/lib.rt").write_text("fn f() -> u8 {\n    5\n}\n")
        status, lines, error = self.tried("a")
        self.assertEqual((status, lines), (2, []))
        self.assertIn("mutants: a: rt check does not pass before any edit: logic=not-proved\n", error)


# ---- The command.


class Command(Case):
    def test_help_and_wrong_words(self):
        for words, status, said in (
            (["--help"], 0, "exit status:"),
            (["-h"], 0, "tools/mutants "),
            (["--version"], 0, "mutants 0.1"),
            (["--wrong"], 2, "usage:"),
            (["--jobs", "0"], 2, "0 is not a whole number from 1"),
            (["nowhere"], 2, "nowhere: crates.txt does not list it"),
        ):
            done = subprocess.run([TOOLS / "mutants", *words], capture_output=True, text=True, timeout=20)
            self.assertEqual(done.returncode, status, words)
            self.assertIn(said, done.stderr if status else done.stdout)

    def test_list(self):
        for words, least in ((["corner"], 40), (["corner", "--specs"], 70), (["corner", "mask", "--specs", "--sample", "3"], 6)):
            lines = self.done("mutants", *words, "--list").decode().splitlines()
            self.assertGreaterEqual(len(lines), least)
            self.assertEqual({line.split()[0] for line in lines}, {word for word in words if word in ("corner", "mask")})

    def test_status(self):
        made = loaded("mutants")
        failed = {kind: [made.has_failed(reports.Found("a", kind, under)) for under in reports.COLUMNS] for kind in (mutants.CODE, mutants.EDITS)}
        self.assertEqual(failed[mutants.CODE], [under == SURVIVED for under in reports.COLUMNS])
        self.assertEqual(failed[mutants.EDITS], [under in (NONE, SURVIVED) for under in reports.COLUMNS])


if __name__ == "__main__":
    unittest.main()
