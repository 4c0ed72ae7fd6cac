"""The pages: the commands of docs/TOOLS.md print what it shows, the README is short and its commands are there, links lead somewhere, and
docs/TRUST.md lists the definitions as they are."""

import os
import re
import shlex
import shutil
import subprocess
import unittest

from cases import ROOT, TOOLS, Case
from test_example import STRICT
from test_preview import Picture

PAGE = (ROOT / "docs" / "TOOLS.md").read_text(encoding="utf-8")
README = (ROOT / "README.md").read_text(encoding="utf-8")
TRUST = (ROOT / "docs" / "TRUST.md").read_text(encoding="utf-8")

COMMANDS = ("obj2mesh", "explain", "survey", "listing2obj", "preview")

# The most lines of the README, and of its examples in C and Rust.
README_LINES, C_LINES, RUST_LINES = 120, 15, 10

# What stands on a page for a name of its form.
FORMS = {"crate/specs/File.antt", "proofs/MODULE/FUNCTION/Answers.antt", "proofs/MODULE/FUNCTION/Invariants.antt", "rusketja_call"}

# The model that the page shows a refusal of.
PYRAMID = "v 0 0 0\nv 9 0 0\nv 9 9 0\nv 0 9 0\nv 4 4 9\nf 4 3 2 1\nf 1 2 5\nf 2 3 5\nf 3 4 5\nf 4 1 5\n"


def shown(page):
    """The commands that a page shows behind a $, each with the lines that it shows below."""
    runs = []
    for line in page.splitlines():
        if line.startswith("    $ "):
            runs.append((line[6:], []))
        elif line.startswith("    ") and runs and runs[-1][1] is not None:
            runs[-1][1].append(line[4:])
        elif runs and not line.startswith("    "):
            runs.append(("", None))
    return [(command, lines) for command, lines in runs if command]


class Page(Case):
    def setUp(self):
        super().setUp()
        for name in ("tools", "examples", "crates"):
            (self.folder / name).symlink_to(ROOT / name)
        self.file("pyramid.obj", PYRAMID)

    def test_commands(self):
        runs = shown(PAGE)
        self.assertGreater(len(runs), 10)
        for command, lines in runs:
            done = subprocess.run(command, shell=True, cwd=self.folder, stdout=subprocess.PIPE, stderr=subprocess.STDOUT, text=True)
            self.assertEqual(done.stdout.splitlines(), lines, command)
        self.assertEqual({name for name in COMMANDS if any(command.startswith(f"tools/{name} ") for command, _ in runs)}, set(COMMANDS))
        # the picture of the page is that of its own commands
        one, other = (Picture(path.read_bytes()) for path in (self.folder / "last.png", ROOT / "docs" / "last.png"))
        self.assertTrue(one.rows == other.rows)

    def test_sections(self):
        for name in COMMANDS:
            usage = re.search(rf"\n## {name}\n\n    tools/{name} (.*)\n", PAGE)[1]
            helped = subprocess.run([TOOLS / name, "--help"], stdout=subprocess.PIPE, text=True).stdout
            for word in re.findall(r"--?[a-z-]+", usage):
                self.assertIn(word, helped)
            usual = {"--help", "--version", "--force", "--output", "--steps"}
            for word in set(re.findall(r"--[a-z-]+", helped.partition("exit status:")[0])) - usual:
                self.assertTrue(word in PAGE, word)


def block(page, language):
    """The lines of a page's first block of code in a language."""
    return re.search(rf"^```{language}\n(.*?)^```$", page, re.MULTILINE | re.DOTALL)[1].splitlines()


def tried(page):
    """The commands that a page shows in indented lines, without the words behind a #."""
    shown_lines = re.findall(r"^    ((?:tools/|\.ci/)[^#\n]*)", page, re.MULTILINE)
    return [line.strip() for line in shown_lines]


class Readme(Case):
    def test_length(self):
        self.assertLessEqual(len(README.splitlines()), README_LINES)
        self.assertLessEqual(len(block(README, "c")), C_LINES)
        self.assertLessEqual(len(block(README, "rust")), RUST_LINES)

    def test_commands(self):
        """Each command that it names can be run; each tool has a help."""
        named = {command.split()[0] for command in tried(README)} | set(re.findall(r"`((?:tools/|\.ci/)[\w.]+)", README))
        self.assertLessEqual({f"tools/{name}" for name in (*COMMANDS, "tessellate")} | {".ci/run"}, named)
        for name in sorted(named):
            with self.subTest(name=name):
                self.assertTrue(os.access(ROOT / name, os.X_OK))
                if name.startswith("tools/"):
                    done = subprocess.run([ROOT / name, "--help"], stdout=subprocess.PIPE, text=True, timeout=60)
                    self.assertEqual(done.returncode, 0)
                    self.assertIn("usage", done.stdout.lower())

    def test_tried(self):
        """What it shows to try is what docs/TOOLS.md shows, where it is run."""
        run = {tuple(shlex.split(command)) for command, _ in shown(PAGE)}
        commands = [command for command in tried(README) if "FILE" not in command and not command.startswith(".ci/")]
        self.assertEqual(len(commands), 6)
        for command in commands:
            self.assertIn(tuple(shlex.split(command)), run)

    def test_picture(self):
        self.assertIn("](docs/last.png)", README)

    @unittest.skipUnless(shutil.which("cc"), "no C compiler")
    def test_c(self):
        """The example in C is clean under strict warnings."""
        example = self.file("example.c", "\n".join(block(README, "c")) + "\n")
        done = subprocess.run(["cc", "-std=c99", *STRICT, "-I", ROOT / "include", "-fsyntax-only", example], capture_output=True, text=True)
        self.assertEqual((done.returncode, done.stderr), (0, ""))


def anchor(heading):
    """The name that a link asks for of a heading: in small letters, without signs, with hyphens for blanks."""
    return re.sub(r"[^\w\- ]", "", heading.lower()).replace(" ", "-")


def anchors(path):
    """The names of all headings of a page."""
    page = re.sub(r"^```.*?^```$", "", path.read_text(encoding="utf-8"), flags=re.MULTILINE | re.DOTALL)
    return {anchor(heading) for heading in re.findall(r"^#+ (.*)$", page, re.MULTILINE)}


def current():
    """The pages that speak of the repository as it is."""
    return [ROOT / "README.md", *(page for page in sorted((ROOT / "docs").glob("*.md")) if page.name not in ("CHANGES.md", "DESIGN-PASS.md", "PORT.md"))]


class Links(unittest.TestCase):
    def test_links(self):
        pages = [ROOT / "README.md", *sorted((ROOT / "docs").glob("*.md"))]
        count = 0
        for page in pages:
            for target in re.findall(r"\]\(([^)\s]+)\)", page.read_text(encoding="utf-8")):
                if re.match(r"\w+:", target):
                    continue
                name, _, section = target.partition("#")
                path = page.parent / name if name else page
                with self.subTest(page=page.name, target=target):
                    self.assertTrue(path.is_file())
                    if section:
                        self.assertIn(section, anchors(path))
                count += 1
        self.assertGreater(count, 30)

    def test_paths(self):
        """Each file that a page names is there, but for those of former landings."""
        for page in current():
            for path in re.findall(r"(?<![\w/.])((?:[\w-]+/)+[\w-]+\.(?:antt|rt|md|py|rs|h|c|obj|csv|corners))\b", page.read_text(encoding="utf-8")):
                if path not in FORMS:
                    self.assertTrue((ROOT / path).exists() or (ROOT / "crates" / path).exists(), f"{page.name}: {path}")

    def test_names(self):
        """Each name between backticks is one of the repository's."""
        folders = ("crates/*/src", "crates/*/specs", "crates/*/proofs", "tools", "rust/src", "rust/tests", "rust/examples", "include")
        files = [path for folder in folders for root in ROOT.glob(folder) for path in root.rglob("*") if path.suffix in ("", ".antt", ".rt", ".py", ".rs", ".h")]
        known = "\n".join(path.read_text(encoding="utf-8", errors="replace") for path in files if path.is_file())
        for page in current():
            for name in set(re.findall(r"`([A-Za-z_][\w-]*)`", page.read_text(encoding="utf-8"))) - FORMS:
                self.assertTrue(name in known or (ROOT / "crates" / name).is_dir(), f"{page.name}: {name}")

    def test_edits(self):
        """Each must-fail edit that docs/LIMITS.md names is there."""
        found = re.findall(r"`edit (\w+)/([\w-]+)`", (ROOT / "docs" / "LIMITS.md").read_text(encoding="utf-8"))
        self.assertGreater(len(found), 5)
        for crate, label in found:
            folders = (ROOT / "crates" / crate / "must-fail", TOOLS / "edits" / crate)
            self.assertTrue(any((folder / f"{label}.edit").is_file() for folder in folders), label)

    def test_index(self):
        """The index of docs/DECISIONS.md leads to each decision."""
        index, _, decisions = (ROOT / "docs" / "DECISIONS.md").read_text(encoding="utf-8").partition("\n## Forms and numbers\n")
        titles = re.findall(r"^### (.*)$", decisions, re.MULTILINE)
        self.assertGreater(len(titles), 80)
        for title in titles:
            self.assertIn(f"[{title}](#{anchor(title)})", index)

    def test_pages_are_listed(self):
        """Each page of docs/ is in the README's list."""
        for page in (ROOT / "docs").glob("*.md"):
            self.assertIn(f"](docs/{page.name})", README)


class Trace(Case):
    """tools/trace finds nothing missing here, and finds what is missing in altered pages."""

    def setUp(self):
        super().setUp()
        for name in ("crates", "rust", "tools", "include"):
            (self.folder / name).symlink_to(ROOT / name)
        shutil.copytree(ROOT / "docs", self.folder / "docs")

    def traced(self):
        """The exit status, and the lines printed."""
        done = subprocess.run([TOOLS / "trace", self.folder], stdout=subprocess.PIPE, text=True, timeout=60)
        return done.returncode, done.stdout.splitlines()

    def test_pages(self):
        status, lines = self.traced()
        self.assertEqual((status, len(lines)), (0, 1), lines)
        self.assertIn("nothing missing", lines[0])

    def test_altered(self):
        for page, old, new, said in (
            ("TRACE", "| I3 |", "| I1 |", "rule I3 has 0 rows in the trace tables"),
            ("TRACE", "`edit integer/divisor-0`", "`edit integer/no-such-edit`", "no edit integer/no-such-edit"),
            ("TRACE", "`nearest-0`", "`nearest-nought`", "no nearest-nought in crates/integer/proofs/NearestLaws.antt"),
            ("SPECIFICATION", "| `patch::patches` |", "| `patch::patch` |", "public call patch::patches has 0 rows in the table of calls"),
            ("SPECIFICATION", "- **I3** ", "- **I9** ", "no rule I3"),
            ("LIMITS", "(rule M5)", "(rule M55)", "no rule M55"),
        ):
            with self.subTest(new=new):
                path = self.folder / "docs" / f"{page}.md"
                text = path.read_text(encoding="utf-8")
                self.assertEqual(text.count(old), 1)
                path.write_text(text.replace(old, new), encoding="utf-8")
                status, lines = self.traced()
                self.assertEqual(status, 1)
                self.assertTrue(any(line.endswith(said) for line in lines), lines)
                path.write_text(text, encoding="utf-8")


def definitions():
    """The files of definitions of the library, each with its number of lines."""
    files = [path for path in (ROOT / "crates").glob("*/specs/*.antt") if path.stem != "Lib" and path.parts[-3] != "examples"]
    return {f"{path.parts[-3]}/{path.stem}": len(path.read_text(encoding="utf-8").splitlines()) for path in files}


class Believed(unittest.TestCase):
    """The tables of docs/TRUST.md: each file of definitions is in one place, with its lines where a reader must believe it."""

    def test_definitions(self):
        rows = [[cell.strip() for cell in line.strip("|").split("|")] for line in TRUST.splitlines() if line.startswith("| ")]
        crates = [row for row in rows if (ROOT / "crates" / row[0]).is_dir()]
        counted = {f"{row[0]}/{name}": int(lines) for row in crates if len(row) == 3 for name, lines in re.findall(r"(\w+) (\d+)", row[1])}
        private = {f"{row[0]}/{name}" for row in crates if len(row) == 2 for name in row[1].split(", ")}
        listed = re.findall(r"^- (\w+)/specs/(\w+)\.antt", TRUST, re.MULTILINE)
        others = {f"{crate}/{name}" for crate, name in listed}
        found = definitions()
        self.assertEqual(counted, {name: found.get(name) for name in counted})
        self.assertEqual(sorted([*counted, *private, *others]), sorted(found))
        files, lines = re.search(r"(\d+) files, ([\d,]+) lines", TRUST).groups()
        self.assertEqual((int(files), int(lines.replace(",", ""))), (len(counted), sum(counted.values())))


if __name__ == "__main__":
    unittest.main()
