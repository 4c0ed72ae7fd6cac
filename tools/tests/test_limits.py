"""docs/LIMITS.md: the paths that it names are there, and the places that it names first have the same numbers."""

import re
import unittest
from pathlib import Path

ROOT = Path(__file__).resolve().parent.parent.parent

# The limits by the names of the constants in the code, and by those of the definitions.
NAMES = {
    "MIN_VERTICES": "min_vertices",
    "MAX_VERTICES": "max_vertices",
    "MIN_FACES": "min_faces",
    "MAX_FACES": "max_faces",
    "MAX_COORDINATE": "max_coordinate",
    "MIN_VALENCE": "min_valence",
    "MAX_VALENCE": "max_valence",
    "MIN_BOUNDARY_FACES": "min_boundary_faces",
    "MAX_BOUNDARY_FACES": "max_boundary_faces",
    "CORNER_TAG": "corner_tag",
    "NO_TWIN": "no_twin",
    "MAX_CONTROL": "max_control",
    "MIN_STEPS": "min_steps",
    "MAX_STEPS": "max_steps",
}


def text(path):
    return (ROOT / path).read_text(encoding="utf-8")


def whole(digits):
    return int(re.sub("[,_]", "", digits))


def constants():
    code = text("crates/limits/src/model.rt") + text("crates/sample/src/model.rt")
    return {name: whole(digits) for name, digits in re.findall(r"pub const (\w+): \w+ = ([\d_]+);", code)}


class Limits(unittest.TestCase):
    def setUp(self):
        self.limits = constants()

    def between(self, name):
        return self.limits[f"MIN_{name}"], self.limits[f"MAX_{name}"]

    def test_names(self):
        self.assertEqual(self.limits.keys(), NAMES.keys())

    def test_definitions(self):
        definitions = text("crates/limits/specs/Limits.antt") + text("crates/sample/specs/Refusal.antt")
        for constant, name in NAMES.items():
            found = re.search(rf"^{name} = (\d+)$", definitions, re.MULTILINE)
            self.assertIsNotNone(found, name)
            self.assertEqual(int(found[1]), self.limits[constant], name)

    def test_page(self):
        rows = [row.split(" | ") for row in text("docs/LIMITS.md").splitlines() if row.startswith("| ")]
        values = {tuple(re.findall(r"`([A-Z_]{6,})`", row[2])): row[1] for row in rows if len(row) == 5 and "`" in row[2]}
        self.assertEqual({name for names in values for name in names}, NAMES.keys())
        for names, value in values.items():
            self.assertEqual([whole(x) for x in value.split(" to ")], [self.limits[name] for name in names])

    def test_paths(self):
        paths = set(re.findall(r"(?:crates|rust|tools|include|examples|docs)/[\w./-]*\w", text("docs/LIMITS.md")))
        self.assertGreater(len(paths), 30)
        for path in sorted(paths):
            self.assertTrue((ROOT / path).exists(), path)

    def test_python(self):
        found = dict(re.findall(r"^([A-Z_]+) = (.*)$", text("tools/meshes.py"), re.MULTILINE))
        for name in ("VERTICES", "FACES", "VALENCE", "BOUNDARY_FACES", "STEPS"):
            least, most = self.between(name)
            self.assertEqual(found[{"VALENCE": "INNER_VALENCES"}.get(name, name)], f"range({least}, {most} + 1)", name)
        coordinate = self.limits["MAX_COORDINATE"]
        self.assertEqual(found["COORDINATES"], f"range(-{coordinate}, {coordinate} + 1)")
        self.assertEqual(found["TAGS"], f"range(0, {self.limits['CORNER_TAG']} + 1)")
        self.assertEqual((found["NO_TWIN"], found["CONTROL"]), (str(self.limits["NO_TWIN"]), str(self.limits["MAX_CONTROL"])))

    def test_benchmark(self):
        found = dict(re.findall(r"pub const (\w+): [\w<>]+ = (.*);", text("rust/examples/benchmark/limits.rs")))
        for name in ("MAX_VERTICES", "MAX_FACES", "MAX_COORDINATE", "MAX_CONTROL", "CORNER_TAG"):
            self.assertEqual(whole(found[name]), self.limits[name], name)
        for name in ("VALENCE", "BOUNDARY_FACES", "STEPS"):
            least, most = self.between(name)
            self.assertEqual(found[name], f"{least}..={most}", name)

    def test_header(self):
        header = text("include/rusketja.h")
        for line in (
            " 1  V is not from {MIN_VERTICES} to {MAX_VERTICES}, F is not from {MIN_FACES} to {MAX_FACES},",
            " 3  a coordinate is not from -{MAX_COORDINATE} to {MAX_COORDINATE}",
            " 4  a tag is above {CORNER_TAG}",
            "10  an inner vertex has fewer than {MIN_VALENCE} or more than {MAX_VALENCE} faces, or a boundary vertex more than {MAX_BOUNDARY_FACES}",
            "13  a control value of face f is beyond {MAX_CONTROL} either way",
            "14  n is not from {MIN_STEPS} to {MAX_STEPS}, or a or b is above n",
            "#define RUSKETJA_NO_TWIN {NO_TWIN}",
        ):
            self.assertIn(line.format(**self.limits), header)

    def test_readme(self):
        readme = text("README.md")
        names = {"V, the number of vertices": "VERTICES", "F, the number of faces": "FACES", "N, the steps along a side of a face": "STEPS"}
        for words, name in names.items():
            self.assertIn("{}, {} to {} |".format(words, *self.between(name)), readme)
        self.assertIn("-{0:,} to {0:,} |".format(self.limits["MAX_COORDINATE"]), readme)


if __name__ == "__main__":
    unittest.main()
