"""The claims that are statements: each hypothesis about what a call handed back is the very record that the call promises."""

import re
import unittest
from pathlib import Path

CRATES = Path(__file__).resolve().parent.parent.parent / "crates"

# Each statement, by its file and its record, with the calls that it is about, by crate and name.
CLAIMS = {
    ("effect/specs/Mirroring.antt", "MirrorKeepsSamples"): [("edit", "mirror"), ("surface", "evaluate")],
    ("tangency/specs/Claim.antt", "TangentClaim"): [("tangent", "tangents")],
}

# What a statement may ask besides: of the mesh, of its numbering, of the choice of an edge, and that a call refused nothing.
CONDITIONS = {"Accepted", "Renumbering", "Edge", "Written"}


def origins(text):
    """The crate and the file of specs/ that each imported name comes from."""
    found = re.findall(r"^(?:ghost )?use Rattle\.(\w+)\.specs\.([\w.]+)\.\{([^}]*)\}", text, flags=re.MULTILINE)
    return {name.strip(): (crate, file) for crate, file, names in found for name in names.split(",")}


def promised(text, call):
    """The record that the contract of a call is, and where it comes from."""
    contract = re.search(rf"^pub fn {call}\(.*?^\{{", text, flags=re.DOTALL | re.MULTILINE)[0]
    (record,) = re.findall(r"ensures (?:\w+ )?\{ (\w+) ", contract)
    return record, origins(text).get(record)


def fields(text, record):
    """The types of the fields of a record."""
    block = re.search(rf"^pub record {record} .*?\n((?:(?:  .*)?\n)*)", text, flags=re.MULTILINE)[1]
    lines = [line for line in block.splitlines() if not line.strip().startswith("--")]
    return re.split(r"\bpub [\w-]+ : ", " ".join(lines))[1:]


def parts(kind):
    """What stands between the arrows of a type, but not those within brackets."""
    depth, found = 0, [""]
    for sign in kind:
        depth += (sign in "({") - (sign in ")}")
        if sign == "→" and depth == 0:
            found.append("")
        else:
            found[-1] += sign
    return [part.strip() for part in found]


def hypotheses(text, record):
    """The records that the fields of a statement ask for, and where each comes from."""
    named = origins(text)
    asked = [part for kind in fields(text, record) for part in parts(kind)[:-1]]
    stated = [re.sub(r"^\(\w+ : (.*)\)$", r"\1", part) for part in asked if not re.search(r"[≡≤<]", part) and not part.startswith("{")]
    heads = [re.match(r"[\w-]+", part)[0] for part in stated]
    return {(head, named.get(head)) for head in heads if head not in CONDITIONS and head != "ℕ"}


def unpromised(text, record, contracts):
    """The hypotheses that no contract is, and the contracts that no hypothesis is."""
    return hypotheses(text, record) ^ {promised(code, call) for code, call in contracts}


def read(path):
    """The text of a file of the crates."""
    return (CRATES / path).read_text(encoding="utf-8")


class Claims(unittest.TestCase):
    def test_hypotheses(self):
        for (path, record), calls in CLAIMS.items():
            contracts = [(read(f"{crate}/src/lib.rt"), call) for crate, call in calls]
            self.assertEqual(unpromised(read(path), record, contracts), set(), record)
            self.assertEqual(len(hypotheses(read(path), record)), len(calls))

    def test_statements(self):
        """Each statement of the crates of claims is in the table: a record without parameters whose fields ask for something."""
        found = set()
        for path in (path for crate in {path.split("/")[0] for path, _ in CLAIMS} for path in (CRATES / crate / "specs").glob("*.antt")):
            text = path.read_text(encoding="utf-8")
            records = re.findall(r"^pub record (\w+) : Type 0 where", text, flags=re.MULTILINE)
            found |= {(str(path.relative_to(CRATES)), record) for record in records if any(len(parts(kind)) > 1 for kind in fields(text, record))}
        self.assertEqual(found, set(CLAIMS))

    def test_altered(self):
        """What the test is there to find: another record in the statement, in the contract, or of the same name in another file."""
        path, record = "effect/specs/Mirroring.antt", "MirrorKeepsSamples"
        specs, code, other = read(path), read("edit/src/lib.rt"), read("surface/src/lib.rt")
        contracts = [(code, "mirror"), (other, "evaluate")]
        for old, new in (
            ("→ MeshMirrored M x r x'", "→ MirrorLeft M x x'"),
            ("→ MeshMirrored M x r x'", ""),
            ("→ Evaluated n (asked M d q) s b", "→ Witnessed n (asked M d q) s b"),
            ("use Rattle.edit.specs.Mirror.{", "use Rattle.effect.specs.Mirror.{"),
        ):
            self.assertEqual(specs.count(old), 1, old)
            self.assertNotEqual(unpromised(specs.replace(old, new), record, contracts), set(), new)
        for old, new in (("{ MeshMirrored ", "{ MirrorLeft "), ("specs.Mirror.{", "specs.Image.{")):
            self.assertEqual(code.count(old), 1, old)
            self.assertNotEqual(unpromised(specs, record, [(code.replace(old, new), "mirror"), (other, "evaluate")]), set(), new)


if __name__ == "__main__":
    unittest.main()
