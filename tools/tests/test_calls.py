"""The calls for C: the header, the proved code and the Rust crate have the same ones, and the example makes each of them."""

import re
import unittest
from pathlib import Path

ROOT = Path(__file__).resolve().parent.parent.parent
TYPES = {"size_t": "usize", "int32_t": "i32", "int64_t": "i64", "uint8_t": "u8", "uint16_t": "u16", "double": "f64"}


def code(path):
    """The text of a file without its comments."""
    text = (ROOT / path).read_text(encoding="utf-8")
    return re.sub(r"/\*.*?\*/|//[^\n]*", "", text, flags=re.DOTALL)


def words(text):
    """What stands between commas."""
    return [word.strip() for word in text.split(",") if word.strip()]


def in_c(word):
    """The name and the type of an argument of the header, as Rust writes them."""
    constant, kind, star, name = re.fullmatch(r"(const )?(\w+) (\*?)(\w+)", word).groups()
    return name, f"*{'const' if constant else 'mut'} {TYPES[kind]}" if star else TYPES[kind]


def in_rust(word):
    """The same of an argument of the Rust crate, where a single number is lent as a reference."""
    name, kind = word.split(": ")
    return name, kind.replace("&mut ", "*mut ")


def in_code(word):
    """The same of an argument of the proved code, where a list is one argument and not two."""
    name, kind = in_rust(word)
    if (part := re.fullmatch(r"(&|\*mut )\[(\w+)\]", kind)) is None:
        return [(name, kind)]
    return [(name, f"{'*const ' if part[1] == '&' else part[1]}{part[2]}"), (f"{name}_len", "usize")]


def of_header():
    """Each call of the header: what it returns, and its arguments."""
    found = re.findall(r"(\w+) (rusketja_\w+)\(([^)]*)\);", code("include/rusketja.h"))
    return {name: (TYPES[result], [in_c(word) for word in words(arguments)]) for result, name, arguments in found}


def of_crate():
    """The same in the Rust crate."""
    found = re.findall(r"pub fn (rusketja_\w+)\(([^)]*)\) -> (\w+);", code("rust/src/ffi.rs"))
    return {name: (result, [in_rust(word) for word in words(arguments)]) for name, arguments, result in found}


def of_code():
    """The same in the proved code."""
    files = sorted((ROOT / "crates/capi/src").glob("*.rt"))
    found = re.findall(r'pub extern "C" fn (rusketja_\w+)\(([^)]*)\) -> (\w+)', "\n".join(map(code, files)))
    return {name: (result, sum(map(in_code, words(arguments)), [])) for name, arguments, result in found}


class Calls(unittest.TestCase):
    maxDiff = None

    def test_found(self):
        self.assertGreater(len(of_header()), 5)

    def test_code(self):
        self.assertEqual(of_code(), of_header())

    def test_crate(self):
        self.assertEqual(of_crate(), of_header())

    def test_example(self):
        made = set(re.findall(r"(rusketja_\w+)\(", code("examples/square.c")))
        self.assertEqual(made, of_header().keys())


if __name__ == "__main__":
    unittest.main()
