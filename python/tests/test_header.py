"""The header's words and numbers against those of the package."""

import re
import unittest
from ctypes import POINTER, c_double, c_uint8, c_uint16, c_uint64

from sukhlent import NAMES, TEXTS, Refusal, version
from sukhlent.library import _CALLS
from tests.places import ROOT

HEADER = (ROOT / "include" / "sukhlent.h").read_text()
NUMBERS = {name: int(number) for name, number in re.findall(r"#define SUKHLENT_(\w+) (\d+)\n", HEADER)}

#: a type of C: its name in Rust, and its type in Python
TYPES = {
    "uint8_t": ("u8", c_uint8),
    "uint16_t": ("u16", c_uint16),
    "uint64_t": ("u64", c_uint64),
    "sukhlent_length": ("u64", c_uint64),
    "double": ("f64", c_double),
}


def declared():
    """Of each call: its parameters, as (const, type, pointer, name)."""
    found = re.findall(r"^uint8_t sukhlent_(\w+)\(([^)]*)\);", HEADER, re.M)
    split = {name: [" ".join(one.split()) for one in parameters.split(",")] for name, parameters in found}
    parts = re.compile(r"(const )?(\w+) (\*?)(\w+)")
    return {name: [parts.fullmatch(one).groups() for one in parameters] for name, parameters in split.items()}


#: a tuple that stands for several parameters of C in a signature of raw.rs: their types
TUPLES = {
    "Lent": ("u64", "&[u8]", "&[u64]", "&[u64]"),
    "LentGraph": ("u64", "&[u64]", "&[u8]"),
    "LentRecord": ("u64", "&[u64]", "&[u8]", "u64"),
    "LentStore": ("&[u64]", "&[u64]", "&[u8]"),
    "Whose": ("u64", "u8"),
}


def flat(signature):
    """The parameters of a signature of raw.rs as (name, type), tuples field by field; a group stands behind the n of its record."""
    fields = []
    for names, one, kind in re.findall(r"(?:\(([^)]*)\)|(\w+)): ((?:&mut |&)?[\w\[\]]+)", signature):
        given = list(zip(names.split(", "), TUPLES[kind])) if names else [(one, kind)]
        at = 1 if kind == "Whose" and fields[0][0] == "n" else len(fields)
        fields[at:at] = given
    return fields


def in_rust():
    """Of each call that raw.rs declares: its parameters of C, a slice as a pointer and a length."""
    text = "".join((ROOT / "rust/sukhlent/src" / name).read_text() for name in ("raw.rs", "raw/groups.rs"))
    found = {}
    for signature, name in re.findall(r"^    pub fn \w+\(((?:[^;]|\n)*?)\) = sukhlent_(\w+);", text, re.M):
        found[name] = words = []
        for field, kind in flat(signature):
            mark = "*mut " if kind.startswith("&mut ") else "*const " if kind.startswith("&") else ""
            words.append(f"{field}: {mark}{re.sub(r'[^a-z0-9]', '', kind.removeprefix('&mut '))}")
            words += [f"{field}_len: u64"] * ("[" in kind)
    return found


class Header(unittest.TestCase):
    def test_a_length_has_64_bits_and_a_type_of_its_own(self):
        self.assertIn("typedef uint64_t sukhlent_length;", HEADER)
        for name, parameters in declared().items():
            for _, kind, _, parameter in parameters:
                self.assertEqual(kind == "sukhlent_length", parameter.endswith("_len"), f"{parameter} of {name}")
                self.assertIn(kind, TYPES, f"{parameter} of {name}")

    def test_rust_declares_what_c_declares(self):
        said = in_rust()
        self.assertEqual(set(said), set(declared()))
        for name, parameters in declared().items():
            words = []
            for const, kind, pointer, parameter in parameters:
                mark = ("*const " if const else "*mut ") if pointer else ""
                words.append(f"{parameter}: {mark}{TYPES[kind][0]}")
            self.assertEqual(said[name], words, name)

    def test_python_declares_what_c_declares(self):
        for name, types in _CALLS.items():
            kinds = [(TYPES[kind][1], pointer) for _, kind, pointer, _ in declared()[name]]
            self.assertEqual(list(types), [POINTER(kind) if pointer else kind for kind, pointer in kinds], name)

    def test_every_published_number_has_one_text_on_both_sides(self):
        cases = re.findall(r"case SUKHLENT_(\w+): return \"(.*?)\";", HEADER)
        said = {NUMBERS[name]: text for name, text in cases if name != "ACCEPTED"}
        self.assertEqual(said, TEXTS)

    def test_every_published_number_has_one_name_in_every_language_and_a_line_in_the_document(self):
        cases = re.findall(r"case SUKHLENT_(\w+): return", HEADER)
        named = [(NUMBERS[name], name) for name in cases if name != "ACCEPTED"]
        self.assertEqual(named, [(number, Refusal(number).name) for number in TEXTS])
        words = {name: name.title().replace("_", "") for _, name in named}  # NOT_USED is NotUsed in Rust and C++
        rust = re.findall(r'^    (\w+) = (\d+), "SUKHLENT_(\w+)",$', (ROOT / "rust/sukhlent/src/refusal.rs").read_text(), re.M)
        self.assertEqual(rust, [(words[name], str(number), name) for number, name in named])
        plus = re.findall(r"^    (\w+) = SUKHLENT_(\w+),?$", (ROOT / "include/sukhlent.hpp").read_text(), re.M)
        self.assertEqual(plus[: len(named) + 1], [("Accepted", "ACCEPTED"), *((words[name], name) for _, name in named)])
        rows = re.findall(r"^\| (\d+) \| `(\w+)` \| `(\w+)` \| \w", (ROOT / "docs/ENGINE.md").read_text(), re.M)
        self.assertEqual(rows, [(str(number), name, words[name]) for number, name in named])

    def test_the_published_list_has_the_same_numbers_in_the_same_order(self):
        comment = HEADER[HEADER.index("in checking order") : HEADER.index("#ifndef")]
        published = [int(number) for number in re.findall(r"^ \* +(\d+)  \S", comment, re.M)]
        self.assertEqual(published, list(TEXTS))

    def test_gates_have_their_codes(self):
        for name in ("I", "X", "Z", "Y", "S", "S_DAG", "H", "SQRT_Y_DAG", "SQRT_Y", "SQRT_X_DAG", "SQRT_X"):
            self.assertEqual(NAMES[NUMBERS[f"GATE_{name}"]], name)

    def test_the_version_is_said_alike(self):
        major, minor, patch = map(int, re.search(r'VERSION_TEXT "(\d+)\.(\d+)\.(\d+)"', HEADER).groups())
        self.assertEqual(NUMBERS["VERSION"], major * 10000 + minor * 100 + patch)
        self.assertEqual(version(), f"{major}.{minor}.{patch}")
        self.assertIn(f"\nversion: {version()}\n", (ROOT / "CITATION.cff").read_text())

    def test_the_words_of_a_number_are_those_of_its_line_in_the_published_list(self):
        comment = HEADER[HEADER.index("in checking order") : HEADER.index("Under each call")]
        lines = re.findall(r"^ \* +(\d+)  (\S.*(?:\n \*       \S.*)*)", comment, re.M)
        self.assertEqual(len(lines), len(TEXTS))
        for number, text in lines:
            published = set(re.findall(r"\w+", text.lower()))
            said = re.findall(r"\w+", TEXTS[int(number)].lower())
            shared = sum(word in published for word in said) / len(said)
            self.assertGreater(shared, 0.6, f"{number}: {TEXTS[int(number)]}")
