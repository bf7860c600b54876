"""The interface for C against that of the last version, and the symbols of the library against the header."""

import re
import runpy
import subprocess
import sys
import unittest

from tests.places import ROOT

TOOL = ROOT / "tools" / "interface"
HEADER = (ROOT / "include" / "sukhlent.h").read_text()
LAST = (ROOT / "include" / "last-version.txt").read_text().splitlines()


def calls(text):
    return set(re.findall(r"^uint\d+_t (sukhlent_\w+)\(", text, re.M))


class Interface(unittest.TestCase):
    @classmethod
    def setUpClass(cls):
        cls.tool = runpy.run_path(str(TOOL))

    def test_what_changed_since_the_last_version_may_change(self):
        done = subprocess.run([sys.executable, "-B", str(TOOL)], capture_output=True, text=True, timeout=60)
        self.assertEqual(done.returncode, 0, done.stdout + done.stderr)

    def test_the_library_exports_the_calls_of_the_header(self):
        library = ROOT / "target" / "shared" / "libsukhlent.so"
        said = subprocess.run(["nm", "-D", "--defined-only", str(library)], capture_output=True, text=True, timeout=60)
        self.assertEqual(set(re.findall(r" T (\w+)$", said.stdout, re.M)), calls(HEADER))

    def test_every_line_of_the_header_s_numbers_and_calls_is_read(self):
        _, now = self.tool["lines"](HEADER)
        self.assertEqual({line for line in map(self.tool["name"], now) if line[0] == "s"} - {"sukhlent_length"}, calls(HEADER))
        self.assertEqual(sum(line.startswith("SUKHLENT_") for line in now), len(re.findall(r"^#define SUKHLENT_\w+ \d", HEADER, re.M)) - 1)

    def test_a_call_gone_another_type_and_another_number_are_seen(self):
        version, now = self.tool["lines"](HEADER)
        edits = (
            (r"uint32_t sukhlent_version\(void\);\n", ""),
            (r"uint64_t qubit, uint8_t code\);", "uint8_t code, uint64_t qubit);"),
            (r"SUKHLENT_USED 16", "SUKHLENT_USED 21"),
        )
        for old, new in edits:
            edited, count = re.subn(old, new, HEADER, count=1)
            self.assertEqual(count, 1, old)
            added, broken = self.tool["compared"](now, self.tool["lines"](edited)[1])
            self.assertEqual((added, len(broken)), ([], 1), old)

    def test_which_versions_may_break(self):
        allowed = self.tool["allowed"]
        for old, new, due in (
            ("0.14.4", "0.15.0", True),
            ("0.14.4", "0.14.4", True),
            ("0.14.4", "0.14.5", False),
            ("0.15.0", "1.0.0", True),
            ("1.0.0", "1.0.0", False),
            ("1.0.0", "1.1.0", False),
            ("1.4.2", "2.0.0", True),
        ):
            self.assertEqual(allowed(old, new), due, (old, new))

    def test_the_structs_of_c_and_the_classes_of_c_plus_plus_have_every_call_of_the_last_version(self):
        text = "".join((ROOT / "include" / name).read_text() for name in ("sukhlent_record.h", "sukhlent.hpp"))
        for call in calls("\n".join(LAST)) - {"sukhlent_version"}:
            self.assertRegex(text, rf"\b{call}\(")
