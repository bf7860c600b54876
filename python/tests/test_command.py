"""The command: files and standard input, statuses, and what it says of a refused text."""

import contextlib
import io
import os
import pty
import random
import subprocess
import sys
import tempfile
import time
import unittest
from contextlib import redirect_stderr, redirect_stdout
from pathlib import Path
from unittest import mock

from sukhlent import forms, generate, library, plot_svg, read_table
from sukhlent.command import main
from sukhlent.programs import Progress
from sukhlent.reading import plain_text
from tests.places import ROOT, program, sukhlent

BELL = "sign z x\n0 0000000000000000 0000000000000003\n0 0000000000000003 0000000000000000\n"
RECORD = "qubit code neighbours used\n0 0 0000000000000002 0\n1 8 0000000000000001 0\n"


def called(*arguments):
    """The status of the command, what it prints and its messages, in this process."""
    out, err = io.StringIO(), io.StringIO()
    with redirect_stdout(out), redirect_stderr(err):
        try:
            status = main(list(arguments))
        except SystemExit as end:
            status = end.code
    return status, out.getvalue(), err.getvalue()


def terminal(ours):
    """What was written to a terminal whose other end is closed: it may come in pieces."""
    pieces = []
    with contextlib.suppress(OSError):  # the end
        while piece := os.read(ours, 1000):
            pieces.append(piece)
    return b"".join(pieces)


def damaged(source, text):
    """A text with a character lost, put in or taken for another."""
    at = source.randrange(len(text))
    new = source.choice(" 01248ag\n\r\t-+XZ")
    return source.choice((text[:at] + text[at + 1 :], text[:at] + new + text[at:], text[:at] + new + text[at + 1 :]))


class Command(unittest.TestCase):
    def setUp(self):
        folder = tempfile.TemporaryDirectory()
        self.addCleanup(folder.cleanup)
        self.folder = Path(folder.name)

    def file(self, name, text):
        path = self.folder / name
        path.write_bytes(text.encode())
        return str(path)

    def test_files_and_standard_input_give_what_the_program_prints(self):
        self.assertEqual(called("reduce", self.file("bell", BELL)), (0, RECORD, ""))
        self.assertEqual(sukhlent("reduce", text=BELL), (0, RECORD, ""))
        self.assertEqual(sukhlent("reduce", "-", text=BELL), (0, RECORD, ""))
        text = generate(3, 20, 5)
        self.assertEqual(called("job", self.file("job", text)), (0, program("job", text), ""))

    def test_amplitudes_are_printed_and_drawn(self):
        table = program("amplitudes", BELL)
        self.assertEqual(sukhlent("amplitudes", text=BELL), (0, table, ""))
        drawn = plot_svg(read_table(table)) + "\n"
        self.assertEqual(called("amplitudes", "--svg", self.file("list", BELL)), (0, drawn, ""))
        said = "sukhlent: refused 9: two generators do not commute\n"
        clash = "sign z x\n0 0000000000000001 0000000000000000\n0 0000000000000000 0000000000000001\n"
        self.assertEqual(sukhlent("amplitudes", "--svg", text=clash), (1, "", said))

    def test_help_and_wrong_calls(self):
        status, out, _ = called("--help")
        self.assertEqual(status, 0)
        for name in ("reduce", "amplitudes", "job", "draw", "compare", "equivalent"):
            self.assertRegex(out, rf"(?m)^    {name}\b")
            self.assertEqual(called(name, "--help")[0], 0)
        self.assertEqual(called()[0], 2)
        self.assertEqual(called("reduce", str(self.folder / "none"))[0], 2)
        self.assertEqual(called("compare", "-", "-")[0], 2)
        self.assertRegex(called("--version")[1], r"^sukhlent \d+\.\d+\.\d+\n$")

    def test_a_refusal_ends_with_1_and_its_words(self):
        said = (
            "sukhlent: refused 2: n is 0 or above the call's limit, or the two lists' or records' n differ, "
            "or a group's call, or a state that it holds, has another n than 64\n"
        )
        self.assertEqual(called("reduce", self.file("empty", "sign z x\n")), (1, "", said))
        for name in ("reduce", "draw"):
            status, out, err = called(name, self.file("cut", BELL[:-2]))
            self.assertEqual((status, out), (1, ""))
            self.assertIn("line 3, column 20: expected 16 lower-case hexadecimal digits", err)

    def test_comparisons_of_texts_of_every_kind(self):
        strings, record = self.file("strings", "+XX\n-ZZ\n"), self.file("record", RECORD)
        status, out, _ = called("compare", record, strings)
        self.assertEqual((status, out.splitlines()[0], out.splitlines()[-1]), (0, "qubit code gate", "complementations"))
        job = self.file("answers", program("job", "qubits\n2\nop a b value\n"))
        self.assertEqual(called("compare", job, strings)[0], 1)
        self.assertIn("refused 13", called("compare", job, strings)[2])
        other = self.file("three", "+X\n")
        self.assertIn("refused 2", called("compare", strings, other)[2])
        self.assertEqual(called("equivalent", record, strings), called("compare", record, strings))
        ghz = self.file("ghz", "+" + 21 * "X" + "\n" + "".join(f"+{q * 'I'}ZZ{(19 - q) * 'I'}\n" for q in range(20)))
        self.assertIn("refused 3", called("compare", ghz, ghz)[2])
        self.assertEqual(called("equivalent", ghz, ghz)[1].splitlines()[21:], ["20 0 I", "complementations"])
        status, out, _ = called("equivalent", "--renumbered", record, strings)
        self.assertEqual((status, out.splitlines()[0]), (0, "qubit from code gate"))

    def test_drawings_of_every_layout(self):
        list_file = self.file("bell", BELL)
        status, out, _ = called("draw", list_file)
        self.assertEqual((status, out.count("<line"), out.count("<circle")), (0, 1, 2))
        target = self.folder / "bell.svg"
        self.assertEqual(called("draw", list_file, "--layout", "1x2", "-o", str(target)), (0, "", ""))
        self.assertEqual(target.read_text(), called("draw", list_file, "--layout", "line")[1])
        self.assertEqual(called("draw", list_file, "--layout", "2x2")[0], 2)
        nowhere = str(self.folder / "none" / "bell.svg")
        said = f"sukhlent: {nowhere}: No such file or directory\n"
        self.assertEqual(called("draw", list_file, "-o", nowhere), (2, "", said))

    def test_a_text_of_strings_is_judged_as_the_call_judges_it(self):
        for text, number in (("", 2), ("+XX", 1), ("+X*\n+_Z\n", 1), ("\n", 2), ("+XX\n+ZI", 9)):
            status, out, err = called("draw", self.file("strings", text))
            self.assertEqual((status, out), (1, ""), text)
            self.assertTrue(err.startswith(f"sukhlent: refused {number}: "), (text, err))

    def test_a_reader_that_ends_early_is_no_fault(self):
        text = generate(64, 4096, 1)
        for command in ("job", "draw"):
            file = self.file("job", text if command == "job" else program("job", text))
            shell = f'"$0" -m sukhlent {command} "$1" | head -n 1'
            run = subprocess.run(
                ["sh", "-c", shell, sys.executable, file], capture_output=True, text=True, timeout=60, cwd=ROOT / "python"
            )
            self.assertEqual((run.returncode, run.stderr, run.stdout.count("\n")), (0, "", 1))

    def test_forms_say_a_fault_exactly_where_the_programs_refuse_by_1(self):
        source = random.Random(11)
        for name, fault, good in (("reduce", forms.list_fault, BELL), ("job", forms.job_fault, generate(3, 2, 9))):
            texts = [good, "", good[:9]] + [damaged(source, good) for _ in range(120)]
            told = [(program(name, plain_text(text)) == "refused 1\n", fault(text)) for text in texts]
            for text, (refused, said) in zip(texts, told):
                self.assertEqual(refused, said is not None, repr(text))
                self.assertRegex(said or "line 1, column 1", r"^line \d+, column \d+")
            self.assertGreater(sum(refused for refused, _ in told), 40)
            self.assertGreater(sum(not refused for refused, _ in told), 5)

    def test_progress_is_shown_at_a_terminal_alone(self):
        ours, theirs = pty.openpty()
        before = sys.stderr
        with os.fdopen(theirs, "w") as sys.stderr:
            progress = Progress("reduce", 200)
            progress.at(50)
            time.sleep(0.55)
            progress.at(100)
            progress.end()
        sys.stderr = before
        self.assertEqual(terminal(ours), b"\rsukhlent: reduce: 50 % of 200 bytes\r\x1b[K")
        os.close(ours)
        out = io.StringIO()
        with redirect_stderr(out):
            progress = Progress("reduce", 200)
            time.sleep(0.55)
            progress.at(100)
            progress.end()
        self.assertEqual(out.getvalue(), "")

    def test_a_library_that_is_missing_or_old_is_told_with_what_to_run(self):
        with mock.patch.object(library, "_candidates", lambda: [self.folder / "none.so"]):
            with self.assertRaisesRegex(ImportError, "Build it with tools/shared .*\n.*none.so"):
                library._load()
        with mock.patch.dict(os.environ, {"SUKHLENT_LIBRARY": str(self.folder / "named.so")}):
            with self.assertRaisesRegex(ImportError, "named.so$"):
                library._load()
        with mock.patch.dict(library._CALLS, {"unheard_of": ()}):
            with self.assertRaisesRegex(ImportError, "has no sukhlent_unheard_of: it is of another version"):
                library._load()
