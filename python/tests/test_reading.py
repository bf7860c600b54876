"""Texts as others write them, by the package and by every subcommand."""

import io
import random
import tempfile
import unittest
from contextlib import redirect_stderr, redirect_stdout
from pathlib import Path

from sukhlent import GeneratorList, State, read_list, read_record, read_state
from sukhlent.command import main
from tests.places import program

STATE = State.from_strings("+XZI", "-ZXZ", "+IZX")
STRINGS = "+XZI\n-ZXZ\n+IZX\n"


def called(*arguments):
    """The status of the command and what it prints, in this process."""
    out, err = io.StringIO(), io.StringIO()
    with redirect_stdout(out), redirect_stderr(err):
        status = main(list(arguments))
    return status, out.getvalue(), err.getvalue()


def spellings(text):
    """A text as different tools and editors leave it."""
    yield text
    yield text.removesuffix("\n")
    yield text.replace("\n", "\r\n")
    yield "\ufeff" + text
    yield "\n\n" + text.replace("\n", "\n\n")
    yield text.replace("\n", "  \n") + "\n"
    yield "\ufeff" + text.replace("\n", "\r\n\r\n").removesuffix("\r\n")


class Reading(unittest.TestCase):
    def test_strings_as_others_write_them(self):
        for text in (STRINGS, STRINGS.replace("I", "_"), STRINGS.replace("+", ""), STRINGS.replace("+", "").replace("I", "_")):
            for spelling in spellings(text):
                self.assertEqual(GeneratorList.from_text(spelling).strings(), STRINGS.split(), repr(spelling))
                self.assertEqual(State.from_strings(spelling), STATE)
                self.assertEqual(State.from_strings(spelling.splitlines()), STATE)

    def test_the_proved_reader_stays_strict(self):
        from sukhlent import library

        for text in (STRINGS[:-1], STRINGS.replace("I", "_"), "\ufeff" + STRINGS, STRINGS.replace("\n", "\r\n")):
            n = text.count("\n")
            room = library.blank_octets(n), library.blank_words(n), library.blank_words(n)
            self.assertEqual(library.call("read_strings", library.octets(text.encode()), *room), 1)

    def test_lists_and_records_as_others_write_them(self):
        listed, record = STATE.generators().text(), str(STATE) + "\n"
        for spelling in spellings(listed):
            self.assertEqual(read_list(spelling), STATE.generators())
            self.assertEqual(read_state(spelling), STATE)
        for spelling in spellings(record):
            self.assertEqual(repr(read_record(spelling)), repr(STATE))
            self.assertEqual(repr(State.from_text(spelling)), repr(STATE))

    def test_places_are_those_of_the_text_that_was_given(self):
        from sukhlent import Refusal

        for text, said in (
            ("\ufeff\n\n+XX\r\n\n -Z*\r\n", "line 5, column 4: '*', where a letter I, X, Y, Z or _ was expected"),
            ("sign z x\n\n  0 zz\n", "line 3, column 5: expected 16 lower-case hexadecimal digits"),
            ("qubit code neighbours used\n\n0 8 0000000000000000 2", "line 3, column 22: expected 0 or 1, for a used qubit"),
        ):
            with self.assertRaises(Refusal) as refused:
                read_state(text)
            self.assertEqual((refused.exception.number, refused.exception.where), (1, said))

    def test_every_subcommand_takes_every_kind_of_text(self):
        job = program("job", "qubits\n3\nop a b value\n" + "".join(f"gate {q} 0 8\n" for q in range(3)) + "cz 0 1 0\ncz 1 2 0\ngate 1 0 2\n")
        self.assertEqual(read_state(job), STATE)
        kinds = [STRINGS, STRINGS.replace("I", "_").replace("+", ""), STATE.generators().text(), str(STATE), job]
        with tempfile.TemporaryDirectory() as folder:
            said = []
            for k, text in enumerate(kinds):
                for m, spelling in enumerate(spellings(text)):
                    file = Path(folder) / f"{k}-{m}"
                    file.write_bytes(spelling.encode())
                    said.append(
                        [
                            called("reduce", str(file)), called("amplitudes", str(file)), called("draw", str(file)),
                            called("compare", str(file), str(file)), called("equivalent", str(file), str(file)),
                            called("expectation", str(file), "XZ_", "X0*Z1"),
                        ]
                    )  # fmt: skip
            for one in said:
                self.assertEqual(one, said[0])
            self.assertEqual([status for status, _, _ in said[0]], [0] * 6)
            self.assertEqual(said[0][0][1], str(STATE) + "\n")

    def test_other_encodings(self):
        with tempfile.TemporaryDirectory() as folder:
            file = Path(folder) / "utf16"
            file.write_bytes(STRINGS.encode("utf-16"))
            self.assertEqual(called("reduce", str(file))[1], str(STATE) + "\n")

    def test_any_bytes_are_read_or_refused(self):
        source = random.Random(1)
        with tempfile.TemporaryDirectory() as folder:
            file = Path(folder) / "noise"
            for _ in range(150):
                text = bytearray(source.choice((STRINGS, STATE.generators().text(), str(STATE))).encode())
                for _ in range(source.randrange(4)):
                    text[source.randrange(len(text))] = source.randrange(256)
                file.write_bytes(text)
                status, out, err = called("draw", str(file))
                self.assertIn(status, (0, 1), text)
                self.assertEqual(bool(out), status == 0)


if __name__ == "__main__":
    unittest.main()
