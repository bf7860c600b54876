"""States, stores and shared records in files: what is read back, what is refused and in which line, and what a crash leaves."""

import os
import random
import tempfile
import unittest
from pathlib import Path
from unittest import mock

from sukhlent import Refusal, Shared, State, Store, files, read_state
from tests.places import sukhlent
from tests.test_shared import WORD, drawn, made


def random_state(chance, n):
    """A record with every kind of code, edges and used qubits; not always reduced."""
    state = State.zeros(n)
    for _ in range(4 * n):
        a, b = chance.randrange(n), chance.randrange(n)
        for call in (("gate", a, chance.randrange(24)), ("cz", a, b), ("complement", a)):
            made(state, call)
        if chance.random() < 0.1:
            made(state, ("measure", chance.choice("XYZ"), b))
    return state


def random_store(chance):
    """A store with free places between others."""
    store = Store()
    for name in ("start", b"\xff\x00\n\"\\ \x01\x02", "", "a b", "ψ", "12345678"):
        store.save(name, random_state(chance, chance.choice((1, 2, 7, 64))))
    store.forget("start" if chance.random() < 0.5 else "a b")
    return store


def seen(held):
    """The heads of the places that are taken, with the states there."""
    heads, neighbours, codes = held.all
    for place in range(8):
        n = heads[3 * place]
        if n:
            at = slice(64 * place, 64 * place + n)
            yield place, heads[3 * place : 3 * place + 3], neighbours[at], codes[at]


class Kept(unittest.TestCase):
    def setUp(self):
        folder = tempfile.TemporaryDirectory()
        self.addCleanup(folder.cleanup)
        self.path = os.path.join(folder.name, "kept.txt")

    def number(self, number, where, call, *given):
        with self.assertRaises(Refusal) as refused:
            call(*given)
        self.assertEqual((refused.exception.number, refused.exception.where), (number, where))

    def test_states_come_back(self):
        chance = random.Random(1)
        for n in (1, 2, 9, 63, 64):
            state = random_state(chance, n)
            state.save(self.path)
            again = State.load(self.path)
            self.assertEqual(repr(again), repr(state))
            self.assertEqual(Path(self.path).read_text(), f"{state}\n")
            self.assertEqual(repr(State.read(str(state))), repr(state))

    def test_stores_come_back_place_by_place(self):
        for seed in range(10):
            store = random_store(random.Random(seed))
            store.save_all(self.path)
            again = Store.load(self.path)
            self.assertEqual(list(seen(again._buffers)), list(seen(store._buffers)))
            self.assertEqual((again.names(), str(again)), (store.names(), str(store)))
            self.assertEqual(Path(self.path).read_text(), f"{store}\n")
            self.assertTrue(str(store).isascii())

    def test_shared_records_come_back_with_what_the_groups_hold(self):
        for seed in range(6):
            source, shared = random.Random(seed), Shared(WORD)
            for _ in range(60):
                group = shared.group(source.randrange(2))
                made(group, drawn(source, group.qubits(), "ABCDE"))
            shared.save(self.path)
            again = Shared.load(self.path)
            self.assertEqual((again.word, repr(again.state())), (shared.word, repr(shared.state())))
            self.assertEqual(list(seen(again._store)), list(seen(shared._store)))
            for number in (0, 1):
                self.assertEqual(again.group(number).names(), shared.group(number).names())

    def test_a_shared_record_with_an_edge_between_the_groups_comes_back(self):
        shared = Shared(range(32, 64))
        shared.group(0).save("A")
        shared.replace(State.graph(64, [(3, 50)]))
        again = Shared.read(str(shared))
        self.assertEqual(again.state().edges(), [(3, 50)])
        self.assertEqual(again.group(0).names(), ["A"])

    def test_texts_that_are_no_records_are_refused_with_the_line(self):
        text = str(State.zeros(2))
        self.number(1, "line 3, column 5: expected 16 lower-case hexadecimal digits", State.read, text.replace("1 8 0", "1 8 A"))
        self.number(6, "the code 24 at qubit 1, but codes are 0 to 23", State.read, text.replace("1 8 0", "1 24 0"))
        Path(self.path).write_text(text[:-3])
        self.number(1, f"{self.path}: line 3, column 5: expected 16 lower-case hexadecimal digits", State.load, self.path)

    def test_texts_that_are_no_stores_are_refused_with_the_line(self):
        store = Store()
        for name in "AB":
            store.save(name, State.zeros(2))
        text = str(store)
        for old, new, number, where in (
            ("held 2", "held 9", 1, "line 1, column 1: expected 'held' and a number up to 8"),
            ("held 2", "held 3", 1, "line 12, column 1: expected the line 'place qubits name'"),
            ("held 2", "held 1", 1, "line 7, column 1: expected the end of the text"),
            ('1 2 "B"', '0 2 "B"', 1, "line 8, column 1: place 0 after place 0, where places rise"),
            ('1 2 "B"', '1 65 "B"', 1, "line 8, column 4: expected one space"),
            ('1 2 "B"', '1 3 "B"', 1, "line 12, column 1: expected 2, the vertices rising from 0"),
            ('1 2 "B"', '1 2 "123456789"', 1, "line 8, column 5: expected a name in quotes, its bytes as letters or as \\x0a"),
            ('1 2 "B"', '1 2 "A"', 7, f"line 8: {Refusal(7).text}"),
            ("0 8 0000000000000000 0", "0 8 0000000000000002 0", 7,
             "line 4: vertex 0 has the neighbour 1, but not 1 the neighbour 0"),
        ):  # fmt: skip
            self.assertIn(old, text)
            self.number(number, where, Store.read, text.replace(old, new, 1))

    def test_texts_that_are_no_shared_records_are_refused_with_the_line(self):
        shared = Shared([1, 3])
        shared.group(1).save("A")
        text = str(shared)
        self.number(1, "line 1, column 1: expected 'groups' and 16 lower-case hexadecimal digits", Shared.read, text[1:])
        self.number(1, "line 134, column 1: expected 63, the vertices rising from 0", Shared.read, text.rpartition("\n")[0])
        joined = text.partition("place")[0] + 'place qubits name\n0 64 "A"\n' + str(State.graph(64, [(1, 3)]))
        self.number(7, f"line 69: {Refusal(7).text}", Shared.read, joined)  # qubits of group 1, at a place of group 0

    def test_every_cut_of_a_store_or_a_shared_record_is_refused(self):
        store = Store()
        for name in "AB":
            store.save(name, State.graph(3, [(0, 1)]))
        for kind, text, stride in ((Store, str(store), 1), (Shared, str(Shared([1, 3])), 23)):
            for length in range(0, len(text), stride):
                with self.assertRaises(Refusal):
                    kind.read(text[:length])

    def test_the_command_reads_a_record_wherever_it_reads_a_state(self):
        State.graph(3, [(0, 1), (1, 2)]).save(self.path)
        self.assertEqual(sukhlent("expectation", self.path, "XZI")[:2], (0, "row value\nXZI 1\n"))
        self.assertEqual(sukhlent("reduce", self.path)[:2], (0, Path(self.path).read_text()))
        self.assertEqual(sukhlent("compare", self.path, self.path)[0], 0)
        self.assertEqual(sukhlent("amplitudes", self.path)[0], 0)
        self.assertEqual(read_state(Path(self.path).read_text()).n, 3)


class Replaced(unittest.TestCase):
    """A file is written in the order that a power cut asks for, and a failure leaves the old one."""

    def setUp(self):
        folder = tempfile.TemporaryDirectory()
        self.addCleanup(folder.cleanup)
        self.folder = folder.name
        self.path = os.path.join(self.folder, "kept.txt")

    def test_the_new_file_is_flushed_before_it_is_renamed_and_the_folder_after(self):
        seen, named = [], {}
        real = {name: getattr(os, name) for name in ("open", "write", "fsync", "rename")}

        def opened(path, *given):
            file = real["open"](path, *given)
            named[file] = os.path.relpath(path, self.folder)
            return file

        def told(name):
            def call(first, *given):
                seen.append((name, named.get(first, first)))
                return real[name](first, *given)

            return call

        with mock.patch.multiple(os, open=opened, **{name: told(name) for name in ("write", "fsync", "rename")}):
            files.replace(self.path, "text\n")
        new = seen[0][1]
        self.assertTrue(new.startswith("kept.txt.") and new.endswith(".new"))
        due = [("write", new), ("fsync", new), ("rename", os.path.join(self.folder, new)), ("fsync", ".")]
        self.assertEqual(seen, due)
        self.assertEqual(os.listdir(self.folder), ["kept.txt"])

    def test_a_failure_leaves_the_old_file_and_no_other(self):
        State.zeros(1).save(self.path)
        for name in ("write", "fsync", "rename"):
            with mock.patch.object(os, name, side_effect=OSError(28, "No space left on device")):
                with self.assertRaises(OSError):
                    State.zeros(2).save(self.path)
            self.assertEqual(os.listdir(self.folder), ["kept.txt"])
            self.assertEqual(State.load(self.path), State.zeros(1))

    def test_a_link_stays_a_link_and_the_mode_stays(self):
        State.zeros(1).save(self.path)
        os.chmod(self.path, 0o640)
        link = os.path.join(self.folder, "link")
        os.symlink("kept.txt", link)
        State.zeros(2).save(link)
        self.assertTrue(os.path.islink(link))
        self.assertEqual((State.load(self.path).n, os.stat(self.path).st_mode & 0o777), (2, 0o640))


if __name__ == "__main__":
    unittest.main()
