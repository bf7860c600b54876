"""OpenQASM 2 and 3: registers, Clifford gates and gates made of them, measurements, resets, and parts that depend on
bits."""

from __future__ import annotations

from typing import Callable, Iterator, NamedTuple

from .building import Building, circuit, fault, small
from .model import Circuit, Measure, Reset, Where
from .qasm_gates import applied
from .steps import Step
from .tokens import Angles, Token, tokens

_REFUSED = frozenset(
    "for while def extern switch input output const let box delay stretch duration int uint float angle bool complex array"
    " opaque defcal defcalgrammar cal pragma return break continue gphase".split()
)


_MOST_BITS = 1_000_000


class Defined(NamedTuple):
    """A gate that the file defines: the names of its angles and qubits, its words, and the gates defined before it."""

    angles: list[str]
    qubits: list[str]
    body: list[Token]
    known: "dict[str, Defined]"


class _Parser:
    """A file while it is read."""

    def __init__(self, text: str):
        self.words, self.at = tokens(text), 0
        self.qubits: dict[str, tuple[int, int, bool]] = {}
        self.registers: dict[str, int] = {}
        self.defined: dict[str, Defined] = {}
        self.n = 0

    # ---- words

    def peek(self) -> Token:
        """The next word; an end mark behind the last."""
        if self.at < len(self.words):
            return self.words[self.at]
        last = self.words[-1] if self.words else Token("mark", "", 1, 1)
        return Token("end", "the end of the file", last.line, last.column + len(last.text))

    def take(self) -> Token:
        word = self.peek()
        self.at += 1
        return word

    def expect(self, text: str) -> Token:
        word = self.take()
        if word.text != text:
            raise fault(word.line, word.column, f"expected {text}, not {word.text}")
        return word

    def name(self) -> Token:
        word = self.take()
        if word.kind != "word":
            raise fault(word.line, word.column, f"expected a name, not {word.text}")
        return word

    def number(self) -> int:
        word = self.take()
        number = small(word.text)
        if number is None:
            raise fault(word.line, word.column, f"expected a number, not {word.text}")
        return number

    def optional(self, text: str) -> bool:
        if self.peek().text == text:
            self.at += 1
            return True
        return False

    # ---- statements

    def statement(self, into: Building) -> None:
        word = self.peek()
        known: dict[str, Callable[[Building], None]] = {
            "OPENQASM": self.skipped, "include": self.skipped, "barrier": self.skipped, "nop": self.skipped,
            "qreg": self.old_register, "creg": self.old_register, "qubit": self.register, "bit": self.register,
            "gate": self.definition, "measure": self.measurement, "reset": self.reset, "if": self.condition,
        }  # fmt: skip
        if word.text in known:
            known[word.text](into)
        elif word.text == ";":
            self.take()
        elif word.text in _REFUSED or word.kind != "word":
            raise fault(word.line, word.column, f"{word.text} is nothing that this reader knows")
        elif word.text in self.registers:
            self.assignment(into)
        else:
            self.application(into)

    def block(self) -> Building:
        """A statement, or several between braces."""
        inside = Building()
        if not self.optional("{"):
            self.statement(inside)
            return inside
        while not self.optional("}"):
            if self.peek().kind == "end":
                self.expect("}")
            self.statement(inside)
        return inside

    def skipped(self, into: Building) -> None:
        word = self.take()
        if word.text == "OPENQASM" and self.peek().text.split(".")[0] not in ("2", "3"):
            raise fault(self.peek().line, self.peek().column, f"OpenQASM {self.peek().text}, but this reader knows 2 and 3")
        while self.take().text != ";":
            if self.peek().kind == "end":
                self.expect(";")

    def old_register(self, into: Building) -> None:
        kind, name = self.take(), self.name()
        self.expect("[")
        size = self.number()
        self.expect("]")
        self.expect(";")
        self.declare(kind.text == "qreg", name, size, True)

    def register(self, into: Building) -> None:
        kind = self.take()
        several = self.optional("[")
        size = self.number() if several else 1
        if several:
            self.expect("]")
        name = self.name()
        self.declare(kind.text == "qubit", name, size, several)
        if kind.text == "bit" and self.optional("="):
            self.at -= 2
            self.assignment(into)
            return
        self.expect(";")

    def declare(self, quantum: bool, name: Token, size: int, several: bool) -> None:
        if name.text in self.qubits or name.text in self.registers:
            raise fault(name.line, name.column, f"{name.text} is declared twice")
        if not quantum and size > _MOST_BITS:
            raise fault(name.line, name.column, f"{size} bits, but this reader keeps at most {_MOST_BITS} in a register")
        if not quantum:
            self.registers[name.text] = size
            return
        if self.n + size > 64:
            raise fault(name.line, name.column, f"{self.n + size} qubits, but a state has at most 64")
        self.qubits[name.text] = (self.n, size, several)
        self.n += size

    def definition(self, into: Building) -> None:
        self.expect("gate")
        name = self.name()
        angles: list[str] = []
        if self.optional("("):
            while not self.optional(")"):
                angles.append(self.name().text)
                self.optional(",")
        qubits = [self.name().text]
        while self.optional(","):
            qubits.append(self.name().text)
        self.expect("{")
        start = self.at
        while self.peek().text != "}":
            if self.peek().kind == "end":
                self.expect("}")
            self.at += 1
        self.defined[name.text] = Defined(angles, qubits, self.words[start : self.at], dict(self.defined))
        self.expect("}")

    # ---- operands

    def operand(self) -> "list[int]":
        """The qubits that an operand names."""
        name = self.name()
        if name.text not in self.qubits:
            raise fault(name.line, name.column, f"no qubit is called {name.text}")
        first, size, several = self.qubits[name.text]
        if not several or not self.optional("["):
            return list(range(first, first + size))
        place = self.peek()
        index = self.number()
        self.expect("]")
        if index >= size:
            raise fault(place.line, place.column, f"{name.text}[{index}], but {name.text} has {size} qubits")
        return [first + index]

    def bits(self) -> list[tuple[str, int]]:
        """The bits that an operand names."""
        name = self.name()
        if name.text not in self.registers:
            raise fault(name.line, name.column, f"no bit is called {name.text}")
        size = self.registers[name.text]
        if not self.optional("["):
            return [(name.text, k) for k in range(size)]
        place = self.peek()
        index = self.number()
        self.expect("]")
        if index >= size:
            raise fault(place.line, place.column, f"{name.text}[{index}], but {name.text} has {size} bits")
        return [(name.text, index)]

    # ---- what is done

    def measurement(self, into: Building) -> None:
        """`measure q -> c;`, or `measure q;` alone."""
        word = self.expect("measure")
        qubits = self.operand()
        self.measured(into, word, qubits, self.bits() if self.optional("->") else None)
        self.expect(";")

    def assignment(self, into: Building) -> None:
        """`c = measure q;`"""
        bits = self.bits()
        self.expect("=")
        word = self.expect("measure")
        self.measured(into, word, self.operand(), bits)
        self.expect(";")

    @staticmethod
    def measured(into: Building, word: Token, qubits: list[int], bits: "list[tuple[str, int]] | None") -> None:
        if bits is not None and len(bits) != len(qubits):
            raise fault(word.line, word.column, f"{len(qubits)} qubits are measured into {len(bits)} bits")
        for k, qubit in enumerate(qubits):
            into.part(Measure(1 << qubit, 0, 0, bits[k] if bits else None))

    def reset(self, into: Building) -> None:
        self.expect("reset")
        for qubit in self.operand():
            into.part(Reset(qubit, 8))
        self.expect(";")

    def condition(self, into: Building) -> None:
        """`if (c == 3) ..`, `if (c[0]) ..`, `if (!c[0]) ..`, with `else` or without."""
        self.expect("if")
        self.expect("(")
        turned = self.optional("!")
        bits = self.bits()
        due = (1 << len(bits)) - 1 if len(bits) == 1 else None
        if self.peek().text in ("==", "!="):
            turned ^= self.take().text == "!="
            word = self.peek()
            due = {"true": 1, "false": 0}.get(word.text)
            due = self.number() if due is None else (self.take(), due)[1]
        self.expect(")")
        body = self.block()
        other = self.block() if self.optional("else") else Building()

        def holds(going) -> bool:
            value = sum(going.result.bits[name][k] << place for place, (name, k) in enumerate(bits))
            return (value != 0 if due is None else value == due) != turned

        into.part(Where(holds, body.close(), other.close()))

    def application(self, into: Building) -> None:
        """A gate on its operands, of which registers are taken qubit by qubit."""
        inverse = False
        while self.peek().text == "inv":
            self.take()
            self.expect("@")
            inverse = not inverse
        name = self.name()
        if name.text in ("ctrl", "negctrl", "pow"):
            raise fault(name.line, name.column, f"{name.text} is nothing that this reader knows: cx, cy and cz are")
        angles = self.angles({})
        operands = [self.operand()]
        while self.optional(","):
            operands.append(self.operand())
        self.expect(";")
        length = max(len(operand) for operand in operands)
        if any(len(operand) not in (1, length) for operand in operands):
            raise fault(name.line, name.column, f"{name.text} takes registers of one length")
        for k in range(length):
            qubits = [operand[k if len(operand) > 1 else 0] for operand in operands]
            into.steps(made_of(name, angles, qubits, inverse, self.defined))

    def angles(self, names: dict[str, float]) -> list[float]:
        """The angles between brackets behind a gate's name."""
        if not self.optional("("):
            return []
        parts: list[list[Token]] = [[]]
        ends: list[Token] = []
        depth = 0
        while depth or self.peek().text != ")":
            word = self.take()
            if word.kind == "end":
                raise fault(word.line, word.column, "expected ), not the end of the file")
            depth += {"(": 1, ")": -1}.get(word.text, 0)
            if word.text == "," and not depth:
                ends.append(word)
                parts.append([])
            else:
                parts[-1].append(word)
        ends.append(self.expect(")"))
        if parts == [[]]:
            return []
        return [Angles(part, names, end).value() for part, end in zip(parts, ends)]


def made_of(name: Token, angles: list[float], qubits: list[int], inverse: bool, defined: dict[str, Defined]) -> list[Step]:
    """The steps of a gate on these qubits, among the gates that the file has defined so far."""
    if len(set(qubits)) != len(qubits):
        raise fault(name.line, name.column, f"{name.text} names a qubit twice")
    made = defined.get(name.text)
    if made is None:
        return applied(name, angles, qubits, inverse)
    if (len(angles), len(qubits)) != (len(made.angles), len(made.qubits)):
        raise fault(name.line, name.column, f"{name.text} takes {len(made.angles)} angles and {len(made.qubits)} qubits")
    parts = list(_expanded(made, dict(zip(made.angles, angles)), dict(zip(made.qubits, qubits)), inverse))
    return [step for part in (reversed(parts) if inverse else parts) for step in part]


def _expanded(made: Defined, angles: dict[str, float], places: dict[str, int], inverse: bool) -> Iterator[list[Step]]:
    """The steps of each gate inside one that the file defines."""
    inside = _Parser("")
    inside.words = made.body
    while inside.peek().kind != "end":
        turned = inverse
        while inside.optional("inv"):
            inside.expect("@")
            turned = not turned
        name = inside.name()
        if name.text == "barrier":
            while inside.peek().kind != "end" and inside.take().text != ";":
                pass
            continue
        given = inside.angles(angles)
        named = [inside.name()]
        while inside.optional(","):
            named.append(inside.name())
        inside.expect(";")
        strange = next((word for word in named if word.text not in places), None)
        if strange:
            raise fault(strange.line, strange.column, f"no qubit of the gate is called {strange.text}")
        yield made_of(name, given, [places[word.text] for word in named], turned, made.known)


def read_qasm(text: str) -> Circuit:
    """The circuit of an OpenQASM file.

    >>> read_qasm("OPENQASM 3; qubit[2] q; bit[2] c; h q[0]; cx q[0], q[1]; c = measure q;").registers
    {'c': 2}
    """
    parser, whole = _Parser(text), Building()
    while parser.peek().kind != "end":
        parser.statement(whole)
    return circuit(whole, max(parser.n, 1), parser.registers)
