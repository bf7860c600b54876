"""The tokens of a Rattle file, its declarations, and which tokens are code."""

import re
from dataclasses import dataclass, field

TOKEN = re.compile(
    r"""
      (?P<skip>\s+|//[^\n]*)
    | (?P<text>b?"(?:\\.|[^"\\])*"|b'(?:\\.|[^'\\])')
    | (?P<number>0x[0-9A-Fa-f_]+?(?:u8|u16|u32|u64|usize)?\b|[0-9][0-9_]*(?:u8|u16|u32|u64|usize)?)
    | (?P<name>[A-Za-z_][A-Za-z0-9_]*)
    | (?P<mark><<=|>>=|::|->|=>|==|!=|<=|>=|&&|\|\||<<|>>|[-+*/%^&|]=|\.\.|.)
    """,
    re.VERBOSE | re.DOTALL,
)

OPENING = {"(": ")", "[": "]", "{": "}"}


@dataclass
class Token:
    kind: str
    text: str
    start: int
    end: int


@dataclass
class Function:
    """A function: its own name and that with its type's before it, the types of its parameters by name, their places,
    its answer's type, the places of its clauses, each with its word, and those of its body; whether C can call it."""

    name: str
    full: str
    parameters: dict
    places: dict
    answer: str
    clauses: list
    body: tuple
    exported: bool


@dataclass
class Declarations:
    """The functions, structs and enums of several files, by name."""

    functions: dict = field(default_factory=dict)
    structs: dict = field(default_factory=dict)
    enums: dict = field(default_factory=dict)


def tokens_of(text):
    found = []
    for match in TOKEN.finditer(text):
        if match.lastgroup != "skip":
            found.append(Token(match.lastgroup, match.group(), match.start(), match.end()))
    return found


def closing(tokens, i):
    """The place of the mark that closes the one at place i."""
    depth = 0
    for k in range(i, len(tokens)):
        if tokens[k].text in OPENING:
            depth += 1
        elif tokens[k].text in OPENING.values():
            depth -= 1
            if depth == 0:
                return k
    raise ValueError("a bracket stays open")


def parts(tokens, i):
    """The parts between the commas of the bracket at place i, as pairs of places."""
    end = closing(tokens, i)
    found, start, k = [], i + 1, i + 1
    while k < end:
        if tokens[k].text in OPENING:
            k = closing(tokens, k)
        elif tokens[k].text in (",", ";"):
            found.append((start, k))
            start = k + 1
        k += 1
    if start < end:
        found.append((start, end))
    return found


def words(tokens, part):
    return [token.text for token in tokens[part[0]:part[1]]]


def typed(text):
    """The name and the type of a parameter or field."""
    if ":" not in text:
        return "self", "Self"
    colon = text.index(":")
    return text[colon - 1], " ".join(text[colon + 1:])


def after_types(tokens, i):
    """The place after the type parameters that begin at place i, or i where none do."""
    depth = 0
    while tokens[i].text == "<" or depth:
        depth += {"<": 1, ">": -1, ">>": -2}.get(tokens[i].text, 0)
        i += 1
        if not depth:
            break
    return i


def read_function(tokens, i, owner):
    opened = after_types(tokens, i + 2)
    given = parts(tokens, opened)
    parameters = dict(typed(words(tokens, part)) for part in given)
    places = dict(zip(parameters, (part[0] for part in given)))
    k = closing(tokens, opened) + 1
    answer = []
    while tokens[k].text not in ("{", "requires", "ensures"):
        answer.append(tokens[k].text)
        k += 1
    clauses = []
    while tokens[k].text in ("requires", "ensures"):  # with a name or without
        start = k + 1 if tokens[k + 1].text == "{" else k + 2
        end = closing(tokens, start) + 1
        clauses.append((tokens[k].text, k, end))
        k = end
    name = tokens[i + 1].text
    return Function(
        name=name,
        full=owner + name,
        parameters=parameters,
        places=places,
        answer=" ".join(answer[1:]),
        clauses=clauses,
        body=(k + 1, closing(tokens, k)),
        exported=words(tokens, (i - 2, i)) == ["extern", '"C"'],
    )


def functions_of(tokens):
    found, i = [], 0
    owner, until = "", -1
    while i < len(tokens):
        if i == until:
            owner = ""
        if tokens[i].text == "impl":
            owner, until = tokens[i + 1].text + "::", closing(tokens, i + 2)
        if tokens[i].text == "fn":
            found.append(read_function(tokens, i, owner))
            i = found[-1].body[1]
        else:
            i += 1
    return found


def constants_of(tokens):
    """The constants: the name of each, and the places of its value."""
    found = []
    for i, token in enumerate(tokens):
        if token.text == "const":
            start = next(k for k in range(i, len(tokens)) if tokens[k].text == "=") + 1
            end = closing(tokens, start) + 1 if tokens[start].text in OPENING else start + 1
            found.append((tokens[i + 1].text, (start, end)))
    return found


def imported_constants(tokens):
    """The constants that a file takes from others, in order."""
    paths = (tokens[i - 1] for i, token in enumerate(tokens) if token.text == ";" and tokens[i - 2].text == "::")
    return [last.text for last in paths if last.text.isupper() and len(last.text) > 1]


def statements_of(tokens, start, end):
    """The statements of the block between two places, as pairs of places; a last expression is none."""
    found, first, k = [], start, start
    while k < end:
        if tokens[k].text in OPENING:
            k = closing(tokens, k)
            if tokens[k].text == "}" and tokens[first].text in ("if", "while", "match", "loop", "for"):
                if tokens[k + 1].text != "else":
                    found.append((first, k + 1))
                    first = k + 1
        elif tokens[k].text == ";":
            found.append((first, k + 1))
            first = k + 1
        k += 1
    return found


def blocks_of(tokens, start, end, structs):
    """The blocks of code between two places, that between them first: no values of structs, no arms."""
    found = [(start, end)]
    for i in range(start, end):
        if tokens[i].text == "{" and tokens[i - 1].text not in structs:
            close = closing(tokens, i)
            inner = i + 1
            while inner < close and tokens[inner].text != "=>":
                inner = closing(tokens, inner) + 1 if tokens[inner].text in OPENING else inner + 1
            if inner >= close:
                found.append((i + 1, close))
    return found


def declare(into, tokens):
    """Adds the declarations of a file."""
    for function in functions_of(tokens):
        into.functions.setdefault(function.name, []).append(function)
    for i, token in enumerate(tokens):
        if token.text == "struct":
            fields = (words(tokens, part) for part in parts(tokens, i + 2))
            into.structs[tokens[i + 1].text] = dict(typed(one) for one in fields)
        elif token.text == "enum":
            variants = (words(tokens, part) for part in parts(tokens, i + 2))
            into.enums[tokens[i + 1].text] = [one[0] for one in variants if len(one) == 1]
