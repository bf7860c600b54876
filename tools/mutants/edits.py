"""The edits of a file's code: each makes one mistake."""

from dataclasses import dataclass

from mutants.source import (
    OPENING,
    blocks_of,
    closing,
    imported_constants,
    parts,
    statements_of,
    words,
)

MARKS = {
    "+": ["-"], "-": ["+"], "*": ["+"], "/": ["%"], "%": ["/"],
    "&": ["|", "^"], "|": ["&", "^"], "^": ["&", "|"], "<<": [">>"], ">>": ["<<"],
    "<": ["<=", ">"], "<=": ["<", ">="], "==": ["!="], "!=": ["=="],
    "+=": ["-="], "-=": ["+="],
}
WORDS = {"true": "false", "false": "true"}
INTEGERS = ("u8", "u16", "u32", "u64", "usize")
ENDS_OPERAND = ("name", "number", "text")
NO_VARIABLE_AFTER = ("(", "::", ":", "{", "!")
KEYWORDS = ("if", "else", "while", "match", "return", "let", "mut", "as", "loop", "true", "false")
STORES = ("=", "+=", "-=", "*=", "^=", "|=", "&=")
COUNTS = ("count_ones", "leading_zeros", "trailing_zeros")


@dataclass(frozen=True)
class Edit:
    """New text for a stretch of a file; `kind` says of what sort."""

    kind: str
    start: int
    end: int
    new: str


def binary(tokens, i):
    """Whether the mark at place i stands between two operands."""
    before = tokens[i - 1]
    operand = before.kind in ENDS_OPERAND and before.text not in KEYWORDS
    return operand or before.text in (")", "]")


def mark_edits(tokens, i):
    token = tokens[i]
    if binary(tokens, i):
        for new in MARKS.get(token.text, []):
            yield Edit("operator", token.start, token.end, new)
    if token.text == "!":
        yield Edit("dropped !", token.start, token.end, "")


def number_edits(token):
    digits = token.text
    suffix = next((word for word in INTEGERS if digits.endswith(word)), "")
    value = int(digits[:len(digits) - len(suffix)], 0)
    for near in sorted({value + 1, value - 1, 0} - {value}):
        if 0 <= near < 2**64:
            yield Edit("constant", token.start, token.end, f"{near}{suffix}")


def text_edits(token):
    """The first character exchanged for the next one; a line's end for a space."""
    quote = token.text.index(token.text[-1])
    first = token.text[quote + 1]
    if first == "\\":
        yield Edit("constant", token.start, token.end, token.text[:quote + 1] + " " + token.text[-1])
    else:
        new = token.text[:quote + 1] + chr(ord(first) + 1) + token.text[quote + 2:]
        yield Edit("constant", token.start, token.end, new)


def negated(text, tokens, i):
    """The condition of an `if` or `while`, negated."""
    k = i + 1
    while tokens[k].text != "{":
        k = closing(tokens, k) + 1 if tokens[k].text in OPENING else k + 1
    start, end = tokens[i + 1].start, tokens[k - 1].end
    yield Edit("negated condition", start, end, f"!({text[start:end]})")


def exchanged(text, tokens, one, other, kind):
    """Two parts of a list exchanged."""
    (a, b), (c, d) = [(tokens[part[0]].start, tokens[part[1] - 1].end) for part in (one, other)]
    if text[a:b] != text[c:d]:
        yield Edit(kind, a, d, text[c:d] + text[b:c] + text[a:b])


def pairs(found):
    return [(a, b) for k, b in enumerate(found) for a in found[:k]]


def value_edits(text, tokens, part, kind):
    """The value of a known type at a stretch of places: a bool negated, a number taken for 0 or with its last bit
    flipped."""
    start, end = tokens[part[0]].start, tokens[part[1] - 1].end
    if kind == "bool" and text[start:end] not in WORDS:
        yield Edit("negated value", start, end, f"!({text[start:end]})")
    if kind in INTEGERS and tokens[part[0]].kind != "number":
        yield Edit("0 for a value", start, end, "0")
        yield Edit("last bit flipped", start, end, f"({text[start:end]}) ^ 1")


def call_edits(text, tokens, i, declared):
    """Arguments of one type exchanged; an argument negated, 0, or with its last bit flipped."""
    given = parts(tokens, i + 1)
    seen, single = set(), set()
    for function in declared.functions.get(tokens[i].text, []):
        types = [kind for kind in function.parameters.values() if kind != "Self"]
        if len(types) == len(given):
            seen |= {(a, b) for a, b in pairs(range(len(given))) if types[a] == types[b]}
            single |= set(enumerate(types))
    for a, b in sorted(seen):
        yield from exchanged(text, tokens, given[a], given[b], "exchanged arguments")
    for a, kind in sorted(single):
        yield from value_edits(text, tokens, given[a], kind)


def count_edits(tokens, i):
    """A count of ones or zeros exchanged for another."""
    for new in COUNTS:
        if new != tokens[i].text:
            yield Edit("another count", tokens[i].start, tokens[i].end, new)


def array_edits(text, tokens, i):
    """The two entries of an array of two exchanged."""
    entries = parts(tokens, i)
    if len(entries) == 2 and tokens[entries[0][1]].text == ",":
        yield from exchanged(text, tokens, *entries, "exchanged entries")


def struct_edits(text, tokens, i, declared):
    """The values of two fields of one type exchanged; a field's value negated, 0, or with its last bit flipped."""
    fields = declared.structs[tokens[i].text]
    values = []
    for start, end in parts(tokens, i + 1):
        kind = fields.get(tokens[start].text)
        if start + 1 < end:
            values.append((kind, (start + 2, end)))
            yield from value_edits(text, tokens, (start + 2, end), kind)
        elif kind == "bool":
            place = tokens[start].end
            yield Edit("negated value", place, place, f": !{tokens[start].text}")
    for (kind, one), (other_kind, other) in pairs(values):
        if kind == other_kind:
            yield from exchanged(text, tokens, one, other, "exchanged fields")


def constant_edits(tokens, i, constants):
    """A constant of another file exchanged for the next."""
    if len(constants) > 1:
        yield Edit("constant", tokens[i].start, tokens[i].end, next_of(constants, tokens[i].text))


def next_of(names, name):
    return names[(names.index(name) + 1) % len(names)]


def field_edits(tokens, i, declared):
    """A field exchanged for the next of its type."""
    name = tokens[i].text
    news = set()
    for fields in declared.structs.values():
        if name in fields:
            news.add(next_of([other for other in fields if fields[other] == fields[name]], name))
    for new in sorted(news - {name}):
        yield Edit("operand", tokens[i].start, tokens[i].end, new)


def variant_edits(tokens, i, declared):
    """A variant of an enum exchanged for the next."""
    variants = declared.enums[tokens[i - 2].text]
    if tokens[i].text in variants and len(variants) > 1:
        new = next_of(variants, tokens[i].text)
        yield Edit("constant", tokens[i].start, tokens[i].end, new)


def local_type(tokens, function, i, declared):
    """The type of the local whose name stands at place i, where it is plain to see from its value."""
    value, after = tokens[i + 2], tokens[i + 3].text
    if value.kind == "number":
        index = ["[", tokens[i].text, "]"]
        inner = range(function.body[0], function.body[1] - 2)
        plain = "usize" if any(words(tokens, (k, k + 3)) == index for k in inner) else "integer"
        return next((word for word in INTEGERS if value.text.endswith(word)), plain)
    if after == "(" and value.text in declared.functions:
        return declared.functions[value.text][0].answer
    if after == "{" and value.text in declared.structs:
        return value.text
    return None


def same_type(one, other):
    integer = "integer" in (one, other) and {one, other} <= {"integer", *INTEGERS}
    return one is not None and (one == other or integer)


def is_variable(tokens, i):
    before, after = tokens[i - 1].text, tokens[i + 1].text
    return (
        tokens[i].kind == "name"
        and tokens[i].text not in KEYWORDS
        and before not in (".", "::", "let", "mut", "as")
        and after not in NO_VARIABLE_AFTER
    )


def variable_edits(tokens, function, declared):
    """A variable exchanged for the next one of its type that is known there."""
    known, coming = dict(function.parameters), {}
    for i in range(*function.body):
        if tokens[i].text == "let":
            name = i + 2 if tokens[i + 1].text == "mut" else i + 1
            coming = {tokens[name].text: local_type(tokens, function, name, declared)}
        elif tokens[i].text == ";":
            known.update(coming)
        elif is_variable(tokens, i) and tokens[i].text in known:
            kind = known[tokens[i].text]
            names = [name for name in known if same_type(known[name], kind)]
            if len(names) > 1:
                new = next_of(names, tokens[i].text)
                yield Edit("operand", tokens[i].start, tokens[i].end, new)


def plain(tokens, statement):
    """Whether a statement is a call or a store, and nothing else."""
    first = tokens[statement[0]]
    return first.kind == "name" and first.text not in KEYWORDS or first.text == "*"


def names_in(tokens, part):
    return {token.text for token in tokens[part[0]:part[1]] if token.kind == "name"}


def written(tokens, statement):
    """What a plain statement may write: the first name of a store, all that a call is given."""
    stores = any(token.text in STORES for token in tokens[statement[0]:statement[1]])
    first = tokens[statement[0] + (tokens[statement[0]].text == "*")].text
    return {first} if stores else names_in(tokens, statement)


def depend(tokens, one, other):
    """Whether one of two statements may write what the other names."""
    return bool(written(tokens, one) & names_in(tokens, other) or written(tokens, other) & names_in(tokens, one))


def statement_edits(text, tokens, function, declared):
    """Two statements of which one may write what the other names exchanged; a local that keeps its value; another
    answer."""
    for block in blocks_of(tokens, *function.body, declared.structs):
        statements = statements_of(tokens, *block)
        for one, other in zip(statements, statements[1:]):
            if plain(tokens, one) and plain(tokens, other) and depend(tokens, one, other):
                yield from exchanged(text, tokens, one, other, "exchanged statements")
        for start, end in statements:
            if plain(tokens, (start, end)) and tokens[start + 1].text == "=":
                yield Edit("dropped store", tokens[start].start, tokens[end - 1].end, "")
        last = (statements[-1][1] if statements else block[0], block[1])
        if block[0] == function.body[0] and last[0] < last[1]:
            yield from answer_edits(text, tokens, last, function)


def answer_edits(text, tokens, last, function):
    """The function's last expression, where it is none with arms of its own."""
    if tokens[last[0]].text not in ("if", "match", "while"):
        yield from value_edits(text, tokens, last, function.answer)


def token_edits(text, tokens, i, declared, constants=()):
    token, before = tokens[i], tokens[i - 1].text
    after = tokens[i + 1].text if i + 1 < len(tokens) else ""
    if token.kind == "number":
        yield from number_edits(token)
    elif token.kind == "text":
        yield from text_edits(token)
    elif token.kind == "mark":
        yield from mark_edits(tokens, i)
        if token.text == "[":
            yield from array_edits(text, tokens, i)
    elif token.text in WORDS:
        yield Edit("constant", token.start, token.end, WORDS[token.text])
    elif token.text in ("if", "while"):
        yield from negated(text, tokens, i)
    elif token.text in COUNTS:
        yield from count_edits(tokens, i)
    elif token.text in constants:
        yield from constant_edits(tokens, i, constants)
    elif after == "(":
        yield from call_edits(text, tokens, i, declared)
    elif after == "{" and token.text in declared.structs:
        yield from struct_edits(text, tokens, i, declared)
    elif before == ".":
        yield from field_edits(tokens, i, declared)
    elif before == "::" and tokens[i - 2].text in declared.enums:
        yield from variant_edits(tokens, i, declared)


def ordered(found):
    return sorted(found, key=lambda edit: (edit.start, edit.end, edit.new))


def body_edits(text, tokens, function, declared):
    """The edits of a function's body."""
    constants = imported_constants(tokens)
    found = set(variable_edits(tokens, function, declared))
    found.update(statement_edits(text, tokens, function, declared))
    for i in range(*function.body):
        found.update(token_edits(text, tokens, i, declared, constants))
    return ordered(found)


def table_edits(text, tokens, places, declared):
    """The edits of a constant's value."""
    return ordered({edit for i in range(*places) for edit in token_edits(text, tokens, i, declared)})
