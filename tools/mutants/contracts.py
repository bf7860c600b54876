"""The edits of an exported function's contract. Each leaves the function itself proved, so that its tie must refuse it."""

from mutants.edits import Edit, exchanged, ordered, pairs

NOTHING = "Unit {0}"
NEVER = "requires { ⊥ }\n    "


def weakened(tokens, clause):
    """A clause of what is ensured that says nothing."""
    word, start, end = clause
    if word == "ensures":
        opened = start + 1 if tokens[start + 1].text == "{" else start + 2
        yield Edit("ensures nothing", tokens[opened + 1].start, tokens[end - 2].end, NOTHING)


def asked(tokens, function):
    """One more clause that no caller can meet."""
    first = function.clauses[0][1] if function.clauses else function.body[0] - 1
    place = tokens[first].start
    yield Edit("requires what never holds", place, place, NEVER)


def renamed(text, tokens, function):
    """Two parameters of one type exchanged: in the contract and in the body, and not for the callers."""
    for (one, kind), (other, other_kind) in pairs(list(function.parameters.items())):
        if kind == other_kind:
            a, b = function.places[one], function.places[other]
            yield from exchanged(text, tokens, (a, a + 1), (b, b + 1), "exchanged parameters")


def contract_edits(text, tokens, function, has_proof):
    """A function with a proof of its own keeps what it ensures: that proof is of no other contract."""
    found = set(asked(tokens, function)) | set(renamed(text, tokens, function))
    for clause in [] if has_proof else function.clauses:
        found.update(weakened(tokens, clause))
    return ordered(found)
