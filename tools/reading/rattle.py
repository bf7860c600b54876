"""Source files as text: the contracts of functions, and the structs and enums that definitions name."""

import re

from mutants.source import functions_of, tokens_of

from .antt import use_of


def plain(text):
    """The text without comments."""
    return re.sub(r"//[^\n]*", "", text)


def ghost_names(text):
    """What the contracts of a file can name: each name with its module and its name there."""
    found = {}
    for use in re.finditer(r"ghost use ([^;]+);", text):
        module, names, _ = use_of(use.group(1))
        for here, there in names.items():
            found[here] = (module, there)
    return found


def functions(text):
    """The functions of a file: the name, the contract's text and the body's."""
    tokens = tokens_of(text)
    heads = [tokens[i].start for i in range(len(tokens)) if tokens[i].text == "fn"]
    found = []
    for function in functions_of(tokens):
        first, last = function.body
        start = max(head for head in heads if head < tokens[first - 1].start)
        found.append((function.name, text[start:tokens[first - 1].start], text[tokens[first - 1].end:tokens[last].start]))
    return found


def declared(path, name):
    """The lines of the struct or enum of this name, with its comment; and the names of types in it."""
    with open(path, encoding="utf-8") as file:
        lines = file.read().split("\n")
    for i, line in enumerate(lines):
        if re.match(rf"\s*(?:pub )?(?:struct|enum) {name}\b", line):
            end = i
            if not line.rstrip().endswith((";", "}")):
                while not lines[end].startswith("}"):
                    end += 1
            first = i
            while first > 0 and lines[first - 1].lstrip().startswith("//"):
                first -= 1
            body = plain("\n".join(lines[i:end + 1]))
            return first, end, set(re.findall(r"\b[A-Z]\w*\b", body)) - {name}
    return None
