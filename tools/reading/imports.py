"""Imported names that no other line of their file has: each makes a dependency that is none."""

import os
import re

from .crates import paths_of

USE = re.compile(r"^(?:ghost )?use ([^\s{;]+?)(?:(?:\.|::)\{([^}]*)\})?(?: as ([^\s;]+))?;?$", re.M)
COMMENT = re.compile(r"//.*|^\s*--.*|\s--\s.*", re.M)
BETWEEN = re.compile(r"[\s(){},;.«»]+|::")


def names_of(use):
    """The names that an import brings."""
    path, some, alias = use.groups()
    if alias:
        return [alias]
    if some:
        return [name.split(" as ")[-1].strip() for name in some.split(",") if name.strip()]
    return [re.split(r"::|\.", path)[-1]]


def has(words, name):
    """Whether a name is among the words: whole, or an operator such as `◌≡◌` by what stands between its places."""
    return name in words or "◌" in name and all(part in words for part in name.split("◌") if part)


def unused_in(text, is_code):
    """The imported names of a file that its other lines do not have; in code a name ends at any mark, as in `R: Read>`."""
    text = COMMENT.sub("", text)
    body = USE.sub("", text)
    words = {*BETWEEN.split(body), *re.findall(r"[A-Za-z]\w*(?=\[)|(?<=[\[&*!])[A-Za-z]\w*", body)}
    if is_code:
        words.update(re.findall(r"[A-Za-z_]\w*", body))
    return [name for use in USE.finditer(text) for name in names_of(use) if not has(words, name)]


def unused(root):
    """Every file with such names, and the names."""
    found = {}
    for path in paths_of(root, ".rt", ".antt"):
        with open(path, encoding="utf-8") as file:
            names = unused_in(file.read(), path.endswith(".rt"))
        if names:
            found[os.path.relpath(path, root)] = names
    return found
