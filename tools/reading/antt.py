"""Files of definitions and proofs as text: the definitions of a file, their comments, and where its names come from."""

import re
from dataclasses import dataclass, field

MARKS = r"(?:(?:unfoldable|abbrev|axiom|pub)\s+)*"
HEAD = re.compile(rf"^{MARKS}(record|data)\s+(\S+)")
SIGNATURE = re.compile(rf"^{MARKS}([^\s(){{}};,=]+(?:\s+[^\s(){{}};,=]+)*)\s+:(?:\s|$)")
SPLIT = re.compile(r"[\s(){}\[\];,λ«»]+")
NO_NAMES = {"record", "data", "where", "let", "in", "elim", "do", "pub", "unfolding", "unfoldable", "abbrev", "=", ":", "→"}


@dataclass(eq=False)
class Definition:
    """A definition: its name, further names that come with it (constructors), its lines with the comment before them."""

    file: str
    name: str
    kind: str
    first: int
    start: int
    end: int = 0
    further: list = field(default_factory=list)
    sections: list = field(default_factory=list)
    code: str = ""
    public: bool = False

    def size(self):
        return self.end - self.first + 1

    def names(self):
        return [self.name] + self.further


@dataclass
class Source:
    """A file: its lines, its imports (name to module and name there), renamed modules, definitions, other lines."""

    path: str
    lines: list
    imports: dict
    modules: dict
    definitions: list
    uses: set


def code_of(line):
    """The line without its comment."""
    at = line.find("--")
    while at != -1:
        if (at == 0 or line[at - 1] in " \t") and (at + 2 == len(line) or line[at + 2] in " -"):
            return line[:at].rstrip()
        at = line.find("--", at + 1)
    return line.rstrip()


def indent_of(line):
    return len(line) - len(line.lstrip())


def is_comment(line):
    return line.lstrip().startswith("--")


def comment_start(lines, at, floor=0):
    """Where the comment directly above a line begins."""
    while at > floor and is_comment(lines[at - 1]):
        at -= 1
    return at


def use_of(text):
    """A `use` line: its module, the names with their names there, and the module's other name."""
    named = re.match(r"(\S+?)\.\{(.*)\}", text, re.S)
    if named:
        pairs = {}
        for part in named.group(2).split(","):
            there, _, here = part.strip().partition(" as ")
            if there:
                pairs[(here or there).strip()] = there.strip()
        return named.group(1), pairs, None
    renamed = re.match(r"(\S+)\s+as\s+(\S+)", text)
    return (renamed.group(1), {}, renamed.group(2)) if renamed else (text.strip(), {}, None)


def constructors(lines, definition):
    """The constructors of a `data` block."""
    inner = indent_of(lines[definition.start]) + 2
    for line in lines[definition.start + 1:definition.end + 1]:
        code = code_of(line)
        if indent_of(code) == inner:
            found = re.match(r"\s+(?:pub\s+)?([^:]+?)\s+:", code + " ")
            if found:
                definition.further += found.group(1).split()


def parse(path):
    with open(path, encoding="utf-8") as file:
        lines = file.read().split("\n")
    source = Source(path, lines, {}, {}, [], set())
    sections, current, lead, opened = [(0, "")], None, None, None

    def close(at):
        nonlocal current
        if current is None:
            return
        while at > current.start and (not lines[at].strip() or is_comment(lines[at])):
            at -= 1
        current.end = at
        current.code = "\n".join(code_of(line) for line in lines[current.start:at + 1])
        if current.kind == "data":
            constructors(lines, current)
        source.definitions.append(current)
        current = None

    i = 0
    while i < len(lines):
        code = code_of(lines[i])
        if not code.strip():
            i += 1
            continue
        indent, text = indent_of(code), code.strip()
        while len(sections) > 1 and indent < sections[-1][0]:
            close(i - 1)
            sections.pop()
        if indent != sections[-1][0]:
            i += 1
            continue
        if re.match(r"(?:pub\s+)?use\s", text) and indent == 0:
            close(i - 1)
            end = i
            while "{" in text and "}" not in text:
                end += 1
                text += " " + code_of(lines[end]).strip()
            source.uses.update(range(i, end + 1))
            module, names, other = use_of(re.sub(r"^(?:pub\s+)?use\s+", "", text))
            for here, there in names.items():
                source.imports[here] = (module, there)
            if other:
                source.modules[other] = module
            i = end + 1
            continue
        if re.match(r"(?:pub\s+)?mod\s", text):
            close(i - 1)
            source.uses.add(i)
        elif re.match(r"infix[lr]?\s", text):
            close(i - 1)
            lead = i
        elif re.match(r"module\b", text):
            close(i - 1)
            end = i
            while not text.endswith("where"):
                end += 1
                text += " " + code_of(lines[end]).strip()
            inside = end + 1
            while inside < len(lines) and not code_of(lines[inside]).strip():
                inside += 1
            sections.append((indent_of(lines[inside]) if inside < len(lines) else indent + 2, text))
            source.uses.update(range(i, end + 1))
            opened = i
            i = end + 1
            continue
        else:
            head, signature = HEAD.match(text), SIGNATURE.match(text)
            if head or signature:
                close(i - 1)
                names = [head.group(2)] if head else signature.group(1).split()
                current = Definition(path, names[0], head.group(1) if head else "function", 0, i, i)
                current.first = comment_start(lines, i if lead is None else lead)
                if opened is not None and not is_comment(lines[current.first]):
                    current.first = comment_start(lines, opened)
                current.further = names[1:]
                current.sections = [header for _, header in sections[1:]]
                current.public = bool(re.match(r"(?:\S+\s+)*?pub\s", text))
                lead = opened = None
        i += 1
    close(len(lines) - 1)
    return source


def pieces(name):
    """The parts of a name as they stand in a text: those of `◌⊕◌` are `⊕`."""
    return [part for part in name.split("◌") if part] if "◌" in name else [name]


def tokens(text):
    """The names in a text; of a name behind a dot (a field) none, of `a.b` the first."""
    found = set()
    for word in SPLIT.split(text):
        word = word.rstrip(".")
        if word and not word.startswith(".") and word not in NO_NAMES:
            found.add(word.split(".")[0])
    return found


def without_labels(definition):
    """The text of a definition without the names of fields and constructors that it declares or fills in."""
    text = re.sub(r"([{;]\s*)[^\s(){};=]+\s*=(?=\s)", r"\1", definition.code)
    if definition.kind in ("record", "data"):
        first, _, rest = text.partition("\n")
        text = first + "\n" + re.sub(r"(?m)^(\s+)(?:pub\s+)?[^\s(){}:][^(){}:\n]*\s:(?=\s|$)", r"\1", rest)
    return "\n".join(definition.sections) + "\n" + text


def bound(definition):
    """The variables that a definition binds: in types, behind λ, and on the left of its clauses."""
    text = without_labels(definition)
    found = set()
    for binder in re.finditer(r"[({]\s*([^(){}:;=]+?)\s+:\s", text):
        found.update(binder.group(1).split())
    for binder in re.finditer(r"λ\s*([^.(){}]+)\.", text):
        found.update(binder.group(1).split())
    for binder in re.finditer(r"\blet\s+(\S+)\s*=", text):
        found.add(binder.group(1))
    if definition.kind == "function":
        for line in definition.code.split("\n")[1:]:
            left, equals, _ = line.partition(" = ")
            if equals and indent_of(line) == indent_of(definition.code):
                found.update(tokens(left) - {definition.name})
    return found
