"""The signatures of the public calls, read from the header.

    python3 signatures.py include/sukhlent.h FOLDER     writes FOLDER/calls.h, for replay.c, and calls.json, for replay.mjs

An argument is a number of 8 or 64 bits, or a buffer, of which the call may take the length.
"""
import json
import re
import sys
from pathlib import Path

CALL = re.compile(r"^uint(?:8|32)_t sukhlent_(\w+)\(([^)]*)\);", re.M)
PARAMETER = re.compile(r"(const )?(\w+) (\*?)(\w+)")
SIZES = {"uint8_t": 1, "uint16_t": 2, "uint64_t": 8, "double": 8}


class Argument:
    def __init__(self, const, kind, pointer, name):
        self.name = name
        self.kind = kind
        self.size = SIZES[kind]  # of the number, or of an element
        self.buffer = pointer == "*"
        self.const = bool(const)
        self.length = False  # the call takes the buffer's length

    def shape(self):
        """b, w: a number of 8 or 64 bits. B, H, W: a buffer of 1, 2 or 8 bytes an element, with its length; 1, 2, 8: without."""
        if not self.buffer:
            return {1: "b", 8: "w"}[self.size]
        return {1: "B", 2: "H", 8: "W"}[self.size] if self.length else str(self.size)


def arguments(parameters):
    found = []
    for text in parameters.split(","):
        words = " ".join(text.split())
        if words == "void":
            continue
        const, kind, pointer, name = PARAMETER.fullmatch(words).groups()
        if kind != "sukhlent_length":
            found.append(Argument(const, kind, pointer, name))
        elif found and name == found[-1].name + "_len":
            found[-1].length = True
        else:
            raise SystemExit(f"a length that follows no buffer of its name: {name}")
    return found


def signatures(header):
    """The calls in the header's order: {name: [Argument, ...]}."""
    found = {name: arguments(parameters) for name, parameters in CALL.findall(header)}
    if len(found) != len(re.findall(r"^uint\d+_t sukhlent_", header, re.M)):
        raise SystemExit("a declaration of the header was not read")
    return found


def in_c(calls):
    """The names and shapes, and the function that makes a call of a table of arguments."""
    lines = ["static const char *const names[] = {" + ", ".join(f'"{name}"' for name in calls) + "};"]
    shapes = ("".join(one.shape() for one in found) for found in calls.values())
    lines.append("static const char *const shapes[] = {" + ", ".join(f'"{shape}"' for shape in shapes) + "};")
    lines.append("static uint32_t call(int which, const struct argument *a)\n{\n    switch (which) {")
    for number, (name, found) in enumerate(calls.items()):
        words = []
        for place, one in enumerate(found):
            words.append(f"({one.kind} *)a[{place}].bytes" if one.buffer else f"({one.kind})a[{place}].number")
            words += [f"a[{place}].count / {one.size}"] * one.length
        lines.append(f"    case {number}: return sukhlent_{name}({', '.join(words)});")
    return "\n".join(lines + ["    default: return 255;\n    }\n}\n"])


def in_json(calls):
    shapes = [{"name": name, "shape": "".join(one.shape() for one in found)} for name, found in calls.items()]
    return json.dumps(shapes, indent=1) + "\n"


def main():
    calls = signatures(Path(sys.argv[1]).read_text(encoding="utf-8"))
    folder = Path(sys.argv[2])
    (folder / "calls.h").write_text(in_c(calls), encoding="utf-8")
    (folder / "calls.json").write_text(in_json(calls), encoding="utf-8")


if __name__ == "__main__":
    main()
