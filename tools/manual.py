#!/usr/bin/env python3
"""The manual pages and the shells' completions, made from the command's own arguments and from the header.

    tools/manual.py 1       sukhlent(1), the command; needs the shared library
    tools/manual.py 3       sukhlent(3), the calls of include/sukhlent.h
    tools/manual.py bash    the completion for bash; zsh and fish too; needs the shared library
"""

import argparse
import re
import sys
from pathlib import Path

ROOT = Path(__file__).resolve().parents[1]
HEADER = ROOT / "include" / "sukhlent.h"
ABOUT = "a proved graph-state engine: stabilizer states on up to 64 qubits"


def escaped(text):
    """A text for troff."""
    text = text.replace("\\", "\\e").replace("-", "\\-")
    return re.sub(r"^(?=[.'])", r"\\&", text, flags=re.M)


def as_it_is(text):
    """Lines that are not filled."""
    return [".nf", escaped(text.rstrip("\n")), ".fi"]


def version(header):
    return re.search(r'VERSION_TEXT "(.*)"', header)[1]


def top(section, header):
    return [f'.TH SUKHLENT {section} "" "sukhlent {version(header)}"', ".SH NAME", f"sukhlent \\- {escaped(ABOUT)}"]


# ---- sukhlent(1)


def command():
    """The parser of the command, its subcommands, and what is said of each."""
    sys.path.insert(0, str(ROOT / "python"))
    from sukhlent.command import parser

    made = parser()
    found = next(action for action in made._actions if isinstance(action, argparse._SubParsersAction))
    return made, found.choices, {action.dest: action.help for action in found._choices_actions}


def options(parser):
    return [action for action in parser._actions if action.option_strings]


def usage(parser):
    said = parser.format_usage()[len("usage: ") :]
    return escaped(" ".join(said.split()))


def of_command(header):
    made, commands, about = command()
    lines = [*top(1, header), ".SH SYNOPSIS", ".B " + usage(made), ".SH DESCRIPTION"]
    lines += [escaped(line) for line in made.description.splitlines()]
    lines.append(".SH COMMANDS")
    for name, parser in commands.items():
        lines += [f".SS {escaped(name)}", ".B " + usage(parser), ".PP", escaped(about[name])]
        for option in options(parser):
            if option.dest != "help":
                lines += [".TP", ".B " + escaped(", ".join(option.option_strings)), escaped(option.help or "")]
    return [*lines, ".SH SEE ALSO", ".BR sukhlent (3)"]


# ---- sukhlent(3)


def words(comment):
    """A comment of C without its marks."""
    body = re.sub(r"^ \* ?", "", comment, flags=re.M)
    return body.strip(" \n")


def of_calls(header):
    lines = [*top(3, header), ".SH SYNOPSIS", ".B #include <sukhlent.h>", ".PP"]
    lines += [escaped("Compile and link with what pkg-config --cflags --libs sukhlent prints."), ".SH DESCRIPTION"]
    comment = r"/\*((?:(?!\*/).)*)\*/"
    lines += as_it_is(words(re.match(comment, header, re.S)[1]))
    lines.append(".SH CALLS")
    declarations = header[header.index('extern "C" {') :]
    for about, call in re.findall(comment + r"\n(uint\d+_t sukhlent_\w+\([^)]*\);)?", declarations, re.S):
        if call:
            lines += [".SS " + re.search(r"sukhlent_\w+", call)[0], *as_it_is(call)]
        lines += [".PP", *as_it_is(words(about))]
    numbers = "\n".join(re.findall(r"^#define SUKHLENT_\w+ \d+$", header, re.M))
    lines += [".SH NUMBERS", *as_it_is(numbers)]
    return [*lines, ".SH SEE ALSO", ".BR sukhlent (1)", ".PP", "sukhlent_record.h has structs for C, sukhlent.hpp classes for C++."]


# ---- completions: the commands, their options, and files


def for_bash(header):
    _, commands, _ = command()
    cases = []
    for name, parser in commands.items():
        said = " ".join(word for option in options(parser) for word in option.option_strings)
        cases.append(f"    {name}) options='{said}' ;;")
    return [
        f"# Completion of sukhlent {version(header)} for bash: its commands, their options, and files.",
        "_sukhlent() {",
        "    local word=${COMP_WORDS[COMP_CWORD]} options=''",
        "    if [ \"$COMP_CWORD\" -eq 1 ]; then",
        f"        mapfile -t COMPREPLY < <(compgen -W '{' '.join(commands)} --help --version' -- \"$word\")",
        "        return",
        "    fi",
        "    case ${COMP_WORDS[1]} in",
        *cases,
        "    esac",
        "    case $word in",
        "    -*) mapfile -t COMPREPLY < <(compgen -W \"$options\" -- \"$word\") ;;",
        "    *) mapfile -t COMPREPLY < <(compgen -f -- \"$word\") ;;",
        "    esac",
        "}",
        "complete -o filenames -F _sukhlent sukhlent",
    ]


def quoted(text):
    """A text between single quotes, for zsh."""
    return "'" + text.replace("'", "'\\''") + "'"


def zsh_option(option):
    """What _arguments of zsh takes: the names that exclude one another, one name, what is said, and what it takes."""
    names = option.option_strings
    about = re.sub(r"([\[\]:\\])", r"\\\1", option.help or "")
    takes = "" if option.nargs == 0 else f":{option.dest}:" + ("_files" if option.metavar == "FILE" else "")
    return [quoted(f"({' '.join(names)}){name}[{about}]{takes}") for name in names]


def for_zsh(header):
    made, commands, about = command()
    listed = [quoted(f"{name}:{about[name]}") for name in commands]
    cases = []
    for name, parser in commands.items():
        said = " ".join(word for option in options(parser) for word in zsh_option(option))
        cases.append(f"    {name}) _arguments {said} '*:file:_files' ;;")
    return [
        "#compdef sukhlent",
        f"# Completion of sukhlent {version(header)} for zsh: its commands, their options, and files.",
        "_sukhlent() {",
        "    local -a commands",
        "    commands=(",
        *(f"        {name}" for name in listed),
        "    )",
        "    if (( CURRENT == 2 )); then",
        "        _describe -t commands command commands",
        f"        _arguments {' '.join(word for option in options(made) for word in zsh_option(option))}",
        "        return",
        "    fi",
        "    shift words",
        "    (( CURRENT-- ))",
        "    case $words[1] in",
        *cases,
        "    esac",
        "}",
        '_sukhlent "$@"',
    ]


def fish_words(text):
    """A text between single quotes, for fish."""
    return "'" + text.replace("\\", "\\\\").replace("'", "\\'") + "'"


def fish_option(option, where):
    """A line for an option: its names, whether something follows it, and what is said."""
    names = " ".join(f"-l {name[2:]}" if name.startswith("--") else f"-s {name[1:]}" for name in option.option_strings)
    takes = "" if option.nargs == 0 else " -r" + (" -F" if option.metavar == "FILE" else " -f")
    return f"complete -c sukhlent -n {fish_words(where)} {names}{takes} -d {fish_words(option.help or '')}"


def for_fish(header):
    made, commands, about = command()
    first = "__fish_use_subcommand"
    lines = [f"# Completion of sukhlent {version(header)} for fish: its commands, their options, and files."]
    lines += [fish_option(option, first) for option in options(made)]
    for name, parser in commands.items():
        lines.append(f"complete -c sukhlent -f -n {first} -a {name} -d {fish_words(about[name])}")
        lines += [fish_option(option, f"__fish_seen_subcommand_from {name}") for option in options(parser)]
    return lines


def main():
    pages = {"1": of_command, "3": of_calls, "bash": for_bash, "zsh": for_zsh, "fish": for_fish}
    if len(sys.argv) != 2 or sys.argv[1] not in pages:
        print(__doc__, file=sys.stderr)
        return 2
    print("\n".join(pages[sys.argv[1]](HEADER.read_text(encoding="utf-8"))))
    return 0


if __name__ == "__main__":
    sys.exit(main())
