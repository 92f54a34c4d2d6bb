#!/usr/bin/env python3
# Needs Python 3.8 or newer, and nothing else.
"""Spells the choice between two values, which float/specs/Operators.antt defines, `when b then x else y`, since the prover's library now has an
`if◌then◌else◌` of its own and lets no other stand under that name.

usage: spell_choice.py FOLDER [CRATE..]      the top of a checkout: the definitions, proofs and clauses of crates/ (of those named) are turned

A second run changes nothing. The library's own choice, where a file brings it from Rattle.std, keeps its name."""

import pathlib
import re
import sys

OLD, NEW = "if◌then◌else◌", "when◌then◌else◌"
WORD = re.compile(r'(?<![^\s(){}.;,@"«»])if(?![^\s(){}.;,@"«»])')


def turned(code):
    return WORD.sub("when", code.replace(OLD, NEW))


def antt(text):
    out = []
    for line in text.split("\n"):
        code, mark, said = re.match(r"((?:(?!--[ -]|--$).)*)(--)?(.*)", line, re.S).groups()
        out.append("".join(p if p.startswith('"') else turned(p) for p in re.split(r'("(?:[^"\\]|\\.)*")', code)) + (mark or "") + said.replace(OLD, NEW) if mark else "".join(p if p.startswith('"') else turned(p) for p in re.split(r'("(?:[^"\\]|\\.)*")', code)))
    return "\n".join(out)


def rattle(text):
    """Clauses and ghost lines alone, where the file brings this repository's choice."""
    if f"Rattle.float.specs.Operators" not in text or OLD not in text:
        return text
    return "\n".join(turned(line) if re.match(r"\s*(ghost use|requires|ensures|ghost )", line) else line for line in text.split("\n"))


def main():
    top = pathlib.Path(sys.argv[1])
    for path in sorted((top / "crates").glob("*/*/**/*")):
        crate, part = path.relative_to(top).parts[1:3]
        if len(sys.argv) > 2 and crate not in sys.argv[2:]:
            continue
        if path.suffix == ".antt" and part in ("specs", "proofs"):
            text = path.read_text()
            of_library = re.search(r"use Rattle\.std\.\S*\.\{[^}]*" + OLD, text)
            path.write_text(text if of_library else antt(text))
        elif path.suffix == ".rt" and part == "src":
            path.write_text(rattle(path.read_text()))


main()
