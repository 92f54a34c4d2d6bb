#!/usr/bin/env python3
# Needs Python 3.8 or newer, and nothing else.
"""Spells this repository's own definitions, lemmas, fields and constructors as its prover's library does: in snake case, types and modules in upper
camel case. A dash stays where it joins two names that are defined, as in `length-rows_of`; where it joins plain words, `_` takes its place.

usage: spell_names.py [--check] FOLDER      the top of a checkout: crates/ is turned, and the code spans of README.md and docs/*.md

--check writes nothing and prints the table. A name that would meet another one is printed and left as it is. Ran once, right behind the kit's port.py."""

import argparse
import pathlib
import re

WORD = re.compile(r'[^\s(){}.;,@"«»]+')
DECLARED = re.compile(r"(?m)^ *(?:(?:abbrev|unfoldable|pub|record|data|ruleset|mutual) )*([^\s(){}.;,@\"«»]+)(?: \{[^{}\n]*\})*(?: \([^()\n]*\))* :(?=[ \n])")
RENAMED = re.compile(r"\bas ([^\s(){}.;,@\"«»]+)")
CAMEL = re.compile(r"(?<=[a-z0-9])[A-Z]")
# words of the library that lemmas are named after, beside this repository's own definitions
LIBRARY = set("append length map take drop set get_or mem pow mul add sub div mod lt le eq sum true false abs min max round sqrt".split())
# in proofs of code by hand, the names of what the prover asks for: they are its own
ASKED = "Proof.antt"
# as the prover calls them, or the kit's own
KEPT = {"add-one", "omega", "arith"}
# a local name that would hide the definition that its own type speaks of
FIRST = {"in_rows": "is_in_rows"}
# they meet names that are local to other files alone
APART = {"inRows", "atMost", "upTo"}


def in_snake_case(part):
    return part if part[:1].isupper() else CAMEL.sub(lambda m: "_" + m[0].lower(), part)


def spelled(name, defined):
    """The name in today's spelling."""
    parts = [in_snake_case(part) for part in name.split("-")]
    out = parts[0]
    for before, after in zip(parts, parts[1:]):
        joins = before in defined and after in defined
        out += ("-" if joins else "_") + after
    return out


def module_spelled(name):
    return "".join(part[:1].upper() + part[1:] for part in re.split("[-_]", name))


def needs(name):
    return not name.startswith("-") and bool(re.search(r"\w-\w|\w\?-\w", name) or (CAMEL.search(name) and not name[:1].isupper()))


def declared_in(text):
    return {m[1] for m in DECLARED.finditer(text)}


def table_of(texts):
    """Old and new spelling of each own name that needs one. Of a definition and a lemma that would fall together the lemma gets `_lem`; what then
    still meets another name, a declared one or one that a `use` line brings, is in the second table and stays."""
    specs, own, brought = set(), set(), set()
    table = {}
    for path, text in texts.items():
        code = re.sub(r"(?m)--(?= ).*$", "", text)
        for m in re.finditer(r"(?m)^(?:pub )?use [^\s{]*\{([^}]*)\}", code):
            brought |= {word for item in m[1].split(",") for word in item.split()[:1]}
        for m in RENAMED.finditer(code):
            if re.fullmatch(r"[a-z]+-is", m[1]):
                table[m[1]] = module_spelled(m[1])
        if path.name != ASKED:
            own |= declared_in(code)
            if "specs" in path.parts:
                specs |= declared_in(code)
    defined = {in_snake_case(name) for name in specs} | LIBRARY
    for name in sorted(own):
        for piece in name.split("◌"):
            if needs(piece) and piece not in KEPT and spelled(piece, defined) != piece:
                table[piece] = spelled(piece, defined)
    met = {}
    for old, new in sorted(table.items()):
        others = [other for other in table if table[other] == new and other != old]
        if others and old not in specs and any(other in specs for other in others):
            table[old] = new + "_lem"
        elif old not in APART and (new in own | brought or others and old not in specs):
            met[old] = new
    return table, met


def turned_code(text, table):
    """antt: every whole word outside comments and quoted text; in comments the words in back quotes, and camel case."""

    def words(piece):
        return WORD.sub(lambda m: table.get(m[0], m[0]) if "◌" not in m[0] else "◌".join(table.get(p, p) for p in m[0].split("◌")), piece)

    out = []
    for line in text.split("\n"):
        code, mark, said = re.match(r"((?:(?!--[ -]|--$).)*)(--)?(.*)", line, re.S).groups()
        quoted = re.split(r'("(?:[^"\\]|\\.)*")', code)
        code = "".join(part if part.startswith('"') else words(part) for part in quoted)
        out.append(code + (mark or "") + turned_prose(said or "", table))
    return "\n".join(out)


def turned_prose(text, table):
    """Words in back quotes by the table; outside them those that are in camel case, which are names."""

    def span(m):
        return re.sub(r"[^\s(){}.;,@\"«»`/]+", lambda w: table.get(w[0], w[0]), m[0])

    pieces = re.split(r"(`[^`\n]*`)", text)
    return "".join(span(re.match(r"(.*)", p, re.S)) if p.startswith("`") else re.sub(r"[A-Za-z_0-9]+", lambda w: table.get(w[0], w[0]) if CAMEL.search(w[0]) else w[0], p) for p in pieces)


def turned_rattle(text, table):
    """Rattle: names in camel case, which no Rattle name is; what stands in quotes stays."""
    quoted = re.split(r'("(?:[^"\\]|\\.)*")', text)
    word = re.compile(r"[A-Za-z_0-9]+(?:-[A-Za-z_0-9]+)*")
    return "".join(p if p.startswith('"') else word.sub(lambda m: table.get(m[0], m[0]), p) for p in quoted)


def main():
    arguments = argparse.ArgumentParser(description=__doc__, formatter_class=argparse.RawDescriptionHelpFormatter)
    arguments.add_argument("--check", action="store_true")
    arguments.add_argument("folder", type=pathlib.Path)
    given = arguments.parse_args()
    antt = {p: p.read_text() for p in sorted(given.folder.glob("crates/*/*/**/*.antt")) if p.relative_to(given.folder).parts[2] in ("specs", "proofs")}
    rattle = {p: p.read_text() for p in sorted(given.folder.glob("crates/*/src/**/*.rt"))}
    pages = {p: p.read_text() for p in [given.folder / "README.md", *sorted(given.folder.glob("docs/*.md"))]}
    antt = {p: turned_code(t, FIRST) for p, t in antt.items()}
    table, met = table_of(antt)
    for old, new in sorted(met.items()):
        print(f"meets another: {old} {new}")
        del table[old]
    if given.check:
        for old, new in sorted(table.items()):
            print(f"{old}\t{new}")
        return
    for path, text in antt.items():
        path.write_text(turned_code(text, table))
    for path, text in rattle.items():
        path.write_text(turned_rattle(text, table))
    for path, text in pages.items():
        path.write_text("".join(turned_prose(line, table) for line in text.splitlines(keepends=True)))
    print(f"{len(table)} names")


main()
