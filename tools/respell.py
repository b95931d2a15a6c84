#!/usr/bin/env python3
"""Spells this repository's own definitions and lemmas as the library spells its own: words in snake case, a dash between two names alone.

usage: python3 tools/respell.py     at the top of a checkout in which port.py has just run; it is run once, and rewrites files in place

It goes by what the files of specs/ and the lemma files of proofs/ declare. Types and constructors that begin with a capital keep their
spelling, and so does what code declares. Where its new spelling stands somewhere already, a lemma ends in _lem; any other name that
would meet one stays, and is printed.
"""

import pathlib
import re

ROOT = pathlib.Path(__file__).resolve().parent.parent
NAME = r"[^\s(){}\[\].;,@\"«»`]+"
TOKEN = re.compile(NAME)
CAMEL = re.compile(r"[a-z](?:.*[a-z0-9])?[A-Z]")
LOCAL = re.compile(r"[a-z][a-z0-9]*(?:[A-Z][a-z0-9]*)+'*")
DECLARED = re.compile(rf"(?m)^ *(?:(?:pub|unfoldable|abbrev) )*(?!use\b|module\b|pub\b|data\b|record\b|unfolding\b)({NAME}) : ")
MEMBERS = re.compile(rf"(?m)^  (?:pub )?({NAME}(?: {NAME})+) : ")
RECORD = re.compile(r"(?m)^ *(?:pub )?record [^\n]*\n(?:^ +[^\n]*\n|^\n)+")
# The library's words that lemma names here are joined to by a dash.
LIBRARY = set(
    "append apart cond drop eqb get_or leb length lt_z ltb map max min nat_abs not omega quot replicate reverse set set_or sub suc take".split()
)
# What declares the repository's own names; the files of proofs/F/ are a function's.
OWN_FILES = ("specs/*.antt", "proofs/*.antt")


def own_files():
    for crate in sorted((ROOT / "crates").iterdir()):
        for pattern in OWN_FILES:
            yield from sorted(crate.glob(pattern))


def in_snake_case(part):
    return re.sub(r"(?<=[a-z0-9])([A-Z])", lambda m: "_" + m[1].lower(), part)


def declared():
    """The declared names, definitions in camel case before names with a dash, and those that are fields of a record."""
    names, fields = set(), set()
    for path in own_files():
        text = re.sub(r"--.*", "", path.read_text())
        names |= {m[1] for m in DECLARED.finditer(text)}
        for m in MEMBERS.finditer(text):
            names |= set(m[1].split())
        for block in RECORD.finditer(text):
            fields |= set(re.findall(rf"(?m)^ +(?:pub )?({NAME}) : ", block[0]))
    for path in texts():
        if path.suffix == ".antt":
            names |= {word for word in TOKEN.findall(path.read_text()) if LOCAL.fullmatch(word)}
    return sorted(names, key=lambda name: ("-" in name, name)), fields


def respelled(name, words):
    parts = [in_snake_case(part) for part in name.split("-")]
    text = parts[0]
    for before, part in zip(parts, parts[1:]):
        text += ("-" if before in words and part in words else "_") + part
    return text


def texts():
    for crate in sorted((ROOT / "crates").iterdir()):
        for folder in ("specs", "proofs", "src", "must-fail"):
            for path in sorted((crate / folder).rglob("*")):
                if path.suffix in (".antt", ".rt", ".edit") and "out" not in path.parts:
                    yield path


def turned(text, names, fields, dashes):
    def one(m):
        word = m[0]
        if word not in names:
            return word
        # behind a dot a name with a dash is a field of a record, or one that the check makes
        after_dot = m.start() > 0 and text[m.start() - 1] == "."
        if "-" in word and (not dashes or after_dot and word not in fields):
            return word
        return names[word]

    return TOKEN.sub(one, text)


def turn_file(path, names, fields):
    old = path.read_text()
    if path.suffix == ".antt":
        lines = []
        for line in old.split("\n"):
            code, mark, comment = line.partition("--")
            # a comment may name a definition, and has dashes of its own
            lines.append(turned(code, names, fields, True) + mark + turned(comment, names, fields, False))
        new = "\n".join(lines)
    else:
        new = turned(old, names, fields, False)
    if new != old:
        path.write_text(new)


def main():
    found, fields = declared()
    # what a dash joins: a definition, which has no dash
    words = {in_snake_case(name) for name in found if "-" not in name} | LIBRARY
    standing = set()
    for path in texts():
        if path.suffix == ".antt":
            # behind a dot a word is a step, a field or a part of a path, and meets no name
            standing |= set(re.findall(rf"(?<![.]){NAME}", re.sub(r"--.*", "", path.read_text())))
    names = {}
    for name in found:
        if not (CAMEL.match(name) or ("-" in name and name[0].islower())):
            continue
        new = respelled(name, words)
        if new == name:
            continue
        names[name] = new
    taken = {}
    for name in list(names):
        new = names[name]
        if (new in standing or new in taken) and "-" in name and name not in fields:
            new = names[name] = new + "_lem"
        # a field is read behind a dot, so it may be called as a definition is
        if (new in standing or new in taken) and name not in fields and new not in fields:
            print(f"stays: {name} ({new} stands already)")
            del names[name]
        else:
            taken[new] = name
    for path in texts():
        turn_file(path, names, fields)
    for path in sorted([ROOT / "README.md", *(ROOT / "docs").glob("*.md")]):
        old = path.read_text()
        new = re.sub(r"`[^`\n]+`", lambda m: turned(m[0], names, fields, False), old)
        if new != old:
            path.write_text(new)
    print(f"{len(names)} names")


main()
