#!/usr/bin/env python3
"""Brings the repository's own names to today's spelling, after the port.py of the kit has run.

usage: python3 tools/respell.py [FOLDER]

FOLDER, or the current folder, is a repository's top. Words are in snake case; a lemma that would have its function's name
gets `_lem`; in a proof's folder a name of the source keeps its spelling. Types, modules, the instructions' mnemonics and
what the library or Rattle names stay as they are. The must-fail edits and the pages are respelled with the code.
"""

import glob
import os
import re
import sys

WORD = r"[A-Za-z_0-9◌][\w'◌≢≡≤<-]*"
DECLARED = re.compile(r"(?m)^ *(?:(?:abbrev|pub|unfoldable|data|record|ruleset) )*(" + WORD + r")(?: [({][^\n]*?[)}])* (?::|=) ")
IMPORTED = re.compile(r"use (?:Rattle\.std|mathlib|native|borrow|Prim|lib|denote)[\w.'-]*\.\{([^}]*)\}")

# Where a lemma and the function that it speaks of would fall together.
LEMMAS = "is-clean are-clean less-than less-than-or-equal u-less-than u-less-than-or-equal free-words page-length own-vector one-or-two brought-down".split()


def read(path):
    with open(path, encoding="utf-8") as f:
        return f.read()


def snake(name):
    if re.match(r"[a-z]", name):
        name = re.sub(r"([a-z0-9])([A-Z])", lambda m: m.group(1) + "_" + m.group(2).lower(), name)
    return name


def spelling(name):
    # The dash joins two names.
    if name.startswith("length-"):
        return snake(name)
    if name in LEMMAS:
        return name.replace("-", "_") + "_lem"
    return snake(name).replace("-", "_")


def declared_and_library(root):
    """The names that the files of specs/, and of lemmas in proofs/, declare, and those that they take from the library."""
    files = glob.glob(root + "/crates/*/specs/*.antt") + glob.glob(root + "/crates/*/proofs/*.antt")
    own, library = set(), set()
    for f in files:
        text = read(f)
        own |= set(DECLARED.findall(text))
        for names in IMPORTED.findall(text):
            library |= {n.strip() for n in names.split(",")}
    return own, library


def renames(root):
    """The new spelling of each name that the repository declares."""
    own, library = declared_and_library(root)
    return {n: spelling(n) for n in own - library if spelling(n) != n}


def source_words(root):
    """The names of the source that have an underscore, by the dashed form that older proofs gave them, longest first."""
    words = set()
    for f in glob.glob(root + "/crates/*/src/*.rt"):
        words |= set(re.findall(r"\b[a-z][a-z0-9]*_\w+\b", read(f)))
    return sorted(((w.replace("_", "-"), w) for w in words), key=lambda p: -len(p[0]))


def of_source(token, words):
    parts = "-" + token + "-"
    for dashed, word in words:
        parts = parts.replace("-" + dashed + "-", "-" + word + "-")
    return parts[1:-1]


def respell(text, names):
    return re.sub(WORD, lambda m: names.get(m.group(0), m.group(0)), text)


def as_declared(text, declared):
    """The text with each name that some file declares under its new spelling, those that port.py turned too."""
    return re.sub(WORD, lambda m: spelling(m.group(0)) if spelling(m.group(0)) in declared else m.group(0), text)


def in_proof_folder(text, words):
    def turn(m):
        token = m.group(0)
        if "-" not in token or token.startswith("Need-"):
            head, dash, tail = token.partition("Need-")
            return token if not dash else dash + of_source(tail, words)
        return re.sub(r"-spec$", "_spec", of_source(token, words)).replace("-", "_") if token.endswith("-spec") else of_source(token, words)

    return re.sub(WORD, turn, text)


def main(root):
    names = renames(root)
    words = source_words(root)
    declared = {spelling(n) for n in declared_and_library(root)[0]}
    # A short instruction's record, and not the lemma of that name.
    local = root + "/crates/demand3_instances/proofs/Instances.antt"
    for f in sorted(glob.glob(root + "/crates/**/*", recursive=True) + [root + "/README.md"] + glob.glob(root + "/docs/*.md")):
        if not f.endswith((".antt", ".rt", ".edit", ".md")) or "/out/" in f:
            continue
        old = read(f)
        own = dict(names, **{"less-than": "less_than"}) if f == local else names
        if f.endswith(".md"):
            new = re.sub(r"`[^`\n]*`", lambda m: as_declared(m.group(0), declared), old)
        elif f.endswith(".edit"):
            new = as_declared(old, declared)
        else:
            new = respell(old, own)
        if re.search(r"/proofs/.*/", f):
            new = in_proof_folder(new, words)
        if new != old:
            with open(f, "w", encoding="utf-8") as out:
                out.write(new)
            print(os.path.relpath(f, root))


if __name__ == "__main__":
    main(sys.argv[1] if len(sys.argv) > 1 else ".")
