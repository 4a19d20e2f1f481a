#!/usr/bin/env python3
"""Brings the repository's own names in specs/ and proofs/ to the spelling of today's Rattle: words in snake case.

usage: respell.py         at the top, once, after port.py: the .rt, .antt and .edit files of crates/
       respell.py --docs  the names between backticks in README.md and docs/, once the crates have the new ones

A name of a definition, lemma or field, or of a variable of theirs, `sealPart` or `le-leAt`, becomes `seal_part` or `le-le_at`: dashes stay, since they join names.
Names of src/ have no capitals inside, types and modules begin with one, and strings of src/ hold none of these names, so text is enough to go by.
"""
import os
import re
import sys

TOKEN = re.compile(r"[^\s(){}\[\];,.«»`\"λ:]+")
WORD = r"(?<![\w'-])%s(?![\w'-])"
# Lemmas that would have the name of the definition that they are about, and what an earlier script made of `getD`.
FIRST = {"part_body": "part_body_lem", "entry_length": "entry_length_lem", "get_d_tabulate": "get_or-tabulate"}
FIRST_IN = {"part_body": ("burst", "claims"), "entry_length": ("reader",), "get_d_tabulate": ("permutation", "state_bytes", "rounds_back", "round_log", "constants", "blocks", "claims")}


def snake(name):
    name = re.sub(r"getD(?=-|$)", "get_or", name)
    return re.sub(r"([a-z0-9])([A-Z])", lambda m: m[1] + "_" + m[2].lower(), name)


def files(endings):
    for folder, _, names in os.walk("crates"):
        if "/out" not in folder:
            yield from (os.path.join(folder, n) for n in sorted(names) if n.endswith(endings))


def read(path):
    with open(path, encoding="utf-8") as it:
        return it.read()


def write(path, old, new):
    if old != new:
        with open(path, "w", encoding="utf-8") as it:
            it.write(new)


def capitals_inside(text):
    return {t for t in TOKEN.findall(text) if re.search(r"(^|-|_)[a-z]+[0-9]*[A-Z]", t)}


def crates():
    names = set()
    for path in files(".antt"):
        names |= capitals_inside("\n".join(re.sub(r"(^|\s)--.*", "", line) for line in read(path).splitlines()))
    for path in files((".antt", ".rt", ".edit")):
        old = new = read(path)
        if not path.endswith(".rt") and "/proofs/" in path:
            for a, b in FIRST.items():
                if path.split("/")[1] in FIRST_IN[a]:
                    # A field has a dot before it, and a local variable of a record's field has `=` behind it; only the lemma is meant.
                    new = re.sub(r"(?<![\w'.-])%s(?![\w'-])" % a, b, new)
        new = re.sub(r"(?<![\w'-])[a-z][\w'-]*[A-Z][\w'-]*", lambda m: snake(m[0]) if m[0] in names else m[0], new)
        write(path, old, new)


def docs():
    known = set()
    for path in files((".antt", ".rt")):
        known |= set(re.findall(r"[\w'-]+", read(path)))
    pages = ["README.md"] + sorted(os.path.join("docs", f) for f in os.listdir("docs") if f.endswith(".md") and not f.startswith("PORT"))
    for path in pages:
        old = read(path)

        def turned(span):
            return re.sub(r"[a-z][\w'-]*[A-Z][\w'-]*", lambda m: snake(m[0]) if snake(m[0]) in known else m[0], span[0])

        write(path, old, re.sub(r"`[^`\n]+`", turned, old))


if __name__ == "__main__":
    docs() if sys.argv[1:] == ["--docs"] else crates()
