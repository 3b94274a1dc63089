#!/usr/bin/env python3
"""Brings this repository's own definitions and lemmas to today's spelling: words in snake case.

usage: tools/respell.py            at the top, once, right after the toolchain's port.py

It takes every definition, lemma, field and local name of specs/ and proofs/ that is written likeThis, and writes it like_this wherever it
stands as a word of its own in crates/: specs, proofs, clauses, and the texts of the edits that must be refused. Functions of src/, types and
exported names are not written likeThis and stay as they are. A name that would fall together with another one of its module is given by hand
in BY_HAND.
"""

import os
import re

# names that would fall together with one that stands beside them
BY_HAND = {
    "ofNumber": "from_number",
    "rowWord": "row_word_of",
    "sizeWord": "size_word_of",
    "inBlock2bpp": "in_block_2bpp",
    "inBlock4bpp": "in_block_4bpp",
    "inRow2bpp": "in_row_2bpp",
    "inRow4bpp": "in_row_4bpp",
    "withWeights2bpp": "with_weights_2bpp",
    "withWeights4bpp": "with_weights_4bpp",
    "getD-tab": "get_or-tab",
}

WORD = re.compile(r"(?<![A-Za-z0-9_'])[A-Za-z_][A-Za-z0-9_']*(?:-[A-Za-z0-9_']+)*")
# a part of a name, between dashes, that is written likeThis. A part with a capital in front is a type's or a fact's and stays
CAMEL = re.compile(r"[a-z][A-Za-z0-9_']*?[a-z0-9][A-Z][A-Za-z0-9_']*")


def files(ending):
    for folder, folders, names in os.walk("crates"):
        folders[:] = sorted(f for f in folders if f != "out")
        for name in sorted(names):
            if name.endswith(ending):
                yield os.path.join(folder, name)


def read(path):
    with open(path, encoding="utf-8") as file:
        return file.read()


def snake(name):
    if name in BY_HAND:
        return BY_HAND[name]
    parts = name.split("-")
    return "-".join(re.sub(r"(?<=[a-z0-9])[A-Z]", lambda capital: "_" + capital[0].lower(), p) if CAMEL.fullmatch(p) else p for p in parts)


def main():
    turned = {}
    for path in files(".antt"):
        for name in WORD.findall(read(path)):
            if snake(name) != name:
                turned[name] = snake(name)
    for path in files((".antt", ".rt", ".edit")):
        text = read(path)
        new = WORD.sub(lambda word: turned.get(word[0], word[0]), text)
        if new != text:
            with open(path, "w", encoding="utf-8") as file:
                file.write(new)
    for name in sorted(turned):
        print(f"{name} -> {turned[name]}")


main()
