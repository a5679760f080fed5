#!/usr/bin/env python3
"""Brings the repository's own names in clauses, specs/ and proofs/ to snake case; run once, after the kit's port.py, at the top of the repository.

A name is a run of letters between blanks, brackets and dots; a dash joins its parts, and each part that begins with a small letter and has a capital in it is
respelled: bigBytes-snoc becomes big_bytes-snoc. Types and modules keep their capitals, and so do the library's names. Where a lemma would then have its
definition's name, it ends in _lem. Names of Rust code have no capitals inside, so they stay. Edits and their lists are turned with the rest: what they quote is text of the
files that are turned here.
"""

import os
import re

TOKEN = re.compile(r"(?<![0-9A-Za-z_\\])[A-Za-z_][A-Za-z0-9_'₀-₉ℕ-]*")
# names of the library
KEEP = re.compile(r"_(Lawful|Tells|Makes|Meets)$")
# the library's older word for its get_or, inside a name
WORDS = {"getD": "get_or"}
# lemmas beside the definition that takes their name: the lemma, and where it is cited
LEMMAS = {
    "by_count": r"crates/hostpages/proofs/Laws\.antt$",
    "cut_all": r"crates/world/proofs/Laws\.antt$",
    "in_image": r"crates/opening/proofs/(Replays|Pages)\.antt$",
    "told_of": r"crates/shrunk/proofs/Ways\.antt$",
    "head_in": r"crates/(frames|world|absorbs|keyturn|keyoff|opening|quiet|calls|settle|plans|still)/proofs/",
}


def part(word):
    if not re.match(r"[a-z_]", word) or KEEP.search(word):
        return word
    if word in WORDS:
        return WORDS[word]
    return re.sub(r"(?<=[a-z0-9ℕ])([A-Z])", lambda m: "_" + m.group(1).lower(), word)


def turn(match):
    return "-".join(part(w) for w in match.group(0).split("-"))


def lemmas(path, text):
    for name, where in LEMMAS.items():
        if re.match(where, path):
            text = re.sub(rf"(?<![\w'.-]){name}(?![\w'-])", name + "_lem", text)
    return text


def files():
    for folder, dirs, names in os.walk("crates"):
        dirs[:] = sorted(d for d in dirs if d != "out")
        for name in sorted(names):
            path = os.path.join(folder, name)
            if name.endswith((".antt", ".rt", ".edit")) or name in ("tried", "differs"):
                yield path


def main():
    for path in files():
        with open(path, encoding="utf-8") as f:
            old = f.read()
        new = TOKEN.sub(turn, lemmas(path, old))
        if new != old:
            with open(path, "w", encoding="utf-8") as f:
                f.write(new)


main()
