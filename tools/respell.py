#!/usr/bin/env python3
"""Brings the repository's own definitions and lemmas to today's spelling: `tableCells` becomes `table_cells`.

usage: tools/respell.py        at the top of the repository, once, after the toolchain's port.py

A name is taken where an .antt file defines it, and turned wherever it stands as a word in crates/ (.antt, .rt, .edit). Where the plain respelling would meet
another name, the exceptions below say what is written. A second run changes nothing.
"""

import os
import re

# A definition whose respelled name is a lemma of the toolchain's or of another file that reads both.
OTHERWISE = {"takeAt": "take_at_place", "takeAll": "take_all_out", "countBy": "counts_by", "listAt": "list_at_place", "tells-HandOver": "tells-HandOver"}
# A lemma that would have its definition's name, in the crate that it stands in.
LEMMAS = {
    "crates/encoder/proofs": {"full_at": "full_at_lem"},
    "crates/theory/proofs/Stray.antt": {"nothing_left": "nothing_left_lem"},
    "crates/link/proofs": {"same_bytes": "same_bytes_lem", "taken_out": "taken_out_lem"},
    "crates/follows/proofs": {"xor_bytes": "xor-bytes"},
}
WORD = re.compile(r"[^\s(){}\[\],.;:\"`|λ]+")
HEAD = re.compile(r"^\s*(?:(?:abbrev|unfoldable|pub|opaque|record|data)\s+)*([^\s(){}\[\],.;:\"]+)\s*(?:[({].*)?:(?![=:])", re.M)


def files(endings):
    for folder, folders, names in os.walk("crates"):
        folders[:] = sorted(f for f in folders if f != "out")
        for name in sorted(names):
            if name.endswith(endings):
                yield os.path.join(folder, name)


def respelled(name):
    return re.sub(r"([a-z0-9])([A-Z])", lambda m: m.group(1) + "_" + m.group(2).lower(), name)


def read(path):
    with open(path, encoding="utf-8") as it:
        return it.read()


def main():
    names = {n for p in files(".antt") for n in HEAD.findall(read(p))}
    turned = {n: OTHERWISE.get(n, respelled(n)) for n in names if n[0].islower() and re.search("[a-z0-9][A-Z]", n)}
    turned = {n: to for n, to in turned.items() if n != to}
    if not turned:
        return
    for path in files((".antt", ".rt", ".edit")):
        old = read(path)
        # lemmas first: what they are called now is what definitions will be called
        lemmas = {n: to for where, those in LEMMAS.items() if path.startswith(where) for n, to in those.items()}
        new = WORD.sub(lambda m: lemmas.get(m.group(), m.group()), old)
        new = WORD.sub(lambda m: turned.get(m.group(), m.group()), new)
        if new != old:
            with open(path, "w", encoding="utf-8") as it:
                it.write(new)
    print("\n".join(f"{n} {to}" for n, to in sorted(turned.items())))


main()
