#!/usr/bin/env python3
"""Brings this repository's own definitions, lemmas, fields and constructors to the spelling of today's Rattle.

usage: tools/respell.py [FOLDER]       at the top of a repository that port.py has turned; FOLDER stands for it

    structOf, countWidth, encodeCode, exprStmt-bytes  ->  struct_of, count_width, encode_code, expr_stmt-bytes

Names of several words that began with a small letter and went on in camel case are in snake case; types, facts and modules keep their
capitals, and a dash that joins two names stays. Strings of the sources keep their spelling, as do the functions of src/, which had it
already. Where a lemma's name had been that of a definition but for its spelling, the lemma gets _lem (LEMMAS). A second run changes nothing.
"""

import os
import re
import sys

# (file, name): the lemmas that would fall together with a definition that is in scope beside them
LEMMAS = [
    ("rules/proofs/Offsets.antt", "a_call"),
    ("statements_acts/proofs/Views.antt", "callee_at"),
    ("statements_acts/proofs/unused_callee/Proof.antt", "callee_at"),
    ("statements_acts/proofs/Fronts.antt", "head_bytes"),
    ("statements_acts/proofs/Acts.antt", "head_bytes"),
    ("image_encoding/proofs/TablesWritten.antt", "of_width"),
    ("image_encoding/proofs/TablesReadBack.antt", "of_width"),
    ("scope_entered/proofs/Entries.antt", "param_in"),
    ("tables/proofs/Names.antt", "same_bytes"),
    ("lent/proofs/Reports.antt", "too_few"),
]
WORD = r"[A-Za-z_][A-Za-z0-9_'\u2032]*(?:-[A-Za-z0-9_'\u2032]+)*"
CAMEL = re.compile(r"[a-z][a-z0-9]*(?:[A-Z][a-z0-9]*)+['\u2032]*")
STRING = re.compile(r'"(?:[^"\\]|\\.)*"')


def snake(part):
    if not CAMEL.fullmatch(part):
        return part
    return re.sub(r"(?<=[a-z0-9])(?=[A-Z])", "_", part).lower()


def word(it):
    return "-".join(snake(part) for part in it[0].split("-"))


def turned(text, is_source):
    if not is_source:
        return re.sub(WORD, word, text)
    out, at = [], 0
    for it in STRING.finditer(text):
        out += [re.sub(WORD, word, text[at : it.start()]), it[0]]
        at = it.end()
    return "".join(out) + re.sub(WORD, word, text[at:])


def main():
    top = os.path.join(sys.argv[1] if len(sys.argv) > 1 else ".", "crates")
    for folder, dirs, files in os.walk(top):
        dirs[:] = sorted(d for d in dirs if d != "out")
        for name in sorted(files):
            path = os.path.join(folder, name)
            if not name.endswith((".rt", ".antt")):
                continue
            with open(path, encoding="utf-8", newline="") as f:
                text = f.read()
            new = text
            for file, lemma in LEMMAS:
                # a copy of a file with an edit applied, NamesXe2.antt beside Names.antt, is turned as the file
                if re.fullmatch(re.escape(file[:-5]) + r"(?:Xe\d+)?\.antt", os.path.relpath(path, top)):
                    new = re.sub(r"(?<![\w'-])%s(?![\w'-])" % lemma, lemma + "_lem", new)
            new = turned(new, name.endswith(".rt"))
            if new != text:
                with open(path, "w", encoding="utf-8", newline="") as f:
                    f.write(new)


main()
