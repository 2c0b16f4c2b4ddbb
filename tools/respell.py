#!/usr/bin/env python3
"""Gives this repository's own definitions and lemmas the spelling of today's Rattle.

usage: tools/respell.py [FOLDER]

It goes over every crate's .rt and .antt files below FOLDER (the current one if left out), after the kit's port.py has run there, and replaces each
name of tools/respelled.tsv, a whole word at a time: a function, lemma or field in snake case, a dash only between two names. In comments a name is
replaced only where it stands in backquotes; functions of src/ keep their names. Run it once.
"""

import os
import re
import sys

HERE = os.path.dirname(os.path.abspath(__file__))
# A word ends where antt's does; a dot parts a path.
ENDS = r"\s(){}\[\];,.`\"←→λ"
COMMENT = re.compile(r"(--|//)[^\n]*")
QUOTED = re.compile(r"`[^`\n]*`")


def table():
    with open(os.path.join(HERE, "respelled.tsv"), encoding="utf-8") as f:
        return dict(line.rstrip("\n").split("\t") for line in f)


def respelled(text, names):
    word = re.compile(f"(?<![^{ENDS}])[^{ENDS}]+(?![^{ENDS}])")

    def words(part):
        return word.sub(lambda m: names.get(m[0], m[0]), part)

    out, at = [], 0
    for comment in COMMENT.finditer(text):
        out.append(words(text[at : comment.start()]))
        out.append(QUOTED.sub(lambda m: words(m[0]), comment[0]))
        at = comment.end()
    out.append(words(text[at:]))
    return "".join(out)


def kept_in_rust(names):
    """The table without names that a function of src/ could have: those keep theirs."""
    return {old: new for old, new in names.items() if not re.fullmatch("[a-z0-9_]+", old)}


def main(argv):
    top = argv[0] if argv else "."
    names = table()
    for folder, below, files in os.walk(os.path.join(top, "crates")):
        below[:] = sorted(it for it in below if it not in ("out", "data"))
        for name in sorted(files):
            if not name.endswith((".rt", ".antt")):
                continue
            path = os.path.join(folder, name)
            with open(path, encoding="utf-8") as f:
                text = f.read()
            new = respelled(text, kept_in_rust(names) if name.endswith(".rt") else names)
            if new != text:
                with open(path, "w", encoding="utf-8") as f:
                    f.write(new)


if __name__ == "__main__":
    main(sys.argv[1:])
