#!/usr/bin/env python3
"""Spells the repository's own definitions and lemmas in snake case, by the rows of respell.tsv beside this file (old, a tab, new).

usage: python3 tools/respell.py    once, at the top of a checkout that port.py has turned and nobody has edited since: rewrites the files below crates/

A row is a name that specs/ or proofs/ of a crate declared: a definition, a lemma, a local one behind 'where', a constructor or a field of a record.
It turns as a whole word: in .antt files, and in clauses, ghost items and comments of .rt files. A lemma that would have got its function's name ends in '_lem'.
Names that Rattle makes of the source, behind a dot in a function's own proof, stay; so do types, modules, Rust's names, strings, inputs and outputs.
"""

import os
import re
import sys

HERE = os.path.dirname(os.path.realpath(__file__))
TOKEN = re.compile(r'[^\s(){}.;,@"«»`]+')
QUOTED = re.compile(r'"(?:\\.|[^"\\])*"|b?\'(?:\\.|[^\'\\])\'')


def rows():
    with open(os.path.join(HERE, "respell.tsv"), encoding="utf-8") as f:
        return dict(line.rstrip("\n").split("\t") for line in f)


def files(root, ending):
    for folder, dirs, names in os.walk(os.path.join(root, "crates")):
        dirs[:] = sorted(d for d in dirs if d != "out")
        for n in sorted(names):
            if n.endswith(ending):
                yield os.path.join(folder, n)


def of_a_function(path, root):
    parts = os.path.relpath(path, root).split(os.sep)
    return len(parts) > 4 and parts[2] == "proofs"


def turn_antt(text, names, function):
    def word(m):
        w, at = m.group(0), m.start()
        if function and at and text[at - 1] == "." and not text[text.rfind("\n", 0, at) + 1 :].startswith("use "):
            return w
        return names.get(w, w)

    return TOKEN.sub(word, text)


def turn_rt(text, names):
    words = lambda code: re.sub(r"\b[a-z]\w*\b", lambda m: names.get(m.group(0), m.group(0)) if re.search("[A-Z]", m.group(0)) else m.group(0), code)
    out, at = [], 0
    for m in QUOTED.finditer(text):
        out += [words(text[at : m.start()]), m.group(0)]
        at = m.end()
    return "".join(out) + words(text[at:])


def main():
    root = os.getcwd()
    names = rows()
    n = 0
    for p in list(files(root, ".antt")) + list(files(root, ".rt")):
        with open(p, encoding="utf-8") as f:
            old = f.read()
        new = turn_antt(old, names, of_a_function(p, root)) if p.endswith(".antt") else turn_rt(old, names)
        if new != old:
            with open(p, "w", encoding="utf-8") as f:
                f.write(new)
            n += 1
    print(f"respell: {len(names)} names, {n} files changed")
    return 0


if __name__ == "__main__":
    sys.exit(main())
