#!/usr/bin/env python3
"""Respells the names that this repository gives to its own definitions and lemmas, by the table names.tsv beside this file.

usage: python3 tools/respell.py      at the top, once, right after port.py of the kit

A row of the table is an old name, a tab, and the new one: words in snake case, types as they are, a dash only between
two names of definitions. Turned are the code of each .antt file, the clauses of each .rt file, the text of each
must-fail edit, and names between backticks in comments and in pages. Names of Rust functions, strings, inputs and
outputs are none of the table's. Proof.antt files cite steps of the code behind a dot; a lemma that got the ending
_lem is none of these.
"""
import os
import re

HERE = os.path.dirname(os.path.realpath(__file__))
ROOT = os.path.dirname(HERE)
WORD = re.compile(r"[^\s(){}.;,@\"«»]+")
CAMEL = re.compile(r"(?<![\w-])[a-z]\w*[a-z0-9][A-Z]\w*(?:-\w+)*")
SPAN = re.compile(r"`[^`\n]*`")
COMMENT = {".antt": re.compile(r"(?<![^\s(){}.;,@\"«»])--[^\n]*"), ".rt": re.compile(r"//[^\n]*")}


def table():
    with open(os.path.join(HERE, "names.tsv"), encoding="utf-8") as f:
        return dict(line.rstrip("\n").split("\t") for line in f if line.strip())


NAMES = table()


def turn(text, proof=False):
    """Every word of the table in a piece of code."""

    def one(m):
        new = NAMES.get(m[0], m[0])
        behind_dot = text[max(0, m.start() - 1) : m.start()] == "."
        return m[0] if proof and behind_dot and new.endswith("_lem") else new

    return WORD.sub(one, text)


def turn_camel(text):
    """Words in camel case alone: in Rust code and in prose no other word looks so."""
    return CAMEL.sub(lambda m: NAMES.get(m[0], m[0]), text)


def turn_prose(text):
    return turn_camel(SPAN.sub(lambda m: turn(m[0].replace("`", " ` ")).replace(" ` ", "`"), text))


def turn_source(text, kind, proof):
    comment, out, at = COMMENT[kind], [], 0
    for m in comment.finditer(text):
        out += [turn(text[at : m.start()], proof) if kind == ".antt" else turn_camel(text[at : m.start()]), turn_prose(m[0])]
        at = m.end()
    rest = text[at:]
    return "".join(out + [turn(rest, proof) if kind == ".antt" else turn_camel(rest)])


def files():
    for folder, dirs, names in os.walk(ROOT):
        dirs[:] = sorted(d for d in dirs if d not in (".git", "out", "target", "tools", "oracle", "data"))
        for name in sorted(names):
            yield os.path.join(folder, name)


def main():
    turned = 0
    for path in files():
        kind = os.path.splitext(path)[1]
        if kind not in (".antt", ".rt", ".edit", ".md"):
            continue
        with open(path, encoding="utf-8") as f:
            old = f.read()
        if kind == ".edit":
            new = turn(old) if ".antt" in old else turn_camel(old)
        elif kind == ".md":
            new = turn_prose(old)
        else:
            new = turn_source(old, kind, path.endswith("Proof.antt"))
        if new != old:
            turned += 1
            with open(path, "w", encoding="utf-8") as f:
                f.write(new)
    print(f"respell: {turned} files turned")


if __name__ == "__main__":
    main()
