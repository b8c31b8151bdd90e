#!/usr/bin/env python3
"""Spells this repository's own definitions and lemmas in snake case, once, by respelled.tsv beside this file.

usage: tools/respell.py [FOLDER]      at the top, after port.py; FOLDER is another checkout

A row is the old name, the new one and, where the row is not for every file, the files that it is for. A name that was a definition's in one place
and a lemma's in another (as `answerIs` and `answer-is`) keeps its plain spelling for the definition, and the lemma ends in _lem.
In .rt files only what stands outside of string literals is respelled; names of functions of src/ are never in the table.
"""
import os
import re
import sys

HERE = os.path.dirname(os.path.realpath(__file__))
NAME = re.compile(r'[^\s(){}\[\].;,@"«»:`]+')
STRING = re.compile(r'("(?:[^"\\\n]|\\.)*")')


def rows():
    everywhere, here = {}, {}
    with open(os.path.join(HERE, "respelled.tsv"), encoding="utf-8") as f:
        for line in f:
            old, new, *files = line.rstrip("\n").split("\t")
            if files:
                for name in files[0].split():
                    here.setdefault(name, {})[old] = new
            else:
                everywhere[old] = new
    return everywhere, here


def respelled(text, names):
    return NAME.sub(lambda m: names.get(m[0], m[0]), text)


def main(top):
    everywhere, here = rows()
    for folder, dirs, files in os.walk(os.path.join(top, "crates")):
        dirs[:] = sorted(d for d in dirs if d != "out")
        for name in sorted(files):
            if not name.endswith((".rt", ".antt")):
                continue
            path = os.path.join(folder, name)
            names = everywhere | here.get(os.path.relpath(path, top), {})
            with open(path, encoding="utf-8") as f:
                text = f.read()
            if name.endswith(".rt"):
                parts = STRING.split(text)
                new = "".join(p if i % 2 else respelled(p, names) for i, p in enumerate(parts))
            else:
                new = respelled(text, names)
            if new != text:
                with open(path, "w", encoding="utf-8") as f:
                    f.write(new)


if __name__ == "__main__":
    main(sys.argv[1] if len(sys.argv) > 1 else os.path.dirname(HERE))
