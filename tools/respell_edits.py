#!/usr/bin/env python3
"""Spells the texts of must-fail/*.edit as respell.py and the library's renamings spelled the files that they change, once.

usage: tools/respell_edits.py        at the top, after port.py, respell.py and rename_log.sh

Only an edit whose text no longer stands is touched; what is left by hand is printed.
"""
import glob
import os
import re

HERE = os.path.dirname(os.path.realpath(__file__))
TOP = os.path.dirname(HERE)
NAME = re.compile(r'[^\s(){}\[\].;,@"«»:`]+')
OF_LIBRARY = {"getD": "get_or", "readLog": "read_log", "upTo": "up_to", "_<_": "◌<◌", "_≤_": "◌≤◌", "_-_": "◌-◌", "_+_": "◌+◌"}


def names():
    found = dict(OF_LIBRARY)
    for line in open(os.path.join(HERE, "respelled.tsv"), encoding="utf-8"):
        old, new, *files = line.rstrip("\n").split("\t")
        if not files:
            found[old] = new
    return found


def plain(name):
    return re.sub(r"(?<=[a-z0-9])[A-Z]", lambda m: "_" + m[0].lower(), name).replace("-", "_")


def respelled(text, table, stands):
    """The text, its names by the table, and else in snake case where the file has that word."""

    def one(m):
        word = m[0]
        if word in table:
            return table[word]
        return plain(word) if re.match(r"[a-z]", word) and word not in stands and plain(word) in stands else word

    text = re.sub(r"(?<=[\w)']) \.(?=[a-z0-9])", ".", text)
    text = re.sub(r"\((\w+)((?:\.\w+)+)\)", r"\1\2", text)
    return NAME.sub(one, text).replace("log::event_numbered", "event_log::event_numbered").replace("event_event_log", "event_log")


def main():
    table = names()
    for edit in sorted(glob.glob(os.path.join(TOP, "crates/*/must-fail/*.edit"))):
        crate = edit.split("/must-fail")[0]
        lines = open(edit, encoding="utf-8").read().split("\n")
        file = None
        for i, line in enumerate(lines):
            if line.startswith("file: "):
                file = open(os.path.join(crate, line[6:].strip()), encoding="utf-8").read()
            elif line.startswith("old: ") and file.count(line[5:]) != 1:
                stands = set(NAME.findall(file))
                old = respelled(line[5:], table, stands)
                new = lines[i + 1][5:]
                fresh = respelled(new, table, stands)
                if file.count(old) == 1:
                    lines[i], lines[i + 1] = "old: " + old, "new: " + fresh
                else:
                    print("by hand:", os.path.relpath(edit, TOP), "|", old, "|", fresh)
        with open(edit, "w", encoding="utf-8") as f:
            f.write("\n".join(lines))


if __name__ == "__main__":
    main()
