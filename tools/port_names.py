#!/usr/bin/env python3
"""Brings the names of this repository's definitions and lemmas to the spelling of today's Rattle, by the table port_names.tsv beside it.

usage: tools/port_names.py [FOLDER]      FOLDER is the top of a checkout that the kit's port.py has turned; the one that holds this script is the default

A row has the old name, a tab and the new one. What turns are whole words: in .antt files the code, in .rt files the clauses and the imports of ghost names, and in
both, and in pages, what stands between backticks in a comment or a sentence. Names of the functions of src/, strings, inputs and outputs stay. A second run changes
nothing. It was run once, right after port.py (docs/PORT.md).
"""

import os
import re
import sys

HERE = os.path.dirname(os.path.realpath(__file__))
WORD = re.compile(r'[^\s(){}.;,:@"«»|`\[\]]+|:')
TICKS = re.compile(r"`[^`\n]+`")
LOWER_CAMEL = re.compile(r"[a-z]+[a-z0-9]*[A-Z]\w*$")


def table():
    with open(os.path.join(HERE, "port_names.tsv"), encoding="utf-8") as f:
        return dict(line.rstrip("\n").split("\t") for line in f)


def turned(text, names):
    return WORD.sub(lambda m: names.get(m.group(0), m.group(0)), text)


def ticked(text, names):
    """Names between backticks, and bare names that no English word can be."""
    text = TICKS.sub(lambda m: turned(m.group(0), names), text)
    return WORD.sub(lambda m: names.get(m.group(0), m.group(0)) if LOWER_CAMEL.match(m.group(0)) else m.group(0), text)


def antt(text, names):
    lines = []
    for line in text.split("\n"):
        at = re.search(r"(?:^|\s)--(?:\s|$)", line)
        cut = at.start() if at else len(line)
        lines.append(turned(line[:cut], names) + ticked(line[cut:], names))
    return "\n".join(lines)


def rt(text, names):
    lines, inside = [], 0
    for line in text.split("\n"):
        at = line.find("//")
        cut = at if at >= 0 else len(line)
        code, comment = line[:cut], line[cut:]
        begins = re.match(r"\s*(?:ghost\b|requires\b|ensures\b)", code)
        if begins or inside:
            inside += code.count("{") - code.count("}")
            if code.rstrip().endswith(";"):
                inside = 0
            code = turned(code, names)
        lines.append(code + ticked(comment, names))
    return "\n".join(lines)


def pages(text, names):
    return TICKS.sub(lambda m: turned(m.group(0), names), text)


def main(argv):
    top = os.path.realpath(argv[0] if argv else os.path.join(HERE, ".."))
    names = table()
    changed = 0
    for folder, dirs, files in os.walk(top):
        dirs[:] = sorted(d for d in dirs if d not in ("out", ".git"))
        for name in sorted(files):
            way = {".antt": antt, ".rt": rt, ".md": pages}.get(os.path.splitext(name)[1])
            if way is None or name == "PORT.md":
                continue
            path = os.path.join(folder, name)
            with open(path, encoding="utf-8") as f:
                old = f.read()
            new = way(old, names)
            if new != old:
                changed += 1
                with open(path, "w", encoding="utf-8") as f:
                    f.write(new)
    print(f"port_names: {changed} files changed")


if __name__ == "__main__":
    main(sys.argv[1:])
