#!/usr/bin/env python3
"""Spells the definitions, laws, fields and constructors that this repository declares as the kit does: in snake case.

usage: tools/respell.py [FOLDER]

FOLDER is a checkout of this repository, the one that this file stands in if none is given. tools/respelled.tsv has a row for each
name: old, a tab, new. Whole words alone are turned: in the code of .antt and .rt files and in the texts of must-fail edits; in
comments and pages where they stand as code, or are spelled as no English word is. A name that a file imports from the library
stays there, and so does what Rattle makes: the first name behind `c.` or `goal.` in a proof. A second run changes nothing.
"""
import os
import re
import sys

HERE = os.path.dirname(os.path.realpath(__file__))
WORD = re.compile(r'[^\s(){}.;,@"«»\[\]`|:]+')
COMMENT = {".antt": r'(?<![^\s(){}.;,@"«»])--[^\n]*', ".rt": r"//[^\n]*"}
STRING = r'b?"(?:[^"\\\n]|\\.)*"'
LIBRARY = re.compile(r"\buse Rattle\.std\.[^\s{;]*\{([^}]*)\}")
MADE = re.compile(r"(?<![\w'.-])(?:c|goal)\.$")
CODE = re.compile(r"```.*?```|`[^`\n]+`", re.S)
CAMEL = re.compile(r"(?<![\w.'/-])[a-z]+[a-z0-9]*(?:[A-Z][A-Za-z0-9]*)+(?![\w'-])")


def table():
    with open(os.path.join(HERE, "respelled.tsv"), encoding="utf-8") as f:
        return dict(line.rstrip("\n").split("\t") for line in f)


def code(text, names):
    return WORD.sub(lambda m: m[0] if MADE.search(text, max(0, m.start() - 8), m.start()) else names.get(m[0], m[0]), text)


def prose(text, names):
    """Of a comment or a page: what stands as code, and words that only a name is spelled like."""
    out, end = [], 0
    for m in CODE.finditer(text):
        out += [CAMEL.sub(lambda w: names.get(w[0], w[0]), text[end : m.start()]), code(m[0], names)]
        end = m.end()
    return "".join(out) + CAMEL.sub(lambda w: names.get(w[0], w[0]), text[end:])


def source(text, ending, names):
    """Of .antt or .rt text: code apart from comments and strings."""
    library = {word.strip() for m in LIBRARY.finditer(text) for word in m[1].split(",")}
    names = {old: new for old, new in names.items() if old not in library}
    out, end = [], 0
    for m in re.finditer(f"{STRING}|{COMMENT[ending]}", text):
        out += [code(text[end : m.start()], names), m[0] if '"' in m[0][:2] else prose(m[0], names)]
        end = m.end()
    return "".join(out) + code(text[end:], names)


def edit(text, names):
    """Of a must-fail edit: its old and new texts, which stand in the file that the line above them names."""
    out, ending = [], ".rt"
    for line in text.split("\n"):
        key, colon, rest = line.partition(":")
        if key == "file":
            ending = os.path.splitext(rest.strip())[1]
        out.append(key + colon + source(rest, ending, names) if key in ("old", "new") else prose(line, names))
    return "\n".join(out)


def respelled(path, text, names):
    ending = os.path.splitext(path)[1]
    if ending in COMMENT:
        return source(text, ending, names)
    return edit(text, names) if ending == ".edit" else prose(text, names)


def main(folder):
    names, count = table(), 0
    for where, folders, files in os.walk(folder):
        folders[:] = [name for name in folders if name not in ("out", ".git", "build", "dist", "target")]
        for name in files:
            path = os.path.join(where, name)
            if not name.endswith((".antt", ".rt", ".edit", ".md")) or name == "PORT.md":
                continue
            with open(path, encoding="utf-8") as f:
                old = f.read()
            new = respelled(path, old, names)
            if new != old:
                count += 1
                with open(path, "w", encoding="utf-8") as f:
                    f.write(new)
    print(f"respell: {count} files changed")


if __name__ == "__main__":
    main(sys.argv[1] if len(sys.argv) > 1 else os.path.dirname(HERE))
