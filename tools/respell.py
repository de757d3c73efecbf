#!/usr/bin/env python3
"""Brings the repository's own definitions to today's spelling: a word in snake case where it was in camel case.

usage: python3 tools/respell.py        at the top of the repository, once, on what the kit's port.py left

A word is one whole name that begins with a small letter and has capitals in it, such as dotsOf, which becomes dots_of. Names with a dash
stay: a dash joins two names, as today's spelling has it. Texts of crates/ (.rt, .antt, .edit) are rewritten in place, comments with them,
strings of .rt files without; in README.md and docs/ the same words are rewritten. The script refuses to run where two names would fall
together in the table of words below.
"""

import os
import re
import sys

NAME = re.compile(r"(?<![A-Za-z0-9_'\u2032\u2080-\u2089\u0370-\u03ff-])[A-Za-z_\u0370-\u03ff][A-Za-z0-9_'\u2032\u2080-\u2089\u0370-\u03ff-]*")
WORD = re.compile(r"[a-z][a-z0-9]*(?:[A-Z][a-z0-9]*)+")
STRING = re.compile(r'"(?:\\.|[^"\\])*"')


def snake(word):
    return re.sub(r"[A-Z]", lambda m: "_" + m.group().lower(), word)


def files(ends, *roots):
    for root in roots:
        if os.path.isfile(root):
            yield root
        for folder, dirs, names in os.walk(root):
            dirs[:] = sorted(d for d in dirs if d != "out")
            for name in sorted(names):
                if name.endswith(ends):
                    yield os.path.join(folder, name)


def read(path):
    with open(path, encoding="utf-8") as f:
        return f.read()


def respell(text, words):
    return NAME.sub(lambda m: words.get(m.group(), m.group()), text)


def main():
    code = list(files((".rt", ".antt", ".edit"), "crates"))
    words = {}
    for path in code:
        for m in NAME.finditer(STRING.sub('""', read(path)) if path.endswith(".rt") else read(path)):
            if WORD.fullmatch(m.group()):
                words[m.group()] = snake(m.group())
    if len(set(words.values())) != len(words):
        sys.exit("respell: two names would fall together")
    changed = 0
    for path in code + list(files((".md",), "README.md", "docs")):
        text = read(path)
        if path.endswith(".rt"):
            parts, at = [], 0
            for m in STRING.finditer(text):
                parts += [respell(text[at : m.start()], words), m.group()]
                at = m.end()
            new = "".join(parts) + respell(text[at:], words)
        else:
            new = respell(text, words)
        if new != text:
            with open(path, "w", encoding="utf-8") as f:
                f.write(new)
            changed += 1
    print(f"respell: {len(words)} words, {changed} files")


if __name__ == "__main__":
    main()
