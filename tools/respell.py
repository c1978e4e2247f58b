#!/usr/bin/env python3
"""Brings this repository's own definitions and lemmas to snake case.

usage: python3 tools/respell.py        once, at the top, after the toolchain's own script

Words of specs/ and proofs/ that had capitals inside are turned wherever they stand as whole words: in .rt, .antt and .edit files and in the
documents. Types, modules and the names of Rust items stay. Three constants that were written like types get plain words.
"""
import os
import re

OWN = {"Hours": "year_hours", "Limit": "limit", "MostLoad": "most_load", "getD-free": "get_or-free", "withLast": "with_last", "refusedWith": "refused_with"}
WORD = r"[A-Za-zℕ][\w'\-]*"
DECLARED = re.compile(r"^\s*(?:(?:pub|abbrev|unfoldable)\s+)*(%s)(?=\s*(?:\([^)]*\)|\{[^}]*\})*\s*:)" % WORD, re.M)


def texts(*tops):
    for top in tops:
        for folder, dirs, files in os.walk(top):
            dirs[:] = sorted(d for d in dirs if d not in ("out", ".git"))
            for name in sorted(files):
                yield os.path.join(folder, name)


def snake(word):
    """Turns each part between dashes that begins with a small letter and has a capital inside."""
    parts = word.split("-")
    for i, part in enumerate(parts):
        if part[:1].islower() and re.search("[A-Z]", part):
            parts[i] = re.sub("([a-z0-9])([A-Z])", r"\1_\2", part).lower()
    return "-".join(parts)


def renamed():
    names = dict(OWN)
    for path in texts("crates"):
        if path.endswith(".antt"):
            with open(path, encoding="utf-8") as f:
                for name in DECLARED.findall(f.read()):
                    if name not in names and snake(name) != name:
                        names[name] = snake(name)
    return names


def main():
    names = renamed()
    plain = {k: v for k, v in names.items() if k not in OWN}  # in the documents a constant's old name is also an English word
    whole = re.compile(r"(?<![\w'\-·])(%s)(?![\w'\-·])" % "|".join(sorted(map(re.escape, names), key=len, reverse=True)))
    for path in list(texts("crates", "docs")) + ["README.md"]:
        if not path.endswith((".rt", ".antt", ".edit", ".md")):
            continue
        with open(path, encoding="utf-8") as f:
            old = f.read()
        table = plain if path.endswith(".md") else names
        new = whole.sub(lambda m: table.get(m.group(1), m.group(1)), old)
        if new != old:
            with open(path, "w", encoding="utf-8") as f:
                f.write(new)
    for old in sorted(names):
        print(old, names[old])


if __name__ == "__main__":
    main()
