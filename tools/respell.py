#!/usr/bin/env python3
"""Respells this repository's own definitions and lemmas: words in snake case, as tools/respell.tsv lists them (old name, new name).

usage: tools/respell.py [FOLDER]     at the top of the repository, or of a copy of it, after port.py and before any edit by hand

Changed are: names in specs/ and proofs/, names of definitions in the clauses of src/, the texts of must-fail edits, and names in comments
and documents where they cannot be English (in backticks, or with a capital inside). A name that a file imports from the library stays.
Not changed are theorems' names (a capital, then a dash), functions of src/, and strings.
"""
import os
import re
import sys

HERE = os.path.dirname(os.path.realpath(__file__))
TOKEN = re.compile(r"[^\s(){}\[\];,.\":=λ|`#]+")
OWN = re.compile(r"^(?:pub )?use Rattle\.(\w+)")


def table():
    with open(os.path.join(HERE, "respell.tsv"), encoding="utf-8") as f:
        return dict(line.rstrip("\n").split("\t") for line in f if line.strip())


def library_names(text, crates):
    """The names that a file imports from elsewhere than this repository."""
    names = set()
    for m in re.finditer(r"^(?:pub )?use ([^\n{]+?)\.\{([^}]*)\}", text, re.M):
        own = m.group(1).startswith("Rattle.") and m.group(1).split(".")[1] in crates
        if not own:
            names |= {x.strip() for n in m.group(2).split(",") for x in n.split(" as ")}
    return names


def is_camel(name):
    return "-" not in name and "_" not in name


def words(text, names, only=lambda n: True):
    return TOKEN.sub(lambda m: names[m.group(0)] if m.group(0) in names and only(m.group(0)) else m.group(0), text)


def prose(text, names):
    """In backticks every name; elsewhere only a name with a capital inside."""
    parts = text.split("`")
    for i, part in enumerate(parts):
        inside = i % 2 == 1 and len(parts) > 2
        parts[i] = words(part, names, (lambda n: True) if inside else is_camel)
    return "`".join(parts)


def antt(text, names, crates):
    here = {k: v for k, v in names.items() if k not in library_names(text, crates)}
    lines = []
    for line in text.split("\n"):
        if line.startswith(("use ", "pub use ")):
            m = OWN.match(line)
            lines.append(words(line, here) if m and m.group(1) in crates else line)
        elif line.lstrip().startswith("--"):
            lines.append(prose(line, here))
        else:
            code, dash, rest = line.partition(" -- ")
            lines.append(words(code, here) + dash + prose(rest, here))
    return "\n".join(lines)


def rattle(text, names):
    lines = []
    for line in text.split("\n"):
        if line.lstrip().startswith("//"):
            lines.append(prose(line, names))
        else:
            pieces = re.split(r'("(?:[^"\\]|\\.)*")', line)
            lines.append("".join(p if p.startswith('"') else words(p, names, is_camel) for p in pieces))
    return "\n".join(lines)


def edit(text, names):
    lines = []
    file = ""
    for line in text.split("\n"):
        if line.startswith("file:"):
            file = line
            lines.append(line)
        elif line.startswith(("old:", "new:")):
            lines.append(line[:4] + (rattle(line[4:], names) if ".rt" in file else words(line[4:], names)))
        else:
            lines.append(prose(line, names))
    return "\n".join(lines)


def page(text, names):
    lines, fenced = [], False
    for line in text.split("\n"):
        if line.lstrip().startswith("```"):
            fenced = not fenced
            lines.append(line)
        else:
            lines.append(words(line, names) if fenced else prose(line, names))
    return "\n".join(lines)


def main():
    root = sys.argv[1] if len(sys.argv) > 1 else "."
    names = table()
    crates = set(os.listdir(os.path.join(root, "crates")))
    changed = 0
    for folder, dirs, files in os.walk(root):
        dirs[:] = sorted(d for d in dirs if d not in (".git", "out", "target", "second", "changes", "data"))
        for f in sorted(files):
            path = os.path.join(folder, f)
            kind = os.path.splitext(f)[1]
            if os.path.islink(path) or kind not in (".antt", ".rt", ".edit", ".md") or f == "PORT.md":
                continue
            with open(path, encoding="utf-8") as h:
                old = h.read()
            if kind == ".antt":
                new = antt(old, names, crates)
            elif kind == ".rt":
                new = rattle(old, names)
            elif kind == ".edit":
                new = edit(old, names)
            else:
                new = page(old, names)
            if new != old:
                changed += 1
                with open(path, "w", encoding="utf-8") as h:
                    h.write(new)
    print(f"respell: {changed} files changed")


if __name__ == "__main__":
    main()
