#!/usr/bin/env python3
"""Respells the repository's own definitions, lemmas, fields and local names: words joined by a dash go to snake case,
types to camel case. Run once, at the top, after the kit's port.py.

What Rattle makes itself (goals, steps, loops) and what is imported from its library keeps its dashes. In .rt and .edit
files only whole names are turned, outside comments and strings. A name that would fall together with another one in the
same file is told, and nothing is written; a definition may share its name with a Rust function.
"""
import os
import re
import sys

NAME = re.compile(r"[A-Za-z_][\w']*(?:-[\w']+)+")
WORD = re.compile(r"[A-Za-z_«][\w'»]*(?:-[\w'»]+)*")
LIBRARY = re.compile(r"^\s*use (?:Rattle\.std|native|borrow|mathlib|denote|logic|Prim|lib)\b")
GENERATED = re.compile(r"^\s*use .*\.(?:Goals|Given)(?:\.\{| as )")
# what the kit's script left with an underscore in a type's name
LEFT = {"Goes_on": "GoesOn"}
PROVED = ("Answers.antt", "Invariants.antt", "Choices.antt")


def files(root):
    for folder, dirs, names in os.walk(os.path.join(root, "crates")):
        dirs[:] = sorted(d for d in dirs if d != "out")
        for name in sorted(names):
            if name.endswith((".antt", ".rt", ".edit")):
                yield os.path.join(folder, name)


def code(line, mark):
    """The line without its comment."""
    place = line.find(mark)
    return line if place < 0 else line[:place]


def kept(line):
    """Names that an import of the library's, or of generated goals, brings in."""
    if not (LIBRARY.match(line) or GENERATED.match(line)):
        return set()
    inner = line[line.find("{") :] if "{" in line else ""
    return {part.split(" as ")[0].strip() for part in inner.strip("{}\n ;").split(",")}


def respelled(name):
    if name[0].isupper():
        return "".join(part[:1].upper() + part[1:] for part in re.split(r"[-_]", name))
    return name.replace("-", "_")


def own_names(paths):
    """The dashed names that the repository's own definitions and lemmas write."""
    own, library = set(), set()
    for path in paths:
        if not path.endswith(".antt") or os.path.basename(path) in PROVED:
            continue
        with open(path, encoding="utf-8") as f:
            for line in f:
                line = code(line, "--")
                library |= kept(line)
                if LIBRARY.match(line) or GENERATED.match(line):
                    own |= {part.split(" as ")[1].strip() for part in re.findall(r"[\w'-]+ as [\w'-]+", line) if "-" in part.split(" as ")[1]}
                else:
                    own |= set(NAME.findall(line))
    return own, library


def turned(path, text, table):
    """The text with the names of the table respelled, comments and strings left."""
    mark = "--" if path.endswith(".antt") else "//"
    out = []
    for line in text.split("\n"):
        cut = len(code(line, mark))
        head, tail = line[:cut], line[cut:]
        pieces = re.split(r'("(?:[^"\\]|\\.)*")', head)
        for i in range(0, len(pieces), 2):
            pieces[i] = WORD.sub(lambda m: table.get(m.group(), m.group()), pieces[i])
        out.append("".join(pieces) + tail)
    return "\n".join(out)


def main():
    paths = list(files("."))
    own, library = own_names(paths)
    for path in paths:
        if path.endswith(".antt") and os.path.basename(path) in PROVED:
            with open(path, encoding="utf-8") as f:
                for line in f:
                    library |= kept(code(line, "--"))
    table = {name: respelled(name) for name in own - library} | LEFT
    clash = False
    texts = {}
    for path in paths:
        with open(path, encoding="utf-8") as f:
            texts[path] = f.read()
        mark = "--" if path.endswith(".antt") else "//"
        lines = texts[path].split("\n")
        if path.endswith(".rt"):
            # a Rust name and a name in clauses may be the same, as they stand apart
            lines = [line for line in lines if line.startswith("ghost use ")]
        words = {w for line in lines for w in WORD.findall(code(line, mark))}
        for name in words & set(table):
            if table[name] in words:
                print(f"{path}: {name} falls together with {table[name]}", file=sys.stderr)
                clash = True
    if clash:
        return 1
    for path in paths:
        new = turned(path, texts[path], table)
        if new != texts[path]:
            with open(path, "w", encoding="utf-8") as f:
                f.write(new)
    for name in sorted(table):
        print(name, table[name])
    return 0


if __name__ == "__main__":
    sys.exit(main())
