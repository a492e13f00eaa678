#!/usr/bin/env python3
"""Spells this repository's own definitions and lemmas in snake case, after port.py; types and modules keep their capitals.

usage: python3 tools/spell.py [FOLDER]      in place; FOLDER is the top of a checkout, else this one

1. A name of our own that begins with a small letter and has a capital behind it gets an underscore there: isBook is is_book.
2. What proves a function f is f_spec, its name as it is in the code: has-symbol-spec is has_symbol_spec.
3. LATER has the names that would fall together with another by 1.
It goes through the crates' .rt and .antt files, their must-fail edits, and the pages. It stops, and writes nothing, where two names would
fall together.
"""

import os
import re
import sys

WORD = re.compile(r"[A-Za-z_][\w'-]*", re.A)
# Lemmas that would have a definition's name.
LATER = {name: name + "_lem" for name in ("good_length", "in_rows", "offset_at", "one_name", "read_back", "thin_reads")}
DECLARED = re.compile(r"^\s*(?:(?:abbrev|unfoldable|opaque)\s+)?(?:pub\s+)?([a-z][\w'-]*)(?:\s+[({][^=]*[)}])*\s*:\s", re.A)
ALIAS = re.compile(r"\bas ([a-z][\w'-]*)", re.A)
HUMP = re.compile(r"(?<=[a-z0-9'])[A-Z](?=[a-z0-9']|$|-)")


def under(folder, endings):
    for at, folders, files in os.walk(folder):
        folders[:] = sorted(f for f in folders if f not in ("out", "target", ".git"))
        for name in sorted(files):
            if name.endswith(endings):
                yield os.path.join(at, name)


def read(path):
    with open(path, encoding="utf-8") as f:
        return f.read()


def snake(name):
    return HUMP.sub(lambda m: "_" + m.group().lower(), name)


def renamed(top):
    declared, names = set(), {}
    for path in under(os.path.join(top, "crates"), (".antt", ".rt")):
        for line in read(path).splitlines():
            if path.endswith(".antt") and not line.lstrip().startswith("--") and (m := DECLARED.match(line)):
                declared.add(m.group(1))
            if "use " in line:
                declared.update(ALIAS.findall(line))
    for name in declared:
        if HUMP.search(name):
            names[name] = snake(name)
        elif name.endswith("-spec"):
            names[name] = name.replace("-", "_")
    for name, to in LATER.items():
        if name in declared:
            names[name] = to
    taken = {}
    for name in declared:
        to = names.get(name, name)
        if to in taken and taken[to] != name:
            raise SystemExit(f"spell.py: {name} and {taken[to]} would both be {to}; nothing is written")
        taken[to] = name
    return names


def main(words):
    top = words[0] if words else os.path.dirname(os.path.dirname(os.path.realpath(__file__)))
    names = renamed(top)
    pages = [os.path.join(top, p) for p in ("README.md",)] + list(under(os.path.join(top, "docs"), (".md",)))
    count = 0
    for path in list(under(os.path.join(top, "crates"), (".antt", ".rt", ".edit"))) + pages:
        old = read(path)
        new = WORD.sub(lambda m: names.get(m.group(), m.group()), old)
        if new != old:
            count += 1
            with open(path, "w", encoding="utf-8") as f:
                f.write(new)
    print(f"spell.py: {len(names)} names, {count} files")
    for name in sorted(names):
        print(f"{name} {names[name]}")


if __name__ == "__main__":
    main(sys.argv[1:])
