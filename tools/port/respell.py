#!/usr/bin/env python3
"""Spells the repository's own definitions and lemmas as today's Rattle does, by names.tsv beside this file.

usage: python3 tools/port/respell.py [FOLDER]       FOLDER is the repository, this one by default

It is run once, on a tree that Rattle's own port.py has just turned, and goes over each .rt and .antt file below crates/.
A row of names.tsv is: old, a tab, new; or old, new and a beginning of the paths, below crates/, to which it applies.
A name turns where it stands as a whole word. In a comment it turns if it has a capital inside, or a dash between two
capitals, since then it is no word of English, or if it stands in backticks. A string of a .rt file stays. A second run
would do harm: a row with a path may take back what port.py did to a name that another row brings into being.
`respell.py --names` writes the rows without a path anew from the declarations that it finds.
"""

import os
import re
import sys

HERE = os.path.dirname(os.path.realpath(__file__))
TABLE = os.path.join(HERE, "names.tsv")
WORD = re.compile(r'[^\s(){}.;,@"«»\[\]`]+')
# One name, or several of one type; not those of a `let`, which no other file can see, and no comment.
DECLARED = re.compile(
    r"(?m)^ *(?!let |--)(?:(?:pub|abbrev|unfoldable) )*(?:(?:data|record|module) )?(?:pub )?"
    r'((?:[^\s(){}.;,@"«»:]+ )*[^\s(){}.;,@"«»:]+)(?: \{[^{}\n]*\}| \([^()\n]*\))* :(?= |$)'
)
QUIET = {
    ".antt": re.compile(r"(?<![^\s(){}.;,])(--[^\n]*)"),
    ".rt": re.compile(r'(//[^\n]*|b?"(?:[^"\\]|\\.)*")'),
}
# Names that would fall together with another one in a file keep their dash.
KEPT = set(
    "a3-exchange a3-read chain-counts descriptor-classes descriptor-nexts descriptor-regions f3-exchange f3-link f3-read"
    " f4-clear in-area in-cache in-hand in-request leave-end own-blocks region-nexts strip-freed strip-give strip-take"
    " strip-unit to-cache to-group to-next under-way".split()
)


def texts(root):
    for folder, dirs, names in os.walk(os.path.join(root, "crates")):
        dirs[:] = sorted(d for d in dirs if d != "out")
        for name in sorted(names):
            if name.endswith((".rt", ".antt")):
                yield os.path.join(folder, name)


def spelled(name, in_specs):
    """The name in today's spelling: words in snake case, types in camel case. A lemma's dash joins two names."""
    if name in KEPT:
        return name
    if name[0].isupper():
        return name.replace("-", "_") if re.fullmatch(r"[A-Z0-9-]+", name) else name
    new = re.sub(r"(?<=[a-z0-9])[A-Z]+", lambda m: "_" + m[0].lower(), name)
    return new.replace("-", "_") if in_specs else new


def declared(root):
    """The rows for what the files below the folder declare."""
    found = {}
    for path in texts(root):
        if path.endswith(".antt"):
            with open(path, encoding="utf-8") as f:
                names = [it for m in DECLARED.finditer(f.read()) for it in m[1].split()]
            for it in names:
                found[it] = found.get(it, False) or "/specs/" in path
    rows = ((old, spelled(old, found[old])) for old in sorted(found))
    return [(old, new) for old, new in rows if old != new]


def rows():
    with open(TABLE, encoding="utf-8") as f:
        for line in f:
            yield tuple(line.rstrip("\n").split("\t"))


def turned(text, kind, table):
    """The text of a file of this kind with each name of the table in its new spelling."""

    def code(part):
        return WORD.sub(lambda m: table.get(m[0], m[0]), part)

    def prose(part):
        if part.startswith(('"', 'b"')):
            return part

        def one(m):
            quoted = part[m.start() - 1 : m.start()] == "`" and part[m.end() : m.end() + 1] == "`"
            bare = m[0].rstrip(":'?")
            if quoted or re.search(r"[a-z0-9][A-Z]|[A-Z]-[A-Z]", bare):
                return table.get(m[0]) or table.get(bare, bare) + m[0][len(bare) :]
            return m[0]

        return WORD.sub(one, part)

    pieces = QUIET[kind].split(text)
    return "".join(prose(it) if at % 2 else code(it) for at, it in enumerate(pieces))


def main():
    words = sys.argv[1:]
    if words == ["--names"]:
        kept = [it for it in rows() if len(it) == 3] if os.path.exists(TABLE) else []
        with open(TABLE, "w", encoding="utf-8") as f:
            f.writelines("\t".join(it) + "\n" for it in declared(os.path.join(HERE, "../..")) + kept)
        return
    root = words[0] if words else os.path.join(HERE, "../..")
    table = list(rows())
    changed = 0
    for path in texts(root):
        below = os.path.relpath(path, os.path.join(root, "crates"))
        here = {it[0]: it[1] for it in table if len(it) == 2 or below.startswith(it[2])}
        with open(path, encoding="utf-8") as f:
            old = f.read()
        new = turned(old, os.path.splitext(path)[1], here)
        if new != old:
            changed += 1
            with open(path, "w", encoding="utf-8") as f:
                f.write(new)
    print(f"respell: {changed} files changed")


main()
