#!/usr/bin/env python3
"""Brings the repository's own definitions, fields and lemmas to snake case.

usage: python3 tools/snake_names.py [ROOT]           the names of ROOT/crates, in its .antt and .rt files
       python3 tools/snake_names.py --list [ROOT]    the mapping and the names that fall together; writes nothing

A name is renamed where it is declared in a file of specs/ or proofs/ (not in a function's folder of proofs/, whose names are
generated) and is in camel case or has a hyphen. Types and modules, whose names begin with a capital, stay.
"""
import collections
import os
import re
import sys

WORD = r"[A-Za-z_][A-Za-z0-9_'-]*"
TOKEN = re.compile(r"(?<![\w'·-])" + WORD)
KEYWORDS = {"abbrev", "unfoldable", "pub", "record", "data", "use", "mod", "unfolding", "where", "mutual", "let", "in", "elim"}


def snake(name):
    name = name.replace("-", "_")
    name = re.sub(r"(?<=[a-z0-9])([A-Z])", lambda m: "_" + m[1].lower(), name)
    return re.sub(r"__+", "_", name)


def texts(root):
    for folder, dirs, files in os.walk(os.path.join(root, "crates")):
        dirs[:] = sorted(d for d in dirs if d not in ("out", ".git"))
        for f in sorted(files):
            yield os.path.join(folder, f)


def generated(path):
    """Whether the file stands in a function's folder of proofs/."""
    parts = path.split("/proofs/")
    return len(parts) == 2 and "/" in parts[1]


def declared(root):
    names = collections.defaultdict(set)
    for path in texts(root):
        if not path.endswith(".antt"):
            continue
        own = generated(path)
        for line in open(path, encoding="utf-8"):
            if line.startswith(("use ", "--", "mod ", "pub mod", "unfolding", "}", "ghost use")):
                for n in re.findall(r" as ([a-z]+[a-z0-9]*(?:[A-Z][a-z0-9]*)+)(?![\w'-])", line):
                    names[n].add(path)
                continue
            m = re.match(r"^((?:(?:abbrev|unfoldable|pub|record|data) )*)(" + WORD + r")(?= :| \(| \{|$| [a-z_(])", line)
            if m and m[2] not in KEYWORDS and (m[1] or " : " in line or line.rstrip().endswith(" :")):
                if not own or not re.match(r".*[: ](tie|goal|statement|given)\b", line):
                    names[m[2]].add(path)
            m = re.match(r"^ +(?:pub )?(" + WORD + r") :(?: |$)", line)
            if m and m[1] not in KEYWORDS and not own:
                names[m[1]].add(path)
            # Names that an import gives, and local ones: no name of the library is in camel case.
            for n in re.findall(r"(?<![\w'-])[a-z]+[a-z0-9]*(?:[A-Z][a-z0-9]*)+(?![\w'-])", line.partition("-- ")[0]):
                names[n].add(path)
    return names


def mapping(root):
    names = {n for n, paths in declared(root).items() if (n[0].islower() or n[0] == "_") and not all(map(generated, paths))}
    # A lemma with hyphens that would fall together with a definition gets a name of its own.
    taken = {snake(n) for n in names if "-" not in n}
    table = {}
    for name in names:
        to = OTHER.get(name) or snake(name)
        if "-" in name and to in taken:
            to += "_holds"
        if to != name:
            table[name] = to
    return table


# Lemmas that port.py had brought to snake case, where a definition now takes their name. Functions of src/ with these names stay.
OTHER = {n: n + "_holds" for n in ("block_last", "digit_at", "first_alone", "mapped_in", "second_block", "sum_below", "two_blocks")}


def renamed(text, table, rt):
    """The text with the names of the table, in comments too, but for the one word there that is prose."""

    def name(m):
        apart = m.string[m.start() - 1 : m.start()] != "." and m.string[m.end() : m.end() + 1] != "."
        return table.get(m[0], m[0]) if m[0] not in OTHER or apart and not rt else m[0]

    def line(l):
        m = re.match(r"(.*?(?:^|(?<=\s)))((?:--|//) .*)$", l, re.S)
        code, comment = (m[1], m[2]) if m else (l, "")
        return TOKEN.sub(name, code) + TOKEN.sub(lambda m: m[0] if m[0] == "one-to-one" else name(m), comment)

    return "".join(map(line, text.splitlines(keepends=True)))


def main(argv):
    listing = "--list" in argv
    argv = [a for a in argv if a != "--list"]
    root = argv[0] if argv else "."
    table = mapping(root)
    if listing:
        for a, b in sorted(table.items()):
            print(a, b)
        return 0
    for path in texts(root):
        if not path.endswith((".antt", ".rt")):
            continue
        with open(path, encoding="utf-8") as f:
            old = f.read()
        new = renamed(old, table, path.endswith(".rt"))
        if new != old:
            with open(path, "w", encoding="utf-8") as f:
                f.write(new)
    return 0


if __name__ == "__main__":
    raise SystemExit(main(sys.argv[1:]))
