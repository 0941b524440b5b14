#!/usr/bin/env python3
"""Spells the repository's own definitions and lemmas in one style: types in upper camel case, all else in snake case.

usage: tools/spell_names.py [--check]     at the top of the repository; --check writes nothing and lists what would meet

A name is ours if a text in crates/*/specs or crates/*/proofs declares it, but for the goals that a function's files answer.
Turned are the code of those texts and the clauses and imports of src/; Rust's own names, strings, and names that a file has from a library stay.
A second run writes nothing more.
"""

import collections
import glob
import os
import re
import sys

TOKEN = r"""[^\s(){}\[\].;,@"«»:`]+"""
DECLARED = re.compile(
    r"^\s*(?:(?:pattern|unfoldable|abbrev|axiom|pub|data|record)\s+)*([^\s(){}.;,@\"«»:=]*-[^\s(){}.;,@\"«»:=]*)(?:\s[^=]*?)?\s:\s(.*)$"
)
IMPORT = re.compile(r"(?m)^\s*(?:ghost )?use ([^\s;{]+)\.\{([^}]*)\}")
COMMENT = re.compile(r"--(?=\s).*$")
CLAUSE = re.compile(r"^\s*(requires|ensures|ghost)\b|^\s*(?:→|×|⊎)")
# Names that would meet another: of the library, or of a function beside them. A dash may join two names.
APART = {"bit-and": "bit-and", "bit-or": "bit-or", "hold-the-lathe": "lathe_sheet"}


def texts(root):
    for kind in ("specs", "proofs"):
        yield from sorted(glob.glob(f"{root}/crates/*/{kind}/**/*.antt", recursive=True))


def sources(root):
    return sorted(glob.glob(f"{root}/crates/*/src/**/*.rt", recursive=True))


def declared(root):
    found = collections.defaultdict(list)
    for path in texts(root):
        with open(path, encoding="utf-8") as file:
            for line in file:
                match = DECLARED.match(line)
                if match and not line.lstrip().startswith("--"):
                    found[match[1]].append(match[2])
    return {name for name, types in found.items() if not all("goal." in it for it in types)}


def spelled(name):
    if name in APART:
        return APART[name]
    if name[0].isupper():
        return "".join(part[:1].upper() + part[1:] for part in name.split("-"))
    return name.replace("-", "_")


def crates(root):
    return {os.path.basename(path) for path in glob.glob(f"{root}/crates/*")}


def foreign(text, ours):
    """The names that a file imports from a library."""
    found = set()
    for path, names in IMPORT.findall(text):
        steps = path.split(".")
        if not (steps[0] == "Rattle" and len(steps) > 1 and steps[1] in ours):
            found |= set(re.findall(TOKEN, names))
    return found


def turn_code(code, table):
    return re.sub(TOKEN, lambda match: table.get(match[0], match[0]), code)


def turn_text(text, table):
    lines = []
    for line in text.split("\n"):
        note = COMMENT.search(line)
        at = note.start() if note else len(line)
        lines.append(turn_code(line[:at], table) + line[at:])
    return "\n".join(lines)


def turn_source(text, table):
    lines = []
    for line in text.split("\n"):
        lines.append(turn_code(line, table) if CLAUSE.match(line) else line)
    return "\n".join(lines)


def tokens(text):
    return set(re.findall(TOKEN, text))


def meeting(root, table):
    """Files in which two spellings would become one."""
    for path in [*texts(root), *sources(root)]:
        with open(path, encoding="utf-8") as file:
            text = file.read()
        if path.endswith(".antt"):
            text = "\n".join(COMMENT.sub("", line) for line in text.split("\n"))
        there = tokens(text)
        for name in sorted(there & set(table)):
            if table[name] in there:
                yield path, name


def main(argv):
    root = os.path.dirname(os.path.dirname(os.path.realpath(__file__)))
    ours = crates(root)
    table = {name: spelled(name) for name in declared(root)}
    twice = collections.Counter(table.values())
    for name, new in sorted(table.items()):
        if twice[new] > 1:
            print(f"two become one: {name} {new}")
    for path, name in meeting(root, table):
        print(f"meets: {os.path.relpath(path, root)}: {name}")
    if "--check" in argv:
        print(f"{len(table)} names")
        return 0
    for path in [*texts(root), *sources(root)]:
        with open(path, encoding="utf-8") as file:
            text = file.read()
        kept = foreign(text, ours)
        here = {name: new for name, new in table.items() if name not in kept}
        new = turn_text(text, here) if path.endswith(".antt") else turn_source(text, here)
        if new != text:
            with open(path, "w", encoding="utf-8") as file:
                file.write(new)
    return 0


if __name__ == "__main__":
    raise SystemExit(main(sys.argv[1:]))
