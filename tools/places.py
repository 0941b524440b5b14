#!/usr/bin/env python3
"""Counts the places in crates/*/src that are written in an older form, by the points of docs/DESIGN-PASS.md.

usage: tools/places.py [-v] [POINT..]     at the top of the repository; -v lists each place

It goes by text, so it finds candidates: a reader says of each what it is.
"""

import collections
import glob
import re
import sys

WORD = re.compile(r"[A-Za-z_]\w*|\d[\w.]*|'[a-z]+|\S")
KEPT = set(
    "as break const continue else enum false fn for if impl in let loop match mut pub ref return self Self "
    "static struct trait true type use where while Some None Ok Err Option Result bool u8 u16 u32 u64 usize".split()
)


class Function:
    def __init__(self, file, line, head, body):
        self.file, self.line, self.head, self.body = file, line, head, body
        self.name = re.match(r"fn (\w+)", head).group(1)
        at = head.find("(")
        self.params = head[at:]
        signature = re.split(r"\n\s*(?:requires|ensures|where)\b", head)[0]
        self.answer = signature.rsplit("->", 1)[1].strip() if "->" in signature else ""

    def place(self):
        return f"{self.file}:{self.line} {self.name}"


def functions():
    """The functions of every source: heads with their clauses, and bodies."""
    for file in sorted(glob.glob("crates/*/src/**/*.rt", recursive=True)):
        text = re.sub(r"//[^\n]*", "", open(file).read())
        for found in re.finditer(r"\bfn \w+", text):
            depth, at, start = 0, found.start(), None
            while at < len(text):
                c = text[at]
                clause = re.search(r"(requires|ensures)\*?(\s+\w+)?\s*$", text[max(0, at - 60) : at])
                if c == "{" and depth == 0 and clause is None and start is None:
                    start = at
                if c == "{":
                    depth += 1
                if c == "}":
                    depth -= 1
                    if depth == 0 and start is not None:
                        break
                if c == ";" and depth == 0 and start is None and text[found.start() : at].count("(") == text[found.start() : at].count(")") and "[" not in text[max(0, at - 12) : at]:
                    break
                at += 1
            line = text[: found.start()].count("\n") + 1
            if start is not None:
                yield Function(file, line, text[found.start() : start], text[start : at + 1])


def blocks(body, opening):
    """Each loop of the body that begins so: its head's match and its text."""
    for found in re.finditer(opening, body):
        at = body.find("{", found.end() - 1)
        depth, end = 0, at
        while end < len(body):
            depth += {"{": 1, "}": -1}.get(body[end], 0)
            end += 1
            if depth == 0:
                break
        yield found, body[at:end]


def by_hand(found):
    """Point 1: refusals by a flag or a number, and `?` written out."""
    for f in found:
        if f.answer == "bool" and "&mut" in f.params and not re.search(r"&mut (self|impl)", f.params.split("->")[0]) or (
            f.answer == "bool" and "&mut self" in f.params
        ):
            yield "a change that answers a flag", f.place()
        if re.search(r"Result<.*, u(8|16|32|64|size)>", f.answer):
            yield "a number for an error", f.place()
        if re.fullmatch(r"Option<\w*Fault>", f.answer):
            yield "a refusal as an option", f.place()
        for _ in re.finditer(r"else \{\s*return None;?\s*\}", f.body):
            yield "`?` written out", f.place()
        for _ in re.finditer(r"let Some\([^=]*=[^;{]*else \{\s*return (Err|Ok)\(", f.body):
            yield "`ok_or` written out", f.place()
        for _ in re.finditer(r"Some\((\w+)\) => (return )?(Err|Ok)\(\1\)|Err\((\w+)\) => (return )?Err\(|None => (return )?(Err|None)\b", f.body):
            yield "an arm that only passes on", f.place()


def twins(found):
    """Point 2: functions of one shape, names and numbers left out."""
    shapes = collections.defaultdict(list)
    for f in found:
        words = [w if w in KEPT or not re.match(r"[\w']", w) else "_" for w in WORD.findall(f.body)]
        if len(words) > 20:
            shapes[" ".join(words)].append(f)
    for group in shapes.values():
        if len(group) > 1:
            for f in group:
                yield "of one shape: " + ", ".join(sorted({g.name for g in group})), f.place()


def counted(found):
    """Point 3: loops that count an index by hand, or go by an index where they read."""
    for f in found:
        for head, text in blocks(f.body, r"\bwhile [^{]*\{"):
            if re.search(r"\b\w+ [+-]= 1\b", text):
                yield "a count in a while", f.place()
        for head, text in blocks(f.body, r"\bfor (\w+) in [^{]*\.\.[^{]*\{"):
            if re.search(r"\[[^\]]*\b%s\b[^\]]*\]" % head.group(1), text):
                yield "an index in a for", f.place()
        for head, text in blocks(f.body, r"\bfor [^{]* in [^{]*\{"):
            if re.search(r"\breturn (true|false|Some\(\w+\));", text):
                yield "a search or a test by a loop", f.place()


def converted(found):
    """Point 4: conversions, comparisons and printing by hand."""
    for f in found:
        if re.fullmatch(r"\{\s*match (self|\w+) \{(\s*[\w:]+(\([^)]*\))? => ([\w:]+|\"[^\"]*\"),?)+\s*\}\s*\}", f.body):
            yield "a conversion by a match", f.place()
        if re.search(r"\bas char\b", f.body):
            yield "bytes printed one by one", f.place()
        if re.search(r"if [^{]*!= [^{]*\{\s*return false;", f.body):
            yield "a comparison by a loop", f.place()
        if re.search(r"-> (Self|[A-Z]\w*)\b", f.head) and re.match(r"fn (given|refused|counted|offered|by_\w+|of|unpack|pack|faulty)\b", f.head):
            yield "a conversion by a function", f.place()


def travelling(found):
    """Point 5: clauses that three contracts or more have, and parameters that three functions or more take together."""
    clauses, groups = collections.defaultdict(list), collections.defaultdict(list)
    for f in found:
        for clause in re.findall(r"requires(?:\s+\w+)?\s*\{(.*)\}", f.head):
            for part in re.split(r"\) × \(", clause.strip().strip("()")):
                clauses[part.strip()].append(f)
        names = re.findall(r"(\w+): [^,)]*", re.split(r"\n\s*(?:requires|ensures)\b", f.params)[0])
        for i in range(len(names) - 2):
            groups[", ".join(names[i : i + 3])].append(f)
    for kind, table in (("required", clauses), ("taken together", groups)):
        for text, where in table.items():
            if len(where) > 2:
                for f in where:
                    yield f"{kind}: {text}", f.place()


def lengths():
    """Point 6: a buffer with its length beside it."""
    for file in sorted(glob.glob("crates/*/src/**/*.rt", recursive=True)):
        lines = open(file).read().split("\n")
        for i, line in enumerate(lines):
            if re.match(r"\s*(pub )?(\w*_)?(len|count|length)\w*: (u8|usize),", line):
                yield "a length in a struct", f"{file}:{i + 1}"
            if re.search(r"\(\[[^\]]*\], u(8|size)\)", line):
                yield "an array and its length", f"{file}:{i + 1}"
            if re.match(r"\s*(marks|offered): &(mut )?\[bool\]", line):
                yield "an array beside another", f"{file}:{i + 1}"
            if re.match(r"\s*(prices|numbers): &('a )?(mut )?\[", line):
                yield "an array beside another", f"{file}:{i + 1}"


def switches(found):
    """Point 7: an enum that says which step to run."""
    for f in found:
        for head, text in blocks(f.body, r"match (self|\w+) \{"):
            arms = re.findall(r"\w+::\w+ => \w+(?:::<\w+>)?\(", text)
            if len(arms) > 1:
                yield "which step", f.place()


def proofs():
    """Point 8: answers and lemmas."""
    for file in sorted(glob.glob("crates/*/proofs/**/*.antt", recursive=True)):
        lines = len(open(file).read().split("\n")) - 1
        kind = "lines of answers" if file.endswith(("Answers.antt", "Invariants.antt")) else "lines of lemmas"
        for _ in range(lines):
            yield kind, file


def main(arguments):
    verbose = "-v" in arguments
    wanted = [a for a in arguments if a.isdigit()] or list("12345678")
    found = list(functions())
    points = {"1": by_hand(found), "2": twins(found), "3": counted(found), "4": converted(found), "5": travelling(found), "6": lengths(), "7": switches(found), "8": proofs()}
    for point in wanted:
        places = list(points[point])
        if point == "8":
            kinds = collections.Counter(kind for kind, _ in places)
            print(f"point 8: {len({p for _, p in places})} files, " + ", ".join(f"{n} {k}" for k, n in sorted(kinds.items())))
            continue
        facts = len({k for k, _ in places if ": " in k})
        print(f"point {point}: {len(places)}" + (f" in {facts} groups" if facts else ""))
        for kind, number in sorted(collections.Counter(k.split(':')[0] for k, _ in places).items()):
            print(f"    {number:4} {kind}")
        if verbose:
            for kind, place in places:
                print(f"        {place}  [{kind}]")


main(sys.argv[1:])
