#!/usr/bin/python3
"""Times Lark's Earley parser on the cases in a folder: for each message the nanoseconds of its lexing and its tree.

Writes a line for each: the case, the words, the nanoseconds, the tree's price; or the case, 0, 0 and why not.
"""
import pathlib
import signal
import sys
import time

import lark

LIMIT = 3  # seconds for a message
ENOUGH = 60_000_000  # nanoseconds of processor time after which a message is not tried again


class TooLong(Exception):
    pass


def too_long(_signal, _frame):
    raise TooLong(f"not within {LIMIT} seconds")


def symbol(field):
    """Lark's rules are in small letters, its words in capitals."""
    return "n_" + field.lower() if field[0].isupper() else "W_" + field.upper().replace("-", "_")


def parser_of(text):
    """A rule of Lark's for each rule of the sheet, with the weight below zero as its priority, and one for each name."""
    names, words, rules, weights = {}, {}, [], {}
    for line in text.splitlines():
        kind, *fields = line.split("\t")
        if kind != "rule":
            continue
        weight, left, *right = fields
        rule = f"r{len(weights) + 1}"
        weights[rule] = int(weight)
        names.setdefault(symbol(left), []).append(rule)
        words.update((symbol(field), field) for field in right if not field[0].isupper())
        rules.append(f"{rule}.{-int(weight)}: {' '.join(map(symbol, right))}")
    lines = [f"{name}: {' | '.join(of)}" for name, of in names.items()] + rules
    lines += [f'{name}: "{word}"' for name, word in words.items()] + ['%ignore " "']
    start = next(iter(names))
    return lark.Lark("\n".join(lines), parser="earley", lexer="basic", start=start), weights


def price_of(tree, weights):
    return sum(weights.get(part.data, 0) for part in tree.iter_subtrees_topdown())


def least(parser, message):
    best, spent, tries, tree = None, 0, 0, None
    while spent < ENOUGH and tries < 500:
        start = time.process_time_ns()
        tree = parser.parse(message)
        taken = time.process_time_ns() - start
        best = taken if best is None else min(best, taken)
        spent, tries = spent + taken, tries + 1
    return best, tree


def measure(case, sheet, messages):
    parser, weights = parser_of(sheet)
    for message in messages:
        signal.alarm(LIMIT)
        nanoseconds, tree = least(parser, message)
        print(case, len(message.split()), nanoseconds, price_of(tree, weights), sep="\t", flush=True)


def reason(error):
    return (str(error).splitlines() or [type(error).__name__])[0]


def main():
    if len(sys.argv) != 2:
        sys.exit("usage: lark_times.py FOLDER")
    signal.signal(signal.SIGALRM, too_long)
    for sheet in sorted(pathlib.Path(sys.argv[1]).glob("*.sheet")):
        try:
            measure(sheet.stem, sheet.read_text(), sheet.with_suffix(".messages").read_text().splitlines())
        except Exception as error:  # whatever Lark raises is its answer for this sheet
            print(sheet.stem, 0, 0, reason(error), sep="\t", flush=True)
        finally:
            signal.alarm(0)


main()
