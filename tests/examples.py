#!/usr/bin/env python3
"""Runs the examples in the tables of the pages about grammar.

    tests/examples.py PROGRAM

A table of docs/GRAMMAR.md, docs/TIMESTAMPS.md or docs/TIMESPANS.md has examples if one of its columns is named in INPUTS or is
`spelled`: what is in code quotes in that column is an input, and the other columns have what the program prints for it.
`normal form`, `instant`, `microseconds` and `printed` are lines of the report, with status 0. `rejected as` is the error message,
one for each input or one for all, with status 1. Each spelling of a unit is an input of its own. Inputs without code quotes are
listed in DESCRIBED.
The last line is 'N passed, M failed', one for each row, and the status is 1 if one failed."""

import os
import re
import subprocess
import sys

DOCS = os.path.join(os.path.dirname(os.path.realpath(__file__)), "../docs")
# Each page with the arguments before its inputs.
PAGES = {
    "GRAMMAR.md": ["calendar", "--now=@1704067200"],
    "TIMESTAMPS.md": ["timestamp", "--now=@1353665722"],
    "TIMESPANS.md": ["timespan"],
}
# The columns that have inputs.
INPUTS = {"expression", "timestamp", "span"}
# Each column with the label of its line in the report.
LABELS = {"normal form": "Normalized form", "instant": "Normalized form", "microseconds": "μs", "printed": "Human"}
# Inputs that the pages describe in words.
DESCRIBED = {
    "nothing, or only blanks": ["", " \t "],
    "more than 4,096 bytes": [" " * 4097],
    "more than 240 parts": ["*:" + ",".join(["1"] * 242)],
    "more than 9223372036854775807us": ["9223372036854775808us"],
}


def quoted(cell):
    return re.findall(r"`([^`]*)`", cell)


def rows(page):
    """Yields the rows of the tables with examples, each as its cells by the name of the column."""
    with open(f"{DOCS}/{page}", encoding="utf-8") as file:
        text = re.sub(r"^```.*?^```", "", file.read(), flags=re.M | re.S)
    for table in re.findall(r"(?:^\|.*\n)+", text, re.M):
        columns, _, *cells = [[cell.strip() for cell in line.strip("|\n").split(" | ")] for line in table.splitlines()]
        if (INPUTS | {"spelled"}) & set(columns):
            yield from (dict(zip(columns, row)) for row in cells)


def examples(row):
    """Returns the inputs of a row, each with the text that is expected in each column."""
    if "spelled" in row:
        return [(f"1{unit}", {"printed": f"1{quoted(row['printed'])[0]}"}) for unit in quoted(row["spelled"])]
    cell = next(row[column] for column in INPUTS if column in row)
    described = (inputs for words, inputs in DESCRIBED.items() if cell.startswith(words))
    found = []
    for number, text in enumerate(next(described, None) or quoted(cell)):
        wanted = {}
        for column in {*LABELS, "rejected as"} & row.keys():
            values = quoted(row[column]) or [row[column]]
            wanted[column] = values[min(number, len(values) - 1)]
        found.append((text, wanted))
    return found


def answer(program, page, text, columns):
    """Returns what the program prints for an input, by column, and its status."""
    ended = subprocess.run([program, *PAGES[page], "--", text], capture_output=True, text=True)
    lines = dict(line.strip().partition(": ")[::2] for line in ended.stdout.splitlines())
    found = {column: lines.get(LABELS[column]) for column in columns if column in LABELS}
    if "rejected as" in columns:
        found["rejected as"] = ended.stderr.removeprefix(f"{text}: ").removesuffix("\n")
    return found, ended.returncode


def faults(program, page, row):
    """Returns how the program differs from a row."""
    tried = examples(row)
    found = [] if tried else ["it has no input"]
    for text, wanted in tried:
        answered = answer(program, page, text, wanted)
        if answered != (wanted, int("rejected as" in wanted)):
            found.append(f"{text[:40]!r} gives {answered}")
    return found


def main():
    if len(sys.argv) != 2 or not os.access(sys.argv[1], os.X_OK):
        print("usage: tests/examples.py PROGRAM", file=sys.stderr)
        return 2
    passed = failed = 0
    for page in PAGES:
        for row in rows(page):
            found = faults(sys.argv[1], page, row)
            for fault in found:
                print(f"tests/examples.py: {page}: {' | '.join(row.values())}: {fault}")
            passed, failed = passed + (not found), failed + bool(found)
    print(f"{passed} passed, {failed} failed")
    return 1 if failed else 0


sys.exit(main())
