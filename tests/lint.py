#!/usr/bin/env python3
"""Compares the lines that `calendar-timers lint` reports with those that systemd reports.

    tests/lint.py TIMERS

TIMERS is calendar-timers. The timers are those of tests/loads.py: each has a file of its own and up to two drop-ins, with
lines that are valid or not in many ways. In each file, up to the line at which systemd stops reading it, `lint` has to report
exactly the lines that `systemd --test` complains about. It also has to report an error for each timer that fails to load.

What only `lint` reports is left out: exceptions and keys that look like theirs, units that don't exist, and what systemd
accepts but may not be meant. What only systemd reports is left out, too:

- unknown zones in lines that a later line clears;
- if systemd doesn't read the timer's own file to the end: values with specifiers or zones.

In the second case systemd doesn't read drop-ins, so they aren't compared. tests/findings.py compares the messages.

The last line is 'N passed, M failed', which counts timers, and the status is 1 if one failed. If systemd isn't installed
or can't be run as another user than root, the script says so, and ', 1 skipped' follows."""

import os
import random
import sys
import tempfile

sys.dont_write_bytecode = True
sys.path[:0] = [os.path.dirname(os.path.realpath(__file__)), f"{os.path.dirname(os.path.realpath(__file__))}/lib"]
import loads
from unit_trees import can_test_systemd, test_systemd

TIMERS = 500
# What lint says of lines that systemd accepts, and of timers whose lines can all be accepted.
ACCEPTED = ("this is ", "the expression never elapses", "the exception suppresses", "systemd 252 ")


def assigned(tree):
    """Returns the key and the value of each assignment by its path and the number of its first line."""
    return {(path, line): (key, value) for path, file in tree.read.items() for line, key, value in loads.assignments(file)[0]}


def is_left_out(place, assigned_at):
    """Returns whether the line is an exception or looks like one."""
    return assigned_at.get(place, ("", ""))[0].startswith("X-")


def by_systemd(tree, assigned_at):
    """Returns the lines of which systemd says something, and whether the timer loads."""
    shown, messages = test_systemd(tree.folders)
    named, lines = loads.lines_named(tree), set()
    for path, number, _ in loads.LINE.findall(messages):
        first, _ = named.get((path, int(number)), (int(number), None))
        lines.add((path, first))
    unit = shown.partition(f"\t-> Unit {tree.stem}.timer:\n")[2].partition("\t-> ")[0]
    return {line for line in lines if not is_left_out(line, assigned_at)}, "\tUnit Load State: loaded" in unit


def by_lint(timers, tree, assigned_at):
    rows, _, status = loads.run_timers(timers, tree, "lint", "--", f"{tree.stem}.timer")
    lines, loaded = set(), True
    for row in rows:
        place, message = (tree.root + row["file"], row["line"]), row["message"]
        loaded &= message != "no setting starts its unit" and not (place[0] == tree.own and is_broken(message))
        if row["line"] and not message.startswith(ACCEPTED) and not is_left_out(place, assigned_at):
            lines.add(place)
    has_error = any(row["kind"] == "error" for row in rows)
    return lines, loaded, status == (1 if has_error else 0)


def is_broken(message):
    return message.startswith(tuple(loads.BROKEN.values())) or message.startswith("not a section header")


def first_broken(tree):
    """Returns for each path the line from which on systemd doesn't read the file, if there is one."""
    return {path: loads.assignments(file)[1][0] for path, file in tree.read.items() if loads.assignments(file)[1]}


def without_specifiers_or_zones(tree, lines, assigned_at):
    """Returns the lines of the timer's own file without those whose values have specifiers or zones."""
    values = {place: assigned_at.get(place, ("", ""))[1] for place in lines if place[0] == tree.own}
    return {place for place, value in values.items() if "%" not in value and not loads.may_name_zone(value, tree.stem)}


def compare(timers, tree):
    """Yields what differs."""
    assigned_at, ends = assigned(tree), first_broken(tree)
    wanted, loads_there = by_systemd(tree, assigned_at)
    found, loads_here, is_consistent = by_lint(timers, tree, assigned_at)
    found = {(path, line) for path, line in found if line <= ends.get(path, line)} - loads.cleared_zones(tree)
    wanted -= loads.cleared_zones(tree)
    if tree.own in ends:
        wanted, found = (without_specifiers_or_zones(tree, lines, assigned_at) for lines in (wanted, found))
    for path, line in sorted(wanted - found):
        yield f"{path}:{line} isn't reported"
    for path, line in sorted(found - wanted):
        yield f"{path}:{line} is reported, and not by systemd"
    if loads_here != loads_there:
        yield f"{'loads' if loads_there else 'fails to load'} in systemd only"
    if not is_consistent:
        yield "the status doesn't follow from the problems"


def main(timers):
    if not can_test_systemd():
        print("systemd isn't installed, or can't be run as another user than root")
        print("0 passed, 0 failed, 1 skipped")
        return 0
    failed = 0
    for number in range(TIMERS):
        with tempfile.TemporaryDirectory() as root:
            tree = loads.Tree(root, random.Random(number))
            wrong = [line.replace(tree.root, "") for line in compare(timers, tree)]
            for line in wrong:
                print(f"timer {number}, {tree.stem}.timer: {line}")
            failed += bool(wrong)
    print(f"{TIMERS - failed} passed, {failed} failed")
    return 1 if failed else 0


if __name__ == "__main__":
    sys.exit(main(*sys.argv[1:]))
