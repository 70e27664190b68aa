#!/usr/bin/env python3
"""Compares what `calendar-timers lint` suggests instead of invalid expressions with what systemd-analyze 252 accepts.

    tests/suggestions.py TIMERS

TIMERS is calendar-timers. The expressions are those of `ROWS`, which say what is meant, and 2,000 that are made from valid
ones by random edits. systemd-analyze has to accept each suggestion. Those for `ROWS` must have the normal form of what is
meant, or there must be none if nothing is known to be meant. The zones of `ZONES` need the package tzdata.

The last line is 'N passed, M failed', which counts expressions, and the status is 1 if one failed. If there is no
systemd-analyze 252, the script says so, and ', 1 skipped' follows."""

import json
import os
import random
import re
import shutil
import subprocess
import sys
import tempfile

COUNT = 2000
# How many expressions a list of a timer may have, and how many systemd-analyze gets at once.
LISTED, GIVEN = 200, 100
NORMAL = re.compile(r"^ *Normalized form: (.*)$", re.M)

# Expressions that systemd rejects, and an expression that is meant, or None if there must be no suggestion.
ROWS = [
    ("OnCalendar=daily", "daily"),
    ("OnCalendar = Mon 9", "Mon 09:00"),
    ("oncalendar=0 9 * * 1-5", "Mon..Fri 09:00"),
    ("Mon=10:00", None),
    ("minute=5", None),
    ("daily # every day", "daily"),
    ("Mo 9am\t# x", "Mon 09:00"),
    ("Mon#2 10:00", None),
    ("8:00;16:00", None),
    ("8:00 ; 16:00", None),
    ("now", None),
    ("15min", None),
    ("5 min", None),
    ("every 5 min", None),
    ("0 9 * * 1-5", "Mon..Fri 09:00"),
    ("*/15 * * * *", "*:0/15"),
    ("*/7 * * * *", "*:0..56/7"),
    ("0 */5 * * *", "0..20/5:00"),
    ("0 0 */2 * *", "*-*-1/2"),
    ("0 0 1 */2 *", "*-1/2-1"),
    ("*/20,5 8-18 * * *", "8..18:0/20,5"),
    ("10-40/10 * * * *", "*:10..40/10"),
    ("5/10 * * * *", None),
    ("0 0 * * 0-6", "daily"),
    ("0 0 * * 1-7", "daily"),
    ("0 0 * * 0-7", "daily"),
    ("0 0 * * 0-7,3", "daily"),
    ("0 0 * * 0", "Sun"),
    ("0 0 * * 7", "Sun"),
    ("0 0 * * 0-3", "Sun,Mon,Tue,Wed"),
    ("0 0 * * 5-7", "Fri..Sun"),
    ("0 0 * * 6,0", "Sat,Sun"),
    ("5 4 * * sun", "Sun 04:05"),
    ("0 0 * * 1-5/2", "Mon,Wed,Fri"),
    ("0 0 * * */2", "Sun,Tue,Thu,Sat"),
    ("30 4 1 * 5", None),
    ("99 9 * * *", None),
    ("9am", "09:00"),
    ("12am", "00:00"),
    ("12pm", "12:00"),
    ("Mon 12:30PM", "Mon 12:30"),
    ("9 am", None),
    ("Mon 9:30 pm", None),
    ("9am-5pm", None),
    ("09.00", "09:00"),
    ("Mon..Fri 9", "Mon..Fri 09:00"),
    ("2024-1-1 23 UTC", "2024-1-1 23:00 UTC"),
    ("9 Uhr", None),
    ("Mon 5 min", None),
    ("20:00 +2", None),
    ("daily -11", None),
    ("9 +02:00", None),
    ("2026-12", "2026-12-*"),
    ("2026-13", None),
    ("Mo", "Mon"),
    ("Tues,thurs 9:00", "Tue,Thu 09:00"),
    ("Mo-Fr 9:00", "Mon..Fri 09:00"),
    ("Fri..Tues", "Fri,Sat,Sun,Mon,Tue"),
    ("Sat..Mo 9am", "Sat,Sun,Mon 09:00"),
    ("Wendesday", "Wed"),
    ("sonday", None),
    ("tursday", None),
    ("dialy", "daily"),
    ("Daly UTC", "daily UTC"),
    ("daily, weekly", None),
    ("montly", "monthly"),
    ("anually", "annually"),
    ("9  UTC", "09:00 UTC"),
    ("9 Europe/Berlin", "09:00 Europe/Berlin"),
    ("*:*:5..5", "*:*:5"),
    ("Sat..Mon", "Sat,Sun,Mon"),
    ("Mon\t12:00", "Mon 12:00"),
    ("*~1,26", None),
    ("daily +02:00", None),
    ("25:00", None),
    ("Foo", None),
]

VALID = [
    "daily",
    "hourly",
    "Mon 12:00",
    "Mon..Fri 9:00",
    "Sat,Sun 10:30",
    "Fri..Sun 23:15",
    "Tue,Thu..Sat 8..18:00",
    "*-*-* *:0/15",
    "*-*-1 00:00",
    "2027-12-24 18:00",
    "2027-1..6-1,15 6:00:30",
    "*-*~3 12:00",
    "0/6:00",
    "10,14:*:0/20",
]
ZONES = ["", "", "", " UTC", " Europe/Berlin"]
ALPHABET = "0123456789:.,-/*~ aMpm+"


def is_installed():
    if shutil.which("systemd-analyze") is None:
        return False
    run = subprocess.run(["systemd-analyze", "--version"], stdout=subprocess.PIPE, text=True)
    return run.stdout.startswith("systemd 252 ")


def edited(source, text):
    """Returns a text with one to three random edits."""
    for _ in range(source.choice([1, 1, 2, 3])):
        at = source.randrange(len(text) + 1)
        how = source.randrange(6)
        if how == 0:
            text = text[:at] + text[at + 1 :]
        elif how == 1:
            text = text[:at] + source.choice(ALPHABET) + text[at:]
        elif how == 2:
            text = text[:at] + source.choice(ALPHABET) + text[at + 1 :]
        elif how == 3:
            text = text[:at] + text[at + 1 : at + 2] + text[at : at + 1] + text[at + 2 :]
        elif how == 4:
            text = text.replace(":", source.choice([".", "", "am", "pm"]), 1)
        else:
            text = text.replace(source.choice(["Mon", "Fri", "Sun", ":00"]), source.choice(["Mo", "Frid", "sund", "Tues", ""]), 1)
    return text


def broken(source):
    """Returns a valid expression with random edits anywhere except in its zone. It begins and ends without blanks, as
    values in a file do."""
    while True:
        text = edited(source, source.choice(VALID)).strip()
        if text and "%" not in text:
            return text + source.choice(ZONES)


def suggestions(timers, folder, texts):
    """Returns the suggestion for each expression, or None if there is none."""
    path = f"{folder}/made.timer"
    lines = ["[Timer]"]
    for number, text in enumerate(texts):
        if number % LISTED == 0:
            lines.append("OnCalendar=")
        lines.append(f"OnCalendar={text}")
    with open(path, "w", encoding="utf-8") as file:
        file.write("\n".join(lines) + "\n")
    run = subprocess.run([timers, "lint", path, "--json"], stdout=subprocess.PIPE, stderr=subprocess.PIPE, text=True)
    found = {row["line"]: row["suggestion"] for row in json.loads(run.stdout) if row["suggestion"] is not None}
    return [found.get(2 + number + number // LISTED + 1) for number in range(len(texts))]


def normal_forms(texts):
    """Returns the normal form that systemd-analyze prints for each expression, or None if it rejects the expression."""
    environment = {"PATH": os.environ["PATH"], "TZ": "UTC", "LC_ALL": "C.UTF-8"}
    command = ["systemd-analyze", "calendar", "--", *texts]
    run = subprocess.run(command, env=environment, stdout=subprocess.PIPE, stderr=subprocess.DEVNULL, text=True)
    forms = NORMAL.findall(run.stdout)
    if len(forms) == len(texts):
        return forms
    if len(texts) == 1:
        return [None]
    half = len(texts) // 2
    return normal_forms(texts[:half]) + normal_forms(texts[half:])


def all_normal_forms(texts):
    texts = sorted(set(texts))
    forms = []
    for start in range(0, len(texts), GIVEN):
        forms += normal_forms(texts[start : start + GIVEN])
    return dict(zip(texts, forms, strict=True))


def has_made_zone(text):
    """Returns whether the last word could be a zone, but isn't one of `ZONES`: then the edits have made it."""
    word = text.split(" ")[-1]
    return re.match("[A-Za-z]", word) is not None and " " in text and " " + word not in ZONES


def main():
    if len(sys.argv) != 2:
        print("usage: tests/suggestions.py TIMERS", file=sys.stderr)
        return 2
    if not is_installed():
        print("tests/suggestions.py: nothing compared, since there is no systemd-analyze 252")
        print("0 passed, 0 failed, 1 skipped")
        return 0
    source = random.Random(252)
    texts = [text for text, _ in ROWS] + [broken(source) for _ in range(COUNT)]
    with tempfile.TemporaryDirectory(prefix="suggestions-") as folder:
        found = suggestions(sys.argv[1], folder, texts)
    meant = [meant for _, meant in ROWS]
    forms = all_normal_forms([text for text in found + meant if text is not None])
    failed = made = 0
    for number, (text, suggestion) in enumerate(zip(texts, found, strict=True)):
        wrong = None
        if number < len(ROWS):
            wanted = meant[number]
            if (suggestion is None) != (wanted is None) or (wanted is not None and forms[suggestion] != forms[wanted]):
                wrong = f"{suggestion!r}, and {wanted!r} is meant"
        elif suggestion is not None:
            made += 1
            if forms[suggestion] is None and not has_made_zone(text):
                wrong = f"systemd rejects {suggestion!r}"
        if wrong:
            failed += 1
            print(f"tests/suggestions.py: {text!r}: {wrong}")
    print(f"{made} suggestions for random edits")
    print(f"{len(texts) - failed} passed, {failed} failed")
    return 1 if failed else 0


sys.exit(main())
