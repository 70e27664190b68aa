#!/usr/bin/env python3
"""Compares what cal_lint says that systemd 252 rejects with what systemd-analyze 252 rejects.

    tests/systemd_252.py

The expressions are those of `ROWS` and random ones, and the normal forms of all of them. A copy of the crates and a
program that calls `systemd_252` are made in a temporary folder, where `rt try` runs the program without proving it;
that takes about two minutes. `./test` doesn't run this script. The zones of `ZONES` need the package tzdata. The last
line is 'N passed, M failed', and the status is 1 if one failed. If there is no systemd-analyze 252, nothing is
compared."""

import os
import random
import shutil
import subprocess
import sys
import tempfile

ROOT = os.path.dirname(os.path.dirname(os.path.realpath(__file__)))
COUNT = 2000

# Prints a line for each expression: 'invalid', or 'REASON|NORMAL FORM|REASON', where REASON is a variant of `Rejection` or
# 'accepted', first for the expression and then for its normal form.
MAIN = """\
//! What systemd 252 rejects of the expressions on standard input, one on each line.
#![tactic(auto)]

use cal_lint::systemd_252;
use cal_spec::{Expr, read_expr, write_expr};
use cal_bytes::Port;
use std::alloc::{AllocError, Global};
use std::io;

fn reason(alloc: Global, text: &str) -> Result<String, AllocError> {
    match systemd_252(alloc, text) {
        Ok(Some(rejection)) => format!(in alloc; "{rejection:?}"),
        Ok(None) => String::from_str(alloc, "accepted"),
        Err(_) => String::from_str(alloc, "invalid"),
    }
}

fn normal_form(alloc: Global, expr: &Expr) -> String {
    let mut out = Port::new(Vec::new(alloc));
    let _ = write_expr(&mut out, expr);
    match String::from_utf8(out.into_inner()) {
        Ok(text) => text,
        Err(_) => String::new(alloc),
    }
}

fn main(rt: HostRuntime) -> io::Result<()> {
    for line in rt.lines(rt.alloc()) {
        let line = line?;
        match read_expr(rt.alloc(), line.as_str()) {
            Ok(expr) => {
                let normal = normal_form(rt.alloc(), &expr);
                let own = reason(rt.alloc(), line.as_str())?;
                let other = reason(rt.alloc(), normal.as_str())?;
                println!(rt; "{own}|{normal}|{other}")?;
            }
            Err(_) => println!(rt; "invalid||")?,
        }
    }
    Ok(())
}
"""

# Expressions, and the reason for which systemd 252 rejects them, or 'accepted'.
ROWS = [
    ("daily", "accepted"),
    ("Mon\t12:00", "Tab"),
    ("12:00 UTC\t", "Tab"),
    (" daily", "Blanks"),
    ("daily ", "Blanks"),
    ("daily  UTC", "Blanks"),
    ("12:00  UTC", "Blanks"),
    ("12:00 UTC ", "Blanks"),
    ("Mon UTC ", "Blanks"),
    ("Mon  2024-1-1   12:00 UTC", "accepted"),
    ("Mon  UTC", "accepted"),
    ("2024-1-1  UTC", "accepted"),
    ("Mon,  ", "accepted"),
    ("Sat..Mon", "PastSunday"),
    ("Wed,Sun-Tue 12:00", "PastSunday"),
    ("Mon..Mon", "accepted"),
    ("Mon..Sun", "accepted"),
    ("*:*:5..5", "OneSecond"),
    ("*:*:1,05..5", "OneSecond"),
    ("*:*:5..5/1", "accepted"),
    ("*:*:5..6", "accepted"),
    ("5..5-5..5 5..5:5..5", "accepted"),
    ("*:*:0..59/2148", "SecondStep"),
    ("*:*:5..5/9999", "SecondStep"),
    ("*:*:0..59/2147", "accepted"),
    ("*:0..59/9999", "accepted"),
    ("*~1,26", "DaysFromEnd"),
    ("*~17,19..26", "DaysFromEnd"),
    ("*~1,2,3..23/2", "DaysFromEnd"),
    ("*~1,2,3..22/2", "accepted"),
    ("*~1,2,3..23/5", "DaysFromEnd"),
    ("*~25,28", "DaysFromEnd"),
    ("*~28", "accepted"),
    ("*~17,25", "accepted"),
    ("*-1,26..31", "accepted"),
    ("daily +02:00", "Offset"),
    ("Sat..Mon +02:00", "PastSunday"),
    ("12:00 Europe//Berlin", "ZoneName"),
    ("12:00 Europe/", "ZoneName"),
    ("12:00 Europe/Berlin", "accepted"),
    ("12:00 utc", "accepted"),
]

DAYS = ["Mon", "Tuesday", "wed", "THU", "Fri", "Saturday", "Sun"]
ZONES = ["UTC", "utc", "Europe/Berlin", "Asia/Tokyo", "Europe//Berlin", "Asia/", "+02:00", "-00:30"]
SHORTHANDS = ["minutely", "hourly", "Daily", "weekly", "monthly", "quarterly", "bi-annually", "semiannually", "YEARLY"]


def part(least, greatest):
    """Returns a random part of a component, which is mostly valid."""
    start, end = sorted(random.randint(least, greatest) for _ in range(2))
    if random.random() < 0.2:
        end = start
    pad = random.choice(["{}", "{:02}"])
    step = random.choice([1, 2, 5, random.randint(1, 60), 2147, 2148, 9999])
    form = random.choice(["a", "a", "a/r", "a..b", "a..b", "a..b/r"])
    text = pad.format(start)
    if ".." in form:
        text += ".." + pad.format(end)
    return text + (f"/{step}" if "/" in form else "")


def component(least, greatest):
    if random.random() < 0.3:
        return "*"
    return ",".join(part(least, greatest) for _ in range(random.choice([1, 1, 1, 2, 3])))


def weekdays():
    items = []
    for _ in range(random.choice([1, 1, 2, 3])):
        first, last = random.choice(DAYS), random.choice(DAYS)
        items.append(random.choice([first, first + ".." + last, first + "-" + last]))
    return ",".join(items) + random.choice(["", "", "", ","])


def date():
    sign = random.choice(["-", "-", "-", "~"])
    days = component(1, 28 if sign == "~" else 31)
    return random.choice(["", component(1970, 2199) + "-"]) + component(1, 12) + sign + days


def time():
    return component(0, 23) + ":" + component(0, 59) + random.choice(["", ":" + component(0, 59)])


def expression():
    """Returns a random expression, which is mostly valid, with mostly single spaces."""
    if random.random() < 0.1:
        words = [random.choice(SHORTHANDS)]
    else:
        words = [make() for make in (weekdays, date, time) if random.random() < 0.6] or [time()]
    if random.random() < 0.4:
        words.append(random.choice(ZONES))
    text = random.choice([""] * 20 + [" "])
    for word in words:
        text += word + random.choice([" "] * 8 + ["  ", "   ", "\t"])
    return text if random.random() < 0.1 else text.rstrip()


def is_accepted(text):
    """Returns whether systemd-analyze accepts an expression."""
    environment = {"PATH": os.environ["PATH"], "TZ": "UTC", "LC_ALL": "C.UTF-8"}
    command = ["systemd-analyze", "calendar", "--", text]
    run = subprocess.run(command, env=environment, stdout=subprocess.DEVNULL, stderr=subprocess.DEVNULL)
    return run.returncode == 0


def is_installed():
    if shutil.which("systemd-analyze") is None:
        return False
    run = subprocess.run(["systemd-analyze", "--version"], stdout=subprocess.PIPE, text=True)
    return run.stdout.startswith("systemd 252 ")


def reasons(folder, texts):
    """Returns what the program `MAIN` prints for these expressions. Makes a copy of the crates in this folder and runs
    it there."""
    skipped = shutil.ignore_patterns("out")
    shutil.copytree(f"{ROOT}/crates", f"{folder}/crates", ignore=skipped)
    shutil.copy(f"{ROOT}/HANDLES", folder)
    with open(f"{ROOT}/crates.txt", encoding="utf-8") as file:
        listed = file.read()
    with open(f"{folder}/crates.txt", "w", encoding="utf-8") as file:
        file.write(f"{listed}try_lint: cal_lint cal_spec cal_bytes\n")
    os.makedirs(f"{folder}/crates/try_lint/src")
    with open(f"{folder}/crates/try_lint/src/main.rt", "w", encoding="utf-8") as file:
        file.write(MAIN)
    given = "".join(text + "\n" for text in texts)
    command, place = ["rt", "try"], f"{folder}/crates/try_lint"
    run = subprocess.run(command, cwd=place, input=given, stdout=subprocess.PIPE, stderr=subprocess.STDOUT, text=True)
    lines = [line for line in run.stdout.splitlines() if line.count("|") == 2]
    if len(lines) != len(texts):
        sys.exit(f"tests/systemd_252.py: {len(lines)} lines for {len(texts)} expressions\n{run.stdout[-2000:]}")
    return lines


def compare(text, line, wanted):
    """Returns what is wrong with the line that the program printed for an expression, or None."""
    reason, normal, normal_reason = line.split("|")
    if wanted not in (None, reason):
        return f"{reason} instead of {wanted}"
    if reason == "invalid":
        return None
    if (reason == "accepted") != is_accepted(text):
        return f"{reason}, and systemd-analyze says otherwise"
    if (normal_reason == "accepted") != is_accepted(normal):
        return f"{normal_reason} for the normal form, and systemd-analyze says otherwise"
    if normal_reason not in ("accepted", "DaysFromEnd", "Offset", "ZoneName"):
        return f"{normal_reason} for the normal form"
    return None


def main():
    if len(sys.argv) != 1:
        print("usage: tests/systemd_252.py", file=sys.stderr)
        return 2
    if not is_installed():
        print("tests/systemd_252.py: nothing compared, since there is no systemd-analyze 252")
        return 0
    random.seed(252)
    rows = ROWS + [(expression(), None) for _ in range(COUNT)]
    with tempfile.TemporaryDirectory(prefix="systemd_252-") as folder:
        lines = reasons(folder, [text for text, _ in rows])
    failed, counts = 0, {}
    for (text, wanted), line in zip(rows, lines, strict=True):
        reason = line.split("|")[0]
        counts[reason] = counts.get(reason, 0) + 1
        wrong = compare(text, line, wanted)
        if wrong:
            failed += 1
            print(f"tests/systemd_252.py: {text!r}: {wrong}")
    print(", ".join(f"{reason} {count}" for reason, count in sorted(counts.items())))
    print(f"{len(rows) - failed} passed, {failed} failed")
    return 1 if failed else 0


sys.exit(main())
