#!/usr/bin/env python3
"""Tests timer files with exceptions against a filter that shares no code with the program.

    tests/exceptions.py PROGRAM

The files are random, with up to six expressions and four exceptions. They are run in three zones, each over a month
with a clock change. The filter takes the local time of each instant of that month from the C library, leaves out the
second occurrence of a local time in a fold, and keeps the instants whose local time matches an expression and no
exception. The program has to print exactly these, in order. The last line is 'N passed, M failed', one for each file,
and the status is 1 if one failed."""

import calendar
import os
import random
import re
import subprocess
import sys
import tempfile
import time
from datetime import datetime

DAY = 86_400
MONTH = 30 * DAY
FILES = 200  # for each zone
ALL, WORKDAYS, WEEKEND, SUNDAY = range(7), range(5), (5, 6), (6,)
HOURS, SIXTY = range(24), range(60)


def any_date(date):
    return True


def first_half(date):
    return date.tm_mday <= 15


def last_week(date):
    return date.tm_mday > calendar.monthrange(date.tm_year, date.tm_mon)[1] - 7


def march_and_november(date):
    return date.tm_mon in (3, 11)


# Each expression with its weekdays (Monday is 0), dates, hours, minutes and seconds. Seconds are 0 or 30, or all.
EXPRESSIONS = [
    ("*:0/30", ALL, any_date, HOURS, (0, 30), (0,)),
    ("02:30", ALL, any_date, (2,), (30,), (0,)),
    ("1..3:0/20:30", ALL, any_date, (1, 2, 3), (0, 20, 40), (30,)),
    ("Mon..Fri 09:00", WORKDAYS, any_date, (9,), (0,), (0,)),
    ("Sat,Sun *:0/10", WEEKEND, any_date, HOURS, range(0, 60, 10), (0,)),
    ("*-*-1..15 02:0/5", ALL, first_half, (2,), range(0, 60, 5), (0,)),
    ("*-*~07/1 00:00", ALL, last_week, (0,), (0,), (0,)),
    ("*-3,11-* 01,02:30", ALL, march_and_november, (1, 2), (30,), (0,)),
    ("Sun 02:0/15:0/30", SUNDAY, any_date, (2,), (0, 15, 30, 45), (0, 30)),
    ("00..03:30 UTC", ALL, any_date, range(4), (30,), (0,)),
    ("0/6:30 +05:30", ALL, any_date, range(0, 24, 6), (30,), (0,)),
    ("Sun 01..03:0/15 -05:00", SUNDAY, any_date, (1, 2, 3), (0, 15, 30, 45), (0,)),
]
# These elapse too often to be expressions here, but they can be exceptions.
DENSE = [
    ("*:*:*", ALL, any_date, HOURS, SIXTY, SIXTY),
    ("01..03:*:*", ALL, any_date, (1, 2, 3), SIXTY, SIXTY),
    ("Sat,Sun *:*:*", WEEKEND, any_date, HOURS, SIXTY, SIXTY),
    ("*-*-1..15 *:*:* +05:30", ALL, first_half, HOURS, SIXTY, SIXTY),
]
# Each zone with the start of its month. The clock of the last one is set forward, and back after ten minutes.
ZONES = [
    ("CET-1CEST,M3.5.0,M10.5.0/3", 1_710_504_000),
    ("EST5EDT,M3.2.0,M11.1.0", 1_729_990_020),
    ("AAA0BBB,M3.5.0/2,M3.5.0/3:10", 1_710_504_000),
]
# The zones that expressions name, as the C library reads them. Its offsets have the opposite sign.
NAMED = {"UTC": "UTC0", "+05:30": "XXX-05:30", "-05:00": "XXX+05:00"}


def local_times(zone, start):
    """Returns each local time of the month in steps of 30 seconds, with the first instant at which the clock shows it."""
    os.environ["TZ"] = zone
    time.tzset()
    instants = {}
    for instant in range(start - DAY, start + MONTH + 1, 30):
        local = time.localtime(instant)
        instants.setdefault(local[:6], (local, instant))
    return instants.values()


def matches(expression, local):
    _, weekdays, date_matches, hours, minutes, seconds = expression
    is_time = local.tm_hour in hours and local.tm_min in minutes and local.tm_sec in seconds
    return is_time and local.tm_wday in weekdays and date_matches(local)


def instants_by_expression(zone, start):
    """Returns the instants of the month at which each expression elapses."""
    times = {name: local_times(rule, start) for name, rule in {"": zone, **NAMED}.items()}
    found = {}
    for expression in [*EXPRESSIONS, *DENSE]:
        own = next((name for name in NAMED if expression[0].endswith(f" {name}")), "")
        found[expression[0]] = {at for local, at in times[own] if at > start and matches(expression, local)}
    return found


def printed_instants(report):
    texts = re.findall(r"^ *(?:Next elapse|Iter\. #\d+): (\w{3} .*)$", report, re.M)
    return [int(datetime.strptime(text.replace("UTC", "+00:00"), "%a %Y-%m-%d %H:%M:%S %z").timestamp()) for text in texts]


def run(program, expressions, exceptions, options):
    """Runs the program on a timer file and returns what it printed."""
    with tempfile.NamedTemporaryFile("w", suffix=".timer") as file:
        lines = [f"X-ExceptOnCalendar={text}\n" for text in exceptions] + [f"OnCalendar={text}\n" for text in expressions]
        file.write("[Timer]\n" + "".join(lines))
        file.flush()
        return subprocess.run([program, "timer", *options, file.name], capture_output=True, text=True)


def is_right(program, numbers, zone, start, instants):
    """Runs a random file, and checks whether the program prints what the filter finds."""
    texts = [expression[0] for expression in EXPRESSIONS]
    expressions = numbers.choices(texts, k=numbers.randint(1, 6))
    exceptions = numbers.choices(texts, k=numbers.randint(0, 3))
    if numbers.random() < 0.4:
        exceptions.append(numbers.choice(DENSE)[0])
    wanted = sorted(set().union(*map(instants.get, expressions)) - set().union(*map(instants.get, exceptions)))
    # The program is asked for one more elapse, which has to be after the month.
    options = [f"--iterations={len(wanted) + 1}", f"--now=@{start}", f"--local=posix:{zone}"]
    ended = run(program, expressions, exceptions, options)
    found = printed_instants(ended.stdout)
    later = found[len(wanted) :]
    if ended.returncode == 0 and not ended.stderr and found[: len(wanted)] == wanted and all(at > start + MONTH for at in later):
        return True
    print(f"tests/exceptions.py: {zone}: {expressions} without {exceptions}: {ended.stdout[-200:]!r} {ended.stderr!r}")
    return False


def main():
    if len(sys.argv) != 2:
        print("usage: tests/exceptions.py PROGRAM", file=sys.stderr)
        return 2
    numbers, results = random.Random(25), []
    for zone, start in ZONES:
        instants = instants_by_expression(zone, start)
        results += [is_right(sys.argv[1], numbers, zone, start, instants) for _ in range(FILES)]
    print(f"{results.count(True)} passed, {results.count(False)} failed")
    return 1 if False in results else 0


sys.exit(main())
