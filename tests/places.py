#!/usr/bin/env python3
"""Compares elapses around each clock change of eight real time zones with Python's zoneinfo.

    tests/places.py PROGRAM

For each clock change from 1970 to 2037 and in some later years, the program is asked for the elapses of `*:*:00`, every
minute, in three days around the change. These have to be the local times that zoneinfo finds, in order, with their
offsets. A local time in a gap doesn't elapse, and one in a fold only once. The last line is 'N passed, M failed', one
for each change, and the status is 1 if one failed. A zone whose file is missing is skipped, and ', K skipped'
follows."""

import os
import re
import subprocess
import sys
from datetime import datetime, timezone
from zoneinfo import ZoneInfo

FOLDER = "/usr/share/zoneinfo"
ZONES = [
    "Europe/Berlin",
    "Australia/Lord_Howe",  # half an hour of summer time
    "Antarctica/Troll",  # two hours of summer time
    "Europe/Dublin",  # negative summer time in winter
    "America/St_Johns",  # changes at 00:01
    "Africa/Casablanca",  # changes around Ramadan
    "Pacific/Apia",  # a day was skipped
    "Africa/Monrovia",  # an offset with seconds
]
DAY = 86_400
# From 2038 on, zone files have only a rule. In these later years, the rule's clock changes are on their extreme dates.
LATER_YEARS = (2038, 2039, 2040, 2087, 2088, 2100, 2198)
ELAPSE = re.compile(r"^ *(?:Next elapse|Iter\. #\d+): (.*)$", re.M)


def new_year(year):
    return int(datetime(year, 1, 1, tzinfo=timezone.utc).timestamp())


def days_with_change(zone):
    """Yields the start of each day, in UTC, at whose end the zone has a different offset than at its start."""
    for first, last in [(1970, 2037), *[(year, year) for year in LATER_YEARS]]:
        for day in range(new_year(first), new_year(last + 1), DAY):
            offsets = [datetime.fromtimestamp(second, zone).utcoffset() for second in (day, day + DAY)]
            if offsets[0] != offsets[1]:
                yield day


def wanted_elapses(zone, base):
    """Returns all minutes of local time in the three days after `base`, as the program prints them."""
    found = []
    # In these zones, the seconds of an offset are 0 or 30.
    for second in range(base + 30, base + 3 * DAY + 1, 30):
        local = datetime.fromtimestamp(second, zone)
        if local.second == 0 and not local.fold:
            text = local.isoformat(" ")
            found.append(f"{local:%a} {text[:19]} {text[19:]}")
    return found


def printed_elapses(program, name, base, count):
    options = [f"--now=@{base}", f"--iterations={count}", f"--zones={name}={FOLDER}/{name}", f"--local={name}"]
    ended = subprocess.run([program, "calendar", *options, "*:*:00"], capture_output=True, text=True)
    return ELAPSE.findall(ended.stdout) if ended.returncode == 0 else [ended.stderr]


def main():
    if len(sys.argv) != 2:
        print("usage: tests/places.py PROGRAM", file=sys.stderr)
        return 2
    passed = failed = skipped = 0
    for name in ZONES:
        if not os.path.exists(f"{FOLDER}/{name}"):
            print(f"tests/places.py: skipped: there is no {FOLDER}/{name}")
            skipped += 1
            continue
        with open(f"{FOLDER}/{name}", "rb") as file:
            zone = ZoneInfo.from_file(file)
        for day in days_with_change(zone):
            base = max(day - DAY, 0)
            wanted = wanted_elapses(zone, base)
            if printed_elapses(sys.argv[1], name, base, len(wanted)) == wanted:
                passed += 1
            else:
                failed += 1
                print(f"tests/places.py: {name}: other elapses in the three days after @{base}")
    print(f"{passed} passed, {failed} failed" + (f", {skipped} skipped" if skipped else ""))
    return 1 if failed else 0


sys.exit(main())
