#!/usr/bin/env python3
"""Compares what `calendar-timers lint` says of a timer with what `systemd-analyze verify` says, message by message.

    tests/findings.py TIMERS

TIMERS is calendar-timers. Each row of `ROWS` is a timer, `a.timer`, with what the two say of it. The services `a`, `b` and
`c` exist. A message begins with the number of the line, if it is about a line; those of `lint` then have their level. Where
systemd says nothing, `lint` says more on purpose: what systemd 252 computes wrongly, exceptions, names in `[Install]`,
units that don't exist, and lines below the one at which systemd stops reading.

The last line is 'N passed, M failed', which counts rows, and the status is 1 if one failed. If there is no systemd-analyze
252, only the messages of `lint` are compared, the script says so, and ', 1 skipped' follows."""

import json
import os
import re
import shutil
import subprocess
import sys
import tempfile

HEADER = "bad section header, at which systemd stops reading"
OUTSIDE = "a line before the first section, which systemd ignores"
REFUSED = ["Timer unit lacks value setting. Refusing.", "Unit a.timer has a bad unit file setting."]
BAD_UNIT = "Unit a.timer failed to load properly, please adjust/correct and reload service manager: "
IDLE = "error: no setting starts its unit"
NO_SPAN = "not a time span, so systemd ignores the line"
NO_BOOLEAN = "not a boolean, so systemd ignores the line"
NO_UNIT = "not the name of a unit, so systemd ignores the line"
NO_SPAN_FILLED = "not a time span once its specifiers are filled in, so systemd ignores the line"
NO_UNIT_FILLED = "not the name of a unit once its specifiers are filled in, so systemd ignores the line"
SECOND = "systemd ignores this line, as an earlier Unit= counts"
OWN = "systemd ignores this line, as a timer can't start itself"
INVALID = "not a valid calendar expression: "
DAILY = "[Timer]\nOnCalendar=daily\n"

# A timer, what systemd says of it, and what lint says.
ROWS = [
    (DAILY, [], []),
    ("[Timer] # x\nOnCalendar=daily\n", ["1: Invalid section header '[Timer] # x'", f"{BAD_UNIT}Bad message"], [f"1: error: {HEADER}", f"2: warning: {OUTSIDE}"]),
    ("[Timer\nOnCalendar=daily\n", ["1: Invalid section header '[Timer'", f"{BAD_UNIT}Bad message"], [f"1: error: {HEADER}", f"2: warning: {OUTSIDE}"]),
    (f"[Timmer]\nPersistent=yes\n{DAILY}", ["1: Unknown section 'Timmer'. Ignoring."], ["1: warning: unknown section, which systemd ignores"]),
    (f"OnCalendar=daily\n{DAILY}", ["1: Assignment outside of section. Ignoring."], [f"1: warning: {OUTSIDE}"]),
    (f"[Unit]\nDescripton=x\n{DAILY}", ["2: Unknown key 'Descripton' in section [Unit], ignoring."], ["2: warning: unknown key in section [Unit]"]),
    (f"{DAILY}oncalendar=daily\n", ["3: Unknown key 'oncalendar' in section [Timer], ignoring."], ["3: warning: unknown key in section [Timer]"]),
    (f"{DAILY}[Install]\nWantetBy=timers.target\n", ["4: Unknown key 'WantetBy' in section [Install], ignoring."], ["4: warning: unknown key in section [Install]"]),
    (f"{DAILY}rubbish\n", ["3: Missing '=', ignoring line."], ["3: warning: a line without =, which systemd ignores"]),
    (f"{DAILY}=value\n", ["3: Missing key name before '=', ignoring line."], ["3: warning: nothing before the =, so systemd ignores the line"]),
    (f"{DAILY}OnBootSec=abc\n", ["3: Failed to parse timer value, ignoring: abc"], [f"3: warning: {NO_SPAN}"]),
    (f"{DAILY}OnBootSec=-5\n", ["3: Failed to parse timer value, ignoring: -5"], [f"3: warning: {NO_SPAN}"]),
    (f"{DAILY}OnBootSec=%p\n", ["3: Failed to parse timer value, ignoring: a"], [f"3: warning: {NO_SPAN_FILLED}"]),
    (f"{DAILY}OnBootSec=%Z\n", ["3: Failed to resolve unit specifiers in '%Z', ignoring: Invalid slot"], [f"3: warning: {NO_SPAN_FILLED}"]),
    (f"{DAILY}AccuracySec=x\n", ["3: Failed to parse sec value, ignoring: x"], [f"3: warning: {NO_SPAN}"]),
    (f"{DAILY}Persistent=maybe\n", ["3: Failed to parse boolean value, ignoring: maybe"], [f"3: warning: {NO_BOOLEAN}"]),
    (f"{DAILY}Unit=mix\n", ["3: Unit type not valid, ignoring: mix"], [f"3: warning: {NO_UNIT}"]),
    (f"{DAILY}Unit=%p\n", ["3: Unit type not valid, ignoring: %p"], [f"3: warning: {NO_UNIT_FILLED}"]),
    (f"{DAILY}Unit=%Z.service\n", ["3: Failed to resolve unit specifiers in %Z.service, ignoring: Invalid slot"], [f"3: warning: {NO_UNIT_FILLED}"]),
    (f"{DAILY}Unit=a.timer\n", ["3: Units cannot trigger themselves, ignoring: a.timer"], [f"3: warning: {OWN}"]),
    (f"{DAILY}Unit=b.service\nUnit=c.service\n", ["4: Multiple units to trigger specified, ignoring: c.service"], [f"4: warning: {SECOND}"]),
    (f"{DAILY}Unit=b.service\nUnit=\n", ["4: Multiple units to trigger specified, ignoring:"], [f"4: warning: {NO_UNIT}"]),
    (f"{DAILY}Unit=mix\nUnit=b.service\n", ["3: Unit type not valid, ignoring: mix"], [f"3: warning: {NO_UNIT}"]),
    (f"{DAILY}OnCalendar=25:00\n", ["3: Failed to parse calendar specification, ignoring: 25:00"], [f"3: error: {INVALID}value out of range"]),
    (f"{DAILY}OnCalendar=%p\n", ["3: Failed to parse calendar specification, ignoring: a"], [f"3: error: {INVALID}unknown shorthand"]),
    (f"{DAILY}OnCalendar=Sat..Mon\n", ["3: Failed to parse calendar specification, ignoring: Sat..Mon"], ["3: error: systemd 252 doesn't accept a range of weekdays that runs past Sunday"]),
    (f"{DAILY}OnCalendar=10:00 Nowhere/City\n", ["3: Failed to parse calendar specification, ignoring: 10:00 Nowhere/City"], ["3: error: no zone file /usr/share/zoneinfo/Nowhere/City"]),
    ("[Timer]\nOnCalendar=25:00\n", ["2: Failed to parse calendar specification, ignoring: 25:00", *REFUSED], [f"2: error: {INVALID}value out of range", IDLE]),
    (
        "[Timer]\nOnCalendar=25:00\nOnCalendar=10:00 Nowhere/City\nOnCalendar=%p\n",
        ["2: Failed to parse calendar specification, ignoring: 25:00", "3: Failed to parse calendar specification, ignoring: 10:00 Nowhere/City", "4: Failed to parse calendar specification, ignoring: a", *REFUSED],
        [f"2: error: {INVALID}value out of range", f"4: error: {INVALID}unknown shorthand", "3: error: no zone file /usr/share/zoneinfo/Nowhere/City", IDLE],
    ),
    (f"{DAILY}Description=\udcff\n", ["3: String is not UTF-8 clean, ignoring assignment: Description=\ufffd", f"{BAD_UNIT}Invalid argument"], ["3: warning: unknown key in section [Timer]", "3: error: not UTF-8, so the timer fails to load"]),
    ("[Unit]\nDescription=x\n", REFUSED, [IDLE]),
    ("hello\n", ["1: Assignment outside of section. Ignoring.", *REFUSED], [f"1: warning: {OUTSIDE}", IDLE]),
    (f"{DAILY}OnCalendar=*:0/7\n", [], ["3: warning: systemd 252 loses elapses at the start of a day: give the step of the minutes an end, as in 0..59/7"]),
    (f"{DAILY}X-ExceptOnCalendar=25:00\n", [], [f"3: error: {INVALID}value out of range"]),
    (f"{DAILY}[Install]\nWantedBy=no\n", [], ["4: error: a name isn't that of a unit, or an alias not that of a timer, so systemctl enable fails"]),
    (f"{DAILY}[Install]\nWantedBy=timers.target a@x.target\nAlias=b.timer\n", [], []),
    (f"{DAILY}Unit=gone.service\n", [], ["error: gone.service has no file in the search path, so systemd refuses to start the timer"]),
]
MESSAGE = re.compile(r"(?:a\.timer:)?(?:(\d+): )? ?(.*)")


def by_systemd(folder, search_path):
    command = ["systemd-analyze", "verify", "--man=no", "a.timer"]
    shown = subprocess.run(command, cwd=folder, env=search_path, capture_output=True, text=True, errors="replace")
    lines = shown.stderr.replace(f"{folder}/", "").splitlines()
    return [f"{number}: {text}" if number else text for number, text in (MESSAGE.match(line).groups() for line in lines)]


def by_lint(timers, folder, search_path):
    shown = subprocess.run([timers, "lint", "--json", "--", "a.timer"], cwd=folder, env=search_path, capture_output=True, text=True)
    rows = json.loads(shown.stdout)
    said = [f"{row['kind']}: {row['message']}" for row in rows]
    return [f"{row['line']}: {text}" if row["line"] else text for row, text in zip(rows, said)] + shown.stderr.splitlines()


def compare(timers, row, has_systemd):
    """Yields what differs from the row."""
    text, wanted, linted = row
    with tempfile.TemporaryDirectory() as folder:
        with open(f"{folder}/a.timer", "w", errors="surrogateescape") as file:
            file.write(text)
        for stem in "abc":
            with open(f"{folder}/{stem}.service", "w") as file:
                file.write("[Service]\nExecStart=/bin/true\n")
        search_path = {**os.environ, "SYSTEMD_UNIT_PATH": f"{folder}:/usr/lib/systemd/system"}
        said = [line.strip() for line in by_systemd(folder, search_path)] if has_systemd else wanted
        if said != wanted:
            yield f"systemd says {said}"
        said = by_lint(timers, folder, search_path)
        if said != linted:
            yield f"lint says {said}"


def main(timers):
    version = shutil.which("systemd-analyze") and subprocess.run(["systemd-analyze", "--version"], capture_output=True, text=True).stdout
    has_systemd = bool(version) and version.startswith("systemd 252")
    if not has_systemd:
        print("there is no systemd-analyze 252")
    failed = 0
    for row in ROWS:
        wrong = list(compare(timers, row, has_systemd))
        for line in wrong:
            print(f"{row[0]!r}: {line}")
        failed += bool(wrong)
    print(f"{len(ROWS) - failed} passed, {failed} failed" + ("" if has_systemd else ", 1 skipped"))
    return 1 if failed else 0


if __name__ == "__main__":
    sys.exit(main(*sys.argv[1:]))
