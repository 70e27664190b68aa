#!/usr/bin/env python3
"""Tests the line `ExecCondition=PROGRAM due` of a service as systemd reads and runs it.

    tests/due.py TIMERS

TIMERS is calendar-timers. `systemd-analyze verify` has to accept a timer with exceptions and its service with that line.
Then the command of the line runs with the environment that systemd.exec(5) describes. Each row of `ROWS` has a timer, the
variables of what started the service, the boot time in /proc/stat, if there is one, and the status and the output that are
wanted. The runs by `TIMER` are at Friday 2020-12-25 01:30 UTC. The machine's own clock shows the time of other runs. The
last line is 'N passed, M failed', and the status is 1 if a test failed. Without systemd-analyze, the first test is skipped,
the script says so, and ', 1 skipped' follows."""

import os
import shutil
import subprocess
import sys
import tempfile

ALWAYS = "[Timer]\nOnCalendar=*:*:*\n"
NEVER = ALWAYS + "X-ExceptOnCalendar=*:*:*\n"
FIRST = "[Timer]\nOnCalendar=2199-12-31\nX-ExceptOnCalendar=2199-12-30\n"
DAY = ALWAYS + "X-ExceptOnCalendar=2020-12-25 *:*:*\n"
HOURS = "[Timer]\nOnCalendar=00:30\nOnCalendar=01:30\nX-ExceptOnCalendar=*-12-25 01:30\n"
NIGHT = "[Timer]\nOnCalendar=01:00\nX-ExceptOnCalendar=*-12-25 *:*:*\n"
DELAYED = NIGHT + "RandomizedDelaySec=1h\nPersistent=true\n"
YEARS = "[Timer]\nOnCalendar=*-12-25 01:30\nAccuracySec=infinity\n"
SKIPPED = "a.timer: not due: Fri 2020-12-25 01:30:00 UTC is an exception\n"
SKIPPED_EARLIER = "a.timer: not due: Fri 2020-12-25 01:00:00 UTC is an exception\n"
CATCHES_UP = "a.timer: due: Fri 2020-12-25 01:00:00 UTC is an exception, but this may be the run of an earlier elapse\n"
TIMER = {
    "TRIGGER_UNIT": "a.timer",
    "TRIGGER_TIMER_REALTIME_USEC": "1608859800000123",
    "TRIGGER_TIMER_MONOTONIC_USEC": "5000000",
}
BY_PATH = {"TRIGGER_UNIT": "a.path", "TRIGGER_PATH": "/run/a"}
# What systemd sets for each service of the system's manager.
SHARED = {
    "PATH": "/usr/local/sbin:/usr/local/bin:/usr/sbin:/usr/bin",
    "LANG": "C.UTF-8",
    "INVOCATION_ID": "2b8b1e0c9d0f4bb1a3d6c0b36a9e8b11",
    "JOURNAL_STREAM": "8:34567",
    "SYSTEMD_EXEC_PID": "1234",
}
ROWS = [
    ("a run that is due", ALWAYS, TIMER, None, 0, ""),
    ("a run at an exception", NEVER, TIMER, None, 1, SKIPPED),
    ("a run before the first elapse", FIRST, TIMER, None, 0, ""),
    ("a run by hand", NEVER, {}, None, 0, ""),
    ("a run by a path unit", NEVER, BY_PATH, None, 0, ""),
    ("a timer that can't be loaded", "[Timer]\nOnCalendar=25:00\n", TIMER, None, 255, ""),
    ("a timer without a file", None, TIMER, None, 255, ""),
    ("the time of the trigger", DAY, TIMER, None, 1, SKIPPED),
    ("a manager that sets no time", DAY, {"TRIGGER_UNIT": "a.timer"}, None, 0, ""),
    ("a TZ without a zone file", DAY, {**TIMER, "TZ": "Nowhere/City"}, None, 1, SKIPPED),
    ("an elapse in the hour of the delay", HOURS + "RandomizedDelaySec=1h\n", TIMER, None, 0, ""),
    ("an elapse before the delay", HOURS + "RandomizedDelaySec=3539s\n", TIMER, None, 1, SKIPPED),
    ("an elapse in the delay and the default accuracy", HOURS + "RandomizedDelaySec=3540s\n", TIMER, None, 0, ""),
    ("an elapse in the accuracy", HOURS + "AccuracySec=1h\n", TIMER, None, 0, ""),
    ("an elapse in the offset", HOURS + "RandomizedOffsetSec=1h\n", TIMER, None, 0, ""),
    ("an earlier year without limit", YEARS + "X-ExceptOnCalendar=2020-12-25 *:*:*\n", TIMER, None, 0, ""),
    ("exceptions in all years", YEARS + "X-ExceptOnCalendar=*-12-25 *:*:*\n", TIMER, None, 1, SKIPPED),
    ("a run long after the last elapse", NIGHT, TIMER, None, 1, SKIPPED_EARLIER),
    ("that run with OnBootSec=", NIGHT + "OnBootSec=5min\n", TIMER, None, 0, ""),
    ("that run with OnUnitActiveSec=", NIGHT + "OnUnitActiveSec=1d\n", TIMER, None, 0, ""),
    ("that run with OnClockChange=", NIGHT + "OnClockChange=true\n", TIMER, None, 0, ""),
    ("that run with OnTimezoneChange=", NIGHT + "OnTimezoneChange=true\n", TIMER, None, 0, ""),
    ("that run with an expression of the machine", NIGHT + "OnCalendar=12:0%m\n", TIMER, None, 0, ""),
    ("an exception with OnBootSec=", NEVER + "OnBootSec=5min\n", TIMER, None, 1, SKIPPED),
    ("a persistent timer, started after its elapse", NIGHT + "Persistent=true\n", TIMER, 1608859700, 0, CATCHES_UP),
    ("a persistent timer, started before its elapse", NIGHT + "Persistent=true\n", TIMER, 1608850000, 1, SKIPPED_EARLIER),
    ("a persistent timer, delayed after the start", DELAYED, TIMER, 1608856140, 0, CATCHES_UP),
    ("a persistent timer, started before the delay", DELAYED, TIMER, 1608856139, 1, SKIPPED_EARLIER),
    ("a persistent timer, start unknown", NIGHT + "Persistent=true\n", TIMER, None, 0, CATCHES_UP),
    ("a timer that isn't persistent", NIGHT, TIMER, 1608859700, 1, SKIPPED_EARLIER),
    ("a persistent timer that is due", HOURS + "AccuracySec=1h\nPersistent=true\n", TIMER, 1608859700, 0, ""),
]


def write(path, text):
    os.makedirs(os.path.dirname(path), exist_ok=True)
    with open(path, "w", encoding="utf-8") as file:
        file.write(text)


def verify_fault(timers, folder):
    """Returns what systemd says of a timer with exceptions and its service, or None if it accepts both."""
    write(f"{folder}/a.timer", NEVER)
    write(f"{folder}/a.service", f"[Service]\nExecCondition={timers} due\nExecStart=/bin/true\n")
    env = {**os.environ, "SYSTEMD_UNIT_PATH": f"{folder}:/usr/lib/systemd/system"}
    command = ["systemd-analyze", "verify", "--man=no", f"{folder}/a.timer", f"{folder}/a.service"]
    ended = subprocess.run(command, env=env, capture_output=True, text=True)
    said = ended.stdout + ended.stderr
    return f"status {ended.returncode}: {said!r}" if ended.returncode or said else None


def run_fault(timers, root, row):
    """Runs the command of the line below a root, and returns what differs from the row, or None."""
    _, timer, variables, started, status, out = row
    os.makedirs(root)
    if timer:
        write(f"{root}/etc/systemd/system/a.timer", timer)
    if started:
        write(f"{root}/proc/stat", f"cpu  1 2 3\nbtime {started}\nprocesses 7\n")
    command = [timers, "due", f"--root={root}"]
    ended = subprocess.run(command, cwd="/", env={**SHARED, **variables}, stdin=subprocess.DEVNULL, capture_output=True, text=True)
    is_err = bool(ended.stderr) == (status == 255)
    if ended.returncode == status and ended.stdout == out and is_err:
        return None
    return f"status {ended.returncode}, {ended.stdout!r}, {ended.stderr!r}"


def main():
    if len(sys.argv) != 2 or not os.access(sys.argv[1], os.X_OK):
        print("usage: tests/due.py TIMERS", file=sys.stderr)
        return 2
    timers, faults, skipped = os.path.realpath(sys.argv[1]), [], 0
    with tempfile.TemporaryDirectory(prefix="due-") as scratch:
        if shutil.which("systemd-analyze"):
            faults.append(("systemd-analyze verify", verify_fault(timers, f"{scratch}/verify")))
        else:
            skipped = 1
            print("tests/due.py: skipped: systemd-analyze is missing")
        for number, row in enumerate(ROWS):
            faults.append((row[0], run_fault(timers, f"{scratch}/{number}", row)))
    for what, fault in faults:
        if fault:
            print(f"tests/due.py: {what}: {fault}")
    failed = sum(fault is not None for _, fault in faults)
    print(f"{len(faults) - failed} passed, {failed} failed" + (f", {skipped} skipped" if skipped else ""))
    return 1 if failed else 0


sys.exit(main())
