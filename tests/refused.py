#!/usr/bin/env python3
"""Makes each allocation of the programs, and of calls of the library, fail in turn.

    tests/refused.py PROGRAM TIMERS [TESTS..]

In the first run of a row its first allocation fails, in the second run its second one, and so on, until all have
failed once. This is done in two ways: only that allocation fails, or all that follow it fail too. Each run has to end
as it does if no allocation fails, or with the error line and the status for running out of memory. In that case both
outputs of PROGRAM, which is calendar-analyze, have exactly the answers to the texts before the one for which allocation
failed, as a run for these texts alone prints them. TIMERS, which is calendar-timers, then prints nothing but the error
line. TESTS are the programs of the crates of tests. Each of their tests in a module `refused` has to fail
with NoMemory or AllocError if an allocation failed, and otherwise to pass. The last line is 'N passed, M failed', one
for each row or test in each of the two ways, and the status is 1 if one failed. The script needs cc, and a C library
that lets another library be preloaded; if one of them is missing, everything is skipped. If REFUSED_COUNTS is set in
the environment, the script prints how many allocations each row and each test makes."""

import os
import re
import shutil
import subprocess
import sys
import tempfile

HERE = os.path.dirname(os.path.realpath(__file__))
MEMORY_LINE = b"calendar-analyze: out of memory\n"
TIMERS_MEMORY_LINE = b"calendar-timers: out of memory\n"
TIMEOUT = 10
NOW = "--now=@1704067200"
# The names of the tests in modules `refused`, and how such a test fails if an allocation fails.
ABOUT_MEMORY = re.compile(r"(?m)^(\S*\brefused::\S+): test$")
OUT_OF_MEMORY = re.compile(rb"error: (\w+\()?(NoMemory|AllocError)\)?\n")

TZIF_BLOCK = b"TZif2" + bytes(31) + b"\0\0\0\1\0\0\0\4\0\0\x0e\x10\0\0CET\0"
FILES = {
    "my.timer": b"[Unit]\nDescription=x\n[Timer]\nOnCalendar=daily\nOnBootSec=\nOnCalendar=Mon \\\n# the minutes\n  *:0/30\nOnCalendar=hourly\n",
    "except.timer": b"[Timer]\nOnCalendar=daily\nX-ExceptOnCalendar=Sat,Sun 12:00\nOnBootSec=\nOnCalendar=12:00\n",
    "many.timer": b"[Timer]\n" + 256 * b"OnCalendar=daily\n",
    "bad": b"hello",
    "large": bytes(1_048_577),
    "fixed": TZIF_BLOCK + TZIF_BLOCK + b"\nCET-1\n",
}

# A machine in a folder of its own, for calendar-timers: its files, and its links with their targets.
UNITS = "tree/etc/systemd/system"
TREE = {
    f"{UNITS}/backup.timer": b"[Timer]\nOnCalendar=Mon..Fri 18:00\n",
    f"{UNITS}/backup.timer.d/late.conf": b"[Timer]\nOnCalendar=Sat 20:00 Test/Fixed\nRandomizedDelaySec=1h\n",
    f"{UNITS}/save.timer.d/early.conf": b"[Timer]\nX-ExceptOnCalendar=Tue\n",
    f"{UNITS}/wrong.timer": b"[Timer]\nOnCalendar=dayly\nOnCalender=daily\n",
    "tree/etc/crontab": b"CRON_TZ=UTC\n0 0 1 * 1 root clean\n@reboot root start\n",
    "tree/usr/share/zoneinfo/Test/Fixed": FILES["fixed"],
    "own/nightly.timer": b"[Timer]\nOnCalendar=02:30\n",
}
LINKS = {
    f"{UNITS}/save.timer": "backup.timer",
    f"{UNITS}/masked.timer": "/dev/null",
    "tree/etc/localtime": "../usr/share/zoneinfo/Test/Fixed",
}
ROOT = "--root=tree"


class Row:
    """The arguments of a run, and what both outputs have to be; None stands for a text that isn't compared. `memory_status`
    is its status if it runs out of memory."""

    def __init__(self, about, arguments, out, err="", status=0, memory_line=MEMORY_LINE, memory_status=1):
        self.about, self.arguments, self.status = about, arguments, status
        self.memory_line, self.memory_status = memory_line, memory_status
        self.out = None if out is None else out.encode()
        self.err = None if err is None else err.encode()


def heading(text, normal):
    return f"  Original form: {text}\nNormalized form: {normal}\n"


ROWS = [
    Row(
        "noon thirty",
        ["calendar", "--iterations=2", NOW, "*-*-* 12:30:00"],
        heading("*-*-* 12:30:00", "*-*-* 12:30:00")
        + "    Next elapse: Mon 2024-01-01 12:30:00 UTC\n       From now: 12h 30min left\n"
        + "       Iter. #2: Tue 2024-01-02 12:30:00 UTC\n       From now: 1d 12h 30min left\n",
    ),
    Row(
        "every second",
        ["calendar", "--iterations=2", "--local=+05:30", NOW, "*:*:*"],
        heading("*:*:*", "*-*-* *:*:*")
        + "    Next elapse: Mon 2024-01-01 05:30:01 +05:30\n       (in UTC): Mon 2024-01-01 00:00:01 UTC\n       From now: 1s left\n"
        + "       Iter. #2: Mon 2024-01-01 05:30:02 +05:30\n       (in UTC): Mon 2024-01-01 00:00:02 UTC\n       From now: 2s left\n",
    ),
    Row(
        "three expressions, one of them refused",
        ["calendar", NOW, "daily", "dayly", "2100-02-29", "12:00"],
        heading("daily", "*-*-* 00:00:00")
        + "    Next elapse: Tue 2024-01-02 00:00:00 UTC\n       From now: 1d left\n\n"
        + heading("2100-02-29", "2100-02-29 00:00:00")
        + "    Next elapse: never\n\n"
        + heading("12:00", "*-*-* 12:00:00")
        + "    Next elapse: Mon 2024-01-01 12:00:00 UTC\n       From now: 12h left\n",
        "dayly: unknown shorthand\n",
        1,
    ),
    Row(
        "spans",
        ["timespan", "1year 0.000001s", "300ms20s 5day", "5x"],
        "Original: 1year 0.000001s\n      μs: 31557600000001\n   Human: 1y 1us\n\n"
        + "Original: 300ms20s 5day\n      μs: 432020300000\n   Human: 5d 20s 300ms\n",
        "5x: unknown unit\n",
        1,
    ),
    Row(
        "timestamps",
        ["timestamp", NOW, "now", "2013-02-29", "@0"],
        heading("now", "Mon 2024-01-01 00:00:00 UTC")
        + "   UNIX seconds: @1704067200\n       From now: 0 left\n\n"
        + heading("@0", "Thu 1970-01-01 00:00:00 UTC")
        + "   UNIX seconds: @0\n       From now: 53y 11month 4w 1d 22h 30min ago\n",
        "2013-02-29: no such date\n",
        1,
    ),
    Row(
        "a timer file",
        ["timer", "--iterations=2", NOW, "my.timer"],
        heading("Mon  *:0/30", "Mon *-*-* *:00/30:00")
        + heading("hourly", "*-*-* *:00:00")
        + "    Next elapse: Mon 2024-01-01 00:30:00 UTC\n       From now: 30min left\n"
        + "       Iter. #2: Mon 2024-01-01 01:00:00 UTC\n       From now: 1h left\n",
    ),
    Row(
        "a timer file with an exception",
        ["timer", "--iterations=2", "--now=@1704412800", "except.timer"],
        heading("12:00", "*-*-* 12:00:00")
        + "    Except form: Sat,Sun 12:00\nNormalized form: Sat,Sun *-*-* 12:00:00\n"
        + "    Next elapse: Fri 2024-01-05 12:00:00 UTC\n       From now: 12h left\n"
        + "       Iter. #2: Mon 2024-01-08 12:00:00 UTC\n       From now: 3d 12h left\n",
    ),
    Row(
        "a timer file of 256 lines",
        ["timer", NOW, "many.timer"],
        256 * heading("daily", "*-*-* 00:00:00") + "    Next elapse: Tue 2024-01-02 00:00:00 UTC\n       From now: 1d left\n",
    ),
    Row(
        "a zone file",
        ["calendar", "--zones=Test/Fixed=fixed", NOW, "daily Test/Fixed", "daily Test/West"],
        heading("daily Test/Fixed", "*-*-* 00:00:00 Test/Fixed")
        + "    Next elapse: Mon 2024-01-01 23:00:00 UTC\n       From now: 23h left\n",
        "daily Test/West: no such zone\n",
        1,
    ),
    Row(
        "a rule and a base",
        ["calendar", "--local=posix:CET-1CEST,M3.5.0,M10.5.0/3", "--base-time=@1729990799", NOW, "02:30"],
        heading("02:30", "*-*-* 02:30:00")
        + "    Next elapse: Mon 2024-10-28 02:30:00 +01:00\n       (in UTC): Mon 2024-10-28 01:30:00 UTC\n"
        + "       From now: 9month 3w 6d 3h left\n",
    ),
    Row("help", ["--help"], None, ""),
    Row("help of a verb", ["calendar", "--help"], None, ""),
    Row("the version", ["--version"], None, ""),
    Row("no verb", [], "", None, 2),
    Row("an unknown verb", ["calender", "daily"], "", None, 2),
    Row("a count that is none", ["calendar", "--iterations=0", "daily"], "", "calendar-analyze: bad iterations\n", 2),
    Row("a present that is none", ["calendar", "--now=5", "daily"], "", "calendar-analyze: bad now\n", 2),
    Row("zones that are none", ["calendar", "--zones=A", NOW, "daily"], "", "calendar-analyze: bad zones\n", 2),
    Row("a local zone that is none", ["calendar", "--local=5x", NOW, "daily"], "", "calendar-analyze: bad local zone\n", 2),
    Row("a bad rule", ["calendar", "--local=posix:x", NOW, "daily"], "", "calendar-analyze: --local: bad rule\n", 2),
    Row("an unknown zone", ["calendar", "--local=Mars/One", NOW, "daily"], "", "calendar-analyze: --local: no such zone\n", 2),
    Row("no zone file", ["calendar", "--zones=A=none", NOW, "daily"], "", "calendar-analyze: --zones: A: cannot be read\n", 2),
    Row("a bad zone file", ["calendar", "--zones=A=bad", NOW, "daily"], "", "calendar-analyze: --zones: A: bad zone file\n", 2),
    Row("a large zone file", ["calendar", "--zones=A=large", NOW, "daily"], "", "calendar-analyze: --zones: A: larger than 1048576 bytes\n", 2),
    Row(
        "a zone's name twice",
        ["calendar", "--zones=A=fixed,A=fixed", NOW, "daily"],
        "",
        "calendar-analyze: --zones: A: zone name taken\n",
        2,
    ),
    Row("no timer file", ["timer", NOW, "none"], "", "none: cannot be read\n", 1),
    Row("a large timer file", ["timer", NOW, "large"], "", "large: larger than 1048576 bytes\n", 1),
    Row("a timer file without a timer", ["timer", NOW, "bad"], "", "bad: no calendar expression\n", 1),
    Row("a bad base", ["calendar", "--base-time=x", NOW, "daily"], "", "--base-time: bad weekday\n", 1),
]


def timers_row(about, arguments, status=0):
    """Returns a row of calendar-timers. Its outputs are not compared: tests/run.sh does that."""
    return Row(about, arguments, None, None, status, TIMERS_MEMORY_LINE, 255 if "due" in arguments else 1)


TIMERS_ROWS = [
    timers_row("all timers of a machine", ["-a", ROOT, NOW], 1),
    timers_row("all timers as JSON", ["list", "--all", ROOT, NOW, "--json"], 1),
    timers_row("the timers of a folder", ["list", ROOT, NOW, "./own"]),
    timers_row("a timer with drop-ins of both its names", ["show", ROOT, NOW, "-n2", "backup"]),
    timers_row("a timer as JSON", ["show", ROOT, NOW, "--json", "save"]),
    timers_row("what is wrong with a timer", ["lint", ROOT, "wrong"], 1),
    timers_row("what is wrong with all, as JSON", ["lint", "--all", ROOT, "--json"], 1),
    timers_row("a weekend", ["between", ROOT, NOW, "Fri 18:00", "Mon 06:00", "backup"]),
    timers_row("a range as JSON", ["between", ROOT, NOW, "--json", "2024-01-02", "2024-01-03", "own/nightly.timer"]),
    timers_row("two timers that differ", ["same", ROOT, NOW, "backup", "own/nightly.timer"], 1),
    timers_row("two timers as JSON", ["same", ROOT, NOW, "--json", "2024-02-03", "2024-2-3"]),
    timers_row("expressions", ["next", ROOT, NOW, "daily", "Sat 12:00 Test/Fixed"]),
    timers_row("an expression as JSON", ["next", ROOT, NOW, "--json", "*:0/30"]),
    timers_row("an invalid expression", ["next", ROOT, NOW, "dayly"], 1),
    timers_row("a run that is due", ["due", ROOT, NOW, "backup"]),
    timers_row("a run at an exception", ["due", ROOT, NOW, "./except.timer"], 1),
    timers_row("a run as JSON", ["due", ROOT, NOW, "--json", "./except.timer"], 1),
    timers_row("a run of a masked timer", ["due", ROOT, NOW, "masked"], 255),
    timers_row("a run of two timers", ["due", "a", "b"], 255),
    timers_row("help for due", ["due", "--help"]),
    timers_row("lines of crontabs", ["cron", ROOT, "CRON_TZ=UTC\n0 0 1 * 1 anacron", "@reboot"]),
    timers_row("entries as JSON", ["cron", ROOT, "--json", "*/7 * * * * x %y"]),
    timers_row("an invalid entry", ["cron", ROOT, "61 * * * *"], 1),
    timers_row("the crontabs of a machine", ["cron", ROOT]),
    timers_row("timers and the crontabs of a machine", ["list", "--cron", ROOT, NOW, "./own"]),
    timers_row("a day of timers and crontabs", ["between", "--cron", ROOT, NOW, "now", "tomorrow", "backup"]),
    timers_row("an entry and a timer", ["same", ROOT, NOW, "30 4 1,15 * 5 x", "backup"], 1),
    timers_row("entries in place of expressions", ["next", ROOT, NOW, "--zone=Test/Fixed", "@daily", "0 0 1 * 1"]),
    timers_row("an invalid entry in place of an expression", ["next", ROOT, NOW, "61 * * * *"], 1),
    timers_row("what is wrong with a crontab", ["lint", ROOT, "/etc/crontab"]),
    timers_row("an unknown zone", ["list", ROOT, NOW, "--zone=Mars/One"], 2),
    timers_row("help for timers", ["--help"]),
    timers_row("help for a verb of timers", ["between", "--help"]),
    timers_row("a count of timers that is none", ["show", "-n0", "backup"], 2),
]


class Refusals:
    """Runs of the programs in which allocations fail, and the counts."""

    def __init__(self, program, timers, scratch):
        self.program, self.timers, self.scratch, self.library = program, timers, scratch, f"{scratch}/refuse.so"
        self.passed = self.failed = self.runs = 0
        self.files = f"{scratch}/files"
        for name, data in {**FILES, **TREE}.items():
            path = f"{self.files}/{name}"
            os.makedirs(os.path.dirname(path), exist_ok=True)
            with open(path, "wb") as file:
                file.write(data)
        for name, target in LINKS.items():
            os.symlink(target, f"{self.files}/{name}")

    def is_possible(self):
        """Builds the library, and returns whether it can be preloaded."""
        if not shutil.which("cc"):
            return False
        built = subprocess.run(["cc", "-shared", "-fPIC", "-O1", "-o", self.library, f"{HERE}/lib/refuse.c"], capture_output=True)
        return built.returncode == 0 and self.run(ROWS[0].arguments, 1, True)[0]

    def run(self, arguments, first=0, is_all=False, program=None):
        """Returns whether an allocation was made to fail, and what the program wrote and how it ended."""
        environment = {**os.environ, "LC_ALL": "C"}
        refused = f"{self.scratch}/refused"
        with open(refused, "wb"):
            pass
        if first:
            environment.update(LD_PRELOAD=self.library, REFUSE_FIRST=str(first), REFUSED=refused)
            if is_all:
                environment["REFUSE_ALL"] = "1"
        self.runs += 1
        ended = subprocess.run(
            [program or self.program, *arguments], cwd=self.files, env=environment, stdin=subprocess.DEVNULL, capture_output=True, timeout=TIMEOUT
        )
        return os.path.getsize(refused) > 0, (ended.stdout, ended.stderr, ended.returncode)

    def prefixes(self, row):
        """Returns what both outputs can be when memory runs out: the answers to the first texts, or to none."""
        if not row.arguments or row.arguments[0] not in ("calendar", "timestamp", "timespan") or row.status == 2:
            return [(row.memory_line, b"")]
        texts = [at for at, argument in enumerate(row.arguments) if at and not argument.startswith("-")]
        prefixes = [(MEMORY_LINE, b"")]
        for at in texts[:-1]:
            out, err, _ = self.run(row.arguments[: at + 1])[1]
            prefixes.append((err + MEMORY_LINE, out))
        return prefixes

    def sweep(self, row, is_all):
        """Returns how many allocations the row makes, or what went wrong. A row makes at least one, for its
        arguments."""
        program = self.program if row.memory_line == MEMORY_LINE else self.timers
        whole = self.run(row.arguments, program=program)[1]
        if row.out not in (None, whole[0]) or row.err not in (None, whole[1]) or row.status != whole[2]:
            return f"without refusals {whole}"
        prefixes = self.prefixes(row)
        first = 1
        while True:
            try:
                refused, found = self.run(row.arguments, first, is_all, program)
            except subprocess.TimeoutExpired:
                return f"no end in {TIMEOUT} seconds without allocation {first}"
            is_cut = found[2] == row.memory_status and (found[1], found[0]) in prefixes
            if found != whole and not (refused and is_cut):
                return f"without allocation {first}{' and those after it' if is_all else ''}: {found}"
            if not refused:
                return first - 1 or "nothing was refused"
            first += 1

    def count_result(self, about, made, is_all):
        """Counts a row or a test; `made` is the number of its allocations, or what went wrong."""
        if isinstance(made, int):
            self.passed += 1
            if is_all and "REFUSED_COUNTS" in os.environ:
                print(f"{about}: {made} allocations")
        else:
            self.failed += 1
            print(f"{about}: {made}")

    def all_rows(self):
        for row in ROWS + TIMERS_ROWS:
            for is_all in (False, True):
                self.count_result(row.about, self.sweep(row, is_all), is_all)

    def sweep_test(self, tests, name, is_all):
        """Returns how many allocations a test makes, possibly none, or what went wrong."""
        first = 1
        while True:
            try:
                refused, (out, err, status) = self.run([name], first, is_all, tests)
            except subprocess.TimeoutExpired:
                return f"no end in {TIMEOUT} seconds without allocation {first}"
            is_told = status and OUT_OF_MEMORY.match(err)
            if not (is_told if refused else status == 0):
                return f"without allocation {first}{' and those after it' if is_all else ''}: status {status}, {out!r} {err!r}"
            if not refused:
                return first - 1
            first += 1

    def all_tests(self, tests):
        listed = self.run(["--list"], program=tests)[1][0].decode()
        names = ABOUT_MEMORY.findall(listed)
        if not names:
            self.count_result("tests of refused memory", "there is none", False)
        for name in names:
            for is_all in (False, True):
                self.count_result(name, self.sweep_test(tests, name, is_all), is_all)


def main():
    if len(sys.argv) < 3 or not all(os.access(path, os.X_OK) for path in sys.argv[1:]):
        print("usage: tests/refused.py PROGRAM TIMERS [TESTS..]", file=sys.stderr)
        return 2
    with tempfile.TemporaryDirectory(prefix="refused-") as scratch:
        refusals = Refusals(*map(os.path.realpath, sys.argv[1:3]), scratch)
        if not refusals.is_possible():
            print("refused memory: skipped, since no library that refuses memory can be preloaded")
            print(f"0 passed, 0 failed, {2 * len(ROWS + TIMERS_ROWS)} skipped")
            return 0
        refusals.all_rows()
        for tests in sys.argv[3:]:
            refusals.all_tests(os.path.realpath(tests))
        print(f"{refusals.runs} runs")
    print(f"{refusals.passed} passed, {refusals.failed} failed")
    return 1 if refusals.failed else 0


sys.exit(main())
