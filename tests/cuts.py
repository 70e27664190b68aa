#!/usr/bin/env python3
"""Cuts the output of the program after each of its bytes, and asks for the rest.

    tests/cuts.py PROGRAM

In each run, standard output is a file that can't grow beyond a number of bytes. The file has to be a prefix of the
whole output. If bytes are missing, the status has to be 1, and standard error has to say that the output failed. A
second run, whose base is the last elapse with a complete line, then has to print exactly the missing elapses. The last
line is 'N passed, M failed', one for each number of bytes, and the status is 1 if one failed."""

import os
import re
import resource
import signal
import subprocess
import sys
import tempfile

TIMER_FILE = "[Timer]\nOnCalendar=12:00\nX-ExceptOnCalendar=Sat,Sun 12:00\n"
FAILED = b"calendar-analyze: output failed\n"
ELAPSE = re.compile(rb"^ *(?:Next elapse|Iter\. #\d+): (.*)\n", re.M)


class Report:
    """A verb with its texts, how many elapses to print, and the whole output."""

    def __init__(self, verb, options, texts, whole):
        self.verb, self.options, self.texts, self.whole = verb, options, texts, whole
        self.elapses = ELAPSE.findall(whole)

    def arguments(self, count, base=None):
        after = [f"--base-time={base.decode()}"] if base else []
        return [self.verb, f"--iterations={count}", *self.options, *after, "--", *self.texts]


REPORTS = [
    Report(
        "calendar",
        ["--local=+05:30", "--now=@1704067200"],
        ["*:*:*"],
        b"""\
  Original form: *:*:*
Normalized form: *-*-* *:*:*
    Next elapse: Mon 2024-01-01 05:30:01 +05:30
       (in UTC): Mon 2024-01-01 00:00:01 UTC
       From now: 1s left
       Iter. #2: Mon 2024-01-01 05:30:02 +05:30
       (in UTC): Mon 2024-01-01 00:00:02 UTC
       From now: 2s left
       Iter. #3: Mon 2024-01-01 05:30:03 +05:30
       (in UTC): Mon 2024-01-01 00:00:03 UTC
       From now: 3s left
""",
    ),
    Report(
        "timer",
        ["--now=@1704412800"],
        ["t"],
        b"""\
  Original form: 12:00
Normalized form: *-*-* 12:00:00
    Except form: Sat,Sun 12:00
Normalized form: Sat,Sun *-*-* 12:00:00
    Next elapse: Fri 2024-01-05 12:00:00 UTC
       From now: 12h left
       Iter. #2: Mon 2024-01-08 12:00:00 UTC
       From now: 3d 12h left
""",
    ),
]


class Cuts:
    """The program, the folder with the timer file, and the counts."""

    def __init__(self, program, folder):
        self.program, self.folder, self.passed, self.failed = program, folder, 0, 0

    def run_with_limit(self, report, size):
        """Returns the output, standard error and status of a run whose output can't grow beyond `size` bytes."""

        def limit():
            signal.signal(signal.SIGXFSZ, signal.SIG_IGN)
            resource.setrlimit(resource.RLIMIT_FSIZE, (size, size))

        command = [self.program, *report.arguments(len(report.elapses))]
        with tempfile.TemporaryFile() as output:
            ended = subprocess.run(command, cwd=self.folder, stdout=output, stderr=subprocess.PIPE, preexec_fn=limit)
            output.seek(0)
            return output.read(), ended.stderr, ended.returncode

    def rest(self, report, printed):
        """Returns the elapses of the run that continues after the elapses that have been printed."""
        missing = len(report.elapses) - len(printed)
        if not missing:
            return []
        command = [self.program, *report.arguments(missing, printed[-1] if printed else None)]
        return ELAPSE.findall(subprocess.run(command, cwd=self.folder, stdout=subprocess.PIPE).stdout)

    def cut(self, report, size):
        found = self.run_with_limit(report, size)
        wanted = (report.whole[:size], FAILED, 1) if size < len(report.whole) else (report.whole, b"", 0)
        printed = ELAPSE.findall(found[0])
        rest = self.rest(report, printed)
        if found == wanted and printed + rest == report.elapses:
            self.passed += 1
        else:
            self.failed += 1
            print(f"tests/cuts.py: {report.verb} after {size} bytes: {found}, and then {rest}")


def main():
    if len(sys.argv) != 2 or not os.access(sys.argv[1], os.X_OK):
        print("usage: tests/cuts.py PROGRAM", file=sys.stderr)
        return 2
    with tempfile.TemporaryDirectory() as folder:
        with open(f"{folder}/t", "w") as file:
            file.write(TIMER_FILE)
        cuts = Cuts(os.path.realpath(sys.argv[1]), folder)
        for report in REPORTS:
            for size in range(len(report.whole) + 1):
                cuts.cut(report, size)
    print(f"{cuts.passed} passed, {cuts.failed} failed")
    return 1 if cuts.failed else 0


sys.exit(main())
