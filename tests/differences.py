#!/usr/bin/env python3
"""Runs every command of docs/DIFFERENCES.md, and says which of them still print what it shows.

    tests/differences.py PROGRAM

The commands run PROGRAM as `calendar-analyze`. A command is skipped if it names systemd-analyze or a zone file and this
machine doesn't have it. A command of systemd-analyze that prints something else is skipped too if its version isn't the
page's. Both are reported. The last line is 'N passed, M failed', with ', K skipped' if some were, and the status is 1
if one failed."""

import os
import re
import shutil
import subprocess
import sys
import tempfile

PAGE = os.path.join(os.path.dirname(os.path.realpath(__file__)), "../docs/DIFFERENCES.md")
FILE = re.compile(r"=(/[\w/]+)")
ZONE = re.compile(r"TZ=(\w+/\w+)")
VERSION = re.compile(r"systemd \d+ \([^)]*\)")


def commands(page):
    """Yields each command of the page, with what the page says that it prints."""
    for block in re.findall(r"^```console\n(.*?)^```", page, re.M | re.S):
        for command in re.split(r"^\$ ", block, flags=re.M)[1:]:
            line, _, printed = command.partition("\n")
            yield line, printed


def installed():
    """Returns the version of the installed systemd-analyze, or None."""
    if shutil.which("systemd-analyze") is None:
        return None
    run = subprocess.run(["systemd-analyze", "--version"], stdout=subprocess.PIPE, stderr=subprocess.DEVNULL, text=True)
    return (run.stdout.splitlines() or [""])[0]


def missing(line, version):
    """Returns what the command names and this machine doesn't have, or None."""
    if "systemd-analyze" in line and version is None:
        return "systemd-analyze"
    paths = FILE.findall(line) + [f"/usr/share/zoneinfo/{zone}" for zone in ZONE.findall(line)]
    return next((path for path in paths if not os.path.exists(path)), None)


class Page:
    """The folder where the commands run, and the counts."""

    def __init__(self, scratch, program):
        os.symlink(os.path.realpath(program), f"{scratch}/calendar-analyze")
        kept = {name: os.environ[name] for name in ("HOME", "TMPDIR") if name in os.environ}
        self.scratch = scratch
        self.environment = {**kept, "PATH": f"{scratch}:{os.environ['PATH']}", "LC_ALL": "C.UTF-8"}
        self.passed = self.failed = 0
        self.skipped = {}

    def skip(self, why):
        self.skipped[why] = self.skipped.get(why, 0) + 1

    def check(self, line, printed, is_other):
        """Runs a command. If `is_other`, it runs a version of systemd-analyze other than the page's. If that
        prints something else, the command is skipped."""
        run = subprocess.run(
            ["sh", "-c", line],
            cwd=self.scratch,
            env=self.environment,
            stdout=subprocess.PIPE,
            stderr=subprocess.STDOUT,
            text=True,
            errors="replace",
        )
        if run.stdout == printed:
            self.passed += 1
        elif is_other:
            print(f"tests/differences.py: no longer so: $ {line}\n{run.stdout}", end="")
            self.skip("since this systemd-analyze prints something else")
        else:
            self.failed += 1
            print(f"tests/differences.py: $ {line}\n{run.stdout}instead of\n{printed}")

    def tell(self):
        """Prints what was skipped and why, and the counts."""
        for why, count in self.skipped.items():
            print(f"tests/differences.py: {count} commands skipped, {why}")
        skipped = sum(self.skipped.values())
        print(f"{self.passed} passed, {self.failed} failed" + (f", {skipped} skipped" if skipped else ""))
        return 1 if self.failed else 0


def main():
    if len(sys.argv) != 2 or not os.access(sys.argv[1], os.X_OK):
        print("usage: tests/differences.py PROGRAM", file=sys.stderr)
        return 2
    with open(PAGE, encoding="utf-8") as file:
        text = file.read()
    version, wanted = installed(), VERSION.search(text)[0]
    if version not in (None, wanted):
        print(f"tests/differences.py: {version} is here, and {wanted} on the page")
    with tempfile.TemporaryDirectory(prefix="differences-") as scratch:
        page = Page(scratch, sys.argv[1])
        for line, printed in commands(text):
            lacks = missing(line, version)
            if lacks:
                page.skip(f"since there is no {lacks}")
            else:
                page.check(line, printed, "systemd-analyze" in line and version != wanted)
    return page.tell()


sys.exit(main())
