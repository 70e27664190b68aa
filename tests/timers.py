#!/usr/bin/env python3
"""Tests calendar-timers beyond its transcripts.

    tests/timers.py PROGRAM TIMERS

PROGRAM is calendar-analyze, and TIMERS is calendar-timers.

- `next` prints the elapses that `calendar-analyze calendar` prints, for 300 random expressions in three zones, and for the
  expressions with which docs/DIFFERENCES.md compares calendar-analyze with systemd-analyze.
- `next` prints the instants that `systemd-analyze calendar` prints, for 300 random expressions in two zones that `TZ`
  names.
- `list` prints the next elapse that `calendar-analyze timer` prints for the joined files, for random units with drop-ins.
- `lint` finds errors in exactly those of 100 random units in which `systemd-analyze verify` finds invalid settings or
  nothing that starts the unit, and warns of unknown keys, unknown sections, lines outside of sections and lines that
  aren't settings exactly where it does.
- `list` finds units in exactly the folders that `systemd-analyze unit-paths` prints, and of several with one name the one
  in the first folder, for the system and for users, with ten settings of SYSTEMD_UNIT_PATH, HOME and the XDG variables.
- A thousand units take less than twenty times as long as a hundred.
- A reader that goes away and a full device are reported.
- The timers of this machine are listed, if it has some.

What needs systemd-analyze is skipped if it is missing. The last line is 'N passed, M failed', with ', K skipped' if some were,
and the status is 1 if one failed."""

import calendar
import json
import os
import random
import re
import shlex
import shutil
import subprocess
import sys
import tempfile
import time

ROOT = os.path.dirname(os.path.dirname(os.path.realpath(__file__)))
ELAPSE = re.compile(r"^ *(?:Next elapse|Iter\. #\d+): (.*)$", re.M)
IN_UTC = re.compile(r"^ *\(in UTC\): (.*)$", re.M)
SHOWN = re.compile(r"^(?:  Next:|       )      (\S.*?)  (?:in .*|now)$", re.M)
NOW = 1704067200
# 2030-01-01 00:00:00 UTC.
FAR = 1893456000
ZONES = ["UTC", "+05:30", "posix:CET-1CEST,M3.5.0,M10.5.0/3"]
DAYS = ["", "Mon ", "Sat,Sun ", "Mon..Fri ", "Tue,Thu "]
DATES = ["", "*-*-* ", "*-*-1 ", "*-2-29 ", "2024-*-15 ", "*-1/3-1..7 ", "*-*~1 ", "2031-12-31 "]
TIMES = ["2:30", "0:00", "*:0/15", "9..17:00", "23:59:59", "12:00:00/20", "2:17,58", "0/6:00"]
# Lines that systemd ignores, or after which it ignores others, and what it says of them.
IGNORED = ["OnCalender=daily\n", "[Foo]\nX\n", "[X-Foo]\nx\n", "[Install]\n", "[Timer]\n", "rubbish\n", " = x\n", "X-a=b\n", "Wants\n"]
WARNED = re.compile(r"made\.timer:(\d+): (?:Unknown key '[^']*' in section \[Timer\]|Unknown section|Assignment outside of section|Missing)")
# Settings of the variables for which search paths are compared.
SYSTEM_VARIABLES = [
    {},
    {"SYSTEMD_UNIT_PATH": ""},
    {"SYSTEMD_UNIT_PATH": ":"},
    {"SYSTEMD_UNIT_PATH": ":/a"},
    {"SYSTEMD_UNIT_PATH": "/a//b/:c:/a/./b::/usr/lib/systemd/system:"},
]
USER_VARIABLES = [
    {"HOME": "/home/ann"},
    {"HOME": "/home/ann/", "XDG_RUNTIME_DIR": "/run/user/1000"},
    {"XDG_CONFIG_HOME": "/c", "XDG_CONFIG_DIRS": "/x:y::/etc/:/x", "XDG_DATA_HOME": "//d/./e/", "XDG_DATA_DIRS": "/z:/usr/share"},
    {"XDG_CONFIG_HOME": "", "XDG_CONFIG_DIRS": "", "XDG_DATA_HOME": "", "XDG_DATA_DIRS": "", "XDG_RUNTIME_DIR": ""},
    {"HOME": "/home/ann", "SYSTEMD_UNIT_PATH": "/etc/systemd/user:d:"},
]
# Each of these folders is in the search path under some of the settings only.
OTHER_FOLDERS = ["/a", "/a/b", "/etc/systemd/system", "/etc/systemd/user", "/etc/xdg/systemd/user", "/home/ann/.config/systemd/user"]
# Values of OnCalendar=, and whether systemd 252 accepts them.
VALUES = {
    "daily": True,
    "Mon..Fri 9:00": True,
    "*-*-1 00:00": True,
    "Mon *-5~07/1": True,
    "0/4:00": True,
    "2030-1-1": True,
    "25:00": False,
    "Mo 18:00": False,
    "dialy": False,
    "*/15 * * * *": False,
    "9am": False,
    "2026-13-1": False,
    "Mon-Fri 9:00": True,
    "Sat..Mon 9:00": False,
    "daily +02:00": False,
    "daily  UTC": False,
    "": True,
}


def run(command, **options):
    pipes = {"stdin": subprocess.DEVNULL, "stdout": subprocess.PIPE, "stderr": subprocess.PIPE, "text": True}
    return subprocess.run(command, **{**pipes, **options})


def write(path, text):
    os.makedirs(os.path.dirname(path), exist_ok=True)
    with open(path, "w", encoding="utf-8") as file:
        file.write(text)


class Tests:
    """The programs, a folder for trees, and the counts."""

    def __init__(self, engine, timers, scratch):
        self.engine, self.timers, self.scratch = engine, timers, scratch
        self.random = random.Random(59)
        self.passed = self.failed = self.skipped = 0

    def expect(self, what, found, wanted):
        if found == wanted:
            self.passed += 1
        else:
            self.failed += 1
            print(f"tests/timers.py: {what}: {found!r} instead of {wanted!r}")

    def skip(self, what, why):
        self.skipped += 1
        print(f"tests/timers.py: {what}: skipped: {why}")

    def expression(self):
        return (self.random.choice(DAYS) + self.random.choice(DATES) + self.random.choice(TIMES)).strip()

    def next(self):
        for zone in ZONES:
            for _ in range(100):
                text = self.expression()
                engine = run([self.engine, "calendar", "--iterations=5", f"--now=@{NOW}", f"--local={zone}", text])
                found = run([self.timers, "next", f"--now=@{NOW}", f"--zone={zone}", "-n", "5", text])
                wanted = [elapse for elapse in ELAPSE.findall(engine.stdout) if elapse != "never"]
                self.expect(f"next {text!r} in {zone}", SHOWN.findall(found.stdout), wanted)

    def differences(self):
        with open(f"{ROOT}/docs/DIFFERENCES.md", encoding="utf-8") as file:
            commands = re.findall(r"^\$ calendar-analyze calendar (.*)$", file.read(), re.M)
        words = [word for command in commands for word in shlex.split(re.split("[;|<>]", command)[0])]
        for text in dict.fromkeys(word for word in words if not word.startswith("--")):
            engine = run([self.engine, "calendar", "--iterations=3", f"--now=@{NOW}", "--", text])
            found = run([self.timers, "next", "--utc", f"--now=@{NOW}", "-n", "3", "--", text])
            wanted = [elapse for elapse in ELAPSE.findall(engine.stdout) if elapse != "never"]
            self.expect(f"next {text!r} of DIFFERENCES", (SHOWN.findall(found.stdout), found.returncode), (wanted, engine.returncode))

    def systemd(self):
        if not shutil.which("systemd-analyze"):
            return self.skip("next in zones of TZ", "systemd-analyze is missing")
        for zone in ["UTC", "Asia/Tokyo"]:
            env = {**os.environ, "TZ": zone, "LC_ALL": "C"}
            for _ in range(150):
                text = self.expression()
                said = run(["systemd-analyze", "calendar", f"--base-time=@{NOW}", "--iterations=5", text], env=env).stdout
                wanted = IN_UTC.findall(said) if zone != "UTC" else ELAPSE.findall(said)
                found = json.loads(run([self.timers, "next", "--json", f"--now=@{NOW}", "-n", "5", text], env=env).stdout)
                seconds = [calendar.timegm(time.strptime(elapse, "%a %Y-%m-%d %H:%M:%S UTC")) for elapse in wanted if elapse != "never"]
                self.expect(f"next {text!r} by TZ={zone}", [elapse["unix"] for elapse in found[0]["elapses"]], seconds)

    def units(self):
        """Compares each unit that has drop-ins with a single file, which has the same texts in the order in which
        systemd reads them."""
        for number in range(60):
            root, texts = f"{self.scratch}/units{number}", []
            for place in ["a.timer", "a.timer.d/10.conf", "a.timer.d/20.conf"]:
                lines = [f"OnCalendar={self.expression()}" for _ in range(self.random.randrange(1, 3))]
                if self.random.random() < 0.3:
                    lines.append(f"X-ExceptOnCalendar={self.expression()}")
                if self.random.random() < 0.3 and place != "a.timer":
                    lines.insert(0, "OnCalendar=")
                texts.append("[Timer]\n" + "\n".join(lines) + "\n")
                write(f"{root}/etc/systemd/system/{place}", texts[-1])
            write(f"{root}/joined.timer", "".join(texts))
            engine = run([self.engine, "timer", f"--now=@{NOW}", f"{root}/joined.timer"])
            rows = json.loads(run([self.timers, "--all", "--json", "--utc", f"--root={root}", f"--now=@{NOW}"]).stdout)
            wanted = [elapse if elapse != "never" else None for elapse in ELAPSE.findall(engine.stdout)]
            self.expect(f"the unit in {root}", [row["next"] for row in rows], wanted)

    def lint(self):
        if not shutil.which("systemd-analyze"):
            return self.skip("lint", "systemd-analyze is missing")
        folder = f"{self.scratch}/lint"
        write(f"{folder}/made.service", "[Service]\nExecStart=/bin/true\n")
        for number in range(100):
            values = self.random.sample(sorted(VALUES), self.random.choice([1, 1, 2]))
            text = "[Timer]\n" + "".join(f"OnCalendar={value}\n" for value in values) + "Unit=made.service\n"
            for line in IGNORED:
                if self.random.random() < 0.1:
                    text = line + text if self.random.random() < 0.3 else text + line
            path = f"{folder}/made.timer"
            write(path, text)
            env = {**os.environ, "SYSTEMD_UNIT_PATH": folder}
            said = run(["systemd-analyze", "verify", path], env=env).stderr
            wanted = any(words in said for words in ["Failed to parse", "lacks value"])
            ended = run([self.timers, "lint", path, "--json"])
            rows = json.loads(ended.stdout)
            found = [row["line"] for row in rows if row["message"].endswith(("[Timer]", "systemd ignores", "the line"))]
            self.expect(f"lint of {text!r}, of which systemd says {said!r}", ended.returncode, int(wanted))
            self.expect(f"warnings of {text!r}", sorted(found), sorted(int(line) for line in WARNED.findall(said)))

    def search_path(self):
        if not shutil.which("systemd-analyze"):
            return self.skip("the search path", "systemd-analyze is missing")
        settings = [([], variables) for variables in SYSTEM_VARIABLES] + [(["--user"], variables) for variables in USER_VARIABLES]
        for number, (scope, variables) in enumerate(settings):
            env = {"PATH": os.environ["PATH"], **variables}
            # As in the managers, relative paths are relative to the root folder.
            folders = run(["systemd-analyze", *scope, "unit-paths"], env=env, cwd="/").stdout.splitlines()
            root = f"{self.scratch}/path{number}"
            wanted = self.plant_in(root, folders)
            ended = run([self.timers, "list", "--all", *scope, "--json", "--utc", f"--now=@{NOW}", f"--root={root}"], env=env)
            found = {row["unit"]: row["unix"] - FAR for row in json.loads(ended.stdout or "[]")}
            self.expect(f"units by {scope} and {variables}", (found, ended.stderr), (wanted, ""))

    def plant_in(self, root, folders):
        """Writes units below a root. Each folder of the search path has a unit of its own and shares one with the next
        folder; a unit in the folder with index N elapses N seconds after FAR. Each of OTHER_FOLDERS that isn't in the search
        path has `other.timer`, which must not be found. Returns the expected units, each with its seconds."""
        os.makedirs(root)
        wanted = {}
        for place, folder in enumerate(folders):
            names = [f"in{place}.timer", f"from{place}.timer", f"from{place - 1}.timer"]
            for name in names[: 3 if place else 2]:
                write(f"{root}{folder}/{name}", f"[Timer]\nOnCalendar=2030-01-01 00:00:{place}\n")
                wanted.setdefault(name, place)
        for folder in OTHER_FOLDERS:
            if folder not in folders:
                write(f"{root}{folder}/other.timer", "[Timer]\nOnCalendar=2030-01-01 00:00:59\n")
        return wanted

    def speed(self):
        took = {}
        for count in [100, 1000]:
            root = f"{self.scratch}/many{count}"
            for number in range(count):
                write(f"{root}/etc/systemd/system/unit{number}.timer", f"[Timer]\nOnCalendar={self.expression()}\n")
            times = []
            for _ in range(5):
                start = time.monotonic()
                ended = run([self.timers, "--all", f"--root={root}", "--utc", f"--now=@{NOW}"])
                times.append(time.monotonic() - start)
            # The least time is the one that other work disturbed least.
            took[count] = min(times)
            self.expect(f"the lines of {count} units", (ended.returncode, len(ended.stdout.splitlines())), (0, count + 1))
        if took[1000] < 20 * took[100]:
            self.passed += 1
        else:
            self.failed += 1
            print(f"tests/timers.py: 1,000 units took {took[1000]:.3f} s, and 100 {took[100]:.3f} s")

    def outputs(self):
        command = f"{self.timers} next -n 100000 --utc --now=@{NOW} '*:*:*' 2> {self.scratch}/said | head -n 1"
        ended = run(["sh", "-c", command])
        with open(f"{self.scratch}/said") as file:
            self.expect("a reader that goes away", (ended.stdout, file.read()), ("*:*:*\n", "calendar-timers: output failed\n"))
        with open("/dev/full", "w") as full:
            ended = run([self.timers, "next", "--utc", "daily"], stdout=full)
        self.expect("a full device", (ended.returncode, ended.stderr), (1, "calendar-timers: output failed\n"))

    def machine(self):
        ended = run([self.timers, "--utc"])
        found = run([self.timers, "--utc", "--json"])
        self.expect("the timers of this machine", ended.returncode, found.returncode)
        rows = json.loads(found.stdout)
        lines = ended.stdout.splitlines()
        self.expect("their lines", len(lines), len(rows) + 1 if rows else 1)


def main():
    if len(sys.argv) != 3 or not all(os.access(path, os.X_OK) for path in sys.argv[1:]):
        print("usage: tests/timers.py PROGRAM TIMERS", file=sys.stderr)
        return 2
    with tempfile.TemporaryDirectory() as scratch:
        tests = Tests(*map(os.path.realpath, sys.argv[1:]), scratch)
        compared = [tests.next, tests.differences, tests.systemd, tests.units, tests.lint, tests.search_path]
        for part in [*compared, tests.speed, tests.outputs, tests.machine]:
            part()
    skipped = f", {tests.skipped} skipped" if tests.skipped else ""
    print(f"{tests.passed} passed, {tests.failed} failed{skipped}")
    return 1 if tests.failed else 0


sys.exit(main())
