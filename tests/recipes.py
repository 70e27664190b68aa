#!/usr/bin/env python3
"""Runs the commands that the pages for users show, and compares what they print with the pages.

    tests/recipes.py PROGRAM TIMERS

PROGRAM is calendar-analyze, and TIMERS is calendar-timers. Each block `sh` of docs/RECIPES.md is pasted into bash; its
scripts are run by `sh`. It has to end with status 0 and to print the block `text` right after it, or nothing if there
is none. The blocks of a section share a folder, which at first has the scripts of earlier sections. Berlin's zone file
stands for /etc/localtime. In each block `console` of the other pages except docs/DIFFERENCES.md, every command has to
print what follows it; a command `cat FILE` makes that file.

In the first block of README, and in the recipes with "your" in their title, calendar-timers is given `--root` and `--now`,
which the pages don't show: the root has the units of the host web1 in HOSTS, and the time is NOON. `ssh HOST COMMAND` runs the
command for that host.

Besides, shellcheck has to accept all blocks and scripts; the script `rest` has to complete an output that was cut after any
byte; `calendar-timers lint` has to accept the timers of this machine's packages; and what `calendar-timers cron` prints for
each line in CRONTAB has to elapse when cron runs the line. What needs a missing tool is skipped. The last line is 'N passed, M failed', with ', K skipped'
if some were, and the status is 1 if one failed."""

import datetime
import glob
import os
import re
import shutil
import subprocess
import sys
import tempfile
from itertools import zip_longest

ROOT = os.path.dirname(os.path.dirname(os.path.realpath(__file__)))
BLOCK = re.compile(r"^```sh\n(.*?)^```\n(?:\n```text\n(.*?)^```\n)?", re.M | re.S)
SCRIPT = re.compile(r"^cat > (\w+) << 'EOF'\n#!/bin/sh$", re.M)
ELAPSE = re.compile(r"^ *(?:Next elapse|Iter\. #\d+): (.*)\n", re.M)
BERLIN = "/usr/share/zoneinfo/Europe/Berlin"
PACKAGED = glob.glob("/lib/systemd/system/*.timer")
# Timers of each host: on web1 those that Debian machines have, and one of its administrator with a mistake. Each has a
# service, and is started by timers.target. The zone is that of Berlin.
HOSTS = {
    "web1": {
        "etc/systemd/system/backup": "[Unit]\nDescription=Backup\n\n[Timer]\nOnCalendar=08:00..18:00\n",
        "usr/lib/systemd/system/fstrim": "[Timer]\nOnCalendar=weekly\nAccuracySec=1h\nPersistent=true\n",
        "usr/lib/systemd/system/logrotate": "[Timer]\nOnCalendar=daily\nAccuracySec=1h\nPersistent=true\n",
        "usr/lib/systemd/system/man-db": "[Timer]\nOnCalendar=daily\nRandomizedDelaySec=12h\nPersistent=true\n",
    },
    "sql1": {"etc/systemd/system/dump": "[Timer]\nOnCalendar=04:15\n"},
}
# 2026-12-24 12:00:00 in Berlin.
NOON = "@1798110000"
# The values of the five fields of a crontab line: minute, hour, day, month, and weekday from Sunday on.
FIELDS = [range(60), range(24), range(1, 32), range(1, 13), range(7)]
CRONTAB = [
    "*/15 * * * *",
    "*/7 * * * *",
    "@hourly",
    "0,30 9-17 * * 1-5",
    "30 2 * * *",
    "0 */5 * * *",
    "@daily",
    "@weekly",
    "0 12 */2 * *",
    "0 6 13 * 5",
    "0 6 */13 * 5",
    "5 4 1-7,15 2-12/5 *",
    "@monthly",
    "@yearly",
]
NICKNAMES = {
    "@hourly": "0 * * * *",
    "@daily": "0 0 * * *",
    "@weekly": "0 0 * * 0",
    "@monthly": "0 0 1 * *",
    "@yearly": "0 0 1 1 *",
}


def read(path):
    with open(f"{ROOT}/{path}", encoding="utf-8") as file:
        return file.read().replace("/etc/localtime", BERLIN)


def write(path, text):
    os.makedirs(os.path.dirname(path), exist_ok=True)
    with open(path, "w", encoding="utf-8") as file:
        file.write(text)


def sections():
    """Yields the title of each section with its blocks: the commands, and what they have to print."""
    for section in re.split(r"^## ", read("docs/RECIPES.md"), flags=re.M)[1:]:
        blocks = BLOCK.findall(section)
        fences = len(re.findall(r"^```(?:sh|text)$", section, re.M))
        assert fences == len(blocks) + sum(bool(printed) for _, printed in blocks), "a block that no command prints"
        yield section.partition("\n")[0], blocks


class Recipes:
    """The folder where the commands run, and the counts."""

    def __init__(self, scratch, program, timers):
        self.scratch, self.scripts = scratch, f"{scratch}/scripts"
        os.makedirs(f"{scratch}/bin")
        os.makedirs(self.scripts)
        os.symlink(os.path.realpath(program), f"{scratch}/bin/calendar-analyze")
        os.symlink(os.path.realpath(timers), f"{scratch}/bin/calendar-timers")
        write(f"{scratch}/.gitconfig", "[user]\nname = Test\nemail = test@example.com\n")
        self.passed = self.failed = self.skipped = 0

    def run(self, command, folder, programs="bin"):
        """Returns what a command prints, and its status if that isn't 0. Programs in the folder `programs` come first."""
        path = f"{self.scratch}/{programs}:{self.scratch}/bin:{os.environ['PATH']}"
        env = {"PATH": path, "LC_ALL": "C.UTF-8", "HOME": self.scratch}
        pipes = {"stdin": subprocess.DEVNULL, "stdout": subprocess.PIPE, "stderr": subprocess.STDOUT}
        ended = subprocess.run(command, cwd=folder, env=env, text=True, **pipes)
        return ended.stdout + (f"status {ended.returncode}\n" if ended.returncode else "")

    def expect(self, what, found, wanted):
        if found == wanted:
            self.passed += 1
        else:
            self.failed += 1
            print(f"tests/recipes.py: {what}:\n{found}instead of\n{wanted}")

    def skip(self, what, why):
        self.skipped += 1
        print(f"tests/recipes.py: {what}: skipped: {why}")

    def paste(self):
        """Runs all blocks `sh`, and keeps the scripts that they make."""
        for number, (title, blocks) in enumerate(sections()):
            folder = f"{self.scratch}/{number}"
            shutil.copytree(self.scripts, folder)
            for code, printed in blocks:
                lacking = [tool for tool in ("jq", "git") if re.search(rf"\b{tool} ", code) and not shutil.which(tool)]
                if lacking:
                    self.skip(title, f"{lacking[0]} is missing")
                    continue
                write(f"{folder}/block", code)
                self.expect(title, self.run(["bash", "block"], folder, "web1" if "your" in title.lower() else "bin"), printed)
                for script in SCRIPT.findall(code):
                    shutil.copy(f"{folder}/{script}", self.scripts)

    def hosts(self):
        """Makes a folder of programs for each host: a calendar-timers that reads the host's units at NOON, and ssh."""
        for host, units in HOSTS.items():
            root, programs = f"{self.scratch}/{host}-root", f"{self.scratch}/{host}"
            wants = f"{root}/etc/systemd/system/timers.target.wants"
            os.makedirs(wants)
            for unit, text in units.items():
                write(f"{root}/{unit}.timer", f"{text}\n[Install]\nWantedBy=timers.target\n")
                write(f"{root}/{unit}.service", f"[Service]\nType=oneshot\nExecStart=/usr/sbin/{os.path.basename(unit)}\n")
                os.symlink(f"/{unit}.timer", f"{wants}/{os.path.basename(unit)}.timer")
            shutil.copy(BERLIN, f"{root}/etc/localtime")
            timers = f'exec "{self.scratch}/bin/calendar-timers" --root="{root}" --now={NOON} "$@"'
            ssh = f'PATH="{self.scratch}/$1:$PATH"\nshift\nexec "$@"'
            for name, script in {"calendar-timers": timers, "ssh": ssh}.items():
                write(f"{programs}/{name}", f"#!/bin/sh\n{script}\n")
                os.chmod(f"{programs}/{name}", 0o755)

    def consoles(self):
        """Runs the blocks `console`. `./build ARGUMENTS` passes its arguments to the program."""
        pages = glob.glob("*.md", root_dir=ROOT) + glob.glob("docs/*.md", root_dir=ROOT) + glob.glob("crates/*/*.md", root_dir=ROOT)
        for page in sorted(set(pages) - {"docs/DIFFERENCES.md"}):
            for number, block in enumerate(re.findall(r"^```console\n(.*?)^```", read(page), re.M | re.S)):
                self.console(page, block, "web1" if (page, number) == ("README.md", 0) else "bin")

    def console(self, page, block, programs):
        for part in re.split(r"^\$ ", block, flags=re.M)[1:]:
            command, printed = re.fullmatch(r"((?:[^\n]*\\\n)*[^\n]*\n)(.*)", part, re.S).groups()
            if command.startswith("cat "):
                write(f"{self.scratch}/{command[4:-1]}", printed)
            else:
                shell_line = re.sub(r"^\./(build|calendar-analyze) ", "calendar-analyze ", command)
                self.expect(f"{page}: {command[:-1]}", self.run(["sh", "-c", shell_line], self.scratch, programs), printed)

    def lint(self):
        """Runs shellcheck on each block and each script."""
        if not shutil.which("shellcheck"):
            return self.skip("blocks and scripts", "shellcheck is missing")
        for title, blocks in sections():
            for code, _ in blocks:
                write(f"{self.scratch}/block", code)
                self.expect(f"{title}: shellcheck", self.run(["shellcheck", "-s", "sh", "block"], self.scratch), "")
        for script in sorted(os.listdir(self.scripts)):
            self.expect(f"{script}: shellcheck", self.run(["shellcheck", script], self.scripts), "")

    def rest(self):
        """Cuts an output after each byte. The elapses in what is left, and then those that the script `rest` prints,
        have to be the elapses of the whole output."""
        arguments = ["calendar", "--now=@1704067200", "--local=+05:30", "Mon 09:00"]
        whole = self.run(["calendar-analyze", *arguments, "--iterations=2"], self.scripts)
        wrong = ""
        for size in range(len(whole) + 1):
            write(f"{self.scripts}/cut", whole[:size])
            found = ELAPSE.findall(whole[:size]) + ELAPSE.findall(self.run(["sh", "rest", "cut", "2", "now", *arguments], self.scripts))
            wrong += "" if found == ELAPSE.findall(whole) else f"after {size} bytes: {found}\n"
        self.expect("the script rest", wrong, "")

    def packaged(self):
        if not PACKAGED:
            return self.skip("the timers of packages", "there is no timer in /lib/systemd/system")
        self.expect("the timers of packages", self.run(["calendar-timers", "lint", *PACKAGED], self.scripts), "")

    def crontab(self):
        """Compares the elapses in 2024 of what `cron` prints for each line with the minutes at which cron runs the line."""
        for line in CRONTAB:
            settings = self.run(["calendar-timers", "cron", line], self.scratch)
            write(f"{self.scratch}/timer", f"[Timer]\n{settings}")
            wanted = cron_minutes(NICKNAMES.get(line, line))
            arguments = ["timer", f"--iterations={len(wanted) + 1}", "--now=@1704067199", "timer"]
            report = self.run(["calendar-analyze", *arguments], self.scratch)
            found = [elapse for elapse in ELAPSE.findall(report) if elapse[4:8] == "2024"]
            different = next((pair for pair in zip_longest(found, wanted) if pair[0] != pair[1]), ("", ""))
            self.expect(f"crontab: {line}", f"{different[0]}\n", f"{different[1]}\n")


def field_values(field, whole):
    """Returns the values of one field of a crontab line: stars, numbers and ranges, with or without a step."""
    found = set()
    for part in field.split(","):
        numbers, _, step = part.partition("/")
        first, _, last = numbers.partition("-")
        first, last = (whole[0], whole[-1]) if numbers == "*" else (int(first), int(last or first))
        found |= set(range(first, last + 1, int(step or 1)))
    return sorted(found)


def cron_minutes(line):
    """Returns the minutes of 2024 at which cron runs a line. If neither day nor weekday is a star, either is enough."""
    fields = line.split()
    minutes, hours, days, months, weekdays = (field_values(*pair) for pair in zip(fields, FIELDS))
    combine = all if "*" in (fields[2][0], fields[4][0]) else any
    found = []
    for number in range(366):
        date = datetime.date(2024, 1, 1) + datetime.timedelta(number)
        if date.month in months and combine([date.day in days, date.isoweekday() % 7 in weekdays]):
            found += [f"{date:%a %Y-%m-%d} {hour:02}:{minute:02}:00 UTC" for hour in hours for minute in minutes]
    return found


def main():
    if len(sys.argv) != 3 or not all(os.access(path, os.X_OK) for path in sys.argv[1:]):
        print("usage: tests/recipes.py PROGRAM TIMERS", file=sys.stderr)
        return 2
    with tempfile.TemporaryDirectory(prefix="recipes-") as scratch:
        recipes = Recipes(scratch, *sys.argv[1:])
        if os.path.exists(BERLIN):
            for step in (recipes.hosts, recipes.paste, recipes.consoles, recipes.lint, recipes.rest, recipes.packaged, recipes.crontab):
                step()
        else:
            recipes.skip("all recipes", f"there is no {BERLIN}")
    counts = f"{recipes.passed} passed, {recipes.failed} failed"
    print(counts + (f", {recipes.skipped} skipped" if recipes.skipped else ""))
    return 1 if recipes.failed else 0


sys.exit(main())
