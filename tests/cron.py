#!/usr/bin/env python3
"""Compares how `calendar-timers cron` reads crontab lines with how two other programs read them: Python's croniter, and the
generator of systemd-cron.

    tests/cron.py PROGRAM TIMERS [GENERATOR]

PROGRAM is calendar-analyze, and TIMERS is calendar-timers. GENERATOR is systemd-crontab-generator, if it isn't where Debian
installs it. It is used as a module, so it reads and writes only files in a temporary folder.

There are 2,000 random lines that crontab(5) allows. The expressions that TIMERS prints for a line have to elapse at the
times at which croniter runs it, and when the expression of the generator elapses: at all times in 2024, or at the first 400
if there are more. If a program is known to read a line differently from cron, it gets other lines that mean the same to cron
(`for_croniter` and `for_generator`). `CRONITER_ROWS` and `GENERATOR_ROWS` have examples of these differences, which
docs/DIFFERENCES.md lists, with what each program has to read.

The last line is 'N passed, M failed', which counts each line once for each program, and the status is 1 if one failed. If a
program is missing, the script says so, and ', K skipped' follows. The Debian packages are python3-croniter and systemd-cron;
the versions are 1.3.5 and 1.15.19, the last in Python."""

import datetime
import importlib.machinery
import importlib.util
import itertools
import json
import os
import random
import re
import subprocess
import sys
import tempfile
from concurrent.futures import ProcessPoolExecutor, ThreadPoolExecutor

sys.dont_write_bytecode = True

COUNT, SEED = 2000, 5
# How many times of a line are compared, and how many lines or expressions a program gets at once.
TIMES, GIVEN = 400, 50
YEAR = 2024
MONTHS = [*(datetime.datetime(YEAR, month, 1) for month in range(1, 13)), datetime.datetime(YEAR + 1, 1, 1)]
SECOND = datetime.timedelta(seconds=1)
# The second before the year begins, in Unix time.
BASE = 1_704_067_199
# The version of croniter, and the Python for which Debian's packages are installed.
CRONITER, DEBIAN_PYTHON = "1.3.5", "/usr/bin/python3"
GENERATOR = "/lib/systemd/system-generators/systemd-crontab-generator"
ELAPSE = re.compile(r"^ *(?:Next elapse|Iter\. #\d+): \w+ (\S+ \S+) UTC$")

LIMITS = [(0, 59), (0, 23), (1, 31), (1, 12), (0, 7)]
DAY, MONTH, WEEKDAY = 2, 3, 4
NAMES = {
    MONTH: ["jan", "feb", "mar", "apr", "may", "jun", "jul", "aug", "sep", "oct", "nov", "dec"],
    WEEKDAY: ["sun", "mon", "tue", "wed", "thu", "fri", "sat"],
}
WORDS = {
    "@yearly": "0 0 1 1 *",
    "@annually": "0 0 1 1 *",
    "@monthly": "0 0 1 * *",
    "@weekly": "0 0 * * 0",
    "@daily": "0 0 * * *",
    "@midnight": "0 0 * * *",
    "@hourly": "0 * * * *",
}

# Lines that the other program reads differently: the expressions for what it reads, and those that TIMERS has to print.
# None stands for a line that is rejected.
CRONITER_ROWS = [
    ("0 0 */2 * 1", ["*-*-1/2", "Mon"], ["Mon *-*-1/2"]),
    ("0 0 1 * */2", ["*-*-1", "Tue,Thu,Sat,Sun"], ["Tue,Thu,Sat,Sun *-*-1"]),
    ("0 0 1-31 * 1", ["Mon"], ["*-*-1..31", "Mon"]),
    ("0 0 13 * 0-6", ["*-*-13"], ["*-*-13", "Mon..Sun"]),
    ("0 0 1,* * 1", ["Mon"], ["daily", "Mon"]),
    ("0 0 1,31 * *", ["*-1,2,4..12-1", "*-*-31"], ["*-*-1,31"]),
    ("0 0 31 11 3", [], ["*-11-31", "Wed *-11-*"]),
    ("5/10 * * * *", ["*:5/10"], None),
    ("0 0 * * fri-sun", ["Fri..Sun"], None),
    ("0 0 l * *", ["*-*~1"], None),
    ("0 0 * * 1#2", ["Mon *-*-8..14"], None),
    ("0 0 * * * 30", ["0:0:30"], ["daily"]),
    ("@Daily", ["daily"], None),
]
GENERATOR_ROWS = [
    ("0 0 1,15 * 1", ["Mon *-*-1,15"], ["*-*-1,15", "Mon"]),
    ("0 0 1 oct *", None, ["*-10-1"]),
    ("0 0 1 nov *", ["*-10-1"], ["*-11-1"]),
    ("0 0 1 dec *", ["*-11-1"], ["*-12-1"]),
    ("0 0 1 january *", ["*-1-1"], None),
    ("0 0 * * 5-7", ["daily"], ["Fri..Sun"]),
    ("0 0 * * 0-7", ["Sun"], ["daily"]),
    ("0 0 * * 8", ["Mon"], None),
    ("50-70 * * * *", ["*:50..59"], None),
    ("5/10 * * * *", ["*:5"], None),
    ("@weekly", ["Mon"], ["Sun"]),
    ("@quarterly", ["quarterly"], None),
    ("@7", ["*-*-1/7"], None),
    ("@Daily", ["daily"], None),
]


# ## Random lines


def random_value(source, field, least, greatest):
    """Returns a random number in a range with its text, which is a name or has leading zeros for some numbers."""
    number = source.randint(least, greatest)
    names = NAMES.get(field, [])
    place = number - LIMITS[field][0]
    if place < len(names) and source.random() < 0.3:
        return number, source.choice([str.lower, str.upper, str.title])(names[place])
    return number, f"{number:0{source.choice([1, 1, 1, 2, 3])}}"


def random_item(source, field):
    """Returns a random item of a field."""
    least, greatest = LIMITS[field]
    first, start = random_value(source, field, least, greatest)
    _, end = random_value(source, field, first, greatest)
    step = source.randint(1, greatest + 3)
    return source.choice(["*", f"*/{step}", start, start, f"{start}-{end}", f"{start}-{end}", f"{start}-{end}/{step}"])


def random_field(source, field):
    """Returns a random field of one to four items. Most fields have one item."""
    return ",".join(random_item(source, field) for _ in range(source.choice([1, 1, 1, 1, 2, 3, 4])))


def random_line(source):
    """Returns a random line. In half of them, minute and hour are numbers: then all times of the year are compared."""
    if source.random() < 0.02:
        return source.choice(list(WORDS))
    fields = [random_field(source, field) for field in range(5)]
    if source.random() < 0.5:
        fields[:DAY] = [str(source.randint(*LIMITS[field])) for field in range(DAY)]
    for field in (DAY, MONTH, WEEKDAY):
        if source.random() < 0.3:
            fields[field] = "*"
    return " ".join(fields)


# ## What the programs read: a list of times, or None if a line is rejected


def expressions(timers, lines):
    """Returns the expressions that TIMERS prints for each line, or None if it rejects the line."""
    found = [None] * len(lines)
    for first in range(0, len(lines), GIVEN):
        # The command of an entry tells which line it is.
        given = [f"{line} :{first + place}" for place, line in enumerate(lines[first : first + GIVEN])]
        run = subprocess.run([timers, "cron", "--json", "--", *given], stdout=subprocess.PIPE, stderr=subprocess.DEVNULL, text=True)
        for entry in json.loads(run.stdout):
            found[int(entry["command"].rpartition(":")[2])] = [setting.removeprefix("OnCalendar=") for setting in entry["settings"]]
    return found


def elapses(program, texts):
    """Returns the first times of the year at which each expression elapses, without expressions that PROGRAM rejects."""
    command = [program, "calendar", f"--iterations={TIMES}", f"--base-time=@{BASE}", f"--now=@{BASE}", "--", *texts]
    run = subprocess.run(command, stdout=subprocess.PIPE, stderr=subprocess.DEVNULL, text=True)
    found, times = {}, None
    for line in run.stdout.splitlines():
        label, _, text = line.partition(": ")
        elapse = ELAPSE.match(line)
        if label.strip() == "Original form":
            times = found.setdefault(text, [])
        elif elapse and elapse[1].startswith(f"{YEAR}-") and len(times) < TIMES:
            times.append(elapse[1])
    return found


def merged(lists):
    """Returns the first times that are in at least one of the lists, or None if one of them is None."""
    return None if None in lists else sorted(set(itertools.chain(*lists)))[:TIMES]


def fields_of(line):
    return WORDS.get(line, line).split()


def is_joined_by_and(fields):
    """Returns whether cron runs a line only on days that match both day fields, since one of them begins with `*`."""
    return "*" in (fields[DAY][0], fields[WEEKDAY][0])


def with_one_day_field(fields):
    """Returns two lines: together they run on the days that match at least one of the two day fields."""
    return [
        " ".join([*fields[:WEEKDAY], "*"]),
        " ".join([*fields[:DAY], "*", *fields[MONTH:]]),
    ]


def croniter_times(line, start, end, day_or=True):
    """Returns the first times from `start` to `end` at which croniter runs a line, or None if it rejects the line."""
    from croniter import CroniterBadCronError, CroniterBadDateError, croniter

    found = []
    try:
        iterator = croniter(line, start - SECOND, datetime.datetime, day_or)
        while len(found) < TIMES and (time := iterator.get_next()) < end:
            found.append(str(time))
    except CroniterBadCronError:
        return None
    except CroniterBadDateError:
        pass
    return found


def by_croniter(line):
    return croniter_times(line, MONTHS[0], MONTHS[12])


def by_month(line, day_or=True):
    """Returns the times at which croniter runs a line, if it begins anew in each month. Otherwise, it misses the first days
    of March if the line has a day that February lacks."""
    found = []
    for start, end in itertools.pairwise(MONTHS):
        if len(found) < TIMES:
            found += croniter_times(line, start, end, day_or)
    return found[:TIMES]


def for_croniter(line):
    """Returns the times of a line by croniter. Croniter takes a day field for `*` if it has an item `*` or all days, and
    then joins by "and"; it joins other day fields by "or", also `*/2`. If cron joins in the other way, croniter gets
    `day_or=False`, or two lines. It also gets two lines if it finds no times, as when only one of the fields ever matches."""
    from croniter import croniter

    fields = fields_of(line)
    expanded = croniter.expand(" ".join(fields))[0]
    does_and, has_to = "*" in (expanded[DAY][0], expanded[WEEKDAY][0]), is_joined_by_and(fields)
    times = by_month(line, day_or=not has_to) if has_to or not does_and else []
    return times if times or has_to else merged([by_month(one) for one in with_one_day_field(fields)])


def without_errors(field, text):
    """Returns an item of a field as the generator reads it correctly: months as numbers, since it has no October, and
    takes November and December for the month before; and single weekdays in place of a range that ends in 7."""
    if field == MONTH:
        return re.sub(r"[a-z]+", lambda name: str(NAMES[MONTH].index(name[0]) + 1), text.lower())
    found = re.fullmatch(r"(\w+)-0*7(?:/(\d+))?", text)
    if field == WEEKDAY and found:
        first = NAMES[WEEKDAY].index(found[1].lower()) if found[1].isalpha() else int(found[1])
        return ",".join(map(str, range(first, 8, int(found[2] or 1))))
    return text


def for_generator(line):
    """Returns lines that the generator reads as cron does, and which together run when cron runs the line. It joins the
    two day fields by "and", and takes `@weekly` for Monday."""
    if line in WORDS and line != "@weekly":
        return [line]
    fields = [
        ",".join(without_errors(field, item) for item in text.split(",")) for field, text in enumerate(fields_of(line))
    ]
    return [" ".join(fields)] if is_joined_by_and(fields) else with_one_day_field(fields)


def load_generator(path):
    """Returns the generator as a module, or None if it isn't written in Python."""
    with open(path, "rb") as file:
        if b"python" not in file.readline():
            return None
    loader = importlib.machinery.SourceFileLoader("generator", path)
    module = importlib.util.module_from_spec(importlib.util.spec_from_loader("generator", loader))
    loader.exec_module(module)
    # With four arguments, it would write its messages to the kernel's log.
    module.log = lambda level, message: None
    return module


def generated(generator, lines):
    """Returns the expression that the generator writes for each line, or None if it rejects the line."""
    found = []
    with tempfile.TemporaryDirectory(prefix="cron-") as folder:
        generator.TARGET_DIR = generator.TIMERS_DIR = f"{folder}/units"
        generator.TIMERS_DIR += "/wanted"
        os.makedirs(generator.TIMERS_DIR)
        with open(f"{folder}/user", "w", encoding="utf-8") as file:
            file.writelines(f"{line} run\n" for line in lines)
        for job in generator.parse_crontab(f"{folder}/user", withuser=False):
            name = generator.generate_timer_unit(job, seq=itertools.count()) if "c" in job else None
            found.append(None)
            if name is not None:
                with open(f"{generator.TARGET_DIR}/{name}", encoding="utf-8") as file:
                    found[-1] = re.search("^OnCalendar= *(.*)$", file.read(), re.M)[1]
    assert len(found) == len(lines)
    return found


# ## Comparing


class Lines:
    """The expressions that TIMERS prints for lines, and the times at which expressions elapse."""

    def __init__(self, program, timers, lines):
        self.program, self.read, self.elapses = program, {}, {}
        self.read = dict(zip(lines, expressions(timers, lines), strict=True))
        self.add(itertools.chain(*(texts for texts in self.read.values() if texts is not None)))

    def add(self, texts):
        """Adds the times of expressions."""
        texts = sorted(set(texts) - set(self.elapses))
        given = [texts[first : first + GIVEN] for first in range(0, len(texts), GIVEN)]
        with ThreadPoolExecutor(os.cpu_count()) as pool:
            for found in pool.map(lambda some: elapses(self.program, some), given):
                self.elapses |= found

    def times(self, texts):
        """Returns the times at which one of the expressions elapses, or None if there are none or if one is rejected."""
        return None if texts is None else merged([self.elapses.get(text) for text in texts])

    def wrong(self, other, line, times):
        """Returns what is wrong if the other program runs a line at these times, or None."""
        wanted = self.times(self.read[line])
        if times == wanted:
            return None
        if times is None or wanted is None:
            return f"{line}: {other if times is None else 'calendar-timers'} rejects it"
        pairs = itertools.zip_longest(times, wanted, fillvalue="none")
        first = next(pair for pair in pairs if pair[0] != pair[1])
        return f"{line}: {other} has {first[0]}, and {' or '.join(self.read[line])} has {first[1]}"

    def wrong_rows(self, other, rows, times):
        """Yields for each row what is wrong, or None. The other program runs the lines at `times`."""
        self.add(itertools.chain(*(texts for row in rows for texts in row[1:] if texts is not None)))
        for (line, theirs, ours), found in zip(rows, times, strict=True):
            if found != self.times(theirs):
                yield f"{line}: {other} doesn't read {theirs}"
            elif self.times(self.read[line]) != self.times(ours):
                yield f"{line}: calendar-timers reads {self.read[line]}"
            else:
                yield None


def check_croniter(found, lines):
    """Yields for each line what is wrong, or None."""
    with ProcessPoolExecutor(os.cpu_count()) as pool:
        for line, times in zip(lines, pool.map(for_croniter, lines, chunksize=20), strict=True):
            yield found.wrong("croniter", line, times)
        rows = [row[0] for row in CRONITER_ROWS]
        yield from found.wrong_rows("croniter", CRONITER_ROWS, list(pool.map(by_croniter, rows)))


def check_generator(found, lines, generator):
    """Yields for each line what is wrong, or None."""
    rows = [row[0] for row in GENERATOR_ROWS]
    given = [for_generator(line) for line in lines]
    asked = [*itertools.chain(*given), *rows]
    written = dict(zip(asked, generated(generator, asked), strict=True))
    found.add(text for text in written.values() if text is not None)
    for line, parts in zip(lines, given, strict=True):
        yield found.wrong("the generator", line, merged([found.elapses.get(written[part]) for part in parts]))
    yield from found.wrong_rows("the generator", GENERATOR_ROWS, [found.elapses.get(written[line]) for line in rows])


def has_croniter(python):
    command = [python, "-c", f"import importlib.metadata as m; assert m.version('croniter') == '{CRONITER}'"]
    return os.path.exists(python) and subprocess.run(command, stderr=subprocess.DEVNULL).returncode == 0


def main(program, timers, generator=GENERATOR):
    has_iterator = has_croniter(sys.executable)
    if not has_iterator and has_croniter(DEBIAN_PYTHON):
        os.execv(DEBIAN_PYTHON, [DEBIAN_PYTHON, *sys.argv])
    module = load_generator(generator) if os.path.exists(generator) else None
    source, missing = random.Random(SEED), []
    lines = [random_line(source) for _ in range(COUNT)]
    results = []
    if has_iterator or module:
        found = Lines(program, timers, [*lines, *(row[0] for row in CRONITER_ROWS + GENERATOR_ROWS)])
    if has_iterator:
        results += check_croniter(found, lines)
    else:
        missing.append(f"croniter {CRONITER}")
    if module:
        results += check_generator(found, lines, module)
    else:
        missing.append("systemd-crontab-generator, or it isn't written in Python")
    for wrong in filter(None, results):
        print(f"tests/cron.py: {wrong}")
    for name in missing:
        print(f"tests/cron.py: there is no {name}")
    failed = len(results) - results.count(None)
    print(f"{results.count(None)} passed, {failed} failed" + (f", {len(missing)} skipped" if missing else ""))
    return 1 if failed else 0


if __name__ == "__main__":
    sys.exit(main(*sys.argv[1:]))
