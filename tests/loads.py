#!/usr/bin/env python3
"""Compares which timers load, and which of their lines count, with systemd.

    tests/loads.py [TIMERS]

In each of 400 random trees there is one timer: a plain one, or an instance of a template; an instance may have a file
of its own. It has up to two drop-ins. The lines of these files are valid or not in many ways; see `LINES` and the functions
that it names. timers.target wants the timer, so that `systemd --test --unit=timers.target` loads it. From what systemd
prints follows

- whether the timer loads and, if not, at which line of its own file systemd gives up, unless nothing starts the unit,
- which of its `OnCalendar=` lines systemd ignores,
- from which line on it doesn't read a drop-in, and
- which expressions, monotonic timers and settings that are switched on are left in the end, and which unit.

TIMERS, which is calendar-timers, has to say the same in its lists and on standard error, and to end with status 1 if
something is ignored or the timer doesn't load. It names the first line of a continued line, and systemd the last one.
Of a timer that doesn't load, only the first point is compared, since it has a single error line. Without TIMERS, the
rules of systemd 252, as this script states them, are compared with systemd.

Some things are left out, since calendar-timers has other rules for them:

- Lines end only at a line feed. In systemd, a carriage return or a NUL also ends a line.
- A byte order mark is only at the start of a file, and not before a comment. systemd also drops one at the start of a
  later line, and doesn't see the comment after one.
- No comment is 1 MiB long: systemd stops reading a file at such a comment.
- There are no spans such as `+5`, which only systemd accepts, or `5.`, which only calendar-timers accepts.
- There are no calendar expressions on which the two differ (see docs/DIFFERENCES.md).
- No specifier depends on the running system: calendar-timers doesn't guess its value.
- An unknown zone in a line that a later line clears isn't compared: calendar-timers doesn't look it up.
- All exceptions are valid, since systemd doesn't know the key.

The last line is 'N passed, M failed', which counts trees, and the status is 1 if one failed. If systemd isn't
installed or can't be run as another user than root, the script says so, and ', 1 skipped' follows."""

import json
import os
import random
import re
import shutil
import subprocess
import sys
import tempfile

sys.dont_write_bytecode = True
sys.path.insert(0, f"{os.path.dirname(os.path.realpath(__file__))}/lib")
import unit_trees
from unit_trees import can_test_systemd, instance, template, test_systemd

TREES = 400
SEARCH_PATH = ["etc/systemd/system"]
# The parts of these names can be values. The last instance can't be unescaped.
STEMS = ["x", "daily", "run-hourly", r"12\x3a30", "5min@i", "t@weekly", "t@90", "weekly-5min@daily", "daily@10"]
STEMS += [r"at-10@12\x3a00", "t@0-6:00", r"hourly@\xzz"]
DROP_INS = ["10.conf", "9.conf", "a.conf"]
# Units without which systemd doesn't start a timer.
NEEDED = ["timers.target", "sysinit.target", "basic.target", "shutdown.target", "time-set.target", "time-sync.target"]

# Values of `OnCalendar=`; valid ones, and those that specifiers leave, with their normal forms.
CALENDARS = {
    "daily": "*-*-* 00:00:00",
    "weekly": "Mon *-*-* 00:00:00",
    "hourly": "*-*-* *:00:00",
    "Mon 12:00": "Mon *-*-* 12:00:00",
    "Mon..Fri 02:30": "Mon..Fri *-*-* 02:30:00",
    "2026-02-03 04:05": "2026-02-03 04:05:00",
    "2026-02-30": "2026-02-30 00:00:00",
    "*:0/15": "*-*-* *:00/15:00",
    "12:00 UTC": "*-*-* 12:00:00 UTC",
    "Mon 12:00 Europe/Berlin": "Mon *-*-* 12:00:00 Europe/Berlin",
}
# The zone files of the trees.
ZONES = ["Europe/Berlin"]
LEFT_CALENDARS = {
    "12:00": "*-*-* 12:00:00",
    "12:30": "*-*-* 12:30:00",
    "Mon ": "Mon *-*-* 00:00:00",
    "Mon 12:30": "Mon *-*-* 12:30:00",
    "0/6:00": "*-*-* 00/6:00:00",
    "Mon 0/6:00": "Mon *-*-* 00/6:00:00",
    "*:0/10": "*-*-* *:00/10:00",
    "*:0/12:00": "*-*-* *:00/12:00",
    "*:0/12:30": "*-*-* *:00/12:30",
}
NO_CALENDARS = ["25:00", "Mo", "Mon..", "never", "daily # x", "daily;", "daily daily", "=daily", "\\", "[Timer]"]
NO_CALENDARS += ["daily Nowhere/City", "12:00 Europe/berlin", "Mon 12:00 CEST"]
NO_CALENDARS += ['"daily"', "'daily'", "tägl", "daily\u00a0", "\vdaily", "daily\f"]
# Values of monotonic timers; valid ones, and those that specifiers leave, as systemd prints them.
SPANS = {
    "90": "1min 30s",
    "0": "0",
    "5min": "5min",
    "1h 30min": "1h 30min",
    "1 h 5": "1h 5s",
    "1.5h": "1h 30min",
    ".5h": "30min",
    "1d2h": "1d 2h",
    "1month": "1month",
    "3µs": "3us",
    "infinity": "infinity",
}
LEFT_SPANS = {"10": "10s", "10min": "10min", "90min": "1h 30min"}
NO_SPANS = ["-5", "1H", "5Min", "5min abc", "1e3", "1,5h", "1.5.5", "0x10", "1:30", "3nsec", "999999999y", "é"]
TRUE = ["1", "yes", "Y", "true", "T", "on", "ON"]
FALSE = ["0", "no", "N", "FALSE", "f", "off"]
NO_BOOLEANS = ["", "2", "01", "+1", "-1", "enable", '"yes"', "yes # x", "%i"]
UNITS = ["y.service", "z.target", "y.timer", "%p.service", "%N.service", "%j-y.service", "y-%i.service", "%n"]
NO_UNITS = ["%I.service", "%J-y.service", "y-%P.service", "", "y", "/y.service", "y z.service", "y.none", "%Z.service", "é.service"]
# Specifiers for values, and `%` with a letter or digit that isn't one.
SPECIFIERS = ["%i", "%I", "%j", "%J", "%N", "%p", "%P"] * 2 + ["%n", "%Z", "%1"]
WITH_PERCENT = ["%%", "%", "%é", "%-"]
CALENDARS_WITH = ["{}", "{}", "{}", "Mon {}", "*:0/{}"]
SPANS_WITH = ["{}", "{}", "{}min"]

MONOTONIC = ["OnActiveSec", "OnBootSec", "OnStartupSec", "OnUnitActiveSec", "OnUnitInactiveSec"]
TRIGGERS = ["OnCalendar", *MONOTONIC]
CHANGES = ["OnClockChange", "OnTimezoneChange"]
# Of the settings that are true or false, those that both programs print.
SETTINGS = [*CHANGES, "Persistent", "FixedRandomDelay"]
UNKNOWN_KEYS = ["Foo", "oncalendar", "On Calendar", "OnTimeZoneChange", "XFoo", "X-Foo", '"OnCalendar"', "OnCalendar\u00a0"]
KEYS = ["OnCalendar"] * 8 + MONOTONIC + ["Unit"] * 2 + SETTINGS + ["WakeSystem"]

HEADERS = ["[Timer]", " \t[Timer]", "[Timer]\t ", "[Unit]", "[Install]", "[Service]", "[Foo]", "[X-Foo]", "[]", "[[Timer]"]
HEADERS += ["[Timer]]", "[ Timer ]", "[timer]", "[Timer][Unit]", "[Tim er]", "[é]"]
BAD_HEADERS = ["[Timer] # x", "[Timer] ; x", "[Timer]x", "[Timer", "[", "[X-Foo", "[Foo]=1", "[Timer]\\ ", "[Timer]\u00a0"]
BAD_HEADERS += ['[a"b]', "[Timer']", "[a\\b]", "[a\tb]", "[\x7f]", "[X-a'b]"]
RUBBISH = ["rubbish", "Persistent", "=daily", " = daily", ".include /etc/foo", "", "  ", "\\\\", "'", "]", "Timer]"]
COMMENTS = [b"# x", b"; x", b"#\xff", b" \t; \xff\xfe", b"# x \\", b"#OnCalendar=25:00", b"#[Timer", b";\\"]
BEFORE_BAD_BYTES = [b"OnCalendar=", b"OnCalendar=daily\\\n", b"Foo", b"[", b"[X-Foo]\n", b"X-Foo=", b""]
BAD_BYTES = [b"\xff", b"\xc3", b"\xed\xa0\x80"]

BLANKS = " \t\r"
MARK = b"\xef\xbb\xbf"
SPECIFIER = re.compile("%([A-Za-z0-9%])")
LINE = re.compile(r"^(/.*?):(\d+): (.*)", re.M)
# How systemd's message about a line begins if it stops reading the file there, and what calendar-timers then says.
BROKEN = {
    "Invalid section header": "bad section header",
    "Bad characters in section header": "bad section header",
    "String is not UTF-8 clean": "not UTF-8",
}


def value_of(chance, key):
    """Returns a value for a key, valid or not."""
    if key == "OnCalendar":
        return trigger(chance, CALENDARS, NO_CALENDARS, SPECIFIERS + WITH_PERCENT, CALENDARS_WITH)
    if key in MONOTONIC:
        return trigger(chance, SPANS, NO_SPANS, SPECIFIERS + WITH_PERCENT, SPANS_WITH)
    if key == "Unit":
        return chance.choice([*UNITS, *NO_UNITS])
    if key in UNKNOWN_KEYS:
        return chance.choice(["1", "", "daily", "%Z"])
    return chance.choice([chance.choice(TRUE), chance.choice(FALSE), chance.choice(NO_BOOLEANS)])


def trigger(chance, valid, invalid, specifiers, frames):
    kinds = [chance.choice([*valid])] * 4 + [chance.choice(invalid)] * 3 + [""]
    return chance.choice(kinds + [chance.choice(frames).format(chance.choice(specifiers))] * 3)


def assignment(chance):
    key = chance.choice([*KEYS, *[chance.choice(UNKNOWN_KEYS)] * 2])
    equals = chance.choice(["="] * 5 + [" =", "= ", "\t= \t"])
    before, after = chance.choice(["", "", "", "  ", "\t"]), chance.choice(["", "", "", " ", "\t"])
    return f"{before}{key}{equals}{value_of(chance, key)}{after}".encode()


def exception(chance):
    return f"X-ExceptOnCalendar={chance.choice([*CALENDARS])}".encode()


def joined(chance):
    """Returns a line in two parts, with a backslash or two after the first one, and perhaps comments between them."""
    line = chance.choice([assignment(chance)] * 3 + [b"OnCalendar=Mon 12:00"] * 2 + [b"[Timer]"])
    # A span isn't split at digits and letters: it could be valid in other ways.
    places = [place for place, byte in enumerate(line) if byte in b" =" or b"Sec" not in line]
    place = chance.choice([max(line.find(b" "), 0), *chance.sample(places, 1)])
    end = b"\\" if line.startswith(b"[") else chance.choice([b"\\"] * 6 + [b"\\ ", b"\\\\", b"\\\\\\"])
    return b"\n".join([line[:place] + end, *chance.choices(COMMENTS, k=chance.choice([0, 0, 1, 2])), line[place:]])


def swallowing(chance):
    """Returns an assignment that continues in what would be another line by itself."""
    other = chance.choice([*BAD_HEADERS, *HEADERS, "OnCalendar=daily", "", "rubbish"])
    return assignment(chance) + b" \\\n" + other.encode()


def comment(chance):
    return chance.choice(COMMENTS)


def header(chance):
    return chance.choice(HEADERS).encode()


def timer_header(chance):
    return b"[Timer]"


def rubbish(chance):
    return chance.choice(RUBBISH).encode()


def ignored_section(chance):
    """Returns a section that systemd skips without a message, and the header of the next one."""
    return b"\n".join([b"[X-Foo]", rubbish(chance), assignment(chance), b"[Timer]"])


def bad_header(chance):
    return chance.choice(BAD_HEADERS).encode()


def bad_bytes(chance):
    return chance.choice(BEFORE_BAD_BYTES) + chance.choice(BAD_BYTES)


LINES = [assignment] * 14 + [comment] * 2 + [joined] * 2
LINES += [swallowing, exception, rubbish, header, timer_header, ignored_section]


def contents(chance):
    """Returns the contents of a random file."""
    lines = [chance.choice([rubbish, assignment])(chance)] if chance.random() < 0.1 else []
    lines += [b"[Timer]"] if chance.random() < 0.95 else []
    lines += [chance.choice(LINES)(chance) for _ in range(chance.randint(2, 8))]
    if chance.random() < 0.2:
        lines.insert(chance.randrange(len(lines) + 1), chance.choice([bad_header, bad_bytes])(chance))
    mark = b"" if is_comment(lines[0]) else chance.choice([b""] * 30 + [MARK, MARK * 2])
    text = mark + b"\n".join(lines) + chance.choice([b"\n", b"\n", b"", b"\\", b"\\\n"])
    return chance.choice([text] * 60 + ["[Timer]\nOnCalendar=daily\n".encode("utf-16")])


class Tree(unit_trees.Tree):
    """A random timer. `read` has the contents of the files that systemd reads for it by their paths: first those of its own
    file, then those of its drop-ins."""

    def __init__(self, root, chance):
        super().__init__(root, SEARCH_PATH)
        os.chmod(self.root, 0o755)
        [folder], self.stem, self.read = self.folders, chance.choice(STEMS), {}
        for name in NEEDED:
            self.write(f"{folder}/{name}", "[Unit]\nDefaultDependencies=no\n")
        for zone in ZONES:
            os.makedirs(os.path.dirname(f"{self.root}/usr/share/zoneinfo/{zone}"))
            shutil.copy(f"/usr/share/zoneinfo/{zone}", f"{self.root}/usr/share/zoneinfo/{zone}")
        os.mkdir(f"{folder}/timers.target.wants")
        os.symlink(f"../{self.stem}.timer", f"{folder}/timers.target.wants/{self.stem}.timer")
        self.own = f"{folder}/{chance.choice([self.stem, template(self.stem) or self.stem])}.timer"
        self.add(self.own, chance)
        if template(self.stem) and self.stem in self.own:
            self.write(f"{folder}/{template(self.stem)}.timer", "[Timer\n")
        for name in sorted(chance.sample(DROP_INS, chance.choice([0, 1, 1, 2]))):
            unit = chance.choice([f"{self.stem}.timer", f"{template(self.stem) or self.stem}.timer", "timer"])
            self.add(f"{folder}/{unit}.d/{name}", chance)

    def add(self, path, chance):
        file = contents(chance)
        os.makedirs(os.path.dirname(path), exist_ok=True)
        with open(path, "wb") as opened:
            opened.write(file)
        self.read[path] = file


def is_comment(line):
    return line.lstrip(BLANKS.encode()).startswith((b"#", b";"))


def lines_of(file):
    """Yields the lines that aren't comments, a continued one as one line: the number of its first line, the number by which
    systemd names it, and the line without blanks around it."""
    first, text = None, b""
    lines = file.removeprefix(MARK).split(b"\n")
    for number, line in enumerate(lines, 1):
        if is_comment(line):
            continue
        first, text = first or number, text + line
        if (len(text) - len(text.rstrip(b"\\"))) % 2:
            text = text[:-1] + b" "
        else:
            yield first, number, text.strip(BLANKS.encode())
            first, text = None, b""
    if first:
        yield first, len(lines) + 1, text.strip(BLANKS.encode())


def why_broken(line):
    """Returns why systemd doesn't read a file from this line on, or None if it does."""
    try:
        line.decode()
    except UnicodeDecodeError:
        return "not UTF-8"
    is_bad = line.startswith(b"[") and (not line.endswith(b"]") or re.search(rb"""[\0-\x1f"'\\\x7f]""", line))
    return "bad section header" if is_bad else None


def assignments(file):
    """Returns the assignments of the section Timer that systemd reads, each as the number of its first line, the key and the
    value; and the number of the line from which on systemd doesn't read the file, and why, or None."""
    found, section = [], None
    for first, _, line in lines_of(file):
        if why_broken(line):
            return found, (first, why_broken(line))
        if line.startswith(b"["):
            section = line[1:-1]
        elif section == b"Timer" and b"=" in line[1:]:
            key, _, value = line.decode().partition("=")
            found.append((first, key.strip(BLANKS), value.strip(BLANKS)))
    return found, None


def unescaped(text):
    """Unescapes a part of a unit's name. Returns None if an escape in it is invalid."""
    if re.search(r"\\(?!x[0-9a-f]{2})", text):
        return None
    return re.sub(r"\\x(..)", lambda escape: chr(int(escape[1], 16)), text.replace("-", "/"))


def specifiers(stem):
    """Returns what the specifiers stand for in the files of a timer, or None for what can't be unescaped."""
    prefix = stem.partition("@")[0]
    last = prefix.rpartition("-")[2]
    known = {"n": f"{stem}.timer", "N": stem, "p": prefix, "i": instance(stem), "j": last, "%": "%"}
    return known | {"P": unescaped(prefix), "I": unescaped(instance(stem)), "J": unescaped(last)}


def filled_in(value, known):
    """Fills in the specifiers of a value. Returns None if one isn't known."""
    if any(known.get(letter) is None for letter in SPECIFIER.findall(value)):
        return None
    return SPECIFIER.sub(lambda specifier: known[specifier[1]], value)


def cleared_zones(tree):
    """Returns the lines with expressions that a later line clears and that end in the name of a zone, or in a word that could
    be one. systemd looks up their zones, and calendar-timers doesn't."""
    cleared, so_far = set(), set()
    for path, file in tree.read.items():
        for line, key, value in assignments(file)[0]:
            if key in TRIGGERS and not value:
                cleared |= so_far
            elif key == "OnCalendar" and may_name_zone(value, tree.stem):
                so_far.add((path, line))
    return cleared


def may_name_zone(value, stem):
    words = (filled_in(value, specifiers(stem)) or value).split()
    return len(words) > 1 and re.fullmatch(r"[A-Za-z][A-Za-z0-9/+_-]*", words[-1])


class Timer:
    """What is left of a timer's assignments: the triggers, the true settings and the unit. `ignored` has the paths and lines
    of the `OnCalendar=` assignments that systemd ignores."""

    def __init__(self, stem):
        self.stem, self.triggers, self.true, self.unit, self.ignored = stem, [], set(), None, []

    def assign(self, place, key, value):
        if key in TRIGGERS:
            self.assign_trigger(place, key, value)
        elif key == "Unit":
            self.unit = self.unit or self.unit_named(value)
        elif key in SETTINGS and value.lower() in map(str.lower, TRUE):
            self.true.add(key)
        elif key in SETTINGS and value.lower() in map(str.lower, FALSE):
            self.true.discard(key)

    def assign_trigger(self, place, key, value):
        valid = CALENDARS | LEFT_CALENDARS if key == "OnCalendar" else SPANS | LEFT_SPANS
        # A specifier can stand for nothing, and a continued line has more blanks.
        filled = re.sub(" +", " ", filled_in(value, specifiers(self.stem)) or "")
        if not value:
            self.triggers = []
        elif filled in valid:
            self.triggers.append(f"{key}: {valid[filled]}")
        elif key == "OnCalendar":
            self.ignored.append(place)

    def unit_named(self, value):
        """Returns the unit that a value of `Unit=` names, or None if systemd ignores the value."""
        # Specifiers that unescape a part of the name count as unknown here.
        known = {letter: text for letter, text in specifiers(self.stem).items() if letter not in "IJP"}
        name = filled_in(value, known) or ""
        is_valid = re.fullmatch(r"[\w:.\\-]+(@[\w:.\\@-]+)?\.(service|target|timer)", name, re.A)
        return name if is_valid and name != f"{self.stem}.timer" else None

    def loads(self):
        return bool(self.triggers or self.true & {*CHANGES})

    def left(self):
        return [*self.triggers, *(f"{key}: yes" for key in self.true), f"Unit: {self.unit or self.stem + '.service'}"]


def answer(tree, loads, ignored, broken, left, status=None):
    """Returns what was found about a timer, as far as it is compared. `broken` has the paths and lines from which on files
    aren't read. The status follows from the rest if it isn't given."""
    found = {"loads": loads, "broken": sorted(line for line in broken if line[0] == tree.own)}
    ignored = set(ignored) - cleared_zones(tree)
    if loads:
        found |= {"broken": sorted(broken), "ignored": sorted(ignored), "left": sorted(left)}
    is_whole = loads and not broken and not ignored
    return found | {"status": (0 if is_whole else 1) if status is None else status}


def by_the_rules(tree):
    timer, broken = Timer(tree.stem), []
    for path, file in tree.read.items():
        found, stop = assignments(file)
        broken += [(path, *stop)] if stop else []
        for line, key, value in found:
            timer.assign((path, line), key, value)
    loads = timer.loads() and not any(path == tree.own for path, *_ in broken)
    return answer(tree, loads, timer.ignored, broken, timer.left())


def lines_named(tree):
    """Returns the first line and the key, or None, of each line that isn't a comment, by its path and the number by which
    systemd names it."""
    named = {}
    for path, file in tree.read.items():
        keys = {first: key for first, key, _ in assignments(file)[0]}
        named |= {(path, number): (first, keys.get(first)) for first, number, _ in lines_of(file)}
    return named


def by_systemd(tree):
    shown, messages = test_systemd(tree.folders)
    named, ignored, broken = lines_named(tree), set(), []
    for path, number, message in LINE.findall(messages):
        first, key = named.get((path, int(number)), (int(number), None))
        is_unresolved = message.startswith("Failed to resolve unit specifiers") and key == "OnCalendar"
        if is_unresolved or message.startswith("Failed to parse calendar specification"):
            ignored.add((path, first))
        broken += [(path, first, reason) for start, reason in BROKEN.items() if message.startswith(start)]
    unit = shown.partition(f"\t-> Unit {tree.stem}.timer:\n")[2].partition("\t-> ")[0]
    pairs = [line.strip().partition(": ")[::2] for line in unit.replace("OnTimeZoneChange", CHANGES[1]).splitlines()]
    left = [": ".join(pair) for pair in pairs if pair[0] in [*TRIGGERS, "Unit"] or pair[0] in SETTINGS and pair[1] == "yes"]
    return answer(tree, ("Unit Load State", "loaded") in pairs, ignored, broken, left)


def run_timers(timers, tree, verb, *options):
    """Runs calendar-timers. Returns its JSON document, standard error and status."""
    environment = {**os.environ, "SYSTEMD_UNIT_PATH": ":".join(f"/{folder}" for folder in SEARCH_PATH)}
    command = [timers, verb, "--json", "--utc", "--now=@0", f"--root={tree.root}", *options]
    run = subprocess.run(command, env=environment, capture_output=True, text=True)
    return json.loads(run.stdout or "[]"), run.stderr, run.returncode


def by_timers(timers, tree):
    rows, messages, status = run_timers(timers, tree, "list", "--all")
    notes = [row["notes"] for row in rows if row["unit"] == f"{tree.stem}.timer"]
    loads, ignored, broken = len(notes) == 1 and "fails to load" not in notes[0], [], []
    for path, number, message in LINE.findall(messages):
        place, (_, cut, reason) = (tree.root + path, int(number)), message.partition("ignored from this line on: ")
        if cut or message in BROKEN.values():
            broken.append((*place, reason or message))
        elif message.startswith("ignored: "):
            ignored.append(place)
    return answer(tree, loads, ignored, broken, left_by_timers(timers, tree) if loads else [], status)


def left_by_timers(timers, tree):
    document, unit = run_timers(timers, tree, "show", "--", f"{tree.stem}.timer")[0], f"{tree.stem}.service"
    yield from (f"OnCalendar: {expression['normal']}" for shown in document for expression in shown["expressions"])
    for key, _, value in (note.partition("=") for shown in document for note in shown["notes"]):
        if key in MONOTONIC:
            spans = SPANS | LEFT_SPANS
            yield f"{key}: {spans.get(re.sub(' +', ' ', value), value)}"
        elif key in SETTINGS:
            yield f"{key}: yes"
        elif key == "Unit":
            unit = value
    yield f"Unit: {unit}"


def main(timers=None):
    if not can_test_systemd():
        print("systemd isn't installed, or can't be run as another user than root")
        print("0 passed, 0 failed, 1 skipped")
        return 0
    failed = 0
    for number in range(TREES):
        with tempfile.TemporaryDirectory() as root:
            tree = Tree(root, random.Random(number))
            wanted, found = by_systemd(tree), by_timers(timers, tree) if timers else by_the_rules(tree)
            wrong = [f"{part}: {found.get(part)}, but {wanted.get(part)} by systemd" for part in found | wanted]
            wrong = [line for part, line in zip(found | wanted, wrong) if found.get(part) != wanted.get(part)]
            for line in wrong:
                print(f"tree {number}, {tree.stem}.timer: {line.replace(tree.root, '')}")
            failed += bool(wrong)
    print(f"{TREES - failed} passed, {failed} failed")
    return 1 if failed else 0


if __name__ == "__main__":
    sys.exit(main(*sys.argv[1:]))
