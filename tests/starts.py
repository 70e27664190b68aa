#!/usr/bin/env python3
"""Checks that calendar-timers, without targets, lists the timers that systemd starts.

    tests/starts.py [TIMERS]

In each of 400 random trees of units, TIMERS, which is calendar-timers,

- has to list the timers for which `systemd --test --unit=timers.target` would queue a job,
- has to note of each timer with `--all` what the rules of systemd 252 say, as this script states them, and
- has to note with `--all --root` what follows from the output of `systemctl is-enabled`; see `NOTES`.

Without TIMERS, the rules are compared with systemd and systemctl.

A tree has wants and requires folders, and in them links with any target, masks, files and folders; and timers with
several files, masks in every form, aliases, templates, and instances with and without files of their own. systemd
reads the wants folders of units that it starts, and calendar-timers those of all units. So in these trees,
timers.target starts every unit that has a folder. Four things are left out, since calendar-timers differs there:

- calendar-timers looks at each folder by itself: a mask in `a.target.wants` doesn't hide a link in `target.wants`. So
  in folders of several units, such as `target.wants`, there are only links that aren't masks, and what one of these
  units masks, another one starts.
- A template is in no folder of several units, where it would stand for several instances, and in none of an alias,
  where systemd would take the instance from the unit's own name.
- A requires folder names only timers that can be loaded. Otherwise, systemd might not start the unit that has the
  folder.
- No alias leads to a template one of whose instances has a file or an alias of its own. See docs/DECISIONS.md.

The last line is 'N passed, M failed', which counts trees, and the status is 1 if one failed. If systemd isn't
installed or can't be run as another user than root, the script says so, and ', 1 skipped' follows."""

import json
import os
import random
import re
import shutil
import stat
import subprocess
import sys
import tempfile

sys.dont_write_bytecode = True
sys.path.insert(0, f"{os.path.dirname(os.path.realpath(__file__))}/lib")
import unit_trees
from unit_trees import MASKS, can_test_systemd, destination, instance, is_followed, kind, may_lead, template, test_systemd
from unit_trees import unit_of

TREES = 400
# Folders of the usual search path, which `systemctl --root` has. For it, only links below those of `CONFIGURED` count.
SEARCH_PATH = [
    "etc/systemd/system.control",
    "etc/systemd/system",
    "run/systemd/system",
    "run/systemd/generator",
    "usr/local/lib/systemd/system",
    "usr/lib/systemd/system",
]
CONFIGURED = SEARCH_PATH[1:4]
GENERATED = SEARCH_PATH[3]
UNIT = "[Unit]\nDefaultDependencies=no\n"
SERVICE = f"{UNIT}[Service]\nExecStart=/bin/true\n"
TIMER = f"{UNIT}[Timer]\nOnCalendar=daily\n"
INSTALL = "[Install]\nWantedBy=timers.target\n"
# What timers.target starts. Units with `spare` in their names have no folders of their own, so that nothing masks what
# the folders of several units start.
STARTED = [
    "other.target",
    "named.target",
    "spare.target",
    "my-set.target",
    "my-spare.target",
    "at@x.target",
    "at@spare.target",
    "job.service",
]
# The units that have folders; an alias of named.target; and names that stand for several units.
OWNERS = [*["timers.target"] * 4, "other.target", "my-set.target", "at@x.target", "job.service"]
ALIAS = "also-named.target"
SHARED = ["target", "my-.target", "at@.target"]
STEMS = ["foo", "foo-bar", "-x", r"a\x2db", "foo@", "foo@i", "foo@timers", "foo@x", "t@", "t@i", "t@other", "t@i@j"]
ALIASES = ["also", "more", "also@", "more@", "also@i", "more@x"]
WITHOUT_FILES = ["gone", "t@gone", "gone@i"]
# Names that aren't those of timers, in folders with links.
NOISE = [".foo.timer", "foo.timer~", "foo.timer.bak", "foo", "job.service", "f o.timer", "@i.timer", "foo.timer.wants"]
NAME = re.compile(r"([\w:\\-][\w:.\\@-]*)\.timer", re.A)
JOB = re.compile(r"^\t\tAction: (\S+)\.timer -> start$", re.M)
# The notes that a unit can have, by the output of `systemctl is-enabled`: the first if systemctl counts all links that
# start it, and the second if it doesn't count some, since they are in other folders or have the name of an alias. None
# if the unit isn't listed.
NOTES = {
    "enabled": ("started", "started"),
    "enabled-runtime": ("started", "started"),
    "static": ("disabled", "started"),
    "disabled": ("disabled", "started"),
    "indirect": ("disabled", "started"),
    "linked": ("disabled", "started"),
    "linked-runtime": ("disabled", "started"),
    # For systemctl, no links to such units count.
    "generated": ("disabled", "started"),
    "masked": ("masked", "masked"),
    "masked-runtime": ("masked", "masked"),
    "": (None, None),
}


class Tree(unit_trees.Tree):
    """Timers, units that start them, and the folders by which they do."""

    def __init__(self, root):
        super().__init__(root, SEARCH_PATH)
        self.working_folder = "/"
        os.chmod(self.root, 0o755)
        last = self.folders[-1]
        self.write(f"{last}/timers.target", f"{UNIT}Wants={' '.join(STARTED)}\n")
        for name in STARTED:
            self.write(f"{last}/{re.sub('@.*[.]', '@.', name)}", SERVICE if name.endswith(".service") else UNIT)
        os.symlink("named.target", f"{last}/{ALIAS}")

    def add_timer(self, chance, folder, stem):
        """Adds a file of a timer, a mask, or what can't be a timer, to a folder of the search path."""
        path, outside = f"{folder}/{stem}.timer", f"{os.path.relpath(self.root, folder)}/opt/{stem}.timer"
        text = TIMER + chance.choice(["", INSTALL])
        form = chance.choice(["file"] * 6 + ["outside", "dangling", "mask", "skipped"])
        if form == "file":
            self.write(path, text)
        elif form == "outside":
            self.write(f"{self.root}/opt/{stem}.timer", text)
            os.symlink(outside, path)
        elif form == "dangling":
            os.symlink(f"{outside}.none", path)
        elif form == "mask":
            self.mask(chance, folder, stem)
        else:
            self.add_skipped(chance, folder, stem)

    def add_alias(self, chance, stem, other):
        folder = chance.choice(self.folders)
        target = chance.choice(["", f"{os.path.relpath(chance.choice(self.folders), folder)}/"]) + f"{other}.timer"
        os.symlink(target, f"{folder}/{stem}.timer")

    def link_folder(self, chance, folder):
        """Makes a folder of a unit a link: an absolute one, or a relative one that leads to a folder from where the link is,
        from the root folder of the machine, or from both."""
        parent, place = os.path.dirname(folder), f"{self.root}/store/{os.path.basename(folder)}"
        os.makedirs(place, exist_ok=True)
        if not os.path.lexists(folder):
            targets = [place, place[1:], os.path.relpath(place, parent), os.path.relpath("/", parent) + place]
            os.symlink(chance.choice(targets), folder)

    def add_entry(self, chance, folder, stem, forms):
        """Adds an entry in one of these forms to the folder of a unit, unless there is one of this name."""
        path, form = f"{folder}/{stem}.timer", chance.choice(forms)
        if os.path.lexists(path):
            return
        if form == "file":
            self.write(path, TIMER)
        elif form == "empty":
            self.write(path, "")
        elif form == "folder":
            os.mkdir(path)
        else:
            os.symlink(self.target(chance, os.path.realpath(folder), stem, form), path)

    def target(self, chance, folder, stem, form):
        """Returns a target for a link: a mask, a path in the search path, or something else that doesn't mask."""
        up, root = os.path.relpath("/", folder), os.path.relpath(self.root, folder)
        if form == "mask":
            target = chance.choice([mask for mask in MASKS if mask]).format(up=up, root=root)
            return target.replace("empty.timer", "../empty.timer")
        if form == "timer":
            other = chance.choice([stem, stem, chance.choice(STEMS)])
            return chance.choice([f"../{other}.timer", f"{root}/{chance.choice(SEARCH_PATH)}/{other}.timer"])
        return chance.choice(["missing", f"/nowhere/{stem}.timer", f"{stem}.timer", "."])


def plant(tree, chance):
    """Makes random timers, and random folders that start them."""
    stems, others = chance.sample(STEMS, chance.randint(2, 6)), []
    for stem in stems:
        for folder in chance.sample(tree.folders, chance.choice([0, 1, 1, 2, 2])):
            tree.add_timer(chance, folder, stem)
    for alias in chance.sample(ALIASES, chance.randint(0, 3)):
        other = chance.choice([*stems, *ALIASES])
        templates = {template(stem) for stem in [*stems, alias]}
        if may_lead(alias, f"{other}.timer") and not templates & {*others, other}:
            tree.add_alias(chance, alias, other)
            stems, others = [*stems, alias], [*others, other]
    stems += [stem + chance.choice(["i", "x", "j"]) for stem in stems if kind(stem) == "template"] + WITHOUT_FILES
    # Few folders with few names, so that many entries hide each other.
    roots, owners = chance.sample(tree.folders, 2), chance.sample([*OWNERS, ALIAS, *SHARED], 3)
    for _ in range(chance.randint(1, 8)):
        folder = f"{chance.choice(roots)}/{chance.choice(owners)}.{chance.choice(['wants', 'wants', 'requires'])}"
        fill(tree, chance, folder, chance.sample(stems, chance.randint(1, 5)))
    fill(tree, chance, f"{tree.folders[1]}/timers.target.upholds", stems[:1])


def fill(tree, chance, folder, stems):
    """Adds entries to the folder of a unit."""
    if chance.random() < 0.1:
        tree.link_folder(chance, folder)
    if os.path.islink(folder) and not os.path.isdir(folder):
        return
    os.makedirs(folder, exist_ok=True)
    owner, _, end = os.path.basename(folder).rpartition(".")
    forms = ["other"] if owner in SHARED else ["timer"] * 6 + ["other", "other", "mask", "file", "empty", "folder"]
    for stem in stems:
        has_instance = kind(stem) != "template" or owner in OWNERS
        if has_instance and (end == "wants" or is_loaded(tree, stem_started(owner, stem))):
            tree.add_entry(chance, folder, stem, forms)
    if chance.random() < 0.3 and not os.path.lexists(f"{folder}/{NOISE[0]}"):
        for name in NOISE:
            os.symlink("../foo.timer", f"{folder}/{name}")


def is_mask(path):
    """Returns whether an empty file or a device is at a path, where links are followed."""
    try:
        found = os.stat(path)
    except OSError:
        return False
    return stat.S_ISCHR(found.st_mode) or stat.S_ISREG(found.st_mode) and found.st_size == 0


def is_loaded(tree, stem):
    path = unit_of(tree, stem)[0]
    return bool(path) and os.path.exists(path) and not is_mask(path)


def own(tree, stem):
    """Returns the stem of a timer's own name."""
    return unit_of(tree, stem)[2]


def stem_started(owner, stem):
    """Returns the stem of the timer that a link with this stem starts in a folder of this unit."""
    unit = owner.rpartition(".")[0]
    return stem + (instance(unit) or unit) if kind(stem) == "template" else stem


def entries(tree):
    """Yields those entries of the units' folders that count, each as the unit's name, the stem and the path. Of several
    entries with the same name in folders with the same name, the first one counts."""
    found = set()
    for folder in tree.folders:
        for name in filter(lambda name: name.endswith((".wants", ".requires")), os.listdir(folder)):
            for entry in os.listdir(f"{folder}/{name}") if is_followed(tree, f"{folder}/{name}") else []:
                stem = NAME.fullmatch(entry)
                if stem and (name, entry) not in found:
                    found.add((name, entry))
                    yield name.rpartition(".")[0], stem[1], f"{folder}/{name}/{entry}"


def entries_of_links(tree):
    """Yields the entries of units' folders that are links themselves, each as the unit's name and the stem. Which of
    these folders are read depends on the root folder."""
    for folder in tree.folders:
        for name in filter(lambda name: name.endswith((".wants", ".requires")), os.listdir(folder)):
            path = f"{folder}/{name}"
            for stem in map(NAME.fullmatch, os.listdir(path) if os.path.islink(path) and os.path.isdir(path) else []):
                if stem:
                    yield name.rpartition(".")[0], stem[1]


def is_start(path):
    return os.path.islink(path) and not is_mask(path)


def listed_stems(tree):
    """Returns the stems of the timers that have files or aliases, and of those that are started. A name that leads to
    neither isn't a timer by itself: it may be that of an instance whose template is used instead."""
    names = {name[1] for folder in tree.folders for name in map(NAME.fullmatch, os.listdir(folder)) if name}
    found = {stem for stem in names if any(destination(tree, stem))}
    found |= {stem_started(owner, stem) for owner, stem, path in entries(tree) if is_start(path)}
    return sorted(stem for stem in found if kind(stem) != "template")


def notes_by_the_rules(tree):
    """Returns what is noted of each timer, by its stem: `started`, `disabled` or `masked`."""
    started = {own(tree, stem_started(owner, stem)) for owner, stem, path in entries(tree) if is_start(path)}
    notes = {}
    for stem in listed_stems(tree):
        path, _, name = unit_of(tree, stem)
        if path and os.path.exists(path):
            notes[name] = "masked" if is_mask(path) else "started" if name in started else "disabled"
    return notes


def notes_by_timers(timers, folders, *options):
    environment = {**os.environ, "SYSTEMD_UNIT_PATH": ":".join(folders)}
    command = [timers, "list", "--json", "--utc", "--now=@0", *options]
    run = subprocess.run(command, env=environment, stdout=subprocess.PIPE, stderr=subprocess.DEVNULL, text=True)
    notes = {}
    for row in json.loads(run.stdout or "[]"):
        found = [note for note in row["notes"] if note in ("disabled", "masked")]
        notes[row["unit"].removesuffix(".timer")] = found[0] if found else "started"
    return notes


def notes_by_systemd(tree):
    """Returns the note `started` for each timer that systemd would start with timers.target."""
    shown, _ = test_systemd(tree.folders)
    return dict.fromkeys(JOB.findall(shown.partition("-> By jobs:")[2]), "started")


def notes_by_systemctl(tree):
    """Returns the notes that follow from what systemctl says."""
    notes, uncounted = {}, set()
    # systemctl neither follows a link to a folder nor looks at where the links in a folder lead.
    left_out = {own(tree, stem_started(owner, stem)) for owner, stem in entries_of_links(tree)}
    for owner, stem, path in entries(tree):
        folder = os.path.dirname(path)
        name = own(tree, stem_started(owner, stem))
        if not is_start(path):
            left_out.add(name)
        elif name != stem or os.path.relpath(os.path.dirname(folder), tree.root) not in CONFIGURED:
            uncounted.add(name)
        elif (unit_of(tree, stem)[0] or "").startswith(f"{tree.root}/{GENERATED}/"):
            uncounted.add(name)
    for stem in listed_stems(tree):
        if own(tree, stem) not in left_out and is_clear(tree, stem):
            command = ["systemctl", f"--root={tree.root}", "is-enabled", "--", f"{stem}.timer"]
            run = subprocess.run(command, stdout=subprocess.PIPE, stderr=subprocess.DEVNULL, text=True)
            # Aliases aren't listed under their own names.
            notes[stem] = NOTES[run.stdout.strip()][stem in uncounted] if own(tree, stem) == stem else None
    return notes


def is_clear(tree, stem):
    """Returns whether systemctl and systemd must agree about a unit: there is a single thing under its name and that of
    its template, or only files and masks."""
    paths = [f"{folder}/{name}.timer" for folder in tree.folders for name in [stem, template(stem)] if name]
    paths = [path for path in paths if os.path.lexists(path)]
    are_plain = all(is_mask(path) or os.path.isfile(path) and not os.path.islink(path) for path in paths)
    return len(paths) == 1 or bool(paths) and are_plain


def differences(found, wanted, by):
    for stem in sorted(found.keys() | wanted.keys()):
        if found.get(stem) != wanted.get(stem):
            yield f"{stem}.timer: {found.get(stem)}, but {wanted.get(stem)} by {by}"


def compare(timers, tree):
    """Yields what is wrong with the notes of the timers in a tree."""
    notes = below_root = by_rules = notes_by_the_rules(tree)
    started = {stem: note for stem, note in notes.items() if note == "started"}
    if timers:
        notes, started = notes_by_timers(timers, tree.folders, "--all"), notes_by_timers(timers, tree.folders)
        below_root = notes_by_timers(timers, [f"/{folder}" for folder in SEARCH_PATH], "--all", f"--root={tree.root}")
    by_systemctl = notes_by_systemctl(tree)
    yield from differences(started, notes_by_systemd(tree), "systemd")
    yield from differences(notes, by_rules, "the rules")
    yield from differences({stem: below_root.get(stem) for stem in by_systemctl}, by_systemctl, "systemctl")


def main(timers=None):
    if not can_test_systemd() or not shutil.which("systemctl"):
        print("systemd isn't installed, or can't be run as another user than root")
        print("0 passed, 0 failed, 1 skipped")
        return 0
    failed = 0
    for number in range(TREES):
        with tempfile.TemporaryDirectory() as root:
            tree = Tree(root)
            plant(tree, random.Random(number))
            wrong = list(compare(timers, tree))
            for difference in wrong:
                print(f"tree {number}, {difference}")
            failed += bool(wrong)
    print(f"{TREES - failed} passed, {failed} failed")
    return 1 if failed else 0


if __name__ == "__main__":
    sys.exit(main(*sys.argv[1:]))
