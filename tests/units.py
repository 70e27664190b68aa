#!/usr/bin/env python3
"""Compares which files make up a timer unit with what systemd reads.

    tests/units.py [COMMAND..]

In each of 400 random trees of units and drop-ins, every file that isn't empty has a line that systemd-analyze rejects,
so that `systemd-analyze verify` names the files in the order in which it reads them. COMMAND, to which the folder of
the tree and the name of a unit are added, has to print the same paths, one on each line. It gets the tree's folders in
SYSTEMD_UNIT_PATH, as absolute paths that start at the tree's root. A unit may have an alias, which may be a template's
or an instance's, and is asked for by either name. It may be masked, in every form of a mask, and more important folders
may have things under its name that are skipped, such as a link to another type of unit. A folder of drop-ins may be a
link. Without COMMAND, the rules of systemd 252, as this script states them, are compared with systemd.

The last line is 'N passed, M failed', one for each tree, and the status is 1 if one failed. If systemd-analyze isn't
installed, the script says so, and ', 1 skipped' follows."""

import os
import random
import re
import shutil
import subprocess
import sys
import tempfile

sys.dont_write_bytecode = True
sys.path.insert(0, f"{os.path.dirname(os.path.realpath(__file__))}/lib")
import unit_trees
from unit_trees import destination, following, in_real_folder, instance, is_followed, kind, template, unit_of

TREES = 400
SEARCH_PATH = [f"{folder}/systemd/system" for folder in ["etc", "run", "usr/local/lib", "usr/lib"]]
UNITS = ["foo", "foo-bar", "foo--bar", "foo-bar-baz", "-x", "--x", "-a-b", "foo-", "foo@i", "foo-bar@x-y", "foo-bar@x@y", "a-b-@i"]
OTHERS = ["foo-bar@x-", "foo-bar@x", "bar", "foo-b", "-", "@i", "foo@j"]
ALIAS = "also-known"
NAMES = ["10.conf", "9.conf", "B.conf", "a.conf", "a-b.conf", "a_b.conf", "é.conf", ".hidden.conf", "README", "x.conf~", ".conf"]
NAMES += ["a b.conf", "x.dpkg-new.conf", "x.conf.bak", "x.CONF"]
KINDS = ["file"] * 6 + ["empty", "null", "dangling", "folder", "link"]
REFUSED = "[Timer]\nNoSuchKey=1\n"
READ = re.compile(r"^(/.*):2: Unknown key 'NoSuchKey'", re.M)


class Tree(unit_trees.Tree):
    """Units and drop-ins in a folder. `named` are the paths of the files that systemd can name as read."""

    def __init__(self, root):
        super().__init__(root, SEARCH_PATH)
        self.named = set()

    def add(self, path, kind):
        os.makedirs(os.path.dirname(path), exist_ok=True)
        if kind == "folder":
            os.mkdir(path)
        elif kind == "null":
            os.symlink("/dev/null", path)
        elif kind == "dangling":
            os.symlink("missing", path)
        elif kind == "link":
            self.write(f"{path}.target", REFUSED)
            os.symlink(os.path.basename(f"{path}.target"), path)
        else:
            self.write(path, "" if kind == "empty" else REFUSED)
        if kind in ("file", "link"):
            self.named.add(path)


def prefixes(stem):
    """Returns the prefixes of a stem that end at a dash, the longest first."""
    base = stem.partition("@")[0]
    return [base[: end + 1] for end in range(len(base) - 2, 0, -1) if base[end] == "-"]


def stems_with_folders(stem):
    """Returns the stems whose folders of drop-ins apply to a unit, the most important first."""
    if not template(stem):
        return [stem, *prefixes(stem)]
    of_instance = [f"{prefix}@{end}" for prefix in prefixes(stem) for end in [instance(stem), ""]]
    return [stem, template(stem), *prefixes(stem), *of_instance]


def names_of(tree, file, own, asked):
    """Returns the stems of a unit: its own first, then those of its aliases."""
    names = {asked}
    for folder in tree.folders:
        for stem in [name.removesuffix(".timer") for name in os.listdir(folder) if name.endswith(".timer")]:
            if destination(tree, stem)[1] and following(tree, stem)[1] == file:
                if kind(stem) == "template":
                    path, other = following(tree, stem + instance(own))
                    if not path or other == file:
                        names.add(stem + instance(own))
                elif instance(stem) == instance(own):
                    names.add(stem)
    return [own, *sorted(names - {own}, key=os.fsencode)]


def folders_of_drop_ins(tree, stems):
    """Yields the folders that apply to a unit of these names, the most important first."""
    for stem in stems:
        for folder in tree.folders:
            for name in stems_with_folders(stem):
                yield f"{folder}/{name}.timer.d"
    for folder in tree.folders:
        yield f"{folder}/timer.d"


def files_by_the_rules(tree, stem):
    """Returns the files of a unit in the order in which they are read."""
    path, file, own = unit_of(tree, stem)
    if not path or not os.path.isfile(path) or os.path.getsize(path) == 0:
        return []
    chosen = {}
    for folder in folders_of_drop_ins(tree, names_of(tree, file, own, stem)):
        for name in os.listdir(folder) if is_followed(tree, folder) else []:
            if name.endswith(".conf") and not name.startswith("."):
                chosen.setdefault(name, f"{folder}/{name}")
    return [path, *(chosen[name] for name in sorted(chosen, key=os.fsencode))]


def files_by_systemd(tree, stem):
    environment = {**os.environ, "SYSTEMD_UNIT_PATH": ":".join(tree.folders)}
    verify = ["systemd-analyze", "verify", "--", f"{stem}.timer"]
    run = subprocess.run(verify, env=environment, cwd=tree.root, capture_output=True, text=True)
    if " is masked." in run.stderr:
        # systemd reads the drop-ins of a masked unit, but they have no effect.
        return []
    return list(dict.fromkeys(READ.findall(run.stderr)))


def files_by_command(command, tree, stem):
    environment = {**os.environ, "SYSTEMD_UNIT_PATH": ":".join(f"/{folder}" for folder in SEARCH_PATH)}
    run = subprocess.run([*command, tree.root, f"{stem}.timer"], env=environment, capture_output=True, text=True)
    return run.stdout.splitlines()


def plant(tree, chance):
    """Makes a random unit with drop-ins, and returns a name of it."""
    stem = chance.choice(UNITS)
    has_instance = "@" in stem
    alias, target = alias_for(chance, stem) if chance.random() < 0.4 else (None, stem)
    # Where an alias leads to the template, the instance has no file of its own: calendar-timers differs from systemd there.
    # See docs/DECISIONS.md.
    for name in [target] if not has_instance or target != stem else [stem, template(stem)]:
        for folder in chance.sample(tree.folders, chance.choice([0, 1, 2] if has_instance and name == stem else [1, 2])):
            tree.add(f"{folder}/{name}.timer", "file")
    stems = [*stems_with_folders(stem), *chance.sample(OTHERS, 2)]
    names = [stem]
    if alias:
        add_alias(tree, chance, alias, target)
        names.append(f"{ALIAS}@{instance(stem)}" if has_instance else ALIAS)
        stems += stems_with_folders(names[1])
    asked = chance.choice(names)
    for add in [tree.mask, tree.add_skipped]:
        if chance.random() < 0.3:
            add_in_front(tree, chance, chance.choice([target, *names[1:]]), add)
    # Few folders and few names, so that many drop-ins hide each other.
    roots, names = chance.sample(tree.folders, 2), chance.sample(NAMES, 4)
    folders = [f"{root}/{name}.timer.d" for root in roots for name in stems] + [f"{root}/timer.d" for root in roots]
    for folder in chance.sample(folders, min(len(folders), chance.randint(1, 8))):
        if chance.random() < 0.15:
            link_folder(tree, chance, folder)
        if os.path.isdir(folder) or not os.path.islink(folder):
            for name in chance.sample(names, chance.randint(0, 4)):
                tree.add(f"{folder}/{name}", chance.choice(KINDS))
    return asked


def alias_for(chance, stem):
    """Returns the stem of an alias, and the stem to which it leads."""
    if "@" not in stem:
        return ALIAS, stem
    own, of_template = f"{ALIAS}@{instance(stem)}", f"{ALIAS}@"
    return chance.choice([(own, stem), (own, template(stem)), (of_template, template(stem))])


def add_alias(tree, chance, alias, stem):
    """Links the alias to a unit's file: by its name in the same folder, or by a relative path, perhaps through `/lib`. For
    systemd, a link into a folder below one of the search path is also an alias of the name to which it leads."""
    own = destination(tree, stem)[0]
    own = os.path.dirname(own) if own else tree.folders[-1]
    folder = chance.choice([own, *tree.folders])
    target = f"{stem}.timer"
    if folder != own or chance.random() < 0.5:
        target = os.path.relpath(f"{own}/{target}", folder)
        if chance.random() < 0.5:
            target = target.replace("usr/lib/", "lib/")
    if chance.random() < 0.1:
        target = os.path.join(os.path.dirname(target), "below", os.path.basename(target))
        tree.write(os.path.join(folder, target), REFUSED)
    os.symlink(target, f"{folder}/{alias}.timer")


def add_in_front(tree, chance, stem, add):
    """Adds something under a unit's name in a folder that doesn't have the name yet."""
    free = [folder for folder in tree.folders if not os.path.lexists(f"{folder}/{stem}.timer")]
    if free:
        add(chance, chance.choice(free), stem)


def link_folder(tree, chance, folder):
    """Makes a folder of drop-ins a relative link, which leads to a folder from where the link is, from the root of the
    tree, or from both."""
    target = f"store/{os.path.basename(folder)}"
    beside, below_root = f"{os.path.dirname(folder)}/{target}", f"{tree.root}/{target}"
    for place in chance.choice([[beside], [below_root], [beside, below_root]]):
        os.makedirs(place, exist_ok=True)
    if not os.path.lexists(folder):
        os.symlink(target, folder)


def main(command):
    if not shutil.which("systemd-analyze"):
        print("systemd-analyze isn't installed")
        print("0 passed, 0 failed, 1 skipped")
        return 0
    failed = 0
    for number in range(TREES):
        with tempfile.TemporaryDirectory() as root:
            tree = Tree(root)
            stem = plant(tree, random.Random(number))
            wanted = files_by_systemd(tree, stem)
            found = files_by_command(command, tree, stem) if command else files_by_the_rules(tree, stem)
            found = [in_real_folder(path) for path in found if path in tree.named]
            if found != wanted:
                failed += 1
                print(f"tree {number}, {stem}.timer: {found}, but systemd reads {wanted}")
    print(f"{TREES - failed} passed, {failed} failed")
    return 1 if failed else 0


if __name__ == "__main__":
    sys.exit(main(sys.argv[1:]))
