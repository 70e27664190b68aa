"""What tests/units.py, tests/starts.py and tests/loads.py share: trees of units, the rules by which systemd finds a timer
in them, and how to run systemd over them.

A stem is the name of a timer without `.timer`."""

import os
import subprocess
import tempfile

# Masks: targets of links, or None for an empty file. The tree has empty files at the places of the devices.
MASKS = [
    "/dev/null",
    "{up}/dev/null",
    "/dev/./null",
    "/dev/../dev//null",
    "/dev/zero",
    "{root}/opt/link",
    "{root}/opt/empty",
    "empty.timer",
    None,
]


class Tree:
    """A root folder with the folders of a search path. `search_path` has their paths below the root, the most important
    first. systemd runs in `working_folder`."""

    def __init__(self, root, search_path):
        self.root = self.working_folder = os.path.realpath(root)
        self.folders = [f"{self.root}/{folder}" for folder in search_path]
        for folder in self.folders:
            os.makedirs(folder)
        os.symlink("usr/lib", f"{self.root}/lib")
        for path in ["dev/null", "dev/zero", "opt/empty", f"{search_path[-1]}/empty.timer"]:
            self.write(f"{self.root}/{path}", "")
        os.symlink("/dev/null", f"{self.root}/opt/link")

    def write(self, path, text):
        os.makedirs(os.path.dirname(path), exist_ok=True)
        with open(path, "w") as file:
            file.write(text)

    def mask(self, chance, folder, stem):
        """Adds a mask of the unit with this stem to the folder."""
        target = chance.choice(MASKS)
        if target is None or (target == "empty.timer" and "@" in stem):
            self.write(f"{folder}/{stem}.timer", "")
        else:
            up, root = os.path.relpath("/", folder), os.path.relpath(self.root, folder)
            os.symlink(target.format(up=up, root=root), f"{folder}/{stem}.timer")

    def add_skipped(self, chance, folder, stem):
        """Adds what can't be a unit under this stem: a folder, or a link that can't be an alias."""
        targets = [None, f"{stem}.timer", "foo.service", "foo", ".timer"]
        targets += [f"{name}.timer" for name in ["foo", "foo@", "foo@other"] if not may_lead(stem, f"{name}.timer")]
        target = chance.choice(targets)
        if target is None:
            os.mkdir(f"{folder}/{stem}.timer")
        else:
            os.symlink(target, f"{folder}/{stem}.timer")


def template(stem):
    base, at, instance = stem.partition("@")
    return f"{base}@" if instance else None


def instance(stem):
    return stem.partition("@")[2]


def kind(stem):
    """Returns the kind of a stem: 'plain', 'template' or 'instance'."""
    return "plain" if "@" not in stem else "instance" if instance(stem) else "template"


def may_lead(stem, name):
    """Returns whether a link with this stem can be an alias of the name in the search path to which it leads."""
    other = name.removesuffix(".timer")
    if other in (name, "", stem):
        return False
    if kind(stem) == "instance" and kind(other) == "template":
        return True
    return kind(stem) == kind(other) and instance(stem) == instance(other)


def destination(tree, stem):
    """Returns the path of the first file with this stem, and None; or None and the stem of which this one is an alias.
    What is neither is skipped."""
    for folder in tree.folders:
        path = f"{folder}/{stem}.timer"
        if os.path.islink(path):
            place = in_real_folder(os.path.join(folder, os.readlink(path)))
            if not any(place.startswith(f"{searched}/") for searched in tree.folders):
                return path, None
            name = os.path.basename(place)
            if may_lead(stem, name):
                return None, name.removesuffix(".timer")
        elif os.path.isfile(path):
            return path, None
    return None, None


def in_real_folder(path):
    return os.path.join(os.path.realpath(os.path.dirname(path)), os.path.basename(path))


def following(tree, stem):
    """Follows aliases from a stem. Returns the path of a file and the stem under which it was found."""
    for step in range(8):
        path, other = destination(tree, stem)
        if not path and not other and step and template(stem):
            stem = template(stem)
            path, other = destination(tree, stem)
        if path or not other:
            return path, stem
        stem = other
    return None, stem


def unit_of(tree, stem):
    """Returns the path of a unit's own file, the stem under which it was found, and the stem of the unit."""
    path, file = following(tree, stem)
    if not path and template(stem):
        path, file = following(tree, template(stem))
    return path, file, file + instance(stem) if kind(file) == "template" else file


def is_followed(tree, folder):
    """Returns whether a folder of drop-ins, or of links to units, is read. A relative link must also lead to a folder
    from the folder in which systemd runs."""
    if os.path.islink(folder) and not os.path.isdir(os.path.join(tree.working_folder, os.readlink(folder))):
        return False
    return os.path.isdir(folder)


def test_systemd(folders):
    """Has systemd load what timers.target wants in the folders of a search path. Returns its standard output, which shows all
    units and jobs, and its standard error. Nothing is started."""
    variables = {"HOME": "/", "SYSTEMD_LOG_TARGET": "console", "SYSTEMD_UNIT_PATH": ":".join(folders)}
    # Generators would read files of this machine.
    variables |= {"SYSTEMD_GENERATOR_PATH": "/nowhere", "SYSTEMD_ENVIRONMENT_GENERATOR_PATH": "/nowhere"}
    # systemd refuses to be tested by root.
    options = {"user": 65534, "group": 65534, "extra_groups": []} if os.getuid() == 0 else {}
    options |= {"capture_output": True, "text": True, "errors": "replace"}
    command = ["systemd", "--test", "--system", "--unit=timers.target"]
    run = subprocess.run(command, env={**os.environ, **variables}, cwd="/", **options)
    return run.stdout, run.stderr


def can_test_systemd():
    """Returns whether systemd is installed, and loads a unit."""
    with tempfile.TemporaryDirectory() as folder:
        os.chmod(folder, 0o755)
        with open(f"{folder}/timers.target", "w") as file:
            file.write("[Unit]\nDefaultDependencies=no\n")
        try:
            return "Action: timers.target -> start" in test_systemd([folder])[0]
        except OSError:
            return False
