#!/usr/bin/env python3
"""Writes the completions of a program for bash, fish and zsh, so that they offer what its `--help` lists.

    completions/generate.py PROGRAM FOLDER

PROGRAM is calendar-analyze or calendar-timers. This script writes `NAME.bash`, `NAME.fish` and `_NAME` into FOLDER,
and prints their paths. Each is made from the template of the same name in this folder: a line `@TABLE@` there
stands for the verbs and options of the program. What a shell offers as the value of an option depends only on what the
help calls the value, so a new option needs nothing here, unless its value has a new name."""

import dataclasses
import os
import re
import subprocess
import sys

HERE = os.path.dirname(os.path.realpath(__file__))
OPTION = re.compile(r"(?:-(\w), )?--([a-z-]+)(?: <(\S+)>)?(?: {2,}(.*))?$")
# What fish and zsh offer as the value of an option, by what the help calls the value; `{0}` is the name of the program.
FISH_VALUES = {
    "N": "-x",
    "STAMP": "-x",
    "@N": "-x -a @",
    "ZONE": "-x -a '(__{0}_zones)'",
    "DIR": "-x -a '(__fish_complete_directories (commandline -ct) folder)'",
    "NAME=FILE,..": "-r -F",
}
ZSH_VALUES = {
    "N": "",
    "STAMP": "",
    "@N": "",
    "ZONE": "_{0}-zones",
    "DIR": "_files -/",
    "NAME=FILE,..": "_{0}-files",
}
# For zsh: an option after which the other one isn't offered.
EXCLUDED = {"zone": "--utc", "utc": "--zone"}


@dataclasses.dataclass(frozen=True)
class Option:
    """An option, with its short form, what the help calls its value, and the text of the help."""

    name: str
    short: str
    value: str
    help: str


@dataclasses.dataclass
class Verb:
    name: str
    about: str
    options: list


def brief(text):
    """Returns the text of the help without a default and other details, as the start of a phrase."""
    text = re.split(r" \[default| *: ", text)[0]
    return text[:1].lower() + text[1:]


def section(text, title):
    """Returns the lines of a section of a help text. The lines of an entry are joined."""
    entries = []
    for line in text.partition(f"\n{title}:\n")[2].split("\n\n")[0].splitlines():
        if re.match(r" {2}(?: {4})?\S", line):
            entries.append(line.strip())
        elif entries:
            entries[-1] += f" {line.strip()}"
    return entries


def options_in(text):
    found = []
    for entry in section(text, "Options"):
        short, name, value, about = OPTION.match(entry).groups()
        found.append(Option(name, short or "", value or "", brief(about or "")))
    return found


def printed(*command):
    return subprocess.run(command, check=True, stdout=subprocess.PIPE, text=True).stdout


def verbs_in(text):
    """Returns the verbs that the help of a program lists, `help` included, each with what the help says about it."""
    return [re.split(r" {2,}", entry, maxsplit=1) for entry in section(text, "Verbs") or section(text, "Commands")]


def verbs_of(program):
    """Returns the verbs of the program except `help`, with the options that the help of each lists."""
    found = []
    for name, about in verbs_in(printed(program, "--help")):
        if name != "help":
            found.append(Verb(name, brief(about), options_in(printed(program, name, "--help"))))
    return found


def program_options(program, verbs):
    """Returns the options of the program if no verb is given: those of `list`, if it has this verb, and `--version`."""
    version = [option for option in options_in(printed(program, "--help")) if option.name == "version"]
    of_list = [option for verb in verbs if verb.name == "list" for option in verb.options]
    return [*(of_list or [option for option in verbs[0].options if option.name == "help"]), *version]


def quoted(text):
    return "'" + text.replace("'", "'\\''") + "'"


def bash_table(name, verbs, own):
    function = f"_{name.replace('-', '_')}"
    values = {option.name: option for verb in verbs for option in verb.options if option.value}
    lines = [f"{function}_verbs={quoted(' '.join(verb.name for verb in verbs))}", ""]
    lines += [f"# Prints the options of a verb, or those without a verb.\n{function}_options() {{", "    case $1 in"]
    for verb in [*verbs, Verb("''", "", own)]:
        options = " ".join(f"--{option.name}{'=' if option.value else ''}" for option in verb.options)
        lines.append(f"    {verb.name}) echo {quoted(options)} ;;")
    lines += ["    esac", "}", ""]
    lines += [f"# Prints what the help calls the value of an option. Prints nothing if the option takes none.\n{function}_value() {{"]
    lines.append("    case $1 in")
    for option in values.values():
        names = f"-{option.short} | --{option.name}" if option.short else f"--{option.name}"
        lines.append(f"    {names}) echo {quoted(option.value)} ;;")
    return [*lines, "    esac", "}"]


def zsh_specs(name, option):
    """Returns an option as `_arguments` wants it."""
    names = [f"--{option.name}{'=' if option.value else ''}"]
    if option.short:
        names.insert(0, f"-{option.short}{'+' if option.value else ''}")
    excluded = "- *" if option.name in ("help", "version") else EXCLUDED.get(option.name, "")
    if option.short and not excluded:
        excluded = f"-{option.short} --{option.name}"
    value = f":{option.value}:{ZSH_VALUES[option.value].format(name)}" if option.value else ""
    text = quoted(f"[{option.help}]{value}")
    joined = f"{{{','.join(names)}}}" if len(names) > 1 else names[0]
    return (f"'({excluded})'" if excluded else "") + joined + text


def others(verbs, own):
    """Returns the options with a value that only some verbs have. They can come before the verb, but aren't offered
    there."""
    known = {option.name for option in own}
    found = {option.name: option for verb in verbs for option in verb.options if option.value}
    return [option for option in found.values() if option.name not in known] if len(own) > 2 else []


def zsh_table(name, verbs, own):
    lines = ["verbs=("]
    lines += [f"    {quoted(f'{verb.name}:{verb.about}')}" for verb in verbs]
    lines += ["    'help:print help, or the help of a verb'", ")", "case $verb in"]
    for verb in [*verbs, Verb("*", "", own)]:
        lines += [f"{verb.name})", "    options=("]
        lines += [f"        {zsh_specs(name, option)}" for option in verb.options]
        lines += [f"        '!'{zsh_specs(name, option)}" for option in others(verbs, own) if verb.name == "*"]
        lines += ["    )", "    ;;"]
    return [*lines, "esac"]


def fish_table(name, verbs, own):
    function, with_list = f"__{name.replace('-', '_')}", any(verb.name == "list" for verb in verbs)
    none = Verb("none", "", own)
    valued = {option.name: option for verb in verbs for option in verb.options if option.value}
    names = [f"--{key}" for key in valued] + [f"-{option.short}" for option in valued.values() if option.short]
    lines = [f"set -g {function}_verbs {' '.join(verb.name for verb in verbs)}", f"set -g {function}_valued {' '.join(names)}", ""]
    for verb in [*verbs, Verb("help", "print help, or the help of a verb", [])]:
        lines.append(f"complete -c {name} -n '{function}_verb_is none' -a {verb.name} -d {quoted(verb.about)}")
    having = {}
    for verb in [none, *verbs]:
        for option in verb.options:
            having.setdefault(option, []).append(verb.name)
    for option, among in having.items():
        words = [f"complete -c {name} -n '{function}_verb_is {' '.join(among)}'"]
        words += [f"-s {option.short}"] if option.short else []
        words += [f"-l {option.name}"]
        words += [FISH_VALUES[option.value].format(name.replace("-", "_"))] if option.value else []
        lines.append(" ".join([*words, f"-d {quoted(option.help)}"]))
    return lines


def main():
    if len(sys.argv) != 3 or not os.access(sys.argv[1], os.X_OK) or not os.path.isdir(sys.argv[2]):
        print("usage: completions/generate.py PROGRAM FOLDER", file=sys.stderr)
        return 2
    program, folder = os.path.realpath(sys.argv[1]), sys.argv[2]
    name = printed(program, "--version").split()[0]
    verbs = verbs_of(program)
    own = program_options(program, verbs)
    for file, table in [(f"{name}.bash", bash_table), (f"{name}.fish", fish_table), (f"_{name}", zsh_table)]:
        with open(f"{HERE}/{file}", encoding="utf-8") as template:
            text = template.read()
        made = re.sub(r"^( *)@TABLE@\n", lambda at: "".join(f"{at[1] if line else ''}{line}\n" for line in table(name, verbs, own)), text, flags=re.M)
        with open(f"{folder}/{file}", "w", encoding="utf-8") as output:
            output.write(made)
        print(f"{folder}/{file}")
    return 0


if __name__ == "__main__":
    sys.exit(main())
