#!/usr/bin/env python3
"""Tests the manual pages: their form, and whether they have the verbs, options and messages of the programs.

    tests/manual.py PROGRAM TIMERS

PROGRAM is calendar-analyze, and TIMERS is calendar-timers. mandoc or groff must not warn of anything, and no line may
be longer than 80 columns, neither in the source nor as they show the page. Each page names the program's version, and
the verbs of its `--help` in SYNOPSIS and in VERBS. It names the options of the `--help` texts and no others.

For each verb, the section OPTIONS has the options that `--help` of the verb lists and no others, with the same short
forms and the same names of values. An entry of that section belongs to

- the verbs in its first sentence, if this begins "With VERB, VERB and VERB,";
- all verbs but some, if it has a sentence "Not with VERB or VERB.";
- no verb, if the option "is given without a verb";
- all verbs otherwise, as a sentence above the entries has to say.

`help` takes no options. In VERBS, the entry of a verb mentions only options of this verb.

The section DIAGNOSTICS of calendar-analyze has all error messages of that program's crates and no others. Without a
suitable C library, that program ends with the statuses that its page names. The last line is 'N passed, M failed', with
', K skipped' if mandoc and groff are missing, and the status is 1 if a test failed."""

import glob
import os
import re
import shlex
import shutil
import subprocess
import sys
import tempfile

sys.dont_write_bytecode = True
sys.path.insert(0, f"{os.path.dirname(os.path.realpath(__file__))}/lib")
import repository
from repository import ROOT

sys.path.insert(0, f"{ROOT}/completions")
import generate

# For each formatter the command that prints warnings, and the one that shows the page.
FORMATTERS = [
    (["mandoc", "-T", "lint", "-W", "warning"], ["mandoc", "-T", "utf8"]),
    (["groff", "-ww", "-man", "-Tutf8", "-z"], ["groff", "-man", "-Tutf8", "-rLL=80n"]),
]
# What a terminal doesn't show: a character that the next one is printed over, and colours.
UNSEEN = re.compile("(?:.\b|\x1b\\[[0-9;]*m)")
# What the section OPTIONS says above its entries, and what an entry says about the verbs that have the option.
EVERY_VERB = "Each verb except help accepts these options, unless an entry says otherwise."
WITH = re.compile(r"With\n((?:\.BR? \w+(?: ,)?\n(?:and\n)?)+)")
NOT_WITH = re.compile(r"\bNot\s+with\n((?:\.BR? \w+(?: [,.])?\n(?:or\n)?)+)")
NO_VERB = re.compile(r"\bis\s+given\s+without\s+a\s+verb\b")
# The sources of the help texts.
HELP_TEXTS = {"arguments.rt", "clap_command.rt", "verb_help.rt"}
# Messages that the program never prints: names of zones are checked with the command line, and a bad rule is reported as
# one of --local.
NEVER_PRINTED = {"bad zone name", "bad rule"}
# What the program needs from the C library, what a changed copy of the program needs instead, and the status of this
# copy.
LOADED = [(b"libc.so.6\0", b"libX.so.6\0", 127), (b"GLIBC_2.34\0", b"GLIBC_2.99\0", 1)]


def printed(*command):
    ended = subprocess.run(command, stdout=subprocess.PIPE, stderr=subprocess.STDOUT, text=True)
    return ended.stdout + (f"status {ended.returncode}\n" if ended.returncode else "")


def long_lines(text):
    return "".join(f"{line}\n" for line in text.splitlines() if len(line) > 80)


def form_faults(path, source):
    """Returns for each test of a page's form what is wrong."""
    faults = {"long lines": long_lines(source)}
    for warn, show in FORMATTERS:
        if shutil.which(show[0]):
            faults[f"warnings of {show[0]}"] = printed(*warn, path)
            faults[f"long lines shown by {show[0]}"] = long_lines(UNSEEN.sub("", printed(*show, path)))
    return faults


def sources():
    """Returns the paths of the sources of the program's crates, without those of the help texts."""
    crates = [*repository.below("cal_tool", repository.libraries()), "cal_tool"]
    paths = [path for crate in crates for path in glob.glob(f"{ROOT}/crates/{crate}/src/**/*.rt", recursive=True)]
    return [path for path in paths if os.path.basename(path) not in HELP_TEXTS]


def messages_of_sources():
    """Returns the error messages of the sources: their string literals of several words, without help texts and labels."""
    found = set()
    for path in sources():
        with open(path, encoding="utf-8") as source:
            code = re.sub(r"//.*", "", source.read())
        for literal in re.findall(r'"((?:[^"\\]|\\.)*)"', code):
            line = re.split(r"\\n|\n", literal)[0].removeprefix("bad time span: ").removeprefix(": ")
            if re.search(r"\w \w", line) and not line.startswith(" "):
                found.add(line)
    return found - NEVER_PRINTED


def messages_of_page(page):
    """Returns the messages that the section DIAGNOSTICS explains. Those of `clap` begin with "error:"."""
    section = page.partition("\n.SH DIAGNOSTICS\n")[2].partition("\n.SH ")[0]
    return set(re.findall(r'^\.T[PQ]\n\.BI? "?((?!"?error: ")[^"\n]+)', section, re.M))


def as_on_page(option):
    """Returns an option of a help text as the tag of an entry shows it. An ellipsis has three dots there."""
    value = re.sub(r"\.{2,}", "...", option.value)
    short = f"-{option.short}{value and f' {value}'}, " if option.short else ""
    return f"{short}--{option.name}{value and f'={value}'}"


def options_of_help(program):
    """Returns for each verb the options that its help lists, and for "no verb" those that only the help of the program
    lists."""
    text = printed(program, "--help")
    found = {name: set() for name, _ in generate.verbs_in(text)}
    found |= {verb.name: set(map(as_on_page, verb.options)) for verb in generate.verbs_of(program)}
    return {**found, "no verb": set(map(as_on_page, generate.options_in(text))).difference(*found.values())}


def tag_of(line):
    """Returns the text of a line with a font macro. Only `.B` and `.I` put blanks between their arguments."""
    macro, *words = shlex.split(re.sub(r"\\f[BIPR]", "", line))
    return (" " if macro in (".B", ".I") else "").join(words)


def entries(page, title):
    """Returns what a section says above its entries, and for each entry the tag and the text."""
    section = page.partition(f"\n.SH {title}\n")[2].partition("\n.SH ")[0]
    above, *parts = re.split(r"^\.TP\n", f"{section}\n", flags=re.M)
    return above, [(tag_of(line), text) for line, _, text in (part.partition("\n") for part in parts)]


def bold_words(text):
    return set(re.findall(r"^\.BR? (\w+)", text, re.M))


def verbs_of_entry(text, verbs):
    """Returns the verbs that have the option of an entry. `verbs` has those of an entry that doesn't say which."""
    if NO_VERB.search(text):
        return {"no verb"}
    named = WITH.match(text)
    excluded = bold_words("".join(NOT_WITH.findall(text)))
    # A word after "Not with" that isn't one of the verbs becomes one here, so that it is reported.
    return (bold_words(named[1]) if named else verbs) ^ excluded


def unsaid(page):
    """Returns the sentence that the section OPTIONS needs above its entries, if it isn't there."""
    above = " ".join(re.sub(r"^\.BR? ", "", entries(page, "OPTIONS")[0], flags=re.M).split())
    return "" if EVERY_VERB in above else f"missing on the page: {EVERY_VERB}\n"


def options_of_page(page, verbs):
    """Returns for each verb the options that it has by the section OPTIONS."""
    every = verbs - {"help"}
    found = [(verb, tag) for tag, text in entries(page, "OPTIONS")[1] for verb in verbs_of_entry(text, every)]
    return {verb: {tag for other, tag in found if other == verb} for verb, _ in found}


def option_names(text):
    return set(re.findall(r"--[a-z-]+", text))


def misplaced(page, of_program):
    """Returns a line for each option that the entry of a verb in VERBS mentions, but that the verb doesn't have."""
    known, found = {verb: option_names(" ".join(own)) for verb, own in of_program.items()} | {"help": {"--help"}}, ""
    for tag, text in entries(page, "VERBS")[1]:
        verb = tag.split()[0]
        found += "".join(f"{verb} has no {name}\n" for name in sorted(option_names(text) - known.get(verb, set())))
    return found


def verb_sets(name, page, of_program):
    """Returns for each test of verbs and options those on the page and those of the program."""
    verbs = of_program.keys() - {"no verb"}
    found, none = options_of_page(page, verbs), set()
    sets = {f"options of {verb}": (found.get(verb, none), of_program.get(verb, none)) for verb in of_program | found}
    sets["options"] = option_names(page), option_names(" ".join(set().union(*of_program.values())))
    synopsis = page.partition("\n.SH DESCRIPTION\n")[0]
    sets["verbs in SYNOPSIS"] = set(re.findall(rf"^\.B {name} (\w+)", synopsis, re.M)), verbs
    sets["verbs in VERBS"] = {tag.split()[0] for tag, _ in entries(page, "VERBS")[1]}, verbs
    return sets


def loader_faults(program):
    """Runs copies of the program that need a missing C library, or a later version."""
    found = ""
    with open(program, "rb") as file:
        code = file.read()
    with tempfile.TemporaryDirectory(prefix="manual-") as scratch:
        for number, (needed, other, wanted) in enumerate(LOADED):
            copy = f"{scratch}/{number}"
            with open(copy, "wb") as file:
                file.write(code.replace(needed, other))
            os.chmod(copy, 0o755)
            status = subprocess.run([copy, "timespan", "1s"], capture_output=True).returncode
            found += f"status {status} instead of {wanted} with {other}\n" if status != wanted else ""
    return found


def page_faults(name, program):
    """Returns for each test of a program's page what is wrong."""
    path = f"{ROOT}/man/{name}.1"
    with open(path, encoding="utf-8") as file:
        source = file.read()
    page, faults = source.replace("\\-", "-"), form_faults(path, source)
    options = options_of_help(program)
    faults["options of verbs that no entry names"] = unsaid(page)
    faults["options in VERBS"], sets = misplaced(page, options), verb_sets(name, page, options)
    sets["version"] = set(re.findall(rf'^\.TH .*"({name} [\d.]+)"', page)), {printed(program, "--version").strip()}
    if name == "calendar-analyze":
        faults["status of the loader"] = loader_faults(program)
        sets["messages"] = messages_of_page(page), messages_of_sources()
    for what, (on_page, of_program) in sets.items():
        faults[what] = "".join(f"only on the page: {item}\n" for item in sorted(on_page - of_program))
        faults[what] += "".join(f"missing on the page: {item}\n" for item in sorted(of_program - on_page))
    return {f"{name}: {what}": fault for what, fault in faults.items()}


def main():
    if len(sys.argv) != 3 or not all(os.access(path, os.X_OK) for path in sys.argv[1:]):
        print("usage: tests/manual.py PROGRAM TIMERS", file=sys.stderr)
        return 2
    program, timers = map(os.path.realpath, sys.argv[1:])
    faults = {**page_faults("calendar-analyze", program), **page_faults("calendar-timers", timers)}
    for what, fault in faults.items():
        print("".join(f"tests/manual.py: {what}: {line}\n" for line in fault.splitlines()), end="")
    skipped = 0 if any(shutil.which(show[0]) for _, show in FORMATTERS) else 4
    if skipped:
        print("tests/manual.py: skipped: mandoc and groff are missing, so nothing formats the pages")
    failed = sum(map(bool, faults.values()))
    print(f"{len(faults) - failed} passed, {failed} failed" + (f", {skipped} skipped" if skipped else ""))
    return 1 if failed else 0


sys.exit(main())
