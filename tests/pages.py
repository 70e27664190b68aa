#!/usr/bin/env python3
"""Compares what the pages say about this repository with its files (the tree).

    tests/pages.py [--headline]

In README, CONTRIBUTING, CHANGELOG, docs/, must-fail/README.md and the README of each crate

- each link leads to a file and a heading that exist;
- each path and file name in code quotes exists, and each name that looks like code (with `::` or `_`, or of several words)
  occurs in a file that is not a page;
- each number of crates, transcripts and the like is right; a number with commas occurs in a file that is neither a page
  nor a test, unless the page reports measurements.

The comment of each enum in NUMBERED, and the tests, number its variants in the order in which they are declared.

cal_base re-exports everything public of the crates that it names, and cal_read everything public of cal_stamp and
cal_timer.

Each definition is in specs/rules/ or specs/computed/. From specs/computed/, rules cite only the functions that
docs/MAP.md names, each with the law that ties it to a rule. The clause `headline` of `work` and the laws of cal_report
rest only on files in specs/rules/ and on such functions, and docs/MAP.md says on how many files; `tests/pages.py
--headline` lists these definitions. docs/HEADLINE.md shows formal text as it is in its files. README quotes its
sentence, has figures of docs/SPEED.md and a link to each page; docs/PROVED.md names each crate, and
docs/MAP.md each crate and each script of ./test. Each must-fail edit that a page names exists in the tree, and so does
each edit in the table of must-fail/README.md. The README of a crate quotes code of the tests that it names. The outputs
that the pages show are tested by tests/examples.py, tests/recipes.py and tests/differences.py.

The kit that CONTRIBUTING names and the kit installed here have the same logic. If they don't, or if there is no `rt`, this is
skipped. The last line is 'N passed, M failed', with ', 1 skipped' in that case."""

import functools
import glob
import os
import re
import shutil
import subprocess
import sys

ROOT = os.path.dirname(os.path.dirname(os.path.realpath(__file__)))
# The page that names the must-fail edits that stay, each as CRATE/EDIT.
PLANTED = "must-fail/README.md"
PAGES = ["README.md", "CONTRIBUTING.md", "CHANGELOG.md", PLANTED]
FORMAL = [
    "crates/cal_report/specs/rules/Headline.antt",
    "crates/cal_spec/specs/rules/NormalForm.antt",
    "crates/cal_report/src/laws.rt",
    "crates/cal_work/specs/rules/ProgramHeadline.antt",
    "crates/cal_work/src/arguments_to_bytes.rt",
]
MEASURED = ["docs/SPEED.md"]
PUBLIC = re.compile(r"^pub (?:use [\w:]*::(\w+|\{[^}]*\})|(?:mod|fn|struct|enum|trait|type|const) (\w+))", re.M)
DEFINITIONS = re.compile(r"crates/\w+/specs/(?!Lib\b|(?:rules|computed)\.antt)([\w/]+)\.antt")
# The file with the function `work`, one clause of which is the headline, and the file of the laws about it.
HEADLINE = "crates/cal_work/src/arguments_to_bytes.rt"
LAWS = "crates/cal_report/src/laws.rt"
# The crates that stand for others, each with these others. An empty list stands for all crates that the crate names.
FACADES = {"cal_base": [], "cal_read": ["cal_stamp", "cal_timer"]}
# The definition that the laws describe, so what it uses isn't followed.
SUBJECT = ("cal_report.specs.rules.RunReport", "report")
USE = re.compile(r"^(?:ghost )?use Rattle\.(cal_\w+\.specs\.[\w.]+?)(?:\.\{(.*)\}| as (\w+));?$", re.M)
DEFINED = re.compile(r"(?:(?:abbrev|unfoldable|pub|record|data) )*([^\s:({]+)")
LINK = re.compile(r"\[[^\]]*\]\(([^)\s]+)\)")
QUOTED = re.compile(r"`([^`\n]+)`")
PATH = re.compile(r"(crates|tests|docs|man|completions|packaging|specs|src)/[\w./*-]*")
FILE = re.compile(r"(?:\w+/)*[\w*-]+\.(antt|rt|edit|md|txt|py)")
NAME = re.compile(r"[A-Za-z]\w*(::\w+)*(\(\))?")
COUNT = re.compile(r"(\d[\d,]*) (crates|must-fail edits|transcripts|recipes|pages|files of definitions)\b")
LARGE = re.compile(r"\b\d{1,3}(?:,\d{3})+\b")
KIT = re.compile(r"rattle-kit-\S+ logic (\w+)")


def tracked():
    listed = subprocess.run(["git", "ls-files"], cwd=ROOT, capture_output=True, text=True)
    if not listed.returncode:
        return listed.stdout.split("\n")[:-1]
    paths = [os.path.relpath(f"{folder}/{name}", ROOT) for folder, _, names in os.walk(ROOT) for name in names]
    return [path for path in paths if "/out/" not in path and not path.startswith(".git/")]


@functools.cache
def text_of(path):
    with open(f"{ROOT}/{path}", encoding="utf-8", errors="replace") as file:
        return file.read()


def blocks(page, kind):
    """Returns the code blocks of a kind."""
    return re.findall(rf"^```(?:{kind})\n(.*?)^```", text_of(page), re.M | re.S)


def without_blocks(text):
    return re.sub(r"^```.*?^```", "", text, flags=re.M | re.S)


def anchors(text):
    """Returns the anchors of a page's headings, as GitHub makes them."""
    titles = re.findall(r"^#+ (.*)$", without_blocks(text), re.M)
    return {re.sub(r"[^\w -]", "", title.lower()).replace(" ", "-") for title in titles}


def plain(line):
    """Returns a line of code or formal text without its comment, and with single blanks."""
    return " ".join(re.sub(r"(^|\s)(--|//).*", "", line).split())


def joined(text):
    return " ".join(text.split())


class Tree:
    """What the pages are compared with."""

    def __init__(self, files):
        self.files = set(files)
        self.crates = re.findall(r"^(\w+):", text_of("crates.txt"), re.M)
        self.edits = [text_of(path) for path in files if "/must-fail/" in path]
        self.tests = [path for path in files if re.match(r"crates/\w+_tests/", path)]
        others = [path for path in files if not path.endswith(".md")]
        self.words = set(re.findall(r"\w+", " ".join([*others, *map(text_of, others)])))
        product = " ".join(text_of(path) for path in others if path not in self.tests and "/must-fail/" not in path)
        self.numbers = set(re.findall(r"\d+", re.sub(r"(?<=\d)[_,](?=\d)", "", product)))
        self.counts = {
            "crates": len(self.crates),
            "must-fail edits": len(self.edits),
            "transcripts": sum(path.startswith("tests/transcripts/") for path in files),
            "recipes": len(re.findall(r"^## ", text_of("docs/RECIPES.md"), re.M)),
            "pages": sum(path.startswith("docs/") for path in files),
            "files of definitions": len(rests_on()),
        }

    def link(self, page, target):
        """Returns why a link of a page leads nowhere, or None."""
        if re.match(r"\w+:", target):
            return None
        path, _, anchor = target.partition("#")
        inside = os.path.normpath(os.path.join(os.path.dirname(page), path)) if path else page
        if inside not in self.files and not os.path.isdir(f"{ROOT}/{inside}"):
            return f"a link to {target}, which does not exist"
        if anchor and anchor not in anchors(text_of(inside)):
            return f"a link to {target}, which has no such heading"
        return None

    def quoted(self, text):
        """Returns why the tree does not have what is in code quotes, or None."""
        if PATH.fullmatch(text):
            below = text if not text.startswith(("specs/", "src/")) else f"crates/*/{text}"
            exists = glob.glob(f"{ROOT}/{below.replace('NAME', '*').replace('CRATE', '*')}")
            return None if exists else f"the path {text}, which does not exist"
        if FILE.fullmatch(text):
            pattern = re.compile(r"(.*/)?" + re.escape(text).replace(r"\*", ".*").replace("NAME", ".*"))
            return None if any(map(pattern.fullmatch, self.files)) else f"the file {text}, which does not exist"
        looks_like_code = "::" in text or "_" in text.strip("_") or re.match(r"[A-Z][a-z]+[A-Z]\w*$", text)
        if NAME.fullmatch(text) and looks_like_code:
            lost = [word for word in re.findall(r"\w+", text) if word not in self.words]
            return f"the name {text}, which no file has" if lost else None
        return None

    def counted(self, page, text):
        """Yields the counts of a page that are wrong, and its large numbers that no file has."""
        for count, what in COUNT.findall(text):
            if int(count.replace(",", "")) != self.counts[what]:
                yield f"{count} {what}, but there are {self.counts[what]}"
        for number in LARGE.findall(text) if page not in MEASURED else []:
            if number.replace(",", "") not in self.numbers:
                yield f"the number {number}, which no file has"

    def example(self, page):
        """Yields the code in the README of a crate that the tests named there don't have."""
        named = re.findall(r"`([\w/]+\.rt)`", "".join(re.findall(r"the tests \(([^)]*)\)", joined(text_of(page)))))
        code = [plain(line) for block in blocks(page, "rust") for line in block.split("\n")]
        files = [path for path in self.tests if path.endswith(tuple(f"/src/{name}" for name in named))]
        if bool(named) != bool(code) or len(files) < len(named):
            yield "tests without code, code without tests, or tests that do not exist"
        tests = " ".join(joined(text_of(path)) for path in files)
        yield from (f"the code {line}, which these tests don't have" for line in code if line not in tests)


def unnamed(page, names, what):
    """Returns the names that a page doesn't have in code quotes or as a link."""
    found = {*QUOTED.findall(text_of(page)), *LINK.findall(text_of(page))}
    return [f"{what} {name} isn't named" for name in names if name not in found]


def formal(page):
    """Yields the formal lines that the files don't have, and the definitions that are shown only in part."""
    whole = " " + " ".join(plain(line) for path in FORMAL for line in text_of(path).split("\n")) + " "
    lines = [plain(line) for block in blocks(page, "antt|rust") for line in block.split("\n")]
    yield from (f"the formal line {line}, which the files don't have" for line in lines if line and f" {line} " not in whole)
    # A definition ends at an empty line.
    defined = " ".join(plain(line) or "\n" for path in FORMAL for line in text_of(path).split("\n")) + " \n"
    parts = [part for block in blocks(page, "antt") for part in block.split("\n\n")]
    shown = [" ".join(map(plain, part.strip("\n").split("\n"))) for part in parts]
    yield from (f"only a part of {part}" for part in shown if f" {part} \n" not in defined)


def tied():
    """Returns the functions in specs/computed/ that docs/MAP.md names, each with its crate and its law."""
    rows = re.findall(r"^ *- `(\w+)` of `(cal_\w+)`: `(\w+)`(?: of `(cal_\w+)`)?$", text_of("docs/MAP.md"), re.M)
    return {(crate, name): (home or crate, law) for name, crate, law, home in rows}


# The errors that the language can't number, because some variants hold data: each enum with its file.
NUMBERED = {
    "StampFault": "crates/cal_stamp/src/fault.rt",
    "TimerFault": "crates/cal_timer/src/fault.rt",
    "LoadFault": "crates/cal_zone/src/zone_files.rt",
    "CommandFault": "crates/cal_command/src/command_fault.rt",
}


def misnumbered(tree, name):
    """Yields where the numbers of an enum's variants differ from their order: in the enum's comment, or in the tests."""
    enum = re.search(rf"((?:///.*\n)+)(?:#\[.*\n)*pub enum {name} {{\n(.*?)\n}}", text_of(NUMBERED[name]), re.S)
    variants = re.findall(r"^    (\w+)", enum[2], re.M)
    tests = " ".join(text_of(path) for path in tree.tests if path.endswith("/src/faults.rt"))
    data = r"(?:\((?:[^()]|\([^()]*\))*\))?"
    found = {
        "its comment": re.findall(r"^/// \| (\d+) +\| `(\w+)` +\|$", enum[1], re.M),
        "the tests": [(number, variant) for variant, number in re.findall(rf"{name}::(\w+){data},\s*(\d+),", tests)],
    }
    right = [(str(number), variant) for number, variant in enumerate(variants, 1)]
    yield from (f"the numbers of {name} in {where} aren't {right}" for where, numbers in found.items() if numbers != right)


# What only selects a part of something by its name, and so needs no law.
SELECTORS = {("cal_spec", "component"), ("cal_spec", "members_of")}


def of_folders(tree):
    """Yields the files of definitions that are neither in specs/rules/ nor in specs/computed/, and what rules cite from
    specs/computed/ although docs/MAP.md names no law for it."""
    for path in sorted(filter(DEFINITIONS.fullmatch, tree.files)):
        folder = DEFINITIONS.fullmatch(path)[1].split("/")[0]
        if folder not in ("rules", "computed"):
            yield f"{path} is in neither folder"
        module = path.removeprefix("crates/").removesuffix(".antt").replace("/", ".")
        for found, name in cited_by(path, module, all_words(path) if folder == "rules" else ()):
            if ".computed." in found and (found.split(".")[0], name) not in {*tied(), *SELECTORS}:
                yield f"{path} cites {name} of {found}, for which docs/MAP.md names no law"


def laws_named(crate, law):
    """Yields the file and the contract of each law with this name in a crate."""
    for path in glob.glob(f"crates/{crate}/src/**/*.rt", root_dir=ROOT, recursive=True):
        if f"pub fn {law}()" in text_of(path):
            yield path, text_of(path).split(f"pub fn {law}()")[1].split("\n{")[0]


def without_law():
    """Yields the functions of which docs/MAP.md names a law that doesn't mention them."""
    for (crate, name), (home, law) in tied().items():
        if not any(re.search(rf"\b{name}\b", contract) for _, contract in laws_named(home, law)):
            yield f"no law {law} of {home} is about {name} of {crate}"


def withheld_by(facade):
    """Yields what a crate doesn't re-export although it is public in one of the crates that this crate stands for."""
    passed_on = set(re.findall(r"\w+", text_of(f"crates/{facade}/src/lib.rt")))
    named = re.search(rf"^{facade}: ([\w ]*)", text_of("crates.txt"), re.M)[1].split()
    for crate in FACADES[facade] or named:
        for names in PUBLIC.findall(text_of(f"crates/{crate}/src/lib.rt")):
            withheld = [name for name in re.findall(r"\w+", " ".join(names)) if name not in passed_on]
            yield from (f"{name} of {crate}, which {facade} doesn't re-export" for name in withheld)
        for folder in ("specs", "proofs"):
            formal_text = text_of(f"crates/{facade}/{folder}/Lib.antt")
            for name in re.findall(r"^pub mod (\w+)", text_of(f"crates/{crate}/{folder}/Lib.antt"), re.M):
                if not re.search(rf"^pub use Rattle\.{crate}\.{folder}\.{name}\b", formal_text, re.M):
                    yield f"{folder}/{name} of {crate}, which {facade} doesn't re-export"


@functools.cache
def definitions(path):
    """Returns what a file imports from the project, as module and name (None for a whole module), and what each of its
    definitions mentions."""
    text = re.sub(r"(--|//).*", "", text_of(path))
    imported, mentioned, name = {}, {}, ""
    for module, names, alias in USE.findall(text):
        imported.update({word.strip("◌"): (module, word) for word in names.split(", ") if word} if names else {alias: (module, None)})
    for line in USE.sub("", text).split("\n"):
        # A definition begins at the start of a line; its other lines are indented or repeat its name.
        name = DEFINED.match(line)[1] if re.match(r"\w|◌", line) else name
        if name:
            mentioned.setdefault(name, set()).update(words_in(line))
    return imported, mentioned


def words_in(text):
    return re.findall(r"[^\s(){}\[\],;]+", text)


def all_words(path):
    return set().union(*definitions(path)[1].values())


def cited_by(path, module, words):
    """Yields the definitions of the project that words of a file refer to, each as its module and name."""
    imported, mentioned = definitions(path)
    for word in words:
        head, _, tail = word.partition(".")
        if head in imported:
            found, name = imported[head]
            yield found, name or tail
        elif head in mentioned:
            yield module, head


def clause(path, name):
    """Returns the clause with this name in the only contract of a file that has one."""
    begun = text_of(path).split(f"    ensures {name} {{")[1]
    return re.split(r"\n    (?:ensures|requires|//)|\n\{", begun)[0]


def rests_on():
    """Returns the definitions that the headline and its laws rest on, by their files, except for the types of the code.
    In place of a function in specs/computed/, the law that ties it to a rule is followed."""
    left = [*cited_by(HEADLINE, None, words_in(clause(HEADLINE, "headline"))), *cited_by(LAWS, None, all_words(LAWS))]
    seen, found = {SUBJECT}, {}
    while left:
        cited = module, name = left.pop()
        if cited in seen or not module or ".declared." in module:
            continue
        seen.add(cited)
        crate, _, rest = module.partition(".")
        if ".computed." in module and (crate, name) in tied():
            for path, contract in laws_named(*tied()[crate, name]):
                left += cited_by(path, None, words_in(contract))
            continue
        file = f"crates/{crate}/{rest.replace('.', '/')}.antt"
        found.setdefault(file, []).append(name)
        left += cited_by(file, module, definitions(file)[1].get(name, ()))
    return found


def outside_rules():
    """Yields the files outside specs/rules/ that the headline rests on."""
    yield from (f"it rests on {path}" for path in sorted(rests_on()) if "/specs/rules/" not in path)


def quotations(page):
    """Returns what a page quotes in lines that begin with `> `, each quotation as one line."""
    return [joined(re.sub(r"^> ", "", lines, flags=re.M)) for lines in re.findall(r"(?:^> .*\n)+", text_of(page), re.M)]


def of_readme(tree):
    """Yields where README differs from other pages, and the pages that it leaves out."""
    if quotations("docs/HEADLINE.md")[0] not in quotations("README.md"):
        yield "the headline isn't that of docs/HEADLINE.md"
    for row in re.findall(r"^(\| .* \| [\d.]+ \| [\d.]+ \|)$", text_of("README.md"), re.M):
        if not any(line.startswith(row) for line in text_of("docs/SPEED.md").split("\n")):
            yield f"the row {row}, which docs/SPEED.md doesn't have"
    yield from unnamed("README.md", [path for path in tree.files if path.startswith("docs/")], "the page")


def lost_edits(tree):
    """Yields the edits in the table of must-fail/README.md that the tree doesn't have, and a row that names none."""
    rows = re.findall(r"^\| ([^|]*) \| ([^|]*) \| [^|]* \|$", text_of(PLANTED), re.M)[1:]
    for bug, edits in rows or [("the table", "")]:
        named = [path.partition("/") for path in QUOTED.findall(edits)]
        yield from [] if named else [f"no edit for: {bug}"]
        paths = [f"crates/{crate}/must-fail/{name}.edit" for crate, _, name in named]
        yield from (f"the edit {path}, which does not exist" for path in paths if path not in tree.files)


def differences(tree, page):
    """Returns what a page says that doesn't fit the tree."""
    text = without_blocks(text_of(page))
    found = [tree.link(page, target) for target in LINK.findall(text)]
    found += [tree.quoted(quoted) for quoted in QUOTED.findall(text)]
    found += tree.counted(page, text)
    edits = [block for block in blocks(page, "text") if block.startswith("file: ")]
    found += [f"the edit {joined(edit)}, which does not exist" for edit in edits if not any(edit in other for other in tree.edits)]
    if page in ("docs/PROVED.md", "docs/MAP.md"):
        found += unnamed(page, tree.crates, "the crate")
    if page == "docs/MAP.md":
        found += unnamed(page, re.findall(r'\["(tests/[\w/]+\.\w+)"', text_of("test")), "the script")
    if page == "README.md":
        found += of_readme(tree)
    if page == "docs/HEADLINE.md":
        found += formal(page)
    if page == PLANTED:
        found += lost_edits(tree)
    if page.startswith("crates/"):
        found += tree.example(page)
    return sorted({difference for difference in found if difference})


def skipped_kit():
    """Returns why this machine doesn't have a kit with the logic of the one that CONTRIBUTING names, or None if it has."""
    if not shutil.which("rt"):
        return "there is no rt here"
    kit = subprocess.run(["rt", "version"], capture_output=True, text=True).stdout.strip()
    named = KIT.search(text_of("CONTRIBUTING.md"))
    return None if named and kit.endswith(f" logic {named[1]}") else f"CONTRIBUTING names {named and named[0]}, and {kit} is here"


def main():
    if sys.argv[1:] == ["--headline"]:
        print("\n".join(f"{path}: {', '.join(sorted(names))}" for path, names in sorted(rests_on().items())))
        return 0
    files = [path for path in tracked() if os.path.isfile(f"{ROOT}/{path}")]
    tree = Tree(files)
    pages = [*PAGES, *sorted(path for path in files if re.fullmatch(r"docs/\w+\.md", path))]
    pages += [f"crates/{name}/README.md" for name in tree.crates]
    missing = [page for page in pages if page not in tree.files]
    found = {page: differences(tree, page) for page in pages if page not in missing}
    found |= {"the headline": [*outside_rules()], "the definitions": [*of_folders(tree), *without_law()]}
    found |= {facade: [*withheld_by(facade)] for facade in FACADES}
    found |= {name: [*misnumbered(tree, name)] for name in NUMBERED}
    found["the tree"] = [f"there is no {page}" for page in missing]
    for where, wrong in found.items():
        for difference in wrong:
            print(f"tests/pages.py: {where}: {difference}")
    kit = skipped_kit()
    if kit:
        print(f"tests/pages.py: the kit: skipped, since {kit}")
    failed = sum(map(bool, found.values()))
    print(f"{len(found) - failed + (not kit)} passed, {failed} failed" + (", 1 skipped" if kit else ""))
    return 1 if failed else 0


sys.exit(main())
