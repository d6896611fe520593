#!/usr/bin/env python3
"""Checks what the pages rest on beside their examples, prints what is wrong, and ends with 'N passed, M failed'.

  check_pages.py                   all of these
  check_pages.py --program PATH    another program than PAPYRUS_PROGRAM in the environment, or the one that was built last

  links      each link of a page leads to a file or folder that is there, and to a heading that is there; and each file that
             a page names is a link
  promises   each definition that a row of proofs.md links to stands in that file, which a crate of the row's heading has or imports
  index      rule_index.md is what make_rule_index.py makes, and each rule is told, and shown by a test or a case
  scenes     scene.schema.json agrees with each scene of the cases and the examples, but for those that C2 and C3 refuse
  crates     crates.txt and architecture.md have the same crates under the same headings
  commands   the completions, the man page and the launcher's lines on helpers are what tools/shell/make.py makes, and its table is that of
             `papyrus --help`, README.md and, for helpers, commands.md
  editors    the files that highlight scripts have the keywords of language.md
"""
import argparse
import functools
import json
import os
import pathlib
import re
import subprocess
import sys

ROOT = pathlib.Path(__file__).resolve().parent.parent
DOCS = ROOT / "docs"
sys.path[:0] = [str(ROOT / "checks"), str(ROOT / "tools" / "shell")]
import check_examples
import json_schema
import make
import make_rule_index
import scene_files

LINK = re.compile(r"\[((?:[^\[\]]|\[[^\[\]]*\])*)\]\(([^()\s]+)\)")
NAMED = re.compile(r"`([\w.-]+/[\w./-]*|[\w-]+\.\w+)`")
SCENE_LIMIT = 16 * 1024 * 1024
# What may be such a spelling of a number, or stand in a text.
UNPLAIN = re.compile(rb"\d[.eE]|-0")


def pages():
    """All pages but those of crates."""
    found = [path for path in ROOT.rglob("*.md") if not {"crates", ".git"} & set(path.relative_to(ROOT).parts)]
    return sorted(found)


def prose(text):
    """The text without its fences, with as many lines."""
    lines, inside = [], False
    for line in text.split("\n"):
        edge = line.startswith("```")
        lines.append("" if inside or edge else line)
        inside ^= edge
    return "\n".join(lines)


@functools.lru_cache(maxsize=None)
def anchors(path):
    """The headings of a page as links name them."""
    found = set()
    for heading in re.findall(r"^#+ (.*)$", prose(path.read_text()), re.MULTILINE):
        slug = re.sub(r"[^\w\- ]", "", heading.lower()).replace(" ", "-")
        number = sum(one == slug or re.fullmatch(re.escape(slug) + r"-\d+", one) is not None for one in found)
        found.add(f"{slug}-{number}" if slug in found else slug)
    return found


class Tally:
    """What was checked, and what of it is wrong."""

    def __init__(self):
        self.passed = 0
        self.wrong = []

    def note(self, fault):
        """One thing that was checked, with what is wrong with it, or nothing."""
        if fault:
            self.wrong.append(fault)
        else:
            self.passed += 1


def link_fault(page, target):
    if re.match(r"[a-z]+:", target):
        return ""
    file, _, anchor = target.partition("#")
    path = (page.parent / file).resolve() if file else page
    if "out" in os.path.relpath(path, ROOT).split(os.sep):
        return f"leads to {file}, which a build makes"
    if not path.exists():
        return f"leads to {file}, which isn't there"
    if anchor and anchor not in anchors(path):
        return f"leads to a heading that {path.name} doesn't have: {anchor}"
    return ""


def check_links(tally):
    for page in pages():
        text = prose(page.read_text())
        name = page.relative_to(ROOT)
        for found in LINK.finditer(text):
            line = text.count("\n", 0, found.start()) + 1
            fault = link_fault(page, found.group(2))
            tally.note(fault and f"{name}:{line}: {found.group(2)} {fault}")
        bare = LINK.sub(lambda found: "\n" * found.group(0).count("\n"), text)
        for found in NAMED.finditer(bare):
            spelled = found.group(1)
            there = any((base / spelled).exists() for base in (ROOT, page.parent))
            if "out" not in spelled.split("/") and (there or spelled.endswith(".antt")):
                line = bare.count("\n", 0, found.start()) + 1
                tally.note(f"{name}:{line}: names {spelled} without a link")


@functools.lru_cache(maxsize=None)
def words_of_crate(crate):
    """All that the code and the definitions of a crate say."""
    files = [path for kind in ("src/**/*.rt", "specs/**/*.antt") for path in (ROOT / "crates" / crate).glob(kind)]
    return "\n".join(path.read_text() for path in files)


def promise_fault(name, crate, file, crates):
    """Why a definition isn't one that these crates cite from a file of a crate, or nothing."""
    text = (ROOT / "crates" / crate / "specs" / f"{file}.antt").read_text()
    if name not in (file, crate) and not re.search(rf"^ *(?:\w+ )*pub (?:\w+ )?{name}\b", text, re.MULTILINE):
        return "isn't defined there"
    module = rf"Rattle\.{crate}\.specs\.{file}\b"
    return "" if crate in crates or any(re.search(module, words_of_crate(one)) for one in crates) else "isn't what the crate cites"


def check_promises(tally):
    crates = []
    for number, line in enumerate((DOCS / "proofs.md").read_text().splitlines(), 1):
        crates = re.findall(r"`(\w+)`", line) if line.startswith("## ") else crates
        for words, crate, file in re.findall(r"\[([^\[\]]*)\]\(\.\./crates/(\w+)/specs/(\w+)\.antt\)", line if line.startswith("|") else ""):
            for name in re.findall(r"`(\w+)`", words):
                fault = promise_fault(name, crate, file, crates)
                tally.note(fault and f"docs/proofs.md:{number}: {name} of {crate}/specs/{file}.antt {fault}")


def check_index(tally):
    there = (DOCS / "rule_index.md").read_text() if (DOCS / "rule_index.md").exists() else ""
    sources, shown = make_rule_index.Sources(), make_rule_index.Shown()
    tally.note("" if there == make_rule_index.page(sources, shown) else "docs/rule_index.md isn't up to date: call checks/make_rule_index.py")
    for fault in make_rule_index.bare(sources, shown):
        tally.note(fault)


class Spelling:
    """Reads a scene, and notes what a schema can't see: how a number is spelled."""

    def __init__(self, text):
        self.plain = True
        hooks = {"parse_float": self.fraction, "parse_int": self.whole} if UNPLAIN.search(text) else {}
        self.value = json.loads(text, **hooks)

    def fraction(self, text):
        self.plain = False
        return float(text)

    def whole(self, text):
        self.plain &= text != "-0"
        return int(text)


def texts_of(value):
    """All texts of a JSON value, keys too."""
    if isinstance(value, str):
        yield value
    for below in [*value, *value.values()] if isinstance(value, dict) else value if isinstance(value, list) else []:
        yield from texts_of(below)


def unsayable(scene):
    """What the scene breaks that a schema can't say, or nothing."""
    if not scene.plain:
        return "a whole number that is spelled with a fraction, an exponent or as -0"
    if any(len(text.encode()) > 1024 >= len(text) for text in texts_of(scene.value)):
        return "a text of over 1,024 bytes and fewer signs"
    return ""


def scene_fault(schema, text, rule):
    """How the schema and the program differ on a scene, or nothing."""
    if rule == "C1" or len(text) > SCENE_LIMIT:
        return ""
    scene = Spelling(text)
    fault = schema.fault(scene.value)
    if rule not in ("C2", "C3"):
        return fault and f"the schema refuses it, and the program doesn't: {fault}"
    return "" if fault or unsayable(scene) else f"the schema accepts it, and it breaks {rule}"


def check_scenes(tally):
    schema = json_schema.Schema(json.loads((DOCS / "scene.schema.json").read_text()))
    for name, text, rule in scene_files.scenes():
        fault = scene_fault(schema, text, rule)
        tally.note(fault and f"{name}: {fault}")


def check_commands(tally, program):
    table = make.Table((make.HERE / "commands.table").read_text())
    for name, text in make.made().items():
        path = make.HERE / name
        same = path.exists() and path.read_text() == text
        tally.note("" if same else f"tools/shell/{name} isn't up to date: call tools/shell/make.py")
    shown = subprocess.run([str(program), "--help"], stdout=subprocess.PIPE, check=True).stdout.decode().splitlines()
    listed = [line for line in shown if line.startswith("  papyrus ")]
    tally.note("" if listed == make.help_lines(table) else "tools/shell/commands.table has other commands than `papyrus --help`")
    page = (DOCS / "commands.md").read_text()
    for helper, words, _, _ in table.helpers:
        tally.note("" if f"\n### `{helper} {words}`\n" in page else f"docs/commands.md has no heading of the helper `{helper} {words}`")
    readme = (ROOT / "README.md").read_text()
    for status, meaning in table.statuses:
        tally.note("" if f"| {status} | {meaning} |" in readme else f"README.md doesn't tell status {status} as tools/shell/commands.table does")


def check_editors(tally):
    """Each file has the keywords once, and the two flags that are names."""
    listed = re.search(r"every other word is a name:\n\n(.*)\.\n", (DOCS / "language.md").read_text())[1].split(", ")
    editors = ROOT / "tools" / "editors"
    vim = re.findall(r"^syntax keyword papyrus(?!Todo)\w+ (.*?)(?: nextgroup=.*)?$", (editors / "vim/syntax/papyrus.vim").read_text(), re.MULTILINE)
    emacs = re.findall(r"^\(defconst papyrus-\w+\s+'\(([^()]*)\)\)$", (editors / "emacs/papyrus-mode.el").read_text(), re.MULTILINE)
    for name, found in (("vim", " ".join(vim)), ("emacs", " ".join(emacs).replace('"', ""))):
        same = sorted(found.split()) == sorted([*listed, "Hidden", "Conditional"])
        tally.note("" if same else f"tools/editors/{name} has other keywords than docs/language.md")


def groups_of(text, heading, crate):
    """The names of crates by the heading that they stand under."""
    groups, under = {}, None
    for line in text.splitlines():
        found = re.fullmatch(heading, line)
        under = found[1] if found else under
        named = re.match(crate, line)
        if named and under:
            groups.setdefault(under, []).append(named[1])
    return groups


def check_crates(tally):
    listed = groups_of((ROOT / "crates.txt").read_text(), r"# ([\w ]+)", r"(\w+):")
    page = (DOCS / "architecture.md").read_text()
    told = groups_of(page[: page.index("## Inside a crate")], r"### ([\w ]+)", r"\| `(\w+)` \|")
    for group in {**listed, **told}:
        same = listed.get(group) == told.get(group)
        tally.note("" if same else f"crates.txt and docs/architecture.md differ in the crates of {group}")


def main():
    parser = argparse.ArgumentParser(description=__doc__, formatter_class=argparse.RawDescriptionHelpFormatter)
    parser.add_argument("--program", type=pathlib.Path, default=check_examples.PROGRAM)
    words = parser.parse_args()
    if not words.program.exists():
        print("the program isn't built: run ./papyrus --version first")
        return 2
    tally = Tally()
    check_links(tally)
    check_promises(tally)
    check_index(tally)
    check_scenes(tally)
    check_commands(tally, words.program.resolve())
    check_editors(tally)
    check_crates(tally)
    print("\n".join([*tally.wrong, f"{tally.passed} passed, {len(tally.wrong)} failed"]))
    return 1 if tally.wrong else 0


if __name__ == "__main__":
    sys.exit(main())
