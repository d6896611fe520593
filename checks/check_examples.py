#!/usr/bin/env python3
"""Runs the examples of these pages, of README.md and of the examples' own pages with the built program, and prints where a page
says something else, and last 'N passed, M failed'.

  check_examples.py                   every page
  check_examples.py PAGE..            these pages
  check_examples.py --program PATH    another program than PAPYRUS_PROGRAM in the environment, or the one that was built last

What is run is in the fences of a page, in their order. Under each heading of the second level a new folder begins, with the
launcher `papyrus` and the folder `examples` in it, unless the page has changed to another folder by `cd`. A page of an example
begins in the folder of that example. The launcher is on the PATH.

  papyrus A.psc, json s.json,     the file of this name; sh, makefile and yaml likewise
  listing J.txt                   a listing or a journal
  hex A.pex                       the file with these bytes
  papyrus                         A.psc, whose OnInit has these lines; or, where they begin with ScriptName, A.psc itself
  listing                         J.txt, these lines behind those of the page's last fence `listing J.txt`
  console                         commands behind `$ `, each with what it prints; `..` stands for lines that are left out
  (nothing)                       where it begins with `$ `, the same, but that what isn't shown isn't compared
  (nothing)                       where it is one line of a refusal: what a command tells of the files since the last heading
  (nothing)                       else, where the page has changed to another folder: lines of a file of that folder
  (another word)                  isn't looked at

A table that begins with a column of turns is compared with the page's last command `run` (turn_tables.py). One with the columns `Journal` and `Script`
has all lines of the journal that the page's last command `journal` wrote, in their order, each in backticks, beside lines of the scripts.
"""
import argparse
import os
import pathlib
import re
import shutil
import subprocess
import sys
import tempfile
import turn_tables

ROOT = pathlib.Path(__file__).resolve().parent.parent
DOCS = ROOT / "docs"
BUILT = ROOT / "crates" / "papyrus" / "out"
LAST_BUILT = max(BUILT / "papyrus", BUILT / "unproved" / "papyrus", key=lambda path: path.stat().st_mtime if path.exists() else 0)
PROGRAM = pathlib.Path(os.environ.get("PAPYRUS_PROGRAM") or LAST_BUILT)
EXAMPLES = ROOT / "examples"
TOOLS = ROOT / "tools"
REFUSAL = re.compile(r"[^ ]+: (?:[^ ]+ )?([LSNKPGVCJ])\d+ [A-Za-z]+")
SECONDS = 60
JOURNAL_TABLE = re.compile(r"\| Journal \| Script \|")
# Tools that a page may use where the machine has them.
OPTIONAL = {"make"}


def fences(text):
    """The fences of a page with their first words, its headings and its tables of turns: (line, kind, name, lines)."""
    lines = text.splitlines()
    at = 0
    while at < len(lines):
        heading = re.match(r"(#+) ", lines[at])
        if heading:
            yield at + 1, "heading", heading.group(1), []
        elif lines[at].startswith("```"):
            end = lines.index("```", at + 1)
            kind, _, name = lines[at][3:].partition(" ")
            yield at + 1, kind, name, lines[at + 1 : end]
            at = end
        elif turn_tables.TABLE.match(lines[at]) or JOURNAL_TABLE.match(lines[at]):
            end = next((place for place in range(at, len(lines)) if not lines[place].startswith("|")), len(lines))
            yield at + 1, "turns" if turn_tables.TABLE.match(lines[at]) else "journal", "", lines[at:end]
            at = end
        at += 1


def agrees(wanted, found):
    """Whether the found lines are the wanted ones, where `..` stands for any lines."""
    if not wanted:
        return not found
    if wanted[0] == "..":
        return any(agrees(wanted[1:], found[at:]) for at in range(len(found) + 1))
    return bool(found) and wanted[0] == found[0] and agrees(wanted[1:], found[1:])


def stripped(text):
    """The lines that aren't empty, without blanks before and behind, each with a line feed before and behind it."""
    return "\n" + "".join(f"{line.strip()}\n" for line in text.splitlines() if line.strip())


class Page:
    """One page while its fences are gone through."""

    def __init__(self, path, program):
        self.path = path
        self.program = program
        self.room = None
        self.place = None
        self.base = []
        self.last_run = None
        self.last_journal = None
        self.names = []
        self.wrong = []
        self.count = 0

    def enter(self, room):
        """Begins a new folder."""
        self.room = self.place = room
        if EXAMPLES in self.path.resolve().parents:
            self.place = room / self.path.resolve().parent.relative_to(EXAMPLES.parent)
        shutil.copytree(EXAMPLES, room / "examples", ignore=shutil.ignore_patterns("*.pex"))
        helpers = f'case ${{1-}} in help) exec python3 "{TOOLS}/words.py" "$@" ;; explain | view | picture | explore) helper=$1; shift; PAPYRUS_PROGRAM="{self.program}" exec python3 "{TOOLS}/$helper.py" "$@" ;; esac'
        (room / "papyrus").write_text(f'#!/bin/sh\n{helpers}\nexec "{self.program}" "$@"\n')
        (room / "papyrus").chmod(0o755)

    def lay(self, name, content):
        (self.place / name).parent.mkdir(parents=True, exist_ok=True)
        (self.place / name).write_bytes(content)
        if name not in self.names:
            self.names.append(name)

    def shell(self, command):
        ran = subprocess.run(
            ["sh", "-c", command],
            cwd=self.place, stdout=subprocess.PIPE, stderr=subprocess.STDOUT, stdin=subprocess.DEVNULL, timeout=SECONDS,
            env={**os.environ, "COLUMNS": "100", "PATH": f"{self.room}:{os.environ['PATH']}"},
        )
        return ran.stdout.decode("utf-8", "backslashreplace").splitlines()

    def compare(self, line, command, wanted):
        if command.startswith("cd "):
            self.place = (self.place / command[3:]).resolve()
            return
        if command.split()[0] in OPTIONAL and not shutil.which(command.split()[0]):
            return
        self.count += 1
        if re.match(r"(\S*/)?papyrus run ", command):
            self.last_run = command
        if re.match(r"(\S*/)?papyrus journal ", command):
            self.last_journal = self.place / command.split()[3]
        found = self.shell(command)
        if not agrees(wanted, found):
            self.wrong.append(f"{self.path}:{line}: {command}")
            self.wrong += [f"  page  {text}" for text in wanted] + [f"  found {text}" for text in found[:20]]

    def console(self, line, lines, whole=True):
        command, wanted = None, []
        for text in [*lines, "$ "]:
            if not text.startswith("$ "):
                wanted.append(text)
                continue
            if command is not None:
                self.compare(line, command, wanted if wanted or whole else [".."])
            command, wanted = text[2:], []

    def refusal(self, line, text, letter):
        ending = {"P": ".pex", "G": ".txt", "V": ".txt", "J": ".journal"}.get(letter, ".psc")
        files = [name for name in self.names if name.endswith(ending)]
        if letter == "P":
            command = f"papyrus check {files[-1]}"
        elif letter == "G":
            command = f"papyrus asm {files[-1]} new.pex"
        elif letter == "J":
            command = f"papyrus waits {files[-1]}"
        elif letter == "C":
            command = " ".join(["papyrus run", *(name for name in self.names if name.endswith(".json")), *files])
        elif letter == "V":
            values = [name.replace(".txt", ".pex") for name in files]
            scene = '{"version":1,"instances":[],"calls":[],"order":"round","turns":0}'
            self.lay("scene.json", scene.encode())
            steps = [f"papyrus asm {text} {value}" for text, value in zip(files, values)]
            command = " && ".join([*steps, " ".join(["papyrus exec scene.json", *values])])
        else:
            command = " ".join(["papyrus compile", *files])
        self.compare(line, command, [text])

    def excerpt(self, line, lines):
        """Compares the lines with those of the files of the folder, whatever blanks they begin with."""
        self.count += 1
        wanted = stripped("\n".join(lines))
        files = [path for path in self.place.rglob("*") if path.suffix in (".psc", ".json", ".txt")]
        if not any(wanted in stripped(path.read_text()) for path in files):
            self.wrong.append(f"{self.path}:{line}: these lines stand in no file of {self.place.name}")

    def turns(self, line, lines):
        self.count += 1
        faults = ["no run stands before it"]
        if self.last_run:
            faults = turn_tables.faults(self.program, self.place, self.last_run, lines)
        if faults:
            self.wrong.append(f"{self.path}:{line}: a table of turns of {self.last_run}")
            self.wrong += [f"  {fault}" for fault in faults]

    def journal(self, line, lines):
        """Compares a table's first column with the journal, and its second with the scripts of the folder."""
        self.count += 1
        cells = [re.split(r"(?<!\\)\|", row)[1:3] for row in lines[2:]]
        told, scripts = (re.findall(r"`([^`]+)`", "\n".join(row[at] for row in cells)) for at in (0, 1))
        there = self.last_journal.read_text().splitlines() if self.last_journal and self.last_journal.exists() else []
        if told != there:
            at = next((number for number, (one, other) in enumerate(zip(told, there), 1) if one != other), min(len(told), len(there)) + 1)
            self.wrong.append(f"{self.path}:{line}: a table of another journal, from its line {at}")
            return
        written = stripped("\n".join(path.read_text() for path in self.place.glob("*.psc")))
        missing = [text for text in scripts if stripped(text) not in written]
        if missing or not scripts:
            self.wrong.append(f"{self.path}:{line}: a table of a journal, with a line of no script: {missing}")

    def script(self, name, lines):
        if not name and not lines[0].lower().startswith("scriptname"):
            lines = ["ScriptName A", "Event OnInit()", *lines, "EndEvent"]
        self.lay(name or "A.psc", "".join(text + "\n" for text in lines).encode())

    def listing(self, name, lines):
        if name == "J.txt":
            self.base = lines
        elif not name:
            name, lines = "J.txt", [*self.base, *lines]
        self.lay(name, "".join(text + "\n" for text in lines).encode())

    def fence(self, line, kind, name, lines):
        if kind == "turns":
            self.turns(line, lines)
        elif kind == "journal":
            self.journal(line, lines)
        elif kind == "papyrus":
            self.script(name, lines)
        elif kind == "listing":
            self.listing(name, lines)
        elif kind == "hex":
            self.lay(name, bytes.fromhex("".join(text.split("#")[0] for text in lines)))
        elif kind in ("json", "sh", "makefile", "yaml") and name:
            self.lay(name, "".join(text + "\n" for text in lines).encode())
        elif kind == "console" or (kind == "" and lines and lines[0].startswith("$ ")):
            self.console(line, lines, kind == "console")
        elif kind == "" and len(lines) == 1 and self.names and REFUSAL.fullmatch(lines[0]):
            self.refusal(line, lines[0], REFUSAL.fullmatch(lines[0]).group(1))
        elif kind == "" and self.place != self.room:
            self.excerpt(line, lines)

    def run(self):
        with tempfile.TemporaryDirectory(prefix="papyrus-docs-") as top:
            for line, kind, name, lines in fences(self.path.read_text()):
                if self.room is None or (kind == "heading" and len(name) <= 2 and self.place == self.room):
                    self.enter(pathlib.Path(tempfile.mkdtemp(dir=top)))
                if kind == "heading":
                    self.names = []
                else:
                    self.fence(line, kind, name, lines)


def main():
    parser = argparse.ArgumentParser(description=__doc__, formatter_class=argparse.RawDescriptionHelpFormatter)
    parser.add_argument("pages", nargs="*", type=pathlib.Path)
    parser.add_argument("--program", type=pathlib.Path, default=PROGRAM)
    words = parser.parse_args()
    if not words.program.exists():
        print("the program isn't built: run ./papyrus --version first")
        return 2
    count, wrong = 0, []
    for path in words.pages or [ROOT / "README.md", *sorted(DOCS.rglob("*.md")), *sorted(EXAMPLES.rglob("*.md"))]:
        page = Page(path, words.program.resolve())
        page.run()
        count += page.count
        wrong += page.wrong
    failed = sum(not text.startswith("  ") for text in wrong)
    print("\n".join([*wrong, f"{count - failed} passed, {failed} failed"]))
    return 1 if failed or not count else 0


if __name__ == "__main__":
    sys.exit(main())
