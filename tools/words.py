#!/usr/bin/env python3
"""Tells of the words of a command line what is meant: the launcher calls it behind the program, whose own line and status stay.

  words.py help WORD..             prints what a command, or a helper of the launcher, takes and does
  words.py behind STATUS WORD..    tells on standard error what to say behind the program's line, where it ended with this status on these words

Behind status 2 that is the command that was meant, with the first word that it doesn't take; where a file of another kind stands in a word's place, what
takes such a file; and behind status 9 which scripts the compiled files name that none of them has. PAPYRUS_PROGRAM in the environment is the program,
which lists compiled files for that. Of `help` the status is 0, or 2 where there is no such command, and 4 where it can't be written.
"""
import ast
import difflib
import os
import pathlib
import signal
import subprocess
import sys
import textwrap

TOOLS = pathlib.Path(__file__).resolve().parent
LONGEST_WORD, MOST_FILES, WIDTH = 4096, 256, 100
MOST_TOLD = 5
NUMBERS = {"sample": (1, 200), "hold": (0, 1_000_000), "resume": (0, 1_000_000)}
ENDINGS = {"SCRIPT": ".psc", "PEX": ".pex"}
KINDS = {".psc": "a script", ".pex": "a compiled file", ".json": "a scene"}
# What is said of a file of a kind where another one is to stand.
COMPILES = "papyrus compile writes the compiled files of scripts, and papyrus run runs scripts on a scene"
INSTEAD = {
    ("run", ".pex"): "papyrus exec runs compiled files",
    ("once", ".pex"): "papyrus exec runs compiled files, on a scene",
    ("once", ".json"): "papyrus run runs scripts on a scene",
    ("compile", ".pex"): "papyrus lift writes sources of compiled files, and papyrus check tells whether one breaks a rule",
    ("check", ".psc"): "papyrus compile tells whether scripts break a rule",
    ("show", ".psc"): "papyrus compile writes the compiled files of scripts, which papyrus show lists",
    ("asm", ".psc"): "papyrus compile writes the compiled files of scripts",
    ("lift", ".psc"): "papyrus lift takes compiled files, and papyrus compile writes those of scripts",
    ("journal", ".psc"): "papyrus compile writes the compiled files of scripts",
    ("hold", ".psc"): "papyrus compile writes the compiled files of scripts",
    ("exec", ".psc"): COMPILES,
}
LISTS = "papyrus help lists the commands"
NO_SCENE = {"run": "papyrus once runs scripts without a scene"}
# The scripts that are always there.
PRELUDE = {"debug", "utility", "scene", "form", "quest", "objectreference"}
NO_SCRIPTS = {"int", "bool", "string", "float", "none", "var", ""}
# Which words of a line of a listing name types or scripts.
NAMING = {"object": (3,), "variable": (2,), "property": (2,), "function": (2,), "read": (1,), "write": (1,), "param": (2,), "local": (2,), "callstatic": (2,)}


class Row:
    """A command or a helper: its name, the forms of its words, what it does in a line, and in sentences."""

    def __init__(self, name, words, line, sentences, of_launcher):
        self.name, self.forms, self.line, self.sentences, self.of_launcher = name, words.split(), line, sentences, of_launcher

    def spelled(self):
        return " ".join(["papyrus", self.name, *self.forms])


def table():
    """The commands and helpers by name, and what each form of a word means."""
    sections, rows = {}, {}
    for line in (TOOLS / "shell" / "commands.table").read_text(encoding="utf-8").splitlines():
        if line.startswith("["):
            rows = sections.setdefault(line.strip("[]"), {})
        elif line and not line.startswith("#"):
            cells = [cell.strip() for cell in line.split("|")]
            rows[cells[0]] = cells
    commands = {name: Row(*cells, section == "helpers") for section in ("commands", "helpers") for name, cells in sections[section].items()}
    return commands, {name: cells[2] for name, cells in sections["words"].items()}


def plain(form):
    """A form without the signs of what may lack or come several times."""
    return form.strip("[].")


def ending(word):
    return next((one for one in KINDS if word.lower().endswith(one)), "")


def near(word, commands):
    """The command that a word may mean."""
    close = difflib.get_close_matches(word.lower().lstrip("-"), [name.lstrip("-") for name in commands], n=1)
    return next((row for name, row in commands.items() if [name.lstrip("-")] == close), None)


def takes(row, form, word):
    """Why a command doesn't take a word in the place of a form, or nothing."""
    kind = plain(form)
    if not word:
        return f"an empty word stands where {'an' if kind == 'N' else 'a'} {kind} is to stand"
    if len(os.fsencode(word)) > LONGEST_WORD:
        return f"the word {shortened(word)} is longer than {LONGEST_WORD:,} bytes"
    if not is_text(word):
        return f"the word {shortened(word)} isn't UTF-8"
    if kind == "N" and row.name in NUMBERS:
        least, most = NUMBERS[row.name]
        good = word.isascii() and word.isdigit() and word == str(int(word)) and least <= int(word) <= most
        return "" if good else f"{shortened(word)} is no number from {least:,} to {most:,}"
    wanted = ENDINGS.get(kind, "") if kind == "SCRIPT" or row.name == "lift" else ""
    if wanted and not (word.lower().endswith(wanted) and len(word) > len(wanted)):
        found = ending(word)
        return f"{shortened(word)} is {KINDS[found] if found not in ('', wanted) else f'no {kind}, whose name ends with {wanted}'}"
    return ""


def is_text(word):
    try:
        word.encode()
    except UnicodeEncodeError:
        return False
    return True


def shortened(word):
    text = word.encode("utf-8", "backslashreplace").decode()
    return text if len(text) <= 60 else f"{text[:57]}..."


def stumble(row, given, meanings):
    """The first word that a command doesn't take, with what takes a file of its kind, or what is missing; a line each."""
    several = row.forms[-1:] and row.forms[-1].rstrip("]").endswith("..")
    forms = row.forms + [row.forms[-1]] * (len(given) - len(row.forms)) if several else row.forms
    for form, word in zip(forms, given):
        why = takes(row, form, word)
        if why:
            return [": ".join([why, *instead(row, word)])]
    if len(given) > len(forms):
        return [f"{shortened(given[len(forms)])} is one word more than it takes"]
    if several and len(given) - len(row.forms) + 1 > MOST_FILES:
        return [f"{len(given) - len(row.forms) + 1} files are named, and it takes {MOST_FILES}"]
    missing = [plain(form) for form in row.forms[len(given) :] if not form.startswith("[")]
    told = [f"{missing[0]} is missing, {meanings[missing[0]]}"] if missing else []
    return told + [line for word in given for line in instead(row, word, NO_SCENE)]


def instead(row, word, others=()):
    """What takes a file of the kind of this word, where the command doesn't."""
    told = INSTEAD.get((row.name, ending(word))) or (row.name in others and ending(word) == ".psc" and others[row.name])
    return [told] if told else []


def of_usage(commands, meanings, words):
    """What to say of words that are no command."""
    row = commands.get(words[0]) if words else None
    if row:
        return [row.spelled(), *stumble(row, words[1:], meanings)]
    if not words:
        return [LISTS]
    first, kind = words[0], ending(words[0])
    if kind in (".psc", ".pex"):
        what = ("papyrus compile", "papyrus once") if kind == ".psc" else ("papyrus check", "papyrus show")
        return [f"{shortened(first)} is {KINDS[kind]} and no command: {what[0]} {shortened(first)}, or {what[1]} {shortened(first)}", LISTS]
    meant = near(first, commands)
    if meant:
        return [meant.spelled(), f"{shortened(first)} is no command, and {meant.name} is near it"]
    return [f"{shortened(first) or 'an empty word'} is no command; {LISTS}"]


def of_files(row, words):
    """What to say where a file was refused that is of another kind than the command takes."""
    if row.name == "run" and ending(words[1]) in (".psc", ".pex"):
        return [f"{shortened(words[1])} is {KINDS[ending(words[1])]}, and run takes a scene first; {NO_SCENE['run']}"]
    if row.forms[:1] == ["SCENE"] and ending(words[1]) == ".pex":
        return [f"{shortened(words[1])} is {KINDS['.pex']}, and {row.name} takes a scene first"]
    for word in words[1:]:
        told = instead(row, word)
        if told and (row.name, ending(word)) != ("compile", ".psc"):
            return [f"{shortened(word)} is {KINDS[ending(word)]}: {told[0]}"]
    return []


class Listing:
    """The scripts that a compiled file has, and those that it names."""

    def __init__(self, name):
        self.name, self.has, self.extends, self.names = name, set(), {}, {}
        self.strings = []
        how = {"stdin": subprocess.DEVNULL, "stdout": subprocess.PIPE, "stderr": subprocess.DEVNULL}
        listing = subprocess.run([os.environ["PAPYRUS_PROGRAM"], "show", name], **how).stdout
        for line in listing.decode("utf-8", "backslashreplace").splitlines():
            self.note(line.split(" "))

    def note(self, words):
        if words[0] == "string":
            self.strings.append(" ".join(words[1:]).strip('"'))
        elif words[0] in NAMING:
            for place in NAMING[words[0]]:
                self.keep(words, place)

    def keep(self, words, place):
        if words[0] == "object":
            self.has.add(self.text(words[1]).lower())
        name = self.text(words[place]) if place < len(words) else ""
        name = name[:-2] if name.endswith("[]") else name
        if name.lower() not in NO_SCRIPTS | PRELUDE:
            (self.extends if words[0] == "object" else self.names).setdefault(name.lower(), name)

    def text(self, word):
        number = word[1:] if word.startswith("#") else ""
        return self.strings[int(number)] if number.isdigit() and int(number) < len(self.strings) else word


def of_missing(words):
    """The scripts that compiled files name and none of them has."""
    listings = [Listing(word) for word in words if word.lower().endswith(ENDINGS["PEX"])]
    there = {name for listing in listings for name in listing.has}
    found = []
    for told, names_of in (("extends", lambda one: one.extends), ("names the script", lambda one: one.names)):
        for listing in listings:
            found += [(listing.name, told, name) for key, name in names_of(listing).items() if key not in there]
            there |= set(names_of(listing))
    lines = [f"{shortened(file)} {told} {name}, which no file here has: {wanted(file, name)}" for file, told, name in found[:MOST_TOLD]]
    return lines + [f"and {len(found) - MOST_TOLD} more are missing"] * (len(found) > MOST_TOLD)


def wanted(file, name):
    """Which file is to be named too."""
    folder = pathlib.Path(file).parent
    beside = next((path for path in sorted(folder.iterdir()) if path.name.lower() == f"{name}.pex".lower()), None) if folder.is_dir() else None
    return f"name {beside} too" if beside else f"name {name}.pex too"


def behind(status, words):
    """The lines behind the program's own."""
    commands, meanings = table()
    row = commands.get(words[0]) if words else None
    if status == 2:
        return of_usage(commands, meanings, words)
    if row is None or len(words) < 2:
        return []
    return of_missing(words[1:]) if status == 9 else of_files(row, words)


def help_of(name):
    """What a command takes and does, or nothing where there is none of this name."""
    commands, meanings = table()
    row = commands.get(name)
    if row is None:
        return []
    width = max([len(plain(form)) for form in row.forms] or [0])
    forms = [f"  {plain(form):{width}}  {meanings[plain(form)]}" for form in dict.fromkeys(row.forms)]
    lines = [row.spelled(), "", *textwrap.wrap(row.sentences, WIDTH), *([""] if forms else []), *forms]
    own = own_words(name) if row.of_launcher else []
    return lines + ["", *own] * bool(own)


def own_words(name):
    """What a helper says of its own words, in the head of its script; nothing of `help`, which is this one."""
    if name == "help":
        return []
    text = ast.get_docstring(ast.parse((TOOLS / f"{name}.py").read_text(encoding="utf-8")))
    return text.replace(f"{name}.py", f"papyrus {name}").splitlines()


def put(stream, lines):
    """Whether these lines were written whole."""
    data = "".join(f"{line}\n" for line in lines).encode("utf-8", "backslashreplace")
    try:
        while data:
            data = data[os.write(stream, data) :]
    except OSError:
        return False
    return True


def helped(names):
    """Prints the help on one command, and gives the status."""
    lines = help_of(names[0]) if len(names) == 1 else []
    if lines:
        if put(1, lines):
            return 0
        put(2, ["papyrus: cannot write"])
        return 4
    meant = near(names[0], table()[0]) if len(names) == 1 else None
    told = [f"{shortened(names[0])} is no command, and {meant.name} is near it"] if meant else [f"papyrus help takes a command; {LISTS}"]
    return 2 if put(2, ["papyrus: usage", *(f"    {line}" for line in told)]) else 4


def main():
    signal.signal(signal.SIGPIPE, signal.SIG_DFL)
    act, *words = sys.argv[1:]
    if act == "help":
        return helped(words)
    put(2, [f"    {line}" for line in behind(int(words[0]), words[1:])])
    return 0


if __name__ == "__main__":
    sys.exit(main())
