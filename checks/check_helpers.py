#!/usr/bin/env python3
"""Checks the helpers of the launcher, prints what is wrong, and ends with 'N passed, M failed'.

  check_helpers.py                   all of these
  check_helpers.py --program PATH    another program than PAPYRUS_PROGRAM in the environment, or the one that was built last

  rules      `explain` prints all that rules.md says of each rule, and of C4 to C10 what scenes.md says of finding the entry, as plain text that is
             wrapped; a rule is found by its code and its name in any case; and the files of its examples, as they are printed, are refused as it says
  near       of words that name no rule, `explain` lists the rules that are near
  launcher   the launcher knows the helpers and tells of them behind the program's own help, and runs the program on all other words. What `view`
             draws is checked by check_pictures.py
  words      `help` prints what each command takes. Behind the line of words that are no command, and of files of another kind than a command takes, the
             launcher tells what was meant, and the program's own line and status stay; a terminal is told which script compiled files lack. Of words that are
             a command it says nothing
"""
import argparse
import os
import pathlib
import pty
import re
import shutil
import subprocess
import sys
import tempfile

ROOT = pathlib.Path(__file__).resolve().parent.parent
DOCS = ROOT / "docs"
sys.path[:0] = [str(ROOT / "checks"), str(ROOT / "tools"), str(ROOT / "tools" / "shell")]
import check_examples
import check_pages
import explain
import make
import make_rule_index
import view

WIDTHS = (80, 100)
SCENE = '{"version": 2, "instances": [{"name": "a", "script": "A"}], "calls": [], "order": "round", "turns": 1}\n'
JOURNAL = "journal 1\ninstance a\nturn 0\njoin 0 0\nrun 0\ntake 0 0\nrelease 0 0\ndone 0\nend 1\n"
NO_SCRIPT = "is no SCRIPT, whose name ends with .psc"
MISSING = {"SCRIPT": "SCRIPT is missing, a script, whose name ends with .psc in any case", "PEX": "PEX is missing, a compiled file", "N": "N is missing, a number, from 1 to 200 of workers and from 0 to 1,000,000 of turns"}
LISTS = "papyrus help lists the commands"
# What the launcher tells behind the program's line on these words.
TOLD = {
    (): [LISTS],
    ("",): [f"an empty word is no command; {LISTS}"],
    ("--help", "--help"): ["papyrus --help", "--help is one word more than it takes"],
    ("--help", ""): ["papyrus --help", " is one word more than it takes"],
    ("xyzzy", "a"): [f"xyzzy is no command; {LISTS}"],
    ("Explain", "L4"): ["papyrus explain [RULE]", "Explain is no command, and explain is near it"],
    ("compil", "A.psc"): ["papyrus compile SCRIPT..", "compil is no command, and compile is near it"],
    ("A.psc",): [f"A.psc is a script and no command: papyrus compile A.psc, or papyrus once A.psc", LISTS],
    ("A.pex",): [f"A.pex is a compiled file and no command: papyrus check A.pex, or papyrus show A.pex", LISTS],
    ("once", "explain"): ["papyrus once SCRIPT..", f"explain {NO_SCRIPT}"],
    ("once", "a.json", "A.psc"): ["papyrus once SCRIPT..", "a.json is a scene: papyrus run runs scripts on a scene"],
    ("once", "A.pex"): ["papyrus once SCRIPT..", "A.pex is a compiled file: papyrus exec runs compiled files, on a scene"],
    ("once",): ["papyrus once SCRIPT..", MISSING["SCRIPT"]],
    ("compile", "A.psc", "Hello.txt"): ["papyrus compile SCRIPT..", f"Hello.txt {NO_SCRIPT}"],
    ("compile", ".psc"): ["papyrus compile SCRIPT..", f".psc {NO_SCRIPT}"],
    ("compile", "A.psc", ""): ["papyrus compile SCRIPT..", "an empty word stands where a SCRIPT is to stand"],
    ("compile", *["A.psc"] * 257): ["papyrus compile SCRIPT..", "257 files are named, and it takes 256"],
    ("compile", "a" * 4093 + ".psc", "x"): ["papyrus compile SCRIPT..", f"the word {'a' * 57}... is longer than 4,096 bytes"],
    ("run", "a.json"): ["papyrus run SCENE SCRIPT..", MISSING["SCRIPT"]],
    ("run", "A.psc"): ["papyrus run SCENE SCRIPT..", MISSING["SCRIPT"], "papyrus once runs scripts without a scene"],
    ("run", "a.json", "A.pex"): ["papyrus run SCENE SCRIPT..", "A.pex is a compiled file: papyrus exec runs compiled files"],
    ("run", "A.psc", "A.psc"): ["A.psc is a script, and run takes a scene first; papyrus once runs scripts without a scene"],
    ("exec", "a.json"): ["papyrus exec SCENE PEX..", MISSING["PEX"]],
    ("exec", "a.json", "A.psc"): ["A.psc is a script: papyrus compile writes the compiled files of scripts, and papyrus run runs scripts on a scene"],
    ("exec", "A.pex", "A.pex"): ["A.pex is a compiled file, and exec takes a scene first"],
    ("journal", "a.json", "j", "A.PSC"): ["A.PSC is a script: papyrus compile writes the compiled files of scripts"],
    ("check", "A.psc"): ["A.psc is a script: papyrus compile tells whether scripts break a rule"],
    ("show", "A.psc"): ["A.psc is a script: papyrus compile writes the compiled files of scripts, which papyrus show lists"],
    ("check", "a", "b"): ["papyrus check PEX", "b is one word more than it takes"],
    ("lift", "A.psc"): ["papyrus lift PEX..", "A.psc is a script: papyrus lift takes compiled files, and papyrus compile writes those of scripts"],
    ("hold", "x", "a.json", "h", "A.pex"): ["papyrus hold N SCENE HELD PEX..", "x is no number from 0 to 1,000,000"],
    ("hold", "1000001", "a.json", "h", "A.pex"): ["papyrus hold N SCENE HELD PEX..", "1000001 is no number from 0 to 1,000,000"],
    ("resume", "01", "h"): ["papyrus resume N HELD", "01 is no number from 0 to 1,000,000"],
    ("sample", "201"): ["papyrus sample N", "201 is no number from 1 to 200"],
    ("sample",): ["papyrus sample N", MISSING["N"]],
    ("asm", "a"): ["papyrus asm TEXT PEX", MISSING["PEX"]],
}
FILE = re.compile(r"([\w.]+\.\w+)(, in hexadecimal digits)?:")


def words_of(text):
    """The words of a text in lower case, without what its links lead to."""
    return re.findall(r"\w+", re.sub(r"\]\([^()\s]+\)", "", text).lower())


def parts_of(code, name):
    """The text of the page on a rule without its fences, and the fences; a row's text is that of its cells, with those on finding its entry."""
    page, scenes = (DOCS / "rules.md").read_text(), (DOCS / "scenes.md").read_text()
    row = re.search(rf"^\| {code} {name} \|(.*)\|$", page, re.MULTILINE)
    if row:
        finding = re.search(rf"^\| {code} \|(.*)\|$", scenes, re.MULTILINE)
        return row[1] + (finding[1] if finding else ""), []
    section = re.search(rf"^### {code} {name}\n(.*?)(?=^##|\Z)", page, re.MULTILINE | re.DOTALL)[1]
    return check_pages.prose(section), re.findall(r"^```[^\n]*\n(.*?)^```$", section, re.MULTILINE | re.DOTALL)


def lacks(wanted, found):
    """The first of the wanted things that doesn't come in this order among those that were found, or nothing."""
    rest = iter(found)
    return next((one for one in wanted if one not in rest), "")


def width_fault(lines, width):
    """A line of prose that is too wide and could be broken, or that has marks of the page."""
    for line in lines:
        if line.startswith("    "):
            continue
        if len(line) > width and " " in re.sub(r"`[^`]*`", "", line).strip():
            return f"a line of {len(line)} columns, where {width} are wanted: {line}"
        if re.search(r"\]\(|\*\*|```|^#", line):
            return f"a mark of the page: {line}"
    return ""


def rule_fault(code, name, pages):
    """What `explain` leaves out of a rule or prints wrongly, or nothing."""
    text, fences = parts_of(code, name)
    for width in WIDTHS:
        status, lines, notes = explain.answer([f"{code} {name}"], pages, width)
        if (status, lines[:1], notes) != (0, [f"{code} {name}"], []):
            return f"isn't explained: status {status}"
        missing = lacks(words_of(text), words_of("\n".join(lines))) or width_fault(lines, width)
        if missing:
            return missing
    stripped = check_examples.stripped("\n".join(lines))
    return next((f"lacks this fence: {fence}" for fence in fences if not holds(stripped, fence)), "")


def holds(text, fence):
    """Whether the lines of a fence stand in a text, one behind the other."""
    return check_examples.stripped(fence) in text


def spelling_fault(code, name, pages):
    """A way to name a rule by which it isn't found, or nothing."""
    wanted = explain.answer([f"{code} {name}"], pages, WIDTHS[0])[1]
    ways = [code, code.lower(), f"A.psc:12: {code} {name}", name, name.lower(), name.upper()]
    found = {way: explain.answer([way], pages, WIDTHS[0]) for way in ways}
    for way, (status, lines, _) in found.items():
        alone = lines == wanted if way not in ways[3:] else f"\n{chr(10).join(wanted)}\n" in f"\n{chr(10).join(lines)}\n"
        if status != 0 or not alone:
            return f"isn't found by {way}"
    return ""


def examples_fault(code, name, pages, page):
    """How the program answers otherwise on the files that are printed for a rule than is printed, or nothing."""
    page.place = page.room / code
    page.place.mkdir()
    page.names, page.wrong, file = [], [], ""
    for block in re.split(r"\n\n", "\n".join(explain.answer([f"{code} {name}"], pages, WIDTHS[0])[1])):
        first, *lines = [line[4:] if line.startswith("    ") else line for line in block.split("\n")]
        file = FILE.fullmatch(first)
        if file and file[2]:
            page.lay(file[1], bytes.fromhex("".join(line.split("#")[0] for line in lines)))
        elif file:
            page.lay(file[1], "".join(line + "\n" for line in lines).encode())
        elif not lines and check_examples.REFUSAL.fullmatch(first):
            page.refusal(0, first, code[0])
    return "; ".join(page.wrong)


def check_rules(tally, pages, program):
    rules = make_rule_index.rules()
    indexed = re.findall(r"^\| \[([A-Z]\d+) (\w+)\]", (DOCS / "rule_index.md").read_text(), re.MULTILINE)
    same = [(rule.code, rule.name) for rule in pages.rules] == rules == indexed
    tally.note("" if same else "`explain`, docs/rules.md and docs/rule_index.md have other rules")
    with tempfile.TemporaryDirectory(prefix="papyrus-helpers-") as room:
        page = check_examples.Page(DOCS / "rules.md", program)
        page.enter(pathlib.Path(room))
        for code, name in rules:
            faults = [rule_fault(code, name, pages), spelling_fault(code, name, pages), examples_fault(code, name, pages, page)]
            for fault in faults:
                tally.note(fault and f"explain {code}: {fault}")
        tally.note("" if page.count > len(rules) / 2 else f"of {len(rules)} rules only {page.count} examples were run")


def check_list(tally, pages):
    status, lines, notes = explain.answer([], pages, WIDTHS[0])
    for code, name in make_rule_index.rules():
        times = sum(line.split()[:2] == [code, name] for line in lines)
        tally.note("" if (status, times, notes) == (0, 1, []) else f"explain: {code} {name} stands in {times} lines")
    tally.note("" if max(map(len, lines)) <= WIDTHS[0] else "explain: a line is too wide")


def near_fault(word, wanted, pages):
    """What is wrong with the answer to a word that names no rule, near which these are, or nothing."""
    status, lines, notes = explain.answer([word], pages, WIDTHS[0])
    listed = [" ".join(line.split()[:2]) for line in notes[1:]]
    if (status, lines) != (2, []) or not notes[0].startswith(f"papyrus: there is no rule {word}"):
        return f"explain {word}: status {status}"
    missing = [rule for rule in wanted if rule not in listed]
    return f"explain {word}: lacks {missing[0]}" if missing else ""


def check_near(tally, pages):
    rules = make_rule_index.rules()
    names = {name.lower() for _, name in rules}
    for code, name in rules:
        letter = code[0]
        tally.note(near_fault(f"{code}0000", [f"{code} {name}"], pages))
        tally.note(near_fault(letter.lower(), [f"{one} {other}" for one, other in rules if one[0] == letter], pages))
        for at in range(len(name) if len(name) > explain.PART else 0):
            word = name[:at] + name[at + 1 :]
            tally.note(near_fault(word, [f"{code} {name}"], pages) if word.lower() not in names else "")
    tally.note(near_fault("float", ["L4 FloatLiteral", "L5 FloatWord", "V1 FloatOpcode", "V2 FloatValue"], pages))
    tally.note(near_fault("L4 FloatWord", ["L4 FloatLiteral", "L5 FloatWord"], pages))
    for word in ("", "?", "XYZZY", "--help"):
        notes = explain.answer([word], pages, WIDTHS[0])[2]
        fault = near_fault(word, [], pages)
        tally.note(fault or ("" if len(notes) == 1 else f"explain {word}: lists rules"))


def lay_launcher(root, program):
    """A copy of the launcher in a folder, with this program as the one that was made of its sources, which are none."""
    out = root / "crates" / "papyrus" / "out"
    out.mkdir(parents=True)
    (root / "crates.txt").touch()
    shutil.copy(ROOT / "papyrus", root)
    shutil.copytree(ROOT / "tools", root / "tools", ignore=shutil.ignore_patterns("__pycache__"))
    (root / "docs").symlink_to(DOCS)
    (out / "papyrus").symlink_to(program)
    (out / "papyrus.sources").write_bytes(subprocess.run([root / "tools" / "sources"], stdout=subprocess.PIPE, check=True).stdout)
    return root / "papyrus"


def ran(program, words, folder, **how):
    """The status, standard output and standard error of a program."""
    streams = {"stdin": subprocess.DEVNULL, "stdout": subprocess.PIPE, "stderr": subprocess.PIPE, "cwd": folder}
    process = subprocess.run([str(program), *words], env={**os.environ, "COLUMNS": str(WIDTHS[1])}, **{**streams, **how})
    return process.returncode, process.stdout, process.stderr


def answers(pages, program, folder):
    """What the launcher is to answer to some words."""
    (folder / "journal").write_text(JOURNAL)
    (folder / "a.json").write_text(SCENE)
    for name in ("A.psc", "A.PSC"):
        (folder / name).write_text("ScriptName A\n")
    ran(program, ["compile", "A.psc"], folder)
    status, own, notes = ran(program, ["--help"], folder)
    cases = {("--help",): (status, own + (ROOT / "tools" / "shell" / "helpers.txt").read_bytes(), notes)}
    cases[("-h",)] = cases[("help",)] = cases[("--help",)]
    for words in (("--version",), ("check", "none"), ("compile", "none.psc"), ("exec", "none.json", "none.pex"), ("resume", "1000000", "none"), ("sample", "1")):
        cases[words] = ran(program, words, folder)
    for words, told in TOLD.items():
        status, own, notes = ran(program, words, folder)
        cases[words] = (status, own, notes + "".join(f"    {line}\n" for line in told).encode())
    for words in ((), ("l4",), ("FLOATLITERAL",), ("A.psc:3:", "L4", "FloatLiteral"), ("L0",), ("",)):
        status, lines, notes = explain.answer(words, pages, WIDTHS[1])
        cases[("explain", *words)] = (status, *("".join(line + "\n" for line in text).encode() for text in (lines, notes)))
    (folder / "spoiled").write_text(JOURNAL.replace("take 0 0", "take 0 1"))
    cases[("view", "journal")] = (0, view.drawn([str(folder / "journal")]).encode(), b"")
    cases[("view", "spoiled")] = (12, b"", b"spoiled:6: J1 BadLine\n")
    cases[("view", "missing")] = (3, b"", b"papyrus: cannot read missing\n")
    cases[("view",)] = (2, b"", b"papyrus: usage\n    papyrus view JOURNAL [REPORT..]\n    JOURNAL is missing, a journal of a run\n")
    cases[("explore", "none.json")] = (2, b"", b"papyrus: usage\n    papyrus explore SCENE SCRIPT..\n    SCRIPT is missing, a script, whose name ends with .psc in any case\n")
    cases[("help", "resum")] = (2, b"", b"papyrus: usage\n    resum is no command, and resume is near it\n")
    cases[("help", "a", "b")] = (2, b"", b"papyrus: usage\n    papyrus help takes a command; papyrus help lists the commands\n")
    return cases


def check_help(tally, launcher, program, folder):
    """`help` tells of each command its words and what they are; and so do the words that ask for help behind it, where they are no file."""
    table = make.Table((make.HERE / "commands.table").read_text())
    for command, words, _, sentences in table.commands + table.helpers:
        asked = [["help", command]] if command == "help" or command.startswith("-") else [["help", command], [command, "--help"], [command, "-h"]]
        status, out, notes = ran(launcher, ["help", command], folder)
        lines = out.decode().splitlines()
        good = (status, notes, lines[:1]) == (0, b"", [" ".join(["papyrus", command, words]).rstrip()]) and words_of(sentences) == words_of(" ".join(lines))[len(words_of(lines[0])) :][: len(words_of(sentences))]
        meant = [table.words[word.strip("[].")][1] for word in words.split()]
        tally.note("" if good and all(any(line.endswith(f"  {one}") for line in lines) for one in meant) else f"papyrus help {command}: {status} {out} {notes}")
        for asking in asked:
            tally.note("" if ran(launcher, asking, folder) == (0, out, b"") else f"papyrus {' '.join(asking)} doesn't print the help on {command}")
    (folder / "-h").write_bytes(b"")
    tally.note("" if ran(launcher, ["check", "-h"], folder) == ran(program, ["check", "-h"], folder) else "a file -h isn't checked")


def check_missing(tally, launcher, program, folder):
    """Before a terminal the launcher tells which scripts compiled files lack, and else it doesn't."""
    scripts = {"Base": "", "Child": " extends Base", "User": "\nBase[] Property All Auto\nFunction F(Other o)\nEndFunction", "Other": ""}
    for name, rest in scripts.items():
        (folder / f"{name}.psc").write_text(f"ScriptName {name}{rest}\n")
    ran(program, ["compile", *(f"{name}.psc" for name in scripts)], folder)
    (folder / "Other.pex").unlink()
    lacks = "{} {}, which no file here has: name {} too"
    for files, told in ((["Child.pex"], [("Child.pex", "extends Base", "Base.pex")]),
                        (["User.pex", "Child.pex"], [("Child.pex", "extends Base", "Base.pex"), ("User.pex", "names the script Other", "Other.pex")]),
                        (["Child.pex", "Base.pex"], [])):
        words = ["lift", *files]
        tally.note("" if ran(launcher, words, folder) == ran(program, words, folder) else f"papyrus {' '.join(words)} isn't answered as the program does")
        wanted = ran(program, words, folder)[2] + "".join(f"    {lacks.format(*one)}\n" for one in told).encode()
        master, terminal = pty.openpty()
        status, out, _ = ran(launcher, words, folder, stderr=terminal)
        os.close(terminal)
        found = os.read(master, 1 << 16).replace(b"\r\n", b"\n") if wanted else b""
        os.close(master)
        tally.note("" if (out, found) == (b"", wanted) and (status == 0) == (not told) else f"papyrus {' '.join(words)} before a terminal: {status} {found} and not {wanted}")


def check_launcher(tally, pages, program):
    with tempfile.TemporaryDirectory(prefix="papyrus-helpers-") as room:
        folder = pathlib.Path(room).resolve()
        launcher = lay_launcher(folder, program)
        for words, wanted in answers(pages, program, folder).items():
            found = ran(launcher, words, folder)
            tally.note("" if found == wanted else f"papyrus {' '.join(words)}: {found} isn't {wanted}")
        with open("/dev/full", "wb") as full:
            for words in (["--help"], ["explain", "l4"], ["view", "journal"]):
                found = ran(launcher, words, folder, stdout=full)
                tally.note("" if found == (4, None, b"papyrus: cannot write\n") else f"papyrus {' '.join(words)}, where no room is: {found}")
        check_help(tally, launcher, program, folder)
        check_missing(tally, launcher, program, folder)
        (folder / "docs").unlink()
        found = ran(launcher, ["explain", "l4"], folder)
        wanted = (3, b"", f"papyrus: cannot read {folder}/docs/rules.md\n".encode())
        tally.note("" if found == wanted else f"papyrus explain without its page: {found}")


def main():
    parser = argparse.ArgumentParser(description=__doc__, formatter_class=argparse.RawDescriptionHelpFormatter)
    parser.add_argument("--program", type=pathlib.Path, default=check_examples.PROGRAM)
    words = parser.parse_args()
    if not words.program.exists():
        print("the program isn't built: run ./papyrus --version first")
        return 2
    tally, pages, program = check_pages.Tally(), explain.read_pages(), words.program.resolve()
    check_rules(tally, pages, program)
    check_list(tally, pages)
    check_near(tally, pages)
    check_launcher(tally, pages, program)
    print("\n".join([*tally.wrong, f"{tally.passed} passed, {len(tally.wrong)} failed"]))
    return 1 if tally.wrong else 0


if __name__ == "__main__":
    sys.exit(main())
