#!/usr/bin/env python3
"""Runs the black-box cases on the built program, side by side, and prints 'N passed, M failed'.

A case is a folder COMMAND/NAME here. `args` holds the words, one a line; a word may have escapes such as \\xff for bytes that aren't text.
Its other files but those named below are copied into a folder of their own, in which the program runs. A file NAME.hex holds
hexadecimal digits, with comments from `#` to the line's end, and NAME is laid there with these bytes.

What is done before the run, and to it:
  generate   a Python program that makes large inputs in that folder
  earlier    commands, one a line with a blank between words, which the program runs before and which must do well: so a compiled
             file can stand in a case as its listing
  closed     names the streams (out, notes) that refuse every write
  room       the most bytes that standard output, and each file that is written, can take
  memory     the most bytes of data that the program can have

What is expected:
  status     the exit status, 0 where there is no such file
  out, notes standard output and standard error, nothing where there is no such file
  after      a folder of the files that are there afterwards beside those that were; no others may be
  listed     a folder of the listings of compiled files that are there afterwards
  made       the names of files that are there afterwards, whatever they hold
  judge      a Python program that looks at that folder afterwards, and fails where something is wrong

Expected files are written by hand: this program never writes one.

A file NAME.rows here has cases that are small or differ in little, those of a command or of a theme, which are run as the folders are. It
looks like this:

  # a comment; blank lines are skipped outside of [file ..]
  [file A.psc]
  ScriptName A
  @1
  [words] compile A.psc
  [rows]
  Int x = 1.5  =>  5 A.psc:2: L4 FloatLiteral
  Int x  =>  0

  [file NAME]      the text of a file that each row below is laid with, to the next line that begins with `[`. `@1` to `@9` stand for the
                   fields of the row. NAME.hex is as above. A second section of the same name takes the place of the first.
  [file NAME] ..   such a text of one line, without a line feed behind it
  [words] ..       the program's words for the rows below, with blanks between them; they may hold fields too
  [earlier] ..     a command that runs before, as above; it may stand several times
  [out] ..         the standard output of rows that end with 0, with `@0` for the answer that stands in the row
  [rows]           the rows follow
  [anew]           drops all files and words that stand above

A row is its fields with ` | ` between them, `  =>  `, the status, a blank, and without its last line feed all that is written to
standard output where the status is 0, and else to standard error; the other of them has nothing. Each field is used, but for empty
ones. In fields, answers, words and [out] `\\n`, `\\r`, `\\t`, `\\\\`, `\\|` and `\\xNN` are escapes, and `\\{ab\\n*300}` is a text 300 times. Files are
there afterwards as they were before, but for those that `compile`, `asm`, `lift`, `upgrade`, `journal` and `hold` write where they end with 0.

  run.py            every case
  run.py NAME..     these cases: COMMAND/NAME of a folder, NAME of a file of rows, NAME:LINE of a row
  run.py -j N       N cases at a time

Where the environment has PAPYRUS_PROGRAM, that program is run, and else the one that was built last.
"""
import concurrent.futures
import difflib
import os
import pathlib
import subprocess
import sys
import tempfile

import rows

CASES = pathlib.Path(__file__).resolve().parent
BUILT = CASES.parent / "crates" / "papyrus" / "out"
# The program that PAPYRUS_PROGRAM names, else the one that was built last, with proofs or without.
LAST_BUILT = max(BUILT / "papyrus", BUILT / "unproved" / "papyrus", key=lambda path: path.stat().st_mtime if path.exists() else 0)
PROGRAM = pathlib.Path(os.environ.get("PAPYRUS_PROGRAM") or LAST_BUILT).resolve()
EXPECTED = {"args", "status", "out", "notes", "after", "listed", "made", "judge", "closed", "room", "memory", "generate", "earlier"}
SECONDS = 60
WRITING = {"compile", "asm", "lift", "upgrade", "journal", "hold"}
LIMITS = {"room": "RLIMIT_FSIZE", "memory": "RLIMIT_DATA"}
# Runs the words behind the first two, with the limit that these give.
WITH_LIMIT = """import os, resource, sys
resource.setrlimit(getattr(resource, sys.argv[1]), (int(sys.argv[2]), int(sys.argv[2])))
os.execv(sys.argv[3], sys.argv[3:])"""


def words_of(case):
    path = case / "args"
    lines = path.read_bytes().split(b"\n")[:-1] if path.exists() else []
    return [line.decode("unicode_escape").encode("latin-1") if b"\\" in line else line for line in lines]


def expected_of(case, name):
    path = case / name
    return path.read_bytes() if path.exists() else b""


def laid(name, content):
    """The name and the bytes of a file in the folder of a run."""
    if not name.endswith(".hex"):
        return name, content
    digits = "".join(line.split("#")[0] for line in content.decode().splitlines())
    return name[: -len(".hex")], bytes.fromhex(digits)


def files_in(folder):
    return {str(path.relative_to(folder)): path.read_bytes() for path in folder.rglob("*") if path.is_file()}


def wanted_after(before, folder):
    return {**before, **dict(laid(name, content) for name, content in files_in(folder).items())}


def listing_of(room, name):
    return subprocess.run([str(PROGRAM), "show", name], cwd=room, capture_output=True, timeout=SECONDS).stdout


def judged(case, room):
    """What the case's own program finds wrong."""
    if not (case / "judge").exists():
        return []
    ran = subprocess.run([sys.executable, str(case / "judge"), str(PROGRAM)], cwd=room, capture_output=True, text=True)
    return [] if ran.returncode == 0 else ["judge: " + line for line in (ran.stdout + ran.stderr).splitlines()] or ["judge"]


def difference(what, wanted, found):
    if wanted == found:
        return []
    lines = [text.decode("utf-8", "backslashreplace").splitlines() for text in (wanted, found)]
    changed = list(difflib.unified_diff(*lines, f"expected {what}", f"found {what}", lineterm="", n=2))[:40]
    return changed or [f"{what} differs in the end of its last line"]


def wrong_files(case, before, room):
    """How the files that are there afterwards differ from those that are expected."""
    wrong = []
    wanted = wanted_after(before, case / "after")
    found = files_in(room)
    for name, listing in files_in(case / "listed").items():
        wanted[name] = found.get(name, b"")
        wrong += difference(f"listing of {name}", listing, listing_of(room, name))
    for name in expected_of(case, "made").decode().split():
        wanted[name] = found.get(name, b"")
    for name in sorted(wanted.keys() | found.keys()):
        if name not in wanted or name not in found:
            wrong.append(f"the file {name} is {'not ' if name in wanted else ''}there afterwards")
        else:
            wrong += difference(name, wanted[name], found[name])
    return wrong


def lay(case, room):
    """Lays the case's files into the folder of its run, and tells what is wrong with that."""
    for path in case.iterdir():
        if path.name not in EXPECTED:
            name, content = laid(path.name, path.read_bytes())
            (room / name).write_bytes(content)
    if (case / "generate").exists():
        subprocess.run([sys.executable, str(case / "generate")], cwd=room, check=True)
    return prepared(room, [line.split() for line in expected_of(case, "earlier").decode().splitlines()])


def prepared(room, commands):
    """Runs the commands that come before, and tells which of them doesn't do well."""
    for words in commands:
        ran = subprocess.run([str(PROGRAM), *words], cwd=room, capture_output=True, timeout=SECONDS)
        if ran.returncode != 0:
            refusal = ran.stderr.decode("utf-8", "backslashreplace").splitlines()
            return [f"{' '.join(map(os.fsdecode, words))}: status {ran.returncode}"] + refusal
    return []


def command_of(case, through=()):
    """The command line of a case, behind the words through which the program is run."""
    words = [*through, str(PROGRAM), *words_of(case)]
    for name, limit in LIMITS.items():
        if (case / name).exists():
            return [sys.executable, "-c", WITH_LIMIT, limit, expected_of(case, name).strip(), *words]
    return words


def answer_of(case, room, through=()):
    """The status of a run, and what it wrote to its two streams."""
    closed = expected_of(case, "closed").split()
    with open("/dev/full", "wb") as full, tempfile.TemporaryFile() as out:
        ran = subprocess.run(
            command_of(case, through), cwd=room, stdin=subprocess.DEVNULL, timeout=SECONDS,
            stdout=full if b"out" in closed else out,
            stderr=full if b"notes" in closed else subprocess.PIPE,
        )
        out.seek(0)
        return ran.returncode, out.read(), ran.stderr or b""


def wrong_in_folder(case, room):
    wrong = lay(case, room)
    if wrong:
        return wrong
    before = files_in(room)
    status, out, notes = answer_of(case, room)
    wanted = (expected_of(case, "status") or b"0").strip().decode()
    wrong = [] if str(status) == wanted else [f"status {status}, and {wanted} is expected"]
    wrong += difference("out", expected_of(case, "out"), out)
    wrong += difference("notes", expected_of(case, "notes"), notes)
    wrong += wrong_files(case, before, room)
    return wrong or judged(case, room)


def changed_files(before, after):
    names = sorted(name for name in before.keys() | after.keys() if before.get(name) != after.get(name))
    return [f"the file {name} isn't as it was before" for name in names]


def wrong_in_row(row, room):
    for name, text in row.files.items():
        name, content = laid(name, text.encode("latin-1"))
        (room / name).write_bytes(content)
    earlier, (words,) = ([[word.encode("latin-1") for word in words] for words in each] for each in (row.earlier, [row.words]))
    wrong = prepared(room, earlier)
    if wrong:
        return wrong
    before = files_in(room)
    ran = subprocess.run([str(PROGRAM), *words], cwd=room, stdin=subprocess.DEVNULL, capture_output=True, timeout=SECONDS)
    wrong = [] if str(ran.returncode) == row.status else [f"status {ran.returncode}, and {row.status} is expected"]
    answer = row.answer.encode("latin-1") + b"\n" if row.answer else b""
    out, notes = (answer, b"") if row.status == "0" else (b"", answer)
    wrong += difference("out", out, ran.stdout) + difference("notes", notes, ran.stderr)
    if row.status == "0" and row.words[:1] and row.words[0] in WRITING:
        return wrong
    return wrong + changed_files(before, files_in(room))


def run(case):
    """Returns what is wrong with a case, as lines, none where it passes."""
    if isinstance(case, rows.MalformedRow):
        return [case.fault]
    with tempfile.TemporaryDirectory(prefix="papyrus-case-") as room:
        wrong_in = wrong_in_row if isinstance(case, rows.Row) else wrong_in_folder
        try:
            return wrong_in(case, pathlib.Path(room))
        except subprocess.TimeoutExpired:
            return [f"no end within {SECONDS} seconds"]


def folders():
    """The cases that are folders."""
    return sorted(path.parent for path in CASES.rglob("args"))


def name_of(case):
    return str(case.relative_to(CASES)) if isinstance(case, pathlib.Path) else case.name


def all_cases():
    return folders() + [row for path in sorted(CASES.glob("*.rows")) for row in rows.rows_of(path)]


def cases_named(name):
    """The cases of a name that may have the line of a row behind it."""
    file, _, line = name.partition(":")
    path = CASES / f"{file}.rows"
    found = [CASES / name] if (CASES / name / "args").exists() else []
    if path.exists():
        found += [row for row in rows.rows_of(path) if not line or row.name == name]
    return found or [rows.MalformedRow(name, "there is no such case")]


def main():
    words = sys.argv[1:]
    jobs = os.cpu_count() or 1
    if "-j" in words:
        at = words.index("-j")
        jobs = int(words[at + 1])
        del words[at : at + 2]
    cases = [case for name in words for case in cases_named(name)] or all_cases()
    if not PROGRAM.exists():
        print("the program isn't built: run ./papyrus --version first")
        return 2
    failed = 0
    with concurrent.futures.ThreadPoolExecutor(jobs) as pool:
        for case, wrong in zip(cases, pool.map(run, cases)):
            if wrong:
                failed += 1
                print(f"{name_of(case)}: failed", *(f"    {line}" for line in wrong), sep="\n")
    print(f"{len(cases) - failed} passed, {failed} failed")
    return 1 if failed or not cases else 0


if __name__ == "__main__":
    sys.exit(main())
