#!/usr/bin/env python3
"""Feeds each command of the built program random and spoiled input, and reports what it shouldn't do.

  hostile.py                       100,000 rounds from seed 0, and the files at the limits
  hostile.py --rounds N            N rounds
  hostile.py --seed S              other rounds
  hostile.py --program PATH        another program than crates/papyrus/out/papyrus
  hostile.py --corpus FOLDER..     other files to begin with than those of cases/ and examples/
  hostile.py --no-limits           without the files at the limits and one past them
  hostile.py --limits-only         nothing but these
  hostile.py -j N                  N rounds at a time

A round takes the files and the words of a case or an example, spoils some of them, and asks a command or two: bytes flipped, cut,
doubled, put in or moved from another file; numbers and keys of scenes changed; lines of listings and scripts swapped and mixed; other
words; a text of tokens in any order. In some rounds the program has little memory, or no room for its output. `hostile_limits.py` has the
files at every limit and one past it.

Reported are: an end by a signal, over ten seconds of processor time, a status outside the table of docs/commands.md, notes that
aren't the line of the status, and output or files where a command was refused. It ends with status 1 where something was reported; the input
of such a run is kept in a folder whose name is printed.
"""
import argparse
import collections
import concurrent.futures
import itertools
import json
import multiprocessing
import os
import pathlib
import random
import re
import resource
import shutil
import subprocess
import sys
import tempfile

ROOT = pathlib.Path(__file__).resolve().parent.parent
sys.path.insert(0, str(ROOT / "cases"))
import hostile_limits
import rows

SECONDS = 10
PARTS = 200
NOT_FILES = {"args", "status", "out", "notes", "after", "listed", "made", "judge", "closed", "room", "memory", "generate", "earlier", "README.md", "report"}
COMMANDS = ("once", "run", "compile", "exec", "journal", "waits", "hold", "resume", "check", "show", "asm", "upgrade", "sample")
TURNS = ("0", "1", "2", "7", "1000000", "1000001", "01", "-1", "", "x")
NUMBERS = (0, 1, 2, 3, 9, 127, 128, 129, 255, 256, 1000, 1001, 65535, 65536, 1000000, 1000001, 2**31 - 1, 2**31, 2**32, 2**63, 2**64, -1, -(2**31), -(2**63), -(2**64))
NOTES = {
    1: rb"papyrus: out of memory\n",
    2: rb"papyrus: usage\n",
    3: rb"papyrus: cannot read [^\n]+\n",
    4: rb"papyrus: cannot write\n",
    5: rb"[^\n]+:\d+: [LSNK]\d+ [A-Za-z]+\n",
    6: rb"[^\n]+@\d+: P\d+ [A-Za-z]+\n",
    7: rb"[^\n]+: C\d+ [A-Za-z0-9]+\n",
    8: rb"[^\n]+:\d+: G\d [A-Za-z]+\n",
    9: rb"(?s).+: .* V\d+ [A-Za-z]+\n",
    10: rb"papyrus: not built\n",
    11: rb"[^\n]+: H\d [A-Za-z]+\n",
    12: rb"[^\n]+:\d+: J\d [A-Za-z]+\n",
}


# ---- what a round begins with


class Corpus:
    """The sets of files of cases and examples with their words, those of them that end with status 0, and all files by kind."""

    def __init__(self):
        self.sets = []
        self.good = []
        self.least_memory = 0
        self.kinds = collections.defaultdict(list)
        self.kinds["json"].append(b'{"version":1,"instances":[{"name":"a","script":"A"}],"calls":[],"order":"round","turns":9}\n')

    def take_all(self, folders):
        for folder in folders:
            inner = {path for path in folder.iterdir() if path.is_dir()} | {path.parent for path in folder.rglob("args")}
            for path in sorted(inner):
                self.take(path)
            for path in sorted(folder.glob("*.rows")):
                self.take_rows(path)

    def take_rows(self, path):
        for row in rows.rows_of(path):
            files = dict(laid_as(name, text.encode("latin-1")) for name, text in getattr(row, "files", {}).items() if len(text) < 100_000)
            self.take_set(getattr(row, "words", []), files)

    def take(self, folder):
        files = dict(laid(path) for path in sorted(folder.iterdir()) if path.is_file() and path.name not in NOT_FILES and path.stat().st_size < 100_000)
        args = folder / "args"
        words = args.read_text(errors="replace").splitlines() if args.exists() else []
        self.take_set(words, files)

    def take_set(self, words, files):
        if files:
            self.sets.append((words, files))
        for name, content in files.items():
            self.kinds[kind_of(name)].append(content)


CORPUS = Corpus()


def laid(path):
    """The name and the bytes of a file."""
    return laid_as(path.name, path.read_bytes())


def laid_as(name, content):
    """The name and the bytes with which a file is laid; NAME.hex holds hexadecimal digits."""
    if not name.endswith(".hex"):
        return name, content
    digits = "".join(line.split("#")[0] for line in content.decode().splitlines())
    return name[: -len(".hex")], bytes.fromhex(digits)


def kind_of(name):
    return name.rsplit(".", 1)[-1].lower()


def compiled(program, corpus):
    """Finds the good sets, and adds the compiled files and the listings that the program makes of the corpus to it."""
    for words, files in list(corpus.sets):
        with tempfile.TemporaryDirectory() as room:
            for name, content in files.items():
                (pathlib.Path(room) / name).write_bytes(content)
            if words and subprocess.run([str(program), *words], cwd=room, capture_output=True).returncode == 0:
                corpus.good.append((words, files))
            add_compiled(program, corpus, pathlib.Path(room), files)


def least_memory(program):
    """The bytes of data with which the program begins, and a few more. A limit of all memory would count the stack too, which can't tell that it may not grow."""
    step = 1 << 14
    return next(size * step for size in itertools.count(1) if not subprocess.run(["prlimit", f"--data={size * step}", str(program), "--version"], capture_output=True).returncode) + step


def add_compiled(program, corpus, room, files):
    scripts = [name for name in files if name.endswith(".psc")]
    scenes = [name for name in files if name.endswith(".json")]
    if not scripts or subprocess.run([str(program), "compile", *scripts], cwd=room, capture_output=True).returncode:
        return
    made = {}
    for name in scripts:
        value = name[: -len(".psc")] + ".pex"
        made[value] = (room / value).read_bytes()
        corpus.kinds["pex"].append(made[value])
        corpus.kinds["txt"].append(subprocess.run([str(program), "show", value], cwd=room, capture_output=True).stdout)
    if scenes:
        corpus.good.append((["exec", scenes[0], *made], {**made, scenes[0]: files[scenes[0]]}))
        corpus.good.append((["run", scenes[0], *scripts], files))
        add_runs(program, corpus, room, scenes[0], list(made))


def add_runs(program, corpus, room, scene, values):
    """Adds the journal of a run, and the run held after some turns."""
    if not subprocess.run([str(program), "journal", scene, "made.journal", *values], cwd=room, capture_output=True).returncode:
        corpus.kinds["journal"].append((room / "made.journal").read_bytes())
    for turns in ("0", "3"):
        if not subprocess.run([str(program), "hold", turns, scene, "made.held", *values], cwd=room, capture_output=True).returncode:
            corpus.kinds["held"].append((room / "made.held").read_bytes())


# ---- spoiling


def changed_bytes(chance, data, others):
    at = chance.randrange(len(data) + 1)
    change = chance.randrange(7)
    if change == 0 and at < len(data):
        data[at] ^= 1 << chance.randrange(8)
    elif change == 1 and at < len(data):
        data[at] = chance.randrange(256)
    elif change == 2:
        del data[at : at + chance.choice((1, 2, 4, 40))]
    elif change == 3:
        data[at:at] = chance.randbytes(chance.choice((1, 2, 8)))
    elif change == 4:
        data[at:at] = data[at : at + chance.choice((1, 10, 200))] * chance.choice((1, 2, 30))
    elif change == 5:
        other = chance.choice(others)
        start = chance.randrange(len(other) + 1)
        data[at:at] = other[start : start + chance.choice((4, 30, 300))]
    elif change == 6 and len(data) > 3:
        data[at : at + 4] = chance.choice(NUMBERS).to_bytes(9, "big", signed=True)[-4:]
    return data


def changed_lines(chance, data, others):
    lines = bytes(data).split(b"\n")
    first, second = chance.randrange(len(lines)), chance.randrange(len(lines))
    change = chance.randrange(5)
    if change == 0:
        lines[first], lines[second] = lines[second], lines[first]
    elif change == 1:
        lines.insert(first, lines[second])
    elif change == 2:
        del lines[first]
    elif change == 3:
        lines.insert(first, chance.choice(chance.choice(others).split(b"\n")))
    else:
        words = lines[first].split(b" ")
        words[chance.randrange(len(words))] = chance.choice(chance.choice(lines).split(b" ") + [str(chance.choice(NUMBERS)).encode()])
        lines[first] = b" ".join(words)
    return bytearray(b"\n".join(lines))


def places_of(tree):
    """Each array or object of a JSON text with each of its keys."""
    found, open_parts = [], [tree]
    while open_parts:
        part = open_parts.pop()
        keys = part.keys() if isinstance(part, dict) else range(len(part)) if isinstance(part, list) else ()
        for key in keys:
            found.append((part, key))
            open_parts.append(part[key])
    return found


def changed_scene(chance, data, others):
    """A scene with a key taken out, doubled in another case or moved, or another value."""
    try:
        tree = json.loads(bytes(data))
    except (ValueError, RecursionError):
        return changed_bytes(chance, data, others)
    places = places_of(tree)
    if not places:
        return changed_bytes(chance, data, others)
    part, key = chance.choice(places)
    change = chance.randrange(5)
    other_part, other_key = chance.choice(places)
    if change == 0:
        del part[key]
    elif change == 1:
        part[key] = chance.choice((chance.choice(NUMBERS), chance.randrange(10)))
    elif change == 2:
        part[key] = chance.choice((None, True, "", "round", 1.5, [], {}, {"instance": "a"}, "x" * 1025, [[]] * 3))
    elif change == 3:
        part[key] = json.loads(json.dumps(other_part[other_key]))
    elif isinstance(part, dict):
        part[chance.choice((key.upper(), key.swapcase(), "quantum", "prompt", "latency", "set"))] = part[key]
    return bytearray(json.dumps(tree).encode())


def soup(chance):
    """A script of tokens in any order, in blocks that may fit."""
    words = ("Int", "Bool", "String", "A", "n", "F", "(", ")", "[", "]", ",", ".", "=", "==", "+", "-", "*", "/", "&&", "||", "!", "+=", "If", "ElseIf", "Else", "EndIf",
             "While", "EndWhile", "Return", "Function", "EndFunction", "Event", "EndEvent", "State", "EndState", "Property", "EndProperty", "Auto", "AutoReadOnly",
             "Global", "Native", "New", "As", "Self", "Parent", "None", "True", "Length", "1", "0x80000000", '"a"', "{d}", "Import", "Debug", "Trace", "\\\n", ";/ /;")
    lines = [" ".join(chance.choice(words) for _ in range(chance.randrange(9))) for _ in range(chance.randrange(30))]
    return "\n".join(["ScriptName A", *chance.choice(([], ["Event OnInit()"])), *lines, *chance.choice(([], ["EndEvent", ""]))]).encode()


def spoiled(chance, name, content, corpus):
    """The content of a file with a few changes."""
    kind = kind_of(name)
    others = corpus.kinds[kind] or [content]
    if chance.random() < 0.02:
        return chance.randbytes(chance.choice((0, 1, 30, 3000)))
    if kind == "psc" and chance.random() < 0.1:
        return soup(chance)
    data = bytearray(content)
    for _ in range(chance.choice((1, 1, 1, 2, 3, 8))):
        way = chance.random()
        if kind == "json" and way < 0.7:
            data = changed_scene(chance, data, others)
        elif kind in ("txt", "psc", "journal") and way < 0.6:
            data = changed_lines(chance, data, others)
        else:
            data = changed_bytes(chance, data, others)
    return bytes(data)


# ---- rounds


class Round:
    """Some runs of the program in one folder: their words, and the files."""

    def __init__(self, seed, number, corpus):
        chance = self.chance = random.Random(f"{seed}/{number}")
        self.corpus = corpus
        words, files = chance.choice(corpus.good if chance.random() < 0.6 else corpus.sets)
        self.files = dict(files)
        self.spoil(chance.choice((0, 1, 1, 1, 2, 3)))
        getattr(self, chance.choice(("same", "same", "ordered", "ordered", "other", "other", "relisted", "held", "loose", "loose", "any_words")))(words)
        self.memory = corpus.least_memory + chance.randrange(chance.choice((1 << 16, 1 << 18, 1 << 20))) if chance.random() < 0.1 else None
        self.full = chance.random() < 0.01

    def spoil(self, count):
        for name in self.chance.sample(sorted(self.files), min(count, len(self.files))):
            if not name.endswith(".json") or self.chance.random() < 0.4:
                self.files[name] = spoiled(self.chance, name, self.files[name], self.corpus)

    def named(self, ending):
        return [name for name in self.files if name.endswith(ending)]

    def same(self, words):
        """The case's own words."""
        self.steps = [words] if words else [["once", *self.named(".psc")]]

    def ordered(self, words):
        """The case's own words on a scene with another order, quantum and latency."""
        chance = self.chance
        for name in self.named(".json"):
            try:
                tree = json.loads(self.files[name])
                tree.update(version=2, quantum=chance.choice((1, 2, 5, 1000)), order=chance.choice(("round", [chance.randrange(4) for _ in range(chance.randrange(90))])))
                tree.setdefault("natives", {})["Debug.Trace"] = {"kind": "trace", **chance.choice(({}, {"latency": chance.randrange(5)}, {"prompt": True}))}
                tree["calls"] += [{**chance.choice(tree["calls"]), "turn": chance.randrange(9)} for _ in range(chance.randrange(4))]
                self.files[name] = json.dumps(tree).encode()
            except (ValueError, TypeError, KeyError, AttributeError, IndexError, RecursionError):
                continue
        self.same(words)

    def other(self, words):
        """Another command on the case's files."""
        command = self.chance.choice(COMMANDS)
        if "scene.json" not in self.files and not self.named(".json"):
            self.files["scene.json"] = spoiled(self.chance, "scene.json", self.chance.choice(self.corpus.kinds["json"]), self.corpus)
        scene = self.chance.choice(self.named(".json"))
        turns, values = self.chance.choice(TURNS), self.named(".pex")
        files = {"once": self.named(".psc"), "compile": self.named(".psc"), "run": [scene, *self.named(".psc")], "exec": [scene, *values],
                 "journal": [scene, "New.journal", *values], "waits": self.named(".txt")[:1], "hold": [turns, scene, "New.held", *values], "resume": [turns, *values[:1]],
                 "check": self.named(".pex")[:1], "show": self.named(".pex")[:1], "asm": [*self.named(".txt")[:1], "New.pex"], "upgrade": [scene, "New.json"],
                 "sample": [self.chance.choice(("0", "1", "2", "3", "200", "201", "01", "-1", "", "x", "1 ", "9" * 20))]}
        self.steps = [[command, *files[command]]]

    def relisted(self, words):
        """A spoiled listing, assembled and then run beside the others of its set."""
        listing = self.chance.choice(self.corpus.kinds["txt"] or [b""])
        self.files["New.txt"] = spoiled(self.chance, "New.txt", listing, self.corpus)
        self.files.setdefault("scene.json", self.chance.choice(self.corpus.kinds["json"]))
        self.steps = [["asm", "New.txt", "New.pex"], ["check", "New.pex"], ["exec", "scene.json", "New.pex"]]

    def held(self, words):
        """A spoiled run, which is held and goes on, beside its journal."""
        if not self.named(".pex"):
            self.files["A.pex"] = self.chance.choice(self.corpus.kinds["pex"] or [b""])
        self.files.setdefault("scene.json", self.chance.choice(self.corpus.kinds["json"]))
        scene, names = self.chance.choice(self.named(".json")), self.named(".pex")
        self.steps = [["journal", scene, "New.journal", *names], ["waits", "New.journal"], ["hold", self.chance.choice(TURNS[:5]), scene, "New.held", *names], ["resume", self.chance.choice(TURNS[:5]), "New.held"]]

    def loose(self, words):
        """A spoiled file of one kind alone."""
        kind, command = self.chance.choice((("pex", "check"), ("pex", "show"), ("txt", "asm"), ("json", "upgrade"), ("psc", "once"), ("psc", "compile"), ("pex", "exec"), ("journal", "waits"), ("held", "resume")))
        name = f"A.{kind}"
        content = self.chance.choice(self.corpus.kinds[kind] or [b""])
        self.files = {name: spoiled(self.chance, name, content, self.corpus)}
        behind = {"asm": ["New.pex"], "upgrade": ["New.json"]}.get(command, [])
        if command == "exec":
            self.files["scene.json"] = self.chance.choice(self.corpus.kinds["json"])
            self.steps = [[command, "scene.json", name]]
        elif command == "resume":
            self.steps = [[command, self.chance.choice(TURNS[:5]), name]]
        else:
            self.steps = [[command, name, *behind]]

    def any_words(self, words):
        known = (*COMMANDS, "--help", "--version", *self.files, "", "A.psc", ".psc", "a.psc/", "x" * 4096, "x" * 4097, "x" * 4092 + ".psc", "x" * 4093 + ".psc", "\udcff.psc", "1")
        self.steps = [[self.chance.choice(known) for _ in range(self.chance.randrange(6))]]


def is_long(words, room):
    """Whether the scene of a run, or its number of turns, asks for so much that it may take long."""
    if words[0] == "resume":
        return words[1] == TURNS[4]
    try:
        scene = json.loads((pathlib.Path(room) / words[2 if words[0] == "hold" else 1]).read_bytes())
        return scene["turns"] * scene.get("quantum", 1) > 1_000_000
    except (OSError, ValueError, KeyError, IndexError, TypeError):
        return False


def judged(status, out, notes):
    """What is wrong with the answer of a run, or nothing."""
    if status not in (0, *NOTES):
        return f"status {status}"
    if status == 0:
        return f"status 0 with notes {notes[:200]!r}" if notes else None
    if not re.fullmatch(NOTES[status], notes):
        return f"status {status} with notes {notes[:200]!r}"
    late = notes.endswith(b": H7 TooLarge\n")
    return f"status {status} with output {out[:200]!r}" if out and status not in (1, 4) and not late else None


def asked(program, words, room, memory=None, full=False):
    """The status of one run, and what is wrong with it or nothing. The status is None where the run couldn't begin."""
    limited = ["prlimit", f"--data={memory}"] if memory else []
    before = set(os.listdir(room))
    with open("/dev/full", "wb") as sink:
        try:
            ran = subprocess.Popen([*limited, str(program), *words], cwd=room, stdin=subprocess.DEVNULL, stdout=sink if full else subprocess.PIPE, stderr=subprocess.PIPE)
        except ValueError:
            return None, None
        try:
            resource.prlimit(ran.pid, resource.RLIMIT_CPU, (SECONDS, SECONDS + 1))
        except ProcessLookupError:
            pass
        try:
            out, notes = ran.communicate(timeout=60 * SECONDS)
        except subprocess.TimeoutExpired:
            ran.kill()
            ran.communicate()
            return ran.returncode, f"no end within {60 * SECONDS} seconds"
        what = judged(ran.returncode, out, notes)
    if ran.returncode in (-24, -9) and is_long(words, room):
        return "long", None
    if what is None and ran.returncode not in (0, 1, 4) and set(os.listdir(room)) != before:
        what = f"status {ran.returncode}, and a file was written"
    return ran.returncode, what


def kept(room, words, what):
    folder = pathlib.Path(tempfile.mkdtemp(prefix="hostile-"))
    shutil.copytree(room, folder / "files")
    (folder / "words").write_text("\n".join(words) + "\n" + what + "\n", errors="backslashreplace")
    return f"{what}: papyrus {' '.join(words)[:120]!r} (kept in {folder})"


def steps_depend(steps):
    """Whether later steps take what the first one writes."""
    return len(steps) > 1 and steps[0][0] == "asm" and steps[0][-1] in steps[1]


def played(program, steps, files, memory=None, full=False):
    """How many runs ended with which status, and what is wrong."""
    counts, wrong = collections.Counter(), []
    with tempfile.TemporaryDirectory(dir="/dev/shm" if os.path.isdir("/dev/shm") else None) as room:
        for name, content in files.items():
            (pathlib.Path(room) / name).write_bytes(content)
        for words in steps:
            status, what = asked(program, words, room, memory, full)
            counts[f"{words[0] if words and words[0] in COMMANDS else 'other words'} {status}"] += 1
            if what:
                wrong.append(kept(room, words, what))
            if status != 0 and steps_depend(steps):
                break
    return counts, wrong


def some_rounds(program, seed, numbers):
    """The rounds of these numbers. The corpus is that of the process which began this one."""
    counts, wrong = collections.Counter(), []
    for number in numbers:
        made = Round(seed, number, CORPUS)
        found, bad = played(program, made.steps, made.files, made.memory, made.full)
        counts += found
        wrong += [f"round {number}: {text}" for text in bad]
    return counts, wrong


def all_rounds(program, words):
    """Each part's counts and faults, as it ends."""
    if words.limits_only:
        return
    CORPUS.take_all(words.corpus)
    compiled(program, CORPUS)
    CORPUS.least_memory = least_memory(program)
    parts = [range(start, min(start + PARTS, words.rounds)) for start in range(0, words.rounds, PARTS)]
    with concurrent.futures.ProcessPoolExecutor(words.j, multiprocessing.get_context("fork")) as pool:
        yield from pool.map(some_rounds, *zip(*((program, words.seed, part) for part in parts)))


def all_limits(program, words):
    if words.no_limits:
        return
    for name, steps, files, expected in hostile_limits.all_inputs():
        counts, wrong = played(program, steps, files)
        ended = " ".join(sorted({key.split()[-1] for key in counts}))
        if not wrong and expected not in (None, ended):
            wrong = [f"status {ended}, and {expected} is expected: papyrus {' '.join(steps[0])[:80]}"]
        yield counts, [f"{name}: {text}" for text in wrong]


def parsed():
    parser = argparse.ArgumentParser(description=__doc__, formatter_class=argparse.RawDescriptionHelpFormatter)
    parser.add_argument("--rounds", type=int, default=100_000)
    parser.add_argument("--seed", type=int, default=0)
    parser.add_argument("--program", type=pathlib.Path, default=ROOT / "crates" / "papyrus" / "out" / "papyrus")
    parser.add_argument("--corpus", type=pathlib.Path, nargs="+", default=[ROOT / "cases", ROOT / "examples"])
    parser.add_argument("--no-limits", action="store_true")
    parser.add_argument("--limits-only", action="store_true")
    parser.add_argument("-j", type=int, default=os.cpu_count())
    return parser.parse_args()


def main():
    words = parsed()
    program = words.program.resolve()
    counts, faults = collections.Counter(), 0
    for found, wrong in itertools.chain(all_rounds(program, words), all_limits(program, words)):
        counts += found
        faults += len(wrong)
        for text in wrong:
            print(text, flush=True)
    for ending in sorted(counts):
        print(f"{counts[ending]:8} {ending}")
    print(f"{sum(counts.values())} runs, {faults} wrong")
    return 1 if faults else 0


if __name__ == "__main__":
    sys.exit(main())
