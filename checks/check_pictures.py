#!/usr/bin/env python3
"""Checks the pictures of `papyrus view` and `papyrus picture`, prints what is wrong, and ends with 'N passed, M failed'.

  check_pictures.py                  all of these
  check_pictures.py --program PATH   another program than PAPYRUS_PROGRAM in the environment, or the one that was built last

  bars       the bars of each picture, read back from its HTML file, tell the whole journal again, of every example and of 200 journals that are made;
             the rows of instances and the table tell what they and `papyrus waits` do, and the links lead to the longest waits
  reports    what stacks print, and the values of properties, stand where the reports have them, and what may be a lost update is shown, of the examples
             and of reports that are made; and reports that were changed are refused
  refusals   a journal that `papyrus waits` refuses gets the same line and status, and reports of other runs are refused
  cut        of a long run the first 20,000 turns are drawn, and the page says so
  picture    what `picture` draws of each example, of its scripts and of its compiled files, has the journal of the run, all that its reports tell, and the
             calls of the scene; stacks that don't end stand on top, and instances that nobody touches are folded away; files and words are refused as the
             program refuses them, and no other file is written
"""
import argparse
import collections
import json
import os
import pathlib
import random
import re
import subprocess
import sys
import tempfile

ROOT = pathlib.Path(__file__).resolve().parent.parent
DOCS = ROOT / "docs"
sys.path[:0] = [str(ROOT / "checks"), str(ROOT / "tools")]
import check_examples
import check_pages
import journal_texts
import picture
import picture_files
import view
from drawing import running

QUARTERS = picture_files.QUARTERS
MADE, TOLD, SPOILED = 200, 40, 600
FIRST_TURNS = 12


def ran(program, words, folder):
    """The status, standard output and standard error of a program."""
    process = subprocess.run([str(program), *words], cwd=folder, stdin=subprocess.DEVNULL, stdout=subprocess.PIPE, stderr=subprocess.PIPE)
    return process.returncode, process.stdout, process.stderr


def shown(words):
    """The picture of these files, or the status and the line of its refusal."""
    try:
        return view.drawn([str(word) for word in words])
    except view.Refused as refused:
        return refused.status, refused.line


class Run:
    """An example that is run: its folder with a journal of it, and reports after its first turns."""

    def __init__(self, program, folder, scene, scripts):
        self.program, self.folder, self.scene, self.scripts = program, folder, scene, scripts
        self.report = folder / "report"
        (folder / "scene.json").write_text(json.dumps(self.scene))
        for script in scripts:
            (folder / script.name).write_bytes(script.read_bytes())
        compiled = [script.with_suffix(".pex").name for script in scripts]
        self.wrong = self.must(["compile", *(script.name for script in scripts)])[1]
        self.wrong = self.wrong or self.must(["journal", "scene.json", "journal", *compiled], self.report)[1]

    def must(self, words, to=None):
        """What a command that must do well prints, and what is wrong."""
        status, out, notes = ran(self.program, words, self.folder)
        if to:
            to.write_bytes(out)
        return out, f"papyrus {' '.join(words)}: status {status}: {notes.decode()}" if status else ""

    def after(self, turns):
        """The report of the first turns."""
        path = self.folder / f"after{turns}"
        (self.folder / "cut.json").write_text(json.dumps({**self.scene, "turns": turns}))
        path.write_bytes(self.must(["run", "cut.json", *(script.name for script in self.scripts)])[0])
        return path


def examples():
    """What the pages of the examples run: where, the scene and the scripts. What runs without a scene has that of `once`."""
    found = {}
    for page in sorted((ROOT / "examples").rglob("README.md")):
        for command, words in re.findall(r"^\$ (?:\.\./)+papyrus (once|run) ([^|\n]*)", page.read_text(), re.MULTILINE):
            files = [path for word in words.split() for path in sorted(page.parent.glob(word) if "*" in word else [page.parent / word])]
            scripts = [path for path in files if path.suffix == ".psc"]
            call = {"turn": 0, "instance": "it", "function": "OnInit"}
            once = {"version": 1, "instances": [{"name": "it", "script": scripts[0].stem}], "calls": [call], "order": "round", "turns": 10_000}
            found[f"{page.parent.relative_to(ROOT)}: {words.strip()}"] = (once if command == "once" else json.loads(files[0].read_text()), scripts)
    return found


def crowds_of(picture, instance):
    """How many stacks wait for an instance in each quarter, by the rows of the stacks."""
    found = collections.Counter()
    for row in picture.of_kind("stack"):
        for bar in row.lanes[0]:
            if bar.kind == f"waits c{instance}":
                found.update(range(bar.begin, bar.begin + bar.length))
    return found


def rows_fault(picture):
    """What the rows of the instances tell otherwise than those of the stacks, or nothing."""
    stacks = [[bar for bar in row.lanes[0] if bar.kind != "act"] for row in picture.of_kind("stack")]
    for instance, row in enumerate(picture.of_kind("instance")):
        held = sorted((bar.begin, bar.length, stack) for stack, bars in enumerate(stacks) for bar in bars if bar.kind == f"holds c{instance}")
        if [(bar.begin, bar.length, int(re.search(r"\d+$", bar.text)[0])) for bar in row.lanes[0]] != held:
            return f"instance {instance} is held otherwise"
        waiting = collections.Counter()
        for bar in row.lanes[1]:
            waiting.update({at: int(re.match(r"\d+", bar.text)[0]) for at in range(bar.begin, bar.begin + bar.length)})
        if waiting != crowds_of(picture, instance):
            return f"others wait for instance {instance}"
    acts = {}
    for stack, row in enumerate(picture.of_kind("stack")):
        for bar in row.bars("act"):
            acts.update({turn: stack for turn in range(bar.begin // QUARTERS, (bar.begin + bar.length) // QUARTERS)})
    return "" if acts == {turn: stack for turn, stack in enumerate(picture.whose()) if stack is not None} else "other stacks are marked than have the turns"


def waits_of(text):
    """Each wait of a journal as (turns, since, stack), counted by its lines alone."""
    found, since, turn = [], {}, -1
    for word, *numbers in (line.split() for line in text.decode().splitlines()):
        if word == "turn":
            turn = int(numbers[0])
        elif word == "join":
            since[numbers[0]] = turn
        elif word == "take":
            begun = since.pop(numbers[0])
            found.append((turn - begun, begun, int(numbers[0])))
    return found + [(turn + 1 - begun, begun, int(stack)) for stack, begun in since.items()]


def table_fault(picture, text, waits):
    """What the table of waits and the links to the longest tell otherwise than the journal and `papyrus waits`, or nothing."""
    lines = [line.rsplit(" ", 1) for line in waits.decode().splitlines()[1:]]
    order = sorted(lines, key=lambda line: -int(line[1]))
    cells = [picture.cells[at : at + 2] for at in range(4, len(picture.cells), 4)]
    if cells != [[name, f"{int(number):,}"] for name, number in order]:
        return "the table has other waits than `papyrus waits`"
    longest = sorted((wait for wait in waits_of(text) if wait[0]), key=lambda wait: (-wait[0], wait[1], wait[2]))[:10]
    links = [link for link in picture.links if link.startswith("#wait-")]
    return "" if links == [f"#wait-{stack}-{since}" for _, since, stack in longest] else "other waits are the longest"


def picture_fault(path, program, reports=()):
    """What the picture of a journal tells otherwise than the journal, or nothing."""
    text = path.read_bytes()
    page = shown([path, *reports])
    status, waits, notes = ran(program, ["waits", path.name], path.parent)
    if isinstance(page, tuple) or status:
        return f"view: {page if isinstance(page, tuple) else 'a picture'}; waits: {status} {notes.decode()}"
    picture = picture_files.Picture(page)
    again = picture.journal()
    if again != text:
        lines = zip(text.decode().splitlines(), again.decode().splitlines())
        return f"the bars tell another journal, from line {next((at for at, (one, other) in enumerate(lines, 1) if one != other), 'last')}"
    return next(iter(picture.wrong), "") or rows_fault(picture) or table_fault(picture, text, waits)


def check_made(tally, program, room):
    for seed in range(MADE):
        path = room / f"made{seed}"
        path.write_bytes(journal_texts.Run(seed).text())
        fault = picture_fault(path, program)
        tally.note(fault and f"journal {seed}: {fault}")


def check_refusals(tally, program, room):
    """Spoiled journals are refused as the program does, and not all of them are alike."""
    answers = collections.Counter()
    for seed in range(SPOILED):
        path = room / f"spoiled{seed}"
        path.write_bytes(journal_texts.spoiled(journal_texts.Run(seed % MADE).text(), seed))
        status, _, notes = ran(program, ["waits", str(path)], room)
        found = shown([path])
        found = (found[0], f"{found[1]}\n".encode()) if isinstance(found, tuple) else (0, b"")
        answers.update(notes.split()[1:2])
        tally.note("" if found == (status, notes) else f"spoiled journal {seed}: view {found}, waits {(status, notes)}")
    tally.note("" if min(answers[b"J1"], answers[b"J2"]) > SPOILED / 10 else f"of the spoiled journals {dict(answers)} were refused")


def values_fault(picture, reports):
    """What the rows of properties tell otherwise than the reports, or nothing."""
    cells = {}
    for row in picture.rows:
        if row.kind == "instance":
            instance = row.anchor
        elif row.kind == "value":
            for bar in row.lanes[0]:
                cells.update({(instance, row.name, at): bar.text for at in range(bar.begin // QUARTERS, (bar.begin + bar.length) // QUARTERS)})
    wanted = {}
    for report in reports:
        lines = report.read_text().splitlines()
        turns = int(next(line for line in lines if line.startswith("turns ")).split()[1])
        number = -1
        for line in lines[lines.index(f"turns {turns}") + 1 :]:
            number += not line.startswith(("  ", "stack "))
            if line.startswith("  ") and turns:
                name, _, value = line[2:].partition(" = ")
                wanted[(f"instance-{number}", name, turns - 1)] = value
    plain = {key: text[2:] if text.startswith("! ") else text for key, text in cells.items()}
    changed = {key[:2] for key in wanted if len({value for other, value in wanted.items() if other[:2] == key[:2]}) > 1}
    seen = {key[:2] for key in plain}
    if not changed <= seen or plain != {key: value for key, value in wanted.items() if key[:2] in seen}:
        return f"values are {plain} and not {wanted}"
    panels = {row.anchor: row.panel.splitlines() for row in picture.of_kind("instance")}
    last = max((turn for _, _, turn in wanted), default=0)
    missing = [key for key, value in wanted.items() if key[2] == last and f"{key[1]} = {value}" not in panels[key[0]]]
    return f"the panel of {missing[0][0]} lacks {missing[0][1]}" if missing else ""


def printed_fault(picture, report):
    """What a stack printed that doesn't stand in its panel, in this order, or nothing."""
    lines = [line for line in report.read_text().splitlines() if re.match(r"[#!]\d+ ", line)]
    for stack, row in enumerate(picture.of_kind("stack")):
        own = [line for line in lines if int(line[1:].split()[0]) == stack]
        there = [line for line in row.panel.splitlines() if line[:1] in ("#", "!")]
        if there != own:
            return f"stack {stack} printed {own}, and the panel has {there}"
    return ""


def check_examples_of(tally, program, room):
    overs = {}
    other = room / "other"
    other.write_text("#0 x\nturns 0\n")
    for number, (name, (scene, scripts)) in enumerate(examples().items()):
        folder = room / f"example{number}"
        folder.mkdir()
        run = Run(program, folder, scene, scripts)
        tally.note(run.wrong and f"{name}: {run.wrong}")
        if run.wrong:
            continue
        turns = int(re.search(r"^turns (\d+)$", run.report.read_text(), re.MULTILINE)[1])
        reports = [*map(run.after, range(min(turns, FIRST_TURNS))), run.report]
        for those in ([], [run.report], reports):
            fault = picture_fault(folder / "journal", program, those)
            tally.note(fault and f"{name}: {fault}")
        page = shown([folder / "journal", *reports])
        if isinstance(page, tuple):
            tally.note(f"{name}: {page}")
            continue
        picture = picture_files.Picture(page)
        for fault in (values_fault(picture, reports), printed_fault(picture, run.report)):
            tally.note(fault and f"{name}: {fault}")
        overs[name] = [(row.name, bar.begin // QUARTERS) for row in picture.rows for bar in row.bars("known") if "over" in bar.kind]
        for others in ([other], [reports[0], reports[0]]):
            tally.note("" if shown([folder / "journal", *others])[0] == 2 else f"{name}: reports of another run are taken")
    wanted = {"examples/lost_update: scene.json Chest.psc": [("Gold", 5)], "examples/lost_update: scene.json repaired/Chest.psc": []}
    found = {name: overs.get(name) for name in wanted}
    tally.note("" if found == wanted else f"what may be a lost update: {found}")


def printed_bars(picture):
    """What stands below the bars of each stack in each turn, with its kind."""
    found = {}
    for stack, row in enumerate(picture.of_kind("stack")):
        found.update({(bar.begin // QUARTERS, stack): (bar.kind, bar.text) for bar in row.bars() if bar.kind in ("trace", "fault")})
    return found


def printed_bar(lines):
    """The kind and the text of the bar for these lines of a report."""
    kind = "fault" if any(line[0] == "!" for line in lines) else "trace"
    return kind, "; ".join(line.split(" ", 1)[1] for line in lines)


def made_fault(run, page):
    """What a picture with all reports of a run that was made tells otherwise than these, or nothing."""
    if isinstance(page, tuple):
        return f"its own reports are refused: {page}"
    picture = picture_files.Picture(page)
    numbers = {row.anchor: at for at, row in enumerate(picture.of_kind("instance"))}
    overs, changed, anchor = set(), set(), ""
    for row in picture.rows:
        anchor = row.anchor or anchor
        overs |= {(numbers[anchor], bar.begin // QUARTERS) for bar in row.bars("known") if bar.kind == "known over"}
        changed |= {(numbers[anchor], bar.begin // QUARTERS) for bar in row.bars("known") if bar.kind != "known"}
    wanted = {(instance, turn) for turn, _, instance in run.changes}
    if (overs, changed) != (run.overwrites(), wanted):
        return f"overwritten {overs} and not {run.overwrites()}, or changed {changed} and not {wanted}"
    own = collections.defaultdict(list)
    for turn, stack, text in run.printed:
        own[(turn, stack)].append(text)
    if printed_bars(picture) != {key: printed_bar(texts) for key, texts in own.items()}:
        return f"printed {printed_bars(picture)} and not {dict(own)}"
    box = "Look here" in picture.look if overs else "No change came over" in picture.look
    return next(iter(picture.wrong), "") or ("" if box else "the page doesn't say so on top")


def spoiled_reports(reports, chance):
    """One of these reports with a change, or one more, which no run of the journal has."""
    at = chance.randrange(len(reports))
    lines = reports[at].splitlines()
    turns = next(number for number, line in enumerate(lines) if line.startswith("turns "))
    change = chance.randrange(6)
    if change == 0 and "stack " in reports[at]:
        lines[-1] = lines[-1].rsplit(" ", 1)[0] + chance.choice([" 77", " sick", ""])
    elif change == 1:
        lines[turns + 1] = f"other{lines[turns + 1]}"
    elif change == 2:
        lines[turns] = f"turns {len(reports)}"
    elif change == 3:
        lines.append(f"stack {sum(line.startswith('stack ') for line in lines)} done")
    elif change == 4:
        return [*reports, reports[at]]
    elif turns and at < len(reports) - 1:
        lines[turns - 1] += "x"
    else:
        del lines[turns]
    return [*reports[:at], "".join(f"{line}\n" for line in lines), *reports[at + 1 :]]


def check_told(tally, room):
    for seed in range(TOLD):
        run = journal_texts.Run(seed, told=True)
        (room / "told").write_bytes(run.text())
        for spoiled in (False, True):
            reports = spoiled_reports(run.reports, random.Random(seed)) if spoiled else run.reports
            paths = [room / f"told{at}" for at in range(len(reports))]
            for path, text in zip(paths, reports):
                path.write_text(text)
            page = shown([room / "told", *paths])
            fault = ("" if page[0] == 2 else "spoiled reports are taken") if spoiled else made_fault(run, page)
            tally.note(fault and f"reports {seed}: {fault}")


def check_cut(tally, room):
    """A run of 20,005 turns, in which a stack holds an instance but in turn 6 and in the last two, where another one has it, which prints in the last."""
    turns = 20_005
    moves = {0: ["join 0 0", "join 1 0", "run 0", "take 0 0"], 6: ["run 1", "take 1 0", "release 1 0", "join 1 0"], 7: ["run 0", "take 0 0"]}
    moves.update({turn: ["run 0", "release 0 0", "join 0 0"] for turn in (5, turns - 3)})
    moves.update({turns - 2: ["run 1", "take 1 0"], turns - 1: ["run 1"]})
    lines = [line for turn in range(turns) for line in (f"turn {turn}", *moves.get(turn, ["run 0"]))]
    (room / "long").write_text("".join(f"{line}\n" for line in ["journal 1", "instance a", *lines, f"end {turns}"]))
    (room / "late").write_text(f"#1 late\nturns {turns}\na : A @\nstack 0 waits a\nstack 1 ready\n")
    page = shown([room / "long", room / "late"])
    told = not isinstance(page, tuple) and "The run has 20,005 turns, and the first 20,000 of them are drawn" in page and "papyrus hold 20000" in page
    tally.note("" if told else "a long run isn't told")
    if told:
        picture = picture_files.Picture(page)
        bars = [[(bar.kind.split()[0], bar.begin, bar.length) for bar in row.bars() if bar.kind != "act"] for row in picture.of_kind("stack")]
        wanted = [
            [("holds", 0, 23), ("waits", 23, 5), ("holds", 28, 79_972)],
            [("waits", 0, 24), ("holds", 24, 3), ("waits", 27, 79_973)],
        ]
        tally.note("" if (picture.turns, bars, picture.wrong) == (20_000, wanted, []) else f"a long run has the bars {bars}")
        tally.note("" if picture.cells[5] == f"{6 + 2 + turns - 2 - 6 + 3:,}" else f"the table of a long run isn't that of all turns: {picture.cells}")


def pictured(words, program):
    """The picture that `picture` draws, or the status and the line of its refusal."""
    try:
        return picture.drawn([str(word) for word in words], program)
    except running.Refused as refused:
        return refused.status, refused.notes


def calls_of(scene):
    """How the rows of the stacks are called, by the scene."""
    order = sorted(enumerate(scene["calls"]), key=lambda one: (one[1]["turn"], one[0]))
    return [f"{call['instance']}.\u200b{call['function']}" for _, call in order]


def ends_fault(found, report, text):
    """What the picture tells of stacks that don't end and of instances that nobody touches otherwise than report and journal, or nothing."""
    statuses = re.findall(r"^stack \d+ (.*)$", report, re.MULTILINE)
    going = [f"stack {stack} " for stack, status in enumerate(statuses) if status != "done"]
    heading = re.search(r"(\d+) of (\d+) stacks? do(?:es)?n't end", found.look)
    told = tuple(map(int, heading.groups())) if heading else (0, len(statuses))
    if told != (len(going), len(statuses)) or not all(one in found.look for one in going[:10]):
        return f"{told} stacks are told not to end, and not {going}"
    touched = {int(line.split()[2]) for line in text.decode().splitlines() if line.startswith(("join", "take"))}
    folded = [at for at, row in enumerate(found.of_kind("instance")) if row.folded]
    changed = {row.anchor for row in found.rows if row.kind == "value"}
    return "" if folded == [at for at in range(len(found.of_kind("instance"))) if at not in touched] or changed else f"the instances {folded} are folded away"


def command_fault(run, program):
    """What `picture` draws of an example otherwise than its journal, its reports and its scene tell, or nothing."""
    page = pictured([run.folder / "scene.json", *(run.folder / script.name for script in run.scripts)], program)
    again = pictured([run.folder / "scene.json", *(run.folder / script.with_suffix(".pex").name for script in run.scripts)], program)
    if isinstance(page, tuple) or page != again:
        return f"picture: {page if isinstance(page, tuple) else 'of compiled files is another one'}"
    found, text, report = picture_files.Picture(page), (run.folder / "journal").read_bytes(), run.report.read_text()
    turns = int(re.search(r"^turns (\d+)$", report, re.MULTILINE)[1])
    if found.journal() != text or found.wrong:
        return f"picture: another journal, or {found.wrong}"
    names = [row.name.split("(")[0] for row in found.of_kind("stack")]
    if names != calls_of(run.scene)[: len(names)]:
        return f"picture: the stacks are called {names}"
    reports = [*map(run.after, range(turns)), run.report] if turns <= FIRST_TURNS else []
    return (values_fault(found, reports) if reports else "") or printed_fault(found, run.report) or ends_fault(found, report, text)


def check_command_refusals(tally, program, run):
    """Words and files that `picture` refuses as the program refuses them."""
    folder, scene = run.folder, run.folder / "scene.json"
    script, compiled = folder / run.scripts[0].name, folder / run.scripts[0].with_suffix(".pex").name
    (folder / "Faulty.psc").write_text("ScriptName Faulty\nInt n = 1.5\n")
    (folder / "unknown.json").write_text(json.dumps({**run.scene, "instances": [{"name": "x", "script": "Nobody"}], "calls": []}))
    for command, words in (("run", [scene, script, folder / "Faulty.psc"]), ("run", [scene, folder / "missing.psc"]), ("run", [folder / "missing.json", script]),
                           ("run", [script, script]), ("run", [folder / "unknown.json", script]), ("run", [scene, script, script]), ("run", [scene]), ("run", []), ("run", ["", script]),
                           ("exec", [scene, scene]), ("exec", [scene, folder / "missing.pex"]), ("exec", [folder / "unknown.json", compiled]), ("exec", [scene, compiled, compiled])):
        status, _, notes = ran(program, [command, *map(str, words)], folder)
        found = pictured(words, program)
        tally.note("" if found == (status, notes) and status else f"picture {words}: {str(found)[:200]}, and {command}: {(status, notes)}")
    tally.note("" if pictured([scene, script, compiled], program) == (2, b"papyrus: usage\n") else "picture takes scripts and compiled files at once")


def check_limits(tally, program, run):
    """Behind the most turns of which reports are made, and where a run can't be held, the picture is the same as far as it is known."""
    words = [run.folder / "scene.json", *(run.folder / script.name for script in run.scripts)]
    whole, most, stride, held = pictured(words, program), running.MOST_REPORTS, running.STRIDE, running.Run.held
    running.STRIDE = 2
    tally.note("" if pictured(words, program) == whole else "picture: with other strides it is another one")
    running.Run.held = lambda self, turns: (b"", None)
    tally.note("" if pictured(words, program) == whole else "picture: without held runs it is another one")
    running.STRIDE, running.Run.held, running.MOST_REPORTS = stride, held, 4
    found = picture_files.Picture(pictured(words, program))
    known = [[(bar.begin, bar.length) for bar in row.bars()] for row in found.of_kind("value")]
    running.MOST_REPORTS = most
    turns = picture_files.Picture(whole).turns
    tally.note("" if known and all(row == [(0, 12), (4 * turns - 4, 4)] for row in known) else f"picture: with few reports it knows {known}")


def check_command(tally, program, room):
    for number, (name, (scene, scripts)) in enumerate(examples().items()):
        folder = room / f"command{number}"
        folder.mkdir()
        run = Run(program, folder, scene, scripts)
        before = {path.name for path in folder.iterdir()}
        fault = run.wrong or command_fault(run, program)
        tally.note(fault and f"{name}: {fault}")
        written = {path.name for path in folder.iterdir()} - before - {f"after{turn}" for turn in range(FIRST_TURNS)} - {"cut.json"}
        tally.note("" if not written else f"{name}: picture writes {written}")
        if name == "examples/lost_update: scene.json Chest.psc":
            check_command_refusals(tally, program, run)
            check_limits(tally, program, run)


def check_words(tally, room):
    """The statuses of words and files."""
    (room / "text").write_text("no report\n")
    (room / "short").write_text("journal 1\nend 0\n")
    cases = {
        (): (2, "papyrus: usage"),
        ("",): (2, "papyrus: usage"),
        ("missing",): (3, "papyrus: cannot read missing"),
        (str(room / "short"), str(room / "text")): (2, f"papyrus: {room / 'text'} is no report"),
        (str(room / "text"), str(room / "missing")): (3, f"papyrus: cannot read {room / 'missing'}"),
        (os.devnull,): (12, f"{os.devnull}:1: J1 BadLine"),
    }
    for words, wanted in cases.items():
        tally.note("" if shown(words) == wanted else f"view {words}: {shown(words)}")


def main():
    parser = argparse.ArgumentParser(description=__doc__, formatter_class=argparse.RawDescriptionHelpFormatter)
    parser.add_argument("--program", type=pathlib.Path, default=check_examples.PROGRAM)
    words = parser.parse_args()
    if not words.program.exists():
        print("the program isn't built: run ./papyrus --version first")
        return 2
    tally, program = check_pages.Tally(), words.program.resolve()
    with tempfile.TemporaryDirectory(prefix="papyrus-pictures-") as top:
        room = pathlib.Path(top)
        check_words(tally, room)
        check_cut(tally, room)
        check_told(tally, room)
        check_examples_of(tally, program, room)
        check_command(tally, program, room)
        check_made(tally, program, room)
        check_refusals(tally, program, room)
    print("\n".join([*tally.wrong, f"{tally.passed} passed, {len(tally.wrong)} failed"]))
    return 1 if tally.wrong else 0


if __name__ == "__main__":
    sys.exit(main())
