#!/usr/bin/env python3
"""Checks the launcher's helper `explore` on the program, prints what is wrong, and ends with 'N passed, M failed'.

  check_explore.py                   all of these
  check_explore.py --program PATH    another program than PAPYRUS_PROGRAM in the environment, or the one that was built last

  known     small scenes, and some of the examples, have the outcomes that are known by hand
  parting   two outcomes part where they do by hand, and each of the two orders that are told shows its outcome
  plain     small scenes have the outcomes that trying every list of stacks shows, turn by turn, without a look at any state
  shown     each scene that is written shows its outcome
  alike     the answer is the same whatever the number of jobs, and random orders lead to outcomes that all orders have; Ctrl-C loses nothing
  expected  expectations hold and are broken as is known by hand, and each scene that is written breaks its own
  told      --help has the options that the man page has
  refused   a refused scene or script gets the program's own line and status, and a word that names nothing one that names it
"""
import argparse
import json
import os
import pathlib
import re
import signal
import subprocess
import sys
import tempfile
import time

ROOT = pathlib.Path(__file__).resolve().parent.parent
DOCS = ROOT / "docs"
sys.path[:0] = [str(ROOT / "checks"), str(ROOT / "tools")]
import check_examples
import check_pages
from exploring.outcomes import kept
from exploring.program import NO_STACK

CHEST = """ScriptName Chest extends ObjectReference
Int Property Gold = 10 Auto
Function Take(Int coins)
    Int left = Gold - coins
    Scene.Sleep(1)
    Gold = left
EndFunction
Function TakeAtOnce(Int coins)
    Gold -= coins
    Scene.Sleep(1)
EndFunction
Function Count(Int times)
    While times > 0
        Int next = Gold + 1
        Debug.Trace(next)
        Gold = next
        times -= 1
    EndWhile
EndFunction
Function CountAsleep(Int times)
    While times > 0
        Int next = Gold + 1
        Scene.Sleep(1)
        Gold = next
        times -= 1
    EndWhile
EndFunction
"""
FLAG = """ScriptName Flag extends ObjectReference
Bool Property IsUp Auto
Int Property Seen Auto
Function Raise()
    IsUp = True
EndFunction
Function Await()
    While !IsUp
    EndWhile
    Seen = 1
EndFunction
"""
WAITER = """ScriptName Waiter extends ObjectReference
Flag Property Target Auto
Function Await()
    While !Target.IsUp
    EndWhile
    Target.Seen += 1
EndFunction
Function Raise()
    Target.IsUp = True
EndFunction
Function Look()
    If Target.IsUp
        Target.Seen += 1
    EndIf
EndFunction
"""
FRIEND = """ScriptName Friend extends ObjectReference
Friend Property Other Auto
Bool Property IsThere Auto
Int Property Met Auto
Function WaitFirst()
    While !Other.IsThere
    EndWhile
    IsThere = True
    Met += 1
EndFunction
Function ComeFirst()
    IsThere = True
    While !Other.IsThere
    EndWhile
    Met += 1
EndFunction
"""


def call(instance, function, *arguments, turn=0):
    return {"turn": turn, "instance": instance, "function": function, "arguments": list(arguments)}


def scene(instances, *calls, **more):
    instances = [{"name": name, "script": script, **({"set": values} if values else {})} for name, script, values in instances]
    return {"version": 2, "instances": instances, "calls": list(calls), "order": "round", "turns": 1000, **more}


CHESTS = [("chest", "Chest", {})]
WAITERS = [("flag", "Flag", {}), ("one", "Waiter", {"Target": {"instance": "flag"}}), ("two", "Waiter", {"Target": {"instance": "flag"}})]
FRIENDS = [("one", "Friend", {"Other": {"instance": "two"}}), ("two", "Friend", {"Other": {"instance": "one"}})]
NEVER = "never ends"
LOOK = scene(WAITERS, call("one", "Look"), call("two", "Raise"))
# Scenes with the words behind their files, and the values of what is asked for in all outcomes, with NEVER where some stack never ends.
# A stack that counts k times reads once and then only writes over what it wrote: it ends with its first reading and k more. The one that writes last
# may have read first before the other wrote, or behind any of the other's k writes. Where both begin at turn 0 and sleep, both have read before either writes.
KNOWN = [
    ("the lost update, wherever its second half begins", scene(CHESTS, call("chest", "Take", 3), call("chest", "Take", 3)), ["--any-start"], "chest.Gold", {"4", "7"}),
    ("its repair", scene(CHESTS, call("chest", "TakeAtOnce", 3), call("chest", "TakeAtOnce", 3)), ["--any-start"], "chest.Gold", {"4"}),
    ("two stacks of one increment", scene(CHESTS, call("chest", "Count", 1), call("chest", "Count", 1)), ["--any-start"], "chest.Gold", {"11", "12"}),
    ("two stacks of two increments", scene(CHESTS, call("chest", "Count", 2), call("chest", "Count", 2)), ["--any-start"], "chest.Gold", {"12", "13", "14"}),
    ("two stacks of one increment around a sleep", scene(CHESTS, call("chest", "CountAsleep", 1), call("chest", "CountAsleep", 1)), ["--any-start"], "chest.Gold", {"11", "12"}),
    ("two stacks of two increments around a sleep", scene(CHESTS, call("chest", "CountAsleep", 2), call("chest", "CountAsleep", 2)), ["--any-start"], "chest.Gold", {"12", "13", "14"}),
    ("two that begin together", scene(CHESTS, call("chest", "CountAsleep", 2), call("chest", "CountAsleep", 2)), [], "chest.Gold", {"12"}),
    ("a look before or behind a raise", LOOK, [], "flag.Seen", {"0", "1"}),
    ("a wait for a raise", scene(WAITERS, call("one", "Await"), call("two", "Raise")), [], "flag.Seen", {"1"}),
    ("a wait that keeps the flag's lock", scene(WAITERS, call("flag", "Await"), call("two", "Raise")), [], "flag.Seen", {NEVER}),
    ("a raise may come before that wait", scene(WAITERS, call("flag", "Await"), call("two", "Raise")), ["--any-start"], "flag.Seen", {"1", NEVER}),
    ("two that wait for each other first", scene(FRIENDS, call("one", "WaitFirst"), call("two", "WaitFirst")), [], "one.Met", {NEVER}),
    ("two that come first", scene(FRIENDS, call("one", "ComeFirst"), call("two", "ComeFirst")), [], "one.Met", {"1"}),
]
# Examples likewise: whoever comes first to the north gate opens it and the other is late, and the baker bakes 5, 7 and 2 in whatever order of turns.
EXAMPLES = [
    ("gate", [], "north.Late", {"1"}),
    ("producer", [], "baker.Bread", {"14"}),
    ("producer", ["--any-start"], "baker.Bread", {"14"}),
]
PARTING = re.compile(
    r"^Why outcomes .*\n  Both orders may begin with (\d+) turns?: (.*)\n  Then .*\n"
    r"  Then turn (\d+).* is stack (\d+)'s for outcome (\d+): (.*)\n  Then turn (\d+).* is stack (\d+)'s for outcome (\d+): (.*)$", re.MULTILINE)
# Scenes that are tried list by list.
PLAIN = [
    scene(CHESTS, call("chest", "Take", 3), call("chest", "Take", 4, turn=1)),
    scene(CHESTS, call("chest", "Count", 1), call("chest", "Take", 2)),
    scene(WAITERS, call("one", "Look"), call("two", "Raise")),
    scene(WAITERS, call("one", "Look"), call("two", "Look"), call("flag", "Raise", turn=1)),
    scene([*CHESTS, ("other", "Chest", {"Gold": 5})], call("chest", "Count", 1), call("other", "Count", 1)),
]


class Room:
    """A folder with the scripts and their compiled files, in which the program and the helper run."""

    def __init__(self, program, folder):
        self.program, self.folder = program, folder
        self.scripts = []
        for name, text in (("Chest", CHEST), ("Flag", FLAG), ("Waiter", WAITER), ("Friend", FRIEND)):
            (folder / f"{name}.psc").write_text(text)
            self.scripts.append(f"{name}.psc")
        self.files = [f"{name[:-4]}.pex" for name in self.scripts]
        self.run("compile", *self.scripts)

    def run(self, *words):
        return self.started([str(self.program), *words])

    def explore(self, *words):
        return self.started([sys.executable, str(ROOT / "tools" / "explore.py"), *words])

    def started(self, words):
        streams = {"stdin": subprocess.DEVNULL, "stdout": subprocess.PIPE, "stderr": subprocess.PIPE}
        ran = subprocess.run(words, cwd=self.folder, env={**os.environ, "PAPYRUS_PROGRAM": str(self.program)}, **streams)
        return ran.returncode, ran.stdout, ran.stderr

    def lay(self, tree, name="scene.json"):
        (self.folder / name).write_text(json.dumps(tree))
        return name

    def report(self, tree):
        return self.run("exec", self.lay(tree, "tried.json"), *self.files)[1]


def outcomes_of(text):
    """The lines of each outcome that the helper printed, and the scene that shows it."""
    found = {}
    for part in text.decode().split("\nOutcome ")[1:]:
        head, *lines = part.split("\n\n")[0].splitlines()
        found[re.search(r"outcome-\d+\.json", head)[0]] = [line[2:] for line in lines]
    return found


def known_fault(room, name, scripts, words, asked, wanted):
    """What is found of a scene otherwise than it is known, or nothing."""
    status, text, notes = room.explore(name, *scripts, *words, "--of", asked)
    if (status, notes) != (0, b"") or b"All orders were followed" not in text:
        return f"status {status}, {notes.decode()}{text.decode()}"
    found = outcomes_of(text)
    endless = [name for name, lines in found.items() if any("never ends" in line for line in lines)]
    values = {line.split(" = ")[1] for lines in found.values() for line in lines if " = " in line} | ({NEVER} if endless else set())
    if values != wanted:
        return f"{asked} is {sorted(values)} in place of {sorted(wanted)}"
    shown = {name: [line.decode().rstrip("\n") for line in kept(room.run("run", name, *scripts)[1], [asked])] for name in found if name not in endless}
    return next((f"{name} shows another outcome" for name, lines in shown.items() if lines != found[name]), "")


def check_known(tally, room):
    for what, tree, words, asked, wanted in KNOWN:
        fault = known_fault(room, room.lay(tree), room.scripts, words, asked, wanted)
        tally.note(fault and f"{what}: {fault}")
    for example, words, asked, wanted in EXAMPLES:
        scripts = [str(path) for path in sorted((ROOT / "examples" / example).glob("*.psc"))]
        fault = known_fault(room, str(ROOT / "examples" / example / "scene.json"), scripts, words, asked, wanted)
        tally.note(fault and f"examples/{example} {' '.join(words)}: {fault}")


def turns_of(text):
    """The stacks of an order as it is printed."""
    parts = [] if text == "none" else [re.fullmatch(r"(-|\d+)(?:x(\d+))?", part) for part in text.split()]
    return [NO_STACK if part[1] == "-" else int(part[1]) for part in parts for _ in range(int(part[2] or 1))]


def parting_of(text):
    """The common beginning of two orders, and for each outcome by its number the stack that has the turn behind that, and the order."""
    number, common, *sides = PARTING.search(text.decode()).groups()
    assert len(turns_of(common)) == int(number)
    return turns_of(common), {outcome: (int(turn), int(stack), turns_of(order)) for turn, stack, outcome, order in (sides[:4], sides[4:])}


def check_parting(tally, room):
    """By hand: the first is who waits first, for the flag of a look and a raise, and for the keeper of the two gates."""
    gates = [str(ROOT / "examples" / "gate" / name) for name in ("Controller.psc", "Gate.psc")]
    tree = json.loads((ROOT / "examples" / "gate" / "scene.json").read_text())
    opened = {0: "#0 [Gate <north>] is open, 1 in all", 2: "#2 [Gate <south>] is open, 1 in all"}
    for what, tree, scripts, marks in (("a look and a raise", LOOK, room.scripts, {0: "Seen = 0", 1: "Seen = 1"}), ("the gates", tree, gates, opened)):
        _, text, _ = room.explore(room.lay(tree), *scripts)
        found = outcomes_of(text)
        common, sides = parting_of(text)
        is_so = len(found) == 2 and {stack for _, stack, _ in sides.values()} == set(marks)
        tally.note("" if is_so and (what != "the gates" or text.count(b", from line 13 of Gate.OnActivate on, is stack") == 2) else f"{what}: {text.decode()}")
        for number, (turn, stack, order) in sides.items():
            report = room.run("run", room.lay({**tree, "order": order, "turns": len(order)}, "parted.json"), *scripts)[1]
            lines = [line.decode().rstrip("\n") for line in kept(report, [])]
            is_so = order[: turn + 1] == [*common, stack] and lines == found[f"outcome-{number}.json"] and any(marks.get(stack) == line.strip() for line in lines)
            tally.note("" if is_so else f"{what}: outcome {number} isn't that of {order} behind {common}: {lines}")


def tried(room, tree):
    """The outcomes of a scene by every list of stacks, where a turn is idle only if no stack can have it."""
    found, work = set(), [[]]
    while work:
        order = work.pop()
        report = room.report({**tree, "order": order, "turns": len(order)})
        later = any(call["turn"] >= len(order) for call in tree["calls"])
        states = re.findall(rb"^stack \d+ (\w+)", report, re.MULTILINE)
        if not later and all(state == b"done" for state in states):
            found.add(kept(report, []))
            continue
        ran = [stack for stack in range(len(tree["calls"])) if runs(room, tree, [*order, stack])]
        work += [[*order, stack] for stack in ran or [NO_STACK]]
    return found


def runs(room, tree, order):
    """Whether the last turn of an order is its stack's."""
    room.run("journal", room.lay({**tree, "order": order, "turns": len(order)}, "tried.json"), "tried.journal", *room.files)
    return b"\nrun " in (room.folder / "tried.journal").read_bytes().rpartition(b"\nturn ")[2]


def check_plain(tally, room):
    for number, tree in enumerate(PLAIN):
        wanted = {tuple(line.decode().rstrip("\n") for line in lines) for lines in tried(room, tree)}
        _, text, _ = room.explore(room.lay(tree), *room.files)
        found = {tuple(lines) for lines in outcomes_of(text).values()}
        tally.note("" if found == wanted else f"scene {number}: outcomes {sorted(found)} in place of {sorted(wanted)}")


def check_alike(tally, room):
    for what, tree, words, asked, wanted in KNOWN:
        name = room.lay(tree)
        answers = {room.explore(name, *room.files, *words, "--of", asked, "--jobs", jobs) for jobs in ("1", "3")}
        tally.note("" if len(answers) == 1 else f"{what}: another answer with other jobs")
    name = room.lay(LOOK)
    answers = {room.explore(name, *room.files, "--random", "20", "--seed", "7", "--of", "Seen", "--jobs", jobs) for jobs in ("1", "2")}
    tally.note("" if len(answers) == 1 else "random runs: another answer with other jobs")
    lines = {line for found in answers for lines in outcomes_of(found[1]).values() for line in lines}
    tally.note("" if lines == {"flag.Seen = 0", "flag.Seen = 1"} else f"random runs: {lines}")
    (room.folder / "outcome-3.json").write_text("{}")
    (room.folder / "outcome-5.json").write_text("{}")
    room.explore(name, *room.files)
    left = [number for number in range(1, 6) if (room.folder / f"outcome-{number}.json").exists()]
    tally.note("" if left == [1, 2] else f"the scenes {left} are left of an earlier search")
    status, text, _ = room.explore(name, *room.files, "--states", "3")
    is_told = text.startswith(b"Not all orders were followed: 3 states") and b"None of the orders that were followed has ended so far" in text
    tally.note("" if status == 15 and is_told else f"--states: status {status}, {text.decode()}")
    check_stopped(tally, room, name)


# Words behind a scene of one look and one raise, or of waits that never end, the status, and which expectations are told as broken.
EXPECTED = [
    (LOOK, ["--expect", "flag.Seen <= 1", "flag.IsUp = True", "every stack ends", "no faults", "flag @", "always flag.Seen >= 0"], 0, set()),
    (LOOK, ["--expect", "flag.Seen = 1"], 16, {1}),
    (LOOK, ["--of", "Seen", "--expect", "flag.Seen = 1", "flag.Seen = 0", "always flag.Seen != 1"], 16, {1, 2, 3}),
    (LOOK, ["--expect", "flag @Raised", "one.Target = None"], 16, {1, 2}),
    (LOOK, ["--states", "3", "--expect", "flag.Seen <= 1"], 15, set()),
    (LOOK, ["--random", "20", "--seed", "7", "--expect", "flag.Seen = 1", "flag.Seen < 2"], 16, {1}),
    (scene(WAITERS, call("flag", "Await"), call("two", "Raise")), ["--any-start", "--of", "Seen", "--expect", "every stack ends", "no faults"], 16, {1}),
    (scene(CHESTS, call("chest", "Count", 1), call("chest", "Count", 1)), ["--any-start", "--expect", 'never "12"', 'never "13"', "always chest.Gold < 12"], 16, {1, 3}),
    (scene([("one", "Waiter", {})], call("one", "Look")), ["--of", "Target", "--expect", "no faults", "every stack ends"], 16, {1}),
]


def check_expected(tally, room):
    """What is told as broken is broken in the scene that is told with it: the same words have the same answer for that scene's own order."""
    for number, (tree, words, wanted, places) in enumerate(EXPECTED):
        status, text, notes = room.explore(room.lay(tree), *room.files, *words)
        told = {int(place) for place in re.findall(rb"^Broken: .* broken-(\d+)\.json shows it", text, re.MULTILINE)}
        is_so = (status, notes, told) == (wanted, b"", places) and all((room.folder / f"broken-{place}.json").exists() == (place in places) for place in range(1, 7))
        tally.note("" if is_so else f"expectations {number}: status {status}, {notes.decode()}{text.decode()}")
        for place in places:
            expectation = words[words.index("--expect") + place]
            if expectation == "every stack ends":
                continue
            _, text, _ = room.explore(f"broken-{place}.json", *room.files, "--states", "1", "--to", "elsewhere", "--expect", expectation)
            is_so = b"Broken in the scene's own order" in text or expectation.startswith("always")
            tally.note("" if is_so else f"expectations {number}: broken-{place}.json doesn't break {expectation}: {text.decode()}")


def hear_interrupts():
    """Lets a process end at SIGINT, whatever it was started by."""
    signal.signal(signal.SIGINT, signal.SIG_DFL)


def check_stopped(tally, room, name):
    """Ctrl-C ends random runs, and those that were made are told."""
    words = [sys.executable, str(ROOT / "tools" / "explore.py"), name, *room.files, "--random", "1000000", "--of", "Seen"]
    streams = {"stdin": subprocess.DEVNULL, "stdout": subprocess.PIPE, "stderr": subprocess.PIPE}
    for seconds in (2, 10, 40):
        # A busy machine may not have begun earlier. What a shell starts in the background is deaf to SIGINT, and so is what that starts.
        ran = subprocess.Popen(words, cwd=room.folder, env={**os.environ, "PAPYRUS_PROGRAM": str(room.program)}, preexec_fn=hear_interrupts, **streams)
        time.sleep(seconds)
        ran.send_signal(signal.SIGINT)
        text, notes = ran.communicate(timeout=100)
        if text:
            break
    is_told = b" of 1000000 runs of random orders" in text
    tally.note("" if (ran.returncode, notes) == (15, b"") and is_told else f"Ctrl-C: status {ran.returncode}, {notes.decode()}{text.decode()}")


def check_refused(tally, room):
    good = room.lay(LOOK, "good.json")
    (room.folder / "Wrong.psc").write_text("ScriptName Wrong\nFloat Property F Auto\n")
    (room.folder / "wrong.json").write_text("{")
    (room.folder / "unbound.json").write_text(json.dumps(scene([("it", "Nobody", {})])))
    for words in (("wrong.json", *room.scripts), (good, *room.scripts, "Wrong.psc"), ("unbound.json", *room.scripts), ("absent.json", *room.scripts),
                  (good, "Absent.psc"), ("wrong.json", "Wrong.psc")):
        wanted, found = room.run("run", *words), room.explore(*words)
        tally.note("" if found == wanted else f"explore {' '.join(words)}: {found} in place of {wanted}")
    for words in (("wrong.json", *room.files), ("unbound.json", *room.files), (good, "Absent.pex")):
        wanted, found = room.run("exec", *words), room.explore(*words)
        tally.note("" if found == wanted else f"explore {' '.join(words)}: {found} in place of {wanted}")
    for words in ((), (good,), (good, *room.files, "--to")):
        status, text, notes = room.explore(*words)
        tally.note("" if (status, text, notes) == (2, b"", b"papyrus: usage\n") else f"explore {' '.join(words)}: status {status}, {notes.decode()}")
    for words, wanted, line in ((("--jobs", "0"), 14, "explore: --jobs takes a number from 1 to 1024, not 0"), (("--states", "x"), 14, "explore: --states takes a number from 1 to 1000000000, not x"),
                                (("--nothing",), 14, "explore: there is no option --nothing"), (("--of", "Seen", "Sean"), 14, "explore: --of Sean: no instance of the scene has this property"),
                                (("--expect", "flag.Sean = 1"), 14, "explore: --expect flag.Sean = 1: flag has no property Sean"),
                                (("--expect", "flog @"), 14, "explore: --expect flog @: no instance of the scene is flog"),
                                (("--expect", "flag.IsUp < 1"), 14, "explore: --expect flag.IsUp < 1: < compares numbers alone"),
                                (("--expect", "flag.Seen == 1"), 14, "explore: --expect flag.Seen == 1: is no expectation, and no file that can be read"),
                                (("--of", "two.Seen"), 14, "explore: --of two.Seen: no instance of the scene has this property"), (("--to", "absent"), 4, "cannot write into absent")):
        found = room.explore(good, *room.files, *words)
        tally.note("" if found == (wanted, b"", f"papyrus: {line}\n".encode()) else f"explore {' '.join(words)}: {found}")


def check_told(tally, room):
    """What --help tells has the options of the completions and the man page, and no other."""
    status, text, notes = room.explore("--help")
    told = re.findall(r"^  (--\S+)", text.decode(), re.MULTILINE)
    options = [line.split(" | ")[1] for line in (ROOT / "tools" / "shell" / "commands.table").read_text().splitlines() if line.startswith("explore | --")]
    tally.note("" if (status, notes, told) == (0, b"", options) else f"--help: {told} in place of {options}")


def main():
    parser = argparse.ArgumentParser(description=__doc__, formatter_class=argparse.RawDescriptionHelpFormatter)
    parser.add_argument("--program", type=pathlib.Path, default=check_examples.PROGRAM)
    program = parser.parse_args().program.resolve()
    if not program.exists():
        print("the program isn't built: run ./papyrus --version first")
        return 2
    tally = check_pages.Tally()
    with tempfile.TemporaryDirectory(prefix="papyrus-explore-") as folder:
        room = Room(program, pathlib.Path(folder).resolve())
        (room.folder / "elsewhere").mkdir()
        for check in (check_known, check_parting, check_plain, check_alike, check_expected, check_refused, check_told):
            check(tally, room)
    print("\n".join([*tally.wrong, f"{tally.passed} passed, {len(tally.wrong)} failed"]))
    return 1 if tally.wrong else 0


if __name__ == "__main__":
    sys.exit(main())
