#!/usr/bin/env python3
"""Follows every order of turns of a scene and tells the outcomes that it can have, each with a shortest order that shows it.

papyrus explore SCENE SCRIPT.. [OPTION ..], where compiled files (.pex) may stand in the place of scripts

  --of PROPERTY..          tells outcomes apart by these properties alone, each as `Gold` or `chest.Gold`
  --expect EXPECTATION..   tells the shortest order that breaks each of these, or of those in a file of this name, one a line: `chest.Gold = 3` or
                           `gate @Open` at the end, `always chest.Gold >= 0`, `every stack ends`, `no faults`, `never "text"` of what is traced
  --until N                follows orders of at most N turns (the scene's number of turns where it isn't given)
  --states N               stops after N states (1000000)
  --jobs N                 runs N processes side by side (one for each processor)
  --any-start              lets each call of the scene begin at any turn from its own on
  --random N               makes N runs of random orders in place of following all, and counts how often each outcome came
  --seed S                 makes them with this seed (0)
  --to FOLDER              writes the scenes outcome-1.json .. and broken-1.json .. into this folder (the current one)
  --help                   prints this

Each step of each run is made by the program's own commands, so what it shows is real. The status is 0 where all orders were followed, or all random
runs made, and no expectation is broken; 14 where an option has a value that can't be, or names nothing of the scene; 15 where orders are left that weren't
followed; 16 where an expectation is broken; and else that of the program, with its line: 2 for other words, 3 where a file can't be read, 5 to 9 for
refused files, and 4 where nothing can be written.
"""
import argparse
import os
import pathlib
import re
import shutil
import sys

sys.path.insert(0, str(pathlib.Path(__file__).resolve().parent))
from exploring.expectations import Expectations, NoExpectation
from exploring.lines import Lines
from exploring.outcomes import Findings, kept, path_to, split, values
from exploring.program import MOST_TURNS, NO_STACK, Program, Refused, compiled, first_look, folder
from exploring.randomly import RunProgress, random_runs
from exploring.search import Progress, Search, Walker
from exploring.turns import Orders

# The most lines of an outcome, and the most outcomes, that are printed whole.
MOST_LINES, MOST_OUTCOMES = 60, 20
# The statuses beside the program's own.
NAMES_NOTHING, NOT_ALL_FOLLOWED, IS_BROKEN = 14, 15, 16


def unnamed(text):
    """A refusal of a word, which it names."""
    return Refused(f"papyrus: explore: {text}\n", NAMES_NOTHING)


class Words(argparse.ArgumentParser):
    """Answers other words as the program does."""

    def error(self, message):
        raise Refused("papyrus: usage\n", 2)


class Whole(argparse.Action):
    """A whole number between bounds."""

    def __init__(self, bounds, **more):
        super().__init__(**more)
        self.bounds = bounds

    def __call__(self, parser, words, word, option):
        least, most = self.bounds
        if not (word.isascii() and word.isdigit() and least <= int(word) <= most):
            raise unnamed(f"{option} takes a number from {least} to {most}, not {word}")
        setattr(words, self.dest, int(word))


def folder_in(words):
    """Refuses a folder in which no scene can be written."""
    if not (words.to.is_dir() and os.access(words.to, os.W_OK | os.X_OK)):
        raise Refused(f"papyrus: cannot write into {words.to}\n", 4)


def words_of(line):
    parser = Words(add_help=False, allow_abbrev=False)
    parser.add_argument("scene")
    parser.add_argument("files", nargs="+")
    parser.add_argument("--of", nargs="+", action="extend", default=[], metavar="PROPERTY")
    parser.add_argument("--expect", nargs="+", action="extend", default=[], metavar="EXPECTATION")
    parser.add_argument("--until", action=Whole, bounds=(1, MOST_TURNS))
    parser.add_argument("--states", action=Whole, bounds=(1, 10 ** 9), default=10 ** 6)
    parser.add_argument("--jobs", action=Whole, bounds=(1, 1024), default=len(os.sched_getaffinity(0)))
    parser.add_argument("--any-start", action="store_true")
    parser.add_argument("--random", action=Whole, bounds=(1, 10 ** 9))
    parser.add_argument("--seed", action=Whole, bounds=(0, 10 ** 18), default=0)
    parser.add_argument("--to", type=pathlib.Path, default=pathlib.Path())
    words, rest = parser.parse_known_args(line)
    if rest:
        raise unnamed(f"there is no option {rest[0]}")
    return words


# The names of scenes that are written.
SCENE_NAME = re.compile(r"(outcome|broken)-[0-9]+\.json")


def scene_name(number, kind="outcome"):
    return f"{kind}-{number}.json"


class Teller:
    """Prints what was found, and writes the scenes of outcomes."""

    def __init__(self, orders, words, walker):
        self.orders, self.to, self.asked, self.walker = orders, words.to, words.of, walker
        self.expectations = walker.expectations.all
        self.written = set()
        # Read where it is asked for.
        self.lines = None

    def scene_of(self, path, number, kind="outcome"):
        """Writes the scene of an outcome or of a broken expectation, and gives its name."""
        name = scene_name(number, kind)
        (self.to / name).write_text(path.scene_text(len(path.order)) + "\n")
        self.written.add(name)
        return name

    def forget_others(self):
        """Removes the scenes of an earlier search."""
        for path in self.to.iterdir():
            if SCENE_NAME.fullmatch(path.name) and path.name not in self.written:
                path.unlink()

    def shown(self, path, number, kind="outcome"):
        """Which scene shows something, and by which order."""
        text = f"{self.scene_of(path, number, kind)} shows it in {count(len(path.order), 'turn')}: {order_text(path.order) or 'none'}"
        if self.orders.any_start and path.begun:
            text += "; " + ", ".join(f"call {call} begins at turn {turn}" for call, turn in sorted(path.begun.items()))
        return text

    def broken(self, place, how, path):
        """Tells an expectation that is broken, as soon as it is known."""
        print(f"Broken: {self.expectations[place].text}: {how}. {self.shown(path, place + 1, 'broken')}", flush=True)

    def own_outcome(self, report):
        """Tells how the scene's own order of turns goes."""
        print("The scene's own order of turns shows:")
        self.lines_of(kept(report, self.asked))

    def lines_of(self, lines):
        for line in lines[:MOST_LINES]:
            print("  " + line.decode(errors="backslashreplace").rstrip("\n"))
        if len(lines) > MOST_LINES:
            print(f"  .. and {len(lines) - MOST_LINES} more lines")

    def outcome(self, number, head, lines, path):
        print(f"\nOutcome {number}: {head}. {self.shown(path, number)}")
        self.lines_of(lines)

    def endless(self, findings):
        """What is told of the states in which stacks never end, and the first state, by what is told."""
        told = {}
        for state, runs, group in findings.endless():
            path = path_to(findings.graph, state, self.orders)
            report = self.walker.program.report(path.scene_text(len(path.order)))
            lines = [f"stack {stack} runs on and never ends" for stack in runs]
            for line in split(report)[1]:
                words = line.decode(errors="backslashreplace").split()
                if words[0] == "stack" and words[2] != "done" and int(words[1]) not in runs:
                    lines.append(f"stack {words[1]} waits for {words[3]} for ever" if words[2] == "waits" else f"stack {words[1]} gets no turn any more")
            old = told.get(tuple(lines))
            if old is None or findings.graph.turns[state] < findings.graph.turns[old]:
                told[tuple(lines)] = state
        return told

    def reason(self, findings, one, other, numbers):
        """Where the orders of two outcomes part, and who held what there."""
        parting = findings.parting(one, other)
        if parting is None:
            return
        paths = [path_to(findings.graph, parting.state, self.orders, order) for order in parting.orders]
        common = path_to(findings.graph, parting.state, self.orders)
        differ = list(differences(findings.lines[one], findings.lines[other]))
        print(f"\nWhy outcomes {numbers[one]} and {numbers[other]} differ{': ' + '; '.join(differ[:4]) if differ else ''}")
        print(f"  Both orders may begin with {count(len(common.order), 'turn')}: {order_text(common.order) or 'none'}")
        _, held = self.walker.state(common)
        self.held(held)
        for number, step, path in zip((one, other), parting.steps, paths):
            begun = (self.begun(step) if self.orders.any_start else "") or self.from_line(held, step.stack)
            print(f"  Then turn {len(common.order) + step.idle}{begun} is stack {step.stack}'s for outcome {numbers[number]}: {order_text(path.order)}")

    def begun(self, step):
        """Which calls begin with a step."""
        calls = [self.orders.scene.calls[call] for call in step.calls]
        names = [f"{call['instance']}.{call['function']} of call {number}" for number, call in zip(step.calls, calls)]
        return f", in which {' and '.join(names)} {'begins' if len(names) == 1 else 'begin'}," if names else ""

    def from_line(self, held, stack):
        """From where in its script a stack goes on, where that is known."""
        if stack >= held.started:
            return ""
        if self.lines is None:
            self.lines = Lines(self.walker.program, self.walker.program.files)
        bodies, enters = held.standing(stack)
        told = self.lines.told(bodies)
        return f", from {told} on," if told else f", in which it enters {enters.decode(errors='backslashreplace')}," if enters else ""

    def held(self, held):
        """Who holds what, and who waits."""
        names = self.orders.scene.names
        told = [f"stack {stack} holds {names[instance]}" for instance, stack in sorted(held.owners.items())]
        told += [f"stack {stack} waits for {names[instance]}" for instance, stack in held.waiters]
        told += [f"stack {stack} runs free" for stack in held.free]
        told += [f"stack {stack} sleeps until turn {until}" for stack, until in held.asleep]
        print(f"  Then {', '.join(told) or 'no stack holds anything'}.")


def differences(one, other):
    """The lines of properties in which two outcomes differ."""
    left = dict(named(one))
    for name, value in named(other):
        if name in left and left[name] != value:
            yield f"{name} is {left[name]} or {value}"


def named(lines):
    """The properties among the lines of an outcome, with their values."""
    plain = [line.decode(errors="backslashreplace") for line in lines]
    for text in plain:
        if " = " in text and not text.startswith((" ", "#", "!")):
            name, _, value = text.rstrip("\n").partition(" = ")
            yield name, value
    for instance, text in values([line for line in lines if not line.startswith((b"#", b"!"))]):
        if instance:
            name, _, value = text.rstrip("\n").partition(" = ")
            yield f"{instance}.{name}", value


def order_text(order):
    """An order as a reader sees it: `-` stands for an idle turn, and turns in a row are counted."""
    parts, at = [], 0
    while at < len(order):
        end = at
        while end < len(order) and order[end] == order[at]:
            end += 1
        name = "-" if order[at] == NO_STACK else str(order[at])
        parts.append(name if end - at == 1 else f"{name}x{end - at}")
        at = end
    return " ".join(parts) if len(parts) <= 40 else " ".join(parts[:40]) + " .."


def count(number, word):
    return f"{number} {word}" if number == 1 else f"{number} {word}s"


def told_whole(search, whole_search, words):
    """The answer's first line: that all orders were followed, or how many states were."""
    graph = search.graph
    if not graph.open:
        return f"All orders were followed: {count(len(graph), 'state')}, {count(len(graph.made), 'step')}."
    why = "until every expectation was broken" if search.has_nothing_to_ask() else "until it was stopped" if not whole_search else f"up to {count(words.states, 'state')} and {count(words.until, 'turn')}"
    return f"Not all orders were followed: {count(len(graph), 'state')} were met {why}, and {count(len(graph.open), 'state')} of them weren't followed."


def tell_search(search, was_whole, words, teller, own):
    findings = Findings(search.graph, words.of)
    print(told_whole(search, was_whole, words))
    outcomes = findings.outcomes()
    numbers = {}
    for place, (number, outcome) in enumerate(outcomes.items(), 1):
        numbers[number] = place
        if place <= MOST_OUTCOMES:
            head = f"{outcome.leading} of {count(len(search.graph), 'state')} lead to it"
            teller.outcome(place, head, outcome.lines, path_to(search.graph, outcome.state, teller.orders))
    place = len(outcomes)
    endless = teller.endless(findings)
    for lines, state in endless.items():
        place += 1
        if place <= MOST_OUTCOMES:
            teller.outcome(place, "not every stack ends", [line.encode() for line in lines], path_to(search.graph, state, teller.orders))
    if place > MOST_OUTCOMES:
        print(f"\n.. and {place - MOST_OUTCOMES} more outcomes; --of tells fewer apart")
    if not place and search.graph.open:
        print(f"\nNone of the orders that were followed has ended so far, and {count(len(search.graph.open), 'state')} {'waits' if len(search.graph.open) == 1 else 'wait'}. "
              "Raise --states or --until, ask for fewer things by --of, or try --random 100.")
        teller.own_outcome(own)
    elif not place:
        print("\nNo order comes to an end.")
    for one, other in list(zip(outcomes, list(outcomes)[1:]))[:MOST_OUTCOMES]:
        teller.reason(findings, one, other, numbers)
    tell_endings(search, endless, teller)


def tell_endings(search, endless, teller):
    """Tells the expectation that every stack ends, where an order was found after which not every one does, and which expectations hold."""
    for place, expectation in enumerate(teller.expectations):
        if expectation.is_of_end and endless:
            lines, state = min(endless.items(), key=lambda item: search.graph.turns[item[1]])
            search.graph.broken[place] = lines[0]
            teller.broken(place, lines[0], path_to(search.graph, state, teller.orders))
    if teller.expectations:
        held = "that hold" if not search.graph.open else "that no order breaks which was followed"
        print(f"\nExpectations {held}: {len(teller.expectations) - len(search.graph.broken)} of {len(teller.expectations)}.")


def tell_broken_runs(runs, teller):
    """Tells each expectation that random runs break, by the shortest order among them, and gives how many there are."""
    found = {}
    for run in runs:
        for place, (how, path) in run.broken.items():
            if place not in found or len(path.order) < len(found[place][1].order):
                found[place] = (how, path)
    for place, (how, path) in sorted(found.items()):
        teller.broken(place, how, path)
    return len(found)


def tell_own(report, expectations):
    """Tells which expectations the scene's own order of turns breaks, and how many."""
    lines, closing = split(report)
    is_end = all(line.split()[2] == b"done" for line in closing if line.startswith(b"stack "))
    found = expectations.broken_by_lines(lines) + (expectations.broken_by_values(report, True) if is_end else [])
    for place, how in found:
        print(f"Broken in the scene's own order of turns: {expectations.all[place].text}: {how}.", flush=True)
    return len(found)


def tell_random(runs, words, teller):
    """The outcomes of random runs, the most frequent first."""
    ended = [run for run in runs if run.report is not None]
    made = count(len(runs), "run") if len(runs) == words.random else f"{len(runs)} of {count(words.random, 'run')}"
    print(f"{made} of random orders, with the seed {words.seed}; {len(runs) - len(ended)} didn't end within {count(words.until, 'turn')}.")
    found = {}
    for run in ended:
        found.setdefault(kept(run.report, words.of), []).append(run.path)
    for place, (lines, paths) in enumerate(sorted(found.items(), key=lambda item: -len(item[1])), 1):
        if place <= MOST_OUTCOMES:
            teller.outcome(place, f"it came {count(len(paths), 'time')}", lines, min(paths, key=lambda path: len(path.order)))
    if len(found) > MOST_OUTCOMES:
        rare = len(ended) - sum(sorted(map(len, found.values()))[-MOST_OUTCOMES:])
        print(f"\n.. and {len(found) - MOST_OUTCOMES} more outcomes, which came {count(rare, 'time')} in all; --of tells fewer apart")


def named_properties(report, asked):
    """Refuses a property that no instance has, of which nothing could be told."""
    found = [(instance.lower(), text.split(" = ")[0].lower()) for instance, text in values(split(report)[1])]
    for word in asked:
        if not any(word.lower() in (name, f"{instance}.{name}") for instance, name in found):
            raise unnamed(f"--of {word}: no instance of the scene has this property")


def explore(words, program, room):
    scene = first_look(program, words.scene, room)
    files = compiled(program, words.files, room)
    look = Program(program, files, room)
    look.run(["hold", "0", words.scene, look.held, *look.files])
    start = look.report(scene.ordered([], 0))
    named_properties(start, words.of)
    expectations = expected(words, start)
    folder_in(words)
    words.until = words.until or scene.turns
    orders = Orders(scene, words.any_start)
    walker_words = (program, look.files, orders, not words.of and not words.random, expectations, room)
    walker = Walker(*walker_words)
    teller = Teller(orders, words, walker)
    try:
        own = look.run(["exec", words.scene, *look.files])
        broken = tell_own(own, expectations)
        is_all, is_broken = random_found(walker_words, words, teller) if words.random else search_found(walker_words, words, teller, own)
        teller.forget_others()
    finally:
        walker.close()
    return IS_BROKEN if is_broken or broken else 0 if is_all else NOT_ALL_FOLLOWED


def expected(words, start):
    """The expectations of the words, all of which the scene has."""
    try:
        expectations = Expectations(words.expect)
        expectations.look_up(start)
    except NoExpectation as fault:
        raise unnamed(f"--expect {fault}")
    return expectations


def random_found(walker_words, words, teller):
    """Whether all random runs were made, and whether one breaks an expectation."""
    runs = random_runs(walker_words, words, RunProgress(sys.stderr, words.random))
    broken = tell_broken_runs(runs, teller)
    tell_random(runs, words, teller)
    return len(runs) == words.random, broken > 0


def search_found(walker_words, words, teller, own):
    """Whether all orders were followed, and whether one breaks an expectation. `own` is the report of the scene's own order."""
    search = Search(walker_words, words.jobs, teller.broken)
    was_whole = search.follow(words.until, words.states, Progress(sys.stderr))
    tell_search(search, was_whole, words, teller, own)
    return not search.graph.open, bool(search.graph.broken)


def main():
    if sys.argv[1:] == ["--help"]:
        print(__doc__.rstrip())
        return 0
    room = folder()
    try:
        words = words_of(sys.argv[1:])
        status = explore(words, os.path.abspath(os.environ["PAPYRUS_PROGRAM"]), room)
        sys.stdout.flush()
        return status
    except Refused as refused:
        sys.stderr.write(refused.line)
        return refused.status
    except BrokenPipeError:
        os.dup2(os.open(os.devnull, os.O_WRONLY), sys.stdout.fileno())
        return 4
    except OSError:
        sys.stderr.write("papyrus: cannot write\n")
        return 4
    except KeyboardInterrupt:
        sys.stderr.write("papyrus: explore: stopped before anything was found\n")
        return NOT_ALL_FOLLOWED
    finally:
        shutil.rmtree(room, ignore_errors=True)


if __name__ == "__main__":
    sys.exit(main())
