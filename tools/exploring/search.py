"""Follows every order of turns, state by state."""
import array
import collections
import contextlib
import hashlib
import multiprocessing
import shutil
import signal
import tempfile
import time

from .held import Held
from .program import MOST_TURNS, NO_STACK, Program

# What a step leads to: the sum of the state, the steps that may follow, the report where nothing is left, the turn, and which expectations are broken, and how.
Reached = collections.namedtuple("Reached", "step sum choices report turn broken")


class Path:
    """The steps from the first turn on, as a list of turns and the turns at which calls begin."""

    def __init__(self, steps, orders):
        self.order, self.begun = [], {}
        for step in steps:
            self.order += [NO_STACK] * step.idle
            self.begun.update((call, len(self.order)) for call in step.calls)
            self.order.append(step.stack)
        self.orders = orders

    def with_step(self, step):
        other = Path([], self.orders)
        other.order = self.order + [NO_STACK] * step.idle + [step.stack]
        other.begun = {**self.begun, **{call: len(other.order) - 1 for call in step.calls}}
        return other

    def scene_text(self, turns):
        """The scene of these turns; calls that haven't begun come after the last turn of all where any call may begin later."""
        starts = None
        if self.orders.any_start:
            starts = [self.begun.get(call, MOST_TURNS) for call in range(len(self.orders.earliest))]
        return self.orders.scene.ordered(self.order, turns, starts)


class Walker:
    """Makes one step of an order of turns by the program itself."""

    def __init__(self, program, files, orders, with_lines, expectations, above):
        # In the folder of the whole search, which goes with it however a process ends.
        self.room = tempfile.mkdtemp(dir=above)
        self.program = Program(program, files, self.room)
        self.orders, self.with_lines, self.expectations = orders, with_lines, expectations

    def close(self):
        shutil.rmtree(self.room, ignore_errors=True)

    def state(self, path):
        """The lines and the state after the turns of a path."""
        lines, data = self.program.hold(path.scene_text(MOST_TURNS), len(path.order))
        return lines, Held(data)

    def reached(self, path, step):
        lines, held = self.state(path)
        choices = self.orders.choices(held, path.begun)
        report = None
        if choices is None or self.expectations.always:
            report = self.program.report(path.scene_text(len(path.order)))
        broken = self.broken(lines, report, choices is None)
        return Reached(step, self.sum(held, path, lines), choices, report if choices is None else None, held.turn, broken)

    def broken(self, lines, report, is_end):
        """Which expectations are broken by the lines so far and by the values of a report, and how."""
        found = self.expectations.broken_by_lines(lines.splitlines())
        if report is not None:
            found += self.expectations.broken_by_values(report, False)
            if is_end:
                found += self.expectations.broken_by_values(report, True)
        return found

    def sum(self, held, path, lines):
        """A sum of all that the turns to come rest on, and of the lines so far where these are asked for, each stack's apart."""
        asleep = [(stack, until - held.turn) for stack, until in held.asleep]
        parts = [held.values, held.others, held.stacks, repr((sorted(held.owners.items()), held.waiters, held.free, asleep)).encode(),
                 self.orders.key(held, path.begun)]
        if self.with_lines:
            parts.append(b"".join(by_stack(lines)))
        made = hashlib.blake2b(digest_size=16)
        for part in parts:
            made.update(len(part).to_bytes(8, "big"))
            made.update(part)
        return made.digest()


def by_stack(lines):
    """The lines of a run, those of each stack together, in order of stack number."""
    return sorted(lines.splitlines(keepends=True), key=lambda line: int(line[1:line.index(b" ")]))


# The walker of this process.
walker = None


def begin(*words):
    global walker
    signal.signal(signal.SIGINT, signal.SIG_IGN)
    walker = Walker(*words)
    multiprocessing.util.Finalize(walker, walker.close, exitpriority=10)


def expanded(steps_and_choices):
    """What the steps that may follow a path lead to."""
    steps, choices = steps_and_choices
    path = Path(steps, walker.orders)
    return [walker.reached(path.with_step(step), step) for step in choices]


class Graph:
    """The states that were met, each with the step by which it was met first, and what each step leads to.

    A state is met first by a shortest order, since states are followed in the order of their turns.
    """

    def __init__(self):
        self.numbers, self.parents, self.steps, self.turns = {}, array.array("l"), [], array.array("l")
        self.seen = {}
        # Each step that was made: from, to, and which.
        self.sources, self.targets, self.made = array.array("l"), array.array("l"), []
        # The reports, and of each last state the number of its report.
        self.reports, self.report_numbers, self.ends = [], {}, {}
        # States with steps that weren't followed.
        self.open = []
        # Which expectations are broken, and how.
        self.broken = {}

    def __len__(self):
        return len(self.parents)

    def add(self, sum, parent, step, turn):
        """The number of a state, and whether it is new."""
        number = self.numbers.setdefault(sum, len(self.parents))
        step = self.seen.setdefault(step, step)
        is_new = number == len(self.parents)
        if is_new:
            self.parents.append(parent)
            self.steps.append(step)
            self.turns.append(turn)
        if parent >= 0:
            self.sources.append(parent)
            self.targets.append(number)
            self.made.append(step)
        return number, is_new

    def end(self, number, report):
        if report not in self.report_numbers:
            self.report_numbers[report] = len(self.reports)
            self.reports.append(report)
        self.ends[number] = self.report_numbers[report]

    def path(self, number):
        """The steps to a state."""
        steps = []
        while self.parents[number] >= 0:
            steps.append(self.steps[number])
            number = self.parents[number]
        return steps[::-1]


class Line:
    """A line on a terminal, which is written anew twice a second."""

    def __init__(self, stream):
        self.stream, self.began, self.told = stream if stream.isatty() else None, time.monotonic(), 0

    def write(self, text):
        now = time.monotonic()
        if self.stream and now - self.told > 0.5:
            self.told = now
            self.stream.write(f"\r{text(max(now - self.began, 0.001))} \033[K")
            self.stream.flush()

    def clear(self):
        if self.stream:
            self.stream.write("\r\033[K")


class Progress(Line):
    """Tells how far the search is."""

    def tell(self, graph, left):
        self.write(lambda seconds: f"{len(graph)} states, {left} to follow, {len(graph) / seconds:.0f} a second, {len(graph.reports)} outcomes")


class Search:
    """Follows orders of turns up to bounds, in as many processes as there are jobs. The answer doesn't rest on the number of jobs."""

    def __init__(self, walker_words, jobs, tell_broken):
        self.words, self.jobs, self.tell_broken = walker_words, jobs, tell_broken
        self.orders, self.expectations = walker_words[2], walker_words[4]
        self.graph = Graph()

    def note_broken(self, reached, steps):
        """Tells which expectations are broken for the first time, by these steps."""
        for place, how in reached.broken:
            if place not in self.graph.broken:
                self.graph.broken[place] = how
                self.tell_broken(place, how, Path(steps, self.orders))

    def has_nothing_to_ask(self):
        """Whether there are expectations, and all are broken."""
        return bool(self.expectations.all) and len(self.graph.broken) == len(self.expectations.all)

    def follow(self, most_turns, most_states, progress):
        """Whether the search came to its end, its bounds or its last answer, and wasn't stopped by Ctrl-C."""
        first = Walker(*self.words)
        try:
            reached = first.reached(Path([], self.orders), None)
        finally:
            first.close()
        graph = self.graph
        self.note_broken(reached, [])
        number, _ = graph.add(reached.sum, -1, None, 0)
        buckets = collections.defaultdict(list)
        if reached.choices is None:
            graph.end(number, reached.report)
        else:
            buckets[0].append((number, reached.choices))
        try:
            with pool(self.jobs, self.words) as run:
                while buckets and not self.has_nothing_to_ask():
                    turn = min(buckets)
                    tasks = buckets.pop(turn)
                    self.follow_all(run, self.within(tasks, most_turns), buckets, most_states, progress)
        except KeyboardInterrupt:
            progress.clear()
            return False
        finally:
            graph.open += [number for tasks in buckets.values() for number, _ in tasks]
        progress.clear()
        return True

    def within(self, tasks, most_turns):
        """The states with the steps that end within so many turns; where that leaves some out, the state stays open."""
        found = []
        for number, choices in tasks:
            turn = self.graph.turns[number]
            steps = [step for step in choices if turn + step.idle < most_turns]
            if len(steps) < len(choices):
                self.graph.open.append(number)
            if steps:
                found.append((number, steps))
        return found

    def follow_all(self, run, tasks, buckets, most_states, progress):
        """Follows all steps of these states, unless so many states were met."""
        graph = self.graph
        room = max(0, most_states - len(graph))
        done = 0
        try:
            for (number, _), found in zip(tasks, run(expanded, ((graph.path(number), choices) for number, choices in tasks[:room]))):
                if len(graph) >= most_states:
                    break
                for reached in found:
                    if any(place not in graph.broken for place, _ in reached.broken):
                        progress.clear()
                        self.note_broken(reached, [*graph.path(number), reached.step])
                    target, is_new = graph.add(reached.sum, number, reached.step, reached.turn)
                    if reached.report is not None:
                        graph.end(target, reached.report)
                    elif is_new:
                        buckets[reached.turn].append((target, reached.choices))
                done += 1
                progress.tell(graph, len(tasks) - done + sum(map(len, buckets.values())))
        finally:
            # Also where Ctrl-C comes in between: nothing may be said of how these go on.
            graph.open += [number for number, _ in tasks[done:]]


@contextlib.contextmanager
def pool(jobs, words):
    """A function that does many tasks in order, in as many processes as there are jobs."""
    if jobs == 1:
        begin_here(words)
        try:
            yield map
        finally:
            walker.close()
        return
    with multiprocessing.get_context("fork").Pool(jobs, begin, words) as processes:
        yield lambda work, tasks: processes.imap(work, tasks)
        processes.close()
        processes.join()


def begin_here(words):
    global walker
    walker = Walker(*words)
