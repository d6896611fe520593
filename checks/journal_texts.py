"""Journals of runs that nobody ran, with reports: each line of them is legal, or one of them isn't."""
import collections
import random

WORDS = ("journal", "instance", "turn", "end", "join", "take", "release", "free", "leave", "sleep", "done", "run", "idle", "Join", "wake", "")
NUMBERS = ("0", "1", "2", "7", "007", "-1", "+1", "", "x", "255", "256", "1023", "1024", "1000000", "1000001", "4294967295", "4294967296", "99999999999")


class Run:
    """A run in which stacks do at random what they may. Where it is told, there is a report of it after each of its turns."""

    def __init__(self, seed, told=False):
        self.random = random.Random(seed)
        self.instances = self.random.choice([1, 1, 2, 3, 5, 256])
        self.most_stacks = self.random.choice([1, 2, 4, 12, 60])
        self.turns = self.random.choice([0, 1, 5, 30, 90])
        # Where each stack is: free, done, or waits, holds or asleep with an instance or a turn.
        self.places = []
        self.queue = []
        self.names = [self.name(at) for at in range(self.instances)]
        self.lines = ["journal 1", *(f"instance {name}" for name in self.names)]
        # What was printed, as (turn, stack, text), the values of each instance, and the changes of them as (turn, stack, instance).
        self.printed, self.values, self.changes = [], [0] * self.instances, []
        # Of each instance and stack in which turns it was let go.
        self.let_go = collections.defaultdict(list)
        self.told = told
        self.reports = [self.report(0)] if told else []

    def name(self, at):
        return self.random.choice(["chest", "x" * 64, "_", "A1"]) if self.random.random() < 0.1 else f"i{at}"

    def text(self):
        for turn in range(self.turns):
            self.lines.append(f"turn {turn}")
            self.begin(turn)
            ready = [stack for stack in range(len(self.places)) if self.is_ready(stack)]
            if ready and self.random.random() < 0.9:
                self.run(self.random.choice(ready), turn)
            else:
                self.lines.append("idle")
            if self.told:
                self.reports.append(self.report(turn + 1))
        return "".join(f"{line}\n" for line in [*self.lines, f"end {self.turns}"]).encode()

    def act(self, stack, turn, instance):
        """Prints a line, and changes a value of the instance."""
        for number in range(self.random.choice([0, 0, 0, 0, 1, 1, 2])):
            self.printed.append((turn, stack, f"{self.random.choice('#!')}{stack} <b>{turn}&amp;{number}"))
        if instance is not None and self.random.random() < 0.3:
            self.values[instance] += 1
            self.changes.append((turn, stack, instance))

    def status(self, stack):
        kind, value = self.places[stack]
        kind = "ready" if self.is_ready(stack) else kind
        return f"{kind} {self.names[value]}" if kind == "waits" else f"asleep {value}" if kind == "asleep" else kind

    def report(self, turns):
        """The report of so many turns."""
        lines = [text for _, _, text in self.printed] + [f"turns {turns}"]
        for name, value in zip(self.names, self.values):
            lines += [f"{name} : S @<i>", f"  P = <b>{value}", "  Q = same"]
        return "".join(f"{line}\n" for line in lines + [f"stack {stack} {self.status(stack)}" for stack in range(len(self.places))])

    def overwrites(self):
        """The changes, as (instance, turn), by a stack that let others change the value since it last held the instance."""
        found = set()
        for turn, stack, instance in self.changes:
            before = [at for at in self.let_go[(instance, stack)] if at < turn]
            others = [at for at, other, where in self.changes if where == instance and other != stack]
            if any(before[-1] < at < turn for at in others if before):
                found.add((instance, turn))
        return found

    def begin(self, turn):
        while len(self.places) < self.most_stacks and self.random.random() < 0.4:
            self.places.append(None)
            self.join(len(self.places) - 1)
        for stack, (kind, until) in enumerate(self.places):
            if kind == "asleep" and until <= turn:
                self.random.choice([self.join, self.join, self.free])(stack)

    def is_ready(self, stack):
        kind, instance = self.places[stack]
        first = next((other for other in self.queue if self.places[other][1] == instance), None)
        return kind in ("free", "holds") or (kind == "waits" and first == stack and ("holds", instance) not in self.places)

    def join(self, stack):
        instance = self.random.randrange(min(self.instances, 5))
        self.places[stack] = ("waits", instance)
        self.queue.append(stack)
        self.lines.append(f"join {stack} {instance}")

    def free(self, stack):
        self.places[stack] = ("free", None)
        self.lines.append(f"free {stack}")

    def run(self, stack, turn):
        self.lines.append(f"run {stack}")
        kind, instance = self.places[stack]
        if kind == "waits":
            self.queue.remove(stack)
            self.places[stack] = kind, instance = "holds", instance
            self.lines.append(f"take {stack} {instance}")
        self.act(stack, turn, instance if kind == "holds" else None)
        if self.random.random() < 0.3:
            return
        self.let_go[(instance, stack)].append(turn)
        self.lines.append(f"release {stack} {instance}" if kind == "holds" else f"leave {stack}")
        choice = self.random.random()
        if choice < 0.5:
            self.join(stack)
        elif choice < 0.75:
            until = turn + 1 + self.random.choice([0, 1, 2, 5, 4294900000])
            self.places[stack] = ("asleep", until)
            self.lines.append(f"sleep {stack} {until}")
        elif choice < 0.9:
            self.free(stack)
        else:
            self.places[stack] = ("done", None)
            self.lines.append(f"done {stack}")


def spoiled(text, seed):
    """The journal with a change at random, which some rule may forbid."""
    chance = random.Random(seed)
    lines = text.decode().splitlines()
    change = (drop, repeat, swap, number, number, lead, step, step, word, append, move, move, end, wake, rest)[seed % 15]
    change(lines, chance)
    ending = "" if chance.random() < 0.02 else "\n"
    return ("\n".join(lines) + ending).encode()


def drop(lines, chance):
    del lines[chance.randrange(len(lines))]


def repeat(lines, chance):
    lines.insert(chance.randrange(len(lines) + 1), chance.choice(lines))


def swap(lines, chance):
    at = chance.randrange(len(lines))
    lines[at - 1], lines[at] = lines[at], lines[at - 1]


def number(lines, chance):
    """A word is another number, or none."""
    at = chance.randrange(len(lines))
    words = lines[at].split(" ")
    words[chance.randrange(len(words) > 1, len(words))] = chance.choice(NUMBERS)
    lines[at] = " ".join(words)


def lead(lines, chance):
    """A zero stands before a number."""
    at = chance.randrange(len(lines))
    first, blank, rest = lines[at].partition(" ")
    lines[at] = f"{first}{blank}0{rest}"


def step(lines, chance):
    """A number is one more or one less."""
    at = chance.randrange(len(lines))
    words = lines[at].split(" ")
    place = chance.randrange(len(words))
    if words[place].isdigit():
        words[place] = str(max(0, int(words[place]) + chance.choice([-1, 1])))
    lines[at] = " ".join(words)


def word(lines, chance):
    at = chance.randrange(len(lines))
    lines[at] = " ".join([chance.choice(WORDS), *lines[at].split(" ")[1:]])


def append(lines, chance):
    lines[chance.randrange(len(lines))] += chance.choice([" ", "\r", " 0", "\t", "\0"])


def move(lines, chance):
    """A line is another move of the journal."""
    moves = [line for line in lines if line.split(" ")[0] not in ("journal", "instance", "turn", "end")]
    lines[chance.randrange(len(lines))] = chance.choice(moves or lines)


def end(lines, chance):
    """The journal ends sooner, or goes on."""
    if chance.random() < 0.5:
        del lines[chance.randrange(len(lines)) :]
    else:
        lines.append(chance.choice(lines))


def wake(lines, chance):
    """Somebody who came to wait or runs free before a turn's `run` doesn't."""
    found = [at for at in range(1, len(lines)) if lines[at].split(" ")[0] in ("join", "free") and lines[at - 1].split(" ")[0] in ("turn", "join", "free")]
    del lines[chance.choice(found or [0])]


def rest(lines, chance):
    """Somebody sleeps until another turn."""
    found = [at for at, line in enumerate(lines) if line.startswith("sleep ")]
    at = chance.choice(found or [0])
    lines[at] = " ".join([*lines[at].split(" ")[:2], str(chance.randrange(40))])
