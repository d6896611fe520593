"""The bars of a picture: what the lines of a journal say, as stretches of time.

A turn is four quarters long. What stands before its `run`, and a take, is at its beginning; its act takes three quarters; and what the stack comes
to behind it begins with the last quarter.
"""
import collections
import heapq

QUARTERS, ACT = 4, 3
MOST_TURNS = 20_000
LONGEST = 10

# A stretch of time of a stack, in quarters, in which it waits or holds (an instance), is asleep (until a turn) or free. `since` is the turn of its
# line, and `until` that of the line that ends it, or None where none does. `waited` counts the turns of a wait, and of that before a hold.
Bar = collections.namedtuple("Bar", "kind stack value begin end since until waited")
Wait = collections.namedtuple("Wait", "turns since until stack instance")
# What a stack that isn't done waits for since a turn, with the stack that holds it since another one; and how many turns it had, and the last of them.
Standing = collections.namedtuple("Standing", "since holder acts last")
# The waits for an instance, all together: turns, takes, and the most stacks that waited at once.
Sums = collections.namedtuple("Sums", "waited takes most")


class Stack:
    """What is gathered of a stack."""

    def __init__(self):
        self.bars = []
        self.open = None
        self.done = None


class Recorder:
    """Gathers the bars of the first turns of a journal, and the sums of all."""

    def __init__(self, most_turns=MOST_TURNS):
        self.most = most_turns * QUARTERS
        self.stacks = []
        # For each instance when how many more came to wait, or fewer, and how many wait now.
        self.changes = []
        self.waiting = []
        self.waited, self.takes, self.crowd = [], [], []
        # The instances that more have come to wait for since the last take.
        self.fresh = set()
        # Of each turn whose it is, or None.
        self.runs = []
        self.idle = 0
        self.longest = []
        self.turns = 0
        # For each stack how many turns it had, and the last of them; and at the end of the run what it is in.
        self.acts = {}
        self.left = []

    def note(self, line):
        if line.word in ("turn", "end", "release", "leave"):
            self.see_crowds()
        if line.word in ("journal", "turn"):
            return
        if line.word == "instance":
            for one in (self.waiting, self.waited, self.takes, self.crowd):
                one.append(0)
            self.changes.append([])
        elif line.word == "end":
            self.finish(line.numbers[0])
        else:
            self.move(line, line.turn * QUARTERS + ACT * line.acted)

    def move(self, line, at):
        word, turn, stack = line.word, line.turn, line.numbers[0] if line.numbers else None
        if word in ("run", "idle"):
            self.run(stack, turn)
        elif word == "join":
            self.begin(stack, "waits", line.numbers[1], at, turn)
            self.count(line.numbers[1], at, 1)
        elif word == "take":
            self.take(stack, line.numbers[1], turn)
        elif word in ("release", "leave"):
            self.close(stack, at, turn)
        elif word == "free":
            self.begin(stack, "free", None, at, turn)
        elif word == "sleep":
            self.begin(stack, "asleep", line.numbers[1], at, turn)
        elif word == "done":
            self.stacks[stack].done = at

    def run(self, stack, turn):
        self.idle += stack is None
        if stack is not None:
            self.acts[stack] = (self.acts.get(stack, (0, 0))[0] + 1, turn)
        if len(self.runs) * QUARTERS < self.most:
            self.runs.append(stack)

    def begin(self, stack, kind, value, at, turn, waited=0):
        if stack == len(self.stacks):
            self.stacks.append(Stack())
        self.close(stack, at, turn)
        self.stacks[stack].open = (kind, value, at, turn, waited)

    def close(self, stack, at, until):
        """Ends what a stack is in, as a bar where some of it is drawn."""
        if self.stacks[stack].open is None:
            return
        kind, value, begin, since, waited = self.stacks[stack].open
        self.stacks[stack].open = None
        if kind == "waits":
            waited = (self.turns if until is None else until) - since
            self.end_wait(Wait(waited, since, until, stack, value))
        if begin < min(at, self.most):
            self.stacks[stack].bars.append(Bar(kind, stack, value, begin, min(at, self.most), since, until, waited))

    def end_wait(self, wait):
        self.waited[wait.instance] += wait.turns
        if wait.turns:
            # The first of equal ones counts as longer.
            heapq.heappush(self.longest, ((wait.turns, -wait.since, -wait.stack), wait))
        if len(self.longest) > LONGEST:
            heapq.heappop(self.longest)

    def take(self, stack, instance, turn):
        since = self.stacks[stack].open[3]
        self.begin(stack, "holds", instance, turn * QUARTERS, turn, turn - since)
        self.count(instance, turn * QUARTERS, -1)
        self.takes[instance] += 1

    def count(self, instance, at, more):
        self.waiting[instance] += more
        self.fresh.add(instance)
        if at < self.most:
            self.changes[instance].append((at, more))

    def see_crowds(self):
        for instance in self.fresh:
            self.crowd[instance] = max(self.crowd[instance], self.waiting[instance])
        self.fresh.clear()

    def finish(self, turns):
        self.turns = turns
        self.left = [one.open or ("done", None, 0, 0, 0) for one in self.stacks]
        for stack in range(len(self.stacks)):
            self.close(stack, turns * QUARTERS, None)

    def standing(self, stack):
        """How a stack stands at the end of the run."""
        _, instance, _, since, _ = self.left[stack]
        holders = [(other, one[3]) for other, one in enumerate(self.left) if one[:2] == ("holds", instance)]
        return Standing(since, holders[0] if holders else (None, 0), *self.acts.get(stack, (0, 0)))

    def is_touched(self, instance):
        """Whether a stack took an instance, or waited for it."""
        return bool(self.takes[instance] or self.waited[instance] or self.waiting[instance])

    def shown(self):
        """How many turns are drawn."""
        return min(self.turns, self.most // QUARTERS)

    def sums(self):
        return [Sums(*numbers) for numbers in zip(self.waited, self.takes, self.crowd)]

    def longest_waits(self):
        return [wait for _, wait in sorted(self.longest, reverse=True)]

    def held_by(self):
        """For each instance the bars in which it is held, in order of time."""
        found = [[] for _ in self.changes]
        for stack in self.stacks:
            for bar in stack.bars:
                if bar.kind == "holds":
                    found[bar.value].append(bar)
        return [sorted(bars, key=lambda bar: bar.begin) for bars in found]

    def crowds(self, instance):
        """How many wait for an instance, as (begin, end, number) where some do."""
        level, found = 0, []
        changes = self.changes[instance] + [(self.shown() * QUARTERS, 0)]
        for (at, more), (end, _) in zip(changes, changes[1:]):
            level += more
            if level and at < end:
                found.append((at, end, level))
        return merged(found)

    def turn_bars(self):
        """Whose the turns are, as (stack, first turn, number of turns)."""
        found = []
        for turn, stack in enumerate(self.runs):
            if found and found[-1][0] == stack:
                found[-1] = (stack, found[-1][1], found[-1][2] + 1)
            else:
                found.append((stack, turn, 1))
        return found


def merged(found):
    """These stretches, where neighbours with the same number are one."""
    whole = []
    for begin, end, level in found:
        if whole and whole[-1][1] == begin and whole[-1][2] == level:
            whole[-1] = (whole[-1][0], end, level)
        else:
            whole.append((begin, end, level))
    return whole
