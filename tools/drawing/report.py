"""Reads reports of a run, and tells whether they are those of a journal."""
import bisect
import collections
import re

INSTANCE = re.compile(r"([A-Za-z0-9_]+) : (.*?) @(.*)")
STATUS = re.compile(r"stack (\d+) (done|ready|waits [A-Za-z0-9_]+|asleep \d+)")

# What a stack printed, as a trace or a fault, and the turns in which it may have done so.
Printed = collections.namedtuple("Printed", "stack fault text turns")
# A change of a property: its turn, the stack whose turn it was, and the values before and behind it.
Change = collections.namedtuple("Change", "turn stack old new")
# A change of a property by a stack that others' changes came before, since it last held the instance: with the turn in which it let that go, and
# the first of their changes.
Overwrite = collections.namedtuple("Overwrite", "instance name change left other")


class NoReport(Exception):
    """A file is no report of this run."""


class Report:
    """One report: what was printed, the number of turns, and what stands behind that."""

    def __init__(self, text):
        lines = text.split("\n")
        if lines.pop() or not lines:
            raise NoReport
        end = next((at for at, line in enumerate(lines) if line[:1] not in ("#", "!")), len(lines))
        self.printed = lines[:end]
        turns = re.fullmatch(r"turns (\d{1,7})", lines[end]) if end < len(lines) else None
        if not turns:
            raise NoReport
        self.turns = int(turns[1])
        self.names, self.scripts, self.states, self.values, self.statuses = [], [], [], [], []
        for line in lines[end + 1 :]:
            self.closing(line)

    def closing(self, line):
        instance, status = INSTANCE.fullmatch(line), STATUS.fullmatch(line)
        name, sign, value = line[2:].partition(" = ")
        if line.startswith("  ") and sign and self.names and not self.statuses:
            self.values[-1][name] = value
        elif instance and not self.statuses:
            self.names.append(instance[1])
            self.scripts.append(instance[2])
            self.states.append(instance[3])
            self.values.append({})
        elif status and int(status[1]) == len(self.statuses):
            self.statuses.append(status[2])
        else:
            raise NoReport


class Reports:
    """The reports of one run after some of its turns, in their order."""

    def __init__(self, reports):
        self.all = sorted(reports, key=lambda report: report.turns)
        self.wanted = {report.turns for report in self.all}
        self.seen = {}

    def note(self, standing, turn):
        """Keeps the statuses of the stacks between two turns, where a report tells them."""
        if turn in self.wanted:
            self.seen[turn] = standing.statuses()

    def fit(self, names):
        """Whether they are reports of the run whose journal was read."""
        printed = []
        for report in self.all:
            if report.names != names or self.seen.get(report.turns) != report.statuses or report.printed[: len(printed)] != printed:
                return False
            printed = report.printed
        return len(self.wanted) == len(self.all)

    def last(self, turns):
        """The report of the whole run, if it is there."""
        return self.all[-1] if self.all and self.all[-1].turns == turns else None

    def printed(self, runs):
        """What was printed, in its order. A stack prints in its own turns alone. Behind the turns that are drawn none are known."""
        own = {}
        for turn, stack in enumerate(runs):
            own.setdefault(stack, []).append(turn)
        before, count, found = 0, 0, []
        for report in self.all:
            for line in report.printed[count:]:
                form = re.fullmatch(r"[#!](\d+) (.*)", line)
                if form:
                    stack = int(form[1])
                    turns = own.get(stack, []) if report.turns <= len(runs) else []
                    turns = turns[bisect.bisect_left(turns, before) : bisect.bisect_left(turns, report.turns)]
                    found.append(Printed(stack, line[0] == "!", form[2], turns))
            before, count = report.turns, len(report.printed)
        return found

    def values(self, instance):
        """The values of each property of an instance, as (first turn, number of turns, value) where they are known; turn -1 is before the first."""
        found = {}
        for report in self.all:
            for name, value in report.values[instance].items():
                known = found.setdefault(name, [])
                turn = report.turns - 1
                if known and known[-1][2] == value and known[-1][0] + known[-1][1] == turn and turn:
                    known[-1] = (known[-1][0], known[-1][1] + 1, value)
                else:
                    known.append((turn, 1, value))
        return found

    def changes(self, instance, runs):
        """The changes of each property of an instance in turns before and behind which its value is known."""
        values = {report.turns: report.values[instance] for report in self.all}
        found = {}
        for turns in sorted(values):
            if turns - 1 in values and turns <= len(runs):
                for name, new in values[turns].items():
                    old = values[turns - 1].get(name)
                    if old != new:
                        found.setdefault(name, []).append(Change(turns - 1, runs[turns - 1], old, new))
        return found


def overwrites(instance, changes, holds, quarters):
    """The changes of an instance's properties by a stack that held it before, and let others change them in between."""
    found = []
    for name, those in changes.items():
        for at, change in enumerate(those):
            own = [bar for bar in holds if bar.stack == change.stack]
            now = next((bar for bar in own if bar.begin <= change.turn * quarters < bar.end), None)
            before = next((bar for bar in reversed(own) if now and bar.end <= now.begin), None)
            if before:
                others = [one for one in those[:at] if one.stack != change.stack and one.turn * quarters >= before.end]
                found += [Overwrite(instance, name, change, before.until, others[0])] if others else []
    return found
